// @ts-check
// Approvals and prices whose amount isn't told (FFFF). The module counts them as 65535.
import {ASK, DEVICES, two} from "../checker/acts.js";
import {readerMessages} from "../checker/messages.js";
import {ACCOUNTS} from "../checker/report.js";

const NOT_TOLD = 0xFFFF, APPROVED = 5, OF_READERS = /^(approved|sold)/;

function isUntold(acts, i) {
  if (acts.kind(i) === ASK) return two(acts.bytes(i), 2) === NOT_TOLD;
  return readerMessages(acts.bytes(i), acts.reading(i)).some((m) => m[0] === APPROVED && two(m, 1) === NOT_TOLD);
}

// Whether an entry may be such a one, by its amount: that is a multiple of FFFF, if it is known.
const mayBeUntold = ({kind, units}) =>
    (kind === "approved" || kind === "request") && (typeof units !== "number" || units > 0 && units % NOT_TOLD === 0);

// Takes note of the entries whose amount isn't told, and of the readers that approved so.
/** @type {(acts: Acts, found: Found) => void} */
export function noteUntold(acts, found) {
  found.untold = new Set();
  for (const m of found.money) {
    if (!mayBeUntold(m)) continue;
    const i = acts.actFrom(m.first);
    m.isUntold = i >= 0 && isUntold(acts, i);
    if (m.isUntold && m.kind === "approved") found.untold.add(DEVICES[m.device]);
  }
}

// The items of the sales with such approvals.
/** @type {(it: Answer) => string[]} */
export function untoldItems({found: {money}}) {
  const isUntold = [], items = new Set();
  for (const {kind, device, type, isUntold: is} of money) {
    if (kind === "approved") isUntold[device] = is;
    if (kind === "sold" && isUntold[device]) items.add(String(type));
  }
  return [...items];
}

// Whether an account has such approvals.
/** @type {(it: Answer, name: string) => boolean} */
export const hasUntold = ({found}, name) => OF_READERS.test(name) && Boolean(found.untold?.has(ACCOUNTS[name].device));
