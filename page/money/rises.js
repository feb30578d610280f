// @ts-check
// What leaves money open: the acts with which the least and the greatest of a sum rose differently, as the module says
// of each row, with what they told.
import {fact, inRows, nextStep, rowsAt, SHORT_NAMES} from "../card/sentences.js";
import {DEVICES} from "../checker/acts.js";
import {layout} from "../checker/layout.js";
import {ACCOUNTS} from "../checker/report.js";
import {capital, counted, listed, money, the} from "../texts.js";

import {rangeWords, widthOf} from "./ranges.js";
import {plainStory} from "./replayed.js";
import {isEasilyOpen, lossesWords} from "./weights.js";

const ACCOUNT_NAMES = Object.keys(ACCOUNTS), RISE_SIDES = ["device", "controller"];
// The kinds of entries that are of an account.
const OF_ACCOUNT = {
  "coins-in": ["tube", "cash box"],
  "bills-in": ["stacked", "recycled"],
  "paid-out": ["by hand", "ordered"],
  approved: ["approved"],
  sold: ["sold"],
  "approved-2": ["approved"],
  "sold-2": ["sold"]
};
const SORTS = {
  tube: "coin",
  "cash box": "coin",
  stacked: "bill",
  recycled: "bill",
  "by hand": "payout",
  ordered: "order",
  approved: "approval",
  sold: "sale"
};
// So many acts that leave an account open are told.
const TOLD_ACTS = 3;

/** @type {Record<string, string>} */
export const COUNT_NEXT = {
  "coins-in": "Count the tubes and the cash box.",
  "bills-in": "Count the bills in the stacker.",
  "paid-out": "Count the tubes.",
};
// Bills may have gone to a recycler too.
const RECYCLER_NEXT = "Count the bills in the stacker and in the recycler.";
export const SALE_NEXT = "Ask the card company what it booked at that time.";

// Whether an entry of money is of an account.
/** @type {(name: string, m: Entry) => boolean} */
export const isOf = (name, m) => DEVICES[m.device] === ACCOUNTS[name].device && OF_ACCOUNT[name].includes(m.kind);

// What an entry of money was, in words.
/** @type {(m: Entry) => string} */
export function entryWords(m) {
  const amount = m.isUntold ? "an amount that isn't told" :
      m.units === null      ? "without a known value" :
                              money(m.units, m.decimals);
  switch (m.kind) {
    case "sold":
      return `the sale of ${m.type}`;
    case "approved":
      return `the approval of ${amount}`;
    case "ordered":
      return `the order to pay out ${amount}`;
    case "by hand":
      return `the payout of ${amount} by hand`;
    case "escrow":
      return `a bill of ${amount} in escrow`;
    case "returned":
      return `the return of a bill of ${amount}`;
    default:
      return `a ${SORTS[m.kind]} of ${amount}`;
  }
}

const isSame = (a, b) => a.kind === b.kind && a.type === b.type && a.units === b.units && a.count === b.count;

// The rises that the module listed, as values.
function readRises(buffer) {
  const view = new DataView(buffer), at = layout.rise, made = [];
  for (let from = 0; from < buffer.byteLength; from += at.size)
    made.push({
      row: Number(view.getBigUint64(from + at.row, true)),
      opened: view.getBigInt64(from + at.greatest, true) - view.getBigInt64(from + at.least, true),
      account: ACCOUNT_NAMES[view.getUint8(from + at.account)],
      side: RISE_SIDES[view.getUint8(from + at.side)]
    });
  return made;
}

function risesOf(it, name) {
  if (!it.rises) return [];
  it.risen ??= readRises(it.rises.listed);
  return it.risen.filter(({account}) => account === name);
}

// The entries of an account that may be in its sums, by acts: those of an act have the same rows.
function actsOf(it, name) {
  const acts = [];
  for (const m of it.found.money) {
    if (!isOf(name, m) || m.units === 0 || (m.units === null && !m.noAmount)) continue;
    if (acts.at(-1)?.[0].last === m.last)
      acts.at(-1).push(m);
    else
      acts.push([m]);
  }
  return acts;
}

// The acts that leave an account open, each once: with the rise, the act of money up to its row, and the last one
// before it of the same sort. A report and its acknowledgement are one.
function openings(it, name) {
  const rises = risesOf(it, name), acts = rises.length ? actsOf(it, name) : [], made = [], latest = {};
  let next = 0, here = null, before = null;
  for (const rise of rises) {
    while (next < acts.length && acts[next][0].last <= rise.row) {
      here = acts[next++];
      before = latest[SORTS[here[0].kind]] ?? null;
      latest[SORTS[here[0].kind]] = here;
    }
    const last = made.at(-1), isTold = last && last.here === here && rise.row <= last.rise.row + 1;
    if (rise.opened > 0n && here && !isTold) made.push({rise, here, before});
  }
  return made;
}

// Whether the acts that are told leave open just what is open: nothing was settled later, and all are listed.
function isAllOf(it, name, a) {
  const sum = (side) =>
      risesOf(it, name).filter((r) => r.side === side && r.opened > 0n).reduce((n, r) => n + r.opened, 0n);
  return RISE_SIDES.every((side) => sum(side) === widthOf(a[side]));
}

// An account of which a bound is open: how much, and which acts leave it open.
/** @type {(it: Answer, name: string, a: Account, d: number) => Sentence[]} */
export function openStory(it, name, a, d) {
  const width = [a.device, a.controller, a.difference].map(widthOf).reduce((x, y) => x > y ? x : y);
  const all = openings(it, name), isAll = isAllOf(it, name, a), told = [];
  const words = all.slice(0, TOLD_ACTS).map((one) => openingWords(it, one));
  if (isAll && all.length === 1)
    told.push(fact(`${money(width, d)} isn't certain: `, ...words[0]), fact(bookWords(name, a, d)));
  else {
    told.push(fact(`Up to ${money(width, d)} isn't certain. `, bookWords(name, a, d)));
    words.forEach(([first, ...rest], i) => {
      told.push(isAll || i ? fact(capital(first), ...rest) : fact("At least this leaves it open: ", first, ...rest));
    });
    if (all.length > TOLD_ACTS) told.push(fact(...moreWords(all.slice(TOLD_ACTS))));
  }
  for (const rise of risesOf(it, name).filter(({opened}) => opened < 0n).slice(0, TOLD_ACTS))
    told.push(fact(`${money(-rise.opened, d)} of it was settled by `, rowsAt(rise.row), "."));
  told.push(...plainStory(it, name, d), ...lossesWords(it, name, a, d).map((words) => fact(words)));
  return isEasilyOpen(it, name, a) ? [...told, nextStep(countNext(it, name))] : told;
}

/** @type {(it: Answer, name: string) => string} */
function countNext({found}, name) {
  const isRecycled = name === "bills-in" && found.money.some(({kind}) => kind === "recycled");
  return isRecycled ? RECYCLER_NEXT : COUNT_NEXT[name] ?? SALE_NEXT;
}

// Further acts: how many, and where the next ones stand.
function moreWords(all) {
  const MOST_ROWS = 8, rows = all.slice(0, MOST_ROWS).map(({here: [m]}) => rowsAt(m.first, m.last));
  const its = rows.flatMap((one, i) => i ? [", ", one] : [one]);
  return [
    `${counted(all.length, "more act")} ${all.length === 1 ? "leaves" : "leave"} it open too${
        all.length > MOST_ROWS ? ", the next" : ""} in `,
    ...its, "."
  ];
}

// What an act leaves open: whether it repeats the one before, or one before the recording began; whether what was
// answered by a reset was booked.
function openingWords(it, {rise, here, before}) {
  const [m] = here, rows = rowsAt(m.first, m.last), again = before ? alike(here, before) : [];
  if (m.last < rise.row) return answeredWords(it, m, rise.row);
  if (again.length) return againWords(again, rowsAt(before[0].first, before[0].last), rows);
  if (!before && it.way.bytes[0]) return earlierWords(here);
  return [
    `whether ${listed(here.map(entryWords))}`, ...inRows(rows), ` ${here.length > 1 ? "are" : "is"} new isn't certain.`
  ];
}

// The entries that an act begins with, as the one before did.
function alike(here, before) {
  const end = here.findIndex((m, i) => i >= before.length || !isSame(m, before[i]));
  return end < 0 ? here : here.slice(0, end);
}

function againWords(again, one, two) {
  const [{kind}] = again, isOrder = kind === "ordered" || kind === "sold", isOne = again.length === 1;
  return [
    `${listed(again.map(entryWords))} ${isOne ? "was" : "were"} ${isOrder ? "sent" : "reported"} in `, one,
    " and again in ", two, isOne ? `. It was one ${SORTS[kind]} or two.` : ". They count once or twice."
  ];
}

// The machine was already running: the first report may repeat one from before.
function earlierWords(here) {
  const [m] = here, isOne = here.length === 1;
  return [
    listed(here.map(entryWords)), ...inRows(rowsAt(m.first, m.last)),
    ` ${isOne ? "is" : "are"} the first in the recording, and may have been counted before it began.`
  ];
}

// An entry that a later row leaves open: that of a reset, or another answer.
function answeredWords(it, m, row) {
  const reset = it.found.resets.find((r) => r.device === m.device && r.kind === "reset told" && r.last === row);
  if (!reset)
    return [
      `${entryWords(m)}`, ...inRows(rowsAt(m.first, m.last)), " was answered in ", rowsAt(row),
      ". Whether it was counted isn't certain."
    ];
  return [
    `${the(SHORT_NAMES[m.device])} answered ${entryWords(m)}`, ...inRows(rowsAt(m.first, m.last)),
    " with the report that it was reset", ...inRows(rowsAt(reset.first, reset.last)),
    ". Whether it had booked it by then isn't certain."
  ];
}

function bookWords(name, a, d) {
  const {owner, did} = ACCOUNTS[name];
  return `${owner} ${did} ${rangeWords(a.device, d)}; the controller counted ${rangeWords(a.controller, d)}.`;
}
