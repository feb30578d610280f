// @ts-check
// Sales of a reader that aren't followed: after a fault Profile in one of its commands, up to its next VEND REQUEST.
import {rowsAt, theDevice} from "../card/sentences.js";
import {DEVICES} from "../checker/acts.js";
import {ACCOUNTS} from "../checker/report.js";
import {capital, money} from "../texts.js";

// The faults after which a reader's sale isn't followed, each with its row and the reader.
/** @type {(it: Answer) => {row: number, device: number}[]} */
export const lostSales = ({survey}) =>
    (survey?.faults ?? [])
        .filter(({saleOf, rule, blame}) => saleOf && rule === "Profile" && blame === "controller")
        .map(({row, saleOf}) => ({row, device: saleOf}));

// The same with the row of the VEND REQUEST that ends each.
function spansOf(it) {
  it.lostSpans ??= lostSales(it).map(({row, device}) => {
    const next = it.found.money.find((m) => m.kind === "request" && m.device === device && m.first > row);
    return {row, device, to: next?.first ?? Infinity};
  });
  return it.lostSpans;
}

// Whether an entry of money is of such a sale.
/** @type {(it: Answer, m: Entry) => boolean} */
export const isLost = (it, m) =>
    m.device > 2 && spansOf(it).some(({row, device, to}) => device === m.device && row < m.first && m.first < to);

// What readers approved in such sales, in words.
/** @type {(it: Answer) => any[]} */
export const lostWords = (it) =>
    it.found.money.filter((m) => m.kind === "approved" && isLost(it, m))
        .slice(0, 3)
        .flatMap(({device, units, decimals, isUntold, first, last}) => {
          const amount = units === null || isUntold ? "an amount that isn't known" : money(units, decimals);
          return [`${capital(theDevice(device))} approved ${amount} in it (`, rowsAt(first, last), "). "];
        });

// The row from which on an account isn't known in some rows, because of such a sale; 0 if it is known.
/** @type {(it: Answer, name: string, rows?: Rows) => number} */
export function lostRow(it, name, {first, last} = {
  first: 1,
  last: Infinity
}) {
  if (!/^(approved|sold)/.test(name)) return 0;
  const found = it.found.money.find(
      (m) => DEVICES[m.device] === ACCOUNTS[name].device && name.startsWith(m.kind) && first <= m.first &&
          m.first <= last && isLost(it, m));
  return found ? spansOf(it).find(({device, to}) => device === found.device && found.first < to).row : 0;
}
