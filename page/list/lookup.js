// @ts-check
// Where a row is in the lists: its act, its entry, its fault, its gap.
import {ANSWERS} from "../checker/answers.js";

// The entry of money that an act has, or the first of them; −1 if it has none.
/** @type {(it: Answer, first: number, last: number) => number} */
export function entryAt(it, first, last) {
  const all = it.found.money;
  let low = 0, high = all.length;
  while (low < high) {
    const mid = (low + high) >> 1;
    if (all[mid].last < first)
      low = mid + 1;
    else
      high = mid;
  }
  return low < all.length && all[low].first <= last ? low : -1;
}

/** @type {(it: Answer, row: number) => number} */
export function actAtRow(it, row) {
  const acts = it.list;
  let low = 0, high = acts.count;
  while (low < high) {
    const mid = (low + high) >> 1;
    if (acts.last(mid) < row)
      low = mid + 1;
    else
      high = mid;
  }
  return low < acts.count ? low : acts.count - 1;
}

/** @type {(acts: Acts, i: number, row: number) => boolean} */
export const hasRow = (acts, i, row) => i >= 0 && Number.isInteger(row) && acts.first(i) <= row && row <= acts.last(i);

// Whether rows come after what was judged: after the row that cannot be, or after what a survey took.
/** @type {(it: Answer, rows: {first: number}) => boolean} */
export function isUnjudged(it, {first}) {
  return it.answer === ANSWERS.NO && first > (it.survey ? it.survey.judged : it.row);
}

// The fault among some rows: the row that cannot be, or another one that a survey found. Null if there is none.
/** @type {(it: Answer, rows: Rows) => {row: number, rule: string} | null} */
export function faultIn(it, {first, last}) {
  if (it.answer !== ANSWERS.NO) return null;
  if (first <= it.row && it.row <= last) return {row: it.row, rule: it.unjudged ? "unjudged" : it.report.rule};
  return it.survey ? faultBetween(it.survey, first, last) : null;
}

// The fault among some rows; null if there is none.
function faultBetween({faults}, first, last) {
  let low = 0, high = faults.length;
  while (low < high) {
    const mid = (low + high) >> 1;
    if (faults[mid].row < first)
      low = mid + 1;
    else
      high = mid;
  }
  return low < faults.length && faults[low].row <= last ? faults[low] : null;
}

// What a fault is, in a few words.
/** @type {(rule: string) => string} */
export const faultIs = (rule) =>
    ({Profile: "isn't followed", unjudged: "isn't judged"})[rule] ?? `breaks the rule ${rule}`;

// The gaps among rows: the index of the first one, and that after the last one.
/** @type {(it: Answer, from: number, to: number) => [number, number]} */
export function gapsAmong({gaps}, from, to) {
  const count = (row) => {
    let low = 0, high = gaps?.length ?? 0;
    while (low < high) {
      const mid = (low + high) >> 1;
      if (gaps[mid].row < row)
        low = mid + 1;
      else
        high = mid;
    }
    return low;
  };
  return [count(from), count(to)];
}

// The gap that a row is; undefined if it is none.
/** @type {(it: Answer, row: number) => Fault | undefined} */
export function gapAt(it, row) {
  const [from, to] = gapsAmong(it, row, row + 1);
  return from < to ? it.gaps[from] : undefined;
}
