// @ts-check
// What the sums are if nothing was lost: each acknowledgement arrived, and no device restarted unseen. The module
// replays the rows so where a range is open.
import {fact, rowsAt} from "../card/sentences.js";
import {ANSWERS} from "../checker/answers.js";
import {ACCOUNTS, readReport} from "../checker/report.js";
import {money, small} from "../texts.js";

/** @type {(it: Answer) => Record<string, Account>} */
export const plainSums = (it) => it.replayed?.answer === ANSWERS.YES ? readReport(it.replayed.text).accounts : null;

// What the two books have of an account then.
/** @type {(name: string, a: Account, d: number) => string} */
export function plainWords(name, a, d) {
  const {owner, did, worth} = ACCOUNTS[name], both = money(a.device[0], d), counted = money(a.controller[0], d);
  return `If nothing was lost, ${small(owner)} ${did} ${both}${worth ?? ""}, and the controller counted ${
      both === counted ? "the same" : counted}.`;
}

/** @type {(it: Answer, name: string, d: number) => Sentence[]} */
export function plainStory(it, name, d) {
  const plain = plainSums(it);
  return plain ? [fact(plainWords(name, plain[name], d))] : [];
}

// Where the rows have no such run, something was lost for certain: where it shows.
/** @type {(it: Answer) => Sentence[]} */
export function lossStory(it) {
  if (it.replayed?.answer !== ANSWERS.NO) return [];
  return [fact(
      "An acknowledgement was lost, or a device restarted unseen, for certain. The first message that shows it ends in ",
      rowsAt(it.replayed.row), ".")];
}
