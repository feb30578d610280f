// @ts-check
// After a survey the lists go on after each fault. A fault that breaks a rule of the link is a gap: its row is in no
// act, and the list begins anew after it. One that breaks a rule of a device stands in its act.
import {Acts, noteSetups} from "../checker/acts.js";
import {ANSWERS} from "../checker/answers.js";
import {START_NUMBERS} from "../checker/layout.js";
import {DEVICE_RULES} from "../checker/report.js";
import {h} from "../elements.js";
import {isHere} from "../list/jumps.js";
import {faultLink, timeLink} from "../list/links.js";
import {faultIs, gapsAmong} from "../list/lookup.js";
import {noteUntold} from "../money/untold.js";
import {BLAMES, counted, number} from "../texts.js";

import {leftOutIn} from "./text.js";

const breaksLink = ({rule}) => !DEVICE_RULES.includes(rule);

// The faults as the worker takes them to list the acts anew (`relist.js`).
function faultStarts({faults, stretches}) {
  const numbers = new Float64Array(faults.length * START_NUMBERS);
  let k = stretches.length - 1, without = 0;
  for (let i = faults.length - 1; i >= 0; i--) {
    for (; k >= 0 && stretches[k].number > faults[i].number; k--) without = leftOutIn(stretches[k]);
    const {row, offset} = faults[i];
    numbers.set([row, offset, breaksLink(faults[i]) ? 1 : 0, without], i * START_NUMBERS);
  }
  return numbers;
}

// What is asked of the worker after a survey: the acts and news up to where the survey ends, or up to the last fault
// that it lists.
/** @type {(it: Answer, made: Survey) => {options: Uint8Array, numbers: Float64Array, end: number}} */
export function askedAgain(it, made) {
  const isAll = made.listed === made.all, end = made.answer < ANSWERS.BAD_ROW ? it.size : made.offset;
  return {options: it.way.bytes, numbers: faultStarts(made), end: isAll ? end : -1};
}

// Takes the acts and news of all stretches. What the card tells of the first fault stays with those before it.
/** @type {(it: Answer, made: Survey, lists: any) => void} */
export function takeRelisted(it, made, {acts, found, cuts, all, listed, hole, orders, ms}) {
  const {list, link} = it, isWhole = made.listed === made.all;
  it.atFirst = {
    list,
    link,
    found: it.found,
    hole: it.hole,
    listed: it.listed,
    all: it.all,
    orders: it.orders,
    cuts: undefined,
    gaps: undefined,
    statement: null,
    openMoney: null
  };
  Object.assign(it, {
    survey: made,
    gaps: made.faults.filter(breaksLink),
    acts,
    found,
    cuts,
    all,
    listed,
    hole,
    orders,
    list: new Acts(acts, listed, cuts),
    link: {answer: isWhole ? ANSWERS.YES : ANSWERS.NO, row: made.judged},
    statement: null,
    openMoney: null,
    lostSpans: undefined,
    quiet: null,
    hits: null,
    search: {},
    places: []
  });
  it.ms.relist = ms;
  noteSetups(it.list, it.way.given, it.hole, it.found);
  noteUntold(it.list, it.found);
}

// The gaps between two acts of the list, as one line of it.
/** @type {(it: Answer, from: number, to: number) => HTMLElement[]} */
export function gapRow(it, from, to) {
  const [begin, end] = gapsAmong(it, from, to), count = end - begin;
  if (!count) return [];
  const first = it.gaps[begin], last = it.gaps[end - 1], isOne = count === 1, here = isHere(it, first.row, last.row);
  const rows = isOne ? String(first.row) : `${first.row}–${last.row}`;
  const words = isOne ? `Gap: row ${number(first.row)} ${faultIs(first.rule)}, sent by ${BLAMES[first.blame]}. ` :
                        `${number(count)} gaps, the first in row ${number(first.row)}. `;
  return [h(
      "tr", {
        role: "row",
        id: `row-${first.row}`,
        class: here ? "gap here" : "gap",
        "data-gap": first.number,
        "aria-current": here ? "true" : undefined
      },
      h("td", {role: "cell", class: "number"}, Number.isNaN(first.time) ? "" : timeLink(first.time)),
      h("td", {role: "cell", class: "rows"}, rows),
      h("td", {role: "cell", class: "said", colspan: 4}, h("strong", {}, words), "Words may be missing here. ",
        faultLink(first, `fault ${number(first.number)}`)))];
}

// What a gap may hide.
/** @type {(it: Answer) => HTMLElement | null} */
export function gapWords({gaps}) {
  if (!gaps?.length) return null;
  return h(
      "p", {id: "gaps"}, h("strong", {}, `${counted(gaps.length, "gap")}: `),
      "a gap may hide a report, an acknowledgement or the outcome of a sale. The list begins anew after each.");
}

// From when to when nothing was read: at the gaps, and after what was listed.
/** @type {(it: Answer) => number[][]} */
export function unreadSpans(it) {
  const known = (at, other) => Number.isNaN(at) ? other : at;
  const spans = (it.gaps ?? []).map(({time, before, after}) => [known(before, time), known(after, time)]);
  if (!it.survey && it.link.answer !== ANSWERS.YES && it.list.count)
    spans.push([it.list.end(it.list.count - 1), it.until]);
  if (it.survey && it.survey.listed < it.survey.all) spans.push([it.survey.faults.at(-1).time, it.survey.end]);
  return spans.filter(([from, to]) => to > from);
}

// What is hatched on the time line, in words.
/** @type {(it: Answer) => HTMLElement | null} */
export function hatchWords(it) {
  const words = [];
  if (!it.survey && it.link.answer !== ANSWERS.YES)
    words.push(`What comes after row ${number(it.link.row)} wasn't read: it is hatched.`);
  if (it.gaps?.length) words.push("The gaps are hatched.");
  if (it.survey && it.survey.listed < it.survey.all)
    words.push(`After row ${number(it.survey.judged)} nothing was listed.`);
  return words.length ? h("p", {id: "line-unread", class: "soft"}, words.join(" ")) : null;
}
