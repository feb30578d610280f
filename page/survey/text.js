// @ts-check
// The text of a survey, as values.
import {DEVICES} from "../checker/acts.js";
import {FAULT_NUMBERS} from "../checker/layout.js";
import {readReport} from "../checker/report.js";

const newStretch = ([, number, , rows]) => {
  const [first, last] = rows.split("-").map(Number);
  return {number: Number(number), first, last, lines: []};
};

const newFault = ([, row, rule, blame], index) => ({number: index + 1, row: Number(row), rule, blame});

// The counts of the last line: of all faults, and of those of each side.
function readCounts(words) {
  const counts = {};
  for (let i = 0; i < words.length; i += 2) counts[words[i]] = Number(words[i + 1]);
  return counts;
}

function readSurvey(text) {
  const stretches = [], faults = [], totals = [];
  let counts = null;
  for (const line of text.split("\n")) {
    const words = line.split(" ");
    if (words[0] === "stretch")
      stretches.push(newStretch(words));
    else if (words[0] === "fault")
      faults.push(newFault(words, faults.length));
    else if (words[0] === "total")
      totals.push(line.slice("total ".length));
    else if (words[0] === "faults")
      counts = readCounts(words);
    else if (line)
      stretches.at(-1).lines.push(line);
  }
  return {stretches, faults, counts, totals: totals.length ? readReport(totals.join("\n")) : null};
}

/** @type {(stretch: Stretch) => Report} */
export const reportOf = (stretch) => stretch.report ??= readReport(stretch.lines.join("\n"));

// What is told of the fault with an index: its row, its place, and the times of it and of the rows beside it.
function placeOfFault({faults}, i) {
  const [row, offset, time, before, after, isChoice, saleOf] =
      faults.subarray(i * FAULT_NUMBERS, (i + 1) * FAULT_NUMBERS);
  return {row, offset, time, before, after, isChoice: isChoice > 0, saleOf};
}

// A survey with the time of each fault, and with those of each stretch's first and last row.
/** @type {(told: any) => Survey} */
export function surveyOf(told) {
  const {acts: all, listed: some} = told, whole = told.text + told.last;
  const made = {...told, ...readSurvey(whole), whole, all, faultFrom: 0, stretchFrom: 0};
  made.faults.forEach((fault, i) => Object.assign(fault, placeOfFault(told, i)));
  const last = some < all ? placeOfFault(told, some) : made.faults.at(-1);
  for (const it of made.stretches) {
    const isLast = it.number > all, before = isLast ? last : made.faults[it.number - 2];
    it.from = before?.after ?? told.begin;
    it.to = isLast ? told.end : made.faults[it.number - 1].before;
  }
  made.rows = Math.max(last?.row ?? 0, made.stretches.at(-1)?.last ?? 0);
  made.judged = some < all ? made.faults.at(-1).row : made.rows;
  return made;
}

// A bit for each device that is left out in a stretch.
/** @type {(stretch: Stretch) => number} */
export function leftOutIn({lines}) {
  const names = lines.find((line) => line.startsWith("without "))?.split(" ").slice(1) ?? [];
  return names.reduce((bits, name) => bits | 1 << DEVICES.indexOf(name) - 1, 0);
}
