// @ts-check
// Whether a no may come of a recording that began late. The module is asked for that: as of a machine that was already
// running, the same recording has another answer, or the same.
import {DEVICES} from "../checker/acts.js";
import {ANSWERS, isUnfollowedEnd} from "../checker/answers.js";
import {DEVICE_RULES, readReport} from "../checker/report.js";
import {fieldBy, h} from "../elements.js";
import {actAtRow} from "../list/lookup.js";
import {asked} from "../run/asked.js";
import {BLAMES, number} from "../texts.js";

// Whether an answer is a plain no of a device's rule, or in row 1.
/** @type {(told: Answer, way: Way) => boolean} */
export function asksLate(told, way) {
  if (told.answer !== ANSWERS.NO || !way.late) return false;
  return told.row === 1 || DEVICE_RULES.includes(readReport(told.text).rule);
}

// The number of the device that the row is about: the blamed one, or the one that the controller's row speaks to.
function deviceOfRow(it) {
  const {blame} = it.report;
  if (blame !== "controller") return Math.max(0, DEVICES.indexOf(blame));
  const at = actAtRow(it, it.row);
  return at >= 0 && it.list.first(at) <= it.row && it.list.last(at) >= it.row ? it.list.device(at) : 0;
}

// Whether the recording has a start of the row's device before the row: a break, or a reset of it.
function isStartedBefore(it) {
  const device = deviceOfRow(it), isBefore = ({last}) => last < it.row;
  return it.found.breaks.some(isBefore) || it.found.resets.some((r) => r.device === device && isBefore(r));
}

// Whether the same row is impossible whether or not the machine was running already.
/** @type {(it: Answer) => boolean} */
export function isSameLate({late, row, report}) {
  if (late.answer !== ANSWERS.NO || late.row !== row) return false;
  const {rule, blame} = readReport(late.text);
  return rule === report.rule && blame === report.blame;
}

// Whether it has to be asked if the machine was running already.
/** @type {(it: Answer) => boolean} */
export function isPerhapsLate(it) {
  if (!it.late || isSameLate(it)) return false;
  return it.late.answer === ANSWERS.YES || !isStartedBefore(it);
}

// What the recording would give if the machine was already running.
function lateWords(it) {
  const {late} = it, row = number(late.row);
  if (isSameLate(it))
    return "It makes no difference whether the machine was already running: this row breaks the rule in either case.";
  if (late.answer === ANSWERS.YES)
    return late.isFollowed ?
        "Then all devices kept the protocol in the whole recording: it would be a yes." :
        "Then it would be a yes, but nothing would be followed: most likely lines M and S are exchanged.";
  if (isUnfollowedEnd(late)) return `Then the checker stops following at row ${row}. It shows no fault of anybody.`;
  if (late.answer === ANSWERS.NO) {
    const {rule, blame} = readReport(late.text);
    return `Then row ${row} would be the first that breaks a rule: the rule ${rule}, and ${BLAMES[blame]} sent it.`;
  }
  return `Then there would be no verdict: row ${row} can't be read.`;
}

function lateButton() {
  const again = () => {
    fieldBy("joined").checked = true;
    asked.run();
  };
  return h("button", {type: "button", class: "noprint", onclick: again}, "Check as already running");
}

// The same, beside what the card says.
/** @type {(it: Answer) => HTMLElement} */
export const lateAside = (it) =>
    h("p", {id: "late"},
      lateWords(it).replace(/^Then /, "If the machine was already running when the recording began, "));

// What the card says of a machine that was already running: where that would be another answer, the question comes
// first, with its button.
/** @type {(it: Answer) => HTMLElement[]} */
export function lateNotes(it) {
  if (!it.late) return [];
  if (isSameLate(it) || !isPerhapsLate(it)) return [lateAside(it)];
  const why = isStartedBefore(it) || it.row === 1 ? "" : " (No reset of this device stands before the row.)";
  const isOpen = isUnfollowedEnd(it.late) && it.late.row <= it.row;
  const then = isOpen ? "this row may be right" : "nobody is to blame for this row";
  return [h("p", {id: "late"}, `If so, ${then}. ${lateWords(it)}${why}`), h("p", {}, lateButton())];
}
