// @ts-check
// What the module answers to a recording, and what is read of it.
import {Acts} from "./acts.js";
import {readReport} from "./report.js";

export const ANSWERS = {
  YES: 0,
  NO: 1,
  BAD_ROW: 2,
  TOO_LONG: 3,
  UNREAD: 4,
  BAD_OPTIONS: 5,
  NO_ROOM: 6
};

// Whether an answer ends where the checker stops following.
/** @type {(it: Answer) => boolean} */
export const isUnfollowedEnd = ({answer, text}) => answer === ANSWERS.NO && readReport(text).rule === "Profile";

/** @type {(told: Answer) => Report | null} */
export const reportOf = ({answer, text}) => answer <= ANSWERS.NO ? readReport(text) : null;

// An answer with what is read of it.
/** @type {(told: Answer) => Answer} */
export const asRead = (told) => ({...told, list: new Acts(told.acts, told.listed), report: reportOf(told)});

// What is wrong with a row that is none, by the module's number of it.
export const ROW_FAULTS = ["FieldCount", "BadTime", "BadLine", "BadValue"];

// So many commands without an answer, or words without a command, show that a line is missing.
const FEW = 4;

// The line that alone was recorded, M or S; null where both were, or too little was said to know.
/** @type {(it: Answer) => "M" | "S" | null} */
export function onlyLine({answer, spoken}) {
  if (answer > ANSWERS.NO || spoken.M && spoken.S) return null;
  return spoken.commands >= FEW ? "M" : spoken.S >= FEW ? "S" : null;
}

// The answer in a word or two, for the window's title.
/** @type {(it: Answer) => string} */
export function answerWord(it) {
  const {answer, report, unjudged} = it;
  if (onlyLine(it)) return "one line is missing";
  if (answer === ANSWERS.YES) return "yes";
  if (answer !== ANSWERS.NO) return "no verdict";
  if (unjudged) return "not judged";
  return report.rule === "Profile" ? "not followed" : "no";
}

// Whether no act that is listed is one of a device that is followed.
/** @type {(it: Answer) => boolean} */
export function isUnfollowed(it) {
  for (let i = 0; i < it.listed; i++)
    if (it.list.device(i)) return false;
  return true;
}

// What the card and the first fault tell rests on the acts before the survey.
/** @type {(it: Answer) => Answer} */
export const asAtFirst = (it) => it.atFirst ? {...it, ...it.atFirst} : it;
