// @ts-check
// A run: a recording is given to the module in its worker, and what that answers is shown. What is shown is of the
// newest run alone, and of the file and the options that it was made with.
import {ANSWERS} from "../checker/answers.js";
import {module, start} from "../checker/checker.js";
import {readReport} from "../checker/report.js";
import {fillClock, tellClock} from "../clock.js";
import {by} from "../elements.js";
import {figures, showSum} from "../files/evidence.js";
import {unpacked} from "../import/made.js";
import {askToImport, recordingOf} from "../import/panel.js";
import {beforeSection} from "../money/money.js";
import {openDevices} from "../money/weights.js";
import {lookAt, show, showAgain} from "../show.js";
import {shownName} from "../texts.js";

import {answerOf} from "./answer.js";
import {
  checker,
  choose,
  endChecker,
  file,
  hold,
  isWorking,
  nextRun,
  noteShown,
  readyChecker,
  recording,
  setState,
  setSurveying,
  state
} from "./now.js";
import {isFresh, options} from "./options.js";
import {failed, settle} from "./trouble.js";
import {showSetupFault} from "./way.js";
import {progress, working} from "./work.js";

// The options of the run before, to tell whether they were kept.
let lastKey = null;

// The answer for the file that was chosen, as the fields say; null where a newer run or a stop came in between.
async function answerNow(isNow) {
  if (!module) await start();
  if (!isNow()) return null;
  const given = recording ? file : await unpacked(file);
  if (!isNow()) return null;
  if (given !== file) choose(given);
  const rows = recording ?? await recordingOf(file);
  if (!isNow()) return null;
  if (!rows) {
    working(false);
    askToImport();
    return null;
  }
  hold(rows);
  await fillClock(rows);
  if (!isNow()) return null;
  const way = options(), isKept = !isFresh(way) && lastKey === way.key;
  lastKey = way.key;
  const ifNow = (then) => (it) => isNow() && then(it);
  const told = await answerOf(readyChecker(), way, ifNow(progress), ifNow(lookAt));
  if (!isNow()) return null;
  return {...told, file, key: way.key, isKept, name: shownName(file.name), when: new Date(), sum: checker.sum};
}

// Checks the file that is given, or the last one again if none is, and shows the answer. After a button the card has
// the focus.
/**
 * @param {File | null} [given]
 * @param {boolean} [isButton]
 */
export async function run(given, isButton = !given) {
  if (!given && !file) return;
  const isNow = nextRun(), begin = performance.now();
  if (given || isWorking) endChecker();
  setSurveying(null);
  if (given) choose(given);
  showSetupFault(null);
  working(true);
  if (isButton) by("work").focus();
  try {
    const told = await answerNow(isNow);
    if (!told) return;
    working(false);
    setState({...told, isKept: Boolean(given && told.isKept)});
    show(state);
    tellClock();
    state.ms.all = performance.now() - begin;
    by("figures").textContent = figures(state);
    settle(isButton, state.isOpen);
    showSum(state);
    if (state.isOpen) addCloser(state);
  } catch (fault) {
    if (isNow()) failed(fault, isButton);
  }
}

// Adds to an answer with open ranges what opens them, the sums if nothing was lost, and what their ends rest on. They
// come after the answer.
async function addCloser(it) {
  // (where the worker fails, the ranges stand without it)
  const {answer, size, offset, way: {bytes}} = it, length = answer === ANSWERS.YES ? size : offset;
  const devices = openDevices(answer === ANSWERS.YES ? it.report : readReport(it.before));
  const told = await checker.ask({closer: {options: bytes, answer, length, devices}}).catch(() => null);
  if (state !== it) return;
  if (told) showCloser(it, told);
  noteShown();
}

function showCloser(it, {replayed, rises, weights, ms}) {
  Object.assign(it, {replayed, rises, weights});
  it.ms.closer = ms;
  if (it.answer === ANSWERS.NO)
    by("before")?.replaceWith(beforeSection(it));
  else if (!isWorking)
    showAgain(it);
  by("figures").textContent = figures(it);
}
