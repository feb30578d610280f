// @ts-check
// What is chosen, what is shown, and what works now. All scripts may read it, and it is changed here.
import {Checker} from "../checker/checker.js";

// The file that was chosen last, the recording that it holds, and the worker that has read it.
/** @type {File | null} */
export let file = null, recording = null;
/** @type {Checker | null} */
export let checker = null;
// The answer that is shown, and the one that is surveyed now: null if there is none.
/** @type {Answer | null} */
export let state = null, surveying = null;
// Whether a run works, and the number of the newest one.
export let isWorking = false, newest = 0;
// How often an answer or a failure was shown.
let times = 0;

/** @type {(given: File) => void} */
export function choose(given) {
  file = given;
  recording = null;
}

// The recording that the file holds is known: it is what was chosen.
/** @type {(rows: File) => void} */
export function hold(rows) {
  file = recording = rows;
}

/** @type {(it: Answer | null) => void} */
export function setState(it) {
  state = it;
}

/** @type {(it: Answer | null) => void} */
export function setSurveying(it) {
  surveying = it;
}

/** @type {(on: boolean) => void} */
export function setWorking(on) {
  isWorking = on;
}

// Begins a run, or ends the one that works. Answers what tells whether a newer one has begun since.
/** @type {() => () => boolean} */
export function nextRun() {
  const mine = ++newest;
  return () => mine === newest;
}

// Notes, for whoever waits for it, that something is shown.
export function noteShown() {
  document.documentElement.dataset.shown = String(++times);
}

// The worker that has the recording.
/** @type {() => Checker} */
export const readyChecker = () => checker ??= new Checker(recording);

export function endChecker() {
  checker?.end();
  checker = null;
}
