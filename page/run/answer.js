// @ts-check
// What the module answers to a recording, asked once more where it may have begun late.
import {asksLate} from "../card/late.js";
import {Checker, module, start} from "../checker/checker.js";
import {shownName} from "../texts.js";

// What the module answers to a recording that is taken in a way. A no that a late beginning may explain is asked a
// second time, as of a machine that was running already. `look` looks at what is listed before the answer is there.
/**
 * @param {Checker} checker
 * @param {Way} way
 * @param {(it: Progress) => void} [progress]
 * @param {(it: Answer) => void} [look]
 * @returns {Promise<Answer>}
 */
export async function answerOf(checker, way, progress, look) {
  const told = await checker.ask({options: way.bytes}, progress, (it) => look?.(Object.assign(it, {way})));
  const late = asksLate(told, way) ? await checker.ask({late: way.late.bytes, isDevice: told.row > 1}, progress) : null;
  return {...told, late, way};
}

// Checks a recording in a worker of its own. Nothing that is shown changes.
/**
 * @param {File} recording
 * @param {Way} way
 * @param {(it: Progress) => void} [progress]
 * @returns {Promise<Answer>}
 */
export async function check(recording, way, progress) {
  if (!module) await start();
  const mine = new Checker(recording);
  try {
    return {...await answerOf(mine, way, progress), file: recording, name: shownName(recording.name)};
  } finally {
    mine.end();
  }
}
