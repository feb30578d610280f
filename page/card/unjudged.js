// @ts-check
// Which no isn't judged: the rows don't show the feature level at which a reader and the controller speak, and at a
// higher one than 1 the row may be right. crates/mdb_check/specs/Unjudged.antt says the same of the program's line.
import {ASK, REPLY} from "../checker/acts.js";
import {ANSWERS} from "../checker/answers.js";
import {layout, readerPlace, setupPlace} from "../checker/layout.js";
import {isConfigAsk, READER_CONFIG, readerMessages, READERS_BY_BLOCK, READING} from "../checker/messages.js";
import {actAtRow} from "../list/lookup.js";
import {isExtended} from "../run/options.js";
import {leftOutIn} from "../survey/text.js";

import {blockOf, bytesOf, isLeftAside, noTraffic, rowsNear, sumOf, unfollowedDevice} from "./link-story.js";

// Blocks with amounts, which may have four bytes each at a higher level: SETUP and VEND.
const WITH_AMOUNTS = [1, 3];

// The byte with which the last block of the controller begins, up to the row, or 0 if the row begins it; of a survey,
// after the fault before it. A block and its answer have at most 72 words. Where more lie between, it is that of the
// last command that is listed.
function lastBegun(it) {
  const {faultBefore = 0, list: acts} = it, isNear = (row) => row > faultBefore && row <= it.row;
  const begun = rowsNear(it).filter((r) => isNear(r.row) && r.line === "M" && r.word > 255).at(-1);
  if (begun) return begun.row === it.row ? 0 : begun.word & 255;
  for (let i = actAtRow(it, it.row); i >= 0 && acts.first(i) > faultBefore; i--)
    if (acts.kind(i) === ASK && acts.first(i) <= it.row) return acts.byte(i, 0);
  return 0;
}

// A block of the module's options; of no bytes where it isn't given.
function blockAt({bytes}, place) {
  const from = place + layout.setup.bytes;
  return bytes.subarray(from, from + bytes[place + layout.setup.count]);
}

// What an earlier recording says that a reader answered to SETUP.
const answerGiven = (way, device) => blockAt(way, setupPlace(device));

// What the rows before one report of the level of a reader: what the controller reported to it last (Y2 of SETUP
// config), and what the reader did (Z2 of an answer that begins with a config message), or an earlier recording says.
/** @type {(it: Answer, device: number) => Levels} */
export function reportedLevels(it, device) {
  const acts = it.list, found = {controller: null, reader: null}, given = answerGiven(it.way, device);
  if (given[0] === READER_CONFIG) found.reader = given[1];
  for (let i = 0; i < acts.count && acts.last(i) < it.row; i++) {
    if (acts.device(i) !== device) continue;
    const said = acts.bytes(i);
    if (acts.kind(i) === ASK && isConfigAsk(said)) found.controller = said[2];
    if (acts.kind(i) === REPLY && said[0] === READER_CONFIG && said.length > 8) found.reader = said[1];
  }
  return found;
}

const isLow = (level) => level !== null && level < 2;
/** @type {(level: number | null) => boolean} */
export const isHigh = (level) => level !== null && level > 1;

// Whether a row that breaks a rule may be right at a higher level.
/** @type {(report: Report, begun: number, level: number | null) => boolean} */
function isOfLevel({rule, blame}, begun, level) {
  const isController = blame === "controller";
  if (rule === "Cashless" || rule === "Message") return true;
  if (rule === "Answer") return !isController;
  if (rule === "Profile") return !isController && !isHigh(level);
  return ["Sum", "Mode"].includes(rule) && isController && WITH_AMOUNTS.includes(begun & 7);
}

// The number of the reader, if a no by the base profile isn't judged; 0 if it is. No no rests on the level of a reader
// that is left out.
/** @type {(it: Answer) => number} */
export function unjudgedReader(it) {
  const {answer, way: {bytes}} = it, {joined, without} = layout.options;
  if (answer !== ANSWERS.NO || !bytes[joined] || isExtended(it.way)) return 0;
  const begun = lastBegun(it), device = READERS_BY_BLOCK[begun >> 3] ?? 0;
  if (!device || bytes[without + device - 1]) return 0;
  const {controller, reader} = reportedLevels(it, device);
  return !isLow(controller) && !isLow(reader) && isOfLevel(it.report, begun, controller) ? device : 0;
}

// What isn't known of a reader, by the extended profile ----

// The level that a message of a reader's answer reports; null where none does.
const levelIn = (messages) => messages.filter(([kind]) => kind === READER_CONFIG).at(-1)?.[1] ?? null;

// The levels of the controller and of a reader that were given.
function levelsGiven(way, device) {
  const {reader} = layout, place = readerPlace(device);
  const level = way.bytes[place + reader.level] || null, config = blockAt(way, place + reader.config);
  return {controller: level ?? config[2] ?? null, reader: level ?? levelIn(readerMessages(answerGiven(way, device)))};
}

// These levels as far as they are known before a row: the last ones that the acts show, else those that were given.
/** @type {(it: Answer, device: number) => Levels} */
export function levelsKnown(it, device) {
  const acts = it.list, found = levelsGiven(it.way, device);
  for (let i = 0; i < acts.count && acts.last(i) < it.row; i++) {
    if (acts.device(i) !== device) continue;
    if (acts.kind(i) === ASK && isConfigAsk(acts.bytes(i))) found.controller = acts.byte(i, 2);
    if (acts.kind(i) === REPLY) found.reader = levelIn(readerMessages(acts.bytes(i), acts.reading(i))) ?? found.reader;
  }
  return found;
}

// In which readings a reader's answer is read where these levels are known.
/** @type {(levels: Levels) => number[]} */
export function readingsOf({controller, reader}) {
  if (isLow(controller) || isLow(reader)) return [READING.SHORT];
  return isHigh(controller) && isHigh(reader) ? [READING.LONG] : [READING.SHORT, READING.LONG];
}

// Whether an answer has a message that the extended profile doesn't follow in a reading.
/** @type {(bytes: ByteList, reading: number) => boolean} */
export const isBeyond = (bytes, reading) =>
    readerMessages(bytes, reading).some(([first]) => isLeftAside(3, first, reading === READING.LONG));

// From this level on a reader has options.
const LEVEL_OF_OPTIONS = 3;

// Whether the amounts of a command may have four bytes each, so that its sum comes later.
/** @type {(bytes: Iterable<number>) => boolean} */
const hasAmounts = ([first, second]) =>
    (first & 7) === 1 && second === 1 || (first & 7) === 3 && (second === 0 || second === 5);

// Where the extended profile doesn't follow a reader since its level (`what`) isn't known, or whether its amounts have
// four bytes (`options`): what isn't known, of which reader, and the row with its block. Else null.
/** @type {(it: Answer) => Unknown | null} */
function unknownOf(it) {
  const {answer, way, row} = it, isJoined = way.bytes[layout.options.joined] > 0;
  if (answer !== ANSWERS.NO || it.report.rule !== "Profile" || !isExtended(way) || !isJoined) return null;
  const isCommand = it.report.blame === "controller", block = blockOf(rowsNear(it), row), bytes = bytesOf(block);
  const device = unfollowedDevice(it), isSum = isCommand && hasAmounts(bytes) && bytes.at(-1) !== sumOf(bytes);
  if (device < 3 || !block.length || isCommand && !isSum) return null;
  const levels = levelsKnown(it, device), {controller, reader} = levels;
  if (!isCommand && readingsOf(levels).every((reading) => isBeyond(bytes, reading))) return null;
  const isLevel = controller === null || reader === null;
  if (!isLevel && Math.min(controller, reader) < LEVEL_OF_OPTIONS) return null;
  return {device, what: isLevel ? "level" : "options", row, isCommand, bytes, first: block[0].row, levels};
}

// Takes note of a no that isn't judged: the number of the reader (`unjudged`, 0 if it is judged), and what isn't known
// of it.
/** @type {(it: Answer) => void} */
export function takeUnjudged(it) {
  const isNo = it.answer === ANSWERS.NO && !noTraffic(it);
  it.unknown = isNo ? unknownOf(it) : null;
  it.unjudged = it.unknown?.device ?? (isNo ? unjudgedReader(it) : 0);
}

// How the stretch before a fault is taken: as of a machine that was running already, without who is left out in it.
/** @type {(whole: Answer, fault: Fault) => Way} */
export function wayBefore(whole, {number: n}) {
  const bytes = whole.way.bytes.slice(), stretch = whole.survey.stretches.find((it) => it.number === n);
  const left = stretch ? leftOutIn(stretch) : 0;
  bytes[layout.options.joined] = 1;
  for (let d = 0; d < 4; d++) bytes[layout.options.without + d] |= left >> d & 1;
  return {bytes};
}

// What is asked of a later fault of a survey: before its stretch nothing is known, but for what the acts before it
// show.
/** @type {(whole: Answer, fault: Fault) => Answer} */
export function asJoined(whole, fault) {
  const {row, rule, blame, about: {lines}} = fault, way = wayBefore(whole, fault);
  const faultBefore = whole.survey.faults[fault.number - 2].row;
  const it = {...whole, answer: ANSWERS.NO, row, faultBefore, report: {rule, blame}, lines, way};
  return {...it, unknown: unknownOf(it)};
}

// The number of the reader, if a fault of a survey isn't judged; 0 if it is.
/** @type {(whole: Answer, fault: Fault) => number} */
export function unjudgedFault(whole, fault) {
  if (fault.number === 1) return whole.unjudged;
  const it = asJoined(whole, fault);
  return it.unknown?.device ?? unjudgedReader(it);
}
