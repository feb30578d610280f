// @ts-check
// The story of a row that breaks a rule of the link, or at which the checker stops following: from the rows of the file
// about it, since no act is read from there on.
import {ASK, DEVICE_NAMES, DEVICES, REPLY, two} from "../checker/acts.js";
import {ANSWERS} from "../checker/answers.js";
import {ENABLE_OPTIONS, OPTIONS_END, readerMessages} from "../checker/messages.js";
import {commandName, optionWords} from "../list/words.js";
import {isExtended} from "../run/options.js";
import {capital, counted, hex, money, shown, the} from "../texts.js";
import {seconds} from "../times.js";

import {actRows, fact, inRows, likely, nextStep, rowsAt, SHORT_NAMES} from "./sentences.js";

const LINK_NEXT = {
  Order: "Check the file first: the unit of its times, the order of its rows, the recorder's clock.",
  Early: "Check the recorder first: the unit of its times, and where it takes them.",
  Late: "Check the recorder first: whether it takes the time at the start of a word on both lines.",
  Spacing: "Check the recorder first: the unit of its times, and whether it lost a word.",
  Break: "Check the power supply, the plugs and the controller's start first.",
  Speaker: "Check the recorder first: whether it lost a word, and which line is which.",
  Mode: "Check the recorder's ninth bit first.",
  Answer: "Check whether the recorder lost a word, and whether two devices have the same address.",
  Same: "Send the maker of the device this recording, if the recorder is right.",
  Sum: "Check the cable, its ground and the recorder first. See how often it happens in a day.",
  Length: "Check whether the recorder lost a word. Then ask which version of the standard the device follows.",
  Message: "Ask the maker of the device which version of the standard it follows.",
};
const LINK_LIMITS = {
  Late: "An answer starts at most 6.296 ms after the word before it.",
  Spacing: "Words of one block start at most 2.296 ms apart.",
  Break: "A break lasts at least 0.1 s.",
};

// What a rule is broken by, in a few words.
/** @type {Record<string, (who?: string) => string>} */
export const RULE_HEADS = {
  Order: () => "The times go back",
  Early: () => "Two messages too close together",
  Late: (who) => who === "the controller" ? "Late acknowledgement of the controller" : `Late answer of ${who}`,
  Spacing: (who) => `A gap inside a message of ${who}`,
  Break: () => "The break is too short",
  Speaker: (who) => `${capital(who)} spoke out of turn`,
  Mode: () => "A wrong mode bit (the ninth bit) of the controller",
  Answer: (who) => `Wrong answer of ${who}`,
  Same: (who) => `${capital(who)} didn't repeat the same answer`,
  Sum: (who) => `Damaged message of ${who}: its sum is wrong`,
  Length: (who) => `A message of ${who} has a wrong length`,
  Message: (who) => `A message of ${who} can't be read`,
  Changer: (who) => `Out of order: a message of ${who}`,
  Bill: (who) => `Out of order: a message of ${who}`,
  Cashless: (who) => `Out of order: a message of ${who}`,
};

// The rows of the file about the one that cannot be, as far as they are rows.
/** @type {(it: Answer) => Near[]} */
export function rowsNear(it) {
  return it.lines.map((l) => ({row: l.row, fields: shown(l).split(",")}))
      .filter(({fields}) => fields.length === 3 && /^\d+$/.test(fields[0]) && /^[MSB]$/.test(fields[1]))
      .map(
          ({row, fields: [at, line, value]}) =>
              ({row, at: Number(at), line, value, word: line === "B" ? NaN : parseInt(value, 16)}));
}

// The block that a row belongs to, as far as its rows are at hand: back to the first of its words.
/** @type {(near: Near[], row: number) => Near[]} */
export function blockOf(near, row) {
  const end = near.findIndex((r) => r.row === row);
  if (end < 0) return [];
  let from = end;
  const isFirst = (i) => near[i].line === "M" ? near[i].word > 255 : near[i - 1]?.line !== "S";
  while (from > 0 && near[from - 1].line === near[end].line && !isFirst(from)) from--;
  const isWhole = near[from].line === "M" ? near[from].word > 255 : from > 0;
  return isWhole ? near.slice(from, end + 1) : [];
}

// The whole block that a row is in: on to the last word that follows in time and isn't marked as a first one.
function wholeBlock(near, row) {
  const at = near.findIndex((r) => r.row === row), block = blockOf(near, row);
  for (let i = at + 1; block.length && i < near.length; i++) {
    const {line, at: time} = block.at(-1), next = near[i];
    if (next.line !== line || next.at - time > BLOCK_GAP || line === "M" && isMarked(next)) break;
    block.push(next);
  }
  return block;
}

// Words of a block start at most so many microseconds apart.
const BLOCK_GAP = 2296;
/** @type {(bytes: number[]) => number} */
export const sumOf = (bytes) => bytes.slice(0, -1).reduce((a, b) => a + b, 0) & 255;

// Whether a row that isn't followed is of a command whose sum is wrong: a damaged one, whatever it says. A block that
// the file cuts off may be intact.
/** @type {(it: Answer) => boolean} */
export function isDamaged(it) {
  const {rule, blame} = it.report, near = rowsNear(it), block = wholeBlock(near, it.row);
  if (rule !== "Profile" || blame !== "controller" || !block.length || block.at(-1) === near.at(-1)) return false;
  const bytes = bytesOf(block);
  return bytes.length < 2 || bytes.at(-1) !== sumOf(bytes);
}

// Whether one flipped bit explains a sum that is wrong.
function isOneBit(bytes) {
  const lack = bytes.at(-1) - sumOf(bytes), isBit = (n) => n > 0 && (n & n - 1) === 0;
  return bytes.some((byte, i) => isBit(byte ^ (i < bytes.length - 1 ? byte + lack : byte - lack) & 255));
}

function damagedStory(it) {
  const block = wholeBlock(rowsNear(it), it.row), bytes = bytesOf(block), from = rowsAt(block[0].row, block.at(-1).row);
  const told = bytes.length < 2 ?
      fact("The controller sent a single word", ...inRows(from), ". Each command has a sum after it.") :
      fact(
          `The bytes of the controller's command, ${bytes.map(hex).join(" ")}`, ...inRows(from),
          `, don't have the right sum: the last one should be ${hex(sumOf(bytes))}.`);
  return [
    told, isOneBit(bytes) ? likely("Most likely one bit was wrong, on the line or in the recorder.") : null,
    nextStep(LINK_NEXT.Sum)
  ].filter(Boolean);
}

// Blocks ----

// The blocks of the rows that are at hand, whatever their times, without the first and the last one: these may be cut.
function blocksNear(near) {
  const blocks = [];
  for (const r of near.filter(({line}) => line !== "B")) {
    const block = blocks.at(-1), last = block?.at(-1);
    const isNext = last && last.line === r.line && !isMarked(r.line === "M" ? r : last);
    if (isNext)
      block.push(r);
    else
      blocks.push([r]);
  }
  return blocks.slice(1, -1);
}

// Whether a block can be intact: ACK, NAK or RET, or bytes with their sum, of which the right one is marked. A command
// begins with the address of a device.
function isIntact(block) {
  const bytes = bytesOf(block), isFirst = block[0].line === "M", marks = block.map(isMarked);
  if (block.length === 1) return (isFirst ? [0, 0xAA, 0xFF] : [0x100, 0x1FF]).includes(block[0].word);
  const mark = isFirst ? 0 : block.length - 1;
  return marks.every((is, i) => is === (i === mark)) && bytes.at(-1) === sumOf(bytes) &&
      !(isFirst && bytes[0] < FIRST_ADDRESS);
}

// Addresses below it are the controller's own.
const FIRST_ADDRESS = 8;
const LEAST_BLOCKS = 8;

const badBlocks = (near) => {
  const blocks = blocksNear(near);
  return {bad: blocks.filter((block) => !isIntact(block)).length, all: blocks.length};
};
const isMostlyBad = ({bad, all}) => all >= LEAST_BLOCKS && 2 * bad >= all;

// How many of the blocks about a row can't be intact, where that are so many that this is no traffic of a bus,
// whichever line is which; or null. Times in another unit, and words without their ninth bit, are told as such.
/** @type {(it: Answer) => {bad: number, all: number} | null} */
export function noTraffic(it) {
  const near = rowsNear(it), here = near.find((r) => r.row === it.row), counts = badBlocks(near);
  if (!here || !isMostlyBad(counts) || unitWords(it, here) || !near.some(isMarked)) return null;
  const other = {M: "S", S: "M", B: "B"};
  return isMostlyBad(badBlocks(near.map((r) => ({...r, line: other[r.line]})))) ? counts : null;
}

export const NO_TRAFFIC = "This isn't MDB traffic: check baud rate, polarity and lines";

/** @type {(block: Near[]) => number[]} */
export const bytesOf = (block) => block.map((r) => r.word & 255);
const isMarked = (r) => r.word > 255;

// The last command that was said whole before the row: the act, or -1.
function lastAsk(it) {
  const acts = it.list;
  for (let i = acts.count - 1; i >= 0 && i > acts.count - 20; i--)
    if (acts.kind(i) === ASK) return i;
  return -1;
}

// The command that was asked last, in words, with its rows.
function askedWords(it, i) {
  const acts = it.list;
  return i < 0 ? ["a command"] : [commandName(acts.bytes(i)), ...inRows(actRows(acts, i))];
}

/** @type {(blame: string) => string} */
export const senderOf = (blame) => blame === "controller" ? "the controller" :
    blame === "other"                                     ? "the device" :
                                                            the(SHORT_NAMES[DEVICES.indexOf(blame)]);

/** @type {(it: Answer) => Sentence[]} */
export function linkStory(it) {
  const {rule, blame} = it.report, near = rowsNear(it), here = near.find((r) => r.row === it.row);
  const before = near.find((r) => r.row === it.row - 1), told = here ? linkFacts(it, near, here, before) : [];
  if (LINK_LIMITS[rule]) told.push(fact(LINK_LIMITS[rule]));
  told.push(...linkCauses(it, here));
  if (blame !== "other")
    told.push(nextStep(LINK_NEXT[rule]));
  else
    told.push(nextStep("Check first which line is which, and whether the recording begins in the middle of a block."));
  return told;
}

// What is likely where a rule of the link is broken in the first rows: the file.
function linkCauses(it, here) {
  const {rule} = it.report, unit = here ? unitWords(it, here) : null;
  if (unit) return [likely(`Most likely the times aren't microseconds, but ${unit}, and nobody is to blame.`)];
  if (isPerhapsExchanged(it))
    return [likely("Most likely lines M and S are exchanged, or this is noise before the first block.")];
  if (it.row === 1 && rule === "Speaker") return [likely("Most likely the recording begins inside a block.")];
  if (it.row === 1 && rule === "Mode")
    return [likely("Most likely the recording begins inside a block, or the recorder loses the ninth bit.")];
  return [];
}

// The unit that the times may have, by how far the first rows stand apart: words of a block start 1,146 microseconds
// apart.
function unitWords(it, here) {
  const before = rowsNear(it).find((r) => r.row === it.row - 1), gap = before ? here.at - before.at : NaN;
  if (it.row > 3 || before?.line === "B") return null;
  if (it.report.rule === "Order") return gap === 0 ? "whole seconds" : null;
  if (it.report.rule === "Early") return gap < 100 ? "milliseconds" : null;
  return it.report.rule === "Spacing" && gap > 9000 ? "nanoseconds or tenths of a microsecond" : null;
}

// Whether the two lines may be exchanged: the recording begins with a row of line S, or has one after a break in row 1
// or 2. No device had been asked, and read as of a machine that was already running it doesn't make sense either.
/** @type {(it: Answer) => boolean} */
export function isPerhapsExchanged(it) {
  const near = rowsNear(it), {rule, blame} = it.report, isSense = it.late?.answer === ANSWERS.YES && it.late.isFollowed;
  const isAfterBreak = it.row < 4 && near.some((r) => r.row < it.row && r.line === "B");
  const first = isAfterBreak ? near.find((r) => r.row === it.row) : near[0];
  return rule === "Speaker" && blame === "other" && near[0]?.row === 1 && first?.line === "S" && !isSense;
}

function linkFacts(it, near, here, before) {
  const {rule, blame} = it.report, sender = senderOf(blame), at = rowsAt(here.row);
  const gap = before ? here.at - before.at : NaN, ask = lastAsk(it), block = blockOf(near, here.row);
  switch (rule) {
    case "Order":
      return before ? [fact(capitalRow(at), ` doesn't start after `, rowsAt(before.row), ".")] : [];
    case "Early":
      return before ? earlyFacts(here, before, at) : [];
    case "Spacing":
      return before ? [fact(capitalRow(at), ` starts ${seconds(gap)} after `, rowsAt(before.row), ".")] : [];
    case "Late":
      return lateFacts(it, ask, sender, gap, at, before);
    case "Break":
      return [fact("The break", ...inRows(at), ` lasts ${seconds(Number(here.value))}.`)];
    case "Speaker":
      return speakerFacts(it, here, sender, ask);
    case "Mode":
      return [fact(
          `The controller sent the word ${here.value}`, ...inRows(at),
          isMarked(here) ? ". It is marked as the first word of a block, inside a command." :
                           ". It isn't marked as the first word of a block, and only such a word may come there.")];
    case "Sum":
      return sumFacts(sender, block, near, it, ask);
    case "Same":
      return sameFacts(it, here, sender);
    default:
      return answerFacts(it, here, block, sender, ask);
  }
}

const capitalRow = (at) => ({...at, isCapital: true});

// A row that starts too soon after the row before it, or after the end of a break.
function earlyFacts(here, before, at) {
  const length = before.line === "B" ? Number(before.value) : 0, gap = here.at - before.at - length;
  if (gap < 0) return [fact(capitalRow(at), " starts before the end of the break", ...inRows(rowsAt(before.row)), ".")];
  const after = length ? ["the end of the break in ", rowsAt(before.row)] : [rowsAt(before.row)];
  return [fact(capitalRow(at), ` starts ${seconds(gap)} after `, ...after, ", which is too soon.")];
}

function lateFacts(it, ask, sender, gap, at, before) {
  if (it.report.blame === "controller")
    return [fact(
        `The controller acknowledged`, ...inRows(at), ` ${seconds(gap)} after the answer of the device ended`,
        ...inRows(rowsAt(before.row)), ".")];
  return [fact(`${capital(sender)} answered `, ...askedWords(it, ask), ` after ${seconds(gap)}`, ...inRows(at), ".")];
}

function speakerFacts(it, here, sender, ask) {
  const at = rowsAt(here.row);
  if (it.report.blame === "other")
    return [fact(
        capitalRow(at),
        " stands on the line of the devices, and the controller had asked none that the checker follows.")];
  if (here.line === "M")
    return [fact(
        `The controller sent the word ${here.value}`, ...inRows(at), " while the answer to ", ...askedWords(it, ask),
        " could still go on.")];
  return [fact(
      `A word came on the line of the devices`, ...inRows(at), ` out of turn. The last command was `,
      ...askedWords(it, ask), `, so it is put down to ${sender}.`)];
}

function sumFacts(sender, block, near, it, ask) {
  const bytes = bytesOf(block),
        what = sender === "the controller" ? "command of the controller" : `answer of ${sender} to`;
  if (block.length < 2)
    return [fact("The last byte", ...inRows(rowsAt(it.row)), ` of a block of ${sender} isn't the sum of the others.`)];
  const sum = bytes.slice(0, -1).reduce((a, b) => a + b, 0) & 255,
        asked = sender === "the controller" ? [] : [" ", ...askedWords(it, ask)];
  return [fact(
      `The bytes of the ${what}`, ...asked, ` add up to ${hex(sum)}`, ...inRows(rowsAt(block[0].row, block.at(-2).row)),
      `, and its last byte says ${hex(bytes.at(-1))}`, ...inRows(rowsAt(it.row)), ".")];
}

// A repeat that differs: the word, and the one that it repeats.
function sameFacts(it, here, sender) {
  const acts = it.list, block = blockOf(rowsNear(it), here.row);
  let i = acts.count - 1;
  while (i >= 0 && acts.kind(i) !== REPLY && acts.kind(i) !== ASK) i--;
  const was = i >= 0 && acts.kind(i) === REPLY && block.length ? acts.first(i) + block.length - 1 : 0;
  if (!was || was > acts.last(i))
    return [fact(`Asked to repeat its answer, ${sender} sent another word`, ...inRows(rowsAt(here.row)), ".")];
  const word = (was === acts.last(i) ? "1" : "0") + hex(acts.byte(i, block.length - 1));
  return [fact(
      "Asked to repeat its answer", ...inRows(actRows(acts, i)), `, ${sender} sent the word ${here.value}`,
      ...inRows(rowsAt(here.row)), `. The first time it was ${word}`, ...inRows(rowsAt(was)), ".")];
}

function answerFacts(it, here, block, sender, ask) {
  const {rule} = it.report, rows = block.length ? rowsAt(block[0].row, here.row) : rowsAt(here.row);
  if (sender === "the controller")
    return [fact(
        `After a data block the controller sent ${here.value}`, ...inRows(rowsAt(here.row)),
        ". It may send ACK, NAK or RET there.")];
  const how = {
    Length: block.length ? ` has ${counted(block.length, "byte")} with its sum, which is no length of such an answer` :
                           " has a wrong length",
    Message: " contains something that can't be read",
  }[rule] ??
      " is no answer to it";
  return [fact(`What ${sender} sent after `, ...askedWords(it, ask), how, ...inRows(rows), blockWords(block), ".")];
}

// A block's bytes, or its word where it is only one.
function blockWords(block) {
  if (!block.length) return "";
  if (block.length === 1) return `: ${block[0].value}`;
  return `: ${bytesOf(block.slice(0, 12)).map(hex).join(" ")}${block.length > 12 ? " .." : ""}`;
}

// Profile ----

// The device that the checker stops following: the one that is blamed, or the one that the command is for.
/** @type {(it: Answer) => number} */
export function unfollowedDevice(it) {
  const {blame} = it.report;
  if (blame !== "controller") return Math.max(0, DEVICES.indexOf(blame));
  const block = blockOf(rowsNear(it), it.row);
  return block.length ? {1: 1, 2: 3, 6: 2, 12: 4}[block[0].word >> 3 & 31] ?? 0 : 0;
}

// What isn't followed, in words: {what, facts}.
/** @type {(it: Answer) => {what: string, facts: Sentence[]}} */
export function unfollowed(it) {
  const d = unfollowedDevice(it), name = the(DEVICE_NAMES[d] || "device"), block = blockOf(rowsNear(it), it.row);
  const rows = block.length ? rowsAt(block[0].row, it.row) : rowsAt(it.row), bytes = bytesOf(block);
  const level = d > 2 && it.report.blame !== "controller" && !isExtended(it.way) ? greatestLevel(bytes) : 0;
  if (level > 1) return levelWords(it, d, level, rows);
  const isCommand = it.report.blame === "controller", enabled = isCommand ? optionsBeyond(bytes) : "",
        what = isCommand ? commandNamed(bytes) : messageNamed(d, bytes, isExtended(it.way));
  const who = isCommand ? `the controller sends ${name} ` : `${name} sends `;
  return {
    what: enabled ? `the controller enables ${enabled} on ${name}` : `${who}${what}`,
    facts: [
      fact(
          `${capital(who)}${what}`, ...inRows(rows),
          `. The checker doesn't follow this ${isCommand ? "command" : "message"}.`),
      ...isCommand ? negativeFacts(it, d) : []
    ]
  };
}

// What a NEGATIVE VEND REQUEST asks for.
function negativeFacts(it, d) {
  const [a, b, ...rest] = bytesOf(wholeBlock(rowsNear(it), it.row)), setup = it.list.setupAt(d, it.list.count - 1);
  if (!isToReader(a) || (a & 7) !== 3 || b !== NEGATIVE_VEND || rest.length < 2) return [];
  const amount = setup && two(rest, 0) !== 0xFFFF ? money(two(rest, 0) * setup.scale, setup.decimals) : "an amount";
  return [fact(
      `By that it asks to put ${amount} onto the card, as for a returned bottle (negative vend). `,
      "Whether the reader approves, the list after a survey shows.")];
}

// A command that isn't followed: its bytes so far, and what it belongs to.
function commandNamed(bytes) {
  if (!bytes.length) return "a command that isn't followed";
  const [a] = bytes, enabled = optionsEnabled(bytes);
  const kind = a === 0x0F            ? " of alternative payout" :
      isToReader(a) && (a & 7) === 5 ? " of revalue" :
      enabled                        ? `, enable options: ${enabled}` :
                                       "";
  return `the command ${bytes.map(hex).join(" ")}${kind}`;
}

const NEGATIVE_VEND = 6;
const isToReader = (a) => a >> 3 === 2 || a >> 3 === 12;

// The options that a command enables, in words. Any other command enables none.
function optionsEnabled(bytes) {
  const [a, b] = bytes, isWhole = bytes.length > OPTIONS_END;
  return isWhole && isToReader(a) && (a & 7) === 7 && b === ENABLE_OPTIONS ? optionWords(bytes, 2) : "";
}

// The same of those that aren't followed: money of 32 bits and several currencies.
function optionsBeyond(bytes) {
  return optionsEnabled([...bytes.slice(0, 2), 0, 0, 0, bytes[OPTIONS_END - 1] & 6, ...bytes.slice(OPTIONS_END)]);
}

// The greatest level that a reader's reply tells.
function greatestLevel(bytes) {
  const levels = readerMessages(Uint8Array.from(bytes)).filter((m) => m[0] === 1 && m.length === 8).map((m) => m[1]);
  return Math.max(0, ...levels);
}

// The first bytes of the messages of a reply that isn't followed. A reader's are those of the base profile. In which
// reading the extended profile doesn't follow them isn't told: there the first one is known alone.
function firstBytes(d, bytes, isWide) {
  if (d < 3) return bytes.slice(0, -1);
  return isWide ? bytes.slice(0, 1) : readerMessages(bytes).map(([first]) => first);
}

const isFile = (b) => b >= 0x1B && b <= 0x1F;
const isRevalue = (b) => b >= 0x0D && b <= 0x0F;

// Whether a message isn't followed, by its first byte. (The extended profile follows a reader's 11 in one reading.)
/** @type {(device: number, first: number, isWide: boolean) => boolean} */
export function isLeftAside(d, b, isWide) {
  if (d > 2) return b > 0x0B && !(isWide && b === 0x11);
  return isFile(b) || d === 2 && !isWide && (b >> 4 === 0xB || b >= 0xD0);
}

// The first message of a reply that isn't followed.
function messageNamed(d, bytes, isWide) {
  const found = firstBytes(d, bytes, isWide).find((b) => isLeftAside(d, b, isWide));
  if (found === undefined) return "a message that isn't followed";
  const kind = d > 2 ? isRevalue(found) ? " of revalue" : "" :
      isFile(found)  ? " of file transfer" :
                       " of bill recycling";
  return `the message ${hex(found)}${kind}`;
}

function levelWords(it, d, level, rows) {
  const acts = it.list, address = d === 3 ? 0x11 : 0x61, facts = [];
  let i = acts.count - 1;
  while (i >= 0 && !(acts.kind(i) === ASK && acts.byte(i, 0) === address && acts.byte(i, 1) === 0)) i--;
  const asked = i < 0 ?
      "." :
      [", and so does the controller, with level ", String(acts.byte(i, 2)), ...inRows(actRows(acts, i)), "."];
  facts.push(fact(
      `${capital(the(DEVICE_NAMES[d]))} reports feature level ${level} in its answer to SETUP`, ...inRows(rows),
      ...[asked].flat()));
  facts.push(fact("From level 2 on the messages of a session have other forms. The extended profile follows them."));
  return {what: `${the(DEVICE_NAMES[d])} uses feature level ${level}`, facts};
}

/** @type {(it: Answer) => Sentence[]} */
export function profileStory(it) {
  if (isDamaged(it)) return damagedStory(it);
  const d = unfollowedDevice(it), name = the(DEVICE_NAMES[d] || "device"), {facts} = unfollowed(it);
  const own = isExtended(it.way) ? "switch the feature off and record again" :
                                   "untick “To the letter of feature level 1”, and check again";
  return [
    ...facts,
    nextStep(
        d ? `If your question is about another device, leave out ${name} and check again.` :
            "If your question is about another device, leave out the device that this row is of, and check again."),
    nextStep(`If it is about this device, ${own}.`)
  ];
}
