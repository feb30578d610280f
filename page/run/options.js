// @ts-check
// How a recording is taken: the fields, the module's options, and the program's words.
import {DEVICES, readSetup} from "../checker/acts.js";
import {layout, putBlock, readerPlace, setupPlace} from "../checker/layout.js";
import {ENABLE_OPTIONS, isConfigAsk, OPTIONS_END, READERS_BY_BLOCK} from "../checker/messages.js";
import {fieldBy} from "../elements.js";
import {hex} from "../texts.js";

// What stands in a field and can't be used: the field, its device, and why.
export class SetupFault extends Error {
  constructor(field, device, words) {
    super(words);
    this.field = field;
    this.device = device;
  }
}

// The fields of blocks, each with its device: what the device answered to SETUP, and what the controller sent to a
// reader.
const READERS = DEVICES.slice(3);
/** @type {string[][]} */
export const BLOCK_FIELDS = [
  ...DEVICES.slice(1).map((device) => ["setup", device]),
  ...READERS.flatMap((device) => [["config", device], ["options", device]])
];
// The fields of a device, by its place among all.
/** @type {(i: number) => string[]} */
export const fieldsOf = (i) => i > 1 ? ["setup", "level", "config", "options"] : ["setup"];

/** @type {Record<string, string>} */
export const NO_BLOCK = {
  setup: "These bytes are no answer of the device to SETUP. Copy a whole answer, with its sum at the end.",
  config: "These bytes are no SETUP of the controller to this reader. Copy its whole command, with its sum at the end.",
  options: "These bytes are no ENABLE OPTIONS to this reader. Copy the whole command, with its sum at the end."
};
const BOTH_LEVELS = "Give the level or this command, not both: one of them is enough.";
const OTHER_MONEY =
    "These options have money of 32 bits or several currencies, which the checker doesn't follow. Leave this reader out.";

// The bytes in a device's field. A line of `show` is taken as it stands, as --setup takes it.
/** @type {(field: string, device: string) => number[] | null} */
function bytesIn(field, device) {
  const text = fieldBy(`${field}-${device}`).value.trim().toUpperCase(),
        fault = (words) => new SetupFault(field, device, words);
  if (!text) return null;
  const bare = text.replace(new RegExp(`^((\\d{1,15}-\\d{1,15} )?(REPLY|ASK) )?${device.toUpperCase()} `), "");
  if (!/^[0-9A-F]{2}( [0-9A-F]{2})*$/.test(bare))
    throw fault(
        "These aren't bytes. Write two hexadecimal digits for each byte and one blank between two bytes, for example 02 00 01.");
  const bytes = bare.split(" ").map((it) => parseInt(it, 16));
  if (bytes.length > 36 || bytes.length < 2) throw fault(NO_BLOCK[field]);
  const sum = bytes.slice(0, -1).reduce((a, b) => a + b, 0) & 255;
  if (sum !== bytes.at(-1))
    throw fault(
        `The last byte has to be the sum of the others. It is ${hex(bytes.at(-1))}, and their sum is ${hex(sum)}.`);
  return bytes;
}

// The controller's SETUP or ENABLE OPTIONS in a reader's field.
function askIn(field, device) {
  const bytes = bytesIn(field, device), isWanted = field === "config" ? isConfigAsk : isOptionsAsk;
  if (bytes && !(bytes.length === ASK_LENGTH && toReader(bytes[0]) === device && isWanted(bytes)))
    throw new SetupFault(field, device, NO_BLOCK[field]);
  return bytes;
}

// SETUP and ENABLE OPTIONS have so many bytes, with their sum.
const ASK_LENGTH = 7;
const toReader = (first) => DEVICES[READERS_BY_BLOCK[first >> 3]];
/** @type {(bytes: Iterable<number>) => boolean} */
export const isOptionsAsk = ([first, second]) => (first & 7) === 7 && second === ENABLE_OPTIONS;
// The option bits of money of 32 bits and several currencies.
const OTHER_MONEY_BITS = 6;

// Takes what the fields say of a reader's level and options, with the program's words.
function takeReader(bytes, i, tell) {
  const device = DEVICES[i], place = readerPlace(i), level = Number(fieldBy("level-" + device).value),
        {reader} = layout;
  const config = askIn("config", device), enabled = askIn("options", device);
  if (level && config) throw new SetupFault("config", device, BOTH_LEVELS);
  if (enabled && enabled[OPTIONS_END - 1] & OTHER_MONEY_BITS) throw new SetupFault("options", device, OTHER_MONEY);
  if (level) {
    bytes[place + reader.level] = level;
    tell(`level ${level}`);
  }
  for (const [field, block] of Object.entries({config, options: enabled})) {
    if (!block) continue;
    putBlock(bytes, place + reader[field], block);
    tell(block.map(hex).join(" "));
  }
}

// The options as the module takes them, and as the program's command line has them. What is said of a reader's level
// and options is for the extended profile alone.
function optionsAs(joined) {
  const bytes = new Uint8Array(layout.options.size), words = [], given = [null, null, null, null, null];
  const isWide = !fieldBy("letter").checked;
  if (joined) {
    bytes[layout.options.joined] = 1;
    words.push("--joined");
  }
  if (isWide) {
    bytes[layout.options.extended] = 1;
    words.push("--extended");
  }
  DEVICES.slice(1).forEach((device, i) => {
    const left = fieldBy("without-" + device).checked, tell = (text) => words.push(`--setup '${device} ${text}'`);
    if (left) {
      bytes[layout.options.without + i] = 1;
      words.push("--without " + device);
    }
    if (!joined || left) return;
    const setup = bytesIn("setup", device);
    if (setup) {
      putBlock(bytes, setupPlace(i + 1), setup);
      tell(setup.map(hex).join(" "));
      given[i + 1] = readSetup(i + 1, Uint8Array.from(setup));
    }
    if (isWide && i > 1) takeReader(bytes, i + 1, tell);
  });
  return {bytes, words, given};
}

// The options for a machine that was running already, where the fields don't say so. What can't be used doesn't count.
function lateOptions() {
  try {
    return optionsAs(true);
  } catch {
    return null;
  }
}

// Whether a recording is taken by the extended profile, and not to the letter of level 1.
/** @type {(way: Way) => boolean} */
export const isExtended = ({bytes}) => bytes[layout.options.extended] > 0;

// What the fields say now: the options. Where the fields don't say so, `late` is the way of a machine that was running
// already.
/** @type {() => Way} */
export function options() {
  const joined = fieldBy("joined").checked;
  return {...optionsAs(joined), key: wayKey(), late: joined ? null : lateOptions()};
}

// Whether the fields say what they say on a fresh page.
/** @type {(way: Way) => boolean} */
export const isFresh = ({words}) => words.join() === "--extended";

// What the fields say as a text, to tell whether it is what the shown answer was made with. What is said of a device
// that is left out doesn't count.
/** @type {() => string} */
export function wayKey() {
  const joined = fieldBy("joined").checked;
  const devices = DEVICES.slice(1).map((device, i) => {
    const left = fieldBy("without-" + device).checked;
    return [left, ...joined && !left ? fieldsOf(i).map((field) => fieldBy(`${field}-${device}`).value.trim()) : []];
  });
  return JSON.stringify([joined, fieldBy("letter").checked, devices]);
}
