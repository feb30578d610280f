// @ts-check
// The acts of a recording as the module lists them, and the set-ups that they tell.
import {hex} from "../texts.js";

import {readerMessages, READING} from "./messages.js";
import {asPacked, PackedActs} from "./packed.js";

export const DEVICES = ["", "changer", "bill", "cashless", "cashless-2"];
export const DEVICE_NAMES = ["", "coin changer", "bill validator", "card reader 1", "card reader 2"];
export const KINDS =
    ["ask", "ack", "nak", "reply", "vmc-ack", "vmc-nak", "vmc-ret", "repeat", "foreign", "break", "cut"];
export const ASK = 0, ACK = 1, NAK = 2, REPLY = 3, VMC_ACK = 4, VMC_NAK = 5, VMC_RET = 6, REPEAT = 7, FOREIGN = 8,
             BREAK = 9, CUT = 10;
// The address byte of POLL, by device.
export const POLLS = [0, 0x0B, 0x33, 0x12, 0x62];
// A block has so many words at most, and an answer that tells a set-up so many at least.
const MOST_WORDS = 36, SHORTEST_SETUP = 8;

/** @type {(bytes: ByteList, i: number) => number} */
export const two = (bytes, i) => bytes[i] * 256 + bytes[i + 1];

// The acts that are listed, packed or as they lie in memory.
export class Acts extends PackedActs {
  // The list begins anew after each of the rows `cuts`: `begins` has the acts with which it does.
  /**
   * @param {Packed | ArrayBuffer} given
   * @param {number} count
   * @param {number[]} [cuts]
   */
  constructor(given, count, cuts = []) {
    super(given instanceof ArrayBuffer ? asPacked(given, count) : given);
    this.count = count;
    this.begins = new Set(cuts.map((row) => this.actFrom(row + 1)).filter((i) => i >= 0));
    // Answers to SETUP: the act from which on one counts, and what it says; by device.
    this.setups = [[], [], [], [], []];
  }
  hex(i) {
    return Array.from(this.bytes(i), hex).join(" ");
  }
  // As `mdbcheck show` writes it.
  line(i) {
    const kind = this.kind(i), words = [`${this.first(i)}-${this.last(i)}`, KINDS[kind]];
    if (kind === BREAK) words.push(String(this.length(i)));
    if (this.device(i)) words.push(DEVICES[this.device(i)]);
    if (this.bytes(i).length) words.push(this.hex(i));
    return words.join(" ");
  }
  // The ask that an act belongs to: the one before it, if nothing else stands between.
  askOf(i) {
    while (i >= 0) {
      const kind = this.kind(i);
      if (kind === ASK) return i;
      if (kind >= FOREIGN) return -1;
      i--;
    }
    return -1;
  }
  // The act that begins with a row; −1 if none does.
  actFrom(row) {
    let low = 0, high = this.count;
    while (low < high) {
      const mid = (low + high) >> 1;
      if (this.first(mid) < row)
        low = mid + 1;
      else
        high = mid;
    }
    return low < this.count && this.first(low) === row ? low : -1;
  }
  // Whether an act is a word that the list began anew with: no command stands between.
  isFromBefore(i) {
    for (let k = i; k >= 0 && k > i - MOST_WORDS && this.kind(k) === FOREIGN; k--)
      if (this.begins.has(k)) return true;
    return false;
  }
  setupAt(device, i) {
    const all = this.setups[device];
    let low = 0, high = all.length;
    while (low < high) {
      const mid = (low + high) >> 1;
      if (all[mid].from <= i)
        low = mid + 1;
      else
        high = mid;
    }
    return low && !all[low - 1].isUnknown ? all[low - 1] : null;
  }
}

// What a device's answer to SETUP says of values; null where the bytes are no such answer.
/**
 * @param {number} device
 * @param {ByteList} bytes
 * @param {number} [reading]
 * @returns {Setup | null}
 */
export function readSetup(device, bytes, reading) {
  const n = bytes.length - 1;
  if (device === 1 && n >= 7)
    return {
      scale: bytes[3],
      decimals: bytes[4],
      credits: Array.from(bytes.slice(7, n)),
      level: bytes[0],
      code: hex(bytes[1]) + hex(bytes[2])
    };
  if (device === 2 && n >= 11)
    return {
      scale: two(bytes, 3),
      decimals: bytes[5],
      credits: Array.from(bytes.slice(11, n)),
      level: bytes[0],
      code: hex(bytes[1]) + hex(bytes[2])
    };
  if (device > 2) {
    let found = null;
    for (const m of readerMessages(bytes, reading))
      if (m[0] === 1 && m.length === 8)
        found = {scale: m[4], decimals: m[5], response: m[6], level: m[1], code: hex(m[2]) + hex(m[3])};
    return found;
  }
  return null;
}

// The worth of a coin or bill of a type, in smallest units; null where nothing tells it.
/** @type {(setup: Setup | null, type: number) => number | null} */
export function worth(setup, type) {
  if (!setup) return null;
  const credit = setup.credits[type] ?? 0;
  return credit === 255 ? 0 : credit * setup.scale;
}

// The set-up that an answer of a device tells, if it tells one. `at` is the act that it is.
function setupIn(acts, at) {
  if (acts.kind(at) !== REPLY || acts.bytes(at).length < SHORTEST_SETUP) return null;
  const device = acts.device(at);
  const ask = acts.askOf(at), command = ask >= 0 ? acts.byte(ask, 0) : 0;
  const isTold = device > 2 || command === (device === 1 ? 0x09 : 0x31);
  return isTold ? readSetup(device, acts.bytes(at), acts.reading(at)) : null;
}

// Takes note, for the words of the acts, of the set-ups that are told. `given` has what --setup told, and `found` what
// the module found. From the act `hole` on those are listed that stand after others that aren't: where these tell a
// set-up, its values aren't known there.
/** @type {(acts: Acts, given: (Setup | null)[], hole: number, found: {setups: Happening[]}) => void} */
export function noteSetups(acts, given, hole, found) {
  for (let d = 1; d < 5; d++) acts.setups[d] = given[d] ? [{...given[d], from: -1}] : [];
  for (let i = 0; i < acts.count; i++) {
    if (i === hole) noteHole(acts, hole, found);
    if (acts.isQuiet(i)) {
      i++;
      continue;
    }
    const told = setupIn(acts, i);
    if (told) acts.setups[acts.device(i)].push({...told, from: i});
  }
}

function noteHole(acts, hole, found) {
  const from = acts.last(hole - 1), to = acts.first(hole);
  for (const told of found.setups)
    if (told.first > from && told.last < to) acts.setups[told.device].push({isUnknown: true, from: hole});
}

// The answers to SETUP that a recording shows, as `--setup` takes them: the last of each device.
/** @type {(acts: Acts) => string[]} */
export function findSetups(acts) {
  const found = [null, "", "", "", ""];
  for (let i = 0; i < acts.count; i++) {
    if (acts.kind(i) !== REPLY) continue;
    const d = acts.device(i), at = acts.askOf(i);
    if (at < 0) continue;
    const ask = acts.bytes(at), bytes = acts.bytes(i), isBase = acts.reading(i) === READING.BASE;
    const isSetup = (d === 1 && ask[0] === 9) || (d === 2 && ask[0] === 0x31) ||
        (d > 2 && isBase && readSetup(d, bytes) && readerMessages(bytes).every((m) => ![3, 5, 6, 7].includes(m[0])));
    if (isSetup) found[d] = acts.hex(i);
  }
  return found;
}
