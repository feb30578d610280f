// @ts-check
// A list of acts with little for each poll without news: a day has a million of these. Such a poll is two acts, a POLL
// and the ACK that answers it. All other acts are records, as the module has them.
import {layout} from "./layout.js";

// The kinds of the two acts of such a poll, and of words of devices that aren't followed.
const ASK = 0, ACK = 1, FOREIGN = 8;
// The blocks of POLL, by device.
const POLL_BLOCKS = [0, 0x0B, 0x33, 0x12, 0x62].map((byte) => Uint8Array.of(byte, byte));
// A poll has four words: its first row; when that was, in two words, the second with the device in its upper byte; and
// in two halves of a word, how long after it its second row and its ACK were.
const POLL_WORDS = 4;
// So many records, and so many polls, the first acts have at most, and the last ones and those before them.
const MOST = 400000, MOST_POLLS = 4000000;
const DEVICE_SHIFT = 24, MOST_DELAY = 65535, WORD = 4294967296;
// In the index an act has the number of its record, or this bit and twice the number of its poll, for the ACK one more.
const IS_POLL = 0x80000000;

// The acts of a list, by their records and polls.
export class PackedActs {
  /** @param {Packed} packed */
  constructor({records, polls, index}) {
    this.records = new Uint8Array(records);
    this.words = new Uint32Array(records);
    this.polls = new Uint32Array(polls);
    this.index = new Uint32Array(index);
    this.at = layout.act;
  }
  // The place of the poll that an act is of; −1 if it is of none. A record's place.
  poll(i) {
    const at = this.index[i];
    return at >= IS_POLL ? ((at - IS_POLL) >>> 1) * POLL_WORDS : -1;
  }
  record(i) {
    return this.index[i] * this.at.size;
  }
  isAnswer(i) {
    return (this.index[i] & 1) === 1;
  }
  // Whether an act is a POLL without news. The next one answers it.
  isQuiet(i) {
    return this.index[i] >= IS_POLL && !this.isAnswer(i);
  }
  u64(i, place) {
    const at = (this.record(i) + place) / 4;
    return this.words[at] + this.words[at + 1] * WORD;
  }
  // When a poll's POLL was, so much later.
  timeOf(poll, later) {
    const {polls} = this, high = polls[poll + 2] & (1 << DEVICE_SHIFT) - 1;
    return polls[poll + 1] + high * WORD + later;
  }
  first(i) {
    const poll = this.poll(i);
    return poll < 0 ? this.u64(i, this.at.first) : this.polls[poll] + (this.isAnswer(i) ? 2 : 0);
  }
  last(i) {
    const poll = this.poll(i);
    return poll < 0 ? this.u64(i, this.at.last) : this.polls[poll] + (this.isAnswer(i) ? 2 : 1);
  }
  start(i) {
    const poll = this.poll(i);
    if (poll < 0) return this.u64(i, this.at.start);
    return this.timeOf(poll, this.isAnswer(i) ? this.polls[poll + 3] & MOST_DELAY : 0);
  }
  end(i) {
    const poll = this.poll(i);
    if (poll < 0) return this.u64(i, this.at.end);
    const delays = this.polls[poll + 3];
    return this.timeOf(poll, this.isAnswer(i) ? delays & MOST_DELAY : delays >>> 16);
  }
  length(i) {
    return this.poll(i) < 0 ? this.u64(i, this.at.length) : 0;
  }
  kind(i) {
    if (this.poll(i) < 0) return this.records[this.record(i) + this.at.kind];
    return this.isAnswer(i) ? ACK : ASK;
  }
  device(i) {
    const poll = this.poll(i);
    return poll < 0 ? this.records[this.record(i) + this.at.device] : this.polls[poll + 2] >>> DEVICE_SHIFT;
  }
  // In which reading the messages of a reader's answer were taken (`READING`).
  reading(i) {
    return this.poll(i) < 0 ? this.records[this.record(i) + this.at.reading] : 0;
  }
  bytes(i) {
    if (this.poll(i) >= 0) return POLL_BLOCKS[this.device(i)].subarray(0, this.isAnswer(i) ? 0 : 2);
    const act = this.record(i), from = act + this.at.bytes;
    return this.records.subarray(from, from + this.records[act + this.at.count]);
  }
  byte(i, k) {
    return this.poll(i) < 0 ? this.records[this.record(i) + this.at.bytes + k] : POLL_BLOCKS[this.device(i)][k];
  }
}

// So many records as a list of them.
/** @type {(records: ArrayBuffer, count: number) => Packed} */
export const asPacked = (records, count) =>
    ({records, polls: new ArrayBuffer(0), index: Uint32Array.from({length: count}, (_, i) => i).buffer});

// A growing row of words, with room for so many at first.
class Words {
  constructor(room = 1024) {
    this.all = new Uint32Array(room);
    this.count = 0;
  }
  // Where so many more words go.
  more(count) {
    const from = this.count, {all} = this;
    this.count += count;
    if (this.count <= all.length) return from;
    this.all = new Uint32Array(2 * this.count);
    this.all.set(all);
    return from;
  }
  push(word) {
    const at = this.more(1);
    this.all[at] = word;
  }
}

// Acts that come in pieces, packed: so many records at most, of so many acts in all. There is room for them from the
// start, since what grows is copied. Memory that isn't written to costs nothing.
class Packing {
  constructor(most, count) {
    this.most = most;
    this.records = new Words(Math.min(count, most) * layout.act.size / 4);
    this.polls = new Words(Math.min(count >> 1, MOST_POLLS) * POLL_WORDS);
    this.index = new Words(Math.min(count, most + 2 * MOST_POLLS));
  }
  isFull() {
    return this.records.count * 4 >= this.most * layout.act.size || this.polls.count >= MOST_POLLS * POLL_WORDS;
  }
  // Packs the act at a place in memory, with so many rows before it. (Word by word: a call costs more for so few.)
  addRecord({words}, at, before) {
    const {size: wide, first, last} = layout.act, {records} = this, place = records.more(wide / 4), {all} = records;
    this.index.push(place * 4 / wide);
    for (let i = 0; i < wide / 4; i++) all[place + i] = words[at / 4 + i];
    all[place + first / 4] += before;
    all[place + last / 4] += before;
  }
  // Packs an act and the next one, if they are a poll without news whose rows follow each other soon.
  addPoll({words, bytes}, at, before) {
    const {size: wide, kind, device, first, last, start, end, bytes: block} = layout.act, next = at + wide;
    const who = bytes[at + device], word = (place) => words[place / 4];
    if (bytes[at + kind] !== ASK || bytes[next + kind] !== ACK || bytes[next + device] !== who) return false;
    const row = word(at + first), from = word(at + start);
    const second = word(at + end) - from, answer = word(next + start) - from;
    const isInRow = word(at + last) === row + 1 && word(next + first) === row + 2;
    const isSoon = second >= 0 && second <= MOST_DELAY && answer >= 0 && answer <= MOST_DELAY;
    if (bytes[at + block] !== POLL_BLOCKS[who][0] || !isInRow || !isSoon) return false;
    const poll = 2 * this.polls.count / POLL_WORDS, place = this.polls.more(POLL_WORDS), {all} = this.polls;
    all[place] = row + before;
    all[place + 1] = from;
    all[place + 2] = words[(at + start) / 4 + 1] | who << DEVICE_SHIFT;
    all[place + 3] = second << 16 | answer;
    this.index.push(IS_POLL + poll);
    this.index.push(IS_POLL + poll + 1);
    return true;
  }
}

// The first acts and the last ones, packed: all, where neither those with news nor polls without news are too many.
export class FirstAndLast {
  // Of so many acts, if that is known. Few are the first ones.
  constructor(count = 0) {
    this.count = count;
    this.all = 0;
    this.first = new Packing(count > 3 * MOST ? MOST : Math.max(count, MOST), count);
    // The last ones, and as many before them.
    this.last = this.first;
    this.before = null;
    this.isWhole = true;
    // The rows of devices that aren't followed: the first and the last one of those without others in between.
    this.foreign = new Words();
  }
  // Takes the acts that these bytes are, with so many rows before the first one.
  /** @type {(bytes: Uint8Array, before: number) => void} */
  add(bytes, before) {
    const memory = {bytes, words: new Uint32Array(bytes.buffer, bytes.byteOffset, bytes.length / 4)};
    const {size: wide, kind} = layout.act;
    this.all += bytes.length / wide;
    for (let at = 0; at < bytes.length; at += wide) {
      if (this.last.isFull()) this.turn();
      if (at + wide < bytes.length && this.last.addPoll(memory, at, before)) {
        at += wide;
        continue;
      }
      this.last.addRecord(memory, at, before);
      if (bytes[at + kind] === FOREIGN) this.addForeign(memory, at, before);
    }
  }
  addForeign({words}, at, before) {
    const {first, last} = layout.act, {foreign} = this, from = words[(at + first) / 4] + before;
    if (!foreign.count || foreign.all[foreign.count - 1] !== from - 1) {
      foreign.push(from);
      foreign.push(from);
    }
    foreign.all[foreign.count - 1] = words[(at + last) / 4] + before;
  }
  turn() {
    if (this.before) this.isWhole = false;
    if (this.last !== this.first) this.before = this.last;
    this.last = new Packing(MOST, this.count);
  }
  parts() {
    return [...new Set([this.first, this.before, this.last])].filter(Boolean);
  }
  // Leaves out what stands between these acts and the last ones that another list has, of `all` acts, if both have too
  // many records. Whether it did that.
  /** @type {(other: FirstAndLast | null, all: number) => boolean} */
  skipTo(other, all) {
    if (!other) return false;
    const parts = other.parts(), count = [...this.parts(), ...parts].reduce((sum, {records}) => sum + records.count, 0);
    if (!other.first.isFull() || count * 4 <= 3 * MOST * layout.act.size) return false;
    [this.last, this.before = null] = parts.slice(-2).reverse();
    this.all = all;
    this.isWhole = false;
    for (let i = 0; i < other.foreign.count; i++) this.foreign.push(other.foreign.all[i]);
    return true;
  }
  // What is listed, in its order, and the number of the act before which others aren't; −1 if all are.
  listed() {
    const parts = this.parts();
    const acts = parts.length === 1 ? buffersOf(parts[0]) : joinedParts(parts);
    return {
      acts,
      listed: parts.reduce((sum, {index}) => sum + index.count, 0),
      all: this.all,
      hole: this.isWhole ? -1 : this.first.index.count,
      foreign: this.foreign.all.subarray(0, this.foreign.count)
    };
  }
}

// What is packed, as it lies there: the buffers may be longer.
const buffersOf = ({records, polls, index}) =>
    ({records: records.all.buffer, polls: polls.all.buffer, index: index.all.buffer});

// The same of several parts, one after the other.
function joinedParts(parts) {
  const rows = {records: 0, polls: 0};
  const index = joined(parts.map((part) => {
    const made = part.index.all.slice(0, part.index.count), polls = 2 * rows.polls / POLL_WORDS;
    const records = rows.records * 4 / layout.act.size;
    for (let i = 0; i < made.length; i++) made[i] += made[i] >= IS_POLL ? polls : records;
    rows.records += part.records.count;
    rows.polls += part.polls.count;
    return made;
  }));
  const all = (name) => joined(parts.map((part) => part[name].all.subarray(0, part[name].count))).buffer;
  return {records: all("records"), polls: all("polls"), index: index.buffer};
}

// Words one after the other.
function joined(parts) {
  const made = new Uint32Array(parts.reduce((sum, words) => sum + words.length, 0));
  let place = 0;
  for (const words of parts) {
    made.set(words, place);
    place += words.length;
  }
  return made;
}

// What is moved with packed acts to another thread.
/** @type {(acts: Packed) => ArrayBuffer[]} */
export const moved = ({records, polls, index}) => [records, polls, index];
