// @ts-check
// The levels of a line over time, and the words and breaks that they are (docs/bench/edges.md). A time is whole
// microseconds, thirds of a nanosecond beyond them, and thirds of 10^-24 of a second beyond those: each is a number
// without a fraction.
import {divided, MOST_LENGTH, MOST_TIME, POWERS} from "./numbers.js";
import {BREAK, CONTROLLER, PERIPHERAL, Places, SKIPPABLE} from "./text.js";

const THIRDS = 3000, HALF_BIT = 156250;
export const REST = 1e15;
const SECOND_DIGITS = {
  s: 0,
  ms: 3,
  us: 6,
  ns: 9
};

export const isLess = (a, b) => a.micros !== b.micros ? a.micros < b.micros :
    a.thirds !== b.thirds                             ? a.thirds < b.thirds :
                                                        a.rest < b.rest;
export const isSame = (a, b) => a.micros === b.micros && a.thirds === b.thirds && a.rest === b.rest;
export const rounded = ({micros, thirds}) => micros + (thirds >= THIRDS / 2 ? 1 : 0);

// A time so many thirds of a nanosecond later.
function later({micros, thirds, rest}, more) {
  const sum = thirds + more, over = Math.floor(sum / THIRDS);
  return {micros: micros + over, thirds: sum - over * THIRDS, rest};
}

// The whole microseconds from one time of a table to a later one, the nearest; a half goes up.
function between(from, to) {
  let micros = to.micros - from.micros, thirds = to.thirds - from.thirds;
  if (to.rest < from.rest) thirds--;
  if (thirds < 0) {
    thirds += THIRDS;
    micros--;
  }
  return rounded({micros, thirds});
}

// The time that a number in a unit tells; or null, where it is too late.
export function instantOf(number, unit) {
  const power = SECOND_DIGITS[unit], [seconds, digits] = divided(number.whole, power);
  if (seconds * 1e6 >= MOST_TIME) return null;
  // The digits below a second in 10^-9, and then in 10^-24 of it.
  const share = POWERS[9 - power], cut = REST / share, fine = number.decimals * POWERS[15 - number.places];
  const nanos = digits * share + Math.floor(fine / cut), tail = fine % cut * share * 3;
  const micros = Math.floor(nanos / 1000), thirds = (nanos - micros * 1000) * 3 + Math.floor(tail / REST);
  const time = {micros: seconds * 1e6 + micros, thirds, rest: tail % REST};
  return rounded(time) < MOST_TIME ? time : null;
}

const FRAMING = "wanted a high stop bit, or a break of 95 ms or more, and the stop bit is low";
const DEVICE_BREAK = "wanted words alone on the line of the peripherals, and it is low for a break";
const LONG_BREAK = "wanted a break of at most 999999999 microseconds, and it is longer";
const CUT = "wanted a line that is high at the end of the export, and it is low";
export const LEAST_BREAK = 95000;

// Numbers that are added one by one.
class Column {
  constructor(kind) {
    this.all = new kind(1024);
    this.length = 0;
  }

  push(value) {
    if (this.length === this.all.length) {
      const more = new this.all.constructor(2 * this.all.length);
      more.set(this.all);
      this.all = more;
    }
    this.all[this.length++] = value;
  }
}

// The rows of one line, in the order of their times.
export class LineRows {
  constructor() {
    this.times = new Column(Float64Array);
    this.values = new Column(Int32Array);
    this.breaks = new Column(Uint8Array);
  }

  get length() {
    return this.times.length;
  }

  push(time, value, isBreak) {
    this.times.push(time);
    this.values.push(value);
    this.breaks.push(isBreak ? 1 : 0);
  }

  hasWord() {
    return this.breaks.all.subarray(0, this.length).includes(0);
  }

  pop() {
    this.times.length--;
    this.values.length--;
    this.breaks.length--;
  }
}

// Adds the rows of both lines by their times, at one time the controller's first.
export function addMerged(one, other, most, add) {
  let a = 0, b = 0;
  while (a + b < most && (a < one.length || b < other.length)) {
    if (b === other.length || a < one.length && one.times.all[a] <= other.times.all[b]) {
      add(one.times.all[a], one.breaks.all[a] ? BREAK : CONTROLLER, one.values.all[a]);
      a++;
    } else {
      add(other.times.all[b], PERIPHERAL, other.values.all[b]);
      b++;
    }
  }
}

// A line of the bus, whose levels are read one after the other.
class Wave {
  constructor(line, skips) {
    this.line = line;
    this.skips = skips;
    this.rows = new LineRows();
    this.pulses = new Places();
    this.damaged = new Places();
    this.state = "waiting"; // until it is high; or "idle", "framed", "low"
    this.isHigh = false;
    // Of a frame: when it fell, when its next bit is read and which that is, its word, and whether it was low so far.
    this.start = this.next = null;
    this.bit = this.value = 0;
    this.isSteady = true;
  }

  // Takes the level from a time on. Answers what is wrong before it or with it.
  take(time, isHigh) {
    const wrong = this.state === "framed" ? this.readUntil(time) : null;
    return wrong ?? this.turn(time, isHigh);
  }

  // Reads the bits of a frame whose middles are before a time; or all, where there is none.
  readUntil(time) {
    while (this.state === "framed" && (!time || isLess(this.next, time))) {
      if (this.bit === 10) return this.stop();
      if (this.bit === 0 && this.isHigh) this.passPulse();
      if (this.bit > 0 && this.isHigh) this.value += 1 << (this.bit - 1);
      this.bit++;
      this.next = later(this.next, 2 * HALF_BIT);
    }
    return null;
  }

  passPulse() {
    this.pulses.note(rounded(this.start), this.line);
    this.state = "idle";
  }

  stop() {
    if (this.isHigh) {
      this.rows.push(rounded(this.start), this.value, false);
      this.state = "idle";
      return null;
    }
    this.state = this.isSteady ? "low" : "waiting";
    return this.isSteady ? null : this.spoil(FRAMING);
  }

  turn(time, isHigh) {
    if (this.state === "idle" && !isHigh)
      this.open(time);
    else if (this.state === "waiting" && isHigh)
      this.state = "idle";
    else if (this.state === "framed")
      this.isSteady &&= !isHigh;
    else if (this.state === "low" && isHigh)
      return this.rise(time);
    this.isHigh = isHigh;
    return null;
  }

  open(time) {
    Object.assign(this, {state: "framed", start: time, next: later(time, HALF_BIT), bit: 0, value: 0, isSteady: true});
  }

  rise(time) {
    const length = between(this.start, time);
    this.state = "idle";
    this.isHigh = true;
    if (length < LEAST_BREAK) return this.spoil(FRAMING);
    if (this.line === PERIPHERAL) return this.spoil(DEVICE_BREAK);
    if (length >= MOST_LENGTH) return this.spoil(LONG_BREAK);
    this.rows.push(rounded(this.start), length, true);
    return null;
  }

  end() {
    const isCut = this.state === "low" || this.state === "framed" && !this.isHigh;
    return isCut ? this.spoil(CUT) : this.readUntil(null);
  }

  // What began at the start bit is damaged: it is left out, or is what is wrong.
  spoil(words) {
    const time = rounded(this.start);
    if (!this.skips) return {time, words};
    this.damaged.note(time, this.line);
    return null;
  }
}

// How many long levels a line had, from the first time that it was high to its last change. A long one lasts longer
// than a word.
class Rest {
  constructor() {
    this.isHigh = false;
    this.since = null;
    this.counts = [0, 0]; // of low ones, of high ones
  }

  take(time, isHigh) {
    if (isHigh === this.isHigh) return;
    if (this.since && isLess(later(this.since, 22 * HALF_BIT), time)) this.counts[this.isHigh ? 1 : 0]++;
    this.since = time;
    this.isHigh = isHigh;
  }

  isLow() {
    return this.counts[0] > Math.max(1, this.counts[1]);
  }
}

// A line as it is read, and upside down where no option says which way up it is (`isOpen`).
class Side {
  constructor(line, skips, isOpen) {
    this.upright = new Wave(line, skips);
    this.fault = null;
    this.turned = isOpen ? new Wave(line, false) : null;
    this.rest = new Rest();
  }

  // Takes the level from a time on, if it is known: true is high. The record or line `number` shows it.
  take(number, time, level) {
    this.rest.take(time, level === true);
    if (!this.fault) this.note(number, false, this.upright.take(time, level === true));
    if (this.turned?.take(time, level === false)) this.turned = null;
  }

  end(number) {
    if (!this.fault) this.note(number, true, this.upright.end());
    if (this.turned?.end()) this.turned = null;
  }

  note(number, isAtEnd, wrong) {
    if (wrong) this.fault = {...wrong, number, isAtEnd};
  }

  // Whether it is low at rest, wrong as it is read, and right upside down.
  isUpsideDown() {
    const isWrong = this.fault !== null || this.upright.damaged.count > 0;
    return isWrong && this.rest.isLow() && this.turned !== null && this.turned.rows.hasWord();
  }
}

const LETTERS = ["M", "S"];

// Both lines, whose levels are told together. What is wrong with them is told at the end, since later levels say which
// way up they are.
export class Waves {
  constructor(part, {invert, invertLine, skip}) {
    this.part = part;
    this.inverted = LETTERS.map((letter) => Boolean(invert) || invertLine === letter);
    const isOpen = !this.inverted.includes(true);
    this.sides = [new Side(CONTROLLER, skip, isOpen), new Side(PERIPHERAL, skip, isOpen)];
  }

  // Takes the levels from a time on, as they are read: true, false, or null where none is known.
  /** @type {(number: number, time: any, levels: (boolean | null)[]) => void} */
  take(number, time, levels) {
    this.sides.forEach((side, line) => side.take(number, time, levels[line]));
  }

  // The line that alone stands upside down, or -1.
  turned() {
    const [controller, peripheral] = this.sides.map((side) => side.isUpsideDown());
    return controller === peripheral ? -1 : controller ? CONTROLLER : PERIPHERAL;
  }

  // What is wrong first so far; null if nothing is.
  wrong() {
    const turned = this.turned(), faults = this.sides.map((side, line) => line === turned ? null : side.fault);
    const [one, other] = faults;
    const isOther =
        other && (!one || other.number < one.number || other.number === one.number && one.isAtEnd > other.isAtEnd);
    const line = isOther ? PERIPHERAL : CONTROLLER, fault = faults[line], low = fault && this.lowWords(line);
    return fault && {...fault, line, words: fault.words + (low ? `; ${low}` : SKIPPABLE)};
  }

  // What is told of a line that is low at rest; null of another one.
  lowWords(line) {
    const letter = LETTERS[line];
    if (!this.sides[line].rest.isLow()) return null;
    if (this.inverted[line]) return `line ${letter} is low at rest as --invert or --invert-line has it read`;
    if (this.sides.every(({rest}) => rest.isLow()))
      return "both lines are low at rest: --invert reads them upside down";
    return `line ${letter} is low at rest: --invert-line ${letter} reads it upside down`;
  }

  // Both lines as they are read at last.
  waves() {
    const turned = this.turned();
    return this.sides.map((side, line) => line === turned ? side.turned : side.upright);
  }

  // The first rows so far.
  addFirst(most, add) {
    const [one, other] = this.waves();
    addMerged(one.rows, other.rows, most, add);
  }

  // Takes the end, and writes all rows if nothing is wrong; else answers that.
  end(number) {
    for (const side of this.sides) side.end(number);
    const wrong = this.wrong();
    if (wrong) return wrong;
    const {part, sides} = this, turned = this.turned();
    part.turned = LETTERS[turned] ?? null;
    part.low = sides.map((side, line) => line !== turned && side.upright.damaged.count ? this.lowWords(line) : null)
                   .find(Boolean) ??
        null;
    for (const wave of this.waves()) {
      part.pulses.add(wave.pulses);
      part.damaged.add(wave.damaged);
    }
    this.addFirst(Infinity, (...row) => part.add(...row));
    part.text.flush();
    return null;
  }
}
