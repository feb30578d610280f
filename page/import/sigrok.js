// @ts-check
// The import of a trace of sigrok-cli (docs/bench/sigrok-trace.md). A time is whole microseconds and millionths.
import {addMerged, LEAST_BREAK, LineRows} from "./levels.js";
import {LONG_TIME, MOST_LENGTH, MOST_TIME} from "./numbers.js";
import {CONTROLLER, Lines, Part, PERIPHERAL, SKIPPABLE} from "./text.js";

export const TRACE_HEAD = '{"traceEvents": [';
const TRACE_END = "]}", MILLION = 1e6;
const TRACE_RECORD = new RegExp(
    /^\{"ph": "([BE])", "ts": ([0-9]+)\.([0-9]{6}), "pid": "uart-1", /.source +
    /"tid": "([^"]*)", "name": "([^"]*)"\}(,?)$/.source);
const TRACE_KINDS = {
  "/Start bit": "start",
  " warnings/Frame error": "frame",
  "/Parity error": "parity",
  " break/Break condition": "break",
};
const OTHER_KIND = "wanted something of RX or TX that was asked for: see the annotations (-A)";
const NO_BREAK = "wanted a stop bit after the word: a framing error that is no break" + SKIPPABLE;
// Three times the millionths of a microsecond within which a frame error is of the word before it: 10 1/4 bits.
const OWN_ERROR = 3203125000;
const OTHER_BREAK = "wanted no break on the line of the devices: are the lines exchanged (--swap)?" + SKIPPABLE;
const LONG_TRACE_BREAK = "wanted a break of at most 999999999 microseconds" + SKIPPABLE;
const EARLY = "wanted a time after that of the row before it on this line";
const NO_END = "wanted the last line of a trace, ]}, after a record without a comma";

const wholeMicros = ({micros, parts}) => micros + (2 * parts >= MILLION ? 1 : 0);

// The time that digits before and after a point tell, or null where it is too late.
function traceTime(digits, decimals) {
  const bare = digits.replace(/^0+/, "");
  if (bare.length > 16) return null;
  const time = {micros: Number(bare), parts: Number(decimals)};
  return wholeMicros(time) < MOST_TIME ? time : null;
}

// The bytes of a line as words, a sign for each: which one doesn't matter where it isn't ASCII.
export const LATIN = new TextDecoder("latin1");
const lineWords = (line) => LATIN.decode(line);

// How long something lasts in whole microseconds, the nearest; -1 where it ends before it begins.
function lengthOf(from, to) {
  let micros = to.micros - from.micros, parts = to.parts - from.parts;
  if (parts < 0) {
    micros--;
    parts += MILLION;
  }
  return micros < 0 ? -1 : wholeMicros({micros, parts});
}

// Whether a frame error is of a word, by the times at which both begin.
function isOwnError(word, error) {
  const micros = error.micros - word.micros;
  return micros < 2000 && 3 * (micros * MILLION + error.parts - word.parts) < OWN_ERROR;
}

// What was read of one line of the bus: its rows, and what its next record goes on from. What is passed over is noted
// in the part.
class TraceLine {
  constructor(line, part, skips) {
    this.line = line;
    this.part = part;
    this.skips = skips;
    this.rows = new LineRows();
    this.state = "free"; // or "started", "worded", "low"
    this.number = 0;
    this.time = 0;
    this.start = null; // of the last word, and the word
    this.word = 0;
    this.last = -1; // the time of the last row, pulse or damaged word, and that of the one before a word
    this.before = -1;
  }

  wrong(number, time, words) {
    return {number, time, line: this.line, words};
  }

  // What is wrong where no break comes after a frame error.
  noBreak() {
    return this.state === "low" ? this.wrong(this.number, this.time, NO_BREAK) : null;
  }

  // The same, or null where the word is left out as damaged.
  endLow() {
    if (!this.skips) return this.noBreak();
    if (this.state === "low") this.spoil();
    return null;
  }

  // The last word is damaged: its row is taken back.
  spoil() {
    this.rows.pop();
    this.part.damaged.note(this.last, this.line);
    this.state = "free";
  }

  keep(state, number, time) {
    Object.assign(this, {state, number, time});
  }

  take(kind, {number, name, start, end}) {
    const time = wholeMicros(start);
    if (kind === "start") return this.endLow() ?? this.takeStart(number, time, start);
    if (kind === "frame") return this.takeError(number, time, start);
    if (kind === "break") return this.takeBreak(number, time, start, end);
    if (kind === "word") return (this.skips ? null : this.noBreak()) ?? this.takeWord(number, time, name);
    return this.noBreak() ?? this.wrong(number, time, "wanted no parity: decode with parity=none");
  }

  takeStart(number, time, start) {
    if (this.state === "started")
      return this.wrong(this.number, this.time, "wanted the word of the start bit before the next start bit");
    if (time <= this.last) return this.wrong(number, time, EARLY);
    this.keep("started", number, time);
    this.start = start;
    return null;
  }

  takeWord(number, time, name) {
    if (this.state !== "started") return this.wrong(number, time, "wanted a start bit right before the word");
    if (name.length !== 3)
      return this.wrong(number, time, "wanted a word of three hexadecimal digits: decode with nine data bits");
    const word = parseInt(name, 16);
    if (word > 511) return this.wrong(number, time, "wanted a word of at most 1FF: decode with nine data bits");
    this.rows.push(this.time, word, false);
    this.before = this.last;
    this.last = this.time;
    this.word = word;
    this.state = "worded";
    return null;
  }

  // A frame error: of the word before it, or a pulse.
  takeError(number, time, start) {
    const isOwn = this.state === "started" || this.state !== "free" && isOwnError(this.start, start);
    if (this.state === "low") return isOwn ? this.noBreak() : this.endLow() ?? this.passPulse(number, time);
    if (!isOwn) return this.passPulse(number, time);
    if (this.state === "started" || this.word && !this.skips) return this.wrong(number, time, NO_BREAK);
    this.keep("low", number, time);
    return null;
  }

  passPulse(number, time) {
    if (time <= this.last) return this.wrong(number, time, EARLY);
    this.part.pulses.note(time, this.line);
    this.last = time;
    this.state = "free";
    return null;
  }

  takeBreak(number, time, start, end) {
    if (this.state !== "low")
      return this.wrong(number, time, "wanted a word 000 and its framing error right before the break");
    const length = lengthOf(start, end), isOther = this.line !== CONTROLLER, isLong = length >= MOST_LENGTH;
    if (isOther && !this.skips) return this.wrong(number, time, OTHER_BREAK);
    if (length < 0) return this.wrong(number, time, "wanted the end of the break after its beginning");
    if (isLong && !this.skips) return this.wrong(number, time, LONG_TRACE_BREAK);
    if (!this.skips || !isOther && !this.word && !isLong && length >= LEAST_BREAK)
      return this.addBreak(number, time, length);
    this.spoil();
    return null;
  }

  // A break takes the place of its word 000.
  addBreak(number, time, length) {
    this.rows.pop();
    if (time <= this.before) return this.wrong(number, time, EARLY);
    this.rows.push(time, length, true);
    this.last = time;
    this.state = "free";
    return null;
  }
}

// The import of a trace: all of it is read before a row is written.
export class SigrokImport {
  constructor(options, give) {
    this.part = new Part(options, give);
    this.records = new Lines((line) => this.take(line));
    this.lines = [CONTROLLER, PERIPHERAL].map((line) => new TraceLine(line, this.part, options.skip));
    const [controller, devices] = this.lines;
    this.of = options.swap ? {TX: devices, RX: controller} : {TX: controller, RX: devices};
    this.next = "head"; // or "record", "end", "nothing"
    this.number = 0;
    this.opened = null;
    this.refused = null;
  }

  take(line) {
    if (this.next === "record") return this.takeRecord(lineWords(line));
    if (this.next === "nothing")
      return this.refuse(this.number + 1, "wanted nothing after the line ]}, where the trace ends");
    const words = lineWords(line);
    if (this.next === "head") {
      if (words !== TRACE_HEAD) return this.refuse(0, NO_TRACE);
      this.next = "record";
      return true;
    }
    if (words !== TRACE_END || this.opened) return this.refuse(this.number + 1, NO_END);
    this.next = "nothing";
    return true;
  }

  takeRecord(words) {
    this.number++;
    const found = TRACE_RECORD.exec(words);
    if (!found) return this.refuse(this.number, "wanted a record as sigrok-cli writes it for its decoder uart-1");
    const [, phase, digits, decimals, tid, name, comma] = found, time = traceTime(digits, decimals);
    if (!time) return this.refuse(this.number, LONG_TIME);
    this.next = comma ? "record" : "end";
    if (this.opened) return this.close(phase, tid, name, time);
    if (phase !== "B")
      return this.refuse(this.number, "wanted the beginning of something (B), and it is an end (E)", wholeMicros(time));
    this.opened = {number: this.number, tid, name, start: time};
    return true;
  }

  close(phase, tid, name, end) {
    const {opened} = this;
    this.opened = null;
    if (phase !== "E" || tid !== opened.tid || name !== opened.name)
      return this.refuse(
          opened.number, "wanted the end of what begins there as the next record", wholeMicros(opened.start));
    const wrong = this.takePair({...opened, end});
    return wrong ? this.refuse(wrong.number, wrong.words, wrong.time, wrong.line) : true;
  }

  takePair(pair) {
    const {number, tid, name, start} = pair, line = this.of[tid.slice(0, 2)], rest = tid.slice(2);
    const isWord = rest === "" && /^[0-9A-F]+$/.test(name);
    const kind = isWord ? "word" : TRACE_KINDS[`${rest}/${name}`];
    if (line && kind) return line.take(kind, pair);
    const time = wholeMicros(start);
    return line ? line.noBreak() ?? line.wrong(number, time, OTHER_KIND) : {number, time, words: OTHER_KIND};
  }

  refuse(number, words, time, line) {
    const at = time === undefined ? "" : ` at ${time}`, on = line === undefined ? "" : ` on ${"MS"[line]}`;
    this.refused = `record ${number}${at}${on}: ${words}`;
    return false;
  }

  addFirst(most, add) {
    addMerged(this.lines[0].rows, this.lines[1].rows, most, add);
  }

  end() {
    if (this.refused) return;
    if (this.next === "head")
      this.refuse(0, NO_TRACE);
    else if (this.next !== "nothing")
      this.refuse(this.number + 1, "wanted more records, or the last line ]}: the trace is cut");
    else
      this.endLines();
  }

  endLines() {
    const wrong = this.lines[0].endLow() ?? this.lines[1].endLow();
    if (wrong) {
      this.refuse(wrong.number, wrong.words, wrong.time, wrong.line);
      return;
    }
    this.addFirst(Infinity, (...row) => this.part.add(...row));
    this.part.text.flush();
  }
}
const NO_TRACE = 'wanted a trace, whose first line is {"traceEvents": [, and it is another one';
