// @ts-check
// The text of an export, piece by piece: UTF-16 as UTF-8, the records that a csv reader finds, and
// the text of the rows that are made. Nothing here knows of the page.

export const TAB = 9, LF = 10, CR = 13, BLANK = 32, QUOTE = 34, HASH = 35, STAR = 42, COMMA = 44, MINUS = 45,
             POINT = 46, COLON = 58, SEMICOLON = 59;

/** @type {(words: string) => Uint8Array} */
export const utf8 = (words) => new TextEncoder().encode(words);

// Bytes that are appended one by one. Their memory is used again.
export class Bytes {
  constructor() {
    this.all = new Uint8Array(1 << 12);
    this.length = 0;
  }

  push(byte) {
    if (this.length === this.all.length) this.grow(this.length + 1);
    this.all[this.length++] = byte;
  }

  add(bytes) {
    this.grow(this.length + bytes.length);
    this.all.set(bytes, this.length);
    this.length += bytes.length;
  }

  grow(least) {
    if (least <= this.all.length) return;
    const more = new Uint8Array(Math.max(least, 2 * this.all.length));
    more.set(this.all.subarray(0, this.length));
    this.all = more;
  }

  // A copy of them.
  text() {
    return this.all.slice(0, this.length);
  }
}

// Gives each piece of a text on, in UTF-8: from UTF-16 where the text begins with its byte order
// mark, else as it is. A byte order mark in UTF-8 at the beginning is left out.
export class Decoder {
  constructor(give) {
    this.give = give;
    this.encoding = null;
    this.front = new Bytes();
    this.held = -1;
    this.unit = -1;
    this.marked = false;
  }

  take(bytes) {
    if (this.encoding === "utf-8") {
      this.pass(bytes);
      return;
    }
    if (this.encoding) {
      this.pass(this.wide(bytes));
      return;
    }
    this.front.add(bytes);
    if (this.front.length >= 2) this.begin();
  }

  begin() {
    const all = this.front.text(), [first, second] = all;
    this.front.length = 0;
    this.encoding = first === 0xFF && second === 0xFE ? "utf-16le" :
        first === 0xFE && second === 0xFF             ? "utf-16be" :
                                                        "utf-8";
    this.take(this.encoding === "utf-8" ? all : all.subarray(2));
  }

  // Gives decoded bytes on, without a mark at their beginning.
  pass(bytes) {
    if (this.marked) {
      this.give(bytes);
      return;
    }
    this.front.add(bytes);
    if (this.front.length >= 3) this.unmark();
  }

  unmark() {
    const all = this.front.text(), isMark = all[0] === 0xEF && all[1] === 0xBB && all[2] === 0xBF;
    this.marked = true;
    this.hasMark = isMark;
    this.give(isMark ? all.subarray(3) : all);
  }

  wide(bytes) {
    const text = new Bytes(), isHigh = this.encoding === "utf-16be";
    text.grow(bytes.length * 2 + 8);
    for (const byte of bytes) {
      if (this.held < 0) {
        this.held = byte;
        continue;
      }
      const unit = isHigh ? this.held * 256 + byte : byte * 256 + this.held;
      this.held = -1;
      this.takeUnit(text, unit);
    }
    return text.text();
  }

  takeUnit(text, unit) {
    const before = this.unit;
    this.unit = unit;
    if (before < 0) return;
    if (before >= 0xD800 && before < 0xDC00 && unit >= 0xDC00 && unit < 0xE000) {
      pushSign(text, 0x10000 + (before & 1023) * 1024 + (unit & 1023));
      this.unit = -1;
    } else
      pushSign(text, before);
  }

  end() {
    if (!this.encoding && this.front.length) {
      const all = this.front.text().slice();
      this.front.length = 0;
      this.encoding = "utf-8";
      this.pass(all);
    } else if (this.encoding && this.encoding !== "utf-8") {
      const text = new Bytes();
      if (this.unit >= 0) pushSign(text, this.unit);
      if (this.held >= 0) text.add([0xEF, 0xBF, 0xBD]);
      this.pass(text.text());
    }
    if (!this.marked && this.front.length) this.unmark();
  }
}

// Appends a sign, or the half of one, in UTF-8.
function pushSign(text, sign) {
  if (sign < 0x80)
    text.push(sign);
  else if (sign < 0x800) {
    text.push(0xC0 | sign >> 6);
    text.push(0x80 | sign & 63);
  } else if (sign < 0x10000) {
    text.push(0xE0 | sign >> 12);
    text.push(0x80 | sign >> 6 & 63);
    text.push(0x80 | sign & 63);
  } else {
    text.push(0xF0 | sign >> 18);
    text.push(0x80 | sign >> 12 & 63);
    text.push(0x80 | sign >> 6 & 63);
    text.push(0x80 | sign & 63);
  }
}

// Where a reader of records is: at the first byte of a field, within one, between quotes, or after a
// quote that may be doubled.
const FRESH = 0, INSIDE = 1, QUOTED = 2, CLOSING = 3;

// Gives each record of a text on, as a csv reader finds them: its bytes with commas between the
// fields and without the quotes that are taken, and where each field ends. Its memory is used again
// for the next record. Where `each` answers false, the rest isn't read.
export class Records {
  constructor(each) {
    this.each = each;
    this.line = new Bytes();
    this.ends = [];
    this.count = 0;
    this.state = FRESH;
    this.number = 0;
    this.isDone = false;
  }

  take(bytes) {
    for (let i = 0; i < bytes.length && !this.isDone; i++) {
      const byte = bytes[i];
      if (this.state === QUOTED) {
        if (byte === QUOTE)
          this.state = CLOSING;
        else
          this.line.push(byte);
      } else if (byte === QUOTE && this.state !== INSIDE)
        this.openOrDouble();
      else
        this.takePlain(byte);
    }
  }

  openOrDouble() {
    if (this.state === CLOSING) this.line.push(QUOTE);
    this.state = QUOTED;
  }

  takePlain(byte) {
    if (byte === COMMA) {
      this.ends[this.count++] = this.line.length;
      this.line.push(COMMA);
      this.state = FRESH;
    } else if (byte === LF || byte === CR)
      this.endLine();
    else {
      this.line.push(byte);
      this.state = INSIDE;
    }
  }

  endLine() {
    if (this.state === FRESH && this.count === 0) return;
    this.ends[this.count++] = this.line.length;
    this.number++;
    this.isDone = this.each(this) === false;
    this.line.length = this.count = 0;
    this.state = FRESH;
  }

  end() {
    if (!this.isDone) this.endLine();
  }
}

// A field of a record, without the blanks and quotation marks around it: where it begins and ends.
export function fieldOf(record, place) {
  return bare(record.line.all, place ? record.ends[place - 1] + 1 : 0, record.ends[place]);
}

const isPadding = (byte) => byte === BLANK || byte === QUOTE;

/** @type {(all: Uint8Array, from: number, to: number) => Field} */
export function bare(all, from, to) {
  while (from < to && isPadding(all[from])) from++;
  while (to > from && isPadding(all[to - 1])) to--;
  return {all, from, to};
}

// Whether a field has these bytes, and no others.
/** @type {(field: Field, bytes: ByteList) => boolean} */
export function isText({all, from, to}, bytes) {
  if (to - from !== bytes.length) return false;
  for (let i = 0; i < bytes.length; i++)
    if (all[from + i] !== bytes[i]) return false;
  return true;
}

// Where a byte first stands in a field, or -1.
/** @type {(field: Field, byte: number) => number} */
export function placeIn({all, from, to}, byte) {
  for (let i = from; i < to; i++)
    if (all[i] === byte) return i;
  return -1;
}

// Whether a record above a header is a comment: its first field begins with `#`, and it is no header itself; or with
// `;`, and it has no other `;`.
/** @type {(record: any, isHeader?: boolean) => boolean} */
export function isComment(record, isHeader = false) {
  const {line: {all, length}} = record, {from, to} = fieldOf(record, 0);
  if (from === to || all[from] !== SEMICOLON) return from < to && all[from] === HASH && !isHeader;
  return all.subarray(0, length).lastIndexOf(SEMICOLON) === from;
}

// Words as a field.
/** @type {(words: string) => Field} */
export function wholeField(words) {
  const all = utf8(words);
  return {all, from: 0, to: all.length};
}

/** @type {(field: Field) => string} */
export const wordsOf = ({all, from, to}) => new TextDecoder().decode(all.slice(from, to));

// What mdbimport says it found in a record: 48 signs of it or a few more, and `..` where it goes on.
export const excerpt = ({line: {all, length}}) => quotedFront(all, length, 48);

// What it says of a value: 24 signs of it or a few more.
/** @type {(word: string) => string} */
export function wordExcerpt(word) {
  const bytes = new TextEncoder().encode(word);
  return quotedFront(bytes, bytes.length, 24);
}

function quotedFront(bytes, length, most) {
  let words = "";
  for (let i = 0; i < length; i++) {
    if (words.length >= most) return words + "..";
    words += escaped(bytes[i]);
  }
  return words;
}

function escaped(byte) {
  if (byte === QUOTE || byte === 92) return "\\" + String.fromCharCode(byte);
  if (byte >= 32 && byte < 127) return String.fromCharCode(byte);
  return "\\x" + byte.toString(16).toUpperCase().padStart(2, "0");
}

// The lines of a text, each with its number. An end is LF or CR LF.
export class Lines {
  constructor(each) {
    this.each = each;
    this.line = new Bytes();
    this.isDone = false;
  }

  take(bytes) {
    let from = 0;
    while (!this.isDone) {
      const to = bytes.indexOf(LF, from);
      if (to < 0) break;
      if (this.line.length) {
        this.line.add(bytes.subarray(from, to));
        this.give(this.line.text());
        this.line.length = 0;
      } else
        this.give(bytes.subarray(from, to));
      from = to + 1;
    }
    if (!this.isDone) this.line.add(bytes.subarray(from));
  }

  give(line) {
    const isEnded = line.length > 0 && line[line.length - 1] === CR;
    this.isDone = this.each(isEnded ? line.subarray(0, line.length - 1) : line) === false;
  }

  end() {
    if (!this.isDone && this.line.length) this.give(this.line.text());
  }
}

// The lines of a log, each with its number. An end is LF, CR LF or CR. Its memory is used again for the next line.
export class LogLines {
  constructor(each) {
    this.each = each;
    this.line = new Bytes();
    this.number = 0;
    this.before = 0;
    this.isDone = false;
  }

  take(bytes) {
    let from = 0;
    for (let i = 0; i < bytes.length && !this.isDone; i++) {
      const byte = bytes[i], isSecond = byte === LF && this.before === CR;
      this.before = byte;
      if (byte !== LF && byte !== CR) continue;
      if (!isSecond) this.give(bytes.subarray(from, i));
      from = i + 1;
    }
    if (!this.isDone) this.line.add(bytes.subarray(from));
  }

  give(rest) {
    this.line.add(rest);
    this.number++;
    this.isDone = this.each(this) === false;
    this.line.length = 0;
  }

  end() {
    if (!this.isDone && this.line.length) this.give([]);
  }
}

// The lines of a recording, in the order in which they are counted here.
export const CONTROLLER = 0, PERIPHERAL = 1, BREAK = 2;
export const LETTERS = [77, 83, 66];
export const ROOM = 1 << 16;
const TENS = [1, 10, 100, 1e3, 1e4, 1e5, 1e6];

// The text of rows, given on in pieces.
export class RowText {
  constructor(give) {
    this.give = give;
    this.all = new Uint8Array(ROOM);
    this.length = 0;
  }

  add(time, line, value) {
    if (this.length + 40 > ROOM) this.flush();
    this.number(time);
    this.all[this.length++] = COMMA;
    this.all[this.length++] = LETTERS[line];
    this.all[this.length++] = COMMA;
    if (line === BREAK)
      this.number(value);
    else
      this.word(value);
    this.all[this.length++] = LF;
  }

  // A whole number, seven digits at a time.
  number(value) {
    const high = Math.floor(value / 1e7);
    if (high) this.number(high);
    this.digits(value - high * 1e7, high ? 7 : 1);
  }

  // So many digits at least of a number below 10^7.
  digits(value, least) {
    let count = least, rest = value | 0;
    while (count < 7 && rest >= TENS[count]) count++;
    for (let i = this.length + count - 1; i >= this.length; i--) {
      const next = (rest / 10) | 0;
      this.all[i] = 48 + rest - next * 10;
      rest = next;
    }
    this.length += count;
  }

  word(value) {
    for (const shift of [8, 4, 0]) {
      const digit = value >> shift & 15;
      this.all[this.length++] = digit < 10 ? 48 + digit : 55 + digit;
    }
  }

  flush() {
    if (this.length) this.give(this.all.slice(0, this.length));
    this.length = 0;
  }
}

// Where something was passed over: how many places, and the first five by their times, at one time M before S.
export class Places {
  constructor() {
    this.count = 0;
    this.first = [];
  }

  note(time, line) {
    this.add({count: 1, first: [{time, line}]});
  }

  add({count, first}) {
    this.count += count;
    this.first.push(...first);
    this.first.sort((a, b) => a.time - b.time || a.line - b.line);
    this.first.length = Math.min(this.first.length, 5);
  }
}

const placeWords = ({time, line}) => `${time} on ${"MS"[line]}`;

// mdbimport reads exports of these formats as they stand, and the others as UTF-8.
export const RAW_FORMATS = ["sigrok", "vcd"];

// What the words end with of a fault that --skip-damaged passes over.
export const SKIPPABLE = "; --skip-damaged leaves out what is damaged";

// The rows of a part: those outside it are counted, the others are written. What is told of an
// import stands here too: pulses and damaged words are those of the whole.
export class Part {
  constructor({from = null, until = null}, give) {
    this.from = from;
    this.until = until;
    this.text = new RowText(give);
    this.rows = this.before = this.after = this.passed = this.midnights = 0;
    this.header = this.moved = null;
    // The earliest and the latest time of all rows.
    this.first = Infinity;
    this.last = -1;
    // The line that is read upside down, though no option says so; what is told of one that is low at rest.
    this.turned = this.low = null;
    this.marked = this.controller = this.peripheral = false;
    this.pulses = new Places();
    this.damaged = new Places();
  }

  isBefore(time) {
    return this.from !== null && time < this.from;
  }

  isAfter(time) {
    return this.until !== null && time > this.until;
  }

  add(time, line, value) {
    this.note(line, value);
    this.first = Math.min(this.first, time);
    this.last = Math.max(this.last, time);
    if (this.isBefore(time))
      this.before++;
    else if (this.isAfter(time))
      this.after++;
    else {
      this.rows++;
      this.text.add(time, line, value);
    }
  }

  note(line, value) {
    if (line === BREAK) return;
    if (value > 255) this.marked = true;
    if (line === CONTROLLER)
      this.controller = true;
    else
      this.peripheral = true;
  }
}

function pulsesNote({count, first}) {
  const at = placeWords(first[0]);
  return count === 1 ? `passed over 1 pulse shorter than half a bit, at ${at}` :
                       `passed over ${count} pulses shorter than half a bit; the first at ${at}`;
}

function damagedNote({count, first}) {
  const places = first.map(placeWords).join(", "), at = count > first.length ? "the first at" : "at";
  return `left out ${count} damaged ${count === 1 ? "word" : "words"}, ${at} ${
      places}; mdbcheck survey shows what is missing`;
}

// Where each message has one time: which messages were moved, since a word lasted longer.
function movedNote({count, most}) {
  const moved = !count ? "no message" :
      count === 1      ? `1 message, by ${most} microseconds` :
                         `${count} messages, by at most ${most} microseconds`;
  return `each message has one time: the times of its words are made up, and rules about times say nothing here; moved ${
      moved}`;
}

const midnightsNote = (count) => `midnight passed ${
    count === 1 ? "1 time: the times after it" : `${count} times: the times after each`} have 24 hours more`;

const passedWords = (count) => count === 1 ? "record outside the part that is no row" :
                                             "records outside the part that are no rows";

// What mdbimport reports of a whole import, a line each.
export function notesOf(part) {
  const {header, before, after, moved, passed, pulses, damaged, midnights, turned, low} = part, notes = [];
  if (turned) notes.push(`line ${turned} is low at rest, and is read upside down`);
  if (header) notes.push(`the first ${header} is taken for a header`);
  if (midnights) notes.push(midnightsNote(midnights));
  if (before || after)
    notes.push(`left out ${before} ${before === 1 ? "row" : "rows"} before the part and ${after} after it`);
  if (moved) notes.push(movedNote(moved));
  if (passed) notes.push(`left out ${passed} ${passedWords(passed)}, or not in order`);
  if (pulses.count) notes.push(pulsesNote(pulses));
  if (damaged.count) notes.push(damagedNote(damaged));
  if (low) notes.push(low);
  return part.rows ? [...notes, ...linesNotes(part)] : notes;
}

// What is told of lines without a word, and of words without a mode bit.
function linesNotes({marked, controller, peripheral}) {
  if (!controller && !peripheral) return ["there is no word on either line"];
  const notes = [];
  if (!peripheral) notes.push("no word of a peripheral (S): was only the controller's line recorded?");
  if (!controller) notes.push("no word of the controller (M): was only the peripherals' line recorded?");
  if (!marked) notes.push("no word has its mode bit set: was it recorded with 8 bits and not 9?");
  return notes;
}

// What is wrong with a whole import that has no row; null if it has one.
export const NO_PART_ROW = "the part has no row";
/** @type {(part: Part) => string | null} */
export function noRowIn({rows, first, last}) {
  if (rows) return null;
  return last < 0 ? "there is no row in the export" : `${NO_PART_ROW}: the rows have times from ${first} to ${last}`;
}
