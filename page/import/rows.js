// @ts-check
// Words and lines as an export writes them, and the import of rows (docs/bench/importing.md).
import {digitsOf, hasPrefix, hexOf, isDigit, MOST_LENGTH, MOST_TIME, nearest, numberOf, UNITS} from "./numbers.js";
import {
  bare,
  BREAK,
  COMMA,
  CONTROLLER,
  excerpt,
  isComment,
  isText,
  LETTERS,
  Part,
  PERIPHERAL,
  placeIn,
  Records,
  SEMICOLON,
  STAR,
  TAB,
  utf8
} from "./text.js";
import {timeForm, Times} from "./times.js";

// What is wrong with a word, and what may be the cause, told after what was found.
const NO_WORD = "wanted a word in hexadecimal digits, at most 1FF";
const NO_DECIMAL = "wanted a word in decimal digits, at most 511";
export const IS_DECIMAL = "; are the words decimal (--decimal)?";

// The word that a field tells, or -1. A `*` before or after the digits says that its mode bit is set.
function wordOf({all, from, to}, isDecimal) {
  const isBefore = to > from && all[from] === STAR, isAfter = to > from && !isBefore && all[to - 1] === STAR;
  const field = {all, from: isBefore ? from + 1 : from, to: isAfter ? to - 1 : to},
        mark = isBefore || isAfter ? 256 : 0;
  const word = isDecimal ? digitsOf(all, field.from, field.to, 3) : hexWordOf(field);
  return word < 512 - mark ? word < 0 ? -1 : word + mark : -1;
}

function hexWordOf(field) {
  const {all, from, to} = field, hasEnd = to > from && (all[to - 1] | 32) === 104;
  return hasPrefix(field) ? hexOf(all, from + 2, to) : hexOf(all, from, hasEnd ? to - 1 : to);
}

// Whether a field is a number that is a word with its mode bit set, or nearly so, if it is decimal.
function isLikelyDecimal({all, from, to}) {
  const number = digitsOf(all, from, to, 15);
  return number >= 200 && number < 512;
}

/** @type {(field: Field, letter: number) => boolean} */
export const isLetter = ({all, from, to}, letter) => to - from === 1 && (all[from] & 0xDF) === letter;

// The line that a field names by its letter or a name that was given, or -1. A break is asked for elsewhere.
export function lineOf(field, {controller, peripheral}) {
  if (isLetter(field, LETTERS[CONTROLLER]) || controller && isText(field, controller)) return CONTROLLER;
  return isLetter(field, LETTERS[PERIPHERAL]) || peripheral && isText(field, peripheral) ? PERIPHERAL : -1;
}

const isBreak = (field) => isLetter(field, LETTERS[BREAK]);

// What separates the fields of a line.
/** @type {(line: Field) => number} */
export function separatorOf(line) {
  if (placeIn(line, TAB) >= 0) return TAB;
  return placeIn(line, SEMICOLON) >= 0 ? SEMICOLON : COMMA;
}

// The fields of a line between its separators, bare.
/** @type {(line: Field) => Field[]} */
export function partsOf(line) {
  const separator = separatorOf(line), {all, to} = line, parts = [];
  let from = line.from;
  for (let i = from; i < to; i++)
    if (all[i] === separator) {
      parts.push(bare(all, from, i));
      from = i + 1;
    }
  parts.push(bare(all, from, to));
  return parts;
}

/** @type {(record: any) => Field} */
export const lineOfRecord = ({line}) => ({all: line.all, from: 0, to: line.length});

const isEmpty = ({from, to}) => from === to;
// Whether a field can be a title: it has no digit, and isn't what gzip writes.
/** @type {(field: Field) => boolean} */
export const isTitle = ({all, from, to}) =>
    !all.subarray(from, to).some(isDigit) && !(all[from] === 0x1F && all[from + 1] === 0x8B);

// Whether fields are the titles of columns: three or more, none empty or a time. The first and the last have no digit.
// Of exactly three, the second names neither a line nor a break.
function isHeader(parts, names) {
  if (parts.length < 3 || !isTitle(parts[0]) || !isTitle(parts.at(-1))) return false;
  if (parts.length === 3 && (lineOf(parts[1], names) >= 0 || isBreak(parts[1]))) return false;
  return parts.every((field) => !isEmpty(field) && !timeForm(field));
}

// The options of an import with the names of the lines as bytes.
export function withNames(options) {
  const {controller, peripheral} = options;
  return {
    ...options,
    controller: controller ? utf8(controller) : null,
    peripheral: peripheral ? utf8(peripheral) : null
  };
}

// The import of rows: each record is a row, a comment or the header, passed over, or refused.
export class RowsImport {
  constructor(options, give) {
    this.options = withNames(options);
    this.part = new Part(options, give);
    this.times = new Times(options.unit);
    this.records = new Records((record) => this.take(record));
    this.comments = 0;
    this.isBegun = false; // a record was there that is no comment
    this.last = null;
    this.refused = null;
    this.goOn = null;
  }

  take(record) {
    if (!this.isBegun && isComment(record)) {
      this.comments++;
      return true;
    }
    const parts = partsOf(lineOfRecord(record)), time = this.times.read(parts[0]), isFirst = !this.isBegun;
    const wrong = this.wrongWith(parts, time);
    this.isBegun = true;
    this.part.midnights = this.times.midnights;
    if (!wrong) return true;
    if (isFirst && isHeader(parts, this.options)) {
      this.part.header = "record";
      return true;
    }
    return this.pass(record, typeof time === "string" ? null : time, wrong, parts[2]);
  }

  // Adds the row of a record's fields, or answers what is wrong with them.
  wrongWith(parts, time) {
    if (parts.length !== 3) return "wanted three fields: TIME, LINE and VALUE";
    if (typeof time === "string") return time;
    const {decimal, unit} = this.options;
    let line = lineOf(parts[1], this.options), value;
    if (line >= 0) {
      value = wordOf(parts[2], decimal);
      if (value < 0) return decimal ? NO_DECIMAL : NO_WORD;
    } else {
      if (!isBreak(parts[1])) return "wanted M, S or B, or a name given by --controller or --peripheral";
      line = BREAK;
      const number = numberOf(parts[2]);
      value = number ? nearest(number, UNITS[unit ?? "s"], MOST_LENGTH) : MOST_LENGTH;
      if (value >= MOST_LENGTH) return "wanted the length of the break, below 1000 seconds";
    }
    if (this.last !== null && time <= this.last)
      return `wanted a time after that of the row before it, and it is ${time === this.last ? "the same" : "earlier"}`;
    this.part.add(time, line, value);
    if (this.part.isBefore(time) || !this.part.isAfter(time)) this.last = time;
    return null;
  }

  // Passes over a record whose own time is outside the part, or refuses it.
  pass(record, own, wrong, value) {
    if (own !== null && (this.part.isBefore(own) || this.part.isAfter(own))) {
      this.part.passed++;
      return true;
    }
    const at = own !== null ? ` at ${own}` : this.last !== null ? ` after ${this.last}` : "";
    const first = own === null ? MOST_TIME : Math.max(own, this.last ?? 0) + 1;
    const hint = wrong === NO_WORD && isLikelyDecimal(value) ? IS_DECIMAL : "";
    this.goOn = first < MOST_TIME ? first : null;
    this.refused = `record ${record.number}${at}: ${wrong}; found "${excerpt(record)}"${hint}${
        this.goOn === null ? "" : `; go on with --from ${this.goOn}`}`;
    return false;
  }

  end() {
    this.part.text.flush();
    if (this.comments && !this.isBegun)
      this.refused = `record ${this.comments + 1}: wanted rows below the comments, and there are none`;
  }
}

export const LINE_LETTERS = ["M", "m", "S", "s", "B", "b"];
