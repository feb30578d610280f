// @ts-check
// The import of a table of Saleae's analyser Async Serial (docs/bench/saleae.md).
import {hasPrefix, hexOf, isDigit, LONG_TIME, MOST_TIME, nearest, numberOf} from "./numbers.js";
import {lineOf, withNames} from "./rows.js";
import {
  BREAK,
  COMMA,
  excerpt,
  fieldOf,
  isComment,
  isText,
  Part,
  PERIPHERAL,
  placeIn,
  POINT,
  Records,
  SKIPPABLE,
  utf8
} from "./text.js";

export const TITLES = {
  time: ["start_time", "Time [s]"],
  name: ["name", "Analyzer Name"],
  data: ["data", "Value"],
  error: ["error"],
  parity: ["Parity Error"],
  framing: ["Framing Error"],
  type: ["type"],
  address: ["address"],
};
// What a refusal calls a column.
const CALLED = {
  time: "start_time (or Time [s])",
  name: "name (or Analyzer Name)",
  data: "data (or Value)",
  error: "error (or Parity Error and Framing Error)",
};
const NEGATIVE = "wanted no negative time: set the time zero to the start of the capture";
const NO_SECONDS = "wanted a time in seconds: up to 21 digits, perhaps with decimals after a point";
const SAME_ROW = "wanted a time after that of the row before it, and it is the same";
const EARLY_ROW = "wanted a later time than the row before it: sort the table by the start time";

// The places of a column in a header.
function placesOf(header, column) {
  const titles = TITLES[column].map(utf8), places = [];
  for (let i = 0; i < header.count; i++)
    if (titles.some((title) => isText(fieldOf(header, i), title))) places.push(i);
  return places;
}

// Where the columns are that a header names, or the words of what is wrong with it.
function columnsOf(header) {
  const found = {};
  for (const column of ["error", "parity", "framing", "", "time", "name", "type", "data", "address"]) {
    if (!column) {
      if (found.error === undefined && (found.parity === undefined || found.framing === undefined))
        return `wanted a column ${CALLED.error}`;
      continue;
    }
    const places = placesOf(header, column), called = CALLED[column] ?? TITLES[column][0];
    if (places.length > 1) return `wanted one column ${called}, and there are more`;
    if (!places.length && ["time", "name", "data"].includes(column)) return `wanted a column ${called}`;
    found[column] = places[0];
  }
  return found;
}

// The microsecond that is nearest to the seconds of a field, or the words of what is wrong with it.
function secondsOf(field) {
  const {all, from, to} = field;
  if (to > from && all[from] === 45) return NEGATIVE;
  if (placeIn(field, COMMA) >= 0) return NO_SECONDS;
  const mark = placeIn(field, POINT), end = mark < 0 ? to : Math.min(to, mark + 16);
  for (let i = end; i < to; i++)
    if (!isDigit(all[i])) return NO_SECONDS;
  const number = numberOf({all, from, to: end});
  if (!number) return NO_SECONDS;
  const time = nearest(number, 6, MOST_TIME);
  return time < MOST_TIME ? time : LONG_TIME;
}

// The import of a table: its header, and then each record is a row or refused.
export class SaleaeImport {
  constructor(options, give) {
    this.options = withNames(options);
    this.part = new Part(options, give);
    this.records = new Records((record) => this.take(record));
    this.columns = null;
    this.last = null;
    this.refused = null;
  }

  take(record) {
    if (!this.columns) return this.takeHeader(record);
    if (record.count !== this.width) return this.refuse(record, "wanted as many fields as the header has");
    const time = secondsOf(fieldOf(record, this.columns.time));
    if (typeof time === "string") return this.refuse(record, time);
    const wrong = this.wrongWith(record, time);
    return wrong ? this.refuse(record, wrong, time) : true;
  }

  takeHeader(record) {
    const columns = columnsOf(record);
    if (isComment(record, typeof columns !== "string")) return true;
    if (typeof columns === "string") return this.refuse(record, columns);
    this.columns = columns;
    this.width = record.count;
    return true;
  }

  refuse(record, wrong, time = null) {
    const at = time === null ? "" : ` at ${time}`;
    this.refused = `record ${record.number}${at}: ${wrong}; found "${excerpt(record)}"`;
    return false;
  }

  // Whether the field of a column has these words; where there is no such column, whether they are none.
  is(record, column, words) {
    const place = this.columns[column];
    return place === undefined ? !words : isText(fieldOf(record, place), utf8(words));
  }

  // Adds the row of a record, or answers what is wrong with it.
  wrongWith(record, time) {
    const {type, name} = this.columns;
    if (type !== undefined && !isText(fieldOf(record, type), DATA_WORD))
      return "wanted the type data, which a word has";
    const line = lineOf(fieldOf(record, name), this.options);
    if (line < 0) return "wanted M or S as the analyser, or a name given by --controller or --peripheral";
    const isClean = this.is(record, "error", "");
    if (!this.is(record, "parity", "") || !isClean && this.is(record, "error", "parity"))
      return "wanted no parity error: set the analyser to nine bits with no parity bit";
    if (!isClean && !this.is(record, "error", "framing")) return "wanted no error, or the error framing";
    const word = this.dataOf(record);
    if (typeof word === "string") return word;
    if (isClean && this.is(record, "framing", "")) return this.add(time, line, word);
    if (line === PERIPHERAL) return this.spoil(time, line, "wanted a stop bit: only the controller sends a break");
    if (word) return this.spoil(time, line, "wanted a stop bit: a word that isn't 0 is no break");
    const {length = null} = this.options;
    if (length === null) return "the table doesn't tell how long the break is: give --break MICROSECONDS";
    return this.add(time, BREAK, length);
  }

  // The word of a record, or what is wrong with it.
  dataOf(record) {
    const {data, address} = this.columns, field = fieldOf(record, data);
    const isMarked = this.is(record, "address", "true");
    if (!isMarked && !this.is(record, "address", "false") && !this.is(record, "address", ""))
      return "wanted true or false as the address, or nothing";
    const word = hasPrefix(field) ? hexOf(field.all, field.from + 2, field.to) : -1;
    if (word < 0) return "wanted data as 0x and 1 to 4 hexadecimal digits: export them as hexadecimal";
    if (word > (address === undefined ? 511 : 255))
      return "wanted data of at most 0x1FF, and of at most 0xFF beside a column address";
    return isMarked ? word + 256 : word;
  }

  // A damaged word: it is left out, or is what is wrong.
  spoil(time, line, words) {
    if (!this.options.skip) return words + SKIPPABLE;
    this.part.damaged.note(time, line);
    return null;
  }

  add(time, line, value) {
    if (this.last !== null && time <= this.last) return time === this.last ? SAME_ROW : EARLY_ROW;
    this.last = time;
    this.part.add(time, line, value);
    return null;
  }

  end() {
    this.part.text.flush();
    if (!this.columns && !this.refused)
      this.refused =
          `record ${this.records.number + 1}: wanted a header with the names of the columns, and the table is empty`;
  }
}
const DATA_WORD = utf8("data");
