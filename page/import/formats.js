// @ts-check
// The import of any format, and its options.
import {EdgesImport} from "./edges.js";
import {lettersOf} from "./known.js";
import {MessagesImport} from "./messages.js";
import {MOST_LENGTH, UNITS} from "./numbers.js";
import {PlainImport} from "./plain.js";
import {LINE_LETTERS, RowsImport} from "./rows.js";
import {SaleaeImport} from "./saleae.js";
import {SigrokImport} from "./sigrok.js";
import {Decoder, excerpt, noRowIn, notesOf, RAW_FORMATS, RowText, wholeField, wordExcerpt} from "./text.js";
import {Times} from "./times.js";
import {VcdImport} from "./vcd.js";

// An import of any format, over pieces of bytes: `take` each piece, then `end`. The rows are given on
// in pieces of text.
const IMPORTS = {
  plain: PlainImport,
  rows: RowsImport,
  saleae: SaleaeImport,
  edges: EdgesImport,
  messages: MessagesImport,
  sigrok: SigrokImport,
  vcd: VcdImport
};

/**
 * @type {(format: string, options: any, give: (bytes: Uint8Array) => void, each?: ((record: any) => void) | null) =>
 *     any}
 */
export function newImport(format, options, give, each = null) {
  const made = new IMPORTS[format](options, give), {records} = made;
  if (each) watch(made, each);
  // (where `options.decoded` says so, it was saved as UTF-16 or with a byte order mark)
  const isRaw = RAW_FORMATS.includes(format) && !options.decoded;
  const decoder = isRaw ? null : new Decoder((bytes) => records.take(bytes));
  const answers = {
    take: (bytes) => (decoder ?? records).take(bytes),
    isDone: () => records.isDone,
    end: () => {
      decoder?.end();
      records.end();
      made.end();
      return wholeAnswer(made);
    },
    front: (isWhole) => isWhole ? answers.end() : frontOf(made, give)
  };
  return answers;
}

// Calls `each` for each row with the record, or the line, that it was made of.
function watch(made, each) {
  const {records, part} = made, take = records.each;
  records.each = (record) => {
    const before = part.rows, goesOn = take(record);
    for (let row = before; row < part.rows; row++) each(record);
    return goesOn;
  };
}

// What is known of an import whose text goes on: the rows so far, given on, and a refusal.
function frontOf(made, give) {
  if (made.addFirst) {
    const text = new RowText(give);
    made.addFirst(20, (...row) => text.add(...row));
    text.flush();
  } else
    made.end();
  const answer = answerOf(made);
  return {...answer, refused: answer.refused ?? made.wrongSoFar?.() ?? null};
}

// What mdbimport says of a record that is refused, and what is known of the rows before it.
function answerOf(made) {
  const {refused, goOn = null, part} = made, {rows, damaged = null} = part;
  return {refused, goOn, rows, damaged, notes: []};
}

// The same of the whole, with what is reported. It is refused too if it has no row.
function wholeAnswer(made) {
  const answer = answerOf(made);
  if (answer.refused || made instanceof PlainImport) return answer;
  return {...answer, refused: noRowIn(made.part), notes: notesOf(made.part)};
}

// The microsecond that an end of a part writes: whole microseconds, a time of day or a date; or words, where it is
// none.
const endOf = (words) => /^[0-9]{1,18}$/.test(words) ? Number(words) : new Times().read(wholeField(words));

// What mdbimport says of options that it refuses, or null. All are words, as they stand in fields.
/** @type {(options: ImportWords) => string | null} */
export function optionsFault({unit, controller, peripheral, from, until, length, timeOf: which}) {
  const isGiven = (words) => words !== undefined && words !== null;
  const wrong = (option, words, why) => `--${option} "${wordExcerpt(words)}" ${why}`;
  if (isGiven(unit) && !(unit in UNITS)) return wrong("unit", unit, "isn't s, ms, us or ns");
  if (isGiven(which) && which !== "first" && which !== "last") return wrong("time-of", which, "isn't first or last");
  for (const [option, name] of Object.entries({controller, peripheral}))
    if (name === "" || LINE_LETTERS.includes(name)) return wrong(option, name, "can't name a line");
  if (isGiven(controller) && controller === peripheral) return "--controller and --peripheral have one name";
  if (isGiven(length) && !(/^[0-9]{1,18}$/.test(length) && Number(length) < MOST_LENGTH))
    return wrong("break", length, "isn't microseconds below 1000000000");
  for (const [option, time] of Object.entries({from, until}))
    if (isGiven(time) && typeof endOf(time) === "string")
      return wrong(
          option, time,
          /^[0-9]+$/.test(time) ? "has more than 18 digits" :
                                  "isn't whole microseconds, or HH:MM:SS, perhaps after a date");
  return null;
}

// The options of an import by the words of the fields.
/** @type {(options: ImportWords) => any} */
export function optionsOf({from, until, length, ...rest}) {
  const value = (words) => words === undefined || words === null ? null : endOf(words);
  return {...rest, from: value(from), until: value(until), length: value(length)};
}

// The first rows that a piece of a text gives, with the records of those that are made of one; and what answerOf says
// of that piece.
/** @type {(bytes: Uint8Array, isWhole: boolean, format: string, options: any, most?: number) => any} */
export function preview(bytes, isWhole, format, options, most = 5) {
  const parts = [], records = [];
  const made = newImport(format, options, (part) => parts.push(part), (record) => {
    if (records.length < most) records.push({number: record.number, found: excerpt(record)});
  });
  made.take(bytes);
  const answer = made.front(isWhole);
  const first = parts.map(lettersOf).join("").split("\n").slice(0, most);
  return {...answer, first: first.filter(Boolean), records, isWhole};
}
