// @ts-check
// What an import takes for what, in words.
import {h} from "../elements.js";
import {shownName} from "../texts.js";

import {MADE_TIMES} from "./made.js";
import {RAW_FORMATS} from "./text.js";
import {CLOCK, NUMBER} from "./times.js";

// What the page took for what.
/** @type {(it: OpenImport) => HTMLElement} */
export function tookList({format, look, found}) {
  const encoding = encodingWords(format, found);
  const items = {
    rows: rowsTook,
    saleae: saleaeTook,
    edges: edgesTook,
    sigrok: sigrokTook,
    vcd: vcdTook,
    messages: messagesTook
  }[format](look);
  return h(
      "ul", {id: "import-took"},
      [...items, timesTook(look), encoding].filter(Boolean).map((words) => h("li", {}, words)));
}

// What is made of times that are no numbers.
/** @type {(look: {timeForm?: string | null}) => string | null} */
function timesTook({timeForm}) {
  if (!timeForm || timeForm === NUMBER) return null;
  return timeForm === CLOCK ? "A time of day that is more than 12 hours back is of the next day." :
                              "Dates without an offset are taken as UTC.";
}

function encodingWords(format, {encoding, hasMark}) {
  const isWide = encoding?.startsWith("utf-16");
  if (!isWide && !hasMark) return null;
  const words = isWide ? "The text was saved as UTF-16." : "The text has a byte order mark.";
  return RAW_FORMATS.includes(format) ?
      `${words} The page reads it all the same. mdbimport wants it as UTF-8 without a mark.` :
      words;
}

function rowsTook({titles, separators = []}) {
  return [
    titles ? `The first record is taken for a header: ${shownName(titles.join(" | "))}.` : null,
    `The first field is the time, the second the line, the third the value. Fields are separated by ${
        separators.join(" and ") || "commas"}.`,
  ];
}

/** @type {(look: {columns?: Record<string, string>}) => string[]} */
function saleaeTook({columns = {}}) {
  const {time, name, data, error, parity, framing, address} = columns,
                                                   quoted = (it) => it ? `“${shownName(it)}”` : "no column";
  const errors = [error, parity, framing].filter(Boolean).map(quoted).join(" and ");
  return [
    `The time is the column ${quoted(time)}, in seconds. The word is ${quoted(data)}. The line is ${quoted(name)}.`,
    `${errors ? `Errors stand in ${errors}` : "No column tells errors"}.${
        address ? ` The mode bit is ${quoted(address)}.` : ""}`,
  ];
}

function edgesTook({timeTitle = ""}) {
  return [`The time is the first column, “${
      shownName(timeTitle)}”. The others are levels: 1 is high, 0 is low. Words are read at 9600 baud.`];
}

function sigrokTook() {
  return ["TX is the controller's line (M), RX that of the devices (S). Times are in microseconds."];
}

function vcdTook() {
  return [
    "Each variable of one bit may be a line: 1 is high, 0 is low. The file tells the unit of its times. Words are read at 9600 baud."
  ];
}

function messagesTook({titles, digits}) {
  const words = digits === 3 ? "three hexadecimal digits, as they stand" :
      digits === 2           ? "two hexadecimal digits, with the mode bits that the bus has" :
                               "two or three digits";
  return [
    titles ? `The first line is taken for a header: ${shownName(titles)}.` : null,
    `Each line is a message: when, who spoke, and its words of ${words}.`, MADE_TIMES
  ];
}
