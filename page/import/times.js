// @ts-check
// Times as an export writes them (docs/bench/importing.md, Times): numbers, times of day, and dates with these.
import {digitsOf, isDigit, latin, LONG_TIME, MOST_TIME, nearest, numberOf, UNITS} from "./numbers.js";
import {COLON, placeIn, wholeField} from "./text.js";

export const NUMBER = "a number", CLOCK = "a time of day";
const HALF_DAY = 43200e6, DAY = 86400e6;
export const NO_TIME = "wanted a time: up to 21 digits, perhaps with decimals, or HH:MM:SS, perhaps after 2026-11-30 " +
    "or 30.11.2026";
const NO_UNIT = "the unit of the times isn't known: give --unit s, ms, us or ns";
const NO_DATE = "wanted a date that exists, from 1970 on";

// A date and its separator, as text begins with them; and an offset.
export const DATE = /^(?:(\d{4})-(\d\d)-(\d\d)|(\d{1,2})\.(\d{1,2})\.(\d{4}))(?:[Tt]|[ \t,;]+)/;
export const OFFSET = /^(?:[Zz]|([+-])(\d\d)(?::?(\d\d))?)/;

// A time of day: its minutes, and the number of its seconds; or null.
function clockOf(field) {
  const {all, from, to} = field, first = placeIn(field, COLON);
  if (first < 0) return null;
  const second = placeIn({all, from: first + 1, to}, COLON);
  if (second < 0 || first - from > 2 || second - first > 3) return null;
  const hours = digitsOf(all, from, first), minutes = digitsOf(all, first + 1, second);
  const seconds = numberOf({all, from: second + 1, to});
  if (hours < 0 || minutes < 0 || minutes > 59 || !seconds || seconds.whole > 59) return null;
  return {form: CLOCK, minutes: hours * 60 + minutes, seconds};
}

const clockTime = ({minutes, seconds}) => minutes * 6e7 + nearest(seconds, 6, MOST_TIME);

// The microsecond at which a day begins since 1970; NaN where the calendar lacks it, or it is before.
function dayTime(year, month, day) {
  const at = Date.UTC(year, month - 1, day), date = new Date(at);
  return year >= 1970 && date.getUTCMonth() === month - 1 && date.getUTCDate() === day ? at * 1000 : NaN;
}

// A date with a time of day, and perhaps an offset, which is in minutes; or null.
function datedOf(field) {
  const {all, from, to} = field;
  if (from === to || !isDigit(all[from])) return null;
  const text = latin(field), found = DATE.exec(text);
  if (!found) return null;
  const [, year, month, day, firstDay, thenMonth, lastYear] = found, begin = from + found[0].length;
  const run = /^\d[\d.,:]*\d/.exec(text.slice(found[0].length))?.[0].length ?? 0, end = begin + run;
  const clock = clockOf({all, from: begin, to: end}), offset = OFFSET.exec(text.slice(end - from));
  if (!clock || clock.minutes >= 1440 || end - from + (offset?.[0].length ?? 0) < text.length) return null;
  const [, sign, hours = "0", minutes = "0"] = offset ?? [];
  if (Number(hours) > 23 || Number(minutes) > 59) return null;
  return {
    form: `a date with${offset ? "" : "out"} an offset`,
    day: dayTime(Number(year ?? lastYear), Number(month ?? thenMonth), Number(day ?? firstDay)),
    clock,
    offset: (Number(hours) * 60 + Number(minutes)) * (sign === "-" ? -1 : 1)
  };
}

// A time as it is written; null where a field writes none.
/** @type {(field: Field) => any} */
function writtenIn(field) {
  const number = numberOf(field);
  return number ? {form: NUMBER, number} : clockOf(field) ?? datedOf(field);
}

// In which form a field has a time: NUMBER, CLOCK, or a date; null where it has none.
/** @type {(field: Field) => string | null} */
export const timeForm = (field) => writtenIn(field)?.form ?? null;
/** @type {(words: string) => string | null} */
export const timeFormOf = (words) => timeForm(wholeField(words));

// The times of an export, as far as they were read.
export class Times {
  /** @param {string | null} [unit] */
  constructor(unit) {
    this.unit = unit;
    this.form = null; // of all of them, as the first one has it
    this.clock = 0;   // the last time of day, as it is written
    this.midnights = 0;
  }

  // The microsecond that the next field tells, or the words of what is wrong with it.
  /** @type {(field: Field) => number | string} */
  read(field) {
    const written = writtenIn(field);
    if (!written) return NO_TIME;
    this.form ??= written.form;
    if (written.form !== this.form) return `wanted a time in the form of the first, and this is ${written.form}`;
    if (written.form === NUMBER && !this.unit) return NO_UNIT;
    const time = written.form === NUMBER ? nearest(written.number, UNITS[this.unit], MOST_TIME) :
        written.form === CLOCK           ? this.ofDay(clockTime(written)) :
                                           written.day + clockTime(written.clock) - written.offset * 6e7;
    if (!(time >= 0)) return NO_DATE;
    return time < MOST_TIME ? time : LONG_TIME;
  }

  // A time of day as one of the first day: it is of the next day if it is more than 12 hours back.
  ofDay(time) {
    if (this.clock - time > HALF_DAY) this.midnights++;
    this.clock = time;
    return time + this.midnights * DAY;
  }
}
