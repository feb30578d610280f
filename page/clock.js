// @ts-check
// The clock. All times of the page go through `when`: of the clock, if it is known when the recording began, else of
// the rows. Lengths of time go through `seconds`.
import {by, fieldBy, openWays} from "./elements.js";
import {madeFiles} from "./import/made.js";
import {MOST_TIME} from "./import/numbers.js";
import {CLOCK} from "./import/times.js";
import {state} from "./run/now.js";
import {fraction, padded, rowTime} from "./times.js";

const DAY = 86400e6;
// What the clock shows: `zero` is where it stands at TIME 0, in microseconds since midnight or, if the date is known
// (`hasDate`), since 1970. `first` is the day of the first row. Null if no clock is known.
/** @type {{zero: number, hasDate: boolean, first: number} | null} */
export let clock = null;
// The TIME whose clock the field has: 0, or that of the first row where that is known of it.
let clockAt = 0;
// The recording from which the field was filled.
let filled = null;
// From this TIME on, in 2001, times are since 1970: no recorder has counted for so long.
const SINCE_1970 = 1e15;

const dateWords = (day) => new Date(day * 86400000).toISOString().slice(0, 10);

// A day that isn't the recording's first one, before a time of it.
const dayWords = (day) => clock.hasDate ? `${dateWords(day)} ` : `day ${day - clock.first + 1}, `;

function clockTimeOf(civil, digits) {
  const whole = Math.floor((civil - Math.floor(civil / DAY) * DAY) / 1e6);
  const fields = [Math.floor(whole / 3600), Math.floor(whole / 60) % 60, whole % 60];
  return fields.map((n) => padded(n, 2)).join(":") + fraction(civil, digits);
}

// A time of the recording, in words.
/** @type {(at: number, digits?: number) => string} */
export function when(at, digits = 3) {
  if (!clock) return rowTime(at, digits);
  const civil = clock.zero + Math.floor(at), day = Math.floor(civil / DAY);
  return (day === clock.first ? "" : dayWords(day)) + clockTimeOf(civil, digits);
}

// The same for a table of a spreadsheet: with the date if it is known, and with its microseconds. Empty without a
// clock.
/** @type {(at: number) => string} */
export function clockField(at) {
  if (!clock || Number.isNaN(at)) return "";
  const civil = clock.zero + at;
  return `${clock.hasDate ? dateWords(Math.floor(civil / DAY)) + " " : ""}${clockTimeOf(civil, 6)}`;
}

// A date and a time that are written, or a time alone; null where it is neither.
function readBegan(written) {
  const found = /^(?:(\d{4}-\d\d-\d\d)[ T]+)?(\d{1,2}):(\d\d)(?::(\d\d)(?:[.,](\d{1,6}))?)?$/.exec(written.trim());
  if (!found) return null;
  const [, date, hours, minutes, whole = "0", part = ""] = found, midnight = date ? Date.parse(date) : 0;
  const isTime = Number(hours) < 24 && Number(minutes) < 60 && Number(whole) < 60;
  if (!isTime || Number.isNaN(midnight) || date && dateWords(midnight / 86400000) !== date) return null;
  const micros = ((Number(hours) * 60 + Number(minutes)) * 60 + Number(whole)) * 1e6 + Number(part.padEnd(6, "0"));
  return {civil: midnight * 1000 + micros, hasDate: Boolean(date)};
}

// Takes the clock as the field has it.
export function setClock() {
  const written = fieldBy("began").value, read = readBegan(written), isWrong = Boolean(written.trim() && !read);
  by("began").setAttribute("aria-invalid", String(isWrong));
  by("began-fault").textContent =
      isWrong ? "Write a date and a time, 2026-11-28 14:30, or the time alone, 14:30:05." : "";
  clock = read ? {zero: read.civil - clockAt, hasDate: read.hasDate, first: 0} : null;
  if (state) startClock(state);
  tellClock();
}

// The day of the first row is the clock's first day.
/** @type {(it: Answer) => void} */
export function startClock({list, listed}) {
  if (clock) clock.first = Math.floor((clock.zero + (listed ? list.start(0) : 0)) / DAY);
}

// Says beside the field what it is the time of, and when row 1 is then.
export function tellClock() {
  const isRow = clockAt > 0,
        what = isRow ? "This is the time of row 1, as the file has it. Correct it if that clock was wrong." :
                       "This is the time at which the recorder counted 0.";
  const first = clock && state?.listed && !isRow ? ` Row 1 is then at ${when(state.list.start(0))}.` : "";
  by("began-told").textContent = what + first;
}

export function openClock() {
  openWays();
  by("began").focus();
  by("began").scrollIntoView({block: "center"});
}

// Another recording began at another time.
export function forgetClock() {
  clockAt = 0;
  filled = null;
  fieldBy("began").value = "";
  setClock();
}

// Fills the field from rows whose times are those of a clock, once: of times of day, of dates, or since 1970.
/** @type {(rows: File) => Promise<void>} */
export async function fillClock(rows) {
  const source = madeFiles.get(rows), whole = source?.whole ?? rows;
  if (filled === whole) return;
  const [, written = "0"] = /^\s*(\d+),/.exec(await rows.slice(0, 64).text()) ?? [], time = Number(written);
  if (!source?.clockForm && time < SINCE_1970 || time >= MOST_TIME) return;
  filled = whole;
  clockAt = time;
  const date = source?.clockForm === CLOCK ? "" : `${dateWords(Math.floor(time / DAY))} `;
  fieldBy("began").value = date + clockTimeOf(time, time % 1000 ? 6 : 3);
  setClock();
}

// When the recording began, for the record; null where that isn't known.
/** @type {() => string | null} */
export function beganWords() {
  if (!clock) return null;
  const what = clockAt ? "row 1, as the file has it" : "where its rows count 0, as given on this page";
  return `${fieldBy("began").value.trim()} (${what})`;
}

// The lengths of TIME in which the clock shows what is written, a time that begins so, on each day that has it; null
// where it isn't written as the clock shows times.
/** @type {(text: string, it: Answer) => {low: number, high: number}[] | null} */
export function clockTimes(text, {list, listed}) {
  const found = /^(?:(\d{4}-\d\d-\d\d) +|day (\d+),? +)?(\d{1,2}):(\d\d)(?::(\d\d)(?:\.(\d{1,6}))?)?$/.exec(text);
  if (!clock || !found || !listed) return null;
  const [, date, number, hours, minutes, whole, part = ""] = found, times = [];
  const long = whole === undefined ? 60e6 : 10 ** (6 - part.length);
  const micros = ((Number(hours) * 60 + Number(minutes)) * 60 + Number(whole ?? 0)) * 1e6 + Number(part.padEnd(6, "0"));
  const last = Math.floor((clock.zero + list.end(listed - 1)) / DAY);
  for (let day = clock.first; day <= last; day++) {
    if (date && (!clock.hasDate || dateWords(day) !== date) || number && day - clock.first + 1 !== Number(number))
      continue;
    const low = day * DAY + micros - clock.zero;
    times.push({low, high: low + long});
  }
  return times;
}
