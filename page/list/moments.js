// @ts-check
// Times that are written in fields of the page.
import {clockTimes} from "../clock.js";

// A time or a range that is written, as 13:20 to 13:40: as lengths of microseconds from `low` to before `high`,
// earliest first. As the page writes it, 14:32, 0.285 s or 1:32.7, all times that begin so; as the rows have it,
// 285000. Shorter numbers are amounts and items.
/** @type {(text: string, it: Answer) => {low: number, high: number}[] | null} */
export function readTime(text, it) {
  const [, from, to] = /^(.*?\S) *(?:\bto\b|–) *(\S.*)$/.exec(text) ?? [];
  return from === undefined ? readMoment(text, it) : readRange(readMoment(from, it), readMoment(to, it));
}

// From one time to the next other one after it, that with which the range ends whole.
function readRange(begins, ends) {
  const range = ({low}) => ({low, high: ends.find((end) => end.high > low)?.high});
  return begins && ends ? begins.map(range).filter(({high}) => high !== undefined) : null;
}

// One time that is written.
function readMoment(text, it) {
  const times = clockTimes(text, it);
  if (times) return times;
  if (/^\d{5,16}$/.test(text)) return [{low: Number(text), high: Number(text) + 1}];
  const found = /^(?:(?:(\d+):)?(\d+):)?(\d+)(?:\.(\d{1,6}))?( ?s)?$/.exec(text);
  if (!found) return null;
  const [, hours, minutes, whole, part = "", unit] = found;
  if (minutes === undefined && part.length < 3 && !unit) return null;
  const low =
      ((Number(hours ?? 0) * 60 + Number(minutes ?? 0)) * 60 + Number(whole)) * 1e6 + Number(part.padEnd(6, "0"));
  return [{low, high: low + 10 ** (6 - part.length)}];
}
