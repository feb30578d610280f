// @ts-check
// Numbers as an export writes them, in decimal and hexadecimal digits.
import {COMMA, placeIn, POINT} from "./text.js";

/** @type {Record<string, number>} */
export const UNITS = {
  s: 6,
  ms: 3,
  us: 0,
  ns: -3
};
// Times are below this, since the page counts with JavaScript's numbers. (mdbimport takes 18 digits.)
export const MOST_TIME = 2 ** 53, MOST_LENGTH = 1e9;
export const LONG_TIME =
    `wanted a time of at most ${MOST_TIME - 1} microseconds: this page counts no further, mdbimport up to 18 digits`;
export const POWERS = [1, 10, 100, 1e3, 1e4, 1e5, 1e6, 1e7, 1e8, 1e9, 1e10, 1e11, 1e12, 1e13, 1e14, 1e15];

/** @type {(byte: number) => boolean} */
export const isDigit = (byte) => byte >= 48 && byte < 58;

// The whole number that 1 to 16 digits write, or -1. One of 2^53 or more may be rounded.
/** @type {(all: Uint8Array, from: number, to: number, most?: number) => number} */
export function digitsOf(all, from, to, most = 16) {
  if (to <= from || to - from > most) return -1;
  let number = 0;
  for (let i = from; i < to; i++) {
    if (!isDigit(all[i])) return -1;
    number = number * 10 + all[i] - 48;
  }
  return number;
}

// Whether a field has digits alone.
/** @type {(field: Field) => boolean} */
export function areDigits({all, from, to}) {
  for (let i = from; i < to; i++)
    if (!isDigit(all[i])) return false;
  return to > from;
}

// The bytes of a field as words, a sign for each.
/** @type {(field: Field) => string} */
export const latin = ({all, from, to}) => new TextDecoder("latin1").decode(all.subarray(from, to));

// The whole number that 1 to 21 digits write, without loss; or -1.
function wholeOf(field) {
  const {all, from, to} = field, number = digitsOf(all, from, to);
  if (to - from < 16 || Number.isSafeInteger(number) && number >= 0) return number;
  if (to - from > 21 || !areDigits(field)) return -1;
  const whole = BigInt(latin(field));
  return Number.isSafeInteger(Number(whole)) ? Number(whole) : whole;
}

// The number that a field writes: 1 to 21 digits, perhaps a point or a comma and 1 to 15 more; or null.
export function numberOf(field) {
  const {all, from, to} = field;
  let mark = placeIn(field, POINT);
  if (mark < 0) mark = placeIn(field, COMMA);
  const whole = wholeOf({all, from, to: mark < 0 ? to : mark});
  if (whole < 0) return null;
  if (mark < 0) return {whole, decimals: 0, places: 0};
  const decimals = digitsOf(all, mark + 1, to, 15);
  return decimals < 0 ? null : {whole, decimals, places: to - mark - 1};
}

// A whole number divided by a power of ten, and what is left.
/** @type {(whole: number | bigint, digits: number) => number[]} */
export function divided(whole, digits) {
  const part = POWERS[digits];
  if (typeof whole === "bigint") return [Number(whole / BigInt(part)), Number(whole % BigInt(part))];
  const rest = whole % part;
  return [(whole - rest) / part, rest];
}

// The whole number that is nearest to a number times a power of ten, the greater of two; `most` where
// it is that or more. The power is from -3 to 6.
export function nearest({whole, decimals, places}, power, most) {
  if (power < 0) {
    const [number, rest] = divided(whole, -power);
    return Math.min(most, number + (2 * rest >= POWERS[-power] ? 1 : 0));
  }
  const scale = POWERS[power];
  if (whole >= most / scale) return most;
  if (places <= power) return Math.min(most, whole * scale + decimals * POWERS[power - places]);
  const part = POWERS[places - power];
  return Math.min(most, whole * scale + Math.floor(decimals / part) + (2 * (decimals % part) >= part ? 1 : 0));
}

/** @type {(byte: number) => number} */
export function hexDigit(byte) {
  if (isDigit(byte)) return byte - 48;
  const small = byte | 32;
  return small >= 97 && small < 103 ? small - 87 : -1;
}

// The number of 1 to 4 hexadecimal digits, or -1.
/** @type {(all: Uint8Array, from: number, to: number) => number} */
export function hexOf(all, from, to) {
  if (to <= from || to - from > 4) return -1;
  let number = 0;
  for (let i = from; i < to; i++) {
    const digit = hexDigit(all[i]);
    if (digit < 0) return -1;
    number = number * 16 + digit;
  }
  return number;
}

/** @type {(field: Field) => boolean} */
export const hasPrefix = ({all, from, to}) => to - from > 2 && all[from] === 48 && (all[from + 1] | 32) === 120;
