// @ts-check
// Names, and how numbers and lines of a recording are written.
import {h} from "./elements.js";

/** @type {Record<string, string>} */
export const BLAMES = {
  controller: "the controller (VMC)",
  changer: "the coin changer",
  bill: "the bill validator",
  cashless: "card reader 1",
  "cashless-2": "card reader 2",
  other: "a device that nobody had asked"
};
// What mdbimport writes at the end of an export that it refuses.
export const REFUSED_LINE = "mdbimport refused this export";
// A device's name in a sentence: a reader's has no article.
/** @type {(name: string) => string} */
export const the = (name) => name.startsWith("card reader") ? name : `the ${name}`;
/** @type {(n: number | string) => string} */
export const number = (n) => String(n).replace(/\B(?=(\d{3})+$)/g, ",");
/** @type {(words: string) => string} */
export const capital = (words) => words[0].toUpperCase() + words.slice(1);
/** @type {(words: string) => string} */
export const small = (words) => words[0].toLowerCase() + words.slice(1);

// A file's name, with what can't be seen or turns the text around it written out.
/** @type {(name: string) => string} */
export const shownName = (name) => name.replace(/[\p{Cc}\p{Cf}\p{Cs}\p{Zl}\p{Zp}]/gu, (it) => {
  const code = it.codePointAt(0).toString(16).toUpperCase();
  return code.length > 4 ? `\\u{${code}}` : `\\u${code.padStart(4, "0")}`;
});
/** @type {(name: string) => HTMLElement} */
export const nameShown = (name) => h("strong", {}, h("bdi", {id: "name"}, name));

// The text of a line, as the program tells it: what isn't printed as \x and two digits.
/** @type {(line: Line) => string} */
export function shown(line) {
  let text = "";
  for (const b of line.bytes)
    text += b === 0x22 || b === 0x5C ? "\\" + String.fromCharCode(b) :
        b >= 32 && b < 127           ? String.fromCharCode(b) :
                                       "\\x" + hex(b);
  return text + (line.whole ? "" : "..");
}

// What the program says it found in a row that is none: bytes until 48 or more characters stand there.
/** @type {(line: Line) => string} */
export function foundText(line) {
  let text = "", used = 0;
  for (const b of line.bytes) {
    if (text.length >= 48) break;
    text += shown({bytes: [b], whole: true});
    used++;
  }
  return text + (used < line.length ? ".." : "");
}

/** @type {(words: string[]) => string} */
export const listed = (words) =>
    words.length < 2 ? words.join("") : `${words.slice(0, -1).join(", ")} and ${words[words.length - 1]}`;
/** @type {(n: number, one: string, many?: string) => string} */
export const counted = (n, one, many = one + "s") => `${number(n)} ${n === 1 ? one : many}`;

/** @type {(byte: number) => string} */
export const hex = (byte) => byte.toString(16).toUpperCase().padStart(2, "0");

// A whole number of smallest units, with the point where the device has it.
/** @type {(units: number | bigint, decimals: number) => string} */
export function money(units, decimals) {
  let digits = String(units), sign = "";
  if (digits[0] === "-") {
    sign = "−";
    digits = digits.slice(1);
  }
  if (!decimals) return sign + digits;
  digits = digits.padStart(decimals + 1, "0");
  return `${sign}${digits.slice(0, -decimals)}.${digits.slice(-decimals)}`;
}
