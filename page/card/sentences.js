// @ts-check
// Sentences of a story. One is {kind, parts}: a fact is proved by the acts or by the report, a likely one isn't, a head
// is the card's headline, and next says what to do. A part is a text, or the rows that it rests on.
import {h} from "../elements.js";
import {rowLink} from "../list/links.js";
import {capital, the} from "../texts.js";

/** @type {(...parts: (Part | Part[])[]) => Sentence} */
export const fact = (...parts) => ({kind: "fact", parts: parts.flat()});
/** @type {(...parts: (Part | Part[])[]) => Sentence} */
export const likely = (...parts) => ({kind: "likely", parts: parts.flat()});
// What happened, in a few words: the card's headline.
/** @type {(words: string) => Sentence} */
export const headline = (words) => ({kind: "head", parts: [words]});
/** @type {(...parts: (Part | Part[])[]) => Sentence} */
export const nextStep = (...parts) => ({kind: "next", parts: parts.flat()});
/** @type {(first: number, last?: number) => Rows} */
export const rowsAt = (first, last = first) => ({first, last});
/** @type {(acts: Acts, i: number) => Rows} */
export const actRows = (acts, i) => rowsAt(acts.first(i), acts.last(i));
/** @type {(d: number) => string} */
export const theDevice = (d) => the(SHORT_NAMES[d]);
/** @type {(...rows: Rows[]) => Part[]} */
export const inRows = (...rows) => [" (", ...rows.flatMap((it, i) => i ? [", ", it] : [it]), ")"];

// Names in a story: of a device, and of whom a no is about.
export const SHORT_NAMES = ["", "changer", "validator", "card reader 1", "card reader 2"];

// A part of a sentence: rows are links.
/** @type {(part: Part) => (string | Node)[]} */
function partOf(part) {
  if (typeof part === "string") return [part];
  const word = part.first === part.last ? "row " : "rows ";
  return [part.isCapital ? capital(word) : word, rowLink(part.first, part.last)];
}

// The same of parts within parts, which are of type `Parts`.
/** @type {(parts: any[]) => (string | Node)[]} */
export const partsOf = (parts) => parts.flat(Infinity).flatMap(partOf);

/** @type {(it: Sentence) => HTMLElement} */
export function sentence({kind, parts}) {
  return h("li", {class: kind, "data-kind": kind}, partsOf(parts));
}
