// @ts-check
// Tables of several pages.
import {by, fieldBy, h} from "../elements.js";
import {number} from "../texts.js";

/** @type {(heads: Heads) => HTMLElement} */
export const headRow = (heads) =>
    h("tr", {role: "row"},
      heads.map(([words, kind]) => h("th", {scope: "col", role: "columnheader", class: kind}, words)));

// The buttons of a table that has more than one page.
/** @type {(id: string, isLong: boolean, step: (by: number) => void) => HTMLElement[]} */
export function pageTools(id, isLong, step) {
  if (!isLong) return [];
  const button = (end, words, by) => h("button", {type: "button", id: `${id}-${end}`, onclick: () => step(by)}, words);
  return [button("back", "Earlier", -1), button("more", "Later", 1)];
}

// Which of its pages a table shows, in words; its buttons are on where they lead somewhere.
/** @type {(id: string, words: string, from: number, last: number, count: number) => void} */
export function tellPage(id, words, from, last, count) {
  if (!by(`${id}-back`)) return;
  by(`${id}-count`).textContent = `${words} ${number(from + 1)} to ${number(last)} of ${number(count)}.`;
  fieldBy(`${id}-back`).disabled = from === 0;
  fieldBy(`${id}-more`).disabled = last >= count;
}
