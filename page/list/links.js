// @ts-check
// Links within the report. `jumps.js` follows them.
import {when} from "../clock.js";
import {h} from "../elements.js";

// A link to rows of the recording: `jumpToRow` (acts.js) shows the act that has the first of them.
/** @type {(first: number, last?: number, words?: string | null) => HTMLElement} */
export function rowLink(first, last = first, words = null) {
  const rows = first === last ? String(first) : `${first}–${last}`;
  return h(
      "a", {
        class: "jump rows",
        href: `#row-${first}`,
        "data-row": first,
        "data-last": last,
        title: "Show it in the list of all that was said",
        "aria-label": `${words ?? ""} ${first === last ? "row" : "rows"} ${rows}`.trim()
      },
      words ?? rows);
}

// A link to a time of the time line, for what these rows tell.
/**
 * @param {number} at
 * @param {number} [first]
 * @param {number} [last]
 */
export function timeLink(at, first, last) {
  return h(
      "a", {
        class: "jump",
        href: "#time",
        "data-at": at,
        "data-first": first,
        "data-last": last,
        title: "Show it on the time line"
      },
      when(at));
}

/** @type {(i: number) => HTMLElement} */
export function entryLink(i) {
  return h(
      "a", {class: "jump noprint", href: "#told-money", "data-entry": i, title: "Show it among coins, bills and sales"},
      "money");
}

/** @type {(fault: Fault, words: string) => HTMLElement} */
export function faultLink({number: n}, words) {
  return h("a", {class: "jump noprint", href: "#survey", "data-fault": n, title: "Show it among all faults"}, words);
}

/** @type {(id: string, words: string) => HTMLElement} */
export function partLink(id, words) {
  return h("a", {href: "#" + id, "data-part": id}, words);
}
