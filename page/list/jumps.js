// @ts-check
// Jumps: a link leads to an act, to a line of the statement, to the time line or to a part of the report. What was
// jumped to is marked until the next jump, and Back leads to where one came from. Each jump notes the place it leaves:
// how far the page is scrolled, what has the focus, and what each part shows.
import {by, fieldBy, h} from "../elements.js";
import {state} from "../run/now.js";

import {partLink} from "./links.js";

// What a link has the number or the name of.
const KEYS = ["row", "entry", "at", "part", "fault"];
const JUMP_LINKS = KEYS.map((key) => `[data-${key}]`).join(", ");
const MOST_PLACES = 100;
// Where a link with a key leads, and what shows marked rows.
let jumps = {}, draws = [];

// `main.js` says both, so that each part may leave and mark.
/**
 * @type {(leads: Record<string, (value: any, from?: HTMLElement) => void>, drawn: ((it: Answer) => void)[]) => void}
 */
export function connect(leads, drawn) {
  jumps = leads;
  draws = drawn;
}

// What the list shows now, and back to that.
/** @type {(it: Answer) => any} */
export function actsPlace(it) {
  const fields = ["act-device", "act-kind", "act-text"].map((id) => [id, fieldBy(id)?.value]);
  const boxes = ["act-money", "act-polls"].map((id) => [id, fieldBy(id)?.checked]);
  const {from, hits, hidden, isSearched, nextAct} = it;
  return {fields, boxes, list: {from, hits, hidden, isSearched, nextAct}};
}

/** @type {(it: Answer, place: any) => void} */
export function putActsPlace(it, {fields, boxes, list}) {
  if (!by("acts")) return;
  for (const [id, value] of fields) fieldBy(id).value = value;
  for (const [id, isChecked] of boxes) fieldBy(id).checked = isChecked;
  it.search = {};
  Object.assign(it, list);
}

// Says beside the field why a row isn't shown; nothing if it is.
/** @type {(words: string, isMissing?: boolean) => void} */
export function tellRow(words, isMissing = false) {
  if (by("act-row-told")) {
    by("act-row-told").textContent = words;
    by("act-row").setAttribute("aria-invalid", String(isMissing));
  }
  tellJump(words);
}

const keyOf = (link) => KEYS.find((key) => key in link.dataset);

// How an element can be found again after its part was drawn anew.
function tokenOf(element) {
  const link = element?.closest?.(JUMP_LINKS);
  if (!link) return element?.id ? {id: element.id} : {element};
  const key = keyOf(link);
  return {part: link.closest("section[id], nav[id]")?.id, key, value: link.dataset[key]};
}

function elementOf(token) {
  if (token.id) return by(token.id);
  if (!token.key) return token.element?.isConnected ? token.element : null;
  return (by(token.part) ?? document).querySelector(`[data-${token.key}="${token.value}"]`);
}

function placeOf(it, from) {
  return {
    y: scrollY,
    from: tokenOf(from ?? document.activeElement),
    here: it.here,
    acts: actsPlace(it),
    lines: it.lineFrom,
    range: it.line && [it.line.from, it.line.to]
  };
}

// Notes the place that a jump leaves.
/** @type {(it: Answer, from?: Element) => void} */
export function leave(it, from) {
  it.places ??= [];
  it.places.push(placeOf(it, from));
  if (it.places.length > MOST_PLACES) it.places.shift();
}

// Marks rows in each part that shows them: `here` has the first and the last row, and when they were.
/** @type {(it: Answer, here: Here | undefined) => void} */
export function markHere(it, here) {
  it.here = here;
  for (const line of document.querySelectorAll("#fault tr.here, .about tr.here")) {
    line.classList.remove("here");
    if (!line.classList.contains("mark")) line.removeAttribute("aria-current");
  }
  for (const draw of draws) draw(it);
}

/** @type {(it: Answer, first: number, last: number) => boolean} */
export const isHere = (it, first, last) => Boolean(it.here) && first <= it.here.last && last >= it.here.first;

// Brings an element into sight and gives it the focus.
/** @type {(element: any) => void} */
export function land(element) {
  if (!element) return;
  if (!element.matches("a, button, input, select")) element.tabIndex = -1;
  element.scrollIntoView({block: element.matches("tr, a, svg") ? "center" : "start"});
  element.focus({preventScroll: true});
  by("jumps").hidden = !state.places?.length;
}

/** @type {(words: string) => void} */
export function tellJump(words) {
  by("jump-told").textContent = words;
}

// Where the last jump came from.
function back(it) {
  const place = it.places?.pop();
  if (!place) return;
  putActsPlace(it, place.acts);
  it.lineFrom = place.lines;
  if (place.range) [it.line.from, it.line.to] = place.range;
  markHere(it, place.here);
  scrollTo(0, place.y);
  const from = elementOf(place.from) ?? by("verdict");
  if (!from.matches("a, button, input, select, summary, [tabindex]")) from.tabIndex = -1;
  from.focus({preventScroll: true});
  tellJump("");
  by("jumps").hidden = !it.places.length;
}

/** @type {(id: string, from?: Element) => void} */
export function jumpToPart(id, from) {
  leave(state, from);
  tellJump("");
  const part = by(id);
  land(part.querySelector("h2, h3") ?? part);
}

// The parts of the report, at its top.
/** @type {(parts: Element[]) => HTMLElement} */
export function contents(parts) {
  const links = parts.map((part) => h("li", {}, partLink(part.id, part.querySelector("h2").textContent)));
  return h("nav", {id: "contents", class: "noprint", "aria-label": "Contents of the report"}, h("ul", {}, links));
}

// The way back, at the foot of the window as soon as something was jumped to.
/** @type {() => HTMLElement} */
export function jumpBar() {
  return h(
      "nav", {id: "jumps", class: "noprint", "aria-label": "Back", hidden: true},
      h("button", {type: "button", id: "back", onclick: () => back(state)}, "Back"),
      partLink("verdict", "To the verdict"), h("span", {id: "jump-told", role: "status"}));
}

document.addEventListener("click", (e) => {
  /** @type {HTMLElement | null | undefined} */
  const link = /** @type {HTMLElement} */ (e.target).closest?.(JUMP_LINKS);
  if (!link || !state || e.ctrlKey || e.metaKey || e.shiftKey) return;
  const key = keyOf(link);
  e.preventDefault();
  jumps[key](key === "part" ? link.dataset[key] : Number(link.dataset[key]), link);
});
