// @ts-check
// All that was said, act by act.
import {ACK, ASK, BREAK, DEVICE_NAMES, FOREIGN, KINDS, POLLS, REPEAT, REPLY} from "../checker/acts.js";
import {ANSWERS} from "../checker/answers.js";
import {DEVICE_RULES} from "../checker/report.js";
import {clock, when} from "../clock.js";
import {by, fieldBy, h, section} from "../elements.js";
import {state} from "../run/now.js";
import {gapRow, gapWords} from "../survey/gaps.js";
import {number} from "../texts.js";

import {isHere, land, leave, markHere, tellJump, tellRow} from "./jumps.js";
import {entryLink, rowLink, timeLink} from "./links.js";
import {actAtRow, entryAt, faultIn, faultIs, gapAt, hasRow, isUnjudged} from "./lookup.js";
import {readTime} from "./moments.js";
import {headRow} from "./tables.js";
import {actWords, KIND_CHOICES, KIND_WORDS, shortSpeaker, speaker, voice} from "./words.js";

const PAGE_ACTS = 100;
/** @type {Heads} */
export const ACT_HEADS =
    [["begins at", "number"], ["rows"], ["who", "wide"], ["kind", "wide"], ["in words"], ["bytes"]];
// So many milliseconds a search works before it lets the page do something else.
const SEARCH_PIECE = 25, MOST_SEEN = 100000;

// An act's line, with links to where else the act is shown. What is apart from the list has no links to its rows.
/** @type {(it: Answer, i: number, isInList?: boolean) => HTMLElement} */
export function actRow(it, i, isInList = false) {
  const acts = it.list, first = acts.first(i), last = acts.last(i), start = acts.start(i);
  const bad = faultIn(it, {first, last}), here = isInList && isHere(it, first, last);
  const rows = first === last ? String(first) : `${first}–${last}`, entry = entryAt(it, first, last);
  const cell = (kind, ...inner) => h("td", {role: "cell", class: kind}, ...inner), who = voice(acts, i);
  return h(
      "tr", {
        role: "row",
        id: isInList ? `row-${first}` : undefined,
        class: [bad && "mark", here && "here", who && `by-${who}`].filter(Boolean).join(" ") || undefined,
        "aria-current": here ? "true" : undefined
      },
      cell("number", timeLink(start)), cell("rows", isInList || it.isApart ? rows : rowLink(first, last)),
      cell("wide who", speaker(acts, i)), cell("wide", KIND_WORDS[acts.kind(i)]),
      cell(
          "said", h("span", {class: "narrow who"}, `${shortSpeaker(acts, i)}: `), actWords(acts, i),
          bad ? h("strong", {}, ` – ${faultIs(bad.rule)}`) :
              isUnjudged(it, {first}) ? h("span", {class: "soft"}, " – not judged") :
                                        null,
          entry < 0 ? null : [" ", entryLink(entry)]),
      cell("bytes", acts.hex(i)));
}

// A table of acts: on a telephone each act has the words below its time and its rows.
/** @type {(caption: string, body: Element) => HTMLElement} */
export function actTable(caption, body) {
  return h(
      "div", {class: "scroll"},
      h("table", {role: "table", class: "acts"}, h("caption", {}, caption),
        h("thead", {role: "rowgroup"}, headRow(ACT_HEADS)), body));
}

// Which acts are polls without news: a POLL and the acknowledgement that answers it. Those with the row that cannot be
// are none.
function quietPolls(it) {
  const acts = it.list, quiet = new Uint8Array(acts.count);
  for (let i = 0; i + 1 < acts.count; i++) {
    const device = acts.device(i);
    if (acts.kind(i) !== ASK || acts.byte(i, 0) !== POLLS[device]) continue;
    if (acts.kind(i + 1) !== ACK || acts.device(i + 1) !== device || i + 1 === it.hole) continue;
    if (!faultIn(it, {first: acts.first(i), last: acts.last(i + 1)})) quiet[i] = quiet[i + 1] = 1;
  }
  return quiet;
}

// What the field for a text may mean: words, bytes with or without blanks, a time.
function readQuery(written, it) {
  const text = written.trim().toLowerCase();
  const isHex = /^[0-9a-f]{2}(\s*[0-9a-f]{2})*$/.test(text);
  const bytes = isHex ? text.replace(/\s/g, "").match(/../g).map((two) => parseInt(two, 16)) : null;
  return {text, bytes, times: readTime(text, it), seen: new Map()};
}

function hasBytes(acts, i, wanted) {
  const bytes = acts.bytes(i), last = bytes.length - wanted.length;
  for (let at = 0; at <= last; at++) {
    let k = 0;
    while (k < wanted.length && bytes[at + k] === wanted[k]) k++;
    if (k === wanted.length) return true;
  }
  return false;
}

// An act's kind, device, reading and bytes, as a text.
const toldBy = (acts, i) =>
    String.fromCharCode(acts.kind(i), acts.device(i), acts.reading(i)) + String.fromCharCode.apply(null, acts.bytes(i));

// What an act's words depend on: acts with the same have the same words. All polls without news of a device have.
function wordsKey(acts, i) {
  if (acts.poll(i) >= 0) return 2 * acts.device(i) + Number(acts.isAnswer(i));
  const kind = acts.kind(i), device = acts.device(i), told = toldBy(acts, i);
  if (kind === ASK) return told + setupNumber(acts, device, i);
  if (kind === BREAK) return told + acts.length(i);
  if (kind === FOREIGN && acts.isFromBefore(i)) return told + acts.first(i);
  if (kind > REPLY && kind !== REPEAT) return told;
  const at = acts.askOf(i);
  return told + setupNumber(acts, device, i) + (at < 0 ? "" : toldBy(acts, at));
}

const setupNumber = (acts, device, i) => acts.setupAt(device, i)?.from ?? "";

// Whether a text is in an act's words. Acts with the same words are looked at once.
function hasText(acts, i, {text, seen}) {
  const key = wordsKey(acts, i), known = seen.get(key);
  if (known !== undefined) return known;
  const words = `${speaker(acts, i)} ${KINDS[acts.kind(i)]} ${KIND_WORDS[acts.kind(i)]} ${actWords(acts, i)}`,
        has = words.toLowerCase().includes(text);
  if (seen.size >= MOST_SEEN) seen.clear();
  seen.set(key, has);
  return has;
}

function isMeant(acts, i, query) {
  const {bytes, times} = query;
  if (times?.some(({low, high}) => acts.start(i) < high && acts.end(i) >= low)) return true;
  return bytes !== null && hasBytes(acts, i, bytes) || hasText(acts, i, query);
}

// What the fields above the list ask for.
function askedActs(it) {
  const value = (id) => fieldBy(id).value;
  return {
    device: Number(value("act-device")),
    kind: value("act-kind") === "" ? -1 : Number(value("act-kind")),
    isMoney: fieldBy("act-money").checked,
    isPolls: fieldBy("act-polls").checked,
    query: value("act-text").trim() ? readQuery(value("act-text"), it) : null
  };
}

function isFound(it, i, {device, kind, isMoney, query}) {
  const acts = it.list;
  if (device && acts.device(i) !== device) return false;
  if (kind >= 0 && acts.kind(i) !== kind) return false;
  if (isMoney && entryAt(it, acts.first(i), acts.last(i)) < 0) return false;
  return !query || isMeant(acts, i, query);
}

// The acts that the fields above the list find: `then` is called when they are drawn. Long lists are searched piece by
// piece.
async function find(it) {
  const wanted = askedActs(it), mine = it.search = {}, hits = [];
  let hidden = 0, until = performance.now() + SEARCH_PIECE;
  it.quiet ??= quietPolls(it);
  for (let i = 0; i < it.list.count; i++) {
    if (i % 256 === 255 && performance.now() > until) {
      tellSearch(it, i / it.list.count);
      await new Promise((done) => setTimeout(done));
      if (it.search !== mine) return;
      until = performance.now() + SEARCH_PIECE;
    }
    if (it.quiet[i] && !wanted.isPolls)
      hidden += isFound(it, i, wanted);
    else if (isFound(it, i, wanted))
      hits.push(i);
  }
  it.hits = hits;
  it.hidden = hidden;
  it.isSearched = wanted.device > 0 || wanted.kind >= 0 || wanted.isMoney || wanted.query !== null;
  it.nextAct = hits.length || !wanted.query?.times?.length ? -1 : actAfter(it, wanted.query.times[0].low);
  it.from = 0;
  drawActs(it);
}

function tellSearch(it, part) {
  by("act-count").textContent = `Searching: ${Math.round(part * 100)} %`;
}

// The first act that begins at a time or after it; −1 if there is none.
function actAfter(it, time) {
  const acts = it.list;
  let low = 0, high = acts.count;
  while (low < high) {
    const mid = (low + high) >> 1;
    if (acts.start(mid) < time)
      low = mid + 1;
    else
      high = mid;
  }
  return low < acts.count ? low : -1;
}

// How many acts were found, which of them are shown, and which aren't.
function countWords(it) {
  const count = it.hits.length, last = Math.min(count, it.from + PAGE_ACTS), words = [];
  words.push(`${number(count)} ${count === 1 ? "act" : "acts"}${it.isSearched ? " found" : ""}${
      count > PAGE_ACTS ? `, ${number(it.from + 1)} to ${number(last)} shown` : ""}.`);
  if (it.hidden) words.push(`${number(it.hidden)} acts of polls without news are hidden.`);
  if (it.hole >= 0)
    words.push(
        `The first ${number(it.hole)} and the last ${number(it.listed - it.hole)} of ${number(it.all)} are listed.`);
  return words.join(" ");
}

// The lines of the acts that are shown, with the gaps before them, and after the last one.
function actLines(it) {
  const acts = it.list, to = it.from + PAGE_ACTS, made = [];
  let before = it.from ? acts.last(it.hits[it.from - 1]) : 0;
  for (const i of it.hits.slice(it.from, to)) {
    made.push(...gapRow(it, before, acts.first(i)), actRow(it, i, true));
    before = acts.last(i);
  }
  return to < it.hits.length ? made : [...made, ...gapRow(it, before, Infinity)];
}

/** @type {(it: Answer) => void} */
export function drawActs(it) {
  if (!it.hits || !by("act-rows")) return;
  const count = it.hits.length, greatest = Math.floor(Math.max(0, count - 1) / PAGE_ACTS) * PAGE_ACTS;
  it.from = Math.max(0, Math.min(it.from, greatest));
  by("act-rows").replaceChildren(...actLines(it));
  by("act-count").textContent = countWords(it);
  if (it.nextAct >= 0)
    by("act-count")
        .append(
            " The next act begins at ", when(it.list.start(it.nextAct)), ": ",
            rowLink(it.list.first(it.nextAct), it.list.last(it.nextAct)));
  fieldBy("act-back").disabled = it.from === 0;
  fieldBy("act-more").disabled = it.from + PAGE_ACTS >= count;
}

// The place of an act among those that are found; −1 if it isn't among them.
function hitOf(it, i) {
  let low = 0, high = it.hits.length;
  while (low < high) {
    const mid = (low + high) >> 1;
    if (it.hits[mid] < i)
      low = mid + 1;
    else
      high = mid;
  }
  return it.hits[low] === i ? low : -1;
}

// Lists all acts; those of polls without news if they are asked for.
function listAll(it, isPolls) {
  fieldBy("act-device").value = fieldBy("act-kind").value = fieldBy("act-text").value = "";
  fieldBy("act-money").checked = false;
  fieldBy("act-polls").checked = isPolls;
  it.search = {};
  it.quiet ??= quietPolls(it);
  it.hits = [];
  for (let i = 0; i < it.list.count; i++)
    if (isPolls || !it.quiet[i]) it.hits.push(i);
  it.hidden = it.list.count - it.hits.length;
  it.isSearched = false;
  it.nextAct = -1;
}

// Shows the list from the row that cannot be on, else from its first act.
/** @type {(it: Answer) => void} */
export function beginActs(it) {
  listAll(it, false);
  if (it.answer === ANSWERS.NO) it.from = Math.floor(shownBefore(it, actAtRow(it, it.row)) / PAGE_ACTS) * PAGE_ACTS;
  drawActs(it);
}

// Why a row isn't listed.
function unlistedWords(it, row) {
  const acts = it.list, end = acts.last(acts.count - 1), name = `Row ${number(row)} isn't listed`;
  if (!Number.isInteger(row) || row < 1) return "Rows have whole numbers, from 1 on.";
  if (row > end) return `${name}: the list ends with row ${number(end)}.`;
  if (it.hole < 0) return `${name}: it belongs to no act.`;
  const from = acts.last(it.hole - 1) + 1, to = acts.first(it.hole) - 1;
  return `${name}: of so long a recording the rows ${number(from)} to ${number(to)} aren't.`;
}

// Shows the act that has a row, marks it and goes there. A row that isn't listed is said so, and nothing else is shown
// in its place.
/** @type {(row: number, from?: Element) => boolean} */
export function jumpToRow(row, from) {
  const it = state, i = it.listed ? actAtRow(it, row) : -1;
  if (!hasRow(it.list, i, row)) {
    const gap = gapAt(it, row);
    return gap && by("acts") ? jumpToGap(it, gap, from) : jumpToFileRow(it, row, from);
  }
  leave(it, from);
  tellRow("");
  it.quiet ??= quietPolls(it);
  if (!it.hits || hitOf(it, i) < 0) {
    listAll(it, fieldBy("act-polls").checked || Boolean(it.quiet[i]));
    if (it.quiet[i]) tellJump(`Row ${number(row)} is of a poll without news: these are shown now.`);
  }
  it.from = Math.floor(hitOf(it, i) / PAGE_ACTS) * PAGE_ACTS;
  markHere(it, {first: it.list.first(i), last: it.list.last(i), at: it.list.start(i)});
  land(by(`row-${it.list.first(i)}`));
  return true;
}

// A row in no act may stand among the rows of the file about one that cannot be.
function jumpToFileRow(it, row, from) {
  const last = Number(from?.dataset?.last ?? row), isAbout = Boolean(from?.closest?.(".about"));
  const place = () => fileLines(row, row).at(isAbout ? -1 : 0) ?? fileLines(row, last)[0];
  if (!place()) {
    if (it.listed) tellRow(unlistedWords(it, row), true);
    by("jumps").hidden = false;
    return false;
  }
  leave(it, from);
  tellRow("");
  markHere(it, {first: row, last: row});
  const line = place();
  line.classList.add("here");
  line.setAttribute("aria-current", "true");
  land(line);
  return true;
}

// The lines of the rows of the file, as far as they are shown.
/** @type {(first: number, last: number) => HTMLElement[]} */
function fileLines(first, last) {
  const rowOf = (line) => Number(line.querySelector("th")?.textContent.replaceAll(",", ""));
  /** @type {NodeListOf<HTMLElement>} */
  const lines = document.querySelectorAll("#fault tbody tr, .about tbody tr");
  return [...lines].filter((it) => rowOf(it) >= first && rowOf(it) <= last);
}

// The fields above the list.
function actTools(it) {
  const again = () => find(it), option = (value, words) => h("option", {value}, words);
  let wait;
  const soon = () => {
    clearTimeout(wait);
    wait = setTimeout(again, 200);
  };
  const step = (by) => () => {
    it.from += by * PAGE_ACTS;
    drawActs(it);
  };
  const box = (id, words) =>
      h("label", {class: "box"}, h("input", {type: "checkbox", id, onchange: again}), " ", words);
  return h(
      "div", {class: "tools noprint", role: "search", "aria-label": "Acts"},
      h("label", {}, "Device",
        h("select", {id: "act-device", onchange: again}, option("", "all"),
          DEVICE_NAMES.slice(1).map((words, i) => option(i + 1, words)))),
      h("label", {}, "Kind",
        h("select", {id: "act-kind", onchange: again}, option("", "all"),
          KIND_CHOICES.map((words, i) => option(i, words)))),
      h("label", {}, "Words, bytes or time", h("input", {
          type: "search",
          id: "act-text",
          placeholder: clock ? "13 02, item 8, 14:32, 14:32 to 14:40" : "13 02, 0.285 s, 1:32 to 1:40",
          oninput: soon
        })),
      box("act-money", "Only money"), box("act-polls", "Polls without news"), ...rowTools(),
      h("button", {type: "button", id: "act-back", onclick: step(-1)}, "Earlier"),
      h("button", {type: "button", id: "act-more", onclick: step(1)}, "Later"));
}

function rowTools() {
  const go = () => {
    const row = fieldBy("act-row").value;
    if (row !== "") jumpToRow(Number(row), by("act-row"));
  };
  const isEnter = (e) => e.key === "Enter";
  return [
    h("label", {}, "Row", h("input", {
        type: "number",
        id: "act-row",
        min: 1,
        "aria-describedby": "act-row-told",
        onkeydown: (e) => isEnter(e) && go()
      })),
    h("button", {type: "button", id: "act-go", onclick: go}, "Go to row"),
    h("span", {id: "act-row-told", class: "fault", role: "status"})
  ];
}

/** @type {(it: Answer) => HTMLElement} */
export function actsSection(it) {
  it.hits = null;
  it.from = 0;
  const made = section(
      "All that was said", "acts", gapWords(it), actTools(it), h("p", {id: "act-count", role: "status"}),
      actTable(
          "An act is one thing that was said: a command, an answer, an ACK or a break. The bytes are those of the whole block, with its sum at the end.",
          h("tbody", {id: "act-rows", role: "rowgroup"})));
  made.tabIndex = -1;
  if (it.answer === ANSWERS.NO && !it.survey && DEVICE_RULES.includes(it.report.rule))
    made.insertBefore(
        h("p", {id: "acts-judged", class: "soft"}, "What comes after the row that breaks the rule isn't judged."),
        made.children[1]);
  queueMicrotask(() => {
    if (!it.hits) beginActs(it);
  });
  return made;
}

// How many acts of the list come before an act.
function shownBefore(it, i) {
  let count = 0;
  while (count < it.hits.length && it.hits[count] < i) count++;
  return count;
}

// Shows the gap that a row is.
/** @type {(it: Answer, gap: Fault, from?: Element) => boolean} */
function jumpToGap(it, {row, time}, from) {
  leave(it, from);
  tellRow("");
  if (!it.hits) listAll(it, fieldBy("act-polls").checked);
  let hit = 0;
  while (hit < it.hits.length && it.list.first(it.hits[hit]) < row) hit++;
  it.from = Math.floor(Math.min(hit, it.hits.length - 1) / PAGE_ACTS) * PAGE_ACTS;
  markHere(it, {first: row, last: row, at: Number.isNaN(time) ? undefined : time});
  land(by("act-rows").querySelector("tr.gap.here"));
  return true;
}
