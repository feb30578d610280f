// @ts-check
// The row that cannot be, or that is no row: what was said up to it, what its rule means, and the rows of the file.
import {RULES} from "built";

import {ANSWERS, asAtFirst, onlyLine} from "../checker/answers.js";
import {DEVICE_RULES} from "../checker/report.js";
import {h, section, table} from "../elements.js";
import {actRow, actTable, jumpToRow} from "../list/acts.js";
import {actAtRow, faultIn, faultIs, isUnjudged} from "../list/lookup.js";
import {BLAMES, number, shown} from "../texts.js";
import {seconds} from "../times.js";

import {isPerhapsLate} from "./late.js";

const FAULT_TITLES = {
  limit: "Where the checker stops following",
  unjudged: "The row that isn't judged",
  no: "The message that breaks the protocol",
  none: "Where the reading ended",
};
const FAULT_VERDICTS = {
  limit: "this row isn't followed",
  unjudged: "this row isn't judged",
  no: "this row breaks the rule",
  none: "this line is no row",
};

function faultKind(it) {
  if (it.answer !== ANSWERS.NO) return "none";
  if (it.unjudged || onlyLine(it)) return "unjudged";
  return it.report.rule === "Profile" ? "limit" : "no";
}

/** @type {(it: Answer) => HTMLElement} */
export function faultSection(it) {
  const kind = faultKind(it), inner = kind === "none" ? [] : [...saidUpTo(it), ruleWords(it)];
  return section(FAULT_TITLES[kind], "fault", ...inner, fileRows(it), gap(it));
}

// What is said of a row after the one that cannot be.
function afterWords(it, row) {
  const rows = {first: row, last: row}, fault = faultIn(it, rows);
  return fault ? faultIs(fault.rule) : isUnjudged(it, rows) ? "not judged" : "";
}

// The rows of the file about it, as they stand there.
/** @type {(it: Answer) => HTMLElement} */
export function fileRows(it) {
  const kind = faultKind(it), lines = it.lines.filter((l) => l.row >= it.row - 6 && l.row < it.row + 5);
  /** @type {(line: Line) => string} */
  const words = ({row}) => row > it.row ? afterWords(it, row) : row < it.row ? "" : FAULT_VERDICTS[kind];
  const rows = lines.map((line) => {
    const fields = shown(line).split(","), mark = line.row === it.row;
    const sender = fields.length === 3 ? {M: "controller", S: "device", B: "break"}[fields[1]] ?? "" : "";
    return h(
        "tr", {class: mark ? "mark" : undefined, "aria-current": mark ? "true" : undefined},
        h("th", {scope: "row", class: "number"}, number(line.row)), h("td", {class: "rows"}, shown(line)),
        h("td", {}, words(line)), h("td", {class: "wide"}, sender));
  });
  return table(
      "The rows in the file: TIME in microseconds, LINE, VALUE",
      [["row", "number"], ["as it stands in the file"], ["verdict"], ["sender", "wide"]], rows);
}

// A heading with paragraphs; those that begin with a dot make a list.
/** @type {(title: string, paragraphs: string[]) => HTMLElement[]} */
export function part(title, paragraphs) {
  const isItem = (p) => p.startsWith("• "), items = paragraphs.filter(isItem);
  return [
    h("h3", {}, title), ...paragraphs.filter((p) => !isItem(p)).map((p) => h("p", {}, p)),
    items.length ? h("ul", {}, items.map((p) => h("li", {}, p.slice(2)))) : null
  ];
}

// What the rule means. What to look at is for the side that sent the row. Of a row that isn't followed or isn't judged
// nobody is blamed, and the card says what to do.
function ruleWords(it) {
  const {rule, blame} = it.report, texts = RULES[rule], isLimit = faultKind(it) !== "no";
  /** @type {HTMLElement[]} */
  const parts = texts.bench.map((words) => h("p", {}, words));
  if (!isLimit) parts.push(...lookParts(texts, blame).flat());
  parts.push(...part("What such a row is", texts.row));
  if (!isLimit) parts.push(...part(`Who sent it: ${BLAMES[blame]}`, texts.blame));
  const asks = isPerhapsLate(it) && DEVICE_RULES.includes(rule) ?
      h("p", {}, h("strong", {}, "Did the recording begin at power-on?"),
        " If the machine was already running, tick so under “How this recording is read”, and check again.") :
      null;
  const title = `What the rule ${rule} means${isLimit ? "" : ", and where to look"}`;
  return h("details", {id: "rule"}, h("summary", {}, title), parts.filter(Boolean), asks);
}

// Where to look: at the side that sent the row, and in any case.
function lookParts(texts, blame) {
  return [texts[blame === "controller" ? "controller" : "device"] ?? [], texts.look ?? []]
      .filter((it) => it.length)
      .map((it, i) => part(i ? "Where else to look" : "Where to look", it));
}

// How long after the row before it the row starts.
/** @type {(it: Answer) => HTMLElement | null} */
export function gap(it) {
  const [before, here] = [it.row - 1, it.row].map(
      (row) =>
          Number(/^(\d+),/.exec(shown(it.lines.find((l) => l.row === row) ?? {bytes: [], whole: true}))?.[1] ?? NaN));
  if (it.answer !== ANSWERS.NO || Number.isNaN(here - before)) return null;
  const [row, earlier] = [number(it.row), number(it.row - 1)];
  const words =
      here < before ? `${seconds(before - here)} before the start` : `${seconds(here - before)} after the start`;
  return h("p", {}, `Row ${row} starts ${words} of row ${earlier}.`);
}

// The last acts up to the row, as they were listed before a survey.
function saidUpTo(whole) {
  const it = asAtFirst(whole);
  const at = actAtRow(it, it.row), rows = [];
  for (let i = Math.max(0, at - 7); i <= at; i++) rows.push(actRow(it, i));
  if (!rows.length) return [];
  if (it.hole >= 0 && at === it.hole && it.list.first(at) > it.row)
    return [h("p", {}, "What was said there isn't listed, since the recording is so long.")];
  const isThere = it.list.first(at) <= it.row && it.list.last(at) >= it.row;
  return [
    h("div", {id: "said"}, actTable("What was said up to there, in words", h("tbody", {role: "rowgroup"}, rows))),
    isThere ? h("p", {class: "noprint"},
                h("button", {type: "button", onclick: (e) => jumpToRow(it.row, e.currentTarget)},
                  "Show it in the list of all that was said")) :
              h("p", {class: "soft"}, `The row is in none of these: nothing is read from row ${number(it.row)} on.`),
  ];
}
