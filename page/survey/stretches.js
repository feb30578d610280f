// @ts-check
// Money by stretch: the sums of the rows between two faults, what they come to, and their lane of the time line.
import {part} from "../card/fault.js";
import {DEVICE_NAMES, DEVICES} from "../checker/acts.js";
import {ACCOUNTS, untimelyWords} from "../checker/report.js";
import {when} from "../clock.js";
import {by, h, section} from "../elements.js";
import {land, leave, markHere} from "../list/jumps.js";
import {laneOf} from "../list/lanes.js";
import {rowLink, timeLink} from "../list/links.js";
import {headRow, pageTools, tellPage} from "../list/tables.js";
import {lostRow} from "../money/lost-sales.js";
import {choiceRow} from "../money/open-list.js";
import {isDiffering, isZero, rangeWords} from "../money/ranges.js";
import {state} from "../run/now.js";
import {counted, listed, number, the} from "../texts.js";

import {rowsShown} from "./faults.js";
import {reportOf} from "./text.js";

const PAGE_STRETCHES = 100;
const STRETCH_HEADS =
    [["stretch"], ["money"], ["device", "number"], ["controller", "number"], ["difference", "number"]];

// What is to be said of a stretch, beside its sums.
function stretchNotes(report) {
  const named = (devices) => listed(devices.map((it) => the(DEVICE_NAMES[DEVICES.indexOf(it)]))), notes = [];
  for (const device of DEVICES.slice(1)) {
    const silences = report.silences[device], missing = report.unvalued?.[device];
    if (silences) notes.push(`${counted(silences, "silence")} of ${named([device])}`);
    if (missing) notes.push(`${counted(missing, "amount")} of ${named([device])} without a known value`);
  }
  const late = untimelyWords(report);
  if (late) notes.push(`out of time: ${late}`);
  if (report.without.length) notes.push(`left out: ${named(report.without)}`);
  if (report.setup.length) notes.push(`set-up known of: ${named(report.setup)}`);
  return notes.map((words) => h("div", {class: "soft"}, words));
}

const noneWords = ({unvalued}) =>
    Object.values(unvalued ?? {}).some((n) => n > 0) ? "no amount with a known value" : "no money";

// From which row on an account isn't known, in some rows; 0 if it is.
function unknownRow(it, name, rows) {
  if (name !== "paid-out") return lostRow(it, name, rows);
  return !rows || rows.first > choiceRow(it) ? choiceRow(it) : 0;
}

// The accounts that a table has: those that aren't 0 or aren't known.
const namesOf = (report, unknown) =>
    Object.keys(ACCOUNTS).filter((name) => !isZero(report.accounts[name]) || unknown(name));

const unknownCells = (title, row) =>
    [h("th", {scope: "row", role: "rowheader"}, title),
     h("td", {role: "cell", colspan: 3, class: "unknown"}, "not known from row ", rowLink(row), " on")];

// The rows of a table for a report: a heading over them all, and a row for each account that has something. `unknown`
// tells from which row on an account isn't known.
function sumRows(report, decimals, head, unknown, isTotal = false) {
  const names = namesOf(report, unknown);
  const cells = (name) => {
    const {device, title} = ACCOUNTS[name], a = report.accounts[name];
    if (unknown(name)) return unknownCells(title, unknown(name));
    return [
      h("th", {scope: "row", role: "rowheader"}, title), ...["device", "controller", "difference"].map((side, i) => {
        const words = rangeWords(a[side], decimals(device)), label = STRETCH_HEADS[i + 2][0];
        const inner = side === "difference" && isDiffering(a) && !isTotal ? h("strong", {}, words) : words;
        return h("td", {role: "cell", class: "number", "data-side": side, "data-label": label}, inner);
      })
    ];
  };
  const rows = names.length ?
      names.map((name) => ({name, cells: cells(name)})) :
      [{name: undefined, cells: [h("td", {role: "cell", colspan: 4, class: "soft"}, noneWords(report))]}];
  return rows.map(
      ({name, cells}, i) =>
          h("tr", {role: "row", "data-account": name},
            i ? null : h("th", {scope: "rowgroup", role: "rowheader", rowspan: rows.length, class: "head"}, head),
            cells));
}

function stretchBody(it, stretch) {
  const {number: n, first, last, from, to} = stretch, report = reportOf(stretch), isShown = it.here?.stretch === n;
  const head = [
    h("div", {}, `Stretch ${number(n)}`), h("div", {}, first === last ? "row " : "rows ", rowsShown(it, first, last)),
    Number.isNaN(from) ? null : h("div", {}, timeLink(from), ` to ${when(to)}`), ...stretchNotes(report)
  ];
  return h(
      "tbody", {
        role: "rowgroup",
        "data-number": n,
        class: isShown ? "here" : undefined,
        "aria-current": isShown ? "true" : undefined
      },
      sumRows(report, (device) => report.decimals[device], head, (name) => unknownRow(it, name, stretch)));
}

// The decimal places that a device shows in the stretches, each number once.
function placesIn({stretches}, device) {
  return [...new Set(stretches.map((it) => reportOf(it).decimals[device]).filter((it) => it !== null))];
}

// The sums of all stretches. Where the decimal places of a device changed, its sums stand without any.
function totalBody(it) {
  const {survey: made} = it;
  if (!made.totals) return null;
  const places = Object.fromEntries(DEVICES.slice(1).map((device) => [device, placesIn(made, device)]));
  const changed = DEVICES.slice(1).filter((device) => places[device].length > 1);
  const head = [h("div", {}, "All stretches"), ...stretchNotes(made.totals), ...changed.map(changedNote)];
  return h(
      "tbody", {role: "rowgroup", id: "stretch-total", class: "total"},
      sumRows(
          made.totals, (device) => places[device].length === 1 ? places[device][0] : null, head,
          (name) => unknownRow(it, name), true));
}

const changedNote = (device) =>
    h("div", {class: "soft"},
      `the decimal places of ${the(DEVICE_NAMES[DEVICES.indexOf(device)])} changed: its sums here have none`);

/** @type {(it: Answer) => void} */
export function drawStretches(it) {
  if (!by("stretch-table")) return;
  const {survey: made} = it, count = made.stretches.length;
  made.stretchFrom = Math.max(0, Math.min(made.stretchFrom, Math.floor((count - 1) / PAGE_STRETCHES) * PAGE_STRETCHES));
  const last = Math.min(count, made.stretchFrom + PAGE_STRETCHES);
  for (const old of by("stretch-table").querySelectorAll("tbody")) old.remove();
  by("stretch-table")
      .append(
          ...made.stretches.slice(made.stretchFrom, last).map((one) => stretchBody(it, one)),
          ...[totalBody(it)].filter(Boolean));
  tellPage("stretch", "Stretches", made.stretchFrom, last, count);
}

// What the sums of stretches don't say.
const STRETCH_CAVEATS = [
  "The row of a fault is in no sum. Nor are the words of a stretch before the first command in it, such as the acknowledgement of an answer that the fault damaged.",
  "A fault that cuts an exchange may leave it in one book alone. So a total difference is no finding if a fault cuts an exchange of that device.",
  "From the second stretch on, a stretch begins in the unknown. Its limits are wider than those of a recording from power-on.",
  "A sale whose approval stands before the fault has no known value. It isn't wrong, and it is in no sum.",
  "If a fault hides an answer to SETUP, the values before it stay.",
  "The totals are those of the stretches. They aren't the sums of the whole recording.",
];

function stretchTools(it) {
  const {survey: made} = it;
  const tools = pageTools("stretch", made.stretches.length > PAGE_STRETCHES, (by) => {
    made.stretchFrom += by * PAGE_STRETCHES;
    drawStretches(it);
  });
  return tools.length ? h("div", {class: "tools noprint"}, tools) : null;
}

/** @type {(it: Answer) => HTMLElement} */
export function stretchSection(it) {
  const {survey: made} = it;
  const none = made.stretches.length ? null : h("p", {}, "Between the faults there is no row, so there are no sums.");
  const parts = none ? [none] : [
    h("p", {},
      "A stretch has the rows between two faults. They fit the protocol together, and these are their sums: at least to at most. Accounts in which nothing moved aren't shown."),
    stretchTools(it), h("p", {id: "stretch-count", role: "status"}),
    h("div", {class: "scroll"},
      h("table",
        {role: "table", id: "stretch-table", class: "stacked stretches", "aria-label": "Money by stretch, and in sum"},
        h("thead", {role: "rowgroup"}, headRow(STRETCH_HEADS)))),
    ...part("What these sums don't say", STRETCH_CAVEATS.map((words) => "• " + words))
  ];
  queueMicrotask(() => drawStretches(it));
  return section("Money by stretch", "stretches", ...parts);
}

// Goes to a stretch in the table.
function jumpToStretch(stretch, from) {
  const it = state, at = it.survey.stretches.indexOf(stretch);
  leave(it, from);
  it.survey.stretchFrom = Math.floor(at / PAGE_STRETCHES) * PAGE_STRETCHES;
  markHere(it, {first: 0, last: 0, at: stretch.from, stretch: stretch.number});
  land(by("stretch-table").querySelector(`[data-number="${stretch.number}"]`));
}

// The lane of the stretches.
/** @type {(survey: Survey) => Lane} */
export function stretchLane({stretches}) {
  const all = stretches.filter(({from, to}) => !Number.isNaN(from + to));
  return laneOf("stretches", "", all, {
    begin: (it) => it.from,
    end: (it) => it.to,
    kind: (it) => it.number % 2 ? "stretch" : "stretch even",
    words: ({number: n, first, last, from, to}) =>
        `stretch ${number(n)}: rows ${number(first)} to ${number(last)}, from ${when(from)} to ${when(to)}`,
    jump: jumpToStretch
  });
}
