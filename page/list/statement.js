// @ts-check
// The statement: a line for each sale or payment, as it was reported.
import {DEVICES} from "../checker/acts.js";
import {ANSWERS} from "../checker/answers.js";
import {clockField} from "../clock.js";
import {by, fieldBy, h, section} from "../elements.js";
import {save, savedName} from "../files/save.js";
import {isLost} from "../money/lost-sales.js";
import {state} from "../run/now.js";
import {money, number} from "../texts.js";

import {isHere, land, leave, markHere, tellRow} from "./jumps.js";
import {rowLink, timeLink} from "./links.js";
import {faultIn, isUnjudged} from "./lookup.js";

const PAGE_LINES = 100;
// What an entry is in a sale, by its kind.
const PART_WORDS = {
  request: "requested",
  approved: "approved",
  denied: "denied",
  sold: "reported as sold",
  failed: "reported as failed",
  cancelled: "request cancelled"
};
const NO_SUM = {
  units: 0,
  known: 0,
  unknown: 0,
  decimals: undefined
};
const OUTCOMES = ["sold", "failed", "cancelled"];
const LINE_HEADS = [
  ["begins at"], ["reported, in rows"], ["item"], ["amount", "number"], ["outcome"], ["so far, as reported", "number"]
];
const SUM_TITLES = {
  coins: "coins in",
  out: "paid out",
  bills: "bills in",
  sold: "sold",
  cash: "sold for cash"
};
const DEVICE_LABELS = ["", "changer", "validator", "card reader 1", "card reader 2"];

/** @type {(m: Entry) => string} */
export function moneyAmount(m) {
  if (m.noAmount) return "";
  if (m.isUntold) return "amount not told";
  return m.units === null ? "value not known" : money(m.units, m.decimals);
}

// Whether an entry goes into the line of the sale that its device told of last.
function continues(line, part, m) {
  if (!line) return false;
  if (part === "request")
    return line.parts.every(({part}) => part === "request") && line.item === m.type && line.units === m.units;
  if (part === "approved") return !line.outcome;
  // A reader answers a cancelled request with a denial.
  if (part === "denied") return !line.outcome || line.outcome === "cancelled" && line.parts.at(-1).part === "cancelled";
  return !line.outcome || line.outcome === part && (m.type === "" || m.type === line.item);
}

function newLine(m, part, index) {
  const isSale = Boolean(part);
  return {
    index,
    device: m.device,
    isSale,
    parts: [],
    item: isSale || m.kind === "cash sale" ? m.type : "",
    units: part === "request" || !isSale ? m.units : undefined,
    decimals: m.decimals,
    outcome: null
  };
}

// The sales that are open, by device, as the entries go on. A session's begin or end ends the sale before it. So does a
// row after which the list begins anew: what belongs to the sale may be hidden there.
class OpenSales {
  constructor(sessions, cuts) {
    this.ends = {sessions, cuts};
    this.told = {sessions: 0, cuts: 0};
    this.lines = [null, null, null, null, null];
    // The cut since which nothing was asked of a device's sales; 0 if there is none.
    this.since = [0, 0, 0, 0, 0];
  }
  // Goes on to a row.
  to(row) {
    const {ends: {sessions, cuts}, told} = this;
    for (;;) {
      const session = sessions[told.sessions]?.first ?? Infinity, cut = cuts[told.cuts] ?? Infinity;
      if (Math.min(session, cut) >= row) return;
      if (session < cut)
        this.end(sessions[told.sessions++].device);
      else
        this.cut(cuts[told.cuts++]);
    }
  }
  end(device) {
    this.lines[device] = null;
    this.since[device] = 0;
  }
  cut(row) {
    for (const line of this.lines)
      if (line && !line.outcome) line.cutAt = row;
    this.lines.fill(null);
    this.since.fill(row);
  }
}

// The lines of all entries, and which line each entry is in.
function linesOf(entries, sessions, cuts) {
  const lines = [], lineOf = new Uint32Array(entries.length), open = new OpenSales(sessions, cuts);
  entries.forEach((m, i) => {
    open.to(m.first);
    const part = m.kind in PART_WORDS ? m.kind : null;
    let line = part ? open.lines[m.device] : null;
    if (!continues(line, part, m)) {
      line = newLine(m, part, lines.length);
      lines.push(line);
      if (part === "request") open.since[m.device] = 0;
      line.run = open.told.cuts;
      if (part) {
        open.lines[m.device] = line;
        line.after = open.since[m.device];
      }
    }
    line.parts.push({i, part});
    if (line.item === "" && part) line.item = m.type;
    if (OUTCOMES.includes(part)) line.outcome = part;
    lineOf[i] = line.index;
  });
  open.to(Infinity);
  return {lines, lineOf};
}

// Which running sum an entry belongs to, and which side told it.
const SUM_OF = {
  "tube": {sum: "coins", by: "device"},
  "cash box": {sum: "coins", by: "device"},
  "by hand": {sum: "out", by: "device"},
  "ordered": {sum: "out", by: "controller"},
  "stacked": {sum: "bills", by: "device"},
  "recycled": {sum: "bills", by: "device"},
  "sold": {sum: "sold", by: "controller"},
  "cash sale": {sum: "cash", by: "controller"}
};

// The running sums after each line, as told: the side that tells an amount counts it each time, the other side where it
// acknowledges. A sale counts once, with the amount that its reader approved last, if the list doesn't begin anew in
// between.
function addSums({lines}, entries) {
  const running = {}, approved = {}, NONE = {units: null};
  for (const line of lines)
    for (const {i} of line.parts) {
      const m = entries[i], kind = SUM_OF[m.kind];
      if (m.kind === "approved") approved[m.device] = {m, run: line.run};
      if (!kind || line.isLost) continue;
      const last = approved[m.device], amount = m.kind !== "sold" ? m : last?.run === line.run ? last.m : NONE;
      const now = (running[kind.sum] ??= [])[m.device] ??= {device: NO_SUM, controller: NO_SUM};
      for (const side of ["device", "controller"]) {
        const isOnce = m.kind !== "sold" || !line.counted?.has(side);
        if (!isOnce || side !== kind.by && !m.acknowledged) continue;
        now[side] = sumAfter(now[side], amount);
        (line.counted ??= new Set()).add(side);
      }
      line.sum = kind.sum;
      line.sums = {...now};
    }
}

// A sum without loss: from 2^53 on it is a BigInt.
function plus(a, b) {
  const sum = typeof a === "number" && typeof b === "number" ? a + b : NaN;
  return Number.isSafeInteger(sum) ? sum : BigInt(a) + BigInt(b);
}

function sumAfter({units, known, unknown, decimals}, amount) {
  if (amount.units === null || amount.isUntold) return {units, known, unknown: unknown + 1, decimals};
  return {units: plus(units, amount.units), known: known + 1, unknown, decimals: amount.decimals};
}

/** @type {(it: Answer) => {lines: any[], lineOf: Uint32Array}} */
export function statementOf(it) {
  if (it.statement) return it.statement;
  it.statement = linesOf(it.found.money, it.found.sessions ?? [], it.cuts ?? []);
  for (const line of it.statement.lines) line.isLost = isLost(it, it.found.money[line.parts.at(-1).i]);
  addSums(it.statement, it.found.money);
  return it.statement;
}

// The last running sums of a device's sales; null if none has a known amount.
/** @type {(it: Answer, device: number) => {device: any, controller: any} | null} */
export function soldSums(it, device) {
  const last = statementOf(it).lines.findLast((line) => line.sum === "sold" && line.device === device);
  return last?.sums.controller.known ? last.sums : null;
}

function sumWords({units, known, unknown, decimals}, places) {
  const words = money(units, decimals ?? places);
  if (!unknown) return words;
  return `${known ? words + " and " : ""}${number(unknown)} of unknown value`;
}

// What was done, how often, and with coins or bills of which type.
/** @type {(m: Entry) => string} */
export function toldWords(m) {
  const type = typeof m.type === "number" ? `, type ${m.type}` : "";
  return `${m.count > 1 ? `${m.count} × ` : ""}${m.what}${type}`;
}

// What an entry tells, with the link to its rows.
function partWords(m, part) {
  const amount = part === "approved" || part === "request" ? ` ${moneyAmount(m)}` : "";
  const isHeard = m.acknowledged ? null : " (not acknowledged)";
  return [part ? PART_WORDS[part] + amount : toldWords(m), " ", rowLink(m.first, m.last), isHeard];
}

function outcomeWords(it, line) {
  if (!line.isSale) return it.found.money[line.parts[0].i].acknowledged ? "acknowledged" : "not acknowledged";
  const has = (part) => line.parts.some((it) => it.part === part);
  if (line.isLost) return "not followed";
  if (line.outcome !== "sold")
    return line.outcome ??
        (has("denied")  ? "denied" :
             line.cutAt ? ["no outcome before row ", rowLink(line.cutAt), ", which cuts this sale"] :
                          "no outcome reported");
  if (has("denied")) return "sold although denied";
  if (!has("request") && line.after) return ["sold; row ", rowLink(line.after), " cuts this sale"];
  if (!has("request")) return "sold, with no request reported";
  return has("approved") ? "sold" : "sold, with no approval reported";
}

// What of a line is judged, after a no.
function partsJudged(it, parts) {
  if (parts.some((m) => faultIn(it, m))) return h("strong", {}, it.unjudged ? "isn't judged" : "breaks the rule");
  const after = parts.filter((m) => isUnjudged(it, m)).length;
  return after === parts.length ? "not judged" : after ? "not judged in part" : "";
}

// The running sums after a line, of each side.
function sumCell(line) {
  if (!line.sum) return "";
  const side = (name, sum) => h("div", {}, h("span", {class: "soft"}, `${name} `), sumWords(sum, line.decimals));
  const {device, controller} = line.sums;
  return [
    h("div", {class: "soft"}, SUM_TITLES[line.sum]), side(DEVICE_LABELS[line.device], device),
    side("controller", controller)
  ];
}

function lineCells(it, line, parts) {
  const [first] = parts, units = first.noAmount && !line.isSale ? undefined : line.units;
  const amount = units === undefined ? "" : moneyAmount({...first, units, noAmount: false});
  const told = line.parts.map(({i, part}) => h("div", {}, partWords(it.found.money[i], part)));
  const judged = it.answer === ANSWERS.NO ? h("div", {}, partsJudged(it, parts)) : null;
  return [
    ["", [timeLink(first.begin, first.first, first.last), h("div", {class: "soft"}, DEVICE_LABELS[line.device])]],
    ["", told], ["item", String(line.item).replace("item ", "")], ["amount", amount, "number"],
    ["", [outcomeWords(it, line), judged].flat()], ["so far, as reported", sumCell(line), "number"]
  ];
}

function lineRow(it, line) {
  const parts = line.parts.map(({i}) => it.found.money[i]), here = parts.some((m) => isHere(it, m.first, m.last));
  const bad = parts.some((m) => faultIn(it, m));
  return h(
      "tr", {
        role: "row",
        "data-line": line.index,
        class: [bad && "mark", here && "here"].filter(Boolean).join(" ") || undefined,
        "aria-current": here ? "true" : undefined
      },
      lineCells(it, line, parts).map(([label, inner,
                                       kind]) => h("td", {role: "cell", "data-label": label, class: kind}, inner)));
}

/** @type {(it: Answer) => void} */
export function drawStatement(it) {
  if (!by("statement-rows")) return;
  const {lines} = statementOf(it), count = lines.length;
  it.lineFrom = Math.max(0, Math.min(it.lineFrom ?? 0, Math.floor((count - 1) / PAGE_LINES) * PAGE_LINES));
  const last = Math.min(count, it.lineFrom + PAGE_LINES);
  by("statement-rows").replaceChildren(...lines.slice(it.lineFrom, last).map((line) => lineRow(it, line)));
  by("statement-count").textContent = `${number(count)} ${count === 1 ? "line" : "lines"}, ${
      count > PAGE_LINES ?
          `${number(it.lineFrom + 1)} to ${number(last)} shown, ` :
          ""}of ${number(it.found.money.length)} ${it.found.money.length === 1 ? "entry" : "entries"}.`;
  fieldBy("statement-back").disabled = it.lineFrom === 0;
  fieldBy("statement-more").disabled = last >= count;
}

// Shows the line of the statement that an entry is in.
/** @type {(entry: number, from?: Element) => void} */
export function jumpToEntry(entry, from) {
  const it = state, {lineOf} = statementOf(it), m = it.found.money[entry], line = lineOf[entry];
  leave(it, from);
  tellRow("");
  it.lineFrom = Math.floor(line / PAGE_LINES) * PAGE_LINES;
  markHere(it, {first: m.first, last: m.last, at: m.begin});
  land(by("statement-rows").children[line - it.lineFrom]);
}

function csv(it) {
  const field = (v) => /[",\r\n]/.test(String(v)) ? `"${String(v).replaceAll('"', '""')}"` : String(v);
  const rows = [[
    "time_us", "clock", "first_row", "last_row", "device", "what", "type_or_item", "count", "amount", "acknowledged",
    "judged"
  ]];
  for (const m of it.found.money)
    rows.push([
      m.at, clockField(m.at), m.first, m.last, DEVICES[m.device], m.what, m.type, m.count ?? 1,
      m.noAmount || m.isUntold || m.units === null ? "" : money(m.units, m.decimals).replace("−", "-"),
      m.acknowledged ? "yes" : "no",
      it.answer > ANSWERS.NO ? "" :
          isUnjudged(it, m)  ? "no" :
          faultIn(it, m)     ? it.unjudged ? "no" : "cannot be" :
                               "possible"
    ]);
  return rows.map((row) => row.map(field).join(",")).join("\r\n") + "\r\n";
}

function statementTools(it) {
  const step = (by) => () => {
    it.lineFrom += by * PAGE_LINES;
    drawStatement(it);
  };
  return h(
      "div", {class: "tools noprint"},
      h("button", {type: "button", id: "statement-back", onclick: step(-1)}, "Earlier"),
      h("button", {type: "button", id: "statement-more", onclick: step(1)}, "Later"),
      h("button", {type: "button", id: "save", onclick: () => save(savedName(it, "-money.csv"), csv(it), "text/csv")},
        "Save all entries as CSV"));
}

/** @type {(it: Answer) => HTMLElement} */
export function tellSection(it) {
  if (!it.found.money.length) return section("Coins, bills and sales", "told-money", h("p", {}, "None was reported."));
  const where = it.answer === ANSWERS.YES || it.before ? "The checked sums stand above." :
                                                         "There are no checked sums, since there is no verdict.";
  const made = section(
      "Coins, bills and sales", "told-money",
      h("p", {},
        "A line for each sale or payment, as it was reported. A coin that was reported twice stands here twice. The sums so far follow the same reports: the side that reports an amount counts it each time, and the other side counts it where it acknowledges. ",
        h("strong", {}, where)),
      statementTools(it), h("p", {id: "statement-count", role: "status"}),
      h("div", {class: "scroll"},
        h("table", {role: "table", class: "stacked", "aria-label": "Coins, bills and sales, as reported"},
          h("thead", {role: "rowgroup"},
            h("tr", {role: "row"},
              LINE_HEADS.map(([words, kind]) => h("th", {scope: "col", role: "columnheader", class: kind}, words)))),
          h("tbody", {id: "statement-rows", role: "rowgroup"}))));
  queueMicrotask(() => drawStatement(it));
  return made;
}
