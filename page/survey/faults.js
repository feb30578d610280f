// @ts-check
// All faults of a survey: the table, what was said up to each, and their lane of the time line.
import {RULES} from "built";

import {fileRows, gap, part} from "../card/fault.js";
import {sentence} from "../card/sentences.js";
import {storyOf} from "../card/story.js";
import {unjudgedStory} from "../card/unjudged-story.js";
import {asJoined, levelsKnown, unjudgedFault, wayBefore} from "../card/unjudged.js";
import {Acts, noteSetups} from "../checker/acts.js";
import {ANSWERS, asAtFirst, isUnfollowed} from "../checker/answers.js";
import {layout, putBlock, readerPlace, setupPlace} from "../checker/layout.js";
import {READER_CONFIG, sealed} from "../checker/messages.js";
import {noNews} from "../checker/news.js";
import {clockField, when} from "../clock.js";
import {by, h, section, table} from "../elements.js";
import {save, savedName} from "../files/save.js";
import {ACT_HEADS, actRow} from "../list/acts.js";
import {isHere, land, leave, markHere} from "../list/jumps.js";
import {laneOf} from "../list/lanes.js";
import {rowLink, timeLink} from "../list/links.js";
import {actAtRow, faultIs, gapAt, hasRow} from "../list/lookup.js";
import {headRow, pageTools, tellPage} from "../list/tables.js";
import {readyChecker, state} from "../run/now.js";
import {isExtended} from "../run/options.js";
import {BLAMES, number} from "../texts.js";

import {surveyEnd, surveyLead} from "./words.js";

const PAGE_FAULTS = 200;
// So many faults are many, and one fault in so many rows is.
const MANY_FAULTS = 100, FEW_ROWS = 10;
// So many faults by the rule Sum come of a bad line, and so many faults are few enough to be looked at one by one.
const MANY_SUMS = 20, FEW_FAULTS = 5;
const NO_DECIMALS = "decimals changer - bill - cashless - cashless-2 -";
const FAULT_HEADS = [
  ["number", "number"], ["row", "number"], ["begins at"], ["rule"], ["who sent it"], ["in words"], ["more", "noprint"]
];

// Whether the lines may be exchanged: nothing is followed, and all that is wrong is that somebody speaks unasked.
function isSurveyExchanged(it) {
  const {faults, stretches} = it.survey;
  return faults.every(({rule, blame}) => rule === "Speaker" && blame === "other") &&
      stretches.every(({lines}) => lines[0] === NO_DECIMALS) && isUnfollowed(asAtFirst(it));
}

// What so many faults most likely come of.
function manyWords(it) {
  const {all, rows, faults} = it.survey, sums = faults.filter(({rule}) => rule === "Sum").length;
  if (isSurveyExchanged(it))
    return "Most likely lines M and S are exchanged, or one is missing: each fault is of a device that nobody had " +
        "asked, and no device is followed.";
  if (all >= MANY_FAULTS || all > FEW_FAULTS && all * FEW_ROWS >= rows)
    return "So many faults mean that most likely it is the file. Times in milliseconds, for example, make a fault of " +
        "every second row. Look at the unit of the times, at the two lines and at the recorder first.";
  if (sums >= MANY_SUMS)
    return `${number(sums)} faults by the rule Sum: most likely a bad line, or a recorder that can't keep up.`;
  return null;
}

// The faults by rule and sender, the most frequent ones first.
function ruleTable({faults}) {
  if (faults.length <= FEW_FAULTS) return null;
  const counts = new Map();
  for (const {rule, blame} of faults) counts.set(`${rule} ${blame}`, (counts.get(`${rule} ${blame}`) ?? 0) + 1);
  const rows = [...counts].sort(([, a], [, b]) => b - a).map(([key, count]) => {
    const [rule, blame] = key.split(" ");
    return h("tr", {}, h("td", {class: "number"}, number(count)), h("td", {}, rule), h("td", {}, BLAMES[blame]));
  });
  return h(
      "div", {id: "survey-rules"},
      table("How often each rule was broken, and by whom", [["faults", "number"], ["rule"], ["who sent it"]], rows));
}

const GLITCHES = [
  "When was it? Start with the faults at the time of the complaint.",
  "What did the other side do? If it answered a damaged word as if it were whole, the word was right on the bus: the recorder got it wrong.",
  "How much must the recorder have got wrong? One bit is likely. A whole report that it missed isn't.",
  "Does it come again? One Sum in a day is a glitch. If one rule and one sender come again and again, look at that line or device.",
];
// The same by the extended profile.
const GLITCH_OF_READERS =
    "What may a fault hide? After a feature level, options or a reset that it hides, an innocent reader can be blamed.";

/** @type {(it: Answer) => HTMLElement} */
export function surveySection(it) {
  const {survey: made} = it, many = manyWords(it), more = isExtended(it.way) ? [GLITCH_OF_READERS] : [];
  queueMicrotask(() => drawFaults(it));
  return section(
      "All faults", "survey", h("p", {id: "survey-lead"}, surveyLead(made)), ...surveyEnd(made),
      many ? h("p", {id: "survey-many"}, h("strong", {}, many)) : null, unlistedFaults(made), ruleTable(made),
      faultTools(it), h("p", {id: "survey-count", role: "status"}),
      h("div", {class: "scroll"},
        h("table", {role: "table", class: "stacked faults", "aria-label": "All faults"},
          h("thead", {role: "rowgroup"}, headRow(FAULT_HEADS)), h("tbody", {id: "survey-rows", role: "rowgroup"}))),
      ...part("Recorder or device?", [...GLITCHES, ...more].map((words) => "• " + words)));
}

function unlistedFaults({all, listed: some}) {
  return some < all ?
      h("p", {}, `The first ${number(some)} of ${number(all)} faults are listed. The totals are of all.`) :
      null;
}

// The table ----

// The first sentence of a rule.
const ruleShort = (rule) => RULES[rule].bench[0].split(/(?<=\.) |:$/)[0].replace(/\.?$/, ".");

// Rows with a link where the list of acts has them.
/** @type {(it: Answer, first: number, last?: number) => string | Node} */
export function rowsShown(it, first, last = first) {
  if (it.listed && hasRow(it.list, actAtRow(it, first), first) || gapAt(it, first)) return rowLink(first, last);
  return first === last ? number(first) : `${number(first)}–${number(last)}`;
}

function aboutButton(it, fault) {
  return h(
      "button", {
        type: "button",
        "aria-expanded": String(Boolean(fault.isOpen)),
        "aria-label": `What was said up to row ${fault.row}`,
        onclick: (e) => showAbout(it, fault, e.currentTarget)
      },
      "What was said");
}

function faultLine(it, fault) {
  const {row, rule, blame, time} = fault, isShown = isHere(it, row, row);
  const cell = (label, inner, kind) => h("td", {role: "cell", "data-label": label, class: kind}, inner);
  return h(
      "tr", {
        role: "row",
        "data-number": fault.number,
        class: isShown ? "here" : undefined,
        "aria-current": isShown ? "true" : undefined
      },
      cell("fault", number(fault.number), "number"), cell("row", rowsShown(it, row), "number"),
      cell("", Number.isNaN(time) ? "" : timeLink(time, row, row)), cell("rule", rule), cell("", BLAMES[blame]),
      cell("", ruleShort(rule)), cell("", aboutButton(it, fault), "noprint"));
}

/** @type {(it: Answer) => void} */
export function drawFaults(it) {
  if (!by("survey-rows")) return;
  const {survey: made} = it, count = made.faults.length;
  made.faultFrom = Math.max(0, Math.min(made.faultFrom, Math.floor((count - 1) / PAGE_FAULTS) * PAGE_FAULTS));
  const last = Math.min(count, made.faultFrom + PAGE_FAULTS), some = made.faults.slice(made.faultFrom, last);
  by("survey-rows")
      .replaceChildren(...some.flatMap(
          (fault) => [faultLine(it, fault), ...fault.isOpen && fault.about ? [aboutLine(it, fault)] : []]));
  tellPage("survey", "Faults", made.faultFrom, last, count);
}

function faultTools(it) {
  const {survey: made} = it, step = (by) => {
    made.faultFrom += by * PAGE_FAULTS;
    drawFaults(it);
  };
  return h(
      "div", {class: "tools noprint"}, pageTools("survey", made.faults.length > PAGE_FAULTS, step),
      h("button", {
        type: "button",
        id: "survey-csv",
        onclick: () => save(savedName(it, "-faults.csv"), faultCsv(made), "text/csv")
      },
        "Save all faults as CSV"));
}

function faultCsv({faults}) {
  const rows = faults.map(({row, time, rule, blame, number}) => [row, time, clockField(time), rule, blame, number]);
  return [["row", "time_us", "clock", "rule", "blame", "ended_stretch"], ...rows]
             .map((row) => row.join(","))
             .join("\r\n") +
      "\r\n";
}

// The options that list the acts up to a fault: as of a machine that was running already, at the levels that are known.
function optionsAbout(it, fault) {
  const {bytes} = wayBefore(it, fault), {setups, without} = layout.options;
  bytes.fill(0, setups);
  for (const device of isExtended(it.way) ? [3, 4] : []) {
    const {controller, reader} = levelsKnown({...it, row: fault.row}, device), place = readerPlace(device);
    if (bytes[without + device - 1]) continue;
    const ask = [device === 3 ? 0x11 : 0x61, 0, controller, 0, 0, 0],
          answer = [READER_CONFIG, reader, 0, 0, 1, 0, 5, 0];
    if (controller !== null) putBlock(bytes, place + layout.reader.config, sealed(ask));
    if (reader !== null) putBlock(bytes, setupPlace(device), sealed(answer));
  }
  return bytes;
}

// The rows about a fault and the acts up to it, as the worker tells them.
async function aboutFault(it, fault) {
  const {row, offset, number: n} = fault, from = n > 1 ? it.survey.faults[n - 2].offset + 1 : 0;
  const about = {row, offset, from, options: optionsAbout(it, fault)};
  const {lines, acts, count} = await readyChecker().ask({about});
  const list = new Acts(acts, count);
  noteSetups(list, setupsAt(it, row), -1, noNews());
  return {lines, list};
}

// Shows what was said up to a fault, and the rows of the file about it, or takes them away again.
async function showAbout(it, fault, button) {
  const line = button.closest("tr"), isOpen = () => line.nextSibling?.classList.contains("about");
  fault.isOpen = !fault.isOpen;
  button.setAttribute("aria-expanded", String(fault.isOpen));
  if (!fault.isOpen) {
    if (isOpen()) line.nextSibling.remove();
    return;
  }
  try {
    fault.about ??= await aboutFault(it, fault);
    if (line.isConnected && fault.isOpen && !isOpen()) line.after(aboutLine(it, fault));
  } catch (why) {
    fault.isOpen = false;
    button.setAttribute("aria-expanded", "false");
    button.after(` ${why.message}`);
  }
}

// What the devices last answered to SETUP before a row, as far as the acts are listed.
function setupsAt(it, row) {
  const at = actAtRow(it, row);
  return [0, 1, 2, 3, 4].map((d) => it.list.setupAt(d, at) ?? it.way.given[d] ?? null);
}

// A fault as what `fileRows` and `actRow` show: the row that cannot be, with what is known of it.
function asAnswer(whole, fault) {
  const {row, rule, blame, about} = fault;
  return {
    answer: ANSWERS.NO,
    survey: whole.survey,
    spoken: whole.spoken,
    row,
    report: {rule, blame},
    unjudged: unjudgedFault(whole, fault),
    lines: about.lines,
    list: about.list,
    found: noNews(),
    here: null,
    way: wayBefore(whole, fault),
    hole: -1,
    isApart: true
  };
}

// What is wrong with a fault, in sentences: the first one's stand in the card, too.
function faultStory(whole, fault) {
  const isFirst = fault.number === 1, it = isFirst ? asAtFirst(whole) : asAnswer(whole, fault), reader = it.unjudged;
  const story = reader ? unjudgedStory(isFirst ? it : asJoined(whole, fault), reader) : storyOf(it);
  const told = story.filter(({kind}) => kind !== "next");
  return told.length ? [h("ul", {class: "plain"}, told.map(sentence))] : [];
}

function aboutLine(whole, fault) {
  const it = asAnswer(whole, fault), rows = [];
  for (let i = Math.max(0, it.list.count - 8); i < it.list.count; i++) rows.push(actRow(it, i));
  const said = rows.length ?
      [table("What was said up to there, in words", ACT_HEADS, rows)] :
      [h("p", {class: "soft"}, "No whole command stands between the row and the fault before it.")];
  return h(
      "tr", {class: "about", role: "row"},
      h("td", {role: "cell", colspan: FAULT_HEADS.length}, ...faultStory(whole, fault), ...said, fileRows(it),
        gap(it)));
}

// Goes to a fault in the table.
function jumpToFault(fault, from) {
  const it = state;
  leave(it, from);
  it.survey.faultFrom = Math.floor((fault.number - 1) / PAGE_FAULTS) * PAGE_FAULTS;
  markHere(it, {first: fault.row, last: fault.row, at: fault.time});
  land(by("survey-rows").querySelector(`[data-number="${fault.number}"]`));
}

// The lane of the faults.
/** @type {(survey: Survey) => Lane} */
export function allFaultsLane({faults}) {
  const all = faults.filter(({time}) => !Number.isNaN(time));
  return laneOf("faults", "bad", all, {
    begin: (it) => it.time,
    words: ({row, rule, blame, time}) => `row ${number(row)} ${faultIs(rule)}, ${BLAMES[blame]}, at ${when(time)}`,
    jump: jumpToFault
  });
}

/** @type {(n: number, from?: Element) => void} */
export function jumpToNumber(n, from) {
  jumpToFault(state.survey.faults[n - 1], from);
}
