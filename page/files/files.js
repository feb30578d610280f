// @ts-check
// Several recordings at once: a table of their verdicts. And examples to try.
import {EXAMPLES} from "built";

import {isSameLate} from "../card/late.js";
import {isDamaged, noTraffic} from "../card/link-story.js";
import {takeUnjudged} from "../card/unjudged.js";
import {ANSWERS, asRead, onlyLine} from "../checker/answers.js";
import {forgetClock} from "../clock.js";
import {barBy, by, h, section, table} from "../elements.js";
import {rowsUnasked} from "../import/panel.js";
import {check} from "../run/answer.js";
import {options} from "../run/options.js";
import {run} from "../run/runs.js";
import {failed} from "../run/trouble.js";
import {BLAMES, number, shownName} from "../texts.js";

import {forgetPart} from "./part.js";

const FILE_HEADS = [["file"], ["verdict"], ["row", "number"], ["rule"], ["blame"], [""]];
let batch = null;

// Takes the files that were chosen or dropped: one is shown, of several a table is made. `isButton` is whether a button
// gave them that is gone with the answer.
/** @type {(files: File[], isButton?: boolean) => void} */
export function take(files, isButton = false) {
  stopBatch();
  by("files")?.remove();
  if (files.length === 1) {
    forgetClock();
    forgetPart();
    run(files[0], isButton);
  } else
    checkAll(files);
}

function newBatch() {
  const made = {isStopped: false};
  made.stopped = new Promise((done) => {
    made.stop = done;
  });
  return made;
}

function stopBatch() {
  if (batch) {
    batch.isStopped = true;
    batch.stop();
  }
  batch = null;
}

// How far a file is: its reading is taken for half of the work.
function tellFile(mine, i, {doing, part}) {
  if (!mine.isStopped) barBy("files-bar").value = i + (doing === "Reading" ? part / 2 : 0.5);
}

// The cells of a no, as its card has it: what isn't followed or isn't judged is no fault of anybody, and a late
// beginning comes first.
function noCells(told) {
  const it = asRead(told), row = number(told.row), {rule, blame} = it.report;
  takeUnjudged(it);
  if (it.unjudged) return ["not judged: open it to see what would tell", row, rule, "nobody"];
  if (noTraffic(it)) return ["no: this isn't MDB traffic", row, rule, "nobody"];
  if (rule === "Profile") {
    const why = isDamaged(it) ? "a damaged message" : "open it to leave out a device";
    return [`not followed: ${why}`, row, rule, "nobody"];
  }
  const isSame = told.late && isSameLate(it);
  const isLate = told.late && !isSame && (told.late.answer === ANSWERS.YES || told.row === 1);
  return [isLate ? "no: was the machine already running? Open it" : "no", row, rule, BLAMES[blame]];
}

// The cells of a verdict.
function verdictCells(told) {
  if (told instanceof Error) return [`no verdict: ${told.message}`, "", "", ""];
  const {answer, row} = told;
  if (onlyLine(told)) return ["one line is missing: open it", "", "", "nobody"];
  if (answer === ANSWERS.YES) return ["yes", "", "", ""];
  if (answer === ANSWERS.NO) return noCells(told);
  const why = {[ANSWERS.BAD_ROW]: "this line is no row", [ANSWERS.UNREAD]: "this page doesn’t read this row"}[answer];
  const isRow = why !== undefined;
  return [
    `no verdict${
        isRow ? `: ${why}` :
            answer === ANSWERS.TOO_LONG ? ": too many rows" :
                                          ""}`,
    isRow ? number(row) : "", "", ""
  ];
}

// Opens the report of a file, and marks it in the table.
function openFile(file, line) {
  for (const it of by("files").querySelectorAll("[aria-current]")) {
    it.removeAttribute("aria-current");
    it.classList.remove("here");
  }
  line.setAttribute("aria-current", "true");
  line.classList.add("here");
  forgetClock();
  forgetPart();
  run(file);
}

function fileLine(file) {
  const line =
      h("tr", {}, h("th", {scope: "row"}, h("bdi", {}, shownName(file.name))), h("td", {class: "soft"}, "waits"));
  /** @type {(head: string[]) => HTMLElement} */
  const empty = ([label, kind]) => h("td", {class: kind, "data-label": label || undefined});
  line.append(...FILE_HEADS.slice(2).map(empty));
  line.lastElementChild.append(
      h("button", {type: "button", "aria-label": `Open ${shownName(file.name)}`, onclick: () => openFile(file, line)},
        "Open"));
  return line;
}

function fillLine(line, told) {
  const [verdict, ...rest] = verdictCells(told), cells = [...line.children].slice(1);
  line.dataset.verdict = verdict.split(":")[0];
  cells[0].className = "";
  cells[0].textContent = verdict;
  rest.forEach((words, k) => {
    cells[k + 1].textContent = words;
  });
}

function filesSection(files, lines, way) {
  const taken =
      way.words.length ? `Taken with ${way.words.join(" ")}.` : "Taken as recordings from power-on, with all devices.";
  return section(
      "Several recordings", "files", h("p", {}, `${number(files.length)} files, checked one after the other. ${taken}`),
      h("p", {class: "noprint", id: "files-work"},
        h("progress", {id: "files-bar", max: files.length, value: 0, "aria-label": "Files checked"}), " ",
        h("button", {type: "button", id: "files-stop", onclick: stopBatch}, "Stop")),
      h("p", {id: "files-told", role: "status"}), table("The verdict of each file", FILE_HEADS, lines));
}

// Checks files one after the other, each in a worker of its own, and fills the table.
async function checkAll(files) {
  const mine = batch = newBatch(), lines = files.map(fileLine), counts = {};
  let way;
  try {
    way = options();
  } catch (fault) {
    failed(fault, false);
    return;
  }
  by("main").before(filesSection(files, lines, way));
  by("files").scrollIntoView({block: "start"});
  for (const [i, file] of files.entries()) {
    by("files-told").textContent = `${i + 1} of ${files.length}: ${shownName(file.name)}`;
    const answer = rowsUnasked(file).then((rows) => check(rows, way, (it) => tellFile(mine, i, it)));
    const told = await Promise.race([answer, mine.stopped]).catch((fault) => fault);
    if (mine.isStopped) break;
    fillLine(lines[i], told);
    counts[lines[i].dataset.verdict] = (counts[lines[i].dataset.verdict] ?? 0) + 1;
    barBy("files-bar").value = i + 1;
  }
  endBatch(mine, lines, counts);
}

function endBatch(mine, lines, counts) {
  if (!by("files")?.contains(lines[0])) return;
  const words = Object.entries(counts).map(([verdict, count]) => `${number(count)} ${verdict}`).join(", ");
  by("files-work").hidden = true;
  by("files-told").textContent = `${mine.isStopped ? "Stopped" : "Done"}: ${words || "none was checked"}.`;
  if (mine.isStopped)
    for (const line of lines)
      if (!line.dataset.verdict) line.children[1].textContent = "not checked";
  by("files").dataset.done = mine.isStopped ? "stopped" : "all";
}

// What there is to try while nothing is chosen. EXAMPLES has the recordings' names, what they are, and their rows.
/** @type {() => HTMLElement} */
export function examplesSection() {
  const button = ({name, words, text}) => h(
      "li", {},
      h("button", {type: "button", "data-example": name, onclick: () => take([new File([text], name)], true)}, words));
  return section(
      "Try an example", "examples", h("p", {}, "Two short recordings are built into this page:"),
      h("ul", {class: "plain"}, EXAMPLES.map(button)));
}
