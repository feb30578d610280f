// @ts-check
// What an answer rests on, for the record: the file with its checksum, the options, the time, the program's text. It
// can be saved as a page of its own.
import {beganWords, clock} from "../clock.js";
import {by, fieldBy, h, section} from "../elements.js";
import {sourceOf} from "../import/made.js";
import {isWorking, state} from "../run/now.js";
import {number} from "../texts.js";

import {save, savedName} from "./save.js";

// So much of the text of a survey stands on the page.
const MOST_TEXT = 1000000;

const surveyCommandOf = (it) => ["mdbcheck survey", ...it.way.words, "< FILE"].join(" ");
const commandOf = (it) => ["mdbcheck check", ...it.way.words, "< FILE"].join(" ");

// A time by this computer's clock, and how far that is from UTC.
function clockTime(date) {
  const two = (n) => String(n).padStart(2, "0"), east = -date.getTimezoneOffset(), far = Math.abs(east);
  const day = [date.getFullYear(), date.getMonth() + 1, date.getDate()].map(two).join("-");
  const time = [date.getHours(), date.getMinutes(), date.getSeconds()].map(two).join(":");
  return `${day} ${time} (UTC${east < 0 ? "−" : "+"}${two(Math.floor(far / 60))}:${two(far % 60)})`;
}

// What was checked, when, how, and by what.
function recordTable(it) {
  const row = (words, ...inner) => h("tr", {}, h("th", {scope: "row"}, words), h("td", {}, inner));
  const sum = h("code", {id: "sum"}, it.sha256 ?? "being computed"), source = sourceOf(it.file);
  return h(
      "div", {class: "scroll"},
      h("table", {id: "facts", "aria-labelledby": "record-title"},
        h("tbody", {}, row("Recording", h("bdi", {}, it.name)), source && row("Made from", ...source),
          row("Size", `${number(it.size)} bytes`), clock && row("The recording began at", beganWords()),
          row("SHA-256 of the recording", sum), row("File last changed", clockTime(new Date(it.file.lastModified))),
          row("Checked", clockTime(it.when)),
          row("Command with the same answer", h("code", {id: "command"}, commandOf(it))),
          it.survey && row("Command of the survey", h("code", {id: "survey-command"}, surveyCommandOf(it))),
          row("Checked by", by("made").textContent))));
}

function programText(it) {
  return it.text ?
      [h("p", {}, "Byte for byte what the program prints:"), h("pre", {id: "text", tabindex: 0}, it.text)] :
      [h("p", {}, "The program prints no report for this file.")];
}

// The text of a survey, or its beginning and its end.
function surveyText(it) {
  if (!it.survey) return [];
  const {whole, last, all, listed: some} = it.survey, isLong = whole.length > MOST_TEXT;
  const cut = whole.lastIndexOf("\n", MOST_TEXT) + 1, isAll = some === all;
  const words = isAll ? "The survey, byte for byte as the program prints it:" :
                        `The survey, as the program prints it, without the faults after the first ${number(some)}:`;
  return [
    h("p", {},
      isLong ? `${words} here only its beginning and its end. “Save the text of the survey” saves all of it.` : words),
    h("p", {class: "noprint"},
      h("button",
        {type: "button", id: "save-survey", onclick: () => save(savedName(it, "-survey.txt"), whole, "text/plain")},
        "Save the text of the survey")),
    h("pre", {id: "survey-text", tabindex: 0}, isLong ? `${whole.slice(0, cut)}..\n${last}` : whole)
  ];
}

/** @type {(it: Answer) => HTMLElement} */
export function recordSection(it) {
  const button = h(
      "button", {type: "button", id: "save-report", disabled: true, onclick: () => saveReport(it)}, "Save the report");
  return section(
      "For the record", "record", recordTable(it), h("p", {class: "noprint"}, button), ...programText(it),
      ...surveyText(it), h("p", {id: "figures", class: "soft"}));
}

// Shows the checksum of the recording when it is there. A report can be saved from then on.
/** @type {(it: Answer) => Promise<void>} */
export async function showSum(it) {
  it.sha256 = await it.sum;
  if (it !== state) return;
  by("sum").textContent = it.sha256;
  fieldBy("save-report").disabled = isWorking;
}

// The parts of the page that a report has, if they are there.
const REPORT_PARTS = ["fault", "money", "before", "devices", "survey", "stretches"];

// Takes away what can be pressed or followed.
function makeStill(part) {
  for (const it of part.querySelectorAll("details")) it.open = true;
  for (const it of part.querySelectorAll(".why")) it.replaceWith(it.textContent);
  for (const it of part.querySelectorAll(".noprint, .why-told, button, input, select")) it.remove();
  for (const it of part.querySelectorAll("a")) it.replaceWith(...it.childNodes);
  for (const it of part.querySelectorAll("[tabindex]")) it.removeAttribute("tabindex");
}

// The report: a page that stands alone, with no script. It asks for nothing.
function reportPage(it) {
  const page = document.implementation.createHTMLDocument(`${it.name} – report of mdbcheck`);
  const policy = {"http-equiv": "Content-Security-Policy", content: "default-src 'none'; style-src 'unsafe-inline'"};
  page.documentElement.lang = "en";
  page.head.prepend(
      h("meta", {charset: "utf-8"}), h("meta", policy),
      h("meta", {name: "viewport", content: "width=device-width, initial-scale=1"}));
  page.head.append(h("style", {}, document.querySelector("style").textContent));
  const parts = REPORT_PARTS.map(by).filter((part) => part !== null).map((part) => part.cloneNode(true));
  page.body.append(
      h("h1", {}, "Report of mdbcheck"), by("verdict").cloneNode(true),
      section("What was checked", "record", recordTable(it)), ...parts,
      section("What the program prints", "printed", ...programText(it), ...surveyText(it)));
  makeStill(page.body);
  return `<!doctype html>\n${page.documentElement.outerHTML}\n`;
}

function saveReport(it) {
  save(savedName(it, "-report.html"), reportPage(it), "text/html");
}

/** @type {(it: Answer) => string} */
export function figures(it) {
  const s = (ms) => (ms / 1000).toFixed(2) + " s";
  return `${number(it.size)} bytes, read in ${s(it.ms.read)}, checked in ${s(it.ms.check)}${
      it.survey ? `, surveyed in ${s(it.survey.ms)}, listed anew in ${s(it.ms.relist)}` :
                  ""}${it.before ? `, the rows before row ${number(it.row)} in ${s(it.ms.before)}` : ""}${
      it.ms.closer ? `, what leaves money open in ${s(it.ms.closer)}` : ""}, acts listed in ${
      s(it.ms.list)}, shown after ${s(it.ms.all)}; ${number(Math.round(it.memory / 1048576))} MB of memory.`;
}
