// @ts-check
// The card of a no that isn't judged.
import {DEVICE_NAMES, DEVICES} from "../checker/acts.js";
import {readerLength, readerMessages} from "../checker/messages.js";
import {fieldBy, h} from "../elements.js";
import {actAtRow} from "../list/lookup.js";
import {readerWords} from "../list/words.js";
import {openPart, withOpen} from "../money/open-list.js";
import {asked} from "../run/asked.js";
import {isExtended} from "../run/options.js";
import {capital, hex, number, the} from "../texts.js";

import {fillCard, leaveOut, leftOut, nameWords, openSetups, storyList, surveyOffer, unjudgedWords} from "./parts.js";
import {fact, inRows, nextStep, rowsAt} from "./sentences.js";
import {isBeyond, isHigh, readingsOf, reportedLevels, unjudgedReader} from "./unjudged.js";

const UNJUDGED = {
  level: "Not judged: the reader's level isn't in this recording",
  options: "Not judged: the reader's options aren't in this recording"
};

/** @type {(it: Answer, device: number) => Sentence[]} */
export function unjudgedStory(it, device) {
  const {unknown} = it, isWide = isExtended(it.way);
  const facts = isWide ? unknownFacts(it) : plainFacts(it, device);
  return [...facts, ...unjudgedSteps(it, device, unknown?.what ?? "level")];
}

// What the base profile tells of the row.
function plainFacts(it, device) {
  return [
    fact(
        "At feature level 1 ", rowsAt(it.row),
        " can't be. At level 2 or 3, which most newer machines have, messages and sales have other forms, and it may be right."),
    ...levelFacts(reportedLevels(it, device), device)
  ];
}

// What one side reported, where the other's level isn't known.
function levelFacts({controller, reader}, device) {
  const name = the(DEVICE_NAMES[device]);
  const words =
      (who, level, other) => [fact(`${capital(who)} reported level ${level}. The level of ${other} isn't known.`)];
  if (reader !== null && controller === null) return isHigh(reader) ? words(name, reader, "the controller") : [];
  return isHigh(controller) && reader === null ? words("the controller", controller, name) : [];
}

// What the extended profile tells of the row.
function unknownFacts(it) {
  const {device, what, row, isCommand, bytes, first, levels} = it.unknown, rows = inRows(rowsAt(first, row));
  const name = the(DEVICE_NAMES[device]), said = Array.from(bytes, hex).join(" ");
  const readings = isCommand || what === "options" ? [] : readingsOf(levels).filter((it) => isRead(bytes, it));
  if (readings.length < 2)
    return [
      fact(
          isCommand ? `The sum of the controller's command ${said}` : `The answer of ${name}, ${said},`, ...rows,
          isCommand            ? " is wrong, unless its amounts have four bytes. From level 3 on they may." :
              what === "level" ? " can be right at one feature level, and wrong at another." :
                                 " can't be read, unless its amounts have four bytes. From level 3 on they may."),
      ...levelFacts(levels, device)
    ];
  const setup = it.list.setupAt(device, actAtRow(it, row));
  const [low, high] = readings.map((it) => readerMessages(bytes, it).map((m) => readerWords(m, setup)).join("; "));
  return [
    fact(
        `The answer of ${name}, ${said}`, ...rows,
        `, can be read in two ways. At level 1 it is: ${low}. From level 2 on: ${high}.`),
    ...levelFacts(levels, device)
  ];
}

// Whether all messages of an answer are whole and followed in a reading.
function isRead(bytes, reading) {
  const messages = readerMessages(bytes, reading), last = messages.at(-1);
  const least = last[0] === 2 ? 2 : readerLength(last[0], last.length, reading);
  return !isBeyond(bytes, reading) && last.length >= least;
}

function unjudgedSteps(it, device, what) {
  const reader = the(DEVICE_NAMES[device]), address = device === 3 ? "11 00" : "61 00";
  const shows = what === "level" ? `It shows the level in the answer to SETUP (${address}).` :
                                   `It shows ENABLE OPTIONS (${device === 3 ? "17" : "67"} 04), if it is sent.`;
  return [
    nextStep(`Record a start of the same machine: switch it off and on, or have ${
        reader} reset. Choose that file as the earlier recording. ${shows}`),
    canChoose(it) ? nextStep("Or choose the level, if you know it: that of the reader and of the controller.") : null,
    nextStep("Leave the reader out if your question is about another device."),
  ].filter(Boolean);
}

// Whether a level that is chosen leads on.
/** @type {(it: Answer) => boolean} */
const canChoose = ({unknown}) => !unknown || unknown.what === "level";

// The buttons that set the level of a reader and its controller, and check again, no longer to the letter of level 1.
function levelButtons(device) {
  const name = DEVICES[device], choose = (level) => () => {
    fieldBy("level-" + name).value = String(level);
    fieldBy("config-" + name).value = "";
    fieldBy("letter").checked = false;
    asked.run();
  };
  const button = (level) =>
      h("button", {type: "button", "data-level": level, onclick: choose(level)}, `Level ${level}`);
  return h(
      "p", {id: "levels", class: "noprint"}, "Check again with ", [1, 2, 3].flatMap((level) => [button(level), " "]));
}

// A no that isn't judged: it blames nobody, says what would tell, and offers to leave the reader out.
/** @type {(it: Answer, device: number) => void} */
export function showUnjudged(it, device) {
  const row = number(it.row), before = it.row > 1 ? "The rows before it fit the protocol. " : "";
  const ruling = unjudgedReader(it) ? `At level 1 row ${row} breaks the rule ${it.report.rule}.` :
                                      `From row ${row} on, by the rule Profile.`;
  fillCard(
      "limit", UNJUDGED[it.unknown?.what ?? "level"], `This is ${the(DEVICE_NAMES[device])}. Nobody is blamed.`,
      leftOut(it), openPart(it), storyList(withOpen(it, unjudgedStory(it, device))),
      canChoose(it) ? levelButtons(device) : null,
      h("p", {class: "noprint"}, h("button", {type: "button", onclick: openSetups}, "Give an earlier recording")),
      leaveOut(it, device), h("p", {class: "soft", id: "ruling"}, `${ruling} ${before}`, unjudgedWords(it)),
      surveyOffer(), nameWords(it));
}
