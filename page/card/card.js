// @ts-check
// The card with the verdict: one sentence, the story, what to do next, and the buttons that help.
import {DEVICE_NAMES, DEVICES} from "../checker/acts.js";
import {ANSWERS, isUnfollowed, onlyLine, ROW_FAULTS} from "../checker/answers.js";
import {ACCOUNTS} from "../checker/report.js";
import {when} from "../clock.js";
import {by, h} from "../elements.js";
import {
  exchangedSource,
  hasMadeTimes,
  IMPORT_AGAIN,
  leftOutOf,
  MADE_TIMES,
  madeFiles,
  NO_PART
} from "../import/made.js";
import {openHead, openLead, openMoneyOf, openPart, withOpen} from "../money/open-list.js";
import {isDiffering} from "../money/ranges.js";
import {isEasilyOpen} from "../money/weights.js";
import {asked} from "../run/asked.js";
import {file, newest, recording} from "../run/now.js";
import {BLAMES, capital, foundText, listed, number, REFUSED_LINE, shown, small, the} from "../texts.js";

import {isPerhapsLate, lateAside, lateNotes} from "./late.js";
import {isDamaged, isPerhapsExchanged, NO_TRAFFIC, noTraffic, profileStory, unfollowed} from "./link-story.js";
import {showOneLine} from "./one-line.js";
import {fillCard, leaveOut, leftOut, nameWords, openSetups, storyList, surveyOffer, unjudgedWords} from "./parts.js";
import {nextStep} from "./sentences.js";
import {agreedWords, differsWords, headOf, noTrafficStory, storyOf, valuelessStory} from "./story.js";
import {showUnjudged} from "./unjudged-story.js";

const FAULT_WORDS = {
  FieldCount: "The line doesn't have three fields with commas between them. Semicolons and tabs don't separate fields.",
  BadTime: "The first field isn't a whole number of 1 to 18 digits. Is it a header, or a time with a decimal point?",
  BadLine: "The second field isn't M, S or B.",
  BadValue: "The third field must have three hexadecimal digits, up to 1FF: write 8 as 008, and 0x108 as 108. " +
      "In a row with B it must have 1 to 9 decimal digits.",
};

// Whether a word was left out before the row that cannot be.
function isAfterDamage(it) {
  const damaged = leftOutOf(it.file), line = it.lines.find(({row}) => row === it.row);
  return Boolean(damaged && line) && damaged.first[0].time < Number(shown(line).split(",")[0]);
}

// What a card says of a sniffer's log.
const madeTimesNote = (it) => hasMadeTimes(it.file) ? [h("p", {id: "made-times"}, MADE_TIMES)] : [];

// The rules about times, which say nothing about a recording whose times are made up.
const TIME_RULES = ["Early", "Late", "Spacing", "Break"];
const isOfMadeTimes = (it) => hasMadeTimes(it.file) && TIME_RULES.includes(it.report.rule);
const storyOfMadeTimes = (it) =>
    [...storyOf(it).filter(({kind}) => kind !== "next"),
     nextStep("See the survey of the whole recording: it goes on after this row."),
     nextStep("To judge times, record the lines themselves.")];

// The story of a row that perhaps cannot be because a word is missing before it.
const storyAfterDamage = (it) =>
    [...storyOf(it).filter(({kind}) => kind !== "next"),
     nextStep("See the survey of the whole recording. A fault that isn't near such a place has another reason.")];

// What the import of the recording noticed, but for what else the card says, and a header.
function importNotes(it) {
  const notes = madeFiles.get(it.file)?.notes?.filter((words) => !/^each message|damaged|header$/.test(words)) ?? [];
  return notes.length ? [h("p", {id: "noticed", class: "soft"}, `The import noticed: ${notes.join("; ")}`)] : [];
}

// Fills the card by the answer.
/** @type {(it: Answer) => void} */
export function showVerdict(it) {
  showAnswer(it);
  by("lead").after(...madeTimesNote(it));
  by("verdict").append(...importNotes(it));
}

function showAnswer(it) {
  if (onlyLine(it)) return showOneLine(it);
  switch (it.answer) {
    case ANSWERS.YES:
      return showYes(it);
    case ANSWERS.NO:
      if (it.unjudged) return showUnjudged(it, it.unjudged);
      return it.report.rule === "Profile" ? showUnfollowed(it) : showNo(it);
    case ANSWERS.BAD_ROW:
      return showBadRow(it);
    case ANSWERS.UNREAD:
      return showUnread(it);
    case ANSWERS.TOO_LONG:
      return fillCard(
          "none", "No verdict: the recording is too long", "A recording has at most 100,000,000 rows.", nameWords(it));
    default:
      return fillCard(
          "none", "No verdict: the settings aren't valid",
          "The bytes that were given for a device aren't its answer to SETUP.", nameWords(it));
  }
}

// A yes ----

function showYes(it) {
  const r = it.report;
  if (r.rows !== "0" && isUnfollowed(it)) return showIdle(it);
  const story = r.rows === "0" ? [] : withOpen(it, storyOf(it));
  fillCard(
      "yes", yesHead(it) ?? KEPT, yesLead(it), leftOut(it), openPart(it), storyList(story), valueButton(it),
      h("p", {class: "soft", id: "ruling"},
        `All ${number(r.rows)} rows fit the protocol. That doesn't say that all of the money is there.`),
      nameWords(it));
  by("verdict").toggleAttribute("data-open", story.some(({kind}) => kind === "next"));
}

const KEPT = "All devices kept the protocol";

// What a yes leaves to do, in a few words; null if it leaves nothing.
function yesHead(it) {
  const r = it.report, all = Object.entries(r.accounts);
  const silent = DEVICES.filter((d) => r.silences[d]).map((d) => the(DEVICE_NAMES[DEVICES.indexOf(d)]));
  const differing = all.filter(([, a]) => isDiffering(a)).map(([name, a]) => differsWords(it, name, a));
  const open =
      listed(all.filter(([name, a]) => isEasilyOpen(it, name, a)).map(([name]) => small(ACCOUNTS[name].title)));
  return openHead(it) || (differing.length && `The books differ for certain: ${listed(differing)}`) ||
      (silent.length && `No answer of ${listed(silent)} for too long`) ||
      (open && `Not all of the money is certain: ${open}`) ||
      (valuelessStory(it).length && "Some amounts have no known value") || null;
}

// What money moved, where nothing is left to do.
function yesLead(it) {
  if (it.report.rows === "0") return "There is no row in this file.";
  if (openMoneyOf(it).length) return `${KEPT}, but ${openLead(it)}.`;
  return yesHead(it) ? `${KEPT}.` : agreedWords(it);
}

// A yes in which no device was followed.
function showIdle(it) {
  const left = it.report.without.map((d) => DEVICE_NAMES[DEVICES.indexOf(d)]), isExchanged = !left.length;
  fillCard(
      "yes", "Nothing was followed: this proves nothing",
      `None of the ${number(it.report.rows)} rows is a command to a device that is checked.`,
      h("p", {}, h("strong", {}, "Nothing was followed:"), " each sum is 0, and nobody could be blamed. ",
        isExchanged ?
            "Most likely lines M and S are exchanged (M must be the controller's line), the mode bits are lost, or this isn't MDB traffic: check the baud rate, the polarity and the lines." :
            `Left out: ${listed(left.map(the))}. Perhaps no other device is on this bus.`),
      isExchanged ? exchangeButton() : null, nameWords(it));
  by("verdict").toggleAttribute("data-unfollowed", true);
}

function valueButton(it) {
  const isMissing = valuelessStory(it).length > 0;
  return isMissing && it.way.bytes[0] ?
      h("p", {class: "noprint"}, h("button", {type: "button", onclick: openSetups}, "Give an earlier recording")) :
      null;
}

// A no ----

function showNo(it) {
  const r = it.report, none = noTraffic(it), isExchanged = !none && isPerhapsExchanged(it);
  const isLate = !none && isPerhapsLate(it) && !isExchanged, isTimes = !none && isOfMadeTimes(it);
  const isFile = none || isFileLikely(it) || isAfterDamage(it) || isTimes;
  const lead = isLate ? h("strong", {}, "Was the machine already running when the recording began?") :
      none            ? noTrafficLead(none) :
      isFile          ? fileLead(it) :
                        `${capital(BLAMES[r.blame])} broke the protocol${faultAt(it)}.`;
  fillCard(
      "no",
      none            ? NO_TRAFFIC :
          isExchanged ? "Most likely lines M and S are exchanged" :
          isTimes     ? "A rule about times, and these times are made up" :
                        headOf(it),
      lead, leftOut(it), isLate ? [lateNotes(it), h("p", {}, "If the recording does begin at power-on:")] : null,
      openPart(it),
      storyList(
          none                  ? noTrafficStory(it) :
              isTimes           ? storyOfMadeTimes(it) :
              isAfterDamage(it) ? storyAfterDamage(it) :
                                  withOpen(it, storyOf(it)),
          isLate ? "What to do next, in that case" : undefined),
      isExchanged ? exchangeButton() : null,
      none || isLate || !it.late ? null :
          isExchanged            ? lateAside(it) :
                                   lateNotes(it),
      rulingWords(it), isLate || isFile ? null : h("p", {class: "soft"}, RECORDER), surveyOffer(), nameWords(it));
}

// When the row began that breaks a rule.
function faultAt(it) {
  const time = /^(\d+),/.exec(shown(it.lines.find((l) => l.row === it.row) ?? {bytes: [], whole: true}))?.[1];
  return time === undefined ? "" : ` at ${when(Number(time))}`;
}

const noTrafficLead = ({bad, all}) => `${number(bad)} of the ${number(all)} messages there can't be right.`;

// What comes first where the file, rather than a device, is likely to be the reason.
function fileLead(it) {
  if (isOfMadeTimes(it)) return "This says nothing about the machine, and blames nobody.";
  if (isAfterDamage(it)) return "A damaged word was left out before it.";
  return it.report.blame === "other" ? "Check the recording first." :
                                       "It is at the beginning of the recording. Check the recording first.";
}

// The row and the rule, and what of the recording they leave.
function rulingWords(it) {
  const {rule, blame} = it.report;
  return h(
      "p", {class: "soft", id: "ruling"},
      `Row ${number(it.row)} breaks the rule ${rule}. ${capital(BLAMES[blame])} sent it. ${
          it.row > 1 ? "The rows before it fit the protocol. " : ""}`,
      unjudgedWords(it));
}

const RECORDER = "This blame holds only if the file has every word of both lines, the lines " +
    "the right way round, and the times in microseconds.";

// Whether the file, rather than a device, is likely to be the reason.
const isFileLikely = (it) => it.report.blame === "other" || it.row <= 3;

// What isn't followed: no fault of anybody, and the button that leaves out the device.
function showUnfollowed(it) {
  const row = number(it.row), none = noTraffic(it), isWrong = none || isDamaged(it);
  const lead = none ? noTrafficLead(none) :
      isWrong       ? "The sum of this command is wrong." :
                      "This is a limit of the checker.";
  fillCard(
      "limit",
      none        ? NO_TRAFFIC :
          isWrong ? "Damaged message of the controller" :
                    `Not followed: ${unfollowed(it).what}`,
      `${lead} It shows no fault of anybody.`, leftOut(it), openPart(it),
      storyList(none ? noTrafficStory(it) : withOpen(it, profileStory(it))), isWrong ? null : leaveOut(it),
      h("p", {class: "soft", id: "ruling"},
        `From row ${row} on, by the rule Profile. ${it.row > 1 ? "The rows before it fit the protocol. " : ""}`,
        unjudgedWords(it)),
      surveyOffer(), nameWords(it));
}

// Exchanged lines ----

const exchangeButton = () =>
    h("p", {class: "noprint"},
      h("button", {type: "button", id: "exchange", onclick: checkExchanged}, "Read it with M and S exchanged"));

// A text of rows with M and S exchanged in the second field of each.
function exchanged(bytes) {
  const made = bytes.slice();
  for (let i = 0, isField = false; i < made.length; i++) {
    if (made[i] === 10) isField = false;
    if (made[i] !== 44 || isField) continue;
    isField = true;
    if (made[i + 1] === 77)
      made[i + 1] = 83;
    else if (made[i + 1] === 83)
      made[i + 1] = 77;
  }
  return made;
}

async function checkExchanged() {
  const {name} = file, ending = " (M and S exchanged)", isBack = name.endsWith(ending), before = newest;
  const source = madeFiles.get(recording), bytes = exchanged(new Uint8Array(await recording.arrayBuffer()));
  const made = new File([bytes], isBack ? name.slice(0, -ending.length) : name + ending);
  if (source) madeFiles.set(made, exchangedSource(source));
  if (newest === before) asked.run(made, true);
}

// A row with quotes, far down.
function showUnread(it) {
  const button =
      h("button", {type: "button", class: "noprint", onclick: () => asked.takeQuotesOff()},
        "Take the quotes off and check");
  fillCard(
      "none", `No verdict: this page doesn't read row ${number(it.row)}`,
      h("span", {id: "unread"},
        "The row contains a quote (\"), or a CR that doesn't end its line. The page can take the quotes off, as the program mdbcheck does."),
      h("p", {}, button), nameWords(it));
}

// A line that is no row.
function showBadRow(it) {
  const line = it.lines.find((l) => l.row === it.row), fault = ROW_FAULTS[it.fault], found = foundText(line);
  const words = found === REFUSED_LINE ? `${NO_PART} ${IMPORT_AGAIN}` : FAULT_WORDS[fault];
  fillCard(
      "none", `No verdict: row ${number(it.row)} is no row`, words,
      h("p", {}, h("code", {id: "bad-row"}, `row ${it.row}: ${fault}: wanted TIME,LINE,VALUE, found "${found}"`)),
      nameWords(it));
}
