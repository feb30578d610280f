// @ts-check
// A survey: the recording from end to end, though rows of it cannot be. The module tells its text, and where each fault
// stands. The times are those of the rows. `faults.js` and `stretches.js` show it.
import {faultSection} from "../card/fault.js";
import {partsOf} from "../card/sentences.js";
import {ANSWERS} from "../checker/answers.js";
import {announce, by, h} from "../elements.js";
import {figures, recordSection, showSum} from "../files/evidence.js";
import {actsSection, beginActs} from "../list/acts.js";
import {contents, land, leave} from "../list/jumps.js";
import {partLink} from "../list/links.js";
import {tellSection} from "../list/statement.js";
import {timeSection} from "../list/timeline.js";
import {lostWords} from "../money/lost-sales.js";
import {showOpen} from "../money/open-list.js";
import {checker, endChecker, nextRun, noteShown, readyChecker, setSurveying, state, surveying} from "../run/now.js";
import {showTitle} from "../run/trouble.js";
import {progress, working} from "../run/work.js";

import {surveySection} from "./faults.js";
import {askedAgain, takeRelisted} from "./gaps.js";
import {stretchSection} from "./stretches.js";
import {surveyOf} from "./text.js";
import {surveyLead} from "./words.js";

// Surveys the recording of the answer that is shown, as that answer was made.
export async function survey() {
  const it = state, isNow = nextRun();
  setSurveying(it);
  working(true);
  by("work").focus();
  const ask = (message) => readyChecker().ask(message, (words) => {
    if (isNow()) progress(words);
  });
  try {
    const told = await ask({surveyed: it.way.bytes});
    if (!isNow()) return;
    if (told.answer > ANSWERS.UNREAD) throw new Error("the module couldn't make it.");
    const made = surveyOf(told), lists = await ask({relisted: askedAgain(it, made)});
    if (!isNow()) return;
    takeRelisted(it, made, lists);
    endSurvey();
    showSurvey(it);
  } catch (fault) {
    if (!isNow()) return;
    endChecker();
    giveUpSurvey(it, `There is no survey: ${fault.message}`);
  }
}

function endSurvey() {
  setSurveying(null);
  working(false);
  showTitle();
  noteShown();
}

// After a survey that came to nothing: the answer stays, and the button may be pressed again.
function giveUpSurvey(it, words) {
  endSurvey();
  sumAgain(it);
  announce(words);
  by("survey-told").textContent = words;
  by("survey-go").focus();
}

export const stopSurvey = () => giveUpSurvey(surveying, "You stopped the survey.");

// A worker that was stopped made no checksum: another one makes it.
function sumAgain(it) {
  if (it.sha256) return;
  it.sum = readyChecker().sum;
  checker.ask({}).catch(() => {
    if (it === state) by("sum").textContent = "not computed: the file can't be read any more";
  });
  showSum(it);
}

/** @type {(it: Answer) => void} */
export function addSurvey(it) {
  const after = by("time") ?? by("record"), made = [surveySection(it), stretchSection(it)];
  by("survey-offer")
      .replaceChildren(
          `The survey went on after it. ${surveyLead(it.survey)} `, ...partsOf(lostWords(it)),
          h("span", {class: "noprint"}, partLink("survey", "All faults")));
  after.before(...made);
  by("unjudged").remove();
  showOpen(it);
  by("fault")?.replaceWith(faultSection(it));
  showLists(it);
  by("record").replaceWith(recordSection(it));
  by("figures").textContent = figures(it);
  showSum(it);
  by("contents").replaceWith(contents([...by("told").querySelectorAll(":scope > section")]));
}

function showSurvey(it) {
  addSurvey(it);
  announce(`All faults. ${surveyLead(it.survey)}`);
  leave(it, by("survey-offer"));
  land(by("survey-title"));
}

// The time line, the sales and all that was said, with what comes after the faults.
function showLists(it) {
  for (const id of ["time", "told-money", "acts"]) by(id)?.remove();
  by("record").before(timeSection(it), ...it.listed ? [tellSection(it), actsSection(it)] : []);
  if (it.listed) beginActs(it);
}
