// @ts-check
// What is shown of an answer.
import {showVerdict} from "./card/card.js";
import {faultSection} from "./card/fault.js";
import {takeUnjudged} from "./card/unjudged.js";
import {Acts, noteSetups} from "./checker/acts.js";
import {ANSWERS, asAtFirst, reportOf} from "./checker/answers.js";
import {clock, setClock, startClock} from "./clock.js";
import {announce, by} from "./elements.js";
import {figures, recordSection, showSum} from "./files/evidence.js";
import {actsSection, drawActs} from "./list/acts.js";
import {actsPlace, contents, jumpBar, putActsPlace} from "./list/jumps.js";
import {statementOf, tellSection} from "./list/statement.js";
import {timeSection} from "./list/timeline.js";
import {beforeSection, devicesSection, moneySection} from "./money/money.js";
import {openMoneyOf} from "./money/open-list.js";
import {noteUntold} from "./money/untold.js";
import {isWorking, state} from "./run/now.js";
import {addSurvey} from "./survey/survey.js";

// Looks at the acts of an answer, which may not be there yet.
/** @type {(it: Answer) => void} */
export function lookAt(it) {
  it.list = new Acts(it.acts, it.listed);
  noteSetups(it.list, it.way.given, it.hole, it.found);
  noteUntold(it.list, it.found);
  statementOf(it);
  openMoneyOf(it);
}

/** @type {(it: Answer) => void} */
export function show(it) {
  if (!it.list) lookAt(it);
  if (!("report" in it)) {
    it.report = reportOf(it);
    takeUnjudged(it);
  }
  startClock(it);
  const parts = [];
  showVerdict(asAtFirst(it));
  if (it.lines.length) parts.push(faultSection(it));
  if (it.answer === ANSWERS.YES) parts.push(moneySection(it), devicesSection(it));
  if (it.before && it.row > 1) parts.push(beforeSection(it));
  if (it.listed) parts.push(timeSection(it), tellSection(it), actsSection(it));
  parts.push(recordSection(it));
  by("told").replaceChildren(contents(parts), ...parts, jumpBar());
  by("main").classList.add("shown");
}

// Shows the answer anew, with all times of the clock that is known now.
/** @type {(it: Answer) => void} */
export function showAgain(it) {
  const place = it.listed ? actsPlace(it) : null, {hits} = it;
  show(it);
  if (it.survey) addSurvey(it);
  by("figures").textContent = figures(it);
  showSum(it);
  queueMicrotask(() => {
    if (!place || !hits) return;
    putActsPlace(it, place);
    drawActs(it);
  });
}

// Takes the clock that was written, and shows all times anew.
export function takeClock() {
  setClock();
  if (!state || isWorking) return;
  showAgain(state);
  announce(clock ? "All times are of the clock now." : "All times are those of the rows now.");
}
