// @ts-check
// Puts the parts of the page together, and takes its own events.
import {start, warmUp} from "./checker/checker.js";
import {forgetClock} from "./clock.js";
import {by, h} from "./elements.js";
import {examplesSection, take} from "./files/files.js";
import {checkPart} from "./files/part.js";
import {readSetups} from "./files/setup.js";
import {closeImport, takeQuotesOff} from "./import/panel.js";
import {drawActs, jumpToRow} from "./list/acts.js";
import {connect, jumpToPart} from "./list/jumps.js";
import {drawStatement, jumpToEntry} from "./list/statement.js";
import {drawLine, jumpToTime} from "./list/timeline.js";
import {asked} from "./run/asked.js";
import {endChecker, isWorking, nextRun, surveying} from "./run/now.js";
import {run} from "./run/runs.js";
import {trouble} from "./run/trouble.js";
import {showSetupFault, showWay} from "./run/way.js";
import {working} from "./run/work.js";
import {takeClock} from "./show.js";
import {drawFaults, jumpToNumber} from "./survey/faults.js";
import {drawStretches} from "./survey/stretches.js";
import {stopSurvey, survey} from "./survey/survey.js";

// Stops what works: a run, or a survey.
function stop() {
  if (!isWorking) return;
  nextRun();
  endChecker();
  if (surveying) {
    stopSurvey();
    return;
  }
  closeImport();
  working(false);
  trouble(
      "You stopped the check. There is no verdict.", true,
      h("button", {type: "button", onclick: () => run()}, "Check it after all"));
}

// Emptied, since choosing the same file again is no change else.
function chosen(input, then) {
  input.addEventListener("change", () => {
    const given = [...input.files];
    input.value = "";
    if (given.length) then(given);
  });
}

function unmark() {
  for (const it of document.querySelectorAll(".over")) it.classList.remove("over");
}

// Takes what is dropped on an element. `zone` shows while something is over it that it can be dropped.
function droppable(element, zone, then) {
  element.addEventListener("dragover", (e) => {
    e.preventDefault();
    e.stopPropagation();
    if (zone.classList.contains("over")) return;
    unmark();
    zone.classList.add("over");
  });
  element.addEventListener("dragleave", (e) => {
    if (!element.contains(e.relatedTarget)) unmark();
  });
  element.addEventListener("drop", (e) => {
    e.preventDefault();
    e.stopPropagation();
    unmark();
    const given = [...e.dataTransfer.files];
    if (given.length) then(given);
  });
}

Object.assign(asked, {run, survey, takeQuotesOff});
connect(
    {row: jumpToRow, entry: jumpToEntry, at: jumpToTime, part: jumpToPart, fault: jumpToNumber},
    [drawActs, drawStatement, drawFaults, drawStretches, drawLine]);
by("told").replaceChildren(examplesSection());
chosen(by("file"), take);
chosen(by("setup-file"), ([given]) => readSetups(given));
droppable(by("drop-setup"), by("drop-setup"), ([given]) => readSetups(given));
droppable(document.documentElement, by("drop"), take);
by("again").addEventListener("click", () => run());
by("stop").addEventListener("click", stop);
by("ways").addEventListener("change", showWay);
by("began").addEventListener("change", takeClock);
by("part-go").addEventListener("click", checkPart);
by("setups").addEventListener("input", () => showSetupFault(null));
forgetClock();
showWay();
start().then(warmUp, (fault) => trouble(fault.message, false));
