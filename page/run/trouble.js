// @ts-check
// What is shown and said after each run, and after one that failed.
import {fillCard} from "../card/parts.js";
import {DEVICE_NAMES, DEVICES} from "../checker/acts.js";
import {answerWord} from "../checker/answers.js";
import {announce, by, h} from "../elements.js";
import {nameShown, shownName, the} from "../texts.js";

import {endChecker, file, noteShown, setState, state} from "./now.js";
import {SetupFault} from "./options.js";
import {showSetupFault, showWay} from "./way.js";
import {working} from "./work.js";

// Shows why a run failed.
/** @type {(fault: Error, isButton: boolean) => void} */
export function failed(fault, isButton) {
  endChecker();
  working(false);
  if (!(fault instanceof SetupFault)) {
    trouble(`There is no verdict: ${fault.message}`, isButton);
    return;
  }
  trouble(`The set-up bytes of ${the(DEVICE_NAMES[DEVICES.indexOf(fault.device)])} can't be used.`, false);
  showSetupFault(fault);
}

// Shows that there is no verdict, of which file, and why. No earlier answer is left.
/** @type {(words: string, isButton: boolean, ...more: Node[]) => void} */
export function trouble(words, isButton, ...more) {
  const name = file ? h("p", {class: "soft"}, "Recording: ", nameShown(shownName(file.name))) : null;
  setState(null);
  fillCard("none", "No verdict", words, more.length ? h("p", {}, more) : null, name);
  by("told").replaceChildren();
  settle(isButton);
}

// After an answer or a failure: the title, the settings and the live region are of what is shown now, and the card is
// in sight. `isComing` is whether something is still added to the answer.
/** @type {(isButton: boolean, isComing?: boolean) => void} */
export function settle(isButton, isComing = false) {
  showTitle();
  const said = `${by("verdict").querySelector(".word").textContent}. ${by("lead").textContent}`;
  announce(file ? `${shownName(file.name)}: ${said}` : said);
  showWay();
  reachCard(isButton);
  if (!isComing) noteShown();
}

export function showTitle() {
  const word = state ? answerWord(state) : "no verdict";
  document.title = file ? `${word} – ${shownName(file.name)} – mdbcheck` : "mdbcheck";
}

// Brings the card into sight. After a button it gets the focus too, since the button is gone.
function reachCard(isButton) {
  const card = by("verdict"), {top} = card.getBoundingClientRect();
  if (isButton) card.focus({preventScroll: true});
  if (top < 0 || top > innerHeight - 160) card.scrollIntoView({block: "start"});
}
