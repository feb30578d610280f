// @ts-check
// A run that works: how far it is, and what can't be pressed meanwhile.
import {announce, barBy, by} from "../elements.js";
import {shownName} from "../texts.js";

import {file, setWorking} from "./now.js";
import {showWay} from "./way.js";

// What can't be pressed while a run works.
/** @type {any[]} */
let stilled = [];
let timer;

// Shows how far a run is: how much was read; while the module works, as much of the time as it will probably take.
/** @type {(it: Progress) => void} */
export function progress({doing, part, most}) {
  clearInterval(timer);
  if (by("doing").textContent !== doing) {
    by("doing").textContent = doing;
    const wait = most > 2000 ? `, about ${Math.ceil(most / 1000)} s` : "";
    announce(`${doing} ${shownName(file.name)}${wait}`);
  }
  barBy("bar").value = part;
  if (!most) return;
  const begin = performance.now();
  timer = setInterval(() => {
    barBy("bar").value = 1 - Math.exp(-1.5 * (performance.now() - begin) / most);
  }, 100);
}

// While a run works, what an earlier answer offers can't be meant.
/** @type {(on: boolean) => void} */
export function working(on) {
  const main = by("main");
  setWorking(on);
  by("work").hidden = !on;
  main.setAttribute("aria-busy", String(on));
  main.inert = on;
  if (on) {
    document.title = `checking – ${shownName(file.name)} – mdbcheck`;
    /** @type {NodeListOf<HTMLInputElement>} */
    const controls = main.querySelectorAll("button, input, select");
    stilled.push(...[...controls].filter((it) => !it.disabled));
    for (const it of stilled) it.disabled = true;
    by("doing").textContent = "Reading";
    barBy("bar").value = 0;
  } else {
    clearInterval(timer);
    for (const it of stilled) it.disabled = false;
    stilled = [];
  }
  showWay();
}
