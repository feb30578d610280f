// @ts-check
// What the page says of the settings, and of what is wrong with them.
import {DEVICE_NAMES, DEVICES} from "../checker/acts.js";
import {clock} from "../clock.js";
import {by, fieldBy, openWays} from "../elements.js";
import {listed, shownName, the} from "../texts.js";

import {file, isWorking, state} from "./now.js";
import {BLOCK_FIELDS, fieldsOf, isExtended, wayKey} from "./options.js";

// Says beside a field what is wrong with it, and goes there. Of the other fields nothing is said.
/** @type {(fault: import("./options.js").SetupFault | null) => void} */
export function showSetupFault(fault) {
  for (const [field, device] of BLOCK_FIELDS) {
    const isWrong = fault?.field === field && fault.device === device;
    by(`${field}-${device}-fault`).textContent = isWrong ? fault.message : "";
    by(`${field}-${device}`).setAttribute("aria-invalid", String(isWrong));
  }
  if (!fault) return;
  openWays();
  showWay();
  by(`${fault.field}-${fault.device}`).focus();
}

export function showWay() {
  const joined = fieldBy("joined").checked, isShown = state !== null && wayKey() === state.key;
  const isLetter = isShown ? !isExtended(state.way) : fieldBy("letter").checked;
  const out = DEVICES.slice(1).filter((it) => fieldBy("without-" + it).checked);
  by("way").textContent = (joined ? "machine already running" : "from power-on") +
      (isLetter ? ", to the letter of level 1" : "") +
      (out.length ? `, without ${listed(out.map((it) => the(DEVICE_NAMES[DEVICES.indexOf(it)])))}` : ", all devices") +
      (clock ? `, began at ${fieldBy("began").value.trim()}` : "");
  document.body.classList.toggle("open", file !== null);
  by("open-name").textContent = file ? shownName(file.name) : "";
  by("setups").hidden = !joined;
  DEVICES.slice(1).forEach((device, i) => {
    for (const field of fieldsOf(i)) fieldBy(`${field}-${device}`).disabled = fieldBy("without-" + device).checked;
  });
  fieldBy("again").disabled = !file || isWorking;
  fieldBy("part-go").disabled = !state?.listed || isWorking;
  fieldBy("began").disabled = isWorking;
  by("stale").hidden = !state || isWorking || isShown;
}
