// @ts-check
// An earlier recording, for what it shows of the set-up.
import {answerTo} from "../card/row-story.js";
import {ACK, Acts, ASK, BREAK, DEVICE_NAMES, DEVICES, findSetups, REPLY} from "../checker/acts.js";
import {ANSWERS, ROW_FAULTS} from "../checker/answers.js";
import {layout} from "../checker/layout.js";
import {isConfigAsk, readerMessages} from "../checker/messages.js";
import {by, fieldBy, h} from "../elements.js";
import {madeFiles, unpacked} from "../import/made.js";
import {openImport, OVERTAKEN, recordingOf} from "../import/panel.js";
import {check} from "../run/answer.js";
import {isOptionsAsk} from "../run/options.js";
import {showSetupFault, showWay} from "../run/way.js";
import {foundText, hex, listed, number, shownName, the} from "../texts.js";

let newestSetup = 0;

// The last answers to SETUP that stand among acts that aren't listed, with none of their devices after them; in words.
function unlistedSetups({found, hole}, acts) {
  if (hole < 0) return "";
  const from = acts.last(hole - 1), to = acts.first(hole), missed = [null, null, null, null, null];
  for (const it of found.setups)
    if (it.first > from) missed[it.device] = it.last < to ? it : null;
  const words = ({first, last, device}) => ` Rows ${number(first)}–${number(last)} have a later answer of ` +
      `${the(DEVICE_NAMES[device])}, which isn't listed. Cut the recording after them, and choose it again.`;
  return missed.filter(Boolean).map(words).join("");
}

// Whether a reader accepted a command.
function wasAccepted(acts, k) {
  const kind = answerTo(acts, k);
  if (kind !== REPLY) return kind === ACK;
  return readerMessages(acts.bytes(k + 1), acts.reading(k + 1)).every(([first]) => first !== OUT_OF_SEQUENCE);
}

const OUT_OF_SEQUENCE = 0x0B;

// What the controller last sent to each reader: SETUP, and ENABLE OPTIONS if the reader accepted it and no break and no
// accepted RESET came after it. Acts from `hole` on stand after others that aren't listed.
function findAsks(acts, hole) {
  const found = DEVICES.map(() => ({isThere: false, config: null, options: null}));
  for (let i = 0; i < acts.count; i++) {
    const kind = acts.kind(i), it = found[acts.device(i)], bytes = acts.bytes(i);
    if (kind === BREAK || i === hole)
      for (const one of found) one.options = null;
    if (acts.device(i) < 3) continue;
    it.isThere ||= kind === REPLY || kind === ACK;
    if (kind !== ASK) continue;
    if (isConfigAsk(bytes)) it.config = bytes;
    if (!wasAccepted(acts, i)) continue;
    if ((bytes[0] & 7) === 0) it.options = null;
    if (isOptionsAsk(bytes)) it.options = bytes;
  }
  return found;
}

// Puts what the controller sent to a reader into its fields; in words. What the fields had of another day goes.
function takeAsks({isThere, config, options}, device, name) {
  if (!isThere || !config) return "";
  const words = (block) => block ? Array.from(block, hex).join(" ") : "";
  fieldBy("level-" + device).value = "";
  fieldBy("config-" + device).value = words(config);
  fieldBy("options-" + device).value = words(options);
  return ` It shows the controller's SETUP${options ? " and ENABLE OPTIONS" : ""} to ${the(name)}.`;
}

// What an earlier recording says of the set-up of each device, put into the fields; in words.
/** @type {(told: any, name: string) => string} */
export function takeSetups(told, name) {
  if (told.answer > ANSWERS.NO) return `${name}: ${unreadWords(told)} Nothing was taken from it.`;
  const acts = new Acts(told.acts, told.listed), found = findSetups(acts), asks = findAsks(acts, told.hole), names = [],
        more = [unlistedSetups(told, acts)];
  for (let d = 1; d < 5; d++) {
    if (found[d]) {
      fieldBy("setup-" + DEVICES[d]).value = found[d];
      names.push(DEVICE_NAMES[d]);
    }
    if (d > 2) more.push(takeAsks(asks[d], DEVICES[d], DEVICE_NAMES[d]));
  }
  const rest = more.join("");
  if (names.length || rest) showSetupFault(null);
  if (!names.length && rest) return `${name}:${rest}`;
  return names.length ? `${name} shows the set-up of ${listed(names.map(the))}.${rest}` :
                        `${name} shows no answer to SETUP. The bytes below are as they were.`;
}

// Why a recording couldn't be read, with its row.
function unreadWords(told) {
  const row = number(told.row);
  if (told.answer === ANSWERS.BAD_ROW) {
    const line = told.lines.find((l) => l.row === told.row);
    return `row ${row} is no row. ${ROW_FAULTS[told.fault]}: wanted TIME,LINE,VALUE, found "${foundText(line)}".`;
  }
  if (told.answer === ANSWERS.UNREAD) return `row ${row} has a quote (") or a CR alone, and this page can't read it.`;
  return "it has more than 100,000,000 rows.";
}

// A recording of a start, with all devices, by the extended profile: that follows each reader.
function fromPowerOn() {
  const bytes = new Uint8Array(layout.options.size);
  bytes[layout.options.extended] = 1;
  return {bytes, words: [], given: [], late: null};
}

/** @type {(given: File) => Promise<void>} */
export async function readSetups(given) {
  const mine = ++newestSetup, say = (words) => {
    if (mine === newestSetup) by("setup-told").replaceChildren(h("bdi", {}, words));
  };
  const name = shownName(given.name);
  say(`Reading ${name}`);
  try {
    const held = await unpacked(given), rows = await recordingOf(held, readSetups);
    if (!rows) {
      const isAsked = openImport?.file === held;
      say(isAsked ? `${name} isn't a recording: see what is said of it below.` : `${name}: ${OVERTAKEN}`);
      return;
    }
    const told = await check(rows, fromPowerOn());
    if (mine !== newestSetup) return;
    say(takeSetups(told, name));
    showWay();
    if (madeFiles.get(rows)?.command && !by("stale").hidden) by("again").focus();
  } catch (fault) {
    say(`${name}: ${fault.message}`);
  }
}
