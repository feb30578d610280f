// @ts-check
// What came out of the standard's times, in remarks beside the sums. By the extended profile it is no fault. How many
// rows there are, the report counts; when and how much, the acts tell.
import {actRows, fact, inRows, nextStep} from "../card/sentences.js";
import {
  ACK,
  ASK,
  BREAK,
  DEVICE_NAMES,
  DEVICES,
  NAK,
  REPEAT,
  REPLY,
  VMC_ACK,
  VMC_NAK,
  VMC_RET
} from "../checker/acts.js";
import {ANSWERS} from "../checker/answers.js";
import {h} from "../elements.js";
import {hasMadeTimes} from "../import/made.js";
import {timeLink} from "../list/links.js";
import {entryAt} from "../list/lookup.js";
import {BLAMES, capital, counted, number, the} from "../texts.js";

// A word is so long, and times have these limits (docs/bench/report.md, *Untimely*), from begin to begin of a word.
const WORD = 1146, MOST_WAIT = 6296, LEAST_WAIT = 5996, MOST_STEP = 2296, LEAST_BREAK = 100000, LEAST_START = 200000;
const ANSWERED = [ACK, NAK, REPLY, REPEAT], TAKEN = [VMC_ACK, VMC_NAK, VMC_RET], BLOCKS = [ASK, REPLY, REPEAT];
const CONTROLLER = 0;

const millis = (micros) => (micros / 1000).toFixed(1);
const pause = (micros) => millis(micros - WORD);

// The kinds of remarks: what was done, how the greatest or the least is called, and what the standard says.
const REMARKS = {
  late: {did: "answered late", most: true, of: pause, after: "after the command", rule: "the standard allows 5"},
  taken: {did: "acknowledged late", most: true, of: pause, after: "after the answer", rule: "the standard allows 5"},
  early: {did: "went on early", of: pause, after: "after a command without an answer", rule: "the standard asks for 5"},
  short: {did: "made a break too short", of: millis, after: "long", rule: "the standard asks for 100"},
  soon: {did: "spoke early", of: millis, after: "after a break", rule: "the standard asks for 200"}
};

// What came out of time, by who and what: how often, how far at most, and when first and last.
class Untimely {
  constructor() {
    /** @type {Map<string, {who: number, what: string, count: number, far: number, first: number, last: number}>} */
    this.all = new Map();
    // Late answers that the controller didn't acknowledge.
    this.unheard = [];
  }
  add(who, what, micros, time) {
    const key = `${what} ${who}`, isMost = REMARKS[what]?.most ?? what === "apart", known = this.all.get(key);
    if (!known) {
      this.all.set(key, {who, what, count: 1, far: micros, first: time, last: time});
      return;
    }
    known.count++;
    known.far = isMost ? Math.max(known.far, micros) : Math.min(known.far, micros);
    known.last = time;
  }
  // Takes an act, and the one before it.
  act(acts, i) {
    const kind = acts.kind(i), time = acts.start(i), before = i ? acts.kind(i - 1) : -1,
          words = acts.last(i) - acts.first(i);
    const wait = i ? time - acts.end(i - 1) : 0, device = acts.device(i);
    if (kind === BREAK && acts.length(i) < LEAST_BREAK) this.add(CONTROLLER, "short", acts.length(i), time);
    if (before === BREAK && wait - acts.length(i - 1) < LEAST_START)
      this.add(CONTROLLER, "soon", wait - acts.length(i - 1), time);
    if (ANSWERED.includes(kind) && wait > MOST_WAIT) {
      this.add(device, "late", wait, time);
      if (kind === REPLY && !isHeard(acts, i)) this.unheard.push(i);
    }
    if (TAKEN.includes(kind) && wait > MOST_WAIT) this.add(CONTROLLER, "taken", wait, time);
    if (kind === ASK && (before === ASK || before === VMC_RET) && wait < LEAST_WAIT)
      this.add(CONTROLLER, "early", wait, time);
    if (BLOCKS.includes(kind) && words && acts.end(i) - time > words * MOST_STEP)
      this.add(kind === ASK ? CONTROLLER : device, "apart", (acts.end(i) - time) / words, time);
  }
}

// Whether the controller acknowledged an answer, perhaps after it had asked for it again.
function isHeard(acts, i) {
  let at = i + 1;
  while (at < acts.count && [VMC_RET, REPEAT].includes(acts.kind(at))) at++;
  return at < acts.count && acts.kind(at) === VMC_ACK;
}

// By the list of acts: card and sums both tell of it.
/** @type {WeakMap<Acts, Untimely | null>} */
const known = new WeakMap();

// What is out of time in a recording that is a yes; null where the report counts none, or its times are made up.
/** @type {(it: Answer) => Untimely | null} */
function untimelyOf(it) {
  if (!known.has(it.list)) known.set(it.list, findUntimely(it));
  return known.get(it.list);
}

function findUntimely(it) {
  const counts = it.report.untimely, isTold = counts && Object.values(counts).some(Boolean);
  if (it.answer !== ANSWERS.YES || !isTold || hasMadeTimes(it.file)) return null;
  const found = new Untimely();
  for (let i = 0; i < it.list.count; i++)
    if (i !== it.hole) found.act(it.list, i);
  return found;
}

// The late answers that tell of money, and weren't acknowledged: the controller perhaps no longer waited.
/** @type {(it: Answer) => Sentence[]} */
export function lateStory(it) {
  const {list: acts} = it;
  const late = untimelyOf(it)?.unheard ?? [];
  const all = late.filter((i) => entryAt(it, acts.first(i), acts.last(i)) >= 0);
  if (!all.length) return [];
  const [i] = all, device = acts.device(i), more = all.length > 1 ? `, and so were ${number(all.length - 1)} more` : "";
  return [
    fact(
        `A late answer of ${the(DEVICE_NAMES[device])} tells of money, and wasn't acknowledged`,
        inRows(actRows(acts, i)), `${more}.`),
    nextStep(`Ask the maker of the controller how long it waits for ${the(DEVICE_NAMES[device])}.`)
  ];
}

// One remark: the times lead to the time line.
function remarkLine({who, what, count, far, first, last}) {
  const {did, most, of, after, rule} = REMARKS[what], name = who ? the(DEVICE_NAMES[who]) : "the controller";
  const often = count === 1 ? "once" : `${number(count)} times, at ${most ? "most" : "least"}`;
  const at = count === 1 ? ["; at ", timeLink(first)] : ["; first at ", timeLink(first), ", last at ", timeLink(last)];
  return h(
      "li", {}, `${capital(name)} ${did} ${often}${count === 1 ? "," : ""} ${of(far)} ms ${after} (${rule})`, at, ".");
}

// The rows of a sender that no other remark has: words of a message that came late.
function restLine(who, count, apart) {
  if (!apart)
    return h("li", {}, `${counted(count, "more row")} of ${BLAMES[DEVICES[who] || "controller"]} came out of time.`);
  const {far, first, last} = apart;
  return h(
      "li", {},
      `${counted(count, "word")} of ${
          BLAMES[DEVICES[who] || "controller"]} came late after the word before: in a message `,
      `${(far / 1000 - WORD / 1000).toFixed(2)} ms apart on average at most (the standard allows 1); first at `,
      timeLink(first), ", last at ", timeLink(last), ".");
}

// The remarks; null where there are none, or the report counts none.
/** @type {(it: Answer) => HTMLElement | null} */
export function remarks(it) {
  const counts = it.report.untimely, found = untimelyOf(it);
  if (!found) return null;
  const lines = [CONTROLLER, 1, 2, 3, 4].flatMap((who) => {
    const own = [...found.all.values()].filter((one) => one.who === who),
          told = own.filter(({what}) => what !== "apart");
    const rest = (counts[DEVICES[who] || "controller"] ?? 0) - told.reduce((sum, {count}) => sum + count, 0);
    return [...told.map(remarkLine), ...rest > 0 ? [restLine(who, rest, own.find(({what}) => what === "apart"))] : []];
  });
  return h(
      "div", {id: "remarks"}, h("h3", {}, "Times that aren't the standard's"), h("ul", {}, lines),
      h("p", {class: "soft"}, "By the extended profile this is no fault: the words were read, and are in the sums."));
}
