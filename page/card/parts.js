// @ts-check
// What more than one card has.
import {DEVICE_NAMES, DEVICES} from "../checker/acts.js";
import {layout} from "../checker/layout.js";
import {when} from "../clock.js";
import {by, fieldBy, h, openWays} from "../elements.js";
import {leftOutOf} from "../import/made.js";
import {OPEN_NEXT} from "../money/open-list.js";
import {COUNT_NEXT, SALE_NEXT} from "../money/rises.js";
import {asked} from "../run/asked.js";
import {isExtended} from "../run/options.js";
import {listed, nameShown, number, the} from "../texts.js";

import {unfollowedDevice} from "./link-story.js";
import {sentence} from "./sentences.js";

// How the recording was read, in words.
function wayWords(it) {
  const {bytes} = it.way, names = DEVICE_NAMES.slice(1);
  const left = names.filter((_, i) => bytes[layout.options.without + i]),
        given = names.filter((_, i) => isValued(it, i));
  const words = [`Read as a recording ${bytes[0] ? "of a machine that was already running" : "from power-on"}${
      isExtended(it.way) ? "" : ", to the letter of feature level 1"}.`];
  if (given.length) words.push(`The values of ${listed(given.map(the))} come from an earlier recording.`);
  names.forEach((name, i) => {
    const told = readerTold(it, i);
    if (told.length) words.push(`Given for ${the(name)}: ${listed(told)}.`);
  });
  words.push(left.length ? `Left out: ${listed(left.map(the))}.` : "All devices are checked.");
  if (it.isKept)
    words.push("These settings were kept from the recording before: change them under “How this recording is read”.");
  return words.join(" ");
}

// Whether values were given of a device, by its place among all.
/** @type {(it: Answer, i: number) => boolean} */
export const isValued = ({way: {bytes}}, i) => bytes[layout.options.setups + layout.setup.size * i] > 0;

// What was given of a reader's level and options, in words. Of another device that is nothing.
/** @type {(it: Answer, i: number) => string[]} */
export function readerTold({way: {bytes}}, i) {
  if (i < 2) return [];
  const {reader} = layout, place = layout.options.readers + reader.size * (i - 2), level = bytes[place + reader.level];
  return [
    level > 0 && `level ${level}`, bytes[place + reader.config] > 0 && "the controller's SETUP",
    bytes[place + reader.options] > 0 && "ENABLE OPTIONS"
  ].filter(Boolean);
}

// Fills the card. Its heading and the sentence after it are what is announced (`settle`, trouble.js).
/** @type {(kind: string, word: string, lead: string | Node, ...rest: any[]) => void} */
export function fillCard(kind, word, lead, ...rest) {
  const card = by("verdict");
  card.className = "card " + kind;
  card.removeAttribute("data-unfollowed");
  card.removeAttribute("data-open");
  card.replaceChildren(h("h2", {class: "word"}, word), h("p", {id: "lead"}, lead), ...rest.flat(3).filter(Boolean));
}

// What is to be done, each thing once. Who counts the cash box counts the tubes with it. Who asks the card company of
// an amount asks it of the sale.
function stepsOf(story) {
  const all = story.filter((it) => it.kind === "next"), key = (parts) => JSON.stringify(parts);
  const steps = new Map(all.map((it) => [key(it.parts), it]));
  if (steps.has(key([COUNT_NEXT["coins-in"]]))) steps.delete(key([COUNT_NEXT["paid-out"]]));
  if (![OPEN_NEXT.approved, OPEN_NEXT.failed].some((it) => steps.has(key([it])))) return [...steps.values()];
  return [...steps.values()]
      .map(({kind, parts}) => ({kind, parts: parts.filter((it) => it !== SALE_NEXT)}))
      .filter(({parts}) => parts.length);
}

/** @type {(story: Sentence[], heading?: string) => (HTMLElement | null)[]} */
export const storyList = (story, heading = "What to do next") => {
  const said = story.filter((it) => it.kind !== "next"), then = stepsOf(story);
  return [
    said.length ? h("ul", {id: "story"}, said.map(sentence)) : null,
    then.length ? h("div", {id: "next"}, h("h3", {}, heading), h("ul", {}, then.map(sentence))) : null,
  ];
};

// What a card says where damaged words were left out.
/** @type {(it: Answer) => HTMLElement | null} */
export function leftOut(it) {
  const damaged = leftOutOf(it.file);
  if (!damaged) return null;
  const {count, first} = damaged, all = first.map(({time, line}) => `${when(time)} on ${"MS"[line]}`);
  const places = count > first.length ? `the first at ${all.join(", ")}` : `at ${listed(all)}`;
  return h(
      "p", {id: "left-out"},
      `${count === 1 ? "A damaged word was" : `${number(count)} damaged words were`} left out of this recording, ${
          places}. What follows such a place may break a rule because a word is missing there.`);
}

/** @type {(it: Answer) => HTMLElement} */
export const nameWords = (it) => h("p", {class: "soft"}, "Recording: ", nameShown(it.name), `. ${wayWords(it)}`);

export function openSetups() {
  openWays();
  by("setup-file").focus();
  by("setups").scrollIntoView({block: "center"});
}

// What the card says of the rest, until a survey takes it.
/** @type {(it: Answer) => HTMLElement} */
export const unjudgedWords = (it) => h("span", {id: "unjudged"}, "Nothing after it was judged.");

/** @type {(it: Answer, which?: number) => HTMLElement | null} */
export function leaveOut(it, which = unfollowedDevice(it)) {
  const device = DEVICES[which];
  if (!device || fieldBy("without-" + device).checked) return null;
  const check = () => {
    fieldBy("without-" + device).checked = true;
    asked.run();
  };
  return h(
      "p", {class: "noprint"},
      h("button", {type: "button", id: "leave-out", onclick: check},
        `Leave out ${the(DEVICE_NAMES[DEVICES.indexOf(device)])}, and check again`));
}

// What the card offers after a no, and what it says when that was done.
/** @type {() => HTMLElement} */
export function surveyOffer() {
  const words = "Go on: survey the whole recording";
  return h(
      "p", {id: "survey-offer"},
      h("button", {type: "button", id: "survey-go", class: "noprint", onclick: () => asked.survey()}, words), " ",
      h("span", {id: "survey-told"}));
}
