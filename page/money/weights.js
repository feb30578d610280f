// @ts-check
// What the ends of a range rest on: the fewest acknowledgements that were lost, restarts that went unseen, and
// approvals that were told again, in a run that comes there. The module weighs them.
import {SHORT_NAMES} from "../card/sentences.js";
import {DEVICES} from "../checker/acts.js";
import {ACCOUNTS} from "../checker/report.js";
import {endsIn} from "../checker/weighed.js";
import {counted, listed, money, number, the} from "../texts.js";

import {isOpen} from "./ranges.js";

const SIDES = ["device", "controller", "difference"];
// The accounts that come second at their devices.
const SECOND = ["paid-out", "sold", "sold-2"];
// So few losses that they may have happened.
const FEW = 2;

const deviceOf = (name) => DEVICES.indexOf(ACCOUNTS[name].device);

// The devices of which a sum is open.
/** @type {(report: Report) => number[]} */
export const openDevices =
    ({accounts}) => [...new Set(Object.entries(accounts).filter(([, a]) => isOpen(a)).map(([name]) => deviceOf(name)))];

// The ends of a sum of an account; null where they weren't weighed.
function endsOf(it, name, side) {
  const buffer = it.weights?.[deviceOf(name)], sum = SIDES.indexOf(side) + (SECOND.includes(name) ? SIDES.length : 0);
  return buffer ? endsIn(buffer, sum) : null;
}

// What must have happened, in words.
function lossWords(who, {lost, restarts, repeats}) {
  const told = [];
  if (lost) told.push(`${counted(lost, "acknowledgement")} ${lost === 1 ? "was" : "were"} lost`);
  if (restarts) told.push(`${who} restarted unseen${restarts === 1 ? "" : ` ${number(restarts)} times`}`);
  if (repeats) told.push(`${counted(repeats, "approval")} ${repeats === 1 ? "was" : "were"} told again`);
  return listed(told);
}

// What each of these sums is, whoever counted it.
const SUBJECTS = {
  device: (name) => `${ACCOUNTS[name].owner} ${ACCOUNTS[name].did}`,
  controller: () => "The controller counted",
  difference: () => "The difference is"
};

// A sentence for each of these sides that is open: the end where nothing was lost, and what another one takes.
function sentencesOf(it, name, a, d, sides, isMeant) {
  return sides.filter((side) => a[side][0] !== a[side][1]).flatMap((side) => {
    const ends = endsOf(it, name, side), told = ends ? [ends.least, ends.greatest].sort((x, y) => x.all - y.all) : [];
    const who = side === "device" ? "it" : the(SHORT_NAMES[deviceOf(name)]);
    const words = told.filter(isMeant).map(
        (one) => `${money(one.value, d)} ${one.all ? `only if ${lossWords(who, one)}` : "if nothing was lost"}`);
    return words.length && told.some(({all}) => all) ? [`${SUBJECTS[side](name)} ${words.join("; ")}.`] : [];
  });
}

// Beside the ranges of an account: what each rests on.
/** @type {(it: Answer, name: string, a: Account, d: number) => string[]} */
export const weighedWords = (it, name, a, d) => sentencesOf(it, name, a, d, SIDES, () => true);

// On the card, beside the sum if nothing was lost: what another end takes.
/** @type {(it: Answer, name: string, a: Account, d: number) => string[]} */
export const lossesWords = (it, name, a, d) => sentencesOf(it, name, a, d, SIDES.slice(0, 2), ({all}) => all > 0);

// How many losses make a sum of an account another one than with the fewest; 0 where it wasn't weighed.
/** @type {(it: Answer, name: string) => number} */
function enoughFor(it, name) {
  const all =
      SIDES.map((side) => endsOf(it, name, side)).filter((ends) => !ends || ends.first.value !== ends.other.value);
  return Math.min(...all.map((ends) => ends ? ends.other.all - ends.first.all : 0));
}

// Whether an account is open, and so few losses are enough for that.
/** @type {(it: Answer, name: string, a: Account) => boolean} */
export const isEasilyOpen = (it, name, a) => isOpen(a) && enoughFor(it, name) <= FEW;

// What an account comes to that is open, and not easily so. What was lost for certain counts, too.
/** @type {(it: Answer, name: string, d: number) => string} */
export function firmWords(it, name, d) {
  const {value, all} = endsOf(it, name, "device").first, most = number(all + enoughFor(it, name));
  return `${ACCOUNTS[name].title}: ${money(value, d)}, unless ${
      most} or more acknowledgements were lost, restarts unseen or approvals told again.`;
}
