// @ts-check
// The story of a recording, told by its acts.
import {DEVICE_NAMES, DEVICES} from "../checker/acts.js";
import {ANSWERS} from "../checker/answers.js";
import {ACCOUNTS} from "../checker/report.js";
import {when} from "../clock.js";
import {soldSums, statementOf} from "../list/statement.js";
import {leftReason, lookNext} from "../money/open-list.js";
import {isDiffering, isOpen, isZero} from "../money/ranges.js";
import {lateStory} from "../money/remarks.js";
import {lossStory} from "../money/replayed.js";
import {COUNT_NEXT, entryWords, isOf, openStory, SALE_NEXT} from "../money/rises.js";
import {hasUntold, untoldItems} from "../money/untold.js";
import {firmWords} from "../money/weights.js";
import {capital, counted, listed, money, small, the} from "../texts.js";
import {seconds} from "../times.js";

import {linkStory, profileStory, RULE_HEADS, senderOf} from "./link-story.js";
import {deviceStory} from "./row-story.js";
import {fact, inRows, likely, nextStep, rowsAt, SHORT_NAMES} from "./sentences.js";

/** @type {(it: Answer) => Sentence[]} */
export const storyOf = (it) => wholeStory(it).filter(({kind}) => kind !== "head");

// What a no is about, in a few words.
/** @type {(it: Answer) => string} */
export function headOf(it) {
  const {rule, blame} = it.report, [head] = wholeStory(it).find(({kind}) => kind === "head")?.parts ?? [];
  return typeof head === "string" ? head : RULE_HEADS[rule](blame === "other" ? "a device" : senderOf(blame));
}

function wholeStory(it) {
  if (it.answer === ANSWERS.YES) return yesStory(it);
  if (it.answer !== ANSWERS.NO) return [];
  const {rule} = it.report;
  if (rule === "Profile") return profileStory(it);
  return ["Changer", "Bill", "Cashless"].includes(rule) ? deviceStory(it) : linkStory(it);
}

// A yes: what isn't certain of the money, where the books differ, who was silent, and what has no value.
function yesStory(it) {
  const told = lossStory(it);
  for (const [name, a] of Object.entries(it.report.accounts)) {
    const d = it.report.decimals[ACCOUNTS[name].device];
    if (isDiffering(a)) told.push(...differingStory(it, name, a, d));
    if (isOpen(a)) told.push(...openStory(it, name, a, d));
  }
  told.push(...breakStory(it), ...silenceStory(it), ...lateStory(it), ...valuelessStory(it), ...refusedStory(it));
  return told;
}

// Requests that were denied or cancelled: no money hangs on them. So many are told one by one.
const TOLD_REFUSALS = 5;

function refusalsOf(it) {
  const has = (line, ...sorts) => line.parts.some(({part}) => sorts.includes(part));
  return statementOf(it).lines.filter(
      (line) => has(line, "request") && has(line, "denied", "cancelled") && !has(line, "approved", "sold", "failed"));
}

function refusalWords(it, {parts, device, item, units, decimals, outcome}) {
  const said = parts.findLast(({part}) => part === (outcome === "cancelled" ? outcome : "denied"));
  const [first, end] = [parts[0], said].map(({i}) => it.found.money[i]);
  const amount = units === null || first.isUntold ? "a price that isn't known" : money(units, decimals);
  const who = outcome === "cancelled" ? "The controller cancelled its request of" :
                                        `${capital(the(SHORT_NAMES[device]))} denied`;
  const rows = [first, end].map((m) => rowsAt(m.first, m.last));
  return fact(`${who} ${amount} for ${item} at ${when(end.begin)}`, inRows(...rows), ".");
}

function refusedStory(it) {
  const all = refusalsOf(it), more = all.length - TOLD_REFUSALS;
  const told = all.slice(0, TOLD_REFUSALS).map((line) => refusalWords(it, line));
  return more > 0 ? [...told, fact(`So it was with ${counted(more, "more request", "more requests")}.`)] : told;
}

// A break soon after cash was paid in or out: a payment may have been under way. So many are told at most.
const SOON = 30000000, TOLD_BREAKS = 3;

function breakStory(it) {
  const cash = it.found.money.filter(({device}) => device < 3), told = [];
  let next = 0;
  for (const one of it.found.breaks) {
    while (next < cash.length && cash[next].last < one.first) next++;
    const last = cash[next - 1];
    if (!last || one.at - last.at > SOON || told.length === TOLD_BREAKS) continue;
    told.push(fact(
        `A break, as when power goes off, came at ${when(one.at)}`, inRows(rowsAt(one.first, one.last)),
        `, ${seconds(one.at - last.at)} after ${entryWords(last)}`, inRows(rowsAt(last.first, last.last)), ". ",
        ...afterBreak(cash, last), "Whether more was to be paid then, the bus doesn't show."));
  }
  return told.length ? [...told, nextStep(BREAK_NEXT)] : [];
}

// What was reported after a break of a bill that was in escrow.
const ENDS_OF_BILL = {
  stacked: "stacked",
  recycled: "sent to the recycler",
  returned: "returned"
};

function afterBreak(cash, last) {
  const end = last.kind === "escrow" ? cash.find((m) => m.device === 2 && m.first > last.last) : null;
  if (!(end?.kind in ENDS_OF_BILL) || end.type !== last.type) return [];
  return [`After the break it was reported as ${ENDS_OF_BILL[end.kind]}`, ...inRows(rowsAt(end.first, end.last)), ". "];
}

const BREAK_NEXT = "Ask the customer whether the payment was over when the power went off. Count the tubes.";

// By how much the books differ for certain.
/** @type {(a: Account, d: number) => string} */
function differsBy({difference: [low, high]}, d) {
  const [least, most] = low < 0n ? [-high, -low] : [low, high];
  return least === most ? money(least, d) : `${money(least, d)} to ${money(most, d)}`;
}

/** @type {(it: Answer, name: string, a: Account) => string} */
export const differsWords = (it, name, a) =>
    `${small(ACCOUNTS[name].title)}, by ${differsBy(a, it.report.decimals[ACCOUNTS[name].device])}`;

// An account whose books differ whatever was lost: by how much, and whether a report at the end explains it.
function differingStory(it, name, a, d) {
  const [low] = a.difference, amount = differsBy(a, d), {title} = ACCOUNTS[name];
  const device = DEVICES.indexOf(ACCOUNTS[name].device);
  const who = small(ACCOUNTS[name].owner);
  const told = [fact(`${title}: the books differ for certain. ${
      low < 0n ? `The controller counted ${amount} more than ${who}` :
                 `${capital(who)} counted ${amount} more than the controller`}.`)];
  const last = it.found.money.filter((m) => isOf(name, m)).at(-1), reason = leftReason(it, name, a);
  if (reason) return [...told, ...reason];
  if (!last || last.acknowledged)
    return [...told, nextStep(`Send the makers of the controller and of ${the(SHORT_NAMES[device])} this recording.`)];
  return [
    ...told,
    likely(
        `Most likely this is why: ${entryWords(last)}`, inRows(rowsAt(last.first, last.last)),
        " has no acknowledgement in this recording."),
    nextStep(COUNT_NEXT[name] ? "See in a recording that goes on longer whether it was counted later." : SALE_NEXT)
  ];
}

function silenceStory(it) {
  const told = [];
  for (const [i, device] of DEVICES.entries()) {
    if (!device || !it.report.silences[device]) continue;
    const all = it.found.silences.filter((q) => q.device === i), q = all[0], name = capital(the(DEVICE_NAMES[i]));
    if (!q)
      told.push(fact(`${name} was silent ${counted(it.report.silences[device], "time")}.`));
    else
      told.push(fact(
          `${name} gave no answer for ${seconds(q.to - q.from)}: from ${when(q.from)} to ${when(q.to)}, asked ${
              counted(q.asks, "time")}`,
          inRows(rowsAt(q.first, q.last)),
          all.length > 1 ? `. It was silent ${counted(it.report.silences[device], "time")} in all.` : "."));
    told.push(nextStep(lookNext(the(SHORT_NAMES[i]))));
  }
  return told;
}

// Amounts that have no value: nothing in the recording, or given with it, says what they are worth.
/** @type {(it: Answer) => Sentence[]} */
export function valuelessStory(it) {
  const told = [], bare = it.found.money.filter(({units, noAmount}) => units === null && !noAmount);
  for (const [i, device] of DEVICES.entries()) {
    if (!device || it.report.without.includes(device)) continue;
    const without = bare.filter((m) => m.device === i);
    const n = it.report.unvalued?.[device] ?? 0;
    if (!n && !without.length) continue;
    const many = n || without.length,
          first = without.length ? [", the first in ", rowsAt(without[0].first, without[0].last)] : [];
    told.push(fact(
        `${counted(many, "amount")} of ${the(DEVICE_NAMES[i])} ${many === 1 ? "has" : "have"} no known value, and ${
            many === 1 ? "is" : "are"} in no sum`,
        many === 1 && without.length ? inRows(rowsAt(without[0].first, without[0].last)) : first, "."));
    told.push(...without.length || it.report.decimals[device] === null ? [nextStep(START_NEXT)] : earlierSales(it, i));
  }
  return told;
}

const START_NEXT = "Give an earlier recording of a start of this machine: it shows the values.";

// A reader's sales without a value, though its values are known: the approval isn't there.
function earlierSales(it, device) {
  const isBare = (line) => line.device === device && line.isSale && line.outcome === "sold" &&
      !line.parts.some(({part}) => part === "approved");
  const line = statementOf(it).lines.find(isBare), sale = line && it.found.money[line.parts.at(-1).i];
  if (!sale) return [nextStep(START_NEXT)];
  return [
    likely(
        "Most likely its approval came before the recording began: item ", String(sale.type).replace("item ", ""),
        inRows(rowsAt(sale.first, sale.last)), "."),
    nextStep(SALE_NEXT)
  ];
}

// Nothing is open: what both books say.
const SUM_WORDS = {
  "coins-in": "in coins",
  "bills-in": "in bills",
  "paid-out": "paid out"
};

// The first items of sales whose amount isn't told.
function itemsOf(it) {
  const items = untoldItems(it);
  return items.length ? ` (${items.slice(0, 3).join(", ")}${items.length > 3 ? " .." : ""})` : "";
}

// The sales of readers beside those, as the controller reported them.
function besideUntold(it) {
  const sums = [3, 4].map((device) => hasUntold(it, device === 3 ? "sold" : "sold-2") && soldSums(it, device));
  const words = sums.filter(Boolean).map(({controller: {units, decimals}}) => money(units, decimals));
  return words.length ? ` The other sales, as reported: ${listed(words)}.` : "";
}

/** @type {(it: Answer) => string} */
export function agreedWords(it) {
  const {report: {accounts, decimals}} = it;
  const amount = (name, a) => money(a.device[0], decimals[ACCOUNTS[name].device]);
  const moved = Object.entries(accounts).filter(([, a]) => !isZero(a)),
        untold = moved.filter(([name]) => hasUntold(it, name));
  const firm = moved.filter((one) => isOpen(one[1]) && !untold.includes(one))
                   .map(([name]) => firmWords(it, name, decimals[ACCOUNTS[name].device]));
  const sums = moved.filter((one) => !isOpen(one[1]) && !untold.includes(one))
                   .map(([name, a]) => `${amount(name, a)} ${SUM_WORDS[name] ?? small(ACCOUNTS[name].title)}`);
  const told = [
    ...firm,
    ...untold.length ?
        [`${capital(listed(untold.map(([name]) => small(ACCOUNTS[name].title))))}: amount not told${itemsOf(it)}.${
            besideUntold(it)}`] :
        []
  ].join(" ");
  if (sums.length) return `The controller and the devices agree for certain: ${listed(sums)}. ${told}`.trim();
  if (told) return told;
  return refusalsOf(it).length ? "No money moved." : "No money was reported.";
}

/** @type {(it: Answer) => Sentence[]} */
export function noTrafficStory(it) {
  return [
    ...storyOf(it).filter(({kind}) => kind === "fact"),
    nextStep("Look at the signal: 9600 baud, nine bits, a low level for the start bit, and the right two wires."),
    nextStep("Then record again.")
  ];
}
