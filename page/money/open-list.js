// @ts-check
// The list of open money in the card: each entry with its amount, its time, and what it was, and what is to be done.
import {fact, inRows, likely, nextStep, partsOf, rowsAt, sentence, theDevice} from "../card/sentences.js";
import {DEVICES} from "../checker/acts.js";
import {ANSWERS, asAtFirst} from "../checker/answers.js";
import {ACCOUNTS} from "../checker/report.js";
import {when} from "../clock.js";
import {by, h} from "../elements.js";
import {timeLink} from "../list/links.js";
import {isUnjudged} from "../list/lookup.js";
import {capital, counted, hex, listed, money, number} from "../texts.js";
import {seconds} from "../times.js";

import {lostSales} from "./lost-sales.js";
import {openMoney, RECYCLER, STACKER} from "./open-money.js";

const OPEN_TITLE = "Open money";
// What a device reported as trouble, by the code of the report; a reader's malfunction by the high half of its code.
const TROUBLE_WORDS = [
  {}, {
    3: "that a coin gave no credit",
    4: "a defective tube sensor",
    6: "that its acceptor is unplugged",
    7: "a tube jam",
    8: "a checksum error of its ROM",
    9: "a coin routing error",
    0x0C: "a coin jam",
    0x0D: "that a credited coin was perhaps removed"
  },
  {
    1: "a defective motor",
    2: "a sensor problem",
    4: "a checksum error of its ROM",
    5: "a jam",
    7: "that a bill was removed",
    8: "its cash box out of position",
    0x0C: "that a credited bill was perhaps removed",
    0x36: "a full stacker"
  }
];
const MALFUNCTIONS = {
  0: "of the card (payment media error)",
  1: "of the card (invalid payment media)",
  2: "tamper error",
  4: "communications error",
  5: "it needs service",
  8: "reader failure",
  9: "communications error",
  0x0A: "the card is jammed",
  0x0C: "refund error, the money may be lost"
};
// What came in place of an end, before its rows.
const CAME_WORDS = {
  request: "the next VEND REQUEST",
  complete: "SESSION COMPLETE",
  reset: "a RESET by the controller",
  restarted: "the report of a reset",
  begun: "the begin of a session",
  denied: "a denial",
  ended: "the end of the session",
  sold: "the report of another sale",
  failed: "VEND FAILURE",
  bill: "the next bill",
  break: "a break, as when power goes off,"
};
/** @type {Record<string, string>} */
export const OPEN_NEXT = {
  approved: "Ask the card company whether it booked the amount that was approved.",
  failed: "Ask the card company whether the amount was given back.",
  request: "Ask the card company whether it booked the amount that was requested.",
  untaken: "Ask the card company whether it booked the sale: the audit of the machine counts it.",
  escrow: "Look whether the bill is in the validator.",
  restart: "Ask the customer whether something was bought. Look why it restarted: the credit may be lost.",
  lever: "Ask the customer whether something was bought: not every controller reports a sale for cash on the bus.",
  payout: "Ask the customer whether the coins came, and look at the tubes.",
  choice: "Count the tubes, or read the audit of the machine.",
  order: "Ask the customer whether the payout came, or read the audit of the machine.",
  trouble: "See whether what was reported as trouble still stands."
};
// What else is to be done, by what came in place of an end.
const CAME_NEXT = {
  break: "Look for the reason of the break: power that went off, or the controller itself.",
  restarted: "Look at the power and the plug of the device that reported a reset."
};

/** @type {(name: string) => string} */
export const lookNext = (name) => `Look at the power and the plug of ${name}, and at what it was doing then.`;

// What else is to be done for an entry: of a bill without an order, and of a reader that was silent.
/** @type {(e: OpenEntry) => string | null} */
function moreNext({kind, device, answer, silent}) {
  if (kind === "escrow" && !answer) return "See why the controller gave no order for the bill.";
  return silent ? lookNext(theDevice(device)) : null;
}

const moneyOf = ({units, decimals, unvalued}) => units === null ?
    "value not known" :
    `${money(units, decimals ?? 0)}${unvalued ? ` and ${number(unvalued)} of unknown value` : ""}`;

/** @type {(rows: RowPair[]) => Rows} */
const openRows = (rows) => rows.length === 1 ? rowsAt(...rows[0]) : rowsAt(rows[0][0], rows[0][1]);
/** @type {(it: OpenEntry) => Rows[]} */
const restRows = ({rows}) => rows.slice(1).map((it) => rowsAt(...it));
const ofAmount = (it) => it.units === null ? "of unknown value" : `of ${moneyOf(it)}`;

// Up to where nothing else was found.
/** @type {(it: OpenEntry) => Parts} */
function untilWords({came, cameRows, last, until}) {
  if (came === "end") return [`up to the end of the recording, ${seconds(until - last)} later.`];
  if (came === "gap") return ["in the rows that are listed here."];
  const rows = rowsAt(...cameRows);
  if (came === "fault") return ["up to ", rows, ", which breaks a rule: what was said about there isn't known."];
  return [`before ${CAME_WORDS[came]} at ${when(until)}`, ...inRows(rows), "."];
}

const itemWords = ({item}) => item === null ? "" : ` for item ${item}`;

// What an entry was, as the parts of a sentence or two.
/** @type {Record<string, (e: OpenEntry) => Parts>} */
const OPEN_SENTENCES = {
  approved: (e) =>
      [...approvedParts(e), ", and the controller acknowledged it. It reported neither a sale nor a failure ",
       untilWords(e)],
  failed: (e) =>
      [...e.rows.length > 1 ? [...approvedParts(e), ", and the controller reported VEND FAILURE"] :
                              [`The controller reported VEND FAILURE to ${theDevice(e.device)}`],
       inRows(rowsAt(...e.rows.at(-1))),
       e.rows.length > 1 ? ". The reader has to give it back." :
                           ". The approval isn't in these rows. The reader has to give back what it approved.",
       " Whether it did, the bus doesn't show."],
  request: (e) =>
      [`The controller asked ${theDevice(e.device)} for ${amountWords(e)}${itemWords(e)}${timesWords(e)}`,
       inRows(openRows(e.rows), ...restRows(e)), ", and no answer to that came ", untilWords(e),
       e.silent ? ` The reader was silent for ${seconds(e.silent)}.` : ""],
  untaken: (e) =>
      [`The controller reported to ${theDevice(e.device)} that item ${e.item} was sold`,
       inRows(openRows(e.rows), ...restRows(e)), e.count > 1 ? `,${timesWords(e)} in all` : "",
       `, and the reader ${e.answer === "refused" ? "refused it (NAK)" : "never took it"} `, untilWords(e),
       " The controller counts the sale, and the reader doesn't."],
  escrow: (e) =>
      [`A bill ${ofAmount(e.amounts[0])} went into escrow`, inRows(openRows(e.rows)),
       e.answer ? `. The validator took the order to ${e.answer} it, and it` : ", and",
       " was reported neither as stacked nor as returned ", untilWords(e)],
  restart: (e) =>
      [`${capital(paidWords(e))} went in`, inRows(openRows(e.rows), ...restRows(e)), `, and ${RESTART_WORDS[e.came]}`,
       inRows(rowsAt(...e.cameRows)),
       ` ${seconds(e.until - e.last)} later. No sale for cash and no payout stands between. `,
       "Whether the controller kept the credit, the bus doesn't show."],
  lever: (e) =>
      [`The return lever was pressed${timesWords(e)}`, inRows(openRows(e.rows), ...restRows(e)),
       ` with ${paidWords(e)} in, and nothing was paid out `, e.came === "time" ? "within 30 s." : untilWords(e)],
  payout: (e) =>
      [`The controller asked the changer to pay out ${coinsOf(e.amounts[0])}`, inRows(openRows(e.rows)),
       ...payoutEnd(e)],
  choice: (e) =>
      ["Paid-out isn't known from ", openRows(e.rows), " on: the controller lets the changer choose the coins ",
       "(0F 02 to 0F 04), which isn't followed. What was paid in is known."],
  order: (e) =>
      [`${counted(e.count, "order")} to pay out${orderedWords(e)} went to ${payerWords(e)}`,
       inRows(openRows(e.rows), ...restRows(e)), ...reportedPaid(e),
       ". That device isn't followed: what it paid is in no sum."],
  trouble: (e) =>
      [`${capital(theDevice(e.device))} reported ${troubleWords(e)}`, inRows(openRows(e.rows)),
       ...e.count === 1 ? ["."] : [`,${timesWords(e)}, the last at ${when(e.last)}`, inRows(...restRows(e)), "."]]
};

const coinsOf = (it) => it.units === null ? "coins of unknown value" : moneyOf(it);
/** @type {(it: OpenEntry) => string} */
const timesWords = ({count}) => count > 1 ? ` ${number(count)} times` : "";

const amountWords = (e) => e.amounts[0].units === null ? "an amount of unknown value" : moneyOf(e.amounts[0]);

const approvedParts =
    (e) => [`${capital(theDevice(e.device))} approved ${amountWords(e)}${itemWords(e)}`, inRows(openRows(e.rows))];

const RESTART_WORDS = {
  reset: "the controller sent RESET",
  restarted: "a device reported a reset",
  break: "a break came"
};

/** @type {(e: OpenEntry) => string} */
const orderedWords = ({amounts: [amount]}) =>
    amount ? ` ${moneyOf(amount).replace("value not known", "an unknown amount")}` : "";

// What a recycler reported as paid.
/** @type {(e: OpenEntry) => Parts} */
const reportedPaid = ({paid, cameRows}) => paid ?
    [
      `. It reported ${paid.units === null ? "an unknown amount" : moneyOf(paid)} as paid out (37 08)`,
      inRows(rowsAt(...cameRows))
    ] :
    [];

/** @type {(e: OpenEntry) => string} */
const payerWords = ({code}) => code === RECYCLER ? "the recycler (37 06, 37 07)" : `a hopper (${hex(code)}H)`;

const paidWords = ({amounts}) => listed(amounts.map((it) => `${["", "coins", "bills"][it.device]} ${ofAmount(it)}`));

/** @type {(it: OpenEntry) => string} */
function troubleWords({device, code}) {
  if (device < 3) return `${TROUBLE_WORDS[device][code]} (${code === STACKER ? "STACKER" : hex(code)})`;
  const kind = MALFUNCTIONS[code >> 4];
  return `a malfunction (0A ${hex(code)}${kind ? ": " + kind : ""})`;
}

const NOT_PAID = " The controller counts it as paid out, and the changer doesn't.";

// Why a DISPENSE that was taken perhaps didn't pay.
/** @type {Record<string, (e: OpenEntry) => Parts>} */
const DOUBTS = {
  silent: () => ["Then it gave no answer for more than 2 s."],
  trouble:
      (e) => [`${seconds(e.until - e.time)} after the order it reported trouble`, inRows(rowsAt(...e.cameRows)), "."],
  tubes: (e) =>
      ["By its TUBE STATUS before and after that", inRows(rowsAt(...e.cameRows)), " the coins are still in the tube."]
};

// What became of a DISPENSE.
/** @type {(e: OpenEntry) => Parts} */
function payoutEnd(e) {
  if (e.answer === "taken")
    return [". The changer acknowledged that. ", ...DOUBTS[e.came](e), " Whether it paid, the bus doesn't show."];
  const rest = restRows(e),
        nak = e.answer === "refused" ? [", and the changer refused it (NAK, ", rest.pop(), ")"] : null;
  return [
    ...rest.length ? [` and again${timesWords(e).replace(" ", ", ")} in all`, inRows(...rest)] : [],
    ...nak ?? [", and the changer didn't answer"], ".", NOT_PAID,
    ...e.came === "dispense" ? [" Then it asked for other coins", inRows(rowsAt(...e.cameRows)), "."] : []
  ];
}

// What the device of an account didn't take: orders to pay out, and sales.
const LEFT = {
  payout: ({length}, sum) => `the changer didn't take the ${length === 1 ? "order" : "orders"} to pay out ${sum}`,
  untaken: (all, sum) =>
      `${theDevice(all[0].device)} never took the report of ${listed(all.map(({item}) => `item ${item}`))}, ${sum}`
};
const LEFT_OF = {
  "paid-out": "payout",
  sold: "untaken",
  "sold-2": "untaken"
};

// That as the reason why the books differ.
/** @type {(it: Answer, name: string, a: Account) => Sentence[] | null} */
export function leftReason(it, name, {difference: [low, high]}) {
  const sort = LEFT_OF[name], device = DEVICES.indexOf(ACCOUNTS[name].device);
  const left = openMoneyOf(it).filter((e) => e.kind === sort && e.device === device && e.answer !== "taken");
  if (!left.length || high >= 0n) return null;
  const sum = left.reduce((all, {amounts: [{units}]}) => all + BigInt(units ?? 0), 0n),
        isAll = low === -sum && low === high;
  const rows = left.slice(0, 3).map(({rows}) => openRows(rows));
  const words = LEFT[sort](left, money(sum, left[0].amounts[0].decimals ?? 0));
  return isAll ? [fact(`This is the reason: ${words}`, inRows(...rows), ". It is no fault of either book.")] :
                 [likely(`Perhaps this is a part of it: ${words}`, inRows(...rows), ".")];
}

// The row from which on paid-out isn't known; 0 if there is none.
/** @type {(it: Answer) => number | undefined} */
export const choiceRow = (it) => openMoneyOf(it).find(({kind}) => kind === "choice")?.rows[0][0] ?? 0;

// What paid-out lacks: the payouts of devices that aren't followed. Null if there is none.
/** @type {(it: Answer) => string | null} */
export function lacksWords(it) {
  const orders = openMoneyOf(it).filter(({kind}) => kind === "order");
  return orders.length ? `What ${listed(orders.map(payerWords))} paid out isn't in it.` : null;
}

// The list of an answer: after a no, it ends where the list of acts ends. What a reader said whose level isn't known
// may mean something else.
/** @type {(it: Answer) => OpenEntry[]} */
export function openMoneyOf(it) {
  const cuts = it.cuts ?? (it.link.answer === ANSWERS.NO ? [it.link.row] : []);
  it.openMoney ??= it.listed ?
      openMoney(it.list, {hole: it.hole, cuts, choices: choicesOf(it), orders: it.orders, lost: lostSales(it)}) :
      [];
  return it.openMoney.filter(({device}) => !device || device !== it.unjudged);
}

// The rows at which a payout by the changer's choice ends the acts, or those of a survey.
/** @type {(it: Answer) => {row: number, time?: number}[]} */
function choicesOf({survey, link}) {
  if (!survey) return link.isChoice ? [link] : [];
  return survey.faults.filter(({isChoice, rule, blame}) => isChoice && rule === "Profile" && blame === "controller");
}

// A story, and before its steps those for what is open.
const openKinds = (it) => [...new Set(openMoneyOf(it).map(({kind}) => kind))];
const openSteps = (it) =>
    [...openKinds(it).map((kind) => OPEN_NEXT[kind]),
     ...new Set(openMoneyOf(it).flatMap((one) => [moreNext(one), CAME_NEXT[one.came]]).filter(Boolean))];
/** @type {(it: Answer, story: Sentence[]) => Sentence[]} */
export const withOpen = (it, story) => [...openSteps(it).map((it) => nextStep(it)), ...story];

// What the card says of an answer in which something is open.
/** @type {(it: Answer) => string} */
export function openLead(it) {
  const all = openMoneyOf(it);
  return all.every(({kind}) => kind === "trouble") ? "a device reported trouble" :
                                                     "it isn't known where all of the money went";
}

const DOUBT_HEADS = {
  silent: "without an end",
  trouble: "and then trouble of the changer",
  tubes: "taken, and the coins are still in the tube"
};

// The first of them, in a few words: trouble comes after money. Null if there is none.
const OPEN_HEADS = {
  approved: (amount) => `Approved, and no outcome: ${amount}`,
  failed: (amount, {rows}) =>
      rows.length > 1 ? `Approved, and failed: ${amount} to give back` : `Failed, to give back: ${amount}`,
  request: (amount) => `Asked for by card, and no answer: ${amount}`,
  untaken: (amount) => `Told as sold, and never taken: ${amount}`,
  escrow: (amount) => `In escrow, and no end: ${amount}`,
  restart: (amount) => `A restart soon after cash: ${amount} in`,
  lever: (amount) => `Return lever, and nothing paid out: ${amount} in`,
  payout: (amount, {answer, came}) =>
      `Payout ${{taken: DOUBT_HEADS[came], refused: "refused"}[answer] ?? "not answered"}: ${amount}`,
  choice: () => "Coins paid out aren't known",
  order: (amount, entry) => `Orders to pay out aren't followed: ${payerWords(entry)}${amount && `, ${amount}`}`,
  trouble: (amount, entry) => `${capital(theDevice(entry.device))} reported ${troubleWords(entry)}`,
};

/** @type {(it: Answer) => string | null} */
export function openHead(it) {
  const all = openMoneyOf(it), first = all.find(({kind}) => kind !== "trouble") ?? all[0];
  if (!first) return null;
  const item = first.item === null ? "" : `, item ${first.item}`, more = all.length - 1;
  const words = OPEN_HEADS[first.kind](first.amounts.map(moneyOf).join(" + "), first) + item;
  return more ? `${words} (and ${counted(more, "more entry", "more entries")} below)` : words;
}

/** @type {(it: Answer, entry: OpenEntry) => HTMLElement} */
function openItem(it, entry) {
  const amount = entry.amounts.map(moneyOf).join(" + ");
  return h(
      "li", {"data-open": entry.kind, "data-device": DEVICES[entry.device]},
      amount ? h("strong", {class: "amount"}, amount) : null, amount ? " at " : null,
      timeLink(entry.time, ...entry.rows[0]), ": ", partsOf(OPEN_SENTENCES[entry.kind](entry)),
      isUnjudged(it, {first: entry.rows[0][0]}) ? h("span", {class: "soft"}, " – not judged") : null);
}

// Of which rows the list speaks, where acts of others aren't listed.
function openScope(it) {
  if (it.hole < 0) return null;
  const from = it.list.last(it.hole - 1) + 1, to = it.list.first(it.hole) - 1;
  return h(
      "p", {id: "open-scope", class: "soft"},
      `${OPEN_TITLE}: this recording is too long to list all acts. Rows ${number(from)} to ${
          number(to)} weren't looked at for it.`);
}

// The list in the card, and of which rows it speaks.
function openInner(it) {
  const all = openMoneyOf(it), most = 20, shownOnes = all.slice(0, most);
  if (!all.length) return [openScope(it)].filter(Boolean);
  return [
    h("h3", {id: "open-title"}, OPEN_TITLE),
    h("ul", {id: "open", "aria-labelledby": "open-title"}, shownOnes.map((entry) => openItem(it, entry))),
    all.length > most ? moreOpen(it, all, most) : null, openScope(it)
  ].filter(Boolean);
}

/** @type {(it: Answer) => HTMLElement | null} */
export const openPart = (it) => h("div", {id: "open-money"}, openInner(it));

// The list anew, and the steps of what is new in it, after a survey.
/** @type {(it: Answer) => void} */
export function showOpen(it) {
  const before = openSteps(asAtFirst(it));
  it.openMoney = null;
  by("open-money")?.replaceChildren(...openInner(it));
  const steps = openSteps(it).filter((words) => !before.includes(words));
  by("next")?.querySelector("ul").append(...steps.map((it) => sentence(nextStep(it))));
}

function moreOpen(it, all, most) {
  const more = () => {
    by("open").append(...all.slice(most).map((entry) => openItem(it, entry)));
    by("open-more").remove();
  };
  return h(
      "p", {class: "noprint", id: "open-more"},
      h("button", {type: "button", onclick: more}, `Show all ${number(all.length)} entries`));
}
