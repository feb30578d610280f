// @ts-check
// The story of a row that cannot be: what was said there, what was said before it, and what is missing.
import {ACK, ASK, BREAK, NAK, REPEAT, REPLY, two, VMC_ACK, VMC_NAK, VMC_RET, worth} from "../checker/acts.js";
import {readerMessages} from "../checker/messages.js";
import {actAtRow} from "../list/lookup.js";
import {amountWords, commandName, pollMessages} from "../list/words.js";
import {SALE_NEXT} from "../money/rises.js";
import {capital, listed, money, number, the} from "../texts.js";

import {actRows, fact, headline, inRows, nextStep, SHORT_NAMES} from "./sentences.js";

const FAR_BACK = 50000;
const HEARD = [ACK, REPLY];

// What may stand before the acts of a story: the start of the recording, a break, a RESET that was taken, or what isn't
// known: acts that aren't listed, or a fault.
function beginWords(begin) {
  if (begin.what === "break") return ["since the break", ...inRows(begin.rows)];
  if (begin.what === "reset") return ["since the controller reset it", ...inRows(begin.rows)];
  return ["since the recording began"];
}

// The acts before one, of a device and of breaks, back to where its state began: oldest first.
function actsBefore(it, i) {
  const acts = it.list, device = acts.device(i), found = [];
  for (let k = i - 1; k >= 0 && k > i - FAR_BACK; k--) {
    if (k + 1 === it.hole) return {begin: {what: "unknown"}, found: found.reverse()};
    if (acts.kind(k) === BREAK) return {begin: {what: "break", rows: actRows(acts, k)}, found: found.reverse()};
    if (acts.device(k) !== device) continue;
    const isReset = acts.kind(k) === ASK && [0x08, 0x30, 0x10, 0x60].includes(acts.byte(k, 0));
    if (isReset && HEARD.includes(answerTo(acts, k)))
      return {begin: {what: "reset", rows: actRows(acts, k)}, found: found.reverse()};
    found.push(k);
  }
  return {begin: {what: it.isApart || i > FAR_BACK ? "unknown" : "start"}, found: found.reverse()};
}

// The kind of the act after one, where it is of the same device.
/** @type {(acts: Acts, k: number) => number} */
export function answerTo(acts, k) {
  return k + 1 < acts.count && acts.device(k + 1) === acts.device(k) ? acts.kind(k + 1) : -1;
}

// Whether the controller acknowledged a reply, or a repeat of it.
function isAcknowledged(acts, k) {
  for (let i = k + 1; i < acts.count && i < k + 12; i++) {
    if (acts.kind(i) === VMC_ACK) return true;
    if (![VMC_RET, REPEAT, VMC_NAK].includes(acts.kind(i))) return false;
  }
  return false;
}

/** @type {(it: Answer) => Sentence[]} */
export function deviceStory(it) {
  const acts = it.list, i = actAtRow(it, it.row);
  if (!acts.count || acts.first(i) > it.row || acts.last(i) < it.row || !acts.device(i))
    return [fact("What was said there isn't listed, since the recording is so long.")];
  const before = actsBefore(it, i), {rule} = it.report;
  const told = rule !== "Cashless" ? moneyStory(it, i, before) :
      acts.kind(i) === ASK         ? commandStory(it, i, before) :
                                     readerStory(it, i, before);
  return [...told, nextStep("Check first that the recorder lost no word here."), nextStep(...deviceNext(it, i))];
}

function deviceNext(it, i) {
  const {rule, blame} = it.report;
  if (rule === "Changer")
    return ["Count the tubes and the cash box, and send the maker of the changer this recording."];
  if (rule === "Bill") return ["Count the bills in the stacker, and send the maker of the validator this recording."];
  return blame === "controller" ?
      [SALE_NEXT, " Send the maker of the controller this recording."] :
      [SALE_NEXT, ` Send the maker of ${the(SHORT_NAMES[it.list.device(i)])} this recording.`];
}

// Sessions and sales ----

// What an act says of sessions and sales, as events: of a command at most one, of a reply one for each message.
function saleEvents(it, k) {
  const acts = it.list, bytes = acts.bytes(k), kind = acts.kind(k), device = acts.device(k), rows = actRows(acts, k);
  const setup = acts.setupAt(device, k), amount = (raw) => setup ? amountWords(setup, raw) : null;
  if (kind === ASK) {
    const heard = HEARD.includes(answerTo(acts, k)), made = (what, more) => [{what, rows, heard, ...more}];
    if ((bytes[0] & 7) === 4 && bytes[1] < 2) return made(bytes[1] ? "enable" : "disable");
    if ((bytes[0] & 7) !== 3) return [];
    const what = ["request", "cancel", "success", "failure", "complete"][bytes[1]];
    if (what === "request") return made(what, {amount: amount(two(bytes, 2)), item: two(bytes, 4)});
    return what ? made(what, what === "success" ? {item: two(bytes, 2)} : {}) : [];
  }
  if (kind !== REPLY) return [];
  const heard = isAcknowledged(acts, k);
  return readerMessages(bytes, acts.reading(k)).flatMap((m) => {
    const what = {0: "restarted", 3: "begun", 4: "asked", 5: "approved", 6: "denied", 7: "ended"}[m[0]];
    return what ? [{what, rows, heard, amount: what === "approved" ? amount(two(m, 1)) : undefined}] : [];
  });
}

function eventWords(e, reader) {
  const of = e.amount === undefined ? "" : e.amount ?? "an amount without a known value";
  return {
    request: `the controller asked for ${of} for item ${e.item}`,
    cancel: "the controller cancelled its request",
    success: `the controller reported item ${e.item} as sold`,
    failure: "the controller reported that the goods didn't come",
    complete: "the controller ended the session",
    enable: `the controller enabled ${reader}`,
    disable: `the controller disabled ${reader}`,
    restarted: `${reader} reported that it was reset`,
    begun: `${reader} began a session`,
    asked: `${reader} asked for the end of the session`,
    approved: `${reader} approved ${of}`,
    denied: `${reader} denied the request`,
    ended: `${reader} ended the session`,
  }[e.what];
}

const eventTold = (e, reader) => [eventWords(e, reader), ...inRows(e.rows)];
const lastOf = (events, ...whats) => events.filter((e) => whats.includes(e.what)).at(-1);

// What came before, where nothing says more: the last event of the session.
function lastEvent(events, begin, reader) {
  const last = events.filter((e) => !["enable", "disable"].includes(e.what)).at(-1);
  if (last) return fact("The last event of its sessions before that: ", eventTold(last, reader), ".");
  return begin.what === "unknown" ? null : fact("No session stands before it ", ...beginWords(begin), ".");
}

const present = (...sentences) => sentences.filter(Boolean);

// A command that the controller may not send there.
function commandStory(it, i, {begin, found}) {
  const reader = the(SHORT_NAMES[it.list.device(i)]), [here] = saleEvents(it, i);
  if (!here) return [];
  const events = found.flatMap((k) => saleEvents(it, k));
  const at = events.findLastIndex((e) => e.what === "request");
  const story = here.what === "success" ? unpaidStory(here, events[at], events.slice(at + 1), reader) : null;
  return story ?? unfinishedStory(here, events[at], events.slice(at + 1), reader) ??
      present(
             headline(`Out of order: ${eventWords(here, reader)}`),
             fact(capital(eventWords(here, reader)), ...inRows(here.rows), ". It may not do that there."),
             lastEvent(events, begin, reader));
}

// A session that the controller ends after an approval, and never says what became of the goods.
function unfinishedStory(here, request, after, reader) {
  const approval = here.what === "complete" && lastOf(after, "approved");
  if (!approval || lastOf(after, "success", "failure", "cancel", "denied", "restarted", "ended", "begun")) return null;
  const amount = approval.amount ?? "an amount without a known value";
  return [
    headline(`Approved, and no outcome: ${amount}, item ${request.item}`),
    fact(
        `${capital(reader)} approved ${amount} for item ${request.item}`, ...inRows(request.rows, approval.rows),
        ", and the controller ended the session", ...inRows(here.rows), "."),
    fact("First it had to report the sale (VEND SUCCESS) or its failure (VEND FAILURE)."),
  ];
}

// A sale that nothing pays for: the reader denied it, or the controller didn't wait for what it says.
function unpaidStory(here, request, after, reader) {
  if (!request || lastOf(after, "success", "failure", "complete", "restarted", "ended", "begun")) return null;
  const decision = lastOf(after, "approved", "denied"), asked = request.amount ?? "an amount without a known value";
  const head = (how) => headline(`Sold ${how}: ${request.amount ? request.amount + ", " : ""}item ${here.item}`);
  const isItem = request.item === here.item, sold = `reported item ${here.item} as sold`;
  if (decision?.what === "denied")
    return [
      head("although the card was denied"),
      fact(
          `The controller asked for ${asked} for item ${request.item}`, ...inRows(request.rows),
          `, and ${reader} denied it`, ...inRows(decision.rows), "."),
      fact(
          `The controller ${sold} all the same`, ...inRows(here.rows),
          `. No approval of the reader pays for ${isItem ? "this " + asked : "it"}.`),
    ];
  if (decision?.heard === false)
    return [
      head("on an approval that the controller didn't acknowledge"),
      fact(
          capital(eventWords(decision, reader)), ` for item ${request.item}`, ...inRows(request.rows, decision.rows),
          ". The controller didn't acknowledge the approval, and ", sold, " all the same", ...inRows(here.rows), ".")
    ];
  if (decision) return null;
  return [
    head("without an approval"),
    fact(
        `The controller asked for ${asked} for item ${request.item}`, ...inRows(request.rows), `, and ${sold}`,
        ...inRows(here.rows), "."),
    fact(`In between, ${reader} neither approved nor denied it.`)
  ];
}

const REPORTS = ["begun", "approved", "denied", "ended"];
const isReport = (e) => REPORTS.includes(e.what);

// Whether a report decides a request that is open.
function isDecision(report, events) {
  const at = events.findLastIndex((e) => e.what === "request");
  return ["approved", "denied"].includes(report?.what) && at >= 0 && at === events.length - 1;
}

// An answer of a reader that can't be. Where it decides an open request, what it says after that can't be.
function readerStory(it, i, {begin, found}) {
  const acts = it.list, reader = the(SHORT_NAMES[acts.device(i)]), before = found.flatMap((k) => saleEvents(it, k));
  const here = saleEvents(it, i), reports = here.filter(isReport), open = unrepeated(it, i, found);
  const isLater = !open && reports.length > 1 && isDecision(reports[0], before);
  const first = reports[isLater ? 1 : 0], events = isLater ? [...before, reports[0]] : before;
  if (open)
    return [
      headline(`Not reported again: ${eventWords(open, reader)}`),
      fact(
          capital(eventWords(open, reader)), ...inRows(open.rows),
          ". The controller didn't acknowledge that, so the reader had to report it again."),
      fact(
          first ? `Instead ${eventWords(first, reader)}` : "Instead it answered without it",
          ...inRows(actRows(acts, i)), "."),
    ];
  if (!first) return present(fact(...answerWords(it, i)), lastEvent(events, begin, reader));
  const isFresh = begin.what !== "unknown" && !(begin.what === "start" && isJoined(it));
  const isReset = here[0].what === "restarted" || lastOf(events, "restarted") || !isFresh;
  const why = isReset ? whyNot(first, events, begin, reader) :
                        ["It hadn't reported its reset ", ...beginWords(begin), ", which must come first."];
  return present(
      headline(`Out of order: ${eventWords(first, reader)}`),
      fact(capital(eventWords(first, reader)), ...inRows(actRows(acts, i)), "."),
      why ? fact(...why) : lastEvent(events, begin, reader));
}

// Why a reader may not report this: no open request, a session that is on, no end that was asked for.
function whyNot(first, events, begin, reader) {
  if (first.what === "approved" || first.what === "denied") {
    const at = events.findLastIndex((e) => e.what === "request"), request = events[at];
    if (!request)
      return begin.what === "unknown" ? null : ["The controller hadn't asked for a sale ", ...beginWords(begin), "."];
    const done = lastOf(events.slice(at + 1), "approved", "denied", "cancel");
    return done ?
        [
          `The last request was ${request.amount ?? "an amount without a known value"} for item ${request.item}`,
          ...inRows(request.rows), ". After it ", eventTold(done, reader), "."
        ].flat() :
        null;
  }
  if (first.what === "begun") {
    const on = lastOf(events, "begun", "ended"), switched = lastOf(events, "enable", "disable");
    if (on?.what === "begun") return ["A session was on already", ...inRows(on.rows), "."];
    if (switched?.heard === false) return null;
    if (switched?.what === "disable") return [`The controller had disabled ${reader}`, ...inRows(switched.rows), "."];
    return switched || begin.what === "unknown" ?
        null :
        [`The controller hadn't enabled ${reader} `, ...beginWords(begin), "."];
  }
  const isUnknown = begin.what === "unknown" || lastOf(events, "begun", "complete")?.what === "complete";
  if (isUnknown) return null;
  const on = lastOf(events, "begun");
  return on ? ["The controller hadn't ended the session that began", ...inRows(on.rows), "."] :
              ["The controller hadn't ended a session ", ...beginWords(begin), "."];
}

// The report that a reader had to repeat, where an answer doesn't begin with it.
function unrepeated(it, i, found) {
  const acts = it.list;
  for (let n = found.length - 1; n >= 0; n--) {
    const k = found[n], events = saleEvents(it, k);
    if (acts.kind(k) === ASK && (acts.byte(k, 0) & 7) === 3 && acts.byte(k, 1) < 5) return null;
    if (acts.kind(k) !== REPLY || !events.some(isReport)) continue;
    if (isAcknowledged(acts, k) || startsWith(acts.bytes(i), acts.bytes(k))) return null;
    return events.find(isReport);
  }
  return null;
}

// Whether a reply begins with all the messages of an earlier one: its bytes but for the sum.
function startsWith(bytes, earlier) {
  for (let i = 0; i + 1 < earlier.length; i++)
    if (i + 1 >= bytes.length || bytes[i] !== earlier[i]) return false;
  return true;
}

const isJoined = (it) => it.way.bytes[0] === 1;

// An answer in words, with the command that it answers.
function answerWords(it, i) {
  const acts = it.list, at = acts.askOf(i), name = at >= 0 ? commandName(acts.bytes(at)) : "a command";
  const how = acts.kind(i) === ACK ? "with a mere ACK" : acts.kind(i) === NAK ? "with NAK" : "with data";
  return [`${capital(the(SHORT_NAMES[acts.device(i)]))} answered ${name} ${how}`, ...inRows(actRows(acts, i)), "."];
}

// Coins and bills ----

// The reports of coins or bills in a reply to POLL, in order.
function moneyReports(it, k) {
  const acts = it.list, device = acts.device(k), at = acts.askOf(k), reports = [];
  const poll = device === 1 ? 0x0B : 0x33;
  if (acts.kind(k) !== REPLY || at < 0 || acts.byte(at, 0) !== poll) return [];
  const setup = acts.setupAt(device, k);
  pollMessages(device, acts.bytes(k), (what, type, count) => {
    if (what === "was reset") reports.push({what});
    if (type === undefined || what.startsWith("rejected")) return;
    const units = worth(setup, type);
    reports.push({what, type, count, amount: units === null ? null : money(units * (count ?? 1), setup.decimals)});
  });
  return reports;
}

function reportWords(r, device) {
  const kind = device === 1 ? "coin" : "bill", amount = r.amount === null ? `of type ${r.type}` : `of ${r.amount}`;
  if (r.what === "was reset") return "its reset";
  if (r.what === "dispensed by hand") return `a payout ${amount} by hand`;
  return `a ${kind} ${amount} ${
      {"deposited to tube": "to a tube", "deposited to cash box": "to the cash box"}[r.what] ?? r.what}`;
}

// Reports in words: the first of them, if they are many.
function reportsWords(reports, device) {
  const words = reports.map((r) => reportWords(r, device)), more = words.length - 3;
  return listed(more > 1 ? [...words.slice(0, 3), `${number(more)} more`] : words);
}

// A report of the changer or the validator that can't be, or one that is missing.
function moneyStory(it, i, {begin, found}) {
  const acts = it.list, device = acts.device(i), name = SHORT_NAMES[device], here = moneyReports(it, i);
  const open = unrepeatedMoney(it, i, found), reports = here.filter((r) => r.what !== "was reset");
  if (open)
    return [
      headline(`Not reported again: ${reportsWords(open.reports, device)}`),
      fact(
          `The ${name} reported ${reportsWords(open.reports, device)}`, ...inRows(open.rows),
          ". The controller didn't acknowledge that, so the ", name, " had to report it again."),
      fact(
          acts.kind(i) === ACK ? "Instead it answered POLL with a mere ACK" :
              here.length      ? `Instead it reported ${reportsWords(here, device)}` :
                                 "Instead it reported something else",
          ...inRows(actRows(acts, i)), "."),
    ];
  if (!reports.length) return [fact(...answerWords(it, i))];
  const what = reportsWords(reports, device),
        said = fact(`The ${name} reported ${what}`, ...inRows(actRows(acts, i)), ".");
  /** @type {[Part[] | null, string][]} */
  const whys = [
    [noReset(it, i, begin, found, here), `Reported before the ${name} told of its reset: ${what}`],
    [device === 2 ? noOrder(it, found, reports) : null, `Out of order: ${what}`],
    [notEnabled(it, device, begin, found, reports), `Not enabled: ${what}`]
  ];
  const [why, head] = whys.find(([why]) => why) ?? [null, `Out of order: ${what}`];
  return present(headline(head), said, why && fact(...why));
}

// The reports that had to be repeated, where an answer doesn't begin with them.
function unrepeatedMoney(it, i, found) {
  const acts = it.list;
  for (let n = found.length - 1; n >= 0; n--) {
    const k = found[n], reports = moneyReports(it, k);
    if (!reports.length) continue;
    const isOpen = reports.some((r) => r.what !== "was reset") && !isAcknowledged(acts, k);
    if (!isOpen || startsWith(acts.bytes(i), acts.bytes(k)) || moneyReports(it, i)[0]?.what === "was reset")
      return null;
    return {reports: reports.filter((r) => r.what !== "was reset"), rows: actRows(acts, k)};
  }
  return null;
}

// A report before the device said that it was reset.
function noReset(it, i, begin, found, here) {
  if (begin.what === "unknown" || (begin.what === "start" && isJoined(it)) || here[0].what === "was reset") return null;
  if (found.some((k) => moneyReports(it, k).some((r) => r.what === "was reset"))) return null;
  return ["It hadn't reported its reset ", ...beginWords(begin), ", which must come first."];
}

// A bill that was stacked or went to the recycler without an order, is of another type than the one in escrow, or is a
// second one there.
/** @type {(it: Answer, found: any, reports: any[]) => Part[] | null} */
function noOrder(it, found, [r]) {
  const acts = it.list;
  let refused = null;
  for (let n = found.length - 1; n >= 0; n--) {
    const k = found[n], rows = actRows(acts, k);
    if (acts.kind(k) === ASK && acts.byte(k, 0) === 0x35 && acts.byte(k, 1) & 1) {
      if (HEARD.includes(answerTo(acts, k))) return null;
      refused = rows;
    }
    const earlier = moneyReports(it, k).filter((e) => e.what !== "was reset").at(-1);
    if (earlier) return escrowWords(r, earlier, rows, refused);
  }
  return null;
}

function escrowWords(r, earlier, rows, refused) {
  if (earlier.what !== "in escrow") return null;
  if (r.what === "in escrow") return ["A bill was in escrow already", ...inRows(rows), "."];
  if (r.type !== earlier.type)
    return [`The bill in escrow was ${reportWords(earlier, 2).replace(" in escrow", "")}`, ...inRows(rows), "."];
  if (r.what === "returned") return null;
  const why = refused ? [", and the validator hadn't taken the order to stack it", ...inRows(refused)] :
                        [", and the controller hadn't ordered to stack it"];
  return ["It was in escrow", ...inRows(rows), ...why, "."];
}

// A coin or bill of a type that the controller hadn't enabled.
function notEnabled(it, device, begin, found, reports) {
  const acts = it.list, enable = device === 2 ? 0x34 : 0x0C;
  if (begin.what === "unknown" || (begin.what === "start" && isJoined(it))) return null;
  let mask = 0;
  for (const k of found)
    if (acts.kind(k) === ASK && acts.byte(k, 0) === enable && HEARD.includes(answerTo(acts, k)))
      mask |= two(acts.bytes(k), 1);
  const r = reports.find((e) => !(mask >> e.type & 1) && /deposited|stacked|escrow|recycler/.test(e.what));
  return r ?
      [`No command that ${the(SHORT_NAMES[device])} took has enabled type ${r.type} `, ...beginWords(begin), "."] :
      null;
}
