// @ts-check
// Where the money is: the bounds of each account.
import {isValued, readerTold} from "../card/parts.js";
import {DEVICE_NAMES, DEVICES} from "../checker/acts.js";
import {ACCOUNTS, readReport} from "../checker/report.js";
import {h, s, section, table} from "../elements.js";
import {soldSums} from "../list/statement.js";
import {capital, counted, listed, money, number, small, the} from "../texts.js";

import {lacksWords} from "./open-list.js";
import {isZero, rangeWords} from "./ranges.js";
import {remarks} from "./remarks.js";
import {plainSums, plainWords} from "./replayed.js";
import {hasUntold} from "./untold.js";
import {weighedWords} from "./weights.js";
import {whyButton} from "./why.js";

// What the two books say, and whether they agree.
function sentences(name, a, d, isCut) {
  const {owner, did, worth} = ACCOUNTS[name];
  return [
    `${owner} ${did} ${rangeWords(a.device, d)}${worth ?? ""}.`,
    `The controller counted ${rangeWords(a.controller, d)}.`, differenceWords(name, a, d, isCut)
  ];
}

function differenceWords(name, {difference: [low, high]}, d, isCut) {
  const owner = small(ACCOUNTS[name].owner), abs = (n) => money(n < 0n ? -n : n, d), upTo = isCut ? " up to there" : "";
  if (low === 0n && high === 0n) return `Both agree${upTo}.`;
  if (low <= 0n && high >= 0n) {
    const more = [];
    if (low < 0n) more.push(`the controller counted ${abs(low)} too much`);
    if (high > 0n) more.push(`${owner} counted ${abs(high)} that the controller didn't`);
    return `Both may agree, so this is no evidence against anybody. At most ${more.join(", or ")}.`;
  }
  const [least, most] = low < 0n ? [high, low] : [low, high], who = low < 0n ? "the controller" : owner;
  return `The two differ for certain${upTo}: ${who} counted ${
      least === most ? abs(least) : `${abs(least)} to ${abs(most)}`} more.`;
}

// The bars of a drawing begin here, and are so wide.
const LEFT = 92, WIDE = 388;

// A range as a bar, number `i` from above, with its name.
/** @type {(side: string, i: number, from: number, to: number) => SVGElement[]} */
function barOf(side, i, from, to) {
  const y = 8 + i * 28, x = Math.max(LEFT, Math.min(from, LEFT + WIDE - 4) - (to - from < 4 ? 2 : 0));
  return [
    s("text", {x: 0, y: y + 14, class: "faint"}, side),
    s("rect", {x: LEFT, y: y + 8, width: WIDE, height: 2, class: "hole"}),
    s("rect", {x, y, width: Math.max(4, to - from), height: 18, rx: 2, class: side})
  ];
}

// The three ranges as bars on one scale.
/** @type {(name: string, a: Account, d: number) => SVGElement} */
function bars(name, a, d) {
  /** @type {bigint[]} */
  const all = [0n, ...a.device, ...a.controller, ...a.difference];
  const low = all.reduce((x, y) => x < y ? x : y), high = all.reduce((x, y) => x > y ? x : y);
  const span = high - low || 1n;
  /** @type {(n: bigint) => number} */
  const x = (n) => LEFT + Number((n - low) * 100000n / span) / 100000 * WIDE;
  const label = SIDES.map((side) => `${side} ${rangeWords(a[side], d)}`).join(", ");
  const made = s("svg", {viewBox: "0 0 500 118", role: "img", "aria-label": `${ACCOUNTS[name].title}: ${label}`});
  SIDES.forEach((side, i) => made.append(...barOf(side, i, x(a[side][0]), x(a[side][1]))));
  const zero = x(0n);
  made.append(s("line", {x1: zero, x2: zero, y1: 2, y2: 92, class: "axis"}));
  const ticks = [...new Set([low, 0n, high])];
  for (const tick of ticks) {
    const at = x(tick), near = tick === 0n && ticks.some((t) => t !== 0n && Math.abs(x(t) - at) < 60);
    if (near) continue;
    made.append(
        s("text", {
          x: at,
          y: 110,
          "text-anchor": at < LEFT + 30 ? "start" :
              at > LEFT + WIDE - 30     ? "end" :
                                          "middle",
          class: "faint"
        },
          money(tick, d)));
  }
  return made;
}

const SIDES = ["device", "controller", "difference"];
const isSingle = ([least, greatest]) => least === greatest;

// What is missing from an account's sums: amounts without a known value.
function missingAmounts(r, device) {
  const missing = r.unvalued?.[device] ?? 0;
  return missing ?
      h("p", {},
        h("strong", {},
          `${counted(missing, "amount")} without a known value ${missing === 1 ? "is" : "are"} missing from it.`)) :
      null;
}

// The ranges of an account, side by side. Where a limit is no other one, one number stands for both.
function rangeTable(name, a, d, isCut) {
  const whose = small(ACCOUNTS[name].owner), isWide = SIDES.some((side) => !isSingle(a[side]));
  const heads = {device: whose, controller: "the controller", difference: `${whose} less the controller`};
  const bound = (side, i, kind) =>
      h("td", {class: "number " + kind},
        isCut ? money(a[side][i], d) : whyButton(name, side, kind, money(a[side][i], d)));
  const cells = (side) => isSingle(a[side]) ?
      [h("td", {class: "number least greatest", colspan: isWide ? 2 : undefined}, money(a[side][0], d))] :
      [bound(side, 0, "least"), bound(side, 1, "greatest")];
  const head = (words) => h("th", {scope: "col", class: "number"}, words);
  return h(
      "table", {"aria-label": ACCOUNTS[name].title},
      h("thead", {}, h("tr", {}, h("td", {}), isWide ? [head("at least"), head("at most")] : [head("for certain")])),
      h("tbody", {},
        SIDES.map(
            (side) =>
                h("tr", {"data-account": name, "data-side": side}, h("th", {scope: "row"}, capital(heads[side])),
                  cells(side)))));
}

// One account: one number where both books have it for certain, else its ranges as numbers, as bars, and in words.
function accountArticle(r, name, a, d, isCut) {
  const {device, title, owner} = ACCOUNTS[name], isWide = SIDES.some((side) => !isSingle(a[side]));
  const isAgreed = !isWide && a.difference[0] === 0n, lacks = name === "paid-out" && r.lacks,
        weighed = isWide ? r.weighed(name, a, d) : [],
        plain = r.plain && isWide && !weighed.length ? [plainWords(name, r.plain[name], d)] : weighed;
  const agreed = () =>
      h("p", {class: "agreed", "data-account": name}, h("strong", {class: "sum"}, money(a.device[0], d)),
        `${lacks ? "" : " for certain"}: ${small(owner)} and the controller counted the same${
            isCut ? " up to there" : ""}.`);
  const ranges = () =>
      [rangeTable(name, a, d, isCut), h("p", {class: "why-told", role: "status"}), isWide ? bars(name, a, d) : null,
       [...sentences(name, a, d, isCut), ...plain].map((it) => h("p", {}, it))];
  return h(
      "article", {class: "account", id: "account-" + name}, h("h3", {}, title),
      (isAgreed ? [agreed()] : ranges()).flat(), missingAmounts(r, device),
      lacks ? h("p", {}, h("strong", {}, lacks)) : null);
}

// An account with amounts that aren't on the bus.
const untoldArticle = (r, name) =>
    h("article", {class: "account", id: "account-" + name}, h("h3", {}, ACCOUNTS[name].title),
      h("p", {"data-untold": name}, h("strong", {}, "Amount not told: "),
        "the reader approved FFFF, and takes the price from a list of its own. The text below counts FFFF as 65535."),
      besideWords(r, name));

// The sum of the sales whose amount is told, as it was reported.
function besideWords(r, name) {
  const {device, owner} = ACCOUNTS[name], sums = name.startsWith("sold") && r.soldSums?.(DEVICES.indexOf(device));
  if (!sums) return null;
  const words = ({units, decimals}) => money(units, decimals ?? r.decimals[device]);
  return h(
      "p", {class: "beside"},
      `The other sales, as reported: ${small(owner)} ${words(sums.device)}, the controller ${words(sums.controller)}.`);
}

// What the ranges mean.
const RANGES = [
  "Each device counts, and the controller counts the same money for itself. “At least” and “at most” are the limits of what each may have counted.",
  "Where both limits are the same, the amount is certain, whatever was lost on the way. Where they differ, it depends on which words were received, and no recorder hears that.",
  "Use the difference as it is shown here: don't subtract the other two lines.",
  "“Only if” names the fewest losses that lead to a limit. Others, as many or more, may lead there too.",
];
const CUT_RANGES =
    "The rows end here in the middle of the traffic, perhaps between a report and its acknowledgement. The controller may then have counted that report a moment later.";

// The accounts of a report: those in which something moved, and a line on the others.
function accounts(r, isCut) {
  const moved = [], zero = [], silent = [], ranges = [];
  for (const [name, a] of Object.entries(r.accounts)) {
    const {device} = ACCOUNTS[name], d = r.decimals[device];
    if (isZero(a))
      (d === null ? silent : zero).push(name);
    else {
      moved.push(r.isUntold(name) ? untoldArticle(r, name) : accountArticle(r, name, a, d, isCut));
      ranges.push(...SIDES.map((side) => a[side]));
    }
  }
  const isOpen = !ranges.every(isSingle), told = [...isOpen ? RANGES : [], ...isCut ? [CUT_RANGES] : []];
  return [
    moved.length ? h("div", {class: "accounts"}, moved) : null, ...told.map((it) => h("p", {class: "soft"}, it)),
    zero.length ? zeroWords(r, zero) : null, silent.length ? silentWords(r, silent) : null
  ].filter(Boolean);
}

// The accounts in which nothing moved: one line.
function zeroWords(r, names) {
  const title = (name) => h("span", {"data-zero": name}, small(ACCOUNTS[name].title));
  const comma = (it, i) => i ? [", ", it] : [it];
  const missing = names.filter((name) => r.unvalued?.[ACCOUNTS[name].device]);
  return h(
      "p", {id: "zero"}, r.lacks ? "No money that is followed, for either side: " : "No money, for either side: ",
      names.map(title).flatMap(comma), ".", r.lacks && names.includes("paid-out") ? ` ${r.lacks}` : null,
      missing.length ? " Amounts without a known value aren't in these." : null);
}

// The devices that have no sums, and why.
function silentWords(r, silent) {
  const devices = [...new Set(silent.map((name) => ACCOUNTS[name].device))];
  const named = (these) => listed(these.map((it) => the(DEVICE_NAMES[DEVICES.indexOf(it)])));
  const left = devices.filter((it) => r.without.includes(it)), other = devices.filter((it) => !r.without.includes(it)),
        inner = [];
  if (other.length)
    inner.push(
        `No sums for ${named(other)}: this recording shows no values of ${other.length === 1 ? "it" : "them"}. ` +
        "If such a device is in the machine, record a whole start, or give an earlier recording of one. ");
  if (left.length) inner.push(`No sums for ${named(left)}: left out.`);
  return h("p", {id: "silent"}, inner);
}

/** @type {(it: Answer) => HTMLElement} */
export function moneySection(it) {
  const lacks = lacksWords(it);
  const isUntold = (name) => hasUntold(it, name);
  const weighed = (name, a, d) => weighedWords(it, name, a, d);
  const sums = {...it.report, plain: plainSums(it), weighed, lacks, isUntold, soldSums: (device) => soldSums(it, device)};
  return section("Where the money is", "money", ...accounts(sums, false), remarks(it));
}

// The accounts of the rows before the one that cannot be.
/** @type {(it: Answer) => HTMLElement} */
export function beforeSection(it) {
  const rows = it.row === 2 ? "row 1" : `rows 1 to ${number(it.row - 1)}`;
  return section(
      "Where the money was before that", "before",
      h("p", {}, h("strong", {}, `These are the sums of ${rows} alone.`),
        ` Row ${number(it.row)} and the rows after it are in no sum.`),
      ...accounts(
          {
            ...readReport(it.before),
            plain: plainSums(it),
            weighed: (name, a, d) => weighedWords(it, name, a, d),
            lacks: lacksWords(it),
            isUntold: (name) => hasUntold(it, name)
          },
          true));
}

// What is to be said of a device, beside its figures.
function deviceNotes(it, device) {
  const r = it.report, i = DEVICES.indexOf(device), told = readerTold(it, i - 1);
  const notes = [], missing = r.unvalued?.[device] ?? 0, silences = r.silences[device];
  if (r.without.includes(device)) notes.push("Left out: its words aren't read, so its sums are 0 whatever it did.");
  if (isValued(it, i - 1)) notes.push("Its values come from an earlier recording.");
  if (told.length) notes.push(`Given: ${listed(told)}.`);
  if (r.decimals[device] === null && !r.without.includes(device))
    notes.push(`Reported no values in this recording${missing ? "" : ", or isn't there"}.`);
  if (silences)
    notes.push(`Gave no answer for more than ${i < 2 ? "2 s" : "5 s (or the time that the reader reported)"}, ${
        counted(silences, "time")}. Look at its power and plug, and at what it was doing then.`);
  if (missing)
    notes.push(`${counted(missing, "amount")} without a known value ${
        missing === 1 ? "is" : "are"} in no sum. Give an earlier recording of a start.`);
  return notes;
}

// Where a reader is found on the bus: two of them differ in nothing else.
const ADDRESSES = ["", "", " (10H)", " (60H)"];

/** @type {(it: Answer) => HTMLElement} */
export function devicesSection(it) {
  const r = it.report, heads = [["device"], ["decimal places", "number"], ["silences", "number"]];
  if (r.unvalued) heads.push(["without a value", "number"]);
  heads.push(["notes"]);
  const rows = DEVICES.slice(1).map(
      (device, i) =>
          h("tr", {"data-device": device}, h("th", {scope: "row"}, DEVICE_NAMES[i + 1], ADDRESSES[i]),
            h("td", {class: "number decimals"}, r.decimals[device] === null ? "–" : r.decimals[device]),
            h("td", {class: "number silences"}, r.silences[device]),
            r.unvalued ? h("td", {class: "number unvalued"}, r.unvalued[device]) : null,
            h("td", {class: "notes"}, deviceNotes(it, device).join(" "))));
  const words = [
    "A silence is a time in which the controller asks one device again and again without an answer, longer than the standard allows. It breaks no rule."
  ];
  if (r.unvalued)
    words.push(
        "“Without a value” counts coins, bills and sales whose worth isn't known. If it is 0, the device's sums lack nothing.");
  if (r.without.length)
    words.push("If a device that is left out handles money, these sums aren't all the money of the machine.");
  return section(
      "The devices", "devices", table("Decimal places and silences of each device", heads, rows),
      words.map((it) => h("p", {class: "soft"}, it)));
}
