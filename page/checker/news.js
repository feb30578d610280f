// @ts-check
// What the module tells of money, sales, resets, breaks and silences: entries in its memory, as values. An entry's kind
// has the name that stands here at its number.
import {layout} from "./layout.js";

const NEWS_KINDS = [
  "tube",      "cash box",   "by hand", "ordered", "stacked",   "escrow", "returned", "request",
  "cash sale", "approved",   "denied",  "sold",    "cancelled", "failed", "begun",    "complete",
  "ended",     "reset told", "reset",   "break",   "silence",   "set-up", "recycled"
];
// What an entry is, in words.
const WHATS = {
  "tube": "coin deposited to tube",
  "cash box": "coin deposited to cash box",
  "by hand": "coins dispensed by hand",
  "ordered": "coins ordered (DISPENSE)",
  "stacked": "bill stacked",
  "escrow": "bill in escrow",
  "returned": "bill returned",
  "recycled": "bill to the recycler",
  "request": "vend request",
  "cash sale": "cash sale",
  "approved": "vend approved",
  "denied": "vend denied",
  "sold": "vend success",
  "cancelled": "vend cancel",
  "failed": "vend failure",
  "begun": "session begun",
  "complete": "session complete",
  "ended": "session ended",
  "reset told": "was reset",
  "reset": "RESET"
};
// Kinds of coins and bills, and those of sessions and of resets; the number of a kind of a sale is that of an item.
const CASH = ["tube", "cash box", "by hand", "ordered", "stacked", "escrow", "returned", "recycled"];
const OF_SESSIONS = ["begun", "complete", "ended"], OF_RESETS = ["reset told", "reset"];
const WITH_ITEM = ["request", "cash sale", "sold"];
const NO_WORTH = 0, KNOWN_WORTH = 2;

// The entries of a piece, as they lie in memory.
class NewsPiece {
  constructor(buffer) {
    this.view = new DataView(buffer);
    this.at = layout.news;
    this.count = buffer.byteLength / this.at.size;
  }
  byte(i, field) {
    return this.view.getUint8(i * this.at.size + this.at[field]);
  }
  short(i) {
    return this.view.getUint16(i * this.at.size + this.at.number, true);
  }
  u64(i, field) {
    const at = i * this.at.size + this.at[field];
    return this.view.getUint32(at, true) + this.view.getUint32(at + 4, true) * 4294967296;
  }
  // A number without loss: from 2^53 on it is a BigInt.
  whole(i, field) {
    const n = this.u64(i, field);
    return Number.isSafeInteger(n) ? n : this.view.getBigUint64(i * this.at.size + this.at[field], true);
  }
}

function whatOf(kind, count) {
  return kind === "by hand" && count === 1 ? "coin dispensed by hand" : WHATS[kind];
}

// The type of a coin or bill, an item in words, or nothing.
function typeOf(kind, number) {
  if (CASH.includes(kind)) return number;
  return WITH_ITEM.includes(kind) ? `item ${number}` : "";
}

// An entry of money, a sale or a session. `units` is null where there is no amount or none is known.
function moneyEntry(piece, i, kind) {
  const worth = piece.byte(i, "worth"), isKnown = worth === KNOWN_WORTH, count = piece.u64(i, "count");
  const made = {
    first: piece.u64(i, "first"),
    last: piece.u64(i, "last"),
    begin: piece.u64(i, "start"),
    at: piece.u64(i, "end"),
    device: piece.byte(i, "device"),
    kind,
    what: whatOf(kind, count),
    type: typeOf(kind, piece.short(i)),
    units: isKnown ? piece.whole(i, "amount") : null,
    decimals: isKnown ? piece.byte(i, "decimals") : undefined,
    acknowledged: piece.byte(i, "isAcknowledged") > 0,
    noAmount: worth === NO_WORTH,
    isToken: piece.byte(i, "isToken") > 0
  };
  if (CASH.includes(kind)) made.count = count;
  return made;
}

function silenceEntry(piece, i) {
  return {
    first: piece.u64(i, "first"),
    last: piece.u64(i, "last"),
    device: piece.byte(i, "device"),
    from: piece.u64(i, "start"),
    to: piece.u64(i, "end"),
    asks: piece.u64(i, "count")
  };
}

// A reset, a break or a set-up that was told: what it has depends on that.
function eventEntry(piece, i, more) {
  return {
    first: piece.u64(i, "first"),
    last: piece.u64(i, "last"),
    begin: piece.u64(i, "start"),
    at: piece.u64(i, "end"),
    ...more
  };
}

function addNews(found, piece, i) {
  const kind = NEWS_KINDS[piece.byte(i, "kind")], device = piece.byte(i, "device");
  if (OF_SESSIONS.includes(kind))
    found.sessions.push(moneyEntry(piece, i, kind));
  else if (OF_RESETS.includes(kind))
    found.resets.push(
        eventEntry(piece, i, {device, kind, what: WHATS[kind], acknowledged: piece.byte(i, "isAcknowledged") > 0}));
  else if (kind === "break")
    found.breaks.push({...eventEntry(piece, i), at: piece.u64(i, "start"), length: piece.u64(i, "length")});
  else if (kind === "silence")
    found.silences.push(silenceEntry(piece, i));
  else if (kind === "set-up")
    found.setups.push(eventEntry(piece, i, {device}));
  else
    found.money.push(moneyEntry(piece, i, kind));
}

// What is found: entries in the order of the rows, silences in the order of their ends.
/** @type {() => Found} */
export const noNews = () => ({money: [], sessions: [], resets: [], breaks: [], silences: [], setups: []});

// Adds the entries of a piece, as it lies in memory.
/** @type {(found: Found, buffer: ArrayBuffer) => void} */
export function addPiece(found, buffer) {
  const piece = new NewsPiece(buffer);
  for (let i = 0; i < piece.count; i++) addNews(found, piece, i);
}
