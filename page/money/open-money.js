// @ts-check
// Open money: the money of which the acts show no end, and the trouble that devices reported, by
// docs/bench/open-money.md. It needs the acts alone, and their set-ups (`noteSetups`, acts.js).
import {ACK, ASK, BREAK, FOREIGN, NAK, POLLS, REPEAT, REPLY, two, VMC_ACK, VMC_RET, worth} from "../checker/acts.js";
import {readerMessages} from "../checker/messages.js";

import {TubeWatch} from "./tubes.js";

const OPEN_KINDS =
    ["approved", "failed", "request", "untaken", "escrow", "restart", "lever", "payout", "choice", "order", "trouble"];
const LEVER_WAIT = 30e6, CASH_WAIT = 30e6, PAYOUT_WAIT = 2e6, JAM_WAIT = 5e6, SILENT = 2e6, MALFUNCTION = 0x0A;
// A price or an approval whose amount isn't told.
const NOT_TOLD = 0xFFFF;
const READERS = [3, 4];
export const STACKER = 0x36, RECYCLER = 0x37;
const TUBE_STATUS = 0x0A, PAYOUT_BUSY = 2, BILLS_ORDERED = 6, BILLS_PAID = 8;
const VEND = {
  REQUEST: 0,
  CANCEL: 1,
  SUCCESS: 2,
  FAILURE: 3,
  COMPLETE: 4,
  CASH_SALE: 5
};
// Those that show in which sale a reader is.
const SALE_COMMANDS = [VEND.REQUEST, VEND.SUCCESS, VEND.FAILURE, VEND.COMPLETE];
// The reports of trouble, by device: a changer's and a validator's messages. A reader's malfunctions each have a code.
const TROUBLES = [[], [3, 4, 6, 7, 8, 9, 0x0C, 0x0D], [1, 2, 4, 5, 7, 8, 0x0C]];
// What may come before a validator says what became of a bill in escrow.
const RESTARTS = ["break", "reset", "restarted"];
// What a reader's message ends a sale with.
const READER_ENDS = {
  0: "restarted",
  3: "begun",
  6: "denied",
  7: "ended"
};
const DENIED = 6;

// So much of a device's money: the units that are known, null if none are, and how many of its parts have no value.
const amountOf = (device, setup, units) =>
    ({device, units, decimals: setup?.decimals ?? null, unvalued: units === null ? 1 : 0});

const isNothing = (amounts) => amounts.length > 0 && amounts.every((it) => it.units === 0 && !it.unvalued);

// Two amounts of one device together.
const moreOf = (sum, more) => ({
  ...more,
  units: sum.units === null ? more.units : sum.units + (more.units ?? 0),
  unvalued: sum.unvalued + more.unvalued
});

// The messages of a changer's or validator's answer to POLL, by their first bytes.
function pollBytes(device, bytes) {
  const found = [];
  for (let i = 0; i < bytes.length - 1; i += device === 1 && bytes[i] >= 0x40 ? 2 : 1) found.push(bytes[i]);
  return found;
}

const NO_ENTRY = {
  kind: "",
  device: 0,
  time: 0,
  rows: [],
  amounts: [],
  came: null,
  cameRows: null,
  count: 1,
  item: null,
  code: null,
  answer: null,
  silent: null,
  paid: null,
  last: 0
};

// A walk over the acts. What may still end is open: of each reader a request, an approval, and a VEND SUCCESS that
// wasn't taken; a bill in escrow, a DISPENSE that wasn't taken, and presses of the return lever.
class OpenWalk {
  constructor(acts, gaps) {
    this.acts = acts;
    this.gaps = gaps;
    // The act that is looked at.
    this.at = 0;
    this.entries = [];
    this.troubles = new Map();
    // The readers of which a sale isn't followed, up to the next VEND REQUEST.
    this.lost = new Set();
    this.begin();
  }
  // At the start, and after a gap, nothing is open.
  begin() {
    this.requests = [];
    this.approvals = [];
    this.untaken = [];
    // Whether a reader took VEND SUCCESS of its last request, and since when it doesn't answer.
    this.hasSold = [];
    this.quiet = [];
    this.items = [];
    // The readers of which a sale may have begun before.
    this.unseen = READERS;
    this.bill = this.billBefore = this.cash = this.payout = this.taken = null;
    this.payouts = [];
    this.tubes = new TubeWatch();
    this.presses = [];
    this.paidIn = [];
    this.isPressed = false;
  }
  rows(i) {
    return [this.acts.first(i), this.acts.last(i)];
  }
  made(kind, i, more) {
    const {acts} = this, time = acts.start(i);
    return {...NO_ENTRY, kind, device: acts.device(i), time, rows: [this.rows(i)], last: time, ...more};
  }
  // What came, in place of an entry's end: the act that is looked at, if no other rows are given.
  ended(entry, came, rows) {
    const cameRows = rows === undefined && came ? this.rows(this.at) : rows ?? null;
    return Object.assign(entry, {came, cameRows, until: this.acts.start(this.at)});
  }
  put(entry) {
    if (entry && !isNothing(entry.amounts)) this.entries.push(entry);
  }
  // Lists an entry, if there is one.
  list(entry, came = null, rows = undefined) {
    if (entry) this.put(this.ended(entry, came, rows));
  }
  // Another act of an entry: its rows come after those of the first one, in place of an earlier other one.
  again(entry, i) {
    entry.count++;
    entry.last = this.acts.start(i);
    if (this.acts.first(i) !== entry.rows[0][0]) entry.rows[1] = this.rows(i);
  }
  // Something shows in which sale this reader is.
  see(device) {
    this.unseen = this.unseen.filter((it) => it !== device);
  }
  endApproval(device, came, rows) {
    this.list(this.approvals[device], came, rows);
    this.approvals[device] = null;
  }
  endRequest(device, came, rows) {
    this.list(this.requests[device], came, rows);
    this.requests[device] = null;
  }
  endUntaken(device, came, rows) {
    this.list(this.untaken[device], came, rows);
    this.untaken[device] = null;
  }
  endSale(device, came, rows) {
    this.endRequest(device, came, rows);
    this.endApproval(device, came, rows);
    this.endUntaken(device, came, rows);
  }
  // After a restart the validator may still say what became of a bill.
  endBill(came, rows) {
    const {bill} = this;
    this.bill = null;
    if (bill && RESTARTS.includes(came))
      this.billBefore = this.ended(bill, came, rows);
    else
      this.list(bill, came, rows);
  }
  // Nothing was said of the bill before the restart.
  endBillBefore() {
    this.put(this.billBefore);
    this.billBefore = null;
  }
  endPayout(came, rows) {
    this.list(this.payout, came, rows);
    this.payout = null;
  }
  // What a break ends.
  endAll(came, rows) {
    for (const device of READERS) {
      this.endSale(device, came, rows);
      this.endQuiet(device, this.quiet[device]?.last);
    }
    [this.items, this.unseen, this.hasSold] = [[], [], []];
    this.endBill(came, rows);
    this.endPayout(came, rows);
    this.taken = null;
    this.payouts = [];
    this.tubes.forget();
  }
  // The acts end here, or some aren't listed.
  end(came, rows) {
    this.endAll(came, rows);
    this.endBillBefore();
    for (const press of this.presses)
      if (this.acts.start(this.at) > press.last + LEVER_WAIT)
        this.list(press, "time", null);
      else
        this.list(press, came, rows);
    this.begin();
  }
  act(i) {
    const {acts} = this, kind = acts.kind(i), device = acts.device(i);
    this.at = i;
    if (device === 1) {
      if (this.taken) this.heardChanger(i, kind);
      if (kind === ACK && this.tubes.isPending() && this.isPolled(i)) this.tubes.polled(false);
    }
    if (kind === BREAK) {
      this.endAll("break");
      this.restart("break");
    } else if (kind === ASK && acts.byte(i, 0) !== POLLS[device])
      this.asked(i, device, acts.bytes(i));
    else if (kind === REPLY)
      this.replied(i, device, acts.bytes(i));
    if (device > 2) this.hearReader(device, kind, acts.start(i));
  }
  // Passes over a POLL without news and its answer, where nothing waits for such an answer. Most acts are such.
  isPassed(i) {
    if (!this.acts.isQuiet(i)) return false;
    const device = this.acts.device(i), isAwaited = device === 1 && (this.taken || this.tubes.isPending());
    if (isAwaited || this.quiet[device]) return false;
    this.at = i + 1;
    return true;
  }
  // Whether an act comes right after a POLL of its device.
  isPolled(i) {
    const {acts} = this, isAsked = i > 0 && !this.gaps.has(i) && acts.kind(i - 1) === ASK;
    return isAsked && acts.byte(i - 1, 0) === POLLS[acts.device(i)];
  }
  // Since when a reader doesn't answer, and which request was open then.
  hearReader(device, kind, time) {
    if (kind === ACK || kind === NAK || kind === REPLY) this.endQuiet(device, time);
    if (kind !== ASK) return;
    this.quiet[device] ??= {from: time, last: time, entry: this.requests[device]};
    this.quiet[device].last = time;
  }
  endQuiet(device, to) {
    const quiet = this.quiet[device], entry = quiet?.entry;
    if (entry && entry.silent === null && to >= quiet.from + SILENT) entry.silent = to - quiet.from;
    this.quiet[device] = null;
  }
  asked(i, device, bytes) {
    if (device > 2) return this.askedReader(i, device, bytes);
    switch (bytes[0]) {
      case 0x08:
        this.endPayout("reset");
        this.restart("reset");
        this.tubes.forget();
        return;
      case 0x30:
        this.endBill("reset");
        this.restart("reset");
        return;
      case 0x35:
        if (this.bill && this.answerOf(i) === ACK) this.bill.answer = bytes[1] & 1 ? "stack" : "return";
        return;
      case 0x0D:
        this.dispense(i, bytes[1]);
    }
  }
  askedReader(i, device, bytes) {
    const command = bytes[0] & 7;
    if (command === 0) {
      this.endSale(device, "reset");
      this.items[device] = this.hasSold[device] = null;
      this.see(device);
    }
    if (command !== 3) return;
    if (bytes[1] === VEND.REQUEST) this.lost.delete(device);
    if (this.lost.has(device)) return;
    if (bytes[1] === VEND.FAILURE) this.failed(i, device);
    if (SALE_COMMANDS.includes(bytes[1])) this.see(device);
    switch (bytes[1]) {
      case VEND.REQUEST:
        this.request(i, device, bytes);
        return;
      case VEND.CANCEL:
        this.requests[device] = null;
        return;
      case VEND.SUCCESS:
        this.sold(i, device, two(bytes, 2));
        return;
      case VEND.COMPLETE:
        this.endSale(device, "complete");
        return;
      case VEND.CASH_SALE:
        this.settled(i);
    }
  }
  request(i, device, bytes) {
    const said = bytes.join(), item = two(bytes, 4);
    this.endApproval(device, "request");
    this.endUntaken(device, "request");
    this.items[device] = item;
    this.hasSold[device] = false;
    if (this.requests[device]?.said === said) {
      this.again(this.requests[device], i);
      return;
    }
    this.endRequest(device, "request");
    this.requests[device] = this.made("request", i, {item, said, amounts: [this.priceOf(device, i, two(bytes, 2))]});
  }
  // A price, or what a reader approved.
  priceOf(device, i, number) {
    const setup = this.acts.setupAt(device, i);
    return amountOf(device, setup, setup && number !== NOT_TOLD ? number * setup.scale : null);
  }
  sold(i, device, item) {
    const approval = this.approvals[device], answer = this.answerOf(i);
    this.approvals[device] = this.requests[device] = null;
    if (this.untaken[device] && this.untaken[device].item !== item) this.endUntaken(device, "sold");
    if (answer === ACK || answer === REPLY) {
      this.untaken[device] = null;
      this.hasSold[device] = true;
    } else if (!this.hasSold[device])
      this.leftSale(i, device, item, approval, answer === NAK);
  }
  // A VEND SUCCESS that isn't taken: the first one, or the same one again.
  leftSale(i, device, item, approval, isRefused) {
    if (this.untaken[device])
      this.again(this.untaken[device], i);
    else
      this.untaken[device] =
          this.made("untaken", i, {item, amounts: approval?.amounts ?? [this.priceOf(device, i, NOT_TOLD)]});
    this.left(this.untaken[device], i, isRefused);
  }
  failed(i, device) {
    const open = this.approvals[device], setup = this.acts.setupAt(device, i);
    this.approvals[device] = this.requests[device] = null;
    this.endUntaken(device, "failed");
    if (open)
      this.list({...open, kind: "failed", rows: [...open.rows, this.rows(i)], last: this.acts.start(i)});
    else if (this.unseen.includes(device))
      this.list(this.made("failed", i, {amounts: [amountOf(device, setup, null)]}));
  }
  // The answer to a command, if it is the next act: an ACK, a NAK or a reply. Null if there is none.
  answerOf(i) {
    const {acts} = this, at = i + 1;
    if (at >= acts.count || this.gaps.has(at) || acts.device(at) !== acts.device(i)) return null;
    return [ACK, NAK, REPLY].includes(acts.kind(at)) ? acts.kind(at) : null;
  }
  dispense(i, code) {
    const answer = this.answerOf(i);
    this.settled(i);
    if (this.payout && this.payout.code !== code) this.endPayout("dispense");
    if (answer === ACK) {
      this.payout = null;
      this.taken = {at: i, code, asked: null, isListed: false};
      this.payouts.push(this.taken);
      this.tubes.dispensed(this.taken);
    } else
      this.leftPayout(i, code, answer === NAK);
  }
  payoutAt(i, code) {
    const setup = this.acts.setupAt(1, i), value = worth(setup, code & 15);
    return this.made("payout", i, {code, amounts: [amountOf(1, setup, value === null ? null : value * (code >> 4))]});
  }
  // A DISPENSE that isn't taken: the first one, or the same one again.
  leftPayout(i, code, isRefused) {
    if (this.payout)
      this.again(this.payout, i);
    else
      this.payout = this.payoutAt(i, code);
    this.left(this.payout, i, isRefused);
  }
  // How the last command of an entry was answered.
  left(entry, i, isRefused) {
    Object.assign(entry, {answer: isRefused ? "refused" : "none", nak: isRefused ? this.rows(i + 1) : null});
    if (isRefused) entry.last = this.acts.start(i + 1);
  }
  // A DISPENSE that was taken, and perhaps didn't pay: once.
  doubt(payout, came) {
    if (!payout.isListed) this.list({...this.payoutAt(payout.at, payout.code), answer: "taken"}, came);
    payout.isListed = true;
  }
  // Trouble of the changer: the payouts shortly before it are in doubt.
  jammed(i) {
    for (const it of this.payouts)
      if (this.acts.start(i) <= this.acts.start(it.at) + JAM_WAIT) this.doubt(it, "trouble");
    this.payouts = [];
  }
  // After a DISPENSE that was taken, the changer answers, or is silent for too long.
  heardChanger(i, kind) {
    const {taken} = this, time = this.acts.start(i);
    if (i <= taken.at + 1) return;
    if ([ACK, NAK, REPLY].includes(kind)) this.taken = null;
    if (kind !== ASK) return;
    taken.asked ??= time;
    if (time <= taken.asked + PAYOUT_WAIT) return;
    this.doubt(taken, "silent");
    this.taken = null;
  }
  // Whether the controller acknowledged a reply, perhaps after it had asked for it again.
  isHeard(i) {
    const {acts} = this;
    let at = i + 1;
    while (at < acts.count && !this.gaps.has(at) && [VMC_RET, REPEAT].includes(acts.kind(at))) at++;
    return at < acts.count && !this.gaps.has(at) && acts.kind(at) === VMC_ACK;
  }
  replied(i, device, bytes) {
    const {acts} = this, isAsked = i > 0 && !this.gaps.has(i) && acts.kind(i - 1) === ASK;
    const command = isAsked ? acts.byte(i - 1, 0) : 0;
    if (device > 2)
      for (const message of readerMessages(bytes, acts.reading(i))) this.readerSays(i, device, message);
    else if (command === STACKER)
      this.trouble(i, device, STACKER, bytes[0] > 0x7F);
    else if (command === TUBE_STATUS)
      for (const it of this.tubes.status(bytes.slice(2, -1))) this.doubt(it, "tubes");
    else if (command === POLLS[device])
      this.polled(i, device, pollBytes(device, bytes));
  }
  polled(i, device, said) {
    if (device === 1) this.tubes.polled(said.includes(PAYOUT_BUSY));
    for (const byte of said)
      if (device === 1)
        this.changerSays(i, byte);
      else
        this.billSays(i, byte);
  }
  trouble(i, device, code, is) {
    const key = device * 256 + code, known = this.troubles.get(key);
    if (!is) return;
    if (known)
      this.again(known, i);
    else
      this.troubles.set(key, this.made("trouble", i, {code}));
  }
  readerSays(i, device, message) {
    if (message[0] in READER_ENDS || message[0] === 5) this.see(device);
    if (message[0] === 5 || message[0] === DENIED) this.requests[device] = null;
    if (message[0] === DENIED)
      this.endApproval(device, "denied");
    else if (message[0] in READER_ENDS)
      this.endSale(device, READER_ENDS[message[0]]);
    else if (message[0] === 5 && this.isHeard(i) && !this.lost.has(device))
      this.approve(i, device, two(message, 1));
    else if (message[0] === MALFUNCTION)
      this.trouble(i, device, message[1], true);
  }
  approve(i, device, units) {
    const amounts = [this.priceOf(device, i, units)];
    this.approvals[device] ??= this.made("approved", i, {amounts, item: this.items[device] ?? null});
  }
  changerSays(i, byte) {
    this.trouble(i, 1, byte, TROUBLES[1].includes(byte));
    if (TROUBLES[1].includes(byte)) this.jammed(i);
    if (byte > 0x7F || byte >> 4 === 5) this.tubes.move(byte & 15);
    if (byte === 1)
      this.pressed(i);
    else if (byte === 0x0B)
      this.changerRestarted(i);
    else if (byte >> 5 === 2 && this.isHeard(i))
      this.pay(i, 1, byte & 15);
    else if (byte > 0x8F)
      this.settled(i);
  }
  changerRestarted(i) {
    if (this.isHeard(i)) this.endPayout("restarted");
    this.restart("restarted");
    this.tubes.forget();
  }
  billSays(i, byte) {
    const type = byte & 15, sort = byte >> 4;
    this.trouble(i, 2, byte, TROUBLES[2].includes(byte));
    if (byte === 6) {
      this.endBill("restarted");
      this.restart("restarted");
    }
    if (sort < 8 || sort > 0x0B) return;
    if (sort !== 9 && this.billBefore?.type === type) this.billBefore = null;
    this.endBillBefore();
    if (this.bill && this.bill.type !== type) this.endBill("bill");
    if (sort === 9) {
      const setup = this.acts.setupAt(2, i);
      this.bill ??= this.made("escrow", i, {type, amounts: [amountOf(2, setup, worth(setup, type))]});
      return;
    }
    this.bill = null;
    if (sort === 0x0A)
      this.settled(i);
    else if (this.isHeard(i))
      this.pay(i, 2, type);
  }
  // A coin or a bill is paid in: what presses come now are others.
  pay(i, device, type) {
    const setup = this.acts.setupAt(device, i), more = amountOf(device, setup, worth(setup, type));
    const before = this.paidIn[device];
    this.paidIn[device] = before ? moreOf(before, more) : more;
    this.isPressed = false;
    this.keepCash(i, device, more);
  }
  // The coins and bills that were paid in shortly one after the other.
  keepCash(i, device, more) {
    if (this.cash && this.acts.start(i) <= this.cash.last + CASH_WAIT)
      this.again(this.cash, i);
    else
      this.cash = this.made("restart", i, {sums: []});
    const {sums} = this.cash;
    sums[device] = sums[device] ? moreOf(sums[device], more) : more;
    this.cash.amounts = sums.filter(Boolean);
  }
  // A device or the controller restarts: it may have forgotten the cash before.
  restart(came) {
    if (this.cash && this.acts.start(this.at) <= this.cash.last + CASH_WAIT) this.list(this.cash, came);
    this.cash = null;
  }
  pressed(i) {
    const {acts} = this, amounts = this.paidIn.filter(Boolean), press = this.presses.at(-1);
    if (press && this.isPressed)
      this.again(press, i);
    else if (amounts.length) {
      const now = amounts.map((it) => ({...it, decimals: acts.setupAt(it.device, i)?.decimals ?? null}));
      this.presses.push(this.made("lever", i, {amounts: now}));
      this.isPressed = true;
    }
  }
  // A payout or a sale for cash: the presses of the last 30 s got what they asked for.
  settled(i) {
    for (const press of this.presses)
      if (this.acts.start(i) > press.last + LEVER_WAIT) this.list(press, "time", null);
    this.presses = [];
    this.paidIn = [];
    this.isPressed = false;
    this.cash = null;
  }
}

// The rows that an entry names; what only the walk needs is left out.
/** @type {(entry: any) => OpenEntry} */
function openEntry({type, nak, said, sums, ...entry}) {
  return nak ? {...entry, rows: [...entry.rows, nak]} : entry;
}

// Rows of one sort, each with its time, as one entry.
function rowsEntry(kind, device, all, code = null) {
  const [first, last] = [all[0], all.at(-1)], rows = [[first.row, first.row]];
  if (last.row !== first.row) rows.push([last.row, last.row]);
  return {...NO_ENTRY, kind, device, time: first.time, rows, count: all.length, code, last: last.time};
}

// Whether a row is in an act of a device that isn't followed.
function isForeign(acts, row) {
  const i = actAfterRow(acts, row) - 1;
  return i >= 0 && acts.kind(i) === FOREIGN && acts.last(i) >= row;
}

// What a recycler is ordered to pay: so many bills of a type, or a value.
function orderedOf(acts, {row, bytes: [order, ...rest]}) {
  const setup = acts.setupAt(2, actAfterRow(acts, row) - 1), isBills = order === BILLS_ORDERED;
  if (!setup || rest.length < (isBills ? 3 : 2)) return amountOf(2, setup, null);
  return amountOf(2, setup, isBills ? worth(setup, rest[0] & 15) * two(rest, 1) : two(rest, 0) * setup.scale);
}

// What a recycler says that it paid: so many bills of each type.
function paidOf(acts, {row, bytes: [, ...words]}) {
  const setup = acts.setupAt(2, actAfterRow(acts, row) - 1), counts = [];
  for (let i = 0; i < words.length; i += 2) counts.push(two(words, i));
  const amounts = counts.map((count, type) => [count, worth(setup, type)])
                      .filter(([count]) => count)
                      .map(([count, bill]) => amountOf(2, setup, bill === null ? null : bill * count));
  return amounts.length ? amounts.reduce(moreOf) : amountOf(2, setup, 0);
}

// The first thing that a recycler says after each of its orders, and before the next one.
function paidAfter(all) {
  const isPaid = ({bytes}) => bytes[0] === BILLS_PAID;
  return all.filter((it, i) => i > 0 && isPaid(it) && !isPaid(all[i - 1]));
}

// The payouts by devices that aren't followed, an entry for each of these.
function orderEntries(acts, orders) {
  const found = orders.filter(({row, end}) => isForeign(acts, row) && isForeign(acts, end));
  const of = (code) => found.filter((it) => it.code === code), isOrder = ({bytes}) => bytes[0] !== BILLS_PAID;
  return [...new Set(found.filter(isOrder).map(({code}) => code))].map((code) => {
    const all = of(code).filter(isOrder), told = paidAfter(of(code)), isRecycler = code === RECYCLER;
    const amounts = isRecycler ? [all.map((it) => orderedOf(acts, it)).reduce(moreOf)] : [];
    const entry = {...rowsEntry("order", isRecycler ? 2 : 0, all, code), amounts};
    if (!told.length) return entry;
    const paid = told.map((it) => paidOf(acts, it)).reduce(moreOf), last = told.at(-1);
    return {...entry, paid, cameRows: [last.row, last.end]};
  });
}

// The first act that begins after a row; the number of all acts if there is none.
function actAfterRow(acts, row) {
  let low = 0, high = acts.count;
  while (low < high) {
    const mid = (low + high) >> 1;
    if (acts.first(mid) > row)
      high = mid;
    else
      low = mid + 1;
  }
  return low;
}

// The acts before which others are missing, each with the row of the fault there, or 0.
function gapsOf(acts, hole, cuts) {
  const gaps = new Map(hole > 0 ? [[hole, 0]] : []);
  for (const row of cuts) {
    const at = actAfterRow(acts, row);
    if (!gaps.has(at)) gaps.set(at, row);
  }
  return gaps;
}

// The list. Before the act `hole` acts aren't listed, if it isn't negative. The list begins anew after each of the rows
// `cuts`, which are faults in their order.
/**
 * @type {(acts: Acts, more?: {hole?: number, cuts?: number[], choices?: {row: number, time?: number}[],
 *     orders?: Order[], lost?: {row: number, device: number}[]}) => OpenEntry[]}
 */
export function openMoney(acts, {hole = -1, cuts = [], choices = [], orders = [], lost = []} = {}) {
  const gaps = gapsOf(acts, hole, cuts), walk = new OpenWalk(acts, gaps), {entries} = walk;
  const place = ({kind}) => OPEN_KINDS.indexOf(kind);
  const ends = [...gaps.keys(), acts.count].sort((a, b) => a - b);
  let i = 0;
  for (const end of ends) {
    const row = gaps.get(end);
    for (; i < end; i++)
      if (!walk.isPassed(i))
        walk.act(i);
      else
        i++;
    if (end > 0) walk.end(row ? "fault" : end < acts.count ? "gap" : "end", row ? [row, row] : null);
    for (const it of lost)
      if (actAfterRow(acts, it.row) === end) walk.lost.add(it.device);
  }
  entries.push(...walk.troubles.values());
  if (choices.length) entries.push(rowsEntry("choice", 1, choices));
  entries.push(...orderEntries(acts, orders).filter(({amounts}) => !isNothing(amounts)));
  return entries.map(openEntry).sort(
      (a, b) => a.rows[0][0] - b.rows[0][0] || place(a) - place(b) || (a.code ?? -1) - (b.code ?? -1));
}
