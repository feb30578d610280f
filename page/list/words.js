// @ts-check
// The acts of a recording in words. It reads the bytes that the module lists, as
// docs/bench/commands-and-messages.md and extended-profile.md have them. No verdict and no bound rests on it.
import {
  ACK,
  ASK,
  BREAK,
  CUT,
  DEVICE_NAMES,
  FOREIGN,
  NAK,
  readSetup,
  REPEAT,
  REPLY,
  two,
  VMC_ACK,
  VMC_NAK,
  VMC_RET,
  worth
} from "../checker/acts.js";
import {ENABLE_OPTIONS, readerMessages} from "../checker/messages.js";
import {counted, hex, money} from "../texts.js";
import {seconds} from "../times.js";

// What an act of a kind is, in a word or two.
export const KIND_WORDS =
    ["command", "ACK", "NAK", "answer", "ACK", "NAK", "RET", "answer again", "not followed", "break", "cut off"];
export const KIND_CHOICES = KIND_WORDS.map(
    (words, i) => i === 1 || i === 2 ? words + " of a device" :
        i === 4 || i === 5           ? words + " of the controller" :
                                       words);
const CHANGER_COMMANDS = {
  8: "RESET",
  9: "SETUP",
  10: "TUBE STATUS",
  11: "POLL",
  12: "COIN TYPE",
  13: "DISPENSE"
};
const BILL_COMMANDS = {
  0x30: "RESET",
  0x31: "SETUP",
  0x32: "SECURITY",
  0x33: "POLL",
  0x34: "BILL TYPE",
  0x35: "ESCROW",
  0x36: "STACKER"
};
const VENDS = ["VEND REQUEST", "VEND CANCEL", "VEND SUCCESS", "VEND FAILURE", "SESSION COMPLETE", "CASH SALE"];
const SWITCHES = ["READER DISABLE", "READER ENABLE", "READER CANCEL"];
// The options of a reader, by their bits.
const OPTIONS =
    ["file transfer", "money of 32 bits", "several currencies", "negative vend", "data entry", "always idle"];
// In which state a reader was when a command came out of sequence, by the status of 0B.
const OUT_OF = ["", "inactive", "disabled", "enabled", "session idle", "vend", "revalue", "negative vend"];
const CHANGER_STATUS = {
  1: "escrow request",
  2: "payout busy",
  3: "no credit",
  4: "defective tube sensor",
  5: "double arrival",
  6: "acceptor unplugged",
  7: "tube jam",
  8: "ROM checksum error",
  9: "coin routing error",
  10: "busy",
  12: "coin jam",
  13: "possible credited coin removal"
};
const BILL_STATUS = {
  1: "defective motor",
  2: "sensor problem",
  3: "busy",
  4: "ROM checksum error",
  5: "jammed",
  7: "bill removed",
  8: "cash box out of position",
  9: "disabled",
  10: "escrow request that isn't valid",
  11: "bill rejected",
  12: "possible credited bill removal"
};

// A status of a recycler, by the high half of its byte.
const RECYCLER = {
  0x0D: "put into the recycler by hand",
  0x0E: "taken out of the recycler by hand",
  0x0F: "from the recycler to the cash box"
};

function worthWords(setup, type) {
  const units = worth(setup, type);
  if (units === null) return `type ${type}, value not known`;
  if (setup.credits[type] === 255) return `token, type ${type}`;
  return money(units, setup.decimals);
}

/** @type {(setup: Setup | null, raw: number) => string} */
export function amountWords(setup, raw) {
  return setup ? money(raw * setup.scale, setup.decimals) : `${raw} (value not known)`;
}

const bitsOf = (mask, count) => Array.from({length: count}, (_, i) => i).filter((i) => mask >>> i & 1);
const types = (mask) => {
  const all = bitsOf(mask, 16);
  return all.length === 16 ? "all types" : all.length ? "types " + all.join(", ") : "no type";
};

// The options of four bytes, by their names.
/** @type {(bytes: ByteList, i: number) => string} */
export function optionWords(bytes, i) {
  const all = bitsOf(two(bytes, i) * 65536 + two(bytes, i + 2), 32);
  return all.map((bit) => OPTIONS[bit] ?? `bit ${bit}`).join(", ") || "none";
}

// The name of a command by its first bytes.
/** @type {(bytes: ByteList) => string} */
export function commandName(bytes) {
  const a = bytes[0], b = bytes[1];
  if (a >= 8 && a <= 0x0F)
    return a === 0x0F ? ["EXPANSION identification", "EXPANSION feature enable"][b] ?? "EXPANSION" :
                        CHANGER_COMMANDS[a];
  if (a >= 0x30 && a <= 0x37)
    return a === 0x37 ?
        ["EXPANSION identification", "EXPANSION feature enable", "EXPANSION identification with options"][b] ??
            "EXPANSION" :
        BILL_COMMANDS[a];
  switch (a & 7) {
    case 0:
      return "RESET";
    case 1:
      return b ? "SETUP prices" : "SETUP config data";
    case 2:
      return "POLL";
    case 3:
      return VENDS[b];
    case 4:
      return SWITCHES[b];
    default:
      return b === ENABLE_OPTIONS ? "EXPANSION enable options" : "EXPANSION request ID";
  }
}

function askWords(bytes, setup) {
  const name = commandName(bytes), a = bytes[0];
  if (a === 0x0C) return `${name}: accept ${types(two(bytes, 1))}; by hand ${types(two(bytes, 3))}`;
  if (a === 0x0D) return `${name}: ${bytes[1] >> 4} × ${worthWords(setup, bytes[1] & 15)}`;
  if (a === 0x32) return `${name}: high security ${types(two(bytes, 1))}`;
  if (a === 0x34) return `${name}: accept ${types(two(bytes, 1))}; hold in escrow ${types(two(bytes, 3))}`;
  if (a === 0x35) return `${name}: ${bytes[1] & 1 ? "stack the bill" : "return the bill"}`;
  if (a === 0x11 || a === 0x61)
    return bytes[1] ?
        `${name}: greatest ${amountWords(setup, two(bytes, 2))}, least ${amountWords(setup, two(bytes, 4))}` :
        `${name}: level ${bytes[2]}, display ${bytes[3]} × ${bytes[4]}`;
  if (a === 0x13 || a === 0x63) {
    if (bytes[1] === 0 || bytes[1] === 5)
      return `${name}: ${amountWords(setup, two(bytes, 2))} for item ${two(bytes, 4)}`;
    if (bytes[1] === 2) return `${name}: item ${two(bytes, 2)} was sold`;
  }
  if ((a === 0x17 || a === 0x67) && bytes[1] === ENABLE_OPTIONS) return `${name}: ${optionWords(bytes, 2)}`;
  return name;
}

// What a changer's or validator's answer to POLL says, message by message. `add` takes the message
// in words, and what money it tells of, if it does: what was done, the type, and how many.
/**
 * @type {(device: number, bytes: ByteList, add: (what: string, type?: number, count?: number, left?: number) => void)
 *     => void}
 */
export function pollMessages(device, bytes, add) {
  const n = bytes.length - 1;
  for (let i = 0; i < n; i++) {
    const b = bytes[i], type = b & 15;
    if (device === 2) {
      if (b >= 0x80 && b <= 0x8F)
        add("stacked", type, 1);
      else if (b >= 0x90 && b <= 0x9F)
        add("in escrow", type, 1);
      else if (b >= 0xA0 && b <= 0xAF)
        add("returned", type, 1);
      else if (b >= 0xB0 && b <= 0xBF)
        add("to the recycler", type, 1);
      else if (b >= 0xC0 && b <= 0xCF)
        add("rejected, its type is disabled", type, 1);
      else if (b >= 0xD0)
        add(`status ${hex(b)}, ${RECYCLER[b >> 4]}`);
      else if (b >= 0x40 && b <= 0x5F)
        add(`${counted(b & 31, "bill")} tried while none was accepted`);
      else if (b === 6)
        add("was reset");
      else
        add(`status ${hex(b)}${BILL_STATUS[b] ? ", " + BILL_STATUS[b] : ""}`);
    } else if (b >= 0x80) {
      add("dispensed by hand", type, b >> 4 & 7, bytes[++i]);
    } else if (b >= 0x50 && b <= 0x5F) {
      add("deposited to tube", type, 1, bytes[++i]);
    } else if (b >= 0x40 && b <= 0x4F) {
      add("deposited to cash box", type, 1, bytes[++i]);
    } else if (b >= 0x70 && b <= 0x7F) {
      add("rejected", type, 1, bytes[++i]);
    } else if (b >= 0x20 && b <= 0x3F) {
      add(counted(b & 31, "slug"));
    } else if (b === 0x0B) {
      add("was reset");
    } else
      add(`status ${hex(b)}${CHANGER_STATUS[b] ? ", " + CHANGER_STATUS[b] : ""}`);
  }
}

// What a begin of a session says of the card or other media, in ten bytes.
function mediaWords(m) {
  const part = (from, to) => Array.from(m.slice(from, to), hex).join("");
  return m.length > 3 ? `, media ID ${part(3, 7)}, type ${part(7, 8)}, data ${part(8, 10)}` : "";
}

const statusWords = (status) => `, status ${hex(status)}${OUT_OF[status] ? ` (${OUT_OF[status]})` : ""}`;

// What a reader's messages without data say.
/** @type {Record<number, string>} */
const READER_WORDS = {
  0: "just reset",
  4: "asks to end the session",
  6: "vend denied",
  7: "end session",
  8: "cancelled",
  13: "revalue approved",
  14: "revalue denied",
  17: "asks for time and date"
};

/** @type {(message: ByteList, setup: Setup | null) => string} */
export function readerWords(m, setup) {
  switch (m[0]) {
    case 1:
      return `config: level ${m[1]}, country or currency ${hex(m[2])}${hex(m[3])}, scale ${m[4]}, ${
          m[5]} decimals, answers within ${m[6]} s`;
    case 2:
      return `display for ${m[1] / 10} s: “${
          Array.from(m.slice(2), (b) => b >= 32 && b < 127 ? String.fromCharCode(b) : "·").join("")}”`;
    case 3:
      return `begin session, funds ${two(m, 1) === 65535 ? "not given" : amountWords(setup, two(m, 1))}${
          mediaWords(m)}`;
    case 5:
      return `vend approved, ${amountWords(setup, two(m, 1))}`;
    case 9:
      return `peripheral ID${m.length > 30 ? ", options: " + optionWords(m, 30) : ""}`;
    case 10:
      return `malfunction ${hex(m[1])}`;
    case 11:
      return `command out of sequence${m.length > 1 ? statusWords(m[1]) : ""}`;
    case 15:
      return `revalue limit ${amountWords(setup, two(m, 1))}`;
    default:
      return READER_WORDS[m[0]] ?? hex(m[0]);
  }
}

function replyWords(device, ask, bytes, reading, setup) {
  const name = ask ? commandName(ask) : "", n = bytes.length - 1;
  if (device > 2) {
    const here = readSetup(device, bytes, reading) ?? setup;
    const said = readerMessages(bytes, reading).map((m) => readerWords(m, here)).join("; ");
    return `${name}: ${name.endsWith("config data") ? said.replace(/^config: /, "") : said}`;
  }
  if (name === "SETUP") {
    const told = readSetup(device, bytes);
    if (!told) return name;
    return `${name}: level ${told.level}, country or currency ${told.code}, scale ${told.scale}, ${
        told.decimals} decimals; values ${
        told.credits.map((c, i) => c === 255 ? "token" : money(c * told.scale, told.decimals)).join(", ") || "none"}`;
  }
  if (name === "TUBE STATUS")
    return `${name}: full ${types(two(bytes, 0))}; coins ${Array.from(bytes.slice(2, n)).join(", ") || "not reported"}`;
  if (name === "STACKER") return `${name}: ${counted(two(bytes, 0) & 32767, "bill")}${bytes[0] & 128 ? ", full" : ""}`;
  if (name === "POLL") {
    const said = [];
    pollMessages(
        device, bytes,
        (what, type, count, left) => said.push(
            type === undefined ? what :
                                 `${count === 1 ? "" : count + " × "}${worthWords(setup, type)} ${what}${
                                     left === undefined ? "" : `, ${left} of this type in the tubes`}`));
    return `${name}: ${said.join("; ")}`;
  }
  if (name.startsWith("EXPANSION"))
    return `${name}: ${
        Array.from(bytes.slice(0, n), (b) => b >= 32 && b < 127 ? String.fromCharCode(b) : "·").join("")}`;
  return name;
}

// A device's ACK: of a POLL it says that there is no news.
function ackWords(ask) {
  const name = ask ? commandName(ask) : "";
  return name === "POLL" ? "POLL: no news (ACK)" : `${name ? name + ": " : ""}acknowledged (ACK)`;
}

// An act in words.
/** @type {(acts: Acts, i: number) => string} */
export function actWords(acts, i) {
  const kind = acts.kind(i), device = acts.device(i);
  if (kind === BREAK) return `break: line M low for ${seconds(acts.length(i))}`;
  if (kind === FOREIGN)
    return acts.isFromBefore(i) ? "a word of what was said before row " + acts.first(i) :
                                  "a word to or from a device that isn't followed";
  if (kind === CUT) return "a word of a block that is cut off by a break, by a gap or by the end";
  const setup = acts.setupAt(device, i), at = acts.askOf(i), ask = at >= 0 ? acts.bytes(at) : null;
  switch (kind) {
    case ASK:
      return askWords(acts.bytes(i), setup);
    case ACK:
      return ackWords(ask);
    case NAK:
      return `${ask ? commandName(ask) + ": " : ""}refused (NAK)`;
    case REPLY:
      return replyWords(device, ask, acts.bytes(i), acts.reading(i), setup);
    case REPEAT:
      return `repeats ${replyWords(device, ask, acts.bytes(i), acts.reading(i), setup)}`;
    case VMC_ACK:
      return "received (ACK)";
    case VMC_NAK:
      return "not received well (NAK)";
    default:
      return "asks for it again (RET)";
  }
}

// The same, short, for a narrow page.
/** @type {(acts: Acts, i: number) => string} */
export function shortSpeaker(acts, i) {
  const kind = acts.kind(i), device = ["", "changer", "validator", "reader 1", "reader 2"][acts.device(i)];
  if (kind === BREAK) return "VMC";
  if (!device) return "–";
  return [ASK, VMC_ACK, VMC_NAK, VMC_RET].includes(kind) ? `VMC → ${device}` : `${device} → VMC`;
}

// Who speaks, as the name of a colour: each act has it in words too.
/** @type {(acts: Acts, i: number) => string} */
export function voice(acts, i) {
  const kind = acts.kind(i);
  if ([ASK, VMC_ACK, VMC_NAK, VMC_RET, BREAK].includes(kind)) return "controller";
  return ["", "changer", "bill", "reader", "reader"][acts.device(i)];
}

/** @type {(acts: Acts, i: number) => string} */
export function speaker(acts, i) {
  const kind = acts.kind(i), device = DEVICE_NAMES[acts.device(i)];
  if (kind === ASK) return `controller to ${device}`;
  if (kind === VMC_ACK || kind === VMC_NAK || kind === VMC_RET) return `controller to ${device}`;
  if (kind === BREAK) return "controller";
  return device || "–";
}
