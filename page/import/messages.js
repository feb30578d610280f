// @ts-check
// The import of a sniffer's log, one message a line (docs/bench/messages.md).
import {digitsOf, hasPrefix, hexDigit, hexOf, isDigit, latin, LONG_TIME, MOST_TIME} from "./numbers.js";
import {IS_DECIMAL, isTitle, withNames} from "./rows.js";
import {
  BLANK,
  COLON,
  COMMA,
  CONTROLLER,
  excerpt,
  HASH,
  LogLines,
  MINUS,
  Part,
  PERIPHERAL,
  POINT,
  SEMICOLON,
  STAR,
  TAB,
  utf8
} from "./text.js";
import {DATE, NO_TIME, OFFSET, Times} from "./times.js";

const NO_SPEAKER = "wanted M or S before the bytes, or a name given by --controller or --peripheral";
const NO_WORDS = "wanted bytes of two hexadecimal digits, or words of three, at most 1FF";
const NO_DECIMALS = "wanted words in decimal digits, at most 511";
const OTHER_MARKS = "wanted * in the messages of a line from the first on, or in none";
const OTHER_DIGITS = "wanted two digits in each word, or three in each, as before";
const UNCLEAR_DIGITS = "wanted blanks between the words: so many digits are bytes or words of three";
const LONG_BLOCK = "wanted at most 36 words, which is the longest block";
const EARLY_MESSAGE = "wanted a message that begins after the one before it, or at most 50 ms too early";
// How long a word lasts, and by how much a message may be moved, in microseconds.
const WORD_LENGTH = 1146, MOST_MOVED = 50000, MOST_WORDS = 36;
// A single one of these is the controller's ACK, RET or NAK.
const ACKNOWLEDGES = [0x00, 0xAA, 0xFF];
const GREATER = 62;
const MARK_BYTES = utf8(" \t[]()<>=:;,|\"");
const IS_MARK = Array.from({length: 256}, (_, byte) => MARK_BYTES.includes(byte));

const isHex = (all, at, to) => at < to && hexDigit(all[at]) >= 0;

// Whether a mark stands at a place: what is passed over between a time, a name and words.
const isMarkAt = (all, at, to) => IS_MARK[all[at]] || all[at] === MINUS && !isHex(all, at + 1, to);

// Whether what stands before a place ends there.
const endsAt = (all, at, to) => at === to || isMarkAt(all, at, to);

// Whether these bytes stand at a place, and end there.
function standsAt({all, at, to}, bytes) {
  if (at + bytes.length > to) return false;
  for (let i = 0; i < bytes.length; i++)
    if (all[at + i] !== bytes[i]) return false;
  return endsAt(all, at + bytes.length, to);
}

// The names of both lines by their first byte, the longest first.
function namesOfLog({controller, peripheral}) {
  const names = ["M", "m"].map((it) => ({bytes: utf8(it), line: CONTROLLER}));
  names.push(...["S", "s"].map((it) => ({bytes: utf8(it), line: PERIPHERAL})));
  if (controller) names.push({bytes: controller, line: CONTROLLER});
  if (peripheral) names.push({bytes: peripheral, line: PERIPHERAL});
  names.sort((a, b) => b.bytes.length - a.bytes.length);
  return Array.from({length: 256}, (_, byte) => names.filter(({bytes}) => bytes[0] === byte));
}

// What stands before the words of a line, read from the left: the time, who spoke, and perhaps to whom.
class LogHead {
  constructor({all, length}, names) {
    this.all = all;
    this.at = 0;
    this.to = length;
    this.names = names;
    this.time = null; // as a field
    this.speaker = -1;
    this.mayName = true;      // a name may stand there: of the speaker, or after a > of the other line
    this.isAddressed = false; // that other name was there
    this.hasComma = false;    // a comma was passed over after the speaker
  }

  // Reads up to the words. Answers whether a time is there.
  read() {
    while (this.at < this.to) {
      if (this.passName() || this.passMark()) continue;
      if (this.time) break;
      if (!this.passTime()) return false;
    }
    return this.time !== null;
  }

  passName() {
    const {all, at} = this;
    if (!this.mayName || !this.time && isDigit(all[at])) return false;
    const name = this.names[all[at]].find(({bytes, line}) => line !== this.speaker && standsAt(this, bytes));
    if (!name) return false;
    this.isAddressed = this.speaker >= 0;
    if (!this.isAddressed) this.speaker = name.line;
    this.mayName = false;
    this.at += name.bytes.length;
    return true;
  }

  passMark() {
    const {all, at, to} = this, isSpoken = this.speaker >= 0;
    if (!isMarkAt(all, at, to)) return false;
    if (isSpoken && all[at] === GREATER && !this.isAddressed) this.mayName = true;
    if (isSpoken && all[at] === COMMA) this.hasComma = true;
    this.at++;
    return true;
  }

  // The time: a run of digits, perhaps after a date and before an offset.
  passTime() {
    const {all, at: from, to} = this, date = dateAt(this), begin = from + date;
    let end = this.runEnd(begin);
    if (date) end += OFFSET.exec(latin({all, from: end, to: Math.min(to, end + 6)}))?.[0].length ?? 0;
    if (end === from || !endsAt(all, end, to)) return false;
    this.time = {all, from, to: end};
    this.at = end;
    return true;
  }

  // Where the longest run of digits, points, colons and commas ends that ends with a digit. A comma ends it if one
  // stands between the speaker and it.
  runEnd(from) {
    const {all, to, hasComma} = this, others = hasComma ? [POINT, COLON] : [POINT, COLON, COMMA];
    let end = from;
    while (end < to && (isDigit(all[end]) || others.includes(all[end]))) end++;
    while (end > from && !isDigit(all[end - 1])) end--;
    return end;
  }
}

// How many signs a date and its separator have at a place.
function dateAt({all, at, to}) {
  if (all[at + 4] !== MINUS && all[at + 1] !== POINT && all[at + 2] !== POINT) return 0;
  return DATE.exec(latin({all, from: at, to}))?.[0].length ?? 0;
}

// The runs of digits from a place on to the end of a line, each with whether a `*` stands at one of its ends; none if
// something else stands there, or a run that is neither bytes nor words.
function digitRuns({all, at: from, to}, isDecimal) {
  const runs = [];
  for (let at = from; at < to;) {
    if (isMarkAt(all, at, to)) {
      at++;
      continue;
    }
    const run = runAt(all, at, to, isDecimal), length = run.to - run.from;
    if (!length || run.end < 0 || !isDecimal && (run.isMarked ? length !== 2 : length % 2 && length % 3)) return [];
    runs.push(run);
    at = run.end;
  }
  return runs;
}

// The run of digits at a place; `end` is where what belongs to it ends, or -1 where something else follows.
function runAt(all, at, to, isDecimal) {
  const isBefore = all[at] === STAR, first = isBefore ? at + 1 : at;
  const hasZero = !isDecimal && isHex(all, first + 2, to) && hasPrefix({all, from: first, to});
  const from = hasZero ? first + 2 : first, digits = hexEnd(all, from, to);
  const isAfter = digits < to && all[digits] === STAR, end = isAfter ? digits + 1 : digits;
  const isWhole = endsAt(all, end, to) && !(isBefore && isAfter);
  return {from, to: digits, isMarked: isBefore || isAfter, end: isWhole ? end : -1};
}

function hexEnd(all, from, to) {
  let end = from;
  while (isHex(all, end, to)) end++;
  return end;
}

// The words of runs of decimal digits; null if one is none.
function decimalsOf(all, runs) {
  const words = runs.map(({from, to, isMarked}) => {
    const word = digitsOf(all, from, to, 3), most = isMarked ? 255 : 511;
    return word >= 0 && word <= most ? word + 511 - most : -1;
  });
  return words.includes(-1) || !words.length ? null : words;
}

// Whether the words of a line would be decimal ones, of which one is none in hexadecimal digits.
function areLikelyDecimal(head) {
  const runs = digitRuns(head, true), words = decimalsOf(head.all, runs);
  const isLarge = ({from, to}) => to - from === 3 && head.all[from] >= 50;
  return words !== null && words.length <= MOST_WORDS && runs.some(isLarge);
}

// The import of a log: each line is passed over, a message, or refused.
export class MessagesImport {
  constructor(options, give) {
    this.options = withNames(options);
    this.names = namesOfLog(this.options);
    this.part = new Part(options, give);
    this.part.moved = {count: 0, most: 0};
    this.records = new LogLines((line) => this.take(line));
    this.isBegun = false; // a line was there that isn't passed over
    this.digits = 0;      // of each word of the log: 2 or 3 as its first word has
    this.free = 0;        // when the last word has ended
    this.times = new Times(options.unit);
    this.shows = [null, null]; // whether the messages of each line show their mode bits, once one decides it
    this.refused = null;
    this.hint = "";
  }

  take(record) {
    const {line: {all, length}, number} = record, from = blanksEnd(all, length);
    if (from === length || all[from] === HASH) return true;
    if (!this.isBegun) {
      if (all[from] === SEMICOLON && all.subarray(0, length).lastIndexOf(SEMICOLON) === from) return true;
      this.isBegun = true;
      if (isTitle({all, from, to: length})) {
        this.part.header = "line";
        return true;
      }
    }
    const wrong = this.wrongWith(record.line);
    if (wrong) this.refused = `line ${number}: ${wrong}; found "${excerpt(record)}"${this.hint}`;
    return !wrong;
  }

  // Adds the rows of a line, or answers what is wrong with it.
  wrongWith(line) {
    const head = new LogHead(line, this.names), words = [], {decimal} = this.options;
    if (!head.read()) return NO_TIME;
    const time = this.times.read(head.time);
    this.part.midnights = this.times.midnights;
    if (typeof time === "string") return time;
    if (head.speaker < 0) return NO_SPEAKER;
    const runs = digitRuns(head, decimal);
    const wrong = decimal ? this.readDecimals(line.all, runs, words) : this.readWords(line.all, runs, words);
    if (wrong === NO_WORDS && areLikelyDecimal(head)) this.hint = IS_DECIMAL;
    return wrong ?? this.mark(words, runs, head.speaker) ?? this.add(time, head.speaker, words);
  }

  readDecimals(all, runs, words) {
    words.push(...decimalsOf(all, runs) ?? []);
    return !words.length ? NO_DECIMALS : words.length > MOST_WORDS ? LONG_BLOCK : null;
  }

  // Reads the words of runs of digits, or answers what is wrong with them.
  readWords(all, runs, words) {
    let isMixed = false, isUnclear = false;
    for (const {from, to, isMarked} of runs) {
      const digits = this.digitsOf(to - from);
      this.digits ||= digits;
      if (!digits)
        isUnclear = true;
      else if (digits !== this.digits)
        isMixed = true;
      for (let at = from; digits && at < to; at += digits)
        words.push(hexOf(all, at, at + digits) + (isMarked ? 256 : 0));
    }
    if (!runs.length || words.some((word) => word > 511)) return NO_WORDS;
    if (isMixed) return OTHER_DIGITS;
    if (isUnclear) return UNCLEAR_DIGITS;
    return words.length > MOST_WORDS ? LONG_BLOCK : null;
  }

  // Gives words of two digits the mode bits that the bus has, unless the messages of their line show them; or answers
  // what is wrong.
  mark(words, runs, line) {
    const isAcknowledge = line === CONTROLLER && words.length === 1 && ACKNOWLEDGES.includes(words[0]);
    if (this.digits !== 2 || this.options.decimal || isAcknowledge) return null;
    const isMarked = runs.some((run) => run.isMarked);
    this.shows[line] ??= isMarked;
    if (this.shows[line]) return null;
    words[line === PERIPHERAL ? words.length - 1 : 0] |= 256;
    return isMarked ? OTHER_MARKS : null;
  }

  // How many digits each word has in a run of so many; 0 if nothing says it.
  digitsOf(length) {
    if (length % 6 === 0) return this.digits;
    return length % 2 === 0 ? 2 : 3;
  }

  // Adds the rows of a message, which begins when the last word has ended, or later.
  add(time, line, words) {
    const span = (words.length - 1) * WORD_LENGTH, own = this.options.timeOf === "last" ? time - span : time;
    const begin = Math.max(own, this.free), {moved} = this.part;
    if (begin - own > MOST_MOVED) return EARLY_MESSAGE;
    if (begin + span >= MOST_TIME) return LONG_TIME;
    if (begin > own) moved.count++;
    moved.most = Math.max(moved.most, begin - own);
    words.forEach((word, i) => this.part.add(begin + i * WORD_LENGTH, line, word));
    this.free = begin + span + WORD_LENGTH;
    return null;
  }

  end() {
    this.part.text.flush();
  }
}

// Where the blanks and tabs end with which a line begins.
function blanksEnd(all, to) {
  let at = 0;
  while (at < to && (all[at] === BLANK || all[at] === TAB)) at++;
  return at;
}
