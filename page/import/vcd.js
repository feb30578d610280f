// @ts-check
// The import of a value change dump (docs/bench/vcd.md).
import {isLess, isSame, REST, rounded, Waves} from "./levels.js";
import {areDigits, digitsOf, LONG_TIME, MOST_TIME} from "./numbers.js";
import {withNames} from "./rows.js";
import {LATIN} from "./sigrok.js";
import {BLANK, Bytes, CR, HASH, isText, LF, Part, TAB} from "./text.js";

const NO_COMMAND = "wanted a command of the header, up to $enddefinitions $end";
const BAD_TIMESCALE = "wanted a timescale of 1, 10 or 100 s, ms, us, ns, ps or fs";
const SECOND_TIMESCALE = "wanted one timescale, and this is another one";
const BAD_SCOPE = "wanted a type and a name of the scope";
const NO_SCOPE = "wanted an open scope before $upscope";
const BAD_VARIABLE = "wanted a type, a size, a code and a name of the variable";
const WIDE_VARIABLE = "wanted a variable of one bit for the line";
const SECOND_VARIABLE = "wanted one variable of each line: several are called so; give a path";
const NO_TIMESCALE = "wanted a timescale in the header";
const NO_VARIABLE = "wanted one variable of each line: as --controller and --peripheral say, or M and S";
const SAME_CODE = "wanted another variable for each line, and it is the same";
const NO_ENTRY = "wanted a time, a change of a value, or a command of the dump";
const BAD_TIME = "wanted a time: digits after #";
const EARLY_TIME = "wanted a time that isn't before the time before it";
const NO_LEVEL = "wanted a level, 0 or 1, and the value is none";
const LOST_LEVEL = "wanted a level, 0 or 1, after the first one, and it is x or z";
const CUT_DUMP = "wanted more of the dump: it is cut";
const DOLLAR = 36;
// How many zeros a unit has in 10^-15 of a second.
const FEMTO_ZEROS = {
  s: 15,
  ms: 12,
  us: 9,
  ns: 6,
  ps: 3,
  fs: 0
};
const MARKS = ["$dumpvars", "$dumpall", "$dumpon", "$dumpoff", "$end"];

// The tokens of a text: what blanks, tabs and the ends of lines separate. `line` is the number of the line of a token
// that is given, and at the end that of the line that would come next.
export class Tokens {
  constructor(each) {
    this.each = each;
    this.held = new Bytes();
    this.line = 1;
    this.isFresh = true; // nothing stands on that line yet
    this.isDone = false;
  }

  take(bytes) {
    let from = 0, isOpen = this.held.length > 0;
    for (let i = 0; i < bytes.length && !this.isDone; i++) {
      const byte = bytes[i];
      if (byte !== BLANK && byte !== LF && byte !== CR && byte !== TAB) {
        if (!isOpen) from = i;
        isOpen = true;
        continue;
      }
      if (isOpen) this.give(bytes, from, i);
      isOpen = false;
      if (byte === LF && !this.isDone) this.line++;
    }
    if (this.isDone || !bytes.length) return;
    if (isOpen) this.held.add(bytes.subarray(from));
    this.isFresh = bytes[bytes.length - 1] === LF;
  }

  give(all, from, to) {
    const {held} = this;
    if (held.length) held.add(all.subarray(from, to));
    this.isDone = this.each(held.length ? {all: held.all, from: 0, to: held.length} : {all, from, to}) === false;
    held.length = 0;
  }

  end() {
    if (this.isDone) return;
    if (this.held.length) this.give(this.held.all, 0, 0);
    if (!this.isDone && !this.isFresh) this.line++;
  }
}

/** @type {(field: Field) => string} */
export const letters = ({all, from, to}) => LATIN.decode(all.subarray(from, to));

// The header of a dump, token by token. Each of its variables is given on, and what is wrong with it is answered.
export class DumpHeader {
  constructor(each) {
    this.each = each;
    this.scopes = [];
    this.zeros = null; // of the timescale, as FEMTO_ZEROS
    this.command = null;
    this.words = [];
    this.isWhole = false;
  }

  // Answers what is wrong with a token, or null.
  take(token) {
    if (!this.command) {
      if (token[0] !== "$" || token === "$end") return NO_COMMAND;
      this.command = token;
      this.words = [];
      return null;
    }
    if (token === "$end") return this.run();
    if (this.command in COMMANDS) this.words.push(token);
    return null;
  }

  run() {
    const {command, words} = this;
    this.command = null;
    this.isWhole = command === "$enddefinitions";
    if (this.isWhole) return this.zeros === null ? NO_TIMESCALE : null;
    return COMMANDS[command]?.(this, words) ?? null;
  }
}

const COMMANDS = {
  $timescale: (header, words) => {
    const found = /^1(0{0,2}) ?(s|[munpf]s)$/.exec(words.join(" "));
    if (header.zeros !== null) return SECOND_TIMESCALE;
    if (!found) return BAD_TIMESCALE;
    header.zeros = found[1].length + FEMTO_ZEROS[found[2]];
    return null;
  },
  $scope: ({scopes}, words) => {
    if (words.length !== 2) return BAD_SCOPE;
    scopes.push(words[1]);
    return null;
  },
  $upscope: ({scopes}) => scopes.pop() === undefined ? NO_SCOPE : null,
  $var: ({scopes, each}, [, size, code, ...rest]) => {
    if (!rest.length) return BAD_VARIABLE;
    const name = rest.join("");
    return each({size, code, name, path: [...scopes, name].join(".")}) ?? null;
  },
};

// The time that the digits of a field tell, with so many zeros after them, in 10^-15 of a second; or null, where it
// is too late.
function dumpTime({all, from, to}, zeros) {
  const end = Math.max(from, to - Math.max(0, 9 - zeros));
  let begin = from;
  while (begin < end && all[begin] === 48) begin++;
  if (end - begin > 16) return null;
  const micros = Math.max(0, digitsOf(all, begin, end)) * 10 ** Math.max(0, zeros - 9);
  const part = Math.max(0, digitsOf(all, end, to)) * 10 ** zeros, tail = part % 1e6 * 3e9;
  const time = {micros, thirds: Math.floor(part / 1e6) * 3 + Math.floor(tail / REST), rest: tail % REST};
  return rounded(time) < MOST_TIME ? time : null;
}

// What a change tells: 0, 1, that there is no level, or something else.
const OPEN = 2, OTHER = 3;
const valueOf = (byte) => byte === 48 ? 0 : byte === 49 ? 1 : isAnyOf("xXzZ", byte) ? OPEN : OTHER;
const isAnyOf = (signs, byte) => signs.includes(String.fromCharCode(byte));

// The bytes of letters that LATIN made of them.
export const LATIN_BYTES =
    new Map([...LATIN.decode(Uint8Array.from({length: 256}, (_, i) => i))].map((it, i) => [it, i]));

// A line's variable, as an option calls it or else by a letter: its code.
class Called {
  constructor(name, letters) {
    this.name = name ? LATIN.decode(name) : null;
    this.names = name ? [this.name] : letters;
    this.code = null;
  }

  // Answers what is wrong with a variable that is called so, or null.
  note({size, code, name, path}) {
    if (!this.names.includes(name) && path !== this.name) return null;
    if (size !== "1") return WIDE_VARIABLE;
    if (this.code !== null && this.code !== code) return SECOND_VARIABLE;
    this.code = code;
    return null;
  }
}

// The import of a dump: all of it is read before a row is written.
export class VcdImport {
  constructor(options, give) {
    const {controller, peripheral} = withNames(options);
    this.part = new Part(options, give);
    this.records = new Tokens((token) => this.take(token));
    const [one, other] = this.called = [new Called(controller, ["M", "m"]), new Called(peripheral, ["S", "s"])];
    this.header = new DumpHeader((variable) => one.note(variable) ?? other.note(variable));
    this.waves = new Waves(this.part, options);
    this.time = {micros: 0, thirds: 0, rest: 0};
    this.levels = [null, null];
    this.opened = null; // the value whose code comes next
    this.isComment = false;
    this.refused = null;
  }

  take(token) {
    if (this.header.isWhole) return this.takeBody(token);
    const wrong = this.header.take(letters(token)) ?? (this.header.isWhole ? this.wrongCalled() : null);
    return wrong ? this.refuse(wrong) : true;
  }

  wrongCalled() {
    const [one, other] = this.called;
    if (one.code === null || other.code === null) return NO_VARIABLE;
    if (one.code === other.code) return SAME_CODE;
    this.codes = [one, other].map(({code}) => Uint8Array.from([...code], (it) => LATIN_BYTES.get(it)));
    return null;
  }

  takeBody(token) {
    const {all, from, to} = token, first = all[from];
    if (this.isComment) {
      this.isComment = letters(token) !== "$end";
      return true;
    }
    if (this.opened !== null) {
      const value = this.opened;
      this.opened = null;
      return this.takeValue(value, token);
    }
    const rest = {all, from: from + 1, to};
    if (first === HASH) return this.takeTime(rest);
    const value = valueOf(first);
    if (value !== OTHER && to - from > 1) return this.takeValue(value, rest);
    if (first === DOLLAR) return this.takeCommand(letters(token));
    if (!isAnyOf("bBrRsS", first)) return this.refuse(NO_ENTRY);
    this.opened = isAnyOf("bB", first) && to - from === 2 ? valueOf(all[from + 1]) : OTHER;
    return true;
  }

  takeCommand(word) {
    this.isComment = word === "$comment";
    return this.isComment || MARKS.includes(word) || this.refuse(NO_ENTRY);
  }

  takeTime(digits) {
    if (!areDigits(digits)) return this.refuse(BAD_TIME);
    const time = dumpTime(digits, this.header.zeros);
    if (!time) return this.refuse(LONG_TIME);
    if (isLess(time, this.time)) return this.refuse(EARLY_TIME, rounded(time));
    if (isSame(time, this.time)) return true;
    this.waves.take(this.records.line, this.time, this.levels);
    this.time = time;
    return true;
  }

  // Takes the change of a variable.
  takeValue(value, code) {
    const line = isText(code, this.codes[0]) ? 0 : isText(code, this.codes[1]) ? 1 : -1;
    if (line < 0) return true;
    if (value === OTHER) return this.refuse(NO_LEVEL, rounded(this.time), line);
    if (value === OPEN) return this.levels[line] === null || this.refuse(LOST_LEVEL, rounded(this.time), line);
    this.levels[line] = (value === 1) !== this.waves.inverted[line];
    return true;
  }

  refuse(words, time, line) {
    const at = time === undefined ? "" : ` at ${time}`, on = line === undefined ? "" : ` on line ${"MS"[line]}`;
    this.refused = this.wrongSoFar() ?? `line ${this.records.line}${at}${on}: ${words}`;
    return false;
  }

  // What is wrong with the levels so far, or null.
  wrongSoFar() {
    return wrongWords(this.waves.wrong());
  }

  addFirst(most, add) {
    this.waves.addFirst(most, add);
  }

  end() {
    if (this.refused) return;
    if (!this.header.isWhole || this.opened !== null || this.isComment) {
      this.refuse(CUT_DUMP);
      return;
    }
    this.waves.take(this.records.line, this.time, this.levels);
    this.refused = wrongWords(this.waves.end(this.records.line));
  }
}

const wrongWords = (wrong) =>
    wrong && `line ${wrong.number} at ${wrong.time} on line ${"MS"[wrong.line]}: ${wrong.words}`;
