// @ts-check
// The import of a table of edges (docs/bench/edges.md).
import {instantOf, isLess, isSame, rounded, Waves} from "./levels.js";
import {areDigits, LONG_TIME, numberOf} from "./numbers.js";
import {isLetter, lineOfRecord, withNames} from "./rows.js";
import {
  CONTROLLER,
  excerpt,
  fieldOf,
  isComment,
  isText,
  LETTERS,
  Part,
  PERIPHERAL,
  placeIn,
  Records,
  SEMICOLON,
  TAB
} from "./text.js";

// The only column after the first that has a name, or -1.
function columnNamed(header, name, letter) {
  let found = -1;
  for (let i = 1; i < header.count; i++) {
    const field = fieldOf(header, i);
    if (!(name ? isText(field, name) : isLetter(field, letter))) continue;
    if (found >= 0) return -1;
    found = i;
  }
  return found;
}

// Whether fields of a record are parted by another byte than a comma, or hold a byte.
const holds = (record, byte) => placeIn(lineOfRecord(record), byte) >= 0;

// Whether a column is called by a name but for the case of its letters, and none by the name itself.
function isNearlyNamed(header, name) {
  if (!name) return false;
  const words = asciiSmall(name);
  let isNear = false;
  for (let i = 1; i < header.count; i++) {
    const field = fieldOf(header, i), bytes = field.all.slice(field.from, field.to);
    if (isText(field, name)) return false;
    isNear ||= asciiSmall(bytes) === words;
  }
  return isNear;
}

const asciiSmall = (bytes) => Array.from(bytes, (it) => it >= 65 && it < 91 ? it + 32 : it).join();

const NO_HEADER = "wanted a header that names the columns";
const COLUMNS = "wanted one column of each line: as --controller and --peripheral say, or M and S";
const FIELDS = "wanted as many fields as the header has";

// The import of a table: all of it is read before a row is written.
export class EdgesImport {
  constructor(options, give) {
    this.options = withNames(options);
    this.unit = options.unit ?? "s";
    this.part = new Part(options, give);
    this.records = new Records((record) => this.take(record));
    this.columns = null;
    this.last = null;
    this.waves = new Waves(this.part, options);
    this.refused = null;
  }

  take(record) {
    if (!this.columns) return this.takeHeader(record);
    if (record.count !== this.width) return this.refuse(record, FIELDS);
    const number = numberOf(fieldOf(record, 0));
    if (!number) return this.refuse(record, "wanted a time: up to 21 digits, perhaps with decimals");
    const time = instantOf(number, this.unit);
    if (!time) return this.refuse(record, LONG_TIME);
    const levels = this.columns.map((place, line) => this.levelOf(fieldOf(record, place), this.waves.inverted[line]));
    const bad = levels.indexOf(null);
    if (bad >= 0) return this.refuse(record, "wanted a level, 0 or 1", rounded(time), bad);
    if (this.last && !isLess(this.last, time)) return this.refuseLate(record, time);
    this.last = time;
    this.waves.take(record.number, time, levels);
    return true;
  }

  takeHeader(header) {
    const {controller, peripheral} = this.options, hasTime = numberOf(fieldOf(header, 0)) !== null;
    const columns =
        [columnNamed(header, controller, LETTERS[CONTROLLER]), columnNamed(header, peripheral, LETTERS[PERIPHERAL])];
    const isHeader = !hasTime && !columns.includes(-1) && columns[0] !== columns[1];
    if (isComment(header, isHeader)) return true;
    if (!isHeader) return this.refuse(header, hasTime ? NO_HEADER : COLUMNS);
    this.columns = columns;
    this.width = header.count;
    return true;
  }

  levelOf(field, isInverted) {
    if (field.to - field.from !== 1) return null;
    const byte = field.all[field.from];
    return byte === 49 ? !isInverted : byte === 48 ? isInverted : null;
  }

  // The likely cause of a record that is refused by itself.
  hint(record, wrong) {
    if (holds(record, SEMICOLON)) return "; are its fields parted by semicolons, and not by commas?";
    if (holds(record, TAB)) return "; are its fields parted by tabs, and not by commas?";
    const {controller, peripheral} = this.options;
    if (wrong === COLUMNS && (isNearlyNamed(record, controller) || isNearlyNamed(record, peripheral)))
      return "; does a name differ by great and small letters alone?";
    if (wrong === FIELDS && record.count > 3 && areDigits(fieldOf(record, 0)) && areDigits(fieldOf(record, 1)))
      return "; is there a decimal comma that doesn't stand in quotes?";
    return "";
  }

  refuse(record, wrong, micros = -1, line = -1) {
    const at = micros < 0 ? "" : ` at ${micros}${line < 0 ? "" : ` on line ${"MS"[line]}`}`;
    const hint = micros < 0 ? this.hint(record, wrong) : "";
    this.refused = this.wrongSoFar() ?? `record ${record.number}${at}: ${wrong}; found "${excerpt(record)}"${hint}`;
    return false;
  }

  refuseLate(record, time) {
    const how = isSame(this.last, time) ? "the same" : "earlier";
    return this.refuse(record, `wanted a time after that of the record before it, and it is ${how}`, rounded(time));
  }

  // What is wrong with the levels so far, or null.
  wrongSoFar() {
    return wrongWords(this.waves.wrong());
  }

  addFirst(most, add) {
    this.waves.addFirst(most, add);
  }

  end() {
    if (this.refused) return;
    const next = this.records.number + 1;
    this.refused = this.columns ? wrongWords(this.waves.end(next)) : `record ${next}: ${NO_HEADER}`;
  }
}

const wrongWords = (wrong) =>
    wrong && `record ${wrong.number} at ${wrong.time} on line ${"MS"[wrong.line]}: ${wrong.words}`;
