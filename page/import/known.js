// @ts-check
// What a file is, by its first bytes, and what the fields of an import can be told from them.
import {LINE_LETTERS, lineOfRecord, partsOf, separatorOf} from "./rows.js";
import {TITLES} from "./saleae.js";
import {TRACE_HEAD} from "./sigrok.js";
import {COMMA, CR, Decoder, fieldOf, isComment, LF, QUOTE, Records, SEMICOLON, TAB, wordsOf} from "./text.js";
import {NUMBER, timeFormOf} from "./times.js";
import {DumpHeader, LATIN_BYTES, letters, Tokens} from "./vcd.js";

const RAW_AS_CSV = "open the capture in Logic, and export the raw data as CSV";
const CAPTURE = `a capture of Saleae Logic: ${RAW_AS_CSV}`;
// Files that begin with these bytes, as Latin letters.
const BEGINS = [
  ["\x89PNG\r\n", "a picture (PNG)"],
  ["\xFF\xD8\xFF", "a picture (JPEG)"],
  ["GIF8", "a picture (GIF)"],
  ["%PDF-", "a PDF document"],
  ["\x1F\x8B", "a packed file (gzip) that is damaged, or packed twice"],
  ["7z\xBC\xAF\x27\x1C", "an archive (7z): take the file out of it, and choose that"],
  ["Rar!\x1A", "an archive (rar): take the file out of it, and choose that"],
  ["\xD0\xCF\x11\xE0", "a workbook of an old spreadsheet program: save its sheet as CSV, and choose that"],
  ["<SALEAE>", `a binary export of Saleae Logic: ${RAW_AS_CSV}`],
  ["MZ", "a program of Windows"],
  ["\x7FELF", "a program of Linux"],
  ["RIFF", "a sound or a picture (RIFF)"],
];
const DUMP_COMMAND = "sigrok-cli -i bus.sr -O vcd > bus.vcd";

// A file that is no text; and where its name may be one of Logic's.
const NO_TEXT = "no text, and no export that the page knows", OF_LOGIC = /\.(bin|sal|logicdata)$/i;
const PERHAPS_LOGIC = `. If it is of Saleae Logic, ${RAW_AS_CSV}`;

// Archives of the kind zip, by a name or a text in their front.
/** @type {[RegExp, string, string?][]} */
const ZIPS = [
  [
    /PK\x03\x04.{26}(version|metadata|logic-1)/s, "a session of sigrok (PulseView), in which nothing is decoded",
    DUMP_COMMAND
  ],
  [/(digital|analog)-\d+\.bin|meta\.json/, CAPTURE],
  [
    /\[Content_Types\]\.xml|xl\/|opendocument\.spreadsheet/,
    "a workbook of a spreadsheet: save its sheet as CSV, and choose that"
  ],
];
const ZIP = "a zip: take the file out of it, and choose that";

/** @type {(bytes: Uint8Array) => string} */
export const lettersOf = (bytes) => new TextDecoder("latin1").decode(bytes);
/** @type {(words: string, command?: string) => {kind: string, words: string, command?: string}} */
export const other = (words, command) => ({kind: "other", words, command});

// Whether a text's last line is the one that mdbimport writes where it refuses an export. (UTF-16 has zeros between.)
const isRefused = (end) => /(^|\n)mdbimport refused this export[\r\n]*$/.test(lettersOf(end).replaceAll("\0", ""));

// A file that is no text, by its first bytes, its last ones and its name, or null.
function otherKind(bytes, end, name) {
  const front = String.fromCharCode(...bytes.subarray(0, 4096));
  if (front.startsWith("PK\x03\x04")) {
    const found = ZIPS.find(([names]) => names.test(front) || names.test(lettersOf(end)));
    return found ? other(found[1], found[2]) : other(/\.sal$/i.test(name) ? CAPTURE : ZIP);
  }
  const found = BEGINS.find(([begin]) => front.startsWith(begin));
  return found ? other(found[1]) : null;
}

// Whether bytes aren't those of a text: zeros, or more than a few control characters.
function isBinary(bytes) {
  const front = bytes.subarray(0, 4096);
  const odd = front.filter((it) => it < 32 && it !== TAB && it !== LF && it !== CR || it === 127).length;
  return front.includes(0) || odd * 50 > front.length;
}

// Whether each second byte of a text is zero, as in UTF-16 without its mark.
function isWide(bytes) {
  const front = bytes.subarray(0, 200), zeros = [0, 0];
  front.forEach((it, i) => zeros[i % 2] += it === 0 ? 1 : 0);
  return front.length > 8 && Math.max(...zeros) * 2 > front.length * 0.9 && Math.min(...zeros) < 3;
}

// The records of a text's front, each as its bare fields in words; the last may be cut where the text goes on. Comments
// above them are left out, but for the last one if it can be a header.
function frontRecords(bytes, isWhole, most) {
  const found = [];
  let comment = null;
  const made = new Records((record) => {
    const words = recordWords(record);
    if (!found.length && isComment(record)) {
      comment = words;
      return true;
    }
    if (!found.length && comment && comment.fields.length > 2 && comment.fields.length === words.fields.length)
      found.push(comment);
    found.push(words);
    return found.length < most;
  });
  const decoder = new Decoder((part) => made.take(part));
  decoder.take(bytes);
  if (isWhole) {
    decoder.end();
    made.end();
  }
  const {encoding, hasMark} = decoder;
  return {records: found, encoding, hasMark, hasComments: comment !== null};
}

function recordWords(record) {
  const parts = partsOf(lineOfRecord(record)), fields = [];
  for (let i = 0; i < record.count; i++) fields.push(wordsOf(fieldOf(record, i)));
  const from = (i) => i ? record.ends[i - 1] + 1 : 0, all = record.line.all;
  const raw = fields.map((_, i) => lettersOf(all.slice(from(i), record.ends[i])));
  const line = lineOfRecord(record);
  return {fields, raw, text: wordsOf(line), parts: parts.map(wordsOf), separator: separatorOf(line)};
}

const isNumber = (words) => timeFormOf(words) === NUMBER;
const WORD_WORDS = /^(?!\*.*\*$)\*?(0[xX][0-9A-Fa-f]{1,4}|[0-9A-Fa-f]{1,4}[hH]?)\*?$/;

// Whether a record is a row as mdbcheck reads it.
function isPlain({raw}) {
  if (raw.length !== 3 || !/^[0-9]{1,18}$/.test(raw[0])) return false;
  return raw[1] === "B" ? /^[0-9]{1,9}$/.test(raw[2]) : /^[MS]$/.test(raw[1]) && /^[01][0-9A-Fa-f]{2}$/.test(raw[2]);
}

// Whether a record is a row in another form.
function isNearly({parts}) {
  if (parts.length !== 3 || !timeFormOf(parts[0]) || !parts[1]) return false;
  return WORD_WORDS.test(parts[2]) || /^[bB]$/.test(parts[1]) && isNumber(parts[2]);
}

// Whether a record can be the titles of columns.
const isTitles = ({parts}) =>
    !parts.some((it) => timeFormOf(it) || LINE_LETTERS.includes(it)) && !WORD_WORDS.test(parts.at(-1));

const mostly = (records, is) => records.length > 0 && records.filter(is).length * 2 >= records.length;

// Whether titles name columns of Saleae's table.
function isSaleae({fields}) {
  const has = (column) => TITLES[column].some((title) => fields.includes(title));
  return has("time") && has("data");
}

// Whether records are a table of edges: a header, and then times with levels.
function isEdges([header, ...rest]) {
  if (!header || header.fields.length < 3 || timeFormOf(header.fields[0])) return false;
  return mostly(rest, ({fields}) => {
    const levels = fields.slice(1).filter((it) => it === "0" || it === "1");
    return fields.length === header.fields.length && isNumber(fields[0]) && levels.length > 1;
  });
}

const SIGROK_TEXT = /^(\d+-\d+ )?uart-\d+: /;

// What may stand in a line of a sniffer's log before, between and after its time, who spoke, and its words.
const LOG_MARK = String.raw`(?:[ \t[\]()<>=:;,|"]|-(?![0-9A-Fa-f]))`;
const LOG_TIME =
    String.raw`(\d{1,2}:\d{1,2}:\d{1,2}(?:[.,]\d{1,15})?(?:[Zz]|[+-]\d\d(?::?\d\d)?)?|\d{1,21}(?:[.,]\d{1,15})?)`;
const LOG_NAME = String.raw`((?:-?[<>]|[^\s\d.;,|:"()[\]=<>-])[^\t;,|]*?)`;
// (the words of a line are decimal only if they can't be bytes)
const LOG_LINES = [String.raw`(?:0[xX])?[0-9A-Fa-f]{2,}`, String.raw`\d{1,3}`].flatMap((digits) => {
  const word = String.raw`\*?${digits}\*?`, words = `(${LOG_MARK}+)(${word}(?:${LOG_MARK}+${word})*)${LOG_MARK}*$`;
  return [`${LOG_TIME}${LOG_MARK}+?${LOG_NAME}`, `${LOG_NAME}${LOG_MARK}+?${LOG_TIME}`].map(
      (head) => new RegExp(`^${LOG_MARK}*?${head}${words}`));
});
const LOG_ARROW = /[-=]*[<>]+[-=]*/, LOG_ENDS = new RegExp(`^${LOG_MARK}+|${LOG_MARK}+$`, "g");
const LOG_DATE = /(^|[^\w])\d{1,4}[-./]\d{1,2}[-./]\d{1,4}[ Tt\t,;]+(?=\d{1,2}:)/;
const MOST_LETTERS = 600;

// What a line of a log has, by its form: that of its time, who spoke, the same up to an arrow after it, and the digits
// of its words, none where they are decimal; or null.
function loggedIn(whole) {
  if (whole.length > MOST_LETTERS) return null;
  const line = whole.replace(LOG_DATE, "$1");
  for (const [i, form] of LOG_LINES.entries()) {
    const found = form.exec(line), isFirst = i % 2 === 0, runs = found?.[4].match(/[0-9A-Fa-f]{2,}/g) ?? [];
    if (!found || i < 2 && runs.some(({length}) => length % 2 && length % 3)) continue;
    const [, one, other, marks] = found, [time, speaker] = isFirst ? [one, other] : [other, one];
    const bare = speaker.replace(LOG_ENDS, "").split(/[<>]/)[0].replace(LOG_ENDS, ""),
          spoken = speaker + (isFirst ? marks : "");
    const from = spoken.slice(spoken.indexOf(bare)), arrow = LOG_ARROW.exec(from), name = bare || arrow?.[0];
    if (!name) continue;
    const directed = bare && arrow ? from.slice(0, arrow.index + arrow[0].length) : name;
    return {form: line === whole ? timeFormOf(time) : "a date", name, directed, runs: i < 2 ? runs : []};
  }
  return null;
}

// Whether a line of a log can be a row too: a time, a name and one word, with separators between them; or a break.
function isRowLike(line) {
  const separator = ["\t", ";", ","].find((it) => line.includes(it)) ?? "\n";
  const [time, ...rest] = line.split(separator).map((it) => it.replace(/^[ "]+|[ "]+$/g, ""));
  const parts = [timeFormOf(time) ? time : time.replace(LOG_DATE, "$1"), ...rest];
  return isNearly({parts}) &&
      (/^[bB]$/.test(parts[1]) || /^\*?((0[xX])?0?[01]?[0-9A-Fa-f]{1,2}|\d{3})\*?$/.test(parts[2]));
}

// The lines of a log's front but for blank ones and comments, and whether comments stand below the first of them. The
// last line may be cut where the text goes on.
function logLines(bytes, isWhole, encoding) {
  const all = new TextDecoder(encoding ?? "utf-8").decode(bytes).split(/\r\n|\r|\n/);
  const lines = (isWhole ? all : all.slice(0, -1)).filter((it) => /[^ \t]/.test(it));
  const isComment = (it) => /^[ \t]*#/.test(it),
        first = lines.findIndex((it) => !isComment(it) && !/^[ \t]*;[^;]*$/.test(it));
  const body = first < 0 ? [] : lines.slice(first);
  return {lines: body.filter((it) => !isComment(it)), hasComments: body.some(isComment)};
}

// Whether a text is a sniffer's log: most of its first lines are messages, and some of its lines can't be rows.
function isLog(bytes, isWhole, encoding) {
  const front = bytes.slice(0, 1 << 16), isAll = isWhole && front.length === bytes.length;
  const {lines, hasComments} = logLines(front, isAll, encoding), isHeaded = lines.length > 0 && !/\d/.test(lines[0]);
  const body = lines.slice(isHeaded ? 1 : 0, 40), isOther = (it) => loggedIn(it) && !isRowLike(it);
  return mostly(body, loggedIn) && (hasComments || body.filter(isOther).length * 8 >= body.length);
}

// A text that is no table, by its first record and its letters; or null.
function knownText(first, text) {
  if (text.startsWith(TRACE_HEAD)) return {kind: "sigrok"};
  if (/^\s*\$[a-z]\S*\s[^]*\$end\b/.test(text)) return {kind: "vcd"};
  if (SIGROK_TEXT.test(text)) return other("the text of sigrok-cli, which has no times", DUMP_COMMAND);
  if (/^\s*(\{|\[\s*[[{"])/.test(text)) return other("JSON, and no trace of sigrok-cli", DUMP_COMMAND);
  if (/^\s*<(!doctype|html|\?xml)/i.test(text)) return other("a page of the Web or XML");
  return null;
}

const isUtf16 = (encoding) => encoding === "utf-16le" || encoding === "utf-16be";

// What a file is that has so many bytes, these first ones and these last ones, and this name.
/** @type {(bytes: Uint8Array, size: number, end: Uint8Array, name?: string) => any} */
export function known(bytes, size, end, name = "") {
  const isWhole = bytes.length >= size;
  if (!size) return {kind: "ours"};
  if (isRefused(end)) return {...other("what mdbimport wrote of an export that it refused"), isRefused: true};
  const odd = otherKind(bytes, end, name);
  if (odd) return odd;
  const {records, encoding, hasMark, hasComments} = frontRecords(bytes, isWhole, 30), rest = {encoding, hasMark};
  if (!records.length && isWhole && !hasComments && !isBinary(bytes)) return {kind: "ours", ...rest};
  const isMessages = isLog(bytes, isWhole, encoding);
  const isPlainText = !isUtf16(encoding) && !isMessages && !hasComments && mostly(records, isPlain);
  if (isPlainText && !isTitles(records[0])) return {kind: needsRewriting(bytes) ? "quoted" : "ours", ...rest};
  if (isWide(bytes) && !isUtf16(encoding))
    return other("saved as UTF-16 without its byte order mark: save it as UTF-8");
  if (!isUtf16(encoding) && isBinary(bytes)) return other(NO_TEXT + (OF_LOGIC.test(name) ? PERHAPS_LOGIC : ""));
  return {...knownTable(records, bytes, encoding, isMessages), ...rest};
}

function knownTable(records, bytes, encoding, isMessages) {
  const text = decodedFront(bytes, encoding);
  const found = knownText(records[0], text);
  if (found) return found;
  const [first, ...rest] = records;
  if (!first) return {kind: "unknown"};
  const isAsWide = ({fields}) => fields.length === first.fields.length;
  if (isSaleae(first) && mostly(rest, isAsWide)) return {kind: "saleae"};
  if (isEdges(records)) return {kind: "edges"};
  if (isMessages) return {kind: "messages"};
  if (mostly(isTitles(first) ? rest : records, isNearly)) return {kind: "rows"};
  return {kind: isSaleae(first) ? "saleae" : "unknown"};
}

// The letters of a text's front. Of many blanks before them one is left.
function decodedFront(bytes, encoding) {
  return new TextDecoder(encoding ?? "utf-8").decode(bytes).replace(/^\s+/, " ").slice(0, 4096);
}

// Whether a recording can't be read in place: it has quotes, or a CR alone ends its lines.
function needsRewriting(bytes) {
  if (bytes.includes(QUOTE)) return true;
  const at = bytes.indexOf(CR);
  return at >= 0 && at + 1 < bytes.length && bytes[at + 1] !== LF;
}

const LOOKED = 20000;

// What an import's fields can be filled with, of a piece of a text: names, titles, and what is asked.
/** @type {(bytes: Uint8Array, isWhole: boolean, kind: string) => any} */
export function look(bytes, isWhole, kind) {
  if (kind === "vcd") return lookAtVcd(bytes);
  if (kind === "messages") return lookAtMessages(bytes, isWhole);
  const {records} = frontRecords(bytes, isWhole, LOOKED), lines = records.slice(0, 3).map(({text}) => text);
  const made = {rows: lookAtRows, saleae: lookAtSaleae, edges: lookAtEdges}[kind];
  return {lines, ...made?.(records)};
}

const SEPARATORS = {
  [TAB]: "tabs",
  [SEMICOLON]: "semicolons",
  [COMMA]: "commas"
};
const unique = (all) => [...new Set(all)];
// The names of lines, apart from the letters that need none.
const namesIn = (all) => unique(all).filter((it) => it && !LINE_LETTERS.includes(it)).slice(0, 32);
const hasLetter = (all, letter) => all.some((it) => it.toUpperCase() === letter);

function lookAtRows(records) {
  const isHeaded = records.length > 0 && isTitles(records[0]), body = isHeaded ? records.slice(1) : records;
  const rows = body.filter(isNearly), lines = rows.map(({parts}) => parts[1]);
  return {
    titles: isHeaded ? records[0].parts : null,
    separators: unique(body.map(({separator}) => SEPARATORS[separator])),
    names: namesIn(lines),
    hasM: hasLetter(lines, "M"),
    hasS: hasLetter(lines, "S"),
    timeForm: timeFormOf(rows[0]?.parts[0] ?? ""),
  };
}

function lookAtSaleae([header, ...rest]) {
  if (!header) return {};
  const titleOf = (column) => header.fields.find((it) => TITLES[column].includes(it)) ?? null;
  const columns = Object.fromEntries(Object.keys(TITLES).map((it) => [it, titleOf(it)]));
  const at = header.fields.indexOf(columns.name), lines = at < 0 ? [] : rest.map(({fields}) => fields[at] ?? "");
  const data = header.fields.indexOf(columns.data), isZero = ({fields}) => /^0[xX]0+$/.test(fields[data]);
  const hasBreak = rest.some((it) => it.fields.includes("framing") && isZero(it));
  return {columns, names: namesIn(lines), hasM: hasLetter(lines, "M"), hasS: hasLetter(lines, "S"), hasBreak};
}

function lookAtEdges([header, ...rest]) {
  if (!header) return {};
  const isLevels = (at) => rest.every(({fields}) => fields[at] === "0" || fields[at] === "1");
  const titles = header.fields.slice(1), names = titles.filter((_, i) => isLevels(i + 1));
  return {
    timeTitle: header.fields[0],
    names: namesIn(names.length > 1 ? names : titles),
    hasM: hasLetter(titles, "M"),
    hasS: hasLetter(titles, "S")
  };
}

function lookAtMessages(bytes, isWhole) {
  const {encoding} = frontRecords(bytes, isWhole, 1), {lines} = logLines(bytes, isWhole, encoding);
  const found = lines.slice(0, LOOKED).map(loggedIn).filter(Boolean);
  const speakers = found.map(({name}) => name), names = namesIn(speakers);
  const isOne = names.length === 1 && !hasLetter(speakers, "M") && !hasLetter(speakers, "S");
  const clear = found.flatMap(({runs}) => runs).find(({length}) => length % 6);
  return {
    lines: lines.slice(0, 3),
    titles: lines.length && !/\d/.test(lines[0]) ? lines[0] : null,
    // One name in both directions is told from itself by its arrows.
    names: isOne ? namesIn(found.map(({directed}) => directed)) : names,
    hasM: hasLetter(speakers, "M"),
    hasS: hasLetter(speakers, "S"),
    timeForm: found[0]?.form ?? null,
    digits: !clear       ? 0 :
        clear.length % 2 ? 3 :
                           2
  };
}

// The variables of one bit by names that call no other variable, and by paths where their names do.
function lookAtVcd(bytes) {
  const all = [], header = new DumpHeader((variable) => void all.push(variable));
  const tokens = new Tokens((token) => header.take(letters(token)) === null && !header.isWhole);
  new Decoder((part) => tokens.take(part)).take(bytes);
  const calls = (name) => all.filter((it) => it.name === name || it.path === name);
  const isOne = (found) => found.length > 0 && found.every(({size, code}) => size === "1" && code === found[0].code);
  const isThere = (letter) => isOne(all.filter(({name}) => name === letter || name === letter.toLowerCase()));
  const names = all.flatMap(({name, path}) => [name, path].find((it) => isOne(calls(it))) ?? []);
  const words = (text) => new TextDecoder().decode(Uint8Array.from([...text], (it) => LATIN_BYTES.get(it)));
  return {
    lines: all.slice(0, 8).map(({size, path}) => words(`${path} (${size} bit)`)),
    names: namesIn(names).map(words),
    hasM: isThere("M"),
    hasS: isThere("S")
  };
}
