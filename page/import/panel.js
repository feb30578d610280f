// @ts-check
// The panel between the chooser and the verdict, for a file that isn't a recording yet: it says what the file is, asks
// for what the file doesn't tell, shows the first rows, and imports it. The import itself runs in a worker.
import {by, fieldBy, h, table} from "../elements.js";
import {savedName, saveFile} from "../files/save.js";
import {asked} from "../run/asked.js";
import {choose, endChecker, file, isWorking, newest, state} from "../run/now.js";
import {trouble} from "../run/trouble.js";
import {capital, number, REFUSED_LINE, shownName} from "../texts.js";

import {
  asksOf,
  exchangedOptions,
  exchangeFields,
  FIELDS,
  FORMAT_FIELDS,
  importCommand,
  importOptions,
  keepNames,
  microsField
} from "./fields.js";
import {Importer} from "./importer.js";
import {IMPORT_AGAIN, madeFiles, NO_PART, packedFiles, unpacked} from "./made.js";
import {NO_PART_ROW} from "./text.js";
import {NUMBER} from "./times.js";
import {tookList} from "./took.js";

const FORMATS = {
  rows: "rows in another form",
  saleae: "a table of Saleae Logic (Async Serial)",
  edges: "a table of edges",
  sigrok: "a trace of sigrok-cli",
  vcd: "a value change dump (VCD)",
  messages: "a sniffer's log, one message a line",
};
export const OVERTAKEN = "another file was chosen before this one was read. Choose this one again.";
// The import that is asked about.
/** @type {OpenImport | null} */
export let openImport = null;
// Each import that is opened or closed has a number.
let importTurn = 0;

// The rows that a chosen file holds, as a file; or null where the page has to ask first, or the file holds none. What
// was asked goes on with `then`, which is given the rows.
/** @type {(file: File, then?: (rows: File, isButton?: boolean) => void) => Promise<File | null>} */
export async function recordingOf(file, then = asked.run) {
  if (madeFiles.has(file)) return file;
  if (openImport?.file === file && openImport.then === then) return null;
  if (then === asked.run) closeImport();
  const turn = importTurn, importer = new Importer(file);
  const found = await importer.ask({work: "known"});
  // A file of rows is taken whatever is asked of another one.
  if (turn !== importTurn || found.kind === "ours") {
    importer.end();
    if (found.kind !== "ours") return null;
    const packed = packedFiles.get(file);
    if (packed) madeFiles.set(file, {file: packed, command: importCommand({format: "rows", file}, {unit: "us"})});
    return file;
  }
  closeImport();
  openImport = {file, then, importer, found, format: null, look: {}, answer: null, words: ""};
  if (found.kind === "quoted") return unquoted(openImport);
  if (found.kind === "other") {
    showOther(openImport);
    return null;
  }
  const format = found.kind === "unknown" ? null : found.kind, it = openImport;
  await takeAs(format);
  return format ? rowsAtOnce(it) : file;
}

// The rows of an import where nothing has to be asked and nothing is refused; else null.
async function rowsAtOnce(it) {
  if (it !== openImport || it.asks.length || it.refusal) return null;
  const answer = await importAll();
  if (!answer || answer.refused) return null;
  it.isChecked = true;
  return answer.file;
}

// The rows that a file holds, where nothing has to be asked. Nothing is shown.
/** @type {(file: File) => Promise<File>} */
export async function rowsUnasked(given) {
  const file = await unpacked(given), importer = new Importer(file);
  try {
    const {kind, words} = await importer.ask({work: "known"});
    if (kind === "other") throw new Error(`this is ${words}`);
    if (kind in FORMATS) throw new Error(`${kindWords(kind)}. Open it to import it`);
    if (kind !== "quoted") return file;
    const {refused, file: rows} =
        await importer.ask({work: "import", format: "plain", options: {}, name: rowsName(file)});
    if (refused) throw new Error(refused);
    return rows;
  } finally {
    importer.end();
  }
}

export function closeImport() {
  importTurn++;
  openImport?.importer.end();
  openImport = null;
  by("import").hidden = true;
  by("import").replaceChildren();
}

// There is no verdict yet: the card says so, and the panel has the focus.
export function askToImport() {
  const isAsked = openImport?.file === file;
  trouble(isAsked ? openImport.words : capital(OVERTAKEN), false);
  by("import-title")?.focus();
}

const fileName = ({name}) => h("strong", {}, h("bdi", {}, shownName(name)));

function kindWords(format) {
  if (!format) return "this isn't a recording as the page reads it";
  return `${format === "rows" ? "these are" : "this is"} ${FORMATS[format]}`;
}

function showImport(title, ...inner) {
  const panel = by("import");
  panel.replaceChildren(h("h2", {id: "import-title", tabindex: -1}, title), ...inner.flat().filter(Boolean));
  panel.hidden = false;
}

// A file that the page can't read: what it is, and what to do.
function showOther(it) {
  const {words, command, isRefused} = it.found, title = `This is ${words}.`;
  it.words = isRefused ? NO_PART : title;
  if (isRefused)
    showImport(title, ...refusedFile(it.file));
  else
    showImport(title, h("p", {}, fileName(it.file), " has no rows that the page can read."), ...commandWords(command));
}

const commandWords = (command) => command ?
    [
      h("p", {}, "PulseView saves a capture as a value change dump (VCD), which the page reads. So does sigrok-cli:"),
      h("pre", {}, command)
    ] :
    [];

// What a file is that mdbimport left where it refused an export, and what to do.
const refusedFile = (file) =>
    [h("p", {}, fileName(file), " ends with the line ", h("code", {}, REFUSED_LINE),
       ". Rows of the export are missing: those after the refused place, or all."),
     h("p", {}, "mdbimport wrote a message too, which isn't in this file. It says what is wrong, and where. ",
       IMPORT_AGAIN)];

// A recording with quotes: the same rows without them, as a file.
async function unquoted(it) {
  const answer = await it.importer.ask({work: "import", format: "plain", options: {}, name: rowsName(it.file)});
  if (it !== openImport) return null;
  if (answer.refused) {
    it.words = `The page can't read ${answer.refused}`;
    showImport("The page can't read this recording", h("p", {}, h("code", {class: "refused"}, answer.refused)));
    return null;
  }
  madeFiles.set(answer.file, {file: it.file, sha256: answer.sha256, command: null});
  const words =
      "The page has taken off quotes, and ends of lines that are a CR alone. The numbers of the rows are the same.";
  showImport(
      "Rows with fields between quotes", h("p", {}, fileName(it.file), ": ", words),
      h("p", {}, button("import-save-rows", "Save the rows", () => saveFile(answer.file))));
  return answer.file;
}

const rowsName = (file) => savedName({file}, "-rows.csv");

// Takes the file that is asked about as one of a format, and shows the fields of that. Where a user chose the format,
// the new field of it has the focus, as the old one had.
async function takeAs(format, isChosen = false) {
  const it = openImport;
  it.format = format;
  it.answer = it.made = it.refusal = null;
  it.look = format ? await it.importer.ask({work: "look", kind: format}) : {};
  if (it !== openImport) return;
  drawImport(it);
  if (isChosen) by("import-format").focus();
  if (format) await showFirstRows();
}

function drawImport(it) {
  const {format, file, found} = it, isSame = format === found.kind;
  const title = isSame || !format ? `${capital(kindWords(format))}` : `Read as ${FORMATS[format]}`;
  const body = format ? importBody(it) :
                        [h("p", {}, "Is it the export of a recorder? Then say which, and the page makes rows of it.")];
  const what = format ? " isn't a recording yet. The page makes the rows of one from it." : "";
  showImport(title, h("p", {}, fileName(file), what), formatField(format), ...body);
}

function formatField(format) {
  const choose = (e) => takeAs(e.target.value, true);
  const options =
      Object.entries(FORMATS).map(([value, words]) => h("option", {value, selected: value === format}, words));
  return h(
      "label", {class: "field"}, "Read it as ",
      h("select", {id: "import-format", onchange: choose},
        format ? null : h("option", {value: "", selected: true}, "choose"), options));
}

function importBody(it) {
  return [
    tookList(it),
    h("p", {id: "import-asks", role: "status"}),
    h("div", {class: "tools", id: "import-fields", oninput: () => showFirstRows()},
      FORMAT_FIELDS[it.format].map((name) => FIELDS[name](it))),
    h("details", {oninput: () => showFirstRows()}, h("summary", {}, "Only a part of it"),
      h("div", {class: "tools"}, microsField("from", "From (microseconds, or 14:28:00, or 2026-11-30 14:28:00)"),
        microsField("until", "Until"))),
    h("div", {id: "import-first"}),
    h("p", {}, button("import-go", goWords(it), importAndCheck), " ",
      button("import-save", "Save the rows", importAndSave)),
    h("div", {id: "import-told", role: "status", tabindex: -1}),
    h("p", {class: "soft"},
      "This import is the page's own. It is tested against the program mdbimport, and not proved. The same by that program: ",
      h("code", {id: "import-command"})),
  ];
}

const button = (id, words, onclick) => h("button", {type: "button", id, onclick}, words);
const goWords = (it) => it.then === asked.run ? "Import and check" : "Import and take the set-up";

// Shows the first rows by what stands in the fields, or what is asked.
async function showFirstRows() {
  const it = openImport, options = importOptions(it), mine = it.preview = {};
  Object.assign(it, {options, asks: asksOf(it, options)});
  it.isExchanged = false;
  it.answer = it.made?.key === JSON.stringify(options) ? it.made.answer : null;
  it.refusal = it.answer?.refused ? it.answer : null;
  by("import-command").textContent = shownName(importCommand(it, options));
  by("import-asks").replaceChildren(...it.asks.flatMap((words) => [h("strong", {}, words), h("br", {})]));
  showTold(it);
  if (it.asks.length) {
    by("import-first")
        .replaceChildren(
            h("p", {}, it.format === "vcd" ? "Its variables:" : "The file begins:"),
            h("pre", {}, it.look.lines.map(shownName).join("\n")));
    return;
  }
  const first = await it.importer.ask({work: "preview", format: it.format, options});
  if (it !== openImport || it.preview !== mine) return;
  by("import-first").replaceChildren(...firstRows(first, it.format === "messages" ? "line" : "record"));
  if (it.answer || !first.refused) return;
  it.refusal = first;
  it.isExchanged = await isExchanged(it);
  if (it === openImport && it.preview === mine) showTold(it);
}

// Whether damaged words at the front of a file are none where its two lines are exchanged: a break on S alone is one.
async function isExchanged(it) {
  const options = exchangedOptions(it);
  if (!canSkip(it) || !options) return false;
  const other = await it.importer.ask({work: "preview", format: it.format, options});
  return !other.refused && other.first.length > 0;
}

// Shows what is told of the import, with what can be done: below the buttons, and in the card if that has no verdict.
function showTold(it) {
  const isOld = it.isChecked && !it.answer, answer = it.answer ?? it.refusal;
  const old = isOld ? ["The answer below is of rows that were made with other settings. Import again."] : [];
  by("import-told").replaceChildren(...old, ...(answer ? toldOf(it, answer) : []));
  canImport(!it.refusal && (it.format !== "edges" || Boolean(it.options.unit)));
  it.words = standing(it);
  if (it.then === asked.run && file === it.file && !state && !isWorking) by("lead").textContent = it.words;
}

// How an import stands that has made no rows yet, for the card.
function standing(it) {
  const what = `${capital(kindWords(it.format))}.`;
  if (it.asks.length) return `${what} Answer what is asked above, and press “${goWords(it)}”.`;
  if (!it.refusal) return `${what} Press “${goWords(it)}” above.`;
  const can = it.isExchanged ? " Most likely its two lines are exchanged." :
      turnedIn(it.refusal)   ? " It can read levels upside down." :
      isDecimal(it)          ? " Most likely its words are decimal." :
      canSkip(it)            ? " It can leave the damaged words out." :
      it.refusal.goOn        ? " It can go on after that." :
                               "";
  return `${what} The import is refused. The reason, and what can be done, stand above.${can}`;
}

function firstRows({first, records, refused, isWhole}, called) {
  const isOfRecords = records.length === first.length && first.length > 0;
  const heads = isOfRecords ? [[called, "number"], ["in the file"], ["row"]] : [["row"]];
  const cell = (words) => h("td", {}, h("code", {}, words));
  const lines = first.map(
      (row, i) => isOfRecords ?
          h("tr", {}, h("td", {class: "number"}, number(records[i].number)), cell(records[i].found), cell(row)) :
          h("tr", {}, cell(row)));
  if (first.length) return [table(`The first ${first.length} rows that are made`, heads, lines)];
  return refused ? [] : [h("p", {}, isWhole ? "No row is made of it." : "No row is made of its beginning.")];
}

// Whether an import that is refused would leave out what refuses it.
const canSkip = ({refusal, options}) => refusal.refused.includes("--skip-damaged") && !options.skip;

// What the words of mdbimport name that the page can be told, if it wasn't.
/** @type {[RegExp, string, string][]} */
const ADVICE = [
  [/--unit/, "unit", "Choose the unit of the times above."],
  [
    /--break/, "length",
    "Fill in the length of each break above. The breaks of one machine are mostly of the same length."
  ],
  [/--swap/, "swap", "Were the two lines exchanged? Then tick “RX is the controller's line” above."],
  [/--controller/, "controller", "Choose above which name is which line."],
  [/--controller/, "peripheral", "Choose above which name is which line."],
];

function adviceOf({format, options}, refused) {
  if (refused.startsWith(NO_PART_ROW)) return "Change the part above, or empty its fields.";
  const isTold = (name) => !FORMAT_FIELDS[format].includes(name) || options[name] !== undefined;
  const bare = refused.replace(/; go on with.*|; found ".*/g, "");
  return ADVICE.find(([words, name]) => words.test(bare) && !isTold(name))?.[2];
}

// What can be done where nothing that the page asks for would help.
const CUT_TABLE =
    "Cut the file before or after that record. Each piece needs the header, and is a recording of its own.";
const CUT_CAPTURE =
    "Cut the capture before or after that time, in the program that recorded it, and export each piece.";
const AS_DUMP = "Or export the same capture as a value change dump (VCD), and choose that.";
const WAYS = {
  rows: ["Correct that line of the file, or take it out. Then choose the file again."],
  saleae: [
    "Export the table again: both analysers, all columns, hexadecimal, times in seconds.", CUT_TABLE,
    "Or export the raw digital data of the same capture from Logic, as CSV, and choose that."
  ],
  edges: [
    "Export the table again: commas between the fields, and times with a point and all decimals.", CUT_TABLE, AS_DUMP
  ],
  sigrok: [
    "Let sigrok-cli write the trace again, to its end, with the options that sigrok-trace.md names.", CUT_CAPTURE,
    AS_DUMP
  ],
  vcd: [
    "Export the dump again, to its end.", CUT_CAPTURE,
    "Or export the same capture as a table of edges (CSV), and choose that."
  ],
  messages: [
    "Correct that line of the log, or delete it.",
    "If times go back at that line, cut the log before it. Each piece is a recording of its own."
  ],
};

// Which lines would be right upside down, as mdbimport says where it refuses or reports something: both, M or S.
function turnedIn({refused, notes}) {
  const words = [refused, ...notes].join("\n"), [, line] = /--invert-line ([MS]) reads it/.exec(words) ?? [];
  return line ?? (words.includes("--invert reads them") ? "both" : null);
}

const isDecimal = ({refusal}) => refusal.refused.includes("(--decimal)");

// Why an import is refused, and what can be done: each button goes on, and a field is named that would help.
function refusedWords(it, {refused, goOn, notes}) {
  const isOption = refused.startsWith("--"), advice = it.isExchanged ? null : adviceOf(it, refused);
  const turned = turnedIn(it.refusal),
        isStuck = !isOption && !advice && !goOn && !turned && !isDecimal(it) && !canSkip(it);
  return [
    notesList(notes),
    h("p", {}, h("strong", {}, isOption ? "This can't be used: " : "The import is refused: "),
      h("code", {class: "refused"}, `mdbimport: ${refused}`)),
    advice ? h("p", {}, advice) : null,
    it.isExchanged    ? exchangeOffer() :
        turned        ? turnOffer(turned) :
        isDecimal(it) ? decimalOffer() :
        canSkip(it)   ? skipOffer() :
                        null,
    goOn && !isDecimal(it) ? goOnOffer(goOn) : null,
    ...(isStuck ? stuckWords(it) : []),
  ].filter(Boolean);
}

const TURNED_WORDS = {
  both: "both lines",
  M: "the controller's line (M)",
  S: "the devices' line (S)"
};

const turnOffer = (line) =>
    h("p", {},
      button("import-turn", `Read ${TURNED_WORDS[line]} upside down and go on`, () => fillAndGoOn("invert", line)),
      " A line of the bus is high at rest, and here it is low.");

const decimalOffer = () =>
    h("p", {},
      button("import-decimal-on", "Read the words as decimal numbers and go on", () => fillAndGoOn("decimal", true)));

const skipOffer = () => h(
    "p", {}, button("import-skip-on", "Leave damaged words out and go on", () => fillAndGoOn("skip", true)),
    " A damaged word has no stop bit: a spike on the line may be the reason. The page then says which words it left out.");

const exchangeOffer = () => h(
    "p", {}, button("import-exchange", "Exchange the two lines and go on", exchangeAndGoOn),
    " Most likely the two lines are exchanged: the other way round, the front of the file has a break and no damaged word.");

const goOnOffer = (micros) => h(
    "p", {}, button("import-go-on", `Import what comes from ${micros} on`, () => goOnFrom(micros)),
    " What was recorded before and after that isn't one recording: check each by itself, and this one as of a machine that was running already.");

function stuckWords({format, found, refusal}) {
  const isOther = format !== found.kind, isAt = / at \d/.test(refusal.refused);
  const ways = WAYS[format].filter((words) => words !== CUT_CAPTURE || isAt);
  return [
    h("p", {},
      "No answer in the fields above changes that. This file can't be used as it is, and has no verdict. What can be done:"),
    h("ul", {id: "import-ways"},
      [...(isOther ? [readAsOffer(found.kind)] : []), ...ways].map((words) => h("li", {}, words))),
  ];
}

// What the file looks like, if it was chosen to be something else.
const readAsOffer = (kind) => kind in FORMATS ?
    button("import-as", `Read it as ${FORMATS[kind]}`, () => takeAs(kind, true)) :
    "Choose above what the file is, if it is something else.";

function fillAndGoOn(name, value) {
  const field = fieldBy(`import-${name}`);
  if (value === true)
    field.checked = true;
  else
    field.value = value;
  return goOn();
}

function exchangeAndGoOn() {
  exchangeFields(openImport);
  return goOn();
}

// Imports by the fields as a button has set them.
async function goOn() {
  const it = openImport;
  await showFirstRows();
  if (it !== openImport) return;
  if (it.refusal)
    by("import-told").focus();
  else
    importAndCheck();
}

function goOnFrom(micros) {
  const field = fieldBy("import-from");
  field.value = micros;
  field.closest("details").open = true;
  field.focus();
  showFirstRows();
}

function canImport(isSo) {
  fieldBy("import-go").disabled = fieldBy("import-save").disabled = !isSo;
}

// Ends an import that works. The next one is read anew.
function stopImport(it) {
  const {importer} = it;
  it.importer = new Importer(it.file);
  importer.stop();
}

// The whole import by what stands in the fields; null where another file came in between.
async function importAll() {
  const it = openImport, {preview, options} = it, pressed = /** @type {HTMLElement} */ (document.activeElement);
  if (it.answer) return it.answer;
  const bar = h("progress", {max: 1, value: 0, "aria-label": "Importing"});
  by("import-told").replaceChildren("Importing ", bar, " ", button("import-stop", "Stop", () => stopImport(it)));
  canImport(false);
  const isNow = () => it === openImport && it.preview === preview;
  let words = null;
  try {
    const answer = await it.importer.ask(
        {work: "import", format: it.format, options, name: rowsName(it.file)}, (part) => bar.value = part);
    if (!isNow()) return null;
    const {sha256, damaged, notes} = answer;
    madeFiles.set(answer.file, {
      file: it.file,
      sha256,
      command: importCommand(it, options),
      damaged,
      notes,
      clockForm: it.look.timeForm === NUMBER ? null : it.look.timeForm,
      hasMadeTimes: it.format === "messages"
    });
    if (!answer.refused) keepNames(options);
    it.answer = answer;
    it.refusal = answer.refused ? answer : null;
    it.made = {key: JSON.stringify(options), answer};
    return answer;
  } catch (fault) {
    words = `The import failed: ${fault.message}.`;
    return null;
  } finally {
    if (isNow()) {
      showTold(it);
      if (words) by("import-told").replaceChildren(words);
      if (document.activeElement === document.body) pressed.focus({preventScroll: true});
    }
  }
}

function toldOf(it, answer) {
  const {refused, rows, notes, damaged} = answer;
  if (refused) return [...refusedWords(it, answer), ...(rows ? [rowsBefore(it, rows)] : [])];
  const turned = turnedIn(answer);
  return [
    h("p", {},
      `${
          number(
              rows)} rows were made. The numbers of rows on this page are those of the made rows, not of the lines of `,
      fileName(it.file), "."),
    notesList(notes), turned ? turnOffer(turned) : null, damaged?.count ? h("p", {}, missingWords(damaged, rows)) : null
  ].filter(Boolean);
}

const notesList = (notes) => notes.length ?
    h("ul", {id: "import-notes"}, notes.map((words) => h("li", {}, h("code", {}, `mdbimport: ${words}`)))) :
    null;

// What it means that words were left out.
function missingWords({count}, rows) {
  const many = count * 10 > rows ? " These are many: are the levels, the rate and the lines right?" : "";
  return `Where a word was left out, it is missing now. So the check mostly answers no at the row after it. Then go on with the survey of the whole recording: it shows each such place.${
      many}`;
}

// The rows before a refused record, which can be used.
function rowsBefore(it, rows) {
  const use = async (then) => {
    const answer = await importAll();
    if (answer) then(answer.file);
  };
  return h(
      "p", {}, `${number(rows)} rows stand before it. They are a recording by themselves. `,
      button("import-before", "Check these rows", () => use((rows) => it.then(rows, true))), " ",
      button("import-save-rows", "Save these rows", () => use(saveFile)));
}

async function importAndCheck() {
  const it = openImport, answer = await importAll();
  if (!answer) return;
  it.isChecked = !answer.refused;
  if (!answer.refused)
    it.then(answer.file, true);
  else
    refuseImport(it);
}

// No verdict is of the rows of an earlier import any more. The reason stands above the card, and is in sight.
function refuseImport(it) {
  if (it.then === asked.run) {
    endChecker();
    choose(it.file);
    trouble(it.words, false);
  }
  seeTold();
}

function seeTold() {
  by("import-told").scrollIntoView({block: "nearest"});
  by("import-told").focus({preventScroll: true});
}

async function importAndSave() {
  const answer = await importAll();
  if (!answer) return;
  if (answer.refused)
    seeTold();
  else
    saveFile(answer.file);
}

// Checks the recording that is shown without its quotes.
export async function takeQuotesOff() {
  const given = file, before = newest;
  closeImport();
  openImport = {file: given, then: asked.run, importer: new Importer(given), found: {kind: "quoted"}, words: ""};
  const rows = await unquoted(openImport);
  if (newest !== before) return;
  if (rows)
    asked.run(rows, true);
  else
    askToImport();
}
