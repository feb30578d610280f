// @ts-check
// The fields of an import, and what they say: its options.
import {fieldBy, h} from "../elements.js";
import {shownName} from "../texts.js";

import {packedFiles} from "./made.js";
import {RAW_FORMATS} from "./text.js";
import {CLOCK, NUMBER} from "./times.js";

const UNIT_WORDS = {
  s: "seconds",
  ms: "milliseconds",
  us: "microseconds",
  ns: "nanoseconds"
};
/** @type {Record<string, string[]>} */
export const FORMAT_FIELDS = {
  rows: ["unit", "controller", "peripheral", "decimal"],
  saleae: ["controller", "peripheral", "length", "skip"],
  edges: ["controller", "peripheral", "unit", "invert", "skip"],
  sigrok: ["swap", "skip"],
  vcd: ["controller", "peripheral", "invert", "skip"],
  messages: ["unit", "controller", "peripheral", "timeOf", "decimal"],
};
const PROGRAM_WORDS = {
  unit: "--unit",
  controller: "--controller",
  peripheral: "--peripheral",
  timeOf: "--time-of",
  length: "--break",
  decimal: "--decimal",
  invert: "--invert",
  invertLine: "--invert-line",
  swap: "--swap",
  skip: "--skip-damaged",
  from: "--from",
  until: "--until",
};
// The names of the lines in the last import: those of the next export are probably the same.
let lastNames = {};

/** @type {(options: ImportWords) => void} */
export function keepNames({controller, peripheral}) {
  lastNames = {controller, peripheral};
}

// The unit that a title names, as in “Time (ms)”, as options have it.
const UNIT = /(?:^|[^a-zµμ])(s|ms|us|µs|μs|ns)(?:[^a-zµμ]|$)/i;
const unitIn = (title) => UNIT.exec(title)?.[1].toLowerCase().replace(/[µμ]/, "u");
// The unit that a file tells. The times of edges are mostly in seconds. A log's header is one text.
const UNITS_TOLD = {
  edges: ({timeTitle = ""}) => unitIn(timeTitle) ?? "s",
  rows: ({titles}) => titles ? unitIn(titles[0]) : undefined,
  messages: ({titles}) => unitIn(/[([].*?[)\]]/.exec(titles ?? "")?.[0] ?? ""),
};
const labelled = (words, ...inner) => h("label", {}, words, ...inner);

/** @type {(it: OpenImport) => HTMLElement} */
function unitField({format, look}) {
  const {timeForm} = look, isAsked = format === "edges" || !timeForm || timeForm === NUMBER;
  const told = isAsked ? UNITS_TOLD[format](look) : undefined;
  const first = isAsked ? "choose" : timeForm === CLOCK ? "none: times of day" : "none: dates";
  const options =
      Object.entries(UNIT_WORDS).map(([value, words]) => h("option", {value, selected: value === told}, words));
  return labelled("Unit of the times", h("select", {id: "import-unit"}, h("option", {value: ""}, first), options));
}

// The name of a line, of those that stand in the file or any other.
/** @type {(id: string, words: string, letter: string) => (it: OpenImport) => HTMLElement} */
function lineField(id, words, letter) {
  return ({look}) => {
    const isThere = look[`has${letter}`], {names = []} = look;
    const first = isThere ? `${letter}, as it stands` : names.length ? "choose" : `${letter}`;
    const other = h(
        "input",
        {type: "text", id: `import-${id}-name`, hidden: true, "aria-label": `${words}: its name`, spellcheck: "false"});
    const choose = (e) => other.hidden = e.target.value !== "another";
    const isLast = (it) => !isThere && it === lastNames[id];
    const options = [
      ...names.map((it, i) => h("option", {value: `name ${i}`, selected: isLast(it)}, shownName(it))),
      h("option", {value: "another"}, "another name")
    ];
    return labelled(
        words, h("select", {id: `import-${id}`, onchange: choose}, h("option", {value: ""}, first), options), other);
  };
}

/** @type {(id: string, words: string) => HTMLElement} */
export function microsField(id, words) {
  return labelled(words, h("input", {type: "text", id: `import-${id}`, size: 20, spellcheck: "false"}));
}

const checkField = (id, words) => () =>
    h("label", {class: "check"}, h("input", {type: "checkbox", id: `import-${id}`}), ` ${words}`);

/** @type {Record<string, (it: OpenImport) => HTMLElement>} */
export const FIELDS = {
  unit: unitField,
  controller: lineField("controller", "Controller's line (M)", "M"),
  peripheral: lineField("peripheral", "Devices' line (S)", "S"),
  length: () => microsField("length", "Length of each break (microseconds)"),
  decimal: checkField("decimal", "The words are decimal numbers, not hexadecimal"),
  invert: () => labelled(
      "Upside down",
      h("select", {id: "import-invert"}, h("option", {value: ""}, "no, or told by the levels"),
        h("option", {value: "both"}, "both lines"), h("option", {value: "M"}, "the controller's line (M)"),
        h("option", {value: "S"}, "the devices' line (S)"))),
  swap: checkField("swap", "RX is the controller's line"),
  skip: checkField("skip", "Leave damaged words out"),
  timeOf: () => labelled(
      "Each time is that of",
      h("select", {id: "import-timeOf"}, h("option", {value: ""}, "the first word"),
        h("option", {value: "last"}, "the last word"))),
};

// What stands in the fields, as the words of mdbimport's options.
/** @type {(it: OpenImport) => ImportWords} */
export function importOptions({format, look, found}) {
  const options = {};
  for (const name of [...FORMAT_FIELDS[format], "from", "until"]) {
    const field = fieldBy(`import-${name}`), value = field.type === "checkbox" ? field.checked : field.value;
    if (value === "" || value === false) continue;
    if (name === "invert")
      Object.assign(options, value === "both" ? {invert: true} : {invertLine: value});
    else
      options[name] = name === "controller" || name === "peripheral" ? namedLine(name, value, look) : value;
  }
  if (RAW_FORMATS.includes(format) && (found.hasMark || found.encoding?.startsWith("utf-16"))) options.decoded = true;
  return options;
}

function namedLine(id, value, {names = []}) {
  return value === "another" ? fieldBy(`import-${id}-name`).value : names[Number(value.slice(5))];
}

// The options with which the two lines are exchanged; null where they have no names but their letters.
/** @type {(it: OpenImport) => ImportWords | null} */
export function exchangedOptions({format, options}) {
  const {controller, peripheral, swap, ...rest} = options;
  if (format === "sigrok") return swap ? rest : {...rest, swap: true};
  return controller && peripheral ? {...rest, controller: peripheral, peripheral: controller} : null;
}

// Exchanges the two lines in the fields.
/** @type {(it: OpenImport) => void} */
export function exchangeFields({format}) {
  if (format === "sigrok") {
    fieldBy("import-swap").checked = !fieldBy("import-swap").checked;
    return;
  }
  const lines = ["controller", "peripheral"];
  for (const ending of ["", "-name"]) {
    const [one, other] = lines.map((id) => fieldBy(`import-${id}${ending}`));
    [one.value, other.value] = [other.value, one.value];
    [one.hidden, other.hidden] = [other.hidden, one.hidden];
  }
}

// What has to be told before the rows can be made, in words.
/** @type {(it: OpenImport, options: ImportWords) => string[]} */
export function asksOf({format, look}, options) {
  const asks = [], {names = [], hasM, hasS} = look, {controller, peripheral} = options;
  const isFree = format !== "sigrok" && names.some((it) => it !== controller && it !== peripheral);
  if (format === "rows" && look.timeForm === NUMBER && !options.unit)
    asks.push(
        "Which unit do the times have? The words of one message follow each other after about a thousandth of a second.");
  if (format === "messages" && look.timeForm === NUMBER && !options.unit)
    asks.push("Which unit do the times have? Two messages are mostly some thousandths of a second apart.");
  if (format === "edges" && !options.unit) asks.push("Which unit do the times have?");
  if (isFree && !hasM && controller === undefined) asks.push("Which name is the controller's line (M)?");
  if (isFree && !hasS && peripheral === undefined) asks.push("Which name is the devices' line (S)?");
  if (format === "saleae" && look.hasBreak && !options.length)
    asks.push("How long was each break? The table doesn't say it: measure one in Logic.");
  return asks;
}

// The command of mdbimport for these options.
/** @type {(it: {format?: string | null, file: File}, options: ImportWords) => string} */
export function importCommand({format, file}, options) {
  const quoted = (words) => /^[\w.-]+$/.test(words) ? words : `'${words.replaceAll("'", "'\\''")}'`;
  const words = Object.entries(PROGRAM_WORDS).filter(([name]) => options[name] !== undefined);
  const given = words.map(([name, word]) => options[name] === true ? word : `${word} ${quoted(options[name])}`);
  const packed = packedFiles.get(file), input = packed ? `<(zcat ${quoted(packed.name)})` : quoted(file.name);
  return ["mdbimport", format, ...given, "<", input].join(" ");
}
