// Runs the page's module in node, for tests/page-module: by the worker that the page itself has, whose path is the first
// word, and with the page's scripts that read what the worker gives. The worker has room for few acts and news, so that
// lists come in pieces. Each line of standard input has a recording, and the answer is a line: what the worker says of it,
// a survey, and the values of some expressions of the page's state; without these, what its sums rest on. Where node can't
// run wasm64, the status is 77.
import fs from "node:fs";
import readline from "node:readline";
import v8 from "node:v8";
import zlib from "node:zlib";
import {Acts} from "../page/checker/acts.js";
import {layout} from "../page/checker/layout.js";
import {addPiece, noNews} from "../page/checker/news.js";
import {endsIn} from "../page/checker/weighed.js";

const PAGE = fs.readFileSync(process.argv[2], "utf8"), ROOMS = {MOST: 10, MOST_ACTS: 16, MOST_NEWS: 5};
// A text between quotes of any kind.
const TEXT = ["\"", "'", "`"].map((it) => String.raw`${it}[^${it}\\]*(?:\\[^][^${it}\\]*)*${it}`).join("|");
const constant = (name) => new Function("return " + new RegExp(`\\b${name} ?= ?(${TEXT})`).exec(PAGE)[1])();

// Older versions of node know wasm64 only where a flag says so, and count its memory in numbers.
const isKnown = () => WebAssembly.validate(Uint8Array.of(0, 97, 115, 109, 1, 0, 0, 0, 5, 3, 1, 4, 0));
if (!isKnown()) v8.setFlagsFromString("--experimental-wasm-memory64");
if (!isKnown()) {
  console.log(`node ${process.version} can't run wasm64`);
  process.exit(77);
}
const {grow} = WebAssembly.Memory.prototype;
WebAssembly.Memory.prototype.grow = function(pages) {
  try {
    return grow.call(this, pages);
  } catch {
    return grow.call(this, Number(pages));
  }
};

function withRooms(text) {
  for (const [name, room] of Object.entries(ROOMS)) {
    const parts = text.split(new RegExp(`(?<=\\b${name} ?= ?)[\\de]+`));
    if (parts.length !== 2) throw new Error(`the page's worker doesn't say once what ${name} is`);
    text = parts.join(room);
  }
  return text;
}

let heard = [];
class FileReaderSync {
  readAsArrayBuffer(bytes) {
    return bytes;
  }
}
const worker = new Function("postMessage", "FileReaderSync", "onmessage", `${withRooms(constant("WORKER"))}
  const memory = () => new DataView(call.memory.buffer);
  return {take, grow, setOptions, survey, surveyPlaces, textAt, answerText, layout, memory, size: () => size};`)(
    (said) => heard.push(said), FileReaderSync);
let wasm = new WebAssembly.Module(zlib.inflateRawSync(Buffer.from(constant("MODULE"), "base64")));

// What the worker says of a recording.
async function judged(bytes, options) {
  const file = Object.assign(new Uint8Array(bytes).buffer, {size: bytes.length}), found = noNews();
  heard = [];
  await worker.take({number: 1, module: wasm, file, options});
  wasm = undefined;
  Object.assign(layout, worker.layout);
  for (const {told, news} of heard) if (told === "news") addPiece(found, news);
  const {acts, ...listing} = heard.find(({told}) => told === "listed") ?? {};
  const {lines, ms, ...told} = heard.find(({told}) => told === "done" || told === "fault");
  return {said: {...listing, ...told}, state: {found, list: acts && new Acts(acts, listing.listed)}};
}

// A survey of the recording that was judged last, so many faults at a time.
function surveyed(options, most) {
  const spots = worker.surveyPlaces(), {layout: {fault, lines}} = worker, room = Math.min(most, spots.room), faults = [];
  let end, text = "";
  worker.grow(spots.end);
  worker.setOptions(options);
  do {
    end = worker.survey({...spots, room: faults.length + room}, worker.size(), faults.length);
    text += worker.textAt(spots.lines, lines);
    for (let i = 0; i < end.news; i++) {
      const at = spots.faults + i * fault.size, memory = worker.memory();
      faults.push([fault.row, fault.offset].map((field) => Number(memory.getBigUint64(at + field, true))));
    }
  } while (end.news && faults.length < end.acts);
  return {...end, text: text + worker.answerText(), faults};
}

// What the sums of all devices rest on, in the recording that was judged last: of each end its value and its marks.
async function weighed(options) {
  heard = [];
  await worker.take({number: 2, closer: {options, answer: 0, length: worker.size(), devices: [1, 2, 3, 4]}});
  const {weights} = heard.find(({told}) => told === "done" || told === "fault");
  return Object.values(weights).map(
      (its) => its && Array.from({length: 6}, (_, sum) => Object.values(endsIn(its, sum)).map((it) => [Number(it.value), it.all])));
}

async function answer({text, options, room, values}) {
  const bytes = Buffer.from(text, "base64"), way = Uint8Array.from(options), {said, state} = await judged(bytes, way);
  if (said.told === "fault") return said;
  if (!values) return {...said, weights: await weighed(way)};
  const seen = values.map((it) => new Function("state", `return ${it};`)(state));
  return {...said, values: seen, survey: surveyed(way, room)};
}

for await (const line of readline.createInterface({input: process.stdin}))
  process.stdout.write(JSON.stringify(await answer(JSON.parse(line))) + "\n");
