// @ts-check
// A recording in the module's memory, and the module's calls on it. The text stays there, so that it can be checked
// again in another way.
import {freePlace, layout, readLayout} from "./layout.js";
import {rowAfter, rowBefore, timeAt} from "./rows.js";
import {tell} from "./say.js";

const PAGE = 65536, CHUNK = 1 << 24;
// The kind of the words of a block that is cut off.
const CUT = 10;
// So many acts have room at a time.
const MOST_ACTS = 1400000;
// So many news are asked for at a time.
const MOST_NEWS = 1000000;
// The module's exports, the places in its memory, the bytes of the text, and how long it took to read them.
export let call, at, size, read;

// Places in the module's memory, each a multiple of 8 above what the module has for itself. A row has 8 bytes or more,
// and few recordings have news in more than one of six rows.
/** @type {(length: number) => Record<string, number>} */
function places(length) {
  const up = (size) => Math.ceil(size / 8) * 8;
  const options = freePlace(call), told = options + up(layout.options.size), answer = told + up(layout.told.size);
  const text = answer + up(layout.answer.size), acts = text + up(length) + 8;
  const room = Math.min(MOST_ACTS, Math.floor(length / 8) + 2),
        roomNews = Math.min(MOST_NEWS, Math.floor(length / 96) + 64);
  const news = acts + room * layout.act.size;
  return {options, told, answer, text, acts, room, news, roomNews, end: news + roomNews * layout.news.size};
}

// Why a file gives no recording, in words for the page.
export class Refusal extends Error {}

/** @type {(bytes: number) => void} */
export function grow(bytes) {
  const have = call.memory.buffer.byteLength;
  if (bytes <= have) return;
  try {
    call.memory.grow(BigInt(Math.ceil((bytes - have) / PAGE)));
  } catch {
    throw new Refusal("The file is too large for the memory that this browser gives to a page.");
  }
}

// So many bytes of a file from a place on. A file of no bytes is read as a whole: Chromium shows so a file that is
// gone, and reads a slice of it without a complaint.
function readPart(file, from) {
  const want = Math.min(CHUNK, file.size - from);
  let part;
  try {
    part = new FileReaderSync().readAsArrayBuffer(file.size ? file.slice(from, from + want) : file);
  } catch {
    throw new Refusal(
        "The file can't be read. Perhaps it was moved, changed or deleted after you chose it, or it is a folder.");
  }
  if (part.byteLength !== want) throw new Refusal("The file changed while it was read.");
  return new Uint8Array(part);
}

/** @type {(module: WebAssembly.Module) => Promise<void>} */
export async function prepare(module) {
  call = (await WebAssembly.instantiate(module)).exports;
  readLayout(call);
  at = places(0);
  grow(at.end);
}

/** @type {(file: File) => void} */
export function load(file) {
  size = file.size;
  at = places(size);
  grow(at.end);
  const begin = performance.now();
  let done = 0;
  do {
    tell("Reading", size ? done / size : 0);
    const part = readPart(file, done);
    new Uint8Array(call.memory.buffer, at.text + done, part.length).set(part);
    done += part.length;
  } while (done < size);
  refuseLate(new Uint8Array(call.memory.buffer, at.text, size));
  read = performance.now() - begin;
}

// Refuses a recording whose first or last TIME is none of JavaScript's whole numbers.
function refuseLate(text) {
  const isLate = (place) => timeAt(text, place) > Number.MAX_SAFE_INTEGER && timeAt(text, place) <= 1e18;
  if (isLate(0) || isLate(rowBefore(text, size)))
    throw new Refusal(`A TIME is above ${Number.MAX_SAFE_INTEGER}, and this page counts no further. mdbcheck does.`);
}

/** @type {() => {row: number, offset: number, fault: number, acts: number, news: number}} */
export function told() {
  const view = new DataView(call.memory.buffer, at.told), fields = layout.told;
  const u64 = (field) => Number(view.getBigUint64(fields[field], true));
  return {row: u64("row"), offset: u64("offset"), fault: u64("fault"), acts: u64("acts"), news: u64("news")};
}

// Checks so many bytes of the text.
/** @type {(length: number) => number} */
export function check(length) {
  return call.mdb_page_check(BigInt(at.options), BigInt(at.text), BigInt(length), BigInt(at.told), BigInt(at.answer));
}

// Lists the first acts, as far as there is room for so many, and the news after the first `skip`: of the text, or of a
// part of it. Of the acts after the first `first` ones the last ones are kept, in a ring.
/**
 * @type {(room: number, skip: number, roomNews: number, from?: number, to?: number, first?: number) => {answer: number,
 *     row: number, offset: number, fault: number, acts: number, news: number}}
 */
export function list(room, skip, roomNews, from = 0, to = size, first = room) {
  const answer = call.mdb_page_list(
      BigInt(at.options), BigInt(at.text + from), BigInt(to - from), BigInt(first), BigInt(skip), BigInt(at.told),
      BigInt(at.acts), BigInt(room), BigInt(at.news), BigInt(roomNews));
  return {...told(), answer};
}

// The first acts that were listed last, of `count` in all.
/** @type {(count: number) => Uint8Array} */
export const firstActs = (count) => actsAt(0, Math.min(count, at.room));

// Gives the last acts of the text, of `count` in all, as far as there is room for them.
/** @type {(count: number, give: (acts: Uint8Array) => void) => void} */
export function lastActs(count, give) {
  const {room} = at, end = count % room;
  list(room, 0, 0, 0, size, 0);
  give(actsAt(end, room - end));
  give(actsAt(0, end));
}

// Gives the acts of a part of the text after the first ones in their order, piece by piece, up to where that is enough.
// The module has no call for them: it walks from the part's begin to a later row each time, and keeps the last acts.
/**
 * @type {(count: number, from: number, to: number, give: (acts: Uint8Array) => void,
 *     isEnough?: (done: number) => boolean) => void}
 */
export function laterActs(count, from, to, give, isEnough = () => false) {
  const {room} = at, text = new Uint8Array(call.memory.buffer, at.text, size);
  let done = Math.min(count, room), place = from, step = Math.ceil((to - from) * 1.5 * room / count);
  while (done < count && !isEnough(done)) {
    const far = place + step < to ? rowAfter(text, place + step) : to, end = far < 0 ? to : Math.min(to, far);
    const {acts} = list(room, 0, 0, from, end, 0), known = end < to ? acts - cutAtEnd(acts) : acts;
    if (acts - done > room) {
      step = Math.ceil(step / 2);
      continue;
    }
    for (let n = done; n < known; n = Math.min(known, n - n % room + room))
      give(actsAt(n % room, Math.min(known - n, room - n % room)));
    done = Math.max(done, known);
    place = end;
  }
}

const actsAt = (first, count) =>
    new Uint8Array(call.memory.buffer, at.acts + first * layout.act.size, count * layout.act.size);

// Where the list of a part ends in mid-block, these words are an act of their own, which the whole list doesn't have.
function cutAtEnd(acts) {
  const [last] = acts ? actsAt((acts - 1) % at.room, 1).subarray(layout.act.kind) : [];
  return last === CUT ? 1 : 0;
}

// The text that lies at a place, with its length before it.
/** @type {(place: number, it: Record<string, number>) => string} */
export function textAt(place, {count, bytes}) {
  const length = Number(new DataView(call.memory.buffer, place).getBigUint64(count, true));
  return new TextDecoder().decode(new Uint8Array(call.memory.buffer, place + bytes, length).slice());
}

/** @type {() => string} */
export const answerText = () => textAt(at.answer, layout.answer);

/** @type {(options: Uint8Array) => void} */
export function setOptions(options) {
  new Uint8Array(call.memory.buffer, at.options, layout.options.size).set(options);
}
