// @ts-check
// After a survey the acts and the news of the whole recording: in the worker, in one pass. After a row that breaks a
// rule of the link the list begins anew, as that of a machine that was running already, with the set-ups and levels
// that were told before. A row that breaks a rule of a device stands in an act, and the list goes on over it.
import {layout, putBlock, readerPlace, setupPlace, START_NUMBERS} from "./layout.js";
import {isConfigAsk, READER_CONFIG, readerMessages, READING, sealed} from "./messages.js";
import {FirstAndLast, moved} from "./packed.js";
import {at, call, firstActs, laterActs, list, setOptions, size} from "./recording.js";
import {isEnd, ordersIn, rowAfter} from "./rows.js";
import {say, tell} from "./say.js";

// The kinds of an entry that tells a set-up, and of an act that is a command.
const SETUP_TOLD = 21, COMMAND = 0;
// So many bytes of news are gathered before the page gets them.
const NEWS_BYTES = 1 << 20;

// Bytes one after the other.
function joined(parts) {
  const made = new Uint8Array(parts.reduce((sum, bytes) => sum + bytes.length, 0));
  let place = 0;
  for (const bytes of parts) {
    made.set(bytes, place);
    place += bytes.length;
  }
  return made;
}

// Gives the news of a part the recording's numbers of rows. None needs more than 32 bits.
/** @type {(bytes: Uint8Array, places: Record<string, number>, before: number) => Uint8Array} */
function addRows(bytes, {size: wide, first, last}, before) {
  const words = new Uint32Array(bytes.buffer, bytes.byteOffset, bytes.length / 4);
  for (let at = 0; before && at < words.length; at += wide / 4) {
    words[at + first / 4] += before;
    words[at + last / 4] += before;
  }
  return bytes;
}

// The place of a row of a part, counted from one whose place is known.
function placeAfter(text, place, rows) {
  let at = place;
  while (isEnd(text[at])) at++;
  for (let i = 0; i < rows; i++) at = rowAfter(text, at);
  return at;
}

// The bytes that so many rows from a place on have.
function bytesAt(text, place, rows) {
  const bytes = [];
  for (let at = place; bytes.length < rows; at = rowAfter(text, at)) {
    const value = text.indexOf(44, text.indexOf(44, at) + 1) + 1;
    bytes.push(parseInt(String.fromCharCode(text[value + 1], text[value + 2]), 16));
  }
  return bytes;
}

// An answer that tells a set-up, as the options have it: of a reader its last config message counts. (The news don't
// say in which reading it has one.)
function setupBlock(device, bytes) {
  if (device < 3) return bytes;
  const isConfig = ({0: kind, length}) => kind === READER_CONFIG && length === 8;
  const config = Object.values(READING).map((it) => readerMessages(bytes, it).findLast(isConfig)).find(Boolean);
  return sealed(config);
}

// The controller's last SETUP to a reader among acts; undefined if there is none.
function lastSetup(acts, reader) {
  const {size: wide, kind, device, count, bytes} = layout.act;
  for (let i = acts.length - wide; i >= 0; i -= wide) {
    if (acts[i + kind] !== COMMAND || acts[i + device] !== reader) continue;
    const said = acts.subarray(i + bytes, i + bytes + acts[i + count]);
    if (isConfigAsk(said)) return said.slice();
  }
}

// All acts and news of the recording, part by part.
class Relisting {
  constructor(options) {
    this.text = new Uint8Array(call.memory.buffer, at.text, size);
    this.options = options;
    this.kept = new FirstAndLast();
    this.news = {bytes: 0, parts: []};
    // The rows after which the list begins anew.
    this.cuts = [];
  }
  // Lists the text from a place on, whose first row comes after so many, up to another place. Nothing is kept yet.
  list({from, before}, to) {
    setOptions(this.options);
    const told = list(at.room, 0, at.roomNews, from, to);
    if (told.answer === 5) throw new Error("the module doesn't take a set-up that it told.");
    return {...told, from, before, to};
  }
  // Keeps what was listed last.
  keep(part) {
    const {acts: all, news: allNews, before, from, to} = part, told = new Map(), asks = [];
    for (let got = 0; got < allNews; got += at.roomNews) {
      if (got) list(0, got, at.roomNews, from, to);
      const count = Math.min(at.roomNews, allNews - got);
      const bytes = new Uint8Array(call.memory.buffer, at.news, count * layout.news.size).slice();
      this.findSetups(bytes, told);
      this.addNews(addRows(bytes, layout.news, before));
    }
    const give = (acts) => {
      this.kept.add(acts, before);
      for (const device of [3, 4]) asks[device] = lastSetup(acts, device) ?? asks[device];
    };
    give(firstActs(all));
    laterActs(all, from, to, give);
    this.learn(told, from);
    if (this.options[layout.options.extended]) this.learnLevels(asks, told);
  }
  addNews(bytes) {
    this.news.parts.push(bytes);
    this.news.bytes += bytes.length;
    if (this.news.bytes > NEWS_BYTES) this.sayNews();
  }
  sayNews() {
    const news = joined(this.news.parts);
    if (news.length) say({told: "news", news: news.buffer}, [news.buffer]);
    this.news = {bytes: 0, parts: []};
  }
  // The rows of the last answer of each device that tells a set-up, counted from the part's first one.
  findSetups(bytes, told) {
    const {size: wide, kind, device, first, last} = layout.news, words = new Uint32Array(bytes.buffer);
    for (let i = 0; i < bytes.length; i += wide)
      if (bytes[i + kind] === SETUP_TOLD)
        told.set(bytes[i + device], {first: words[(i + first) / 4], last: words[(i + last) / 4]});
  }
  // Takes note of the set-ups that a part told, for the parts after it.
  learn(told, from) {
    let place = from, row = 1;
    for (const [device, rows] of [...told].sort(([, a], [, b]) => a.first - b.first)) {
      place = placeAfter(this.text, place, rows.first - row);
      row = rows.first;
      const block = setupBlock(device, bytesAt(this.text, place, rows.last - rows.first + 1));
      putBlock(this.options, setupPlace(device), block);
    }
  }
  // Takes note of the level that the controller told each reader. A level that was given counts for both sides, until
  // the reader tells its own. (Which options are enabled changes no act.)
  learnLevels(asks, told) {
    for (const device of [3, 4]) {
      const {level, config} = layout.reader, place = readerPlace(device), block = asks[device];
      if (!block || this.options[place + level] && !told.has(device)) continue;
      this.options[place + level] = 0;
      putBlock(this.options, place + config, block);
    }
  }
  // How the rows after a fault are taken.
  goOn(isLeftOut) {
    this.options[layout.options.joined] = 1;
    for (let d = 1; d < 5; d++) {
      const isOut = isLeftOut >> d - 1 & 1, setup = setupPlace(d), reader = readerPlace(d);
      this.options[layout.options.without + d - 1] = isOut;
      if (isOut) this.options.fill(0, setup, setup + layout.setup.size);
      if (isOut && d > 2) this.options.fill(0, reader, reader + layout.reader.size);
    }
  }
}

// The faults that the page gives, each with the first one from it on that breaks a rule of the link.
class Starts {
  constructor(text, numbers) {
    this.text = text;
    this.numbers = numbers;
    this.count = numbers.length / START_NUMBERS;
    this.links = new Uint32Array(this.count + 1).fill(this.count);
    for (let i = this.count - 1; i >= 0; i--) this.links[i] = this.at(i).isLink ? i : this.links[i + 1];
  }
  at(i) {
    const [row, offset, isLink, without] = this.numbers.subarray(i * START_NUMBERS, (i + 1) * START_NUMBERS);
    return {row, offset, isLink, without};
  }
  // Where the row of a fault ends.
  endOf(i) {
    const after = rowAfter(this.text, this.at(i).offset);
    return after < 0 ? size : after;
  }
}

// Lists from a place on, up to the fault after which the list begins anew: the first one that breaks a rule of the
// link. `next` is the first fault after the place. The number of all faults means that the list goes on to the end.
function listFrom(it, starts, end, begin, next) {
  let i = starts.links[next];
  if (i === starts.count && end < 0) i--;
  const isToRow = i < starts.count && !starts.at(i).isLink;
  const to = isToRow ? starts.endOf(i) : i < starts.count ? starts.at(i).offset : end;
  const part = it.list(begin, to), halt = begin.before + part.row;
  if (part.answer !== 1) return {part, fault: i};
  // The survey takes such a row, since it forgets what was said up to the fault before it. Here the list does, too.
  let after = next;
  while (after < i && starts.at(after).row < halt) after++;
  return after === next ? {part, fault: i} : {part: it.list(begin, starts.endOf(after - 1)), fault: after - 1};
}

// Lists the recording up to the place `end`; up to the last fault that is given, where that is -1.
function relistAll({options, numbers, end}) {
  const it = new Relisting(options), starts = new Starts(it.text, numbers);
  let begin = {from: 0, before: 0}, next = 0, told = performance.now();
  while (begin.from >= 0 && (next < starts.count || end >= 0)) {
    const {part, fault} = listFrom(it, starts, end, begin, next);
    it.keep(part);
    if (fault === starts.count) break;
    const {row, offset, without} = starts.at(fault);
    it.cuts.push(row);
    it.goOn(without);
    begin = {from: rowAfter(it.text, offset), before: row};
    next = fault + 1;
    if (performance.now() - told > 100) {
      tell("Listing", begin.from / size);
      told = performance.now();
    }
  }
  it.sayNews();
  return it;
}

/** @type {(asked: {options: Uint8Array, numbers: Float64Array, end: number}) => void} */
export function relist(asked) {
  const begin = performance.now(), {kept, cuts, text} = relistAll(asked), {foreign, ...listing} = kept.listed();
  const orders = ordersIn(text, foreign);
  say({told: "done", ...listing, orders, cuts, ms: performance.now() - begin}, moved(listing.acts));
}
