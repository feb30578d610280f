// @ts-check
// The worker that runs the module on one recording: what the page asks for, one message after the other.
import {FAULT_NUMBERS, layout, readerPlace, setupPlace, WEIGHED} from "./layout.js";
import {FirstAndLast, moved} from "./packed.js";
import {
  answerText,
  at,
  call,
  check,
  firstActs,
  grow,
  lastActs,
  laterActs,
  list,
  load,
  prepare,
  read,
  Refusal,
  setOptions,
  size,
  textAt,
  told
} from "./recording.js";
import {relist} from "./relist.js";
import {commandBefore, isChoice, ordersIn, rowAfter, rowBefore, spokenIn, timeAt, unfollowedSale} from "./rows.js";
import {answering, say, tell} from "./say.js";
import {Sha256} from "./sha256.js";

// So many faults of a survey are listed at most: what is more than that is counted.
const MOST_FAULTS = 20000;
// So many rises are listed at most: what is more than that is counted.
const MOST_RISES = 20000;
// So many bytes are summed up between two messages.
const PIECE = 1 << 22;
// So many bytes are checked first, to know how quick this computer is.
const FRONT = 1 << 20;
// For so many milliseconds the module runs before it is needed.
const WARM_UP = 100;

// A survey lists no acts. Its faults and its lines lie where those would.
function surveyPlaces() {
  const room = Math.min(MOST_FAULTS, Math.floor(size / 8) + 2), lines = at.acts + room * layout.fault.size;
  return {faults: at.acts, room, lines, end: lines + layout.lines.size};
}

// Replays so many bytes of the text: what the sums are if nothing was lost. Null where the recording begins in
// mid-session, of which there is no replay.
function replay(length) {
  const answer =
      call.mdb_page_replay(BigInt(at.options), BigInt(at.text), BigInt(length), BigInt(at.told), BigInt(at.answer));
  return answer < 2 ? {answer, text: answerText(), row: told().row} : null;
}

// Whether the acts end at a payout by the changer's choice, and when.
function choiceAt(answer, offset) {
  const text = new Uint8Array(call.memory.buffer, at.text, size);
  return answer === 1 ? {isChoice: isChoice(text, offset), time: timeAt(text, offset)} : {};
}

// Gives the page news that lie in memory. It reads them while the module goes on.
function sayNews(count) {
  const news = new Uint8Array(call.memory.buffer, at.news, count * layout.news.size).slice().buffer;
  if (count > 0) say({told: "news", news}, [news]);
}

// The last acts of a recording of which not all with news may fit; null of any other. They tell when those before them
// needn't be looked at.
function lastListed(kept, all) {
  if (all <= 2 * at.room || !kept.first.isFull()) return null;
  const last = new FirstAndLast();
  lastActs(all, (acts) => last.add(acts, 0));
  return last;
}

// The acts of the recording, and all news, piece by piece. One walk over the rows gives both; where there are many
// news, further walks give the rest of them.
function listAll() {
  const {acts: all, news: allNews, answer, row, offset} = list(at.room, 0, at.roomNews), kept = new FirstAndLast(all);
  sayNews(Math.min(at.roomNews, allNews));
  kept.add(firstActs(all), 0);
  const last = lastListed(kept, all);
  laterActs(all, 0, size, (acts) => kept.add(acts, 0), (done) => done + at.room <= all && kept.skipTo(last, all));
  for (let got = at.roomNews; got < allNews; got += at.roomNews) {
    list(0, got, at.roomNews);
    sayNews(Math.min(at.roomNews, allNews - got));
  }
  return {...kept.listed(), link: {answer, row, ...choiceAt(answer, offset)}};
}

// Whether the text of a report has a range that is open.
const hasOpenRange =
    (text) => [...text.matchAll(/(-?\d+)\.\.(-?\d+)/g)].some(([, least, greatest]) => least !== greatest);

// The rows by which ranges of the sums open or close, as far as there is room in the place of the acts and news, which
// the page has by then.
function listRises() {
  const wide = layout.rise.size, room = Math.min(MOST_RISES, Math.floor((at.end - at.acts) / wide));
  call.mdb_page_rises(
      BigInt(at.options), BigInt(at.text), BigInt(size), 0n, BigInt(at.told), BigInt(at.acts), BigInt(room));
  const all = told().news, listed = Math.min(all, room);
  return {all, listed: new Uint8Array(call.memory.buffer, at.acts, listed * wide).slice().buffer};
}

// What the ends of a device's sums rest on, in so many bytes. It lies in the place of the acts, as the rises do. Null
// where the module doesn't say.
function weigh(device, length) {
  const bytes = WEIGHED * layout.end.size;
  grow(at.acts + bytes);
  const answer = call.mdb_page_weights(
      BigInt(at.options), BigInt(at.text), BigInt(length), BigInt(device), BigInt(at.told), BigInt(at.acts),
      BigInt(WEIGHED));
  return answer === 0 ? new Uint8Array(call.memory.buffer, at.acts, bytes).slice().buffer : null;
}

// The lines about a place in the text: up to 40 before it (a whole block and more), that one, and up to 40 after it.
function lines(offset, row) {
  const text = new Uint8Array(call.memory.buffer, at.text, size), found = [], FAR = 65536, LONG = 200;
  const cut = (from, to) => {
    while (to > from && (text[to - 1] === 10 || text[to - 1] === 13)) to--;
    return {bytes: text.slice(from, Math.min(to, from + LONG)), whole: to - from <= LONG, length: to - from};
  };
  let to = offset;
  const low = Math.max(0, offset - FAR);
  while (to > low && found.length < 40) {
    let from = to - 1;
    while (from > low && text[from - 1] !== 10) from--;
    if (from === low && low > 0) break;
    const line = cut(from, to);
    if (from === 0 && line.bytes[0] === 0xEF && line.bytes[1] === 0xBB && line.bytes[2] === 0xBF) {
      line.bytes = line.bytes.slice(3);
      line.length -= 3;
    }
    if (line.length > 0) found.unshift({...line, row: row - found.length - 1});
    to = from;
  }
  let from = offset, number = row;
  while (from < size && number < row + 41) {
    let end = text.indexOf(10, from);
    if (end < 0) end = size;
    const line = cut(from, end);
    if (line.length > 0) found.push({...line, row: number++});
    if (end - from > FAR) break;
    from = end + 1;
  }
  return found;
}

// Gives the page the acts, and what their rows order to be paid out. Its news have come before.
function sayListed() {
  const text = new Uint8Array(call.memory.buffer, at.text, size), {foreign, ...listing} = listAll();
  say({told: "listed", ...listing, orders: ordersIn(text, foreign)}, moved(listing.acts));
}

// Lists the acts and news of the recording, and checks it. The page looks at the acts while the rows are checked.
function judge(options) {
  setOptions(options);
  let most = 0;
  if (size > 8 * FRONT) {
    const begin = performance.now();
    check(FRONT);
    most = (performance.now() - begin) * (size / FRONT);
  }
  tell("Listing", 0, most);
  const begin = performance.now();
  sayListed();
  const listed = performance.now();
  tell("Checking", 0, most);
  const answer = check(size), end = told(), text = answer < 2 ? answerText() : "";
  const checked = performance.now();
  // The rows before one that cannot be are a recording of their own, and its answer is a yes.
  const before = answer === 1 && check(end.offset) === 0 ? answerText() : "";
  const summed = performance.now();
  const stops = answer === 1 || answer === 2 || answer === 3 || answer === 4;
  const recording = new Uint8Array(call.memory.buffer, at.text, size);
  say({
    told: "done",
    answer,
    text,
    before,
    isOpen: hasOpenRange(answer === 1 ? before : text),
    row: end.row,
    offset: end.offset,
    fault: end.fault,
    lines: stops ? lines(end.offset, end.row) : [],
    // When the last row of the file began: what isn't read goes up to there.
    until: timeAt(recording, rowBefore(recording, size)),
    spoken: spokenIn(recording),
    size,
    ms: {read, check: checked - listed, before: summed - checked, list: listed - begin},
    memory: call.memory.buffer.byteLength
  });
}

// What is told of the ranges that an answer left open, after that answer: what opens them, the sums if nothing was lost
// in so many bytes, and what the sums of these devices rest on.
function lookCloser({options, answer, length, devices}) {
  const begin = performance.now();
  setOptions(options);
  const replayed = replay(length), rises = answer === 0 ? listRises() : null;
  const weights = Object.fromEntries(devices.map((device) => [device, weigh(device, length)]));
  say({told: "done", replayed, rises, weights, ms: performance.now() - begin});
}

// Runs the module on the recording for a while: the browser compiles better what has run often.
function warmUp(options) {
  const begin = performance.now();
  setOptions(options);
  while (performance.now() - begin < WARM_UP) {
    list(at.room, 0, at.roomNews);
    check(size);
  }
  say({told: "done"});
}

// Whether the module takes one block of the options alone.
function isTaken(options, from) {
  const alone = new Uint8Array(layout.options.size), {joined, extended} = layout.options;
  alone[joined] = 1;
  alone[extended] = options[extended];
  alone.set(options.subarray(from, from + layout.setup.size), from);
  setOptions(alone);
  return check(0) !== 5;
}

// The device of which the options have a block that tells nothing of it, and the block's field; null if there is none.
function badSetup(options) {
  for (let d = 1; d < 5; d++)
    if (!isTaken(options, setupPlace(d))) return {device: d, field: "setup"};
  for (let d = 3; d < 5; d++)
    for (const field of ["config", "options"])
      if (!isTaken(options, readerPlace(d) + layout.reader[field])) return {device: d, field};
  return null;
}

// Checks the recording once more with other options, for the answer alone. `isFollowed` is whether a device speaks, or
// is spoken to; where a device broke a rule in the first reading (`isDevice`), one does.
function judgeLate(options, isDevice) {
  setOptions(options);
  // (what an earlier recording tells stands at the end)
  if (check(0) === 5) setOptions(options.fill(0, layout.options.setups));
  const begin = performance.now();
  check(Math.min(size, FRONT));
  tell("Checking", 0, size > 8 * FRONT ? (performance.now() - begin) * (size / FRONT) : 0);
  const answer = check(size), end = told(), text = answer < 2 ? answerText() : "";
  let isFollowed = isDevice;
  if (!isDevice && answer === 0) {
    const {size: wide, device} = layout.act, count = Math.min(list(at.room, 0, 0).acts, at.room);
    const acts = new Uint8Array(call.memory.buffer, at.acts, count * wide);
    for (let i = 0; i < count && !isFollowed; i++) isFollowed = acts[i * wide + device] > 0;
  }
  say({told: "done", answer, text, row: end.row, isFollowed});
}

// What is told of the faults that lie in memory.
function faultNumbers(text, {faults}, count) {
  const view = new DataView(call.memory.buffer, faults), made = new Float64Array(count * FAULT_NUMBERS);
  const u64 = (i, field) => Number(view.getBigUint64(i * layout.fault.size + layout.fault[field], true));
  for (let i = 0; i < count; i++) {
    const offset = u64(i, "offset");
    const times = [offset, rowBefore(text, offset), rowAfter(text, offset)].map((place) => timeAt(text, place));
    made.set(
        [u64(i, "row"), offset, ...times, Number(isChoice(text, offset)), unfollowedSale(text, offset)],
        i * FAULT_NUMBERS);
  }
  return made;
}

// Surveys so many bytes of the text. The faults after the first `skip` are listed, as far as there is room.
function survey({faults, room, lines}, length, skip) {
  const answer = call.mdb_page_survey(
      BigInt(at.options), BigInt(at.text), BigInt(length), BigInt(skip), BigInt(at.told), BigInt(faults),
      BigInt(room - skip), BigInt(lines), BigInt(at.answer));
  return {...told(), answer};
}

// The survey of the recording: the lines of its faults and of the stretches that they end, piece by piece, and then
// what the program prints after the last fault. Where not all faults are listed, the numbers of the last one follow.
function surveyAll(spots) {
  const text = new Uint8Array(call.memory.buffer, at.text, size), texts = [];
  const faults = new Float64Array((spots.room + 1) * FAULT_NUMBERS);
  const keep = (count, from) => faults.set(faultNumbers(text, spots, count), from * FAULT_NUMBERS);
  let listed = 0, end;
  do {
    end = survey(spots, size, listed);
    texts.push(textAt(spots.lines, layout.lines));
    keep(end.news, listed);
    listed += end.news;
    if (listed < end.acts) tell("Listing the faults", listed / Math.min(end.acts, spots.room));
  } while (end.news > 0 && listed < Math.min(end.acts, spots.room));
  if (listed < end.acts) {
    survey({...spots, room: end.acts}, size, end.acts - 1);
    keep(1, listed);
  }
  return {...end, listed, text: texts.join(""), last: answerText(), faults};
}

function judgeSurvey(options) {
  const spots = surveyPlaces();
  setOptions(options);
  grow(spots.end);
  const begin = performance.now();
  survey(spots, Math.min(size, FRONT), 0);
  tell("Surveying", 0, size > 8 * FRONT ? (performance.now() - begin) * (size / FRONT) : 0);
  const made = surveyAll(spots), {answer, row, offset} = made, isWhole = answer < 2;
  const text = new Uint8Array(call.memory.buffer, at.text, size);
  say({
    ...made,
    told: "done",
    begin: timeAt(text, 0),
    end: timeAt(text, rowBefore(text, isWhole ? size : offset)),
    lines: isWhole ? [] : lines(offset, row),
    ms: performance.now() - begin
  });
}

// The acts of the rows up to a fault and of its own row, with the recording's numbers of rows. They are read from a
// command on, as the options say.
function actsAbout({row, offset, from, options}) {
  const text = new Uint8Array(call.memory.buffer, at.text, size), first = commandBefore(text, offset, from);
  const after = rowAfter(text, offset);
  if (first.place < 0) return {acts: new ArrayBuffer(0), count: 0};
  setOptions(options);
  const count = list(at.room, 0, 0, first.place, after < 0 ? size : after).acts, {act} = layout;
  const acts = new Uint8Array(call.memory.buffer, at.acts, count * act.size).slice().buffer, view = new DataView(acts);
  for (let i = 0; i < count; i++)
    for (const place of [i * act.size + act.first, i * act.size + act.last])
      view.setBigUint64(place, view.getBigUint64(place, true) + BigInt(row - first.rows - 1), true);
  return {acts, count};
}

const tellAbout = (fault) => say({told: "done", lines: lines(fault.offset, fault.row), ...actsAbout(fault)});

// Messages ----

// Makes the recording's checksum, piece by piece between the messages: no answer waits for it.
function sumUp() {
  const sum = new Sha256();
  const step = () => {
    const part = new Uint8Array(call.memory.buffer, at.text + sum.length, Math.min(PIECE, size - sum.length));
    sum.add(part);
    if (sum.length < size)
      setTimeout(step);
    else
      postMessage({told: "sum", sha256: sum.hex()});
  };
  setTimeout(step);
}

// Answers what a message asks for. One that asks for nothing has the recording read for its checksum.
/** @type {(asked: Record<string, any>) => void} */
function answer({options, warm, late, isDevice, closer, surveyed, relisted, about}) {
  if (warm)
    warmUp(warm);
  else if (closer)
    lookCloser(closer);
  else if (surveyed)
    judgeSurvey(surveyed);
  else if (relisted)
    relist(relisted);
  else if (about)
    tellAbout(about);
  else if (late)
    judgeLate(late, isDevice);
  else if (options)
    judge(options);
  else
    say({told: "done"});
}

async function take({number: mine, module, file, ...asked}) {
  answering(mine);
  try {
    if (module) await prepare(module);
    const bad = asked.options ? badSetup(asked.options) : null;
    if (bad) {
      say({told: "fault", ...bad});
      return;
    }
    if (file) load(file);
    answer(asked);
    if (file) sumUp();
  } catch (fault) {
    say({told: "fault", words: fault instanceof Refusal ? fault.message : String(fault)});
  }
}

// One message after the other.
let last = Promise.resolve();
onmessage = ({data}) => {
  last = last.then(() => take(data));
};
