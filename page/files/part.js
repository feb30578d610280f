// @ts-check
// Only a part of the recording, from one time to another: a recording of its own, of a machine that was running
// already, with the set-ups that the whole shows.
import {rowAfter, rowBefore, timeAt} from "../checker/rows.js";
import {when} from "../clock.js";
import {by, fieldBy} from "../elements.js";
import {madeFiles} from "../import/made.js";
import {readTime} from "../list/moments.js";
import {asked} from "../run/asked.js";
import {recording, state} from "../run/now.js";

import {takeSetups} from "./setup.js";

// No row is as long.
const NEAR = 1 << 16;
const FIELDS = ["part-from", "part-to"];

export function forgetPart() {
  for (const id of FIELDS) fieldBy(id).value = "";
  by("part-fault").textContent = "";
}

const bytesOf = async (rows, from, to) => new Uint8Array(await rows.slice(from, to).arrayBuffer());

// The place of the first row that begins at a time or after it.
/** @type {(rows: File, time: number) => Promise<number>} */
async function placeOf(rows, time) {
  let low = 0, high = rows.size;
  while (high - low > NEAR) {
    const middle = Math.floor((low + high) / 2), bytes = await bytesOf(rows, middle, middle + NEAR);
    const row = rowAfter(bytes, 0);
    if (row >= 0 && timeAt(bytes, row) < time)
      low = middle + row;
    else
      high = middle;
  }
  const bytes = await bytesOf(rows, low, high + NEAR);
  let place = bytes.length ? 0 : -1;
  while (place >= 0 && timeAt(bytes, place) < time) place = rowAfter(bytes, place);
  return place < 0 ? rows.size : low + place;
}

// When the first and the last row of a recording begin, in words.
async function spanOf(rows) {
  const front = await bytesOf(rows, 0, NEAR), end = await bytesOf(rows, Math.max(0, rows.size - NEAR), rows.size);
  return `${when(timeAt(front, 0))} to ${when(timeAt(end, rowBefore(end, end.length)))}`;
}

// What the fields ask for; null where they can't be read.
function rangeIn() {
  const [from, to] = FIELDS.map((id) => fieldBy(id).value.trim()), begins = from ? readTime(from, state) : [{low: 0}];
  const ends = to ? readTime(to, state) : [{low: Infinity}];
  if (!begins?.length || !ends?.length) return null;
  const [{low}] = begins, end = ends.find((it) => it.low > low);
  return end ? {low, high: end.low} : null;
}

// The rows of the recording from a time to before another, as a file that names the whole one.
async function partOf(rows, {low, high}) {
  const from = await placeOf(rows, low), to = high === Infinity ? rows.size : await placeOf(rows, high);
  const source = madeFiles.get(rows), part = new File([rows.slice(from, to)], rows.name);
  const until = high === Infinity ? "" : ` --until ${high - 1}`, cut = ` --from ${low}${until} <`;
  const command = (source?.command ?? "mdbimport rows --unit us < FILE").replace(" <", cut);
  madeFiles.set(part, {file: rows, ...source, command, whole: source?.whole ?? rows});
  return {part, isCut: from > 0, isEmpty: from >= to};
}

// Checks what the fields ask for: the whole recording where they ask for nothing.
export async function checkPart() {
  const whole = madeFiles.get(recording)?.whole ?? recording;
  if (FIELDS.every((id) => !fieldBy(id).value.trim())) return asked.run(whole, true);
  const range = rangeIn(), refuse = (words) => void (by("part-fault").textContent = words);
  if (!range)
    return refuse(
        "Write two times as the page shows them, the earlier one first: 13:20 and 13:40, or 1:32.7 and 2:05.");
  const {part, isCut, isEmpty} = await partOf(whole, range);
  if (isEmpty) return refuse(`No row begins in that part. The recording has rows from ${await spanOf(whole)}.`);
  refuse("");
  if (isCut && whole === recording) takeSetups(state, "The whole recording");
  if (isCut) fieldBy("joined").checked = true;
  return asked.run(part, true);
}
