// @ts-check
// Files of rows that this page has made, and what they were made from.
import {h} from "../elements.js";
import {number, shownName} from "../texts.js";

// Files of rows that this page has made, with what they were made from: they need no import.
/** @type {WeakMap<File, any>} */
export const madeFiles = new WeakMap();

// Files that this page has unpacked, and the files of gzip that they were in.
/** @type {WeakMap<File, File>} */
export const packedFiles = new WeakMap();

// What a file of gzip holds, as a file; any other file as it is, and one that can't be unpacked.
/** @type {(file: File) => Promise<File>} */
export async function unpacked(file) {
  try {
    const [first, second] = new Uint8Array(await file.slice(0, 2).arrayBuffer());
    if (first !== 0x1F || second !== 0x8B || packedFiles.has(file)) return file;
    const blob = await new Response(file.stream().pipeThrough(new DecompressionStream("gzip"))).blob();
    const made = new File([blob], file.name.replace(/\.gz$/i, ""), {lastModified: file.lastModified});
    packedFiles.set(made, file);
    return made;
  } catch {
    return file;
  }
}

export const NO_PART = "mdbimport refused the export, and no verdict is given on a part of one.";
export const IMPORT_AGAIN =
    "Import the export again, as the message of mdbimport says. Or drop the export itself on this page: it imports it.";

// What it means that a log has one time for each message.
export const MADE_TIMES =
    "A sniffer's log has one time for each message. The times of the words within it are made up, so rules about times say nothing about this recording.";

// What the rows of a file were made from: its name, its size, its checksum, and how. Null where it is a recording
// itself.
/** @type {(rows: File) => any[] | null} */
export function sourceOf(rows) {
  const source = madeFiles.get(rows);
  if (!source) return null;
  const {file, sha256, command, notes = [], isExchanged} = source;
  const how =
      `${isExchanged ? " with M and S exchanged," : ""}${command ? " as by the command " : " without its quotes"}`;
  const sum = sha256 ? `, SHA-256 ${sha256}` : "";
  return [
    h("bdi", {}, shownName(file.name)), `, ${number(file.size)} bytes${sum}, by this page,${how}`,
    h("code", {}, command ?? ""), ...notes.map((words) => h("div", {}, h("code", {}, `mdbimport: ${words}`)))
  ];
}

// What rows were made from, where M and S are exchanged in them.
/** @type {(source: any) => any} */
export function exchangedSource({damaged, isExchanged = false, ...rest}) {
  const first = damaged?.first.map(({time, line}) => ({time, line: 1 - line}));
  return {...rest, damaged: damaged && {...damaged, first}, isExchanged: !isExchanged};
}

// Whether the times of rows within a message are made up.
/** @type {(rows: File) => boolean} */
export const hasMadeTimes = (rows) => Boolean(madeFiles.get(rows)?.hasMadeTimes);

// The damaged words that were left out when rows were made: how many, and the first by their times. Null if none were.
/** @type {(rows: File) => {count: number, first: {time: number, line: number}[]} | null} */
export function leftOutOf(rows) {
  const damaged = madeFiles.get(rows)?.damaged;
  return damaged?.count ? damaged : null;
}
