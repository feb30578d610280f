// @ts-check
// The messages of a reader's answer, by their lengths: docs/bench/commands-and-messages.md, extended-profile.md. In
// which of these readings the answer was taken, the module says of each act (`acts.reading`). What isn't an act of the
// extended profile is read as the base profile reads it. The bits: an identification has options; 03 and 0B are long.

export const READING = {
  BASE: 0,
  SHORT: 1,
  BARE_LONG: 2,
  LONG: 3
};
const READER_LENGTHS = [1, 8, 99, 3, 1, 3, 1, 1, 1, 30, 2, 1];
export const READER_CONFIG = 1;
// The second byte of ENABLE OPTIONS, and how many bytes come before its sum.
export const ENABLE_OPTIONS = 4, OPTIONS_END = 6;
// The readers by the addresses of their commands, without the last three bits.
/** @type {Record<number, number>} */
export const READERS_BY_BLOCK = {
  2: 3,
  12: 4
};

// A block of these bytes: the sum stands at its end.
/** @type {(bytes: number[]) => number[]} */
export const sealed = (bytes) => [...bytes, bytes.reduce((sum, byte) => sum + byte & 255)];

// Whether a command to a reader tells it the controller's level (SETUP config).
/** @type {(bytes: Iterable<number>) => boolean} */
export const isConfigAsk = ([first, second]) => (first & 7) === 1 && second === 0;

// The length of the message with a first byte, where so many bytes are left from it on.
/** @type {(first: number, left: number, reading: number) => number} */
export function readerLength(first, left, reading) {
  if (first === 9 && reading & READING.SHORT && left >= 34) return 34;
  if (reading & READING.BARE_LONG && first === 3) return 10;
  if (reading & READING.BARE_LONG && first === 0x0B) return Math.min(2, left);
  return READER_LENGTHS[first] ?? 1;
}

// The block without its sum, cut into messages.
/** @type {(bytes: any, reading?: number) => any[]} */
export function readerMessages(bytes, reading = READING.BASE) {
  const found = [], n = bytes.length - 1;
  for (let i = 0; i < n;) {
    const size = readerLength(bytes[i], n - i, reading);
    found.push(bytes.slice(i, Math.min(n, i + size)));
    i += size;
  }
  return found;
}
