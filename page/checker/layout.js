// @ts-check
// How the structures of the module's calls lie in its memory. A structure has these fields in this order, each with the
// bytes of a number and how many numbers it is, as C lays them out. How large a structure is, the module tells: where
// the fields don't come to that, nothing is read.

/** @type {Record<string, Record<string, number[]>>} */
export const STRUCTURES = {
  options: {joined: [1, 1], extended: [1, 1], without: [1, 4], setups: [1, 4 * 37], readers: [1, 2 * 75]},
  setup: {count: [1, 1], bytes: [1, 36]},
  reader: {level: [1, 1], config: [1, 37], options: [1, 37]},
  told: {row: [8, 1], offset: [8, 1], fault: [8, 1], acts: [8, 1], news: [8, 1]},
  answer: {count: [8, 1], bytes: [1, 4096]},
  act: {
    first: [8, 1],
    last: [8, 1],
    start: [8, 1],
    end: [8, 1],
    length: [8, 1],
    kind: [1, 1],
    device: [1, 1],
    count: [1, 1],
    reading: [1, 1],
    bytes: [1, 36]
  },
  news: {
    first: [8, 1],
    last: [8, 1],
    start: [8, 1],
    end: [8, 1],
    amount: [8, 1],
    length: [8, 1],
    count: [8, 1],
    number: [2, 1],
    kind: [1, 1],
    device: [1, 1],
    worth: [1, 1],
    decimals: [1, 1],
    isAcknowledged: [1, 1],
    isToken: [1, 1]
  },
  fault: {row: [8, 1], offset: [8, 1]},
  lines: {count: [8, 1], bytes: [1, 1 << 22]},
  rise: {row: [8, 1], least: [8, 1], greatest: [8, 1], account: [1, 1], side: [1, 1]},
  end: {value: [8, 1], lost: [4, 1], restarts: [4, 1], repeats: [4, 1]}
};
// For each structure its size, and the place of each field.
/** @type {Record<string, Record<string, number>>} */
export const layout = {};
// So many numbers the worker tells of a fault: its row, its place, the times of the row, the row before it and the row
// after it, whether it is of alternative payout, and the reader of whose sale it is.
export const FAULT_NUMBERS = 7;
// So many ends the module weighs of a device: four of each sum, of which an account has three.
export const WEIGHED = 24;
// So many numbers the page gives the worker of a fault: its row, its place, whether it breaks a rule of the link, and
// who is left out after it (a bit for each device).
export const START_NUMBERS = 4;

// Where the options have a device's answer to SETUP, and what is known of a reader.
/** @type {(device: number) => number} */
export const setupPlace = (device) => layout.options.setups + layout.setup.size * (device - 1);
/** @type {(device: number) => number} */
export const readerPlace = (device) => layout.options.readers + layout.reader.size * (device - 3);

// Puts a block into the options.
/** @type {(options: Uint8Array, place: number, block: ByteList) => void} */
export function putBlock(options, place, block) {
  options[place + layout.setup.count] = block.length;
  options.set(block, place + layout.setup.bytes);
}

// The places of the fields of a structure of so many bytes.
/** @type {(fields: Record<string, number[]>, size: number) => Record<string, number>} */
export function placesOf(fields, size) {
  const places = {size}, widest = Math.max(...Object.values(fields).map(([wide]) => wide));
  let at = 0;
  for (const [name, [wide, times]] of Object.entries(fields)) {
    at = Math.ceil(at / wide) * wide;
    places[name] = at;
    at += wide * times;
  }
  if (Math.ceil(at / widest) * widest !== size) throw new Error("this page doesn't fit its module.");
  return places;
}

// A place in the module's memory, above what it has for itself and a multiple of 8.
/** @type {(call: Calls) => number} */
export const freePlace = (call) => Math.ceil(Number(call.__heap_base.value) / 8) * 8;

// Makes the module's memory so large.
function growTo(call, bytes) {
  const PAGE = 65536, have = call.memory.buffer.byteLength;
  if (bytes > have) call.memory.grow(BigInt(Math.ceil((bytes - have) / PAGE)));
}

/** @type {(call: Calls) => void} */
export function readLayout(call) {
  const names = Object.keys(STRUCTURES), at = freePlace(call);
  growTo(call, at + 8 * names.length);
  call.mdb_page_layout(BigInt(at));
  const sizes = new BigUint64Array(call.memory.buffer, at, names.length);
  names.forEach((name, i) => {
    layout[name] = placesOf(STRUCTURES[name], Number(sizes[i]));
  });
}
