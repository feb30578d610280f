// @ts-check
// What the worker says to the page: each message has the number of the one that it answers.
let number = 0;

/** @type {(mine: number) => void} */
export function answering(mine) {
  number = mine;
}

/** @type {(words: object, moved?: Transferable[]) => void} */
export function say(words, moved = []) {
  postMessage({number, ...words}, {transfer: moved});
}

/**
 * @param {string} doing
 * @param {number} part
 * @param {number} [most]
 */
export function tell(doing, part, most) {
  say({told: "progress", doing, part, most});
}
