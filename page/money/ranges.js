// @ts-check
// The ranges of an account.
import {money} from "../texts.js";

/** @type {(a: Account) => boolean} */
export const isDiffering = (a) => a.difference[0] > 0n || a.difference[1] < 0n;
/** @type {(a: Account) => boolean} */
export const isOpen = (a) => ["device", "controller", "difference"].some((side) => a[side][0] !== a[side][1]);
/** @type {(range: Bounds) => bigint} */
export const widthOf = ([least, greatest]) => greatest - least;
/** @type {(a: Account) => boolean} */
export const isZero = (a) => [...a.device, ...a.controller, ...a.difference].every((n) => n === 0n);

/** @type {(range: Bounds, d: number) => string} */
export function rangeWords([least, greatest], d) {
  return least === greatest ? money(least, d) : `${money(least, d)} to ${money(greatest, d)}`;
}
