// @ts-check
// Lengths of time in words, and times of the rows as the recorder counts them.

/** @type {(n: number, digits: number) => string} */
export const padded = (n, digits) => String(n).padStart(digits, "0");

// A part of a second to so many digits, cut and not rounded: a search for what is shown finds it.
/** @type {(micros: number, digits: number) => string} */
export function fraction(micros, digits) {
  const part = micros - Math.floor(micros / 1e6) * 1e6;
  return digits ? "." + padded(Math.floor(part), 6).slice(0, digits) : "";
}

// A length of time: from a tenth of a second on in seconds, from a minute on with minutes, from an hour on with hours.
/** @type {(micros: number) => string} */
export function seconds(micros) {
  if (micros < 1e5) return `${(micros / 1000).toFixed(3)} ms`;
  return micros < 60e6 ? `${(micros / 1e6).toFixed(3)} s` : rowTime(Math.round(micros / 1000) * 1000, 3);
}

// A TIME of the rows, as the recorder counts it.
/** @type {(micros: number, digits: number) => string} */
export function rowTime(micros, digits) {
  const whole = Math.floor(micros / 1e6), part = fraction(micros, digits);
  if (whole < 60) return `${whole}${part} s`;
  const hours = Math.floor(whole / 3600), minutes = Math.floor(whole / 60) % 60, end = padded(whole % 60, 2) + part;
  return hours ? `${hours}:${padded(minutes, 2)}:${end}` : `${minutes}:${end}`;
}
