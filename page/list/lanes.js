// @ts-check
// What the time line draws, by lanes.

// A lane: what it shows, from when to when, and where each mark leads to.
/** @type {(name: string, kind: string, all: any[], how: Record<string, (it: any, from?: Element) => any>) => Lane} */
export function laneOf(name, kind, all, how) {
  const begin = new Float64Array(all.length), end = how.end ? new Float64Array(all.length) : begin;
  for (let k = 0; k < all.length; k++) {
    begin[k] = how.begin(all[k]);
    if (how.end) end[k] = how.end(all[k]);
  }
  return {
    name,
    kind: (k) => how.kind?.(all[k]) ?? kind,
    begin,
    end,
    isLong: Boolean(how.end),
    words: (k) => how.words(all[k]),
    jump: (k, from) => how.jump(all[k], from)
  };
}
