// @ts-check
// The time line: a lane for each device that told of money, one for breaks and resets, one for silences. It fits the
// width and can be zoomed. Where marks would cover each other, bars count them.
import {DEVICE_NAMES} from "../checker/acts.js";
import {ANSWERS} from "../checker/answers.js";
import {clock, openClock, when} from "../clock.js";
import {by, fieldBy, h, s, section} from "../elements.js";
import {state} from "../run/now.js";
import {allFaultsLane} from "../survey/faults.js";
import {hatchWords, unreadSpans} from "../survey/gaps.js";
import {stretchLane} from "../survey/stretches.js";
import {number, shown} from "../texts.js";
import {seconds} from "../times.js";

import {jumpToRow} from "./acts.js";
import {land, leave, markHere, tellRow} from "./jumps.js";
import {laneOf} from "./lanes.js";
import {rowLink} from "./links.js";
import {actAtRow, faultIs, isUnjudged} from "./lookup.js";
import {jumpToEntry, moneyAmount, statementOf, toldWords} from "./statement.js";

const BAR = 4, LANE = 24, NARROW = 640, NAMES = 122, LEAST_SPAN = 1000, NEAR = 8, DRAGGED = 6;
const MOST_SILENCES = 50;

function eventLane({breaks, resets}) {
  const all = [...breaks, ...resets];
  return laneOf("breaks, resets", "reset", all, {
    begin: (m) => m.at,
    end: (m) => m.at + (m.length ?? 0),
    kind: (m) => m.length === undefined ? "reset" : "quiet",
    words: (m) => m.length === undefined ? `${DEVICE_NAMES[m.device]}: ${m.what} at ${when(m.at)}` :
                                           `break at ${when(m.at)}, ${seconds(m.length)} long`,
    jump: (m, from) => jumpToRow(m.first, from)
  });
}

function silenceWords(q) {
  const span = `from ${when(q.from)} for ${seconds(q.to - q.from)}`;
  return `${DEVICE_NAMES[q.device]} said nothing ${span}, asked ${number(q.asks)} times`;
}

function silenceLane({silences}) {
  return laneOf(
      "silences", "quiet", silences,
      {begin: (q) => q.from, end: (q) => q.to, words: silenceWords, jump: (q, from) => jumpToRow(q.first, from)});
}

function moneyLane(it, device) {
  const all = it.found.money, own = [];
  all.forEach((m, i) => m.device === device && own.push(i));
  return laneOf(DEVICE_NAMES[device], "device", own, {
    begin: (i) => all[i].begin,
    words: (i) => `${toldWords(all[i])} ${moneyAmount(all[i])} at ${when(all[i].begin)}`,
    jump: jumpToEntry
  });
}

// When the row that cannot be began; null where that isn't on the line.
function faultTime(it, begin, end) {
  if (it.answer !== ANSWERS.NO) return null;
  const line = it.lines.find((l) => l.row === it.row);
  const at = line ? Number(shown(line).split(",")[0]) : it.list.end(actAtRow(it, it.row));
  return at >= begin && at <= end * 2 ? Math.min(at, end) : null;
}

// From when to when the acts go, and what wasn't read; of a survey also its stretches and its faults, whose times may
// go back.
function lineSpan({list: acts, survey}, unread) {
  let begin = Infinity, end = -Infinity;
  const take = (from, to) => {
    if (from < begin) begin = from;
    if (to > end) end = to;
  };
  if (acts.count) take(acts.start(0), acts.end(acts.count - 1));
  for (const {from, to} of survey?.stretches ?? []) take(from, to);
  for (const {time} of survey?.faults ?? []) take(time, time);
  for (const [from, to] of unread) take(from, to);
  return [begin, Math.max(begin + 1, end)];
}

function makeLine(it) {
  statementOf(it);
  const {found, survey} = it, unread = unreadSpans(it), [begin, end] = lineSpan(it, unread);
  const all = [eventLane(found), silenceLane(found), ...[1, 2, 3, 4].map((device) => moneyLane(it, device))];
  const lanes = all.filter((lane, i) => i === 0 || lane.begin.length), count = lanes.length;
  if (survey) lanes.push(...[stretchLane(survey), allFaultsLane(survey)].filter((lane) => lane.begin.length));
  return {
    begin,
    end,
    from: begin,
    to: end,
    lanes,
    unread: {begin: unread.map(([from]) => from), end: unread.map(([, to]) => to), lanes: count},
    fault: survey ? null : faultTime(it, begin, end),
    drawn: [],
    current: null
  };
}

// How wide the drawing is, and where its parts are.
function measure(it, figure) {
  const wide = Math.max(280, figure.clientWidth || 1000), isNarrow = wide < NARROW;
  const left = isNarrow ? 4 : NAMES, right = wide - 4, step = LANE + (isNarrow ? 22 : 10);
  const {from, to, lanes} = it.line, rows = lanes.length + (it.line.fault === null ? 0 : 1);
  const x = (at) => left + (at - from) / (to - from) * (right - left);
  const at = (place) => from + (place - left) / (right - left) * (to - from);
  return {wide, isNarrow, left, right, step, x, at, top: (k) => k * step + (isNarrow ? 18 : 4), high: rows * step + 30};
}

// The marks of a lane that the range has, those that would cover each other in one bar.
function barsOf(lane, {from, to}, room) {
  const count = Math.ceil((room.right - room.left) / BAR), bars = new Array(count).fill(null);
  const scale = (room.right - room.left) / BAR / (to - from);
  for (let k = 0; k < lane.begin.length; k++) {
    const begin = lane.begin[k], end = lane.end[k];
    if (end < from || begin > to) continue;
    const at = Math.min(count - 1, Math.floor(Math.max(0, begin - from) * scale)), bar = bars[at];
    if (bar) {
      bar.count++;
      bar.last = Math.max(bar.last, begin);
      bar.begin = Math.min(bar.begin, begin);
      bar.end = Math.max(bar.end, end);
    } else
      bars[at] = {count: 1, k, at, begin, last: begin, end};
  }
  return bars.filter(Boolean);
}

function barWords(lane, bar) {
  if (bar.count === 1) return lane.words(bar.k);
  return `${number(bar.count)} from ${when(bar.begin)} to ${when(bar.last)}; the first: ${lane.words(bar.k)}`;
}

// Where a mark leads: to what it is, or into the range that it has many of.
function goTo(it, lane, bar, from) {
  const span = bar.last - bar.begin;
  if (bar.count === 1 || span < 1 || it.line.to - it.line.from <= LEAST_SPAN)
    lane.jump(bar.k, from);
  else
    setRange(it, bar.begin - span / 8, bar.last + span / 8);
}

function drawLane(it, lane, row, room) {
  const bars = barsOf(lane, it.line, room), most = Math.max(1, ...bars.map((bar) => bar.count));
  const isCount = most > 1, least = lane.isLong ? LANE / 3 : 3, top = room.top(row), made = [];
  const upTo = isCount ? `, up to ${number(most)}` : "";
  made.push(
      s("text", {x: room.isNarrow ? room.left : 0, y: room.isNarrow ? top - 4 : top + 16, class: "faint"},
        lane.name + (room.isNarrow ? upTo : "")));
  if (isCount && !room.isNarrow)
    made.push(s("text", {x: room.left - 6, y: top + 16, class: "faint small", "text-anchor": "end"}, number(most)));
  made.push(s("line", {x1: room.left, x2: room.right, y1: top + LANE, y2: top + LANE, class: "lane"}));
  for (const bar of bars) {
    const x = room.left + bar.at * BAR, end = lane.isLong ? Math.min(room.right, room.x(bar.end)) : x;
    const high = isCount ? Math.max(least, LANE * bar.count / most) : LANE, wide = Math.max(BAR - 1, end - x);
    const mark = s("rect", {x, y: top + LANE - high, width: wide, height: high, class: lane.kind(bar.k)});
    it.line.drawn.push({mark, row, x, wide, words: barWords(lane, bar), go: (from) => goTo(it, lane, bar, from)});
    made.push(mark);
  }
  return made;
}

// What wasn't read, hatched over the lanes of what was said.
function drawUnread(it, room) {
  const {unread} = it.line, high = room.top(unread.lanes - 1) + LANE;
  const made = barsOf(unread, it.line, room).map((bar) => {
    const x = room.left + bar.at * BAR, wide = Math.max(BAR, Math.min(room.right, room.x(bar.end)) - x);
    return s("rect", {x, y: 0, width: wide, height: high, class: "unread"}, s("title", {}, "not read"));
  });
  const line = s("line", {x1: 0, x2: 0, y1: 0, y2: 6, class: "hatch"});
  const hatch = {id: "hatch", width: 6, height: 6, patternUnits: "userSpaceOnUse", patternTransform: "rotate(45)"};
  return made.length ? [s("defs", {}, s("pattern", hatch, line)), ...made] : [];
}

// The fault: always in sight, at the edge if the range doesn't have it.
function drawFault(it, room) {
  const {fault, from, to, lanes} = it.line, row = lanes.length, top = room.top(row);
  if (fault === null) return [];
  const at = Math.max(room.left + 2, Math.min(room.right - 2, room.x(fault))), isThere = fault >= from && fault <= to;
  const isLeft = at < (room.left + room.right) / 2, words = `row ${number(it.row)}`;
  const text = isThere ? words : isLeft ? `◂ ${words}` : `${words} ▸`;
  const mark = s("rect", {x: at - 2, y: top, width: 4, height: LANE, class: "bad"});
  it.line.drawn.push({
    mark,
    row,
    x: at - 2,
    wide: 4,
    words: `${words} ${faultIs(it.unjudged ? "unjudged" : it.report.rule)}`,
    go: (from) => isThere ? jumpToRow(it.row, from) : showTime(it, fault)
  });
  return [
    s("text", {x: room.isNarrow ? room.left : 0, y: room.isNarrow ? top - 4 : top + 16, class: "faint"}, "the fault"),
    s("line", {x1: room.left, x2: room.right, y1: top + LANE, y2: top + LANE, class: "lane"}),
    isThere ? s("line", {x1: at, x2: at, y1: 2, y2: top + LANE, class: "fault"}) : [], mark,
    s("text", {x: at + (isLeft ? 6 : -6), y: top + 16, class: "faint", "text-anchor": isLeft ? "start" : "end"}, text)
  ].flat();
}

// A step between times that are easy to read, for so many of them at most.
function niceStep(span, most) {
  const steps = [];
  for (let ten = 1; ten <= 1e7; ten *= 10) steps.push(ten, 2 * ten, 5 * ten);
  steps.push(...[60, 120, 300, 600, 1200, 1800, 3600, 7200, 14400, 43200, 86400, 864000].map((it) => it * 1e6));
  return steps.find((it) => span / it <= most) ?? span / most;
}

function drawTimes(it, room) {
  // A label and a half: at the right edge a label ends at its mark.
  const {from, to} = it.line, span = to - from, digits = span < 1e4 ? 6 : span < 1e7 ? 3 : 0;
  const wide = 11 * when(to, digits).length + 5, zero = clock?.zero ?? 0;
  const step = niceStep(span, Math.max(2, (room.right - room.left) / wide));
  const made = [], y = room.high - 8;
  for (let at = Math.ceil((from + zero) / step) * step - zero; at <= to; at += step) {
    const x = room.x(at), anchor = x < room.left + 50 ? "start" : x > room.right - 50 ? "end" : "middle";
    made.push(
        s("line", {x1: x, x2: x, y1: room.high - 26, y2: room.high - 21, class: "axis"}),
        s("text", {x, y, "text-anchor": anchor, class: "faint"}, when(at, digits)));
  }
  return made;
}

function drawHere(it, room) {
  const at = it.here?.at;
  if (at === undefined || at < it.line.from || at > it.line.to) return [];
  return [s(
      "line", {x1: room.x(at), x2: room.x(at), y1: 0, y2: room.high - 22, class: "here", "aria-current": "true"})];
}

/** @type {(it: Answer) => void} */
export function drawLine(it) {
  const figure = by("line");
  if (!figure || !it.line) return;
  const room = it.line.room = measure(it, figure), made = figure.querySelector("svg");
  it.line.drawn = [];
  it.line.current = null;
  made.setAttribute("viewBox", `0 0 ${room.wide} ${room.high}`);
  made.dataset.from = String(Math.round(it.line.from));
  made.dataset.to = String(Math.round(it.line.to));
  made.replaceChildren(
      ...drawUnread(it, room), ...it.line.lanes.map((lane, row) => drawLane(it, lane, row, room)).flat(),
      ...drawFault(it, room), ...drawTimes(it, room), ...drawHere(it, room));
  by("line-range").textContent = `${when(it.line.from)} to ${when(it.line.to)}`;
  fieldBy("line-all").disabled = fieldBy("line-out").disabled =
      it.line.from <= it.line.begin && it.line.to >= it.line.end;
  fieldBy("line-in").disabled = it.line.to - it.line.from <= LEAST_SPAN;
  fieldBy("line-left").disabled = it.line.from <= it.line.begin;
  fieldBy("line-right").disabled = it.line.to >= it.line.end;
}

// Shows a range, as far as the recording has it.
function setRange(it, from, to) {
  const {begin, end} = it.line, span = Math.min(end - begin, Math.max(LEAST_SPAN, to - from));
  const middle = (from + to) / 2, low = Math.max(begin, Math.min(end - span, middle - span / 2));
  it.line.from = low;
  it.line.to = low + span;
  drawLine(it);
  tellMark("");
}

// Zooms about a time: that of a mark, else the one that was jumped to, else the middle.
function zoom(it, factor, about) {
  const {from, to} = it.line, here = it.here?.at, isHere = here >= from && here <= to;
  const around = about ?? (isHere ? here : (from + to) / 2);
  setRange(it, around - (around - from) * factor, around + (to - around) * factor);
}

function pan(it, part) {
  const {from, to} = it.line, move = (to - from) * part;
  setRange(it, from + move, to + move);
}

// Brings a time into the range, without changing how long that is.
function showTime(it, at) {
  const span = it.line.to - it.line.from;
  if (at < it.line.from || at > it.line.to) setRange(it, at - span / 2, at + span / 2);
}

function tellMark(words) {
  by("line-told").textContent = words;
}

// Makes a mark the one that keys and pointer are at.
function setCurrent(it, drawn) {
  it.line.current?.mark.classList.remove("current");
  it.line.current = drawn;
  drawn?.mark.classList.add("current");
  tellMark(drawn ? drawn.words : "");
}

// The mark nearest to a place of the drawing.
function markAt(it, x, y) {
  const {drawn, room} = it.line;
  let best = null, least = NEAR;
  for (const one of drawn) {
    const top = room.top(one.row), far = Math.max(0, one.x - x, x - one.x - one.wide);
    if (y >= top - 4 && y <= top + LANE + 4 && far < least) {
      best = one;
      least = far;
    }
  }
  return best;
}

// The mark that a key leads to from the one that is current.
function nextMark(it, key) {
  const {drawn, current} = it.line;
  if (!current) return drawn[0] ?? null;
  const own = drawn.filter((one) => one.row === current.row), at = own.indexOf(current);
  if (key === "ArrowLeft") return own[Math.max(0, at - 1)];
  if (key === "ArrowRight") return own[Math.min(own.length - 1, at + 1)];
  if (key === "Home") return own[0];
  if (key === "End") return own.at(-1);
  const rows = [...new Set(drawn.map((one) => one.row))];
  const row = rows[rows.indexOf(current.row) + (key === "ArrowUp" ? -1 : 1)];
  const others = drawn.filter((one) => one.row === row), far = (one) => Math.abs(one.x - current.x);
  return others.length ? others.reduce((a, b) => far(b) < far(a) ? b : a) : current;
}

function pressed(it, e) {
  const around = it.line.current ? it.line.room.at(it.line.current.x) : undefined;
  if (e.ctrlKey || e.metaKey || e.altKey) return;
  if (e.shiftKey && (e.key === "ArrowLeft" || e.key === "ArrowRight"))
    pan(it, e.key === "ArrowLeft" ? -0.5 : 0.5);
  else if (e.key === "+" || e.key === "=")
    zoom(it, 0.5, around);
  else if (e.key === "-")
    zoom(it, 2, around);
  else if (e.key === "0")
    setRange(it, it.line.begin, it.line.end);
  else if (/^Arrow|^Home$|^End$/.test(e.key))
    setCurrent(it, nextMark(it, e.key));
  else if ((e.key === "Enter" || e.key === " ") && it.line.current)
    it.line.current.go(e.currentTarget);
  else
    return;
  e.preventDefault();
}

// The pointer: it names what it is over, a click leads there, and dragging selects a range.
function followPointer(it, made) {
  let begin = null, band = null;
  const place = (e) => {
    const box = made.getBoundingClientRect(), scale = it.line.room.wide / box.width;
    return [(e.clientX - box.left) * scale, (e.clientY - box.top) * scale];
  };
  const end = () => {
    band?.remove();
    begin = band = null;
  };
  made.addEventListener("pointerdown", (e) => {
    if (e.button !== 0) return;
    begin = place(e)[0];
    made.setPointerCapture(e.pointerId);
  });
  made.addEventListener("pointermove", (e) => {
    const [x, y] = place(e);
    if (begin === null || Math.abs(x - begin) < DRAGGED && !band) {
      setCurrent(it, markAt(it, x, y));
      return;
    }
    if (!band) made.append(band = s("rect", {y: 0, height: it.line.room.high - 22, class: "band"}));
    band.setAttribute("x", Math.min(x, begin));
    band.setAttribute("width", Math.abs(x - begin));
  });
  made.addEventListener("pointerup", (e) => {
    const [x, y] = place(e), from = begin, isRange = band !== null, {at} = it.line.room;
    end();
    if (from === null) return;
    if (isRange)
      setRange(it, at(Math.min(from, x)), at(Math.max(from, x)));
    else
      markAt(it, x, y)?.go(made);
  });
  made.addEventListener("pointercancel", end);
  made.addEventListener("pointerleave", () => begin === null && setCurrent(it, null));
}

function followWheel(it, made) {
  made.addEventListener("wheel", (e) => {
    if (!e.ctrlKey && !e.metaKey && !e.altKey) return;
    e.preventDefault();
    const box = made.getBoundingClientRect(), x = (e.clientX - box.left) * it.line.room.wide / box.width;
    zoom(it, Math.exp(Math.max(-100, Math.min(100, e.deltaY)) * 0.004), it.line.room.at(x));
  }, {passive: false});
}

// Marks a time on the time line and goes there.
/** @type {(at: number, from?: HTMLElement) => void} */
export function jumpToTime(at, from) {
  const it = state, {first = 0, last = 0} = from?.dataset ?? {};
  leave(it, from);
  tellRow("");
  showTime(it, at);
  markHere(it, {first: Number(first), last: Number(last), at});
  tellMark(`${when(at)} is marked${first ? `, the start of row ${number(first)}` : ""}`);
  land(by("line").querySelector("svg"));
}

function lineTools(it) {
  const button = (id, name, words, onclick) =>
      h("button", {type: "button", id, "aria-label": words, title: words, onclick}, name);
  return h(
      "div", {class: "tools noprint"}, button("line-in", "+", "Zoom in", () => zoom(it, 0.5)),
      button("line-out", "−", "Zoom out", () => zoom(it, 2)),
      button("line-all", "All", "The whole recording", () => setRange(it, it.line.begin, it.line.end)),
      button("line-left", "◂", "Earlier", () => pan(it, -0.5)), button("line-right", "▸", "Later", () => pan(it, 0.5)),
      h("span", {id: "line-range", role: "status"}), clock ? null : clockButton());
}

const clockButton = () =>
    h("button", {type: "button", id: "line-clock", onclick: openClock}, "Show times of the clock");

function silenceList(it) {
  const {silences} = it.found;
  if (!silences.length) return [];
  const judged = (q) => isUnjudged(it, q) ? h("span", {class: "soft"}, " – not judged") : null;
  const some = silences.slice(0, MOST_SILENCES), more = silences.length - some.length;
  return [
    h("p", {}, it.report ? "Silences, by the limits of the report:" : "Silences, by the limits that a report has:"),
    h("ul", {id: "silences"},
      some.map((q) => h("li", {}, silenceWords(q), ", rows ", rowLink(q.first, q.last), judged(q)))),
    more ? h("p", {}, `and ${number(more)} more`) : null
  ];
}

/** @type {(it: Answer) => string} */
const surveyCounts = ({survey}) =>
    survey ? `, ${survey.stretches.length} stretches, ${survey.faults.length} faults` : "";

/** @type {(it: Answer) => HTMLElement} */
export function timeSection(it) {
  it.line = makeLine(it);
  const {found, line} = it;
  const told = `Time line from ${when(line.begin)} to ${when(line.end)}: ${found.breaks.length} breaks, ${
      found.resets.length} resets, ${found.silences.length} silences, ${found.money.length} entries of money${
      surveyCounts(it)}`;
  const made = s("svg", {role: "application", "aria-label": told, "aria-describedby": "line-help", tabindex: 0});
  const figure = h("figure", {id: "line"}, made);
  made.addEventListener("keydown", (e) => pressed(it, e));
  followPointer(it, made);
  followWheel(it, made);
  let wide = 0;
  new ResizeObserver(() => {
    if (figure.clientWidth !== wide && state === it) drawLine(it);
    wide = figure.clientWidth;
  }).observe(figure);
  queueMicrotask(() => drawLine(it));
  return section(
      "Time line", "time", lineTools(it), figure, h("p", {id: "line-told", role: "status"}),
      h("details", {class: "hint noprint"}, h("summary", {}, "How to use the time line"),
        h("p", {id: "line-help"},
          "Click a mark to go there. Drag to zoom into a range, or hold Ctrl and turn the wheel. Keys: arrows go from mark to mark, Enter goes there, + and − zoom, Shift with an arrow moves, 0 shows all. Bars count what would lie on top of each other; the number beside a lane is that of its highest bar.")),
      hatchWords(it), silenceList(it));
}
