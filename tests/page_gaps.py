"""What tests/page_survey.py wants of the lists after a survey, in words of `mdbcheck show`.

A part of a recording begins with row 1, or after a row that breaks a rule of the link, and ends
before the next one. `show` is asked for the acts of each part by itself. By the base profile it takes
a part that begins after such a row from its first command or break on: the words before are foreign.
By the extended one it is told the levels of the parts before. Where `show` stops at a row that the
survey takes, the part ends with the last row before it that breaks a rule of a device, and the next
one begins after that.
"""

import bisect
import collections
import json
import re
import subprocess

from cases import readers_in
from page_news import LISTS, Walk, known_in, setups_of
from reader_formats import Formats

DEVICE_RULES = ("Changer", "Bill", "Cashless")
#: What the page has: its acts, its entries, and the gaps that it marks.
LINES = "JSON.stringify(Array.from({length: state.list.count}, (_, i) => state.list.line(i)))"
GAPS = "JSON.stringify([(state.gaps ?? []).map((it) => it.row), by('gaps')?.textContent ?? null])"


def is_begin(row):
    return re.match(r"[0-9]+,(B|M,1)", row) is not None


class Shown:
    """What `show` prints of rows. Rows with the same times from the first one on are asked for once."""

    def __init__(self, program):
        self.program, self.known = program, {}

    def lines(self, rows, words):
        begin = int(rows[0].split(",")[0])
        split = [row.split(",") for row in rows]
        text = "".join(f"{int(at) - begin},{line},{value}\n" for at, line, value in split) if min(int(it[0]) for it in split) >= begin else "".join(f"{row}\n" for row in rows)
        key = text, tuple(words)
        if key not in self.known:
            ran = subprocess.run([self.program, "show", *words], input=text.encode(), capture_output=True)
            self.known[key] = ran.stdout.decode().splitlines()
        return self.known[key]


class Part(collections.namedtuple("Part", "lines halt")):
    """The lines of `show` of a part, with rows of the recording; and the row at which it stopped, or 0."""


def part_of(shown, rows, first, last, is_joined, words):
    """The lines of the rows from `first` to `last`, numbers from 1."""
    lines, at = [], first
    while is_joined and "--extended" not in words and at <= last and not is_begin(rows[at - 1]):
        lines.append(f"{at}-{at} foreign")
        at += 1
    if at > last:
        return Part(lines, 0)
    for line in shown.lines(rows[at - 1:last], words):
        place, _, rest = line.partition(" ")
        if place == "fault":
            return Part(lines, int(rest.split(" ")[0]) + at - 1)
        begin, end = (int(it) + at - 1 for it in place.split("-"))
        lines.append(f"{begin}-{end} {rest}")
    return Part(lines, 0)


def left_out_in(made, number, words):
    """Who is left out from a stretch on; nobody else is if no stretch comes."""
    at = bisect.bisect_left(made.stretches, number, key=lambda it: it["number"])
    if at < len(made.stretches):
        return made.stretches[at]["report"].get("without", [])
    return [words[i + 1] for i, word in enumerate(words) if word == "--without"]


class Levels(Formats):
    """The levels that `show` is told, by the readers' names."""

    def take(self, lines):
        for line in lines:
            kind, *words = line.split(" ")[1:]
            if kind in ("ask", "reply") and words[0].startswith("cashless"):
                (self.ask if kind == "ask" else self.reply)(words[0], [int(it, 16) for it in words[1:-1]])

    def crosses_a_fault(self):
        """It may hide a SETUP, so a low level of the controller is told only beside a low one of the reader."""
        self.told = {name: level for name, level in self.told.items() if level >= 2 or self.own.get(name, 2) < 2}

    def words(self, is_joined, left_out):
        """The words of `show` for what comes then."""
        words = [word for device in left_out for word in ("--without", device)]
        if not self.is_extended:
            return words
        blocks = [(name, [0x11 + 0x50 * (name != "cashless"), 0, level, 0, 0, 0]) for name, level in self.told.items()]
        blocks += [(name, [1, level, 0, 0, 1, 0, 5, 0]) for name, level in self.own.items()]
        for name, block in blocks:
            if is_joined and name not in left_out:
                words += ["--setup", f"{name} {bytes([*block, sum(block) % 256]).hex(' ').upper()}"]
        return ["--extended"] + ["--joined"] * is_joined + words


def parts(shown, made, words, most):
    """The lines of each part of a recording, up to its last fault if it has more than `most`."""
    faults, is_joined, first, number = made.faults[:most], "--joined" in words, 1, 0
    levels = Levels("--extended" in words, readers_in(words))
    end = made.rows if len(made.faults) <= most else faults[-1][0]
    while first <= end:
        taken = levels.words(is_joined, left_out_in(made, number + 1, words))
        link = next((k for k in range(number, len(faults)) if faults[k][1] not in DEVICE_RULES), None)
        last = end if link is None else faults[link][0] - 1
        part = part_of(shown, made.lines, first, last, is_joined, taken)
        cut = len(faults) if link is None else link + 1
        if part.halt:
            cut = max(k for k, fault in enumerate(faults) if fault[0] < part.halt) + 1
            last = faults[cut - 1][0]
            part = part_of(shown, made.lines, first, last, is_joined, taken)
        yield part.lines
        levels.take(part.lines)
        if link is None and not part.halt and last == end:
            return
        first, number, is_joined = faults[cut - 1][0] + 1, cut, True
        levels.crosses_a_fault()


def words_before(shown, made, words, most, number, row):
    """The words of `show` for the rows before a fault, with the levels that all acts before a row tell."""
    levels = Levels("--extended" in words, readers_in(words))
    for lines in parts(shown, made, words, most):
        levels.take(line for line in lines if int(line.split(" ")[0].split("-")[1]) < row)
    return levels.words(True, left_out_in(made, number, words))


def entries_of(lists, words):
    """The entries of all parts: set-ups that were told stay known."""
    found, setups = {name: [] for name in LISTS}, dict(setups_of(list(words)))
    formats = Formats("--extended" in words, known_in(words))
    for lines in lists:
        walk = Walk(setups)
        walk.formats = formats
        for line in lines:
            walk.line(line)
        setups = walk.setups
        for name in LISTS:
            found[name] += walk.found[name]
    return found


def first_difference(came, wanted):
    return next((it for it in zip(came + [None], wanted + [None]) if it[0] != it[1]), None)


def compare_acts(page, lists, want, half):
    """The acts that the page lists: all, or the first and the last ones, `half` or more."""
    wanted, came = [line for lines in lists for line in lines], json.loads(page.browser.value(LINES))
    hole, missing = int(page.browser.value("state.hole")), len(wanted) - len(came)
    if hole >= 0:
        want(half <= hole <= len(came) - half, f"the first {hole} of {len(came)} acts are listed")
        wanted = wanted[:hole] + wanted[hole + missing:]
    want(came == wanted, f"acts: {len(came)}, wanted {len(wanted)}; shown and wanted: {first_difference(came, wanted)}")
    return came


def compare_lists(page, made, words, shown, most, want, found, half=400_000):
    """Compares the page's acts, entries and gaps with what `show` prints. `found` reads the page's entries."""
    lists = list(parts(shown, made, words, most))
    came = compare_acts(page, lists, want, half)
    entries, told = entries_of(lists, words), json.loads(page.browser.value(found))
    for name in LISTS:
        want(told[name] == entries[name], f"{name}: shown and wanted: {first_difference(told[name], entries[name])}")
    gaps = [row for row, rule, _ in made.faults[:most] if rule not in DEVICE_RULES]
    rows, said = json.loads(page.browser.value(GAPS))
    want(rows == gaps, f"the gaps are {rows[:5]}, wanted {gaps[:5]}")
    if came:
        want(bool(said) == bool(gaps), f"of the gaps it says {said!r}")
    return entries


#: Of each sale that the page lists as sold, from its request on and with its approval, the first row of its end. A sale
#: for cash is one, too.
SOLD = """JSON.stringify(statementOf(state).lines.filter((line) => {
  const has = (part) => line.parts.some((it) => it.part === part);
  return line.isSale ? line.outcome === "sold" && has("request") && has("approved") : state.found.money[line.parts[0].i].what === "cash sale";
}).map((line) => state.found.money[line.parts.at(-1).i].first))"""


def sales_of(entries):
    """The rows of each sale of a day in which all went well, by the first row of its end: from its request on, or
    those of a sale for cash."""
    found, requests = {}, {}
    for first, last, device, what, *_ in entries["money"]:
        if what == "vend request":
            requests[device] = first
        elif what == "vend success":
            found[first] = requests[device], last + 1
        elif what == "cash sale":
            found[first] = first, last + 1
    return found
