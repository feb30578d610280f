#!/usr/bin/env python3
"""tests/page_survey.py [--firefox] [GENERATED [SEED]]: whether the page surveys a recording as
`mdbcheck survey` does.

After a no, the page's button surveys

- each recording of examples/ that has a no, from power-on and joined, and by the extended profile;
- each worked case that is a survey by the extended profile;
- so many damaged recordings (200 if not said), those of tests/surveyed, with their options, one in two by
  the extended profile;
- a bad row in the middle, faults alone, 10,000 faults, more faults than the page lists, times in
  milliseconds, and exchanged lines;
- in Chromium a day of eight hours with eight flipped bits (tests/make_day.py), whose sales have to
  be listed, in at most twice the time that the day takes without them.

The text has to be the program's, byte for byte. The table of faults, the stretches with their sums,
the totals, the lanes of the time line and the saved files have to say what that text says, with the
times of the rows. What was said, with all entries of money, has to be what `show` prints of the rows
between the gaps (tests/page_gaps.py). Then the test stops surveys and gives other files and options while one runs:
nothing of the old one may stand. It looks at focus, keys, names, headings, contrast, print and the
width of a telephone. tests/page runs this, too. Ends with status 1 at the first difference.
"""

import json
import pathlib
import re
import subprocess
import sys
import tempfile
import time

sys.dont_write_bytecode = True

from browser import Browser  # noqa: E402
from cases import SETUP, all_cases, is_way_of_page  # noqa: E402
from firefox import Firefox  # noqa: E402
import make_day  # noqa: E402
import page_gaps  # noqa: E402
import page_profiles  # noqa: E402
from page_news import FOUND  # noqa: E402
from programs import MDBCHECK, Runs, load  # noqa: E402
from unjudged import unjudged  # noqa: E402

TOP = pathlib.Path(__file__).resolve().parent.parent
EXAMPLES = TOP / "examples"
page_test = load("page")
want, Wrong, amount = page_test.want, page_test.Wrong, page_test.amount
SENDERS = page_test.NAMES
# The most faults that the page lists, and so many it shows at a time.
MOST, AT_A_TIME = 20_000, 200
SHOWN, RUN = page_gaps.Shown(MDBCHECK), Runs(MDBCHECK).run

# What a reader finds of a survey. Tables are read page by page.
READ = """(() => {
  const text = (it) => it ? it.textContent : null, all = (q) => [...document.querySelectorAll(q)];
  const paged = (id, read) => { const found = [], back = by(id + "-back"), more = by(id + "-more");
    while (back && !back.disabled) back.click();
    found.push(...read());
    while (more && !more.disabled) { more.click(); found.push(...read()); }
    while (back && !back.disabled) back.click();
    return found; };
  const faults = () => all("#survey-rows > tr:not(.about)").map((it) => [...it.children].slice(0, 6).map(text));
  const sums = (body) => [...body.querySelectorAll("tr[data-account]")].map((it) =>
    [it.dataset.account, ...[...it.querySelectorAll("td")].map(text)]);
  const body = (it) => ({head: [...it.querySelectorAll(".head > div")].map(text), sums: sums(it)});
  const lane = (name) => { const it = state.line?.lanes.find((it) => it.name === name);
    return it ? [...it.begin].map((begin, k) => [begin, it.end[k], it.words(k)]) : []; };
  const drawn = (name) => { const row = state.line.lanes.findIndex((it) => it.name === name);
    return state.line.drawn.filter((it) => it.row === row).map((it) => it.words); };
  return JSON.stringify({
    whole: state.survey.whole, text: text(by("survey-text")), command: text(by("survey-command")), lead: text(by("survey-lead")),
    offer: text(by("survey-offer")), word: text(document.querySelector("#verdict .word")), ruling: text(by("ruling")), end: text(by("survey-end")), many: text(by("survey-many")),
    faults: paged("survey", faults), stretches: paged("stretch", () => all("#stretch-table > tbody:not(#stretch-total)").map(body)),
    total: by("stretch-total") && body(by("stretch-total")), rules: all("#survey-rules tbody tr").map((it) => [...it.children].map(text)),
    lanes: [lane("stretches"), lane("faults")], drawn: [drawn("stretches"), drawn("faults")], csv: faultCsv(state.survey),
    contents: all("#contents a").map(text), titles: all("#told > section > h2").map(text), focus: document.activeElement.id,
    title: document.title, announced: text(by("announced")), check: text(by("text")), listed: state.survey.faults.length,
  });
})()"""
ACCOUNTS = ["coins-in", "bills-in", "paid-out", "approved", "sold", "approved-2", "sold-2"]
OWNERS = page_test.OWNERS


class Survey:
    """What the program prints of a recording, read."""

    def __init__(self, data, words):
        self.words = words
        self.ran = subprocess.run([MDBCHECK, "survey", *words], input=data, capture_output=True)
        self.status, self.text = self.ran.returncode, self.ran.stdout.decode()
        self.stretches, self.faults, self.totals, self.counts = [], [], {}, None
        for line in self.text.splitlines():
            kind, *rest = line.split(" ")
            if kind == "stretch":
                first, last = map(int, rest[2].split("-"))
                self.stretches.append({"number": int(rest[0]), "first": first, "last": last, "report": {}})
            elif kind == "fault":
                self.faults.append((int(rest[0]), *rest[1:]))
            elif kind == "total":
                self.totals[rest[0]] = rest[1:]
            elif kind == "faults":
                self.counts = dict(zip([kind, *rest[1::2]], map(int, [rest[0], *rest[2::2]])))
            else:
                self.stretches[-1]["report"][kind] = rest
        lines = [it.rstrip("\r") for it in data.decode("latin-1").removeprefix("\xef\xbb\xbf").split("\n")]
        self.lines = [it for it in lines if it]
        self.rows = max([row for row, *_ in self.faults] + [it["last"] for it in self.stretches], default=0)

    def time(self, row):
        return int(self.lines[row - 1].split(",")[0])

    def choice(self):
        """The first listed row of alternative payout, from which on paid-out isn't known; 0 if there is none."""
        said = lambda row: self.lines[row - 1].split(",")[1:]
        return next((row for row, *fault in self.faults[:MOST] if fault == ["Profile", "controller"] and row > 1
                     and said(row - 1) == ["M", "10F"] and said(row) in (["M", "002"], ["M", "003"], ["M", "004"])), 0)


    def lost(self, money):
        """Sales that aren't followed: (device, row of the fault, row of the next VEND REQUEST). `money` has the entries."""
        said = lambda row: self.lines[row - 1].split(",")[1:]
        for row, *fault in self.faults[:MOST]:
            before, here = said(row - 1) if row > 1 else ["", ""], said(row)
            device = {"113": 3, "163": 4}.get(before[1].upper()) if before[0] == here[0] == "M" else None
            if fault == ["Profile", "controller"] and device and 5 < int(here[1], 16) < 256:
                yield device, row, min((it[0] for it in money if it[2] == device and it[3] == "vend request" and it[0] > row), default=self.rows + 1)


#: What an account of a reader counts.
COUNTED = {"approved": "vend approved", "sold": "vend success"}


def unknown_in(choice, lost, money, first=0, last=float("inf")):
    """The row from which on an account isn't known in some rows, by account; those that are known aren't there."""
    found = {}
    if choice and (first > choice or not first):
        found["paid-out"] = choice
    for name in ACCOUNTS if lost else ():
        kind, _, second = name.partition("-")
        for at, _, device, what, *_ in money:
            rows = [row for one, row, to in lost if one == device and at < to]
            is_lost = any(one == device and row < at < to for one, row, to in lost)
            if what == COUNTED.get(kind) and device == (4 if second else 3) and first <= at <= last and is_lost:
                found.setdefault(name, rows[0])
    return found


def seconds(micros):
    """A time as the page writes it."""
    whole, part = divmod(micros // 1000, 1000)
    if whole < 60:
        return f"{whole}.{part:03} s"
    hours, minutes, rest = whole // 3600, whole // 60 % 60, whole % 60
    end = f"{rest:02}.{part:03}"
    return f"{hours}:{minutes:02}:{end}" if hours else f"{minutes}:{end}"


def bounds(words, places):
    """A range as the page writes it."""
    least, greatest = (amount(it, places) for it in words.split(".."))
    return least if least == greatest else f"{least} to {greatest}"


def sums_of(report, places, unknown):
    """The accounts in which something moved, as the page writes them. `places` has the decimals of a device, and `unknown`
    from which row on an account isn't known."""
    for name in ACCOUNTS:
        ranges = report[name][1::2]
        if name in unknown:
            yield [name, f"not known from row {unknown[name]} on"]
        elif any(it != "0..0" for it in ranges):
            yield [name, *(bounds(it, places(OWNERS[name])) for it in ranges)]


def listed(words):
    return "".join(words) if len(words) < 2 else f"{', '.join(words[:-1])} and {words[-1]}"


def notes_of(report):
    """What the page notes of a stretch."""
    counts = {kind: dict(zip(report[kind][::2], map(int, report[kind][1::2]))) for kind in ("silences", "unvalued")}
    found = []
    for device in page_test.DEVICES:
        for kind, one, after in (("silences", "silence", ""), ("unvalued", "amount", " without a known value")):
            n = counts[kind][device]
            if n:
                found.append(f"{n} {one}{'' if n == 1 else 's'} of {SENDERS[device]}{after}")
    untimely = report.get("untimely", [])
    late = [f"{n} row{'' if n == '1' else 's'} of {SENDERS[it]}" for it, n in zip(untimely[::2], untimely[1::2]) if n != "0"]
    if late:
        found.append(f"out of time: {listed(late)}")
    for kind, words in (("without", "left out"), ("setup", "set-up known of")):
        if kind in report:
            found.append(f"{words}: {listed([SENDERS[it] for it in report[kind]])}")
    return found


def places_of(report):
    found = dict(zip(report["decimals"][::2], report["decimals"][1::2]))
    return lambda device: 0 if found[device] == "-" else int(found[device])


def total_places(made):
    """The decimals that each device has in the stretches."""
    found = {it: set() for it in page_test.DEVICES}
    for it in made.stretches:
        words = it["report"]["decimals"]
        for device, places in zip(words[::2], words[1::2]):
            if places != "-":
                found[device].add(int(places))
    return found


def span(first, last):
    return f"row {first}" if first == last else f"rows {first}–{last}"


def plain(words):
    """Numbers of rows without their commas: where the page has a link, they have none."""
    return words.replace(",", "")


class Page(page_test.Page):
    """The page, and its surveys."""

    def push(self, name):
        """Presses a button as by the keyboard: it has the focus."""
        self.browser.value("(() => { const it = by('%s'); it.focus(); it.click(); return 1; })()" % name)

    def survey(self):
        before = self.shown()
        self.push("survey-go")
        self.wait(before)
        return json.loads(self.browser.value(READ))

    def has_button(self):
        return self.browser.value("Boolean(document.getElementById('survey-go'))")

    def value(self, code):
        return json.loads(self.browser.value(f"JSON.stringify({code})"))

    def until(self, code, most=60):
        end = time.monotonic() + most
        while not self.browser.value(f"Boolean({code})"):
            want(time.monotonic() < end, f"not within {most} s: {code}")
            time.sleep(0.01)


def compare_faults(made, came):
    wanted = []
    for i, (row, rule, blame) in enumerate(made.faults[:MOST]):
        wanted.append([str(i + 1), str(row), seconds(made.time(row)), rule, SENDERS[blame]])
    got = [[plain(it[0]), plain(it[1]), *it[2:5]] for it in came["faults"]]
    want(got == wanted, f"the faults: {next(((a, b) for a, b in zip(got + [None], wanted + [None]) if a != b), None)}")
    want(all(len(it[5]) > 20 and it[5].endswith(".") for it in came["faults"]), f"in words: {came['faults'][:1]}")
    csv = [["row", "time_us", "clock", "rule", "blame", "ended_stretch"]]
    csv += [[str(row), str(made.time(row)), "", rule, blame, str(i + 1)] for i, (row, rule, blame) in enumerate(made.faults[:MOST])]
    want([it.split(",") for it in came["csv"].split("\r\n")[:-1]] == csv, "the CSV of the faults")
    rules = {}
    for _, rule, blame in made.faults[:MOST]:
        rules[rule, SENDERS[blame]] = rules.get((rule, SENDERS[blame]), 0) + 1
    found = {(rule, blame): int(plain(n)) for n, rule, blame in came["rules"]}
    want(found == (rules if len(made.faults) > 5 else {}), f"the faults by rule: {found}, wanted {rules}")


def compare_stretches(made, came, money):
    unknown = made.choice(), list(made.lost(money)), money
    stretches = [it for it in made.stretches if it["number"] <= MOST or it["number"] > len(made.faults)]
    want(len(came["stretches"]) == len(stretches), f"{len(came['stretches'])} stretches, wanted {len(stretches)}")
    for it, shown in zip(stretches, came["stretches"]):
        report, name = it["report"], f"stretch {it['number']}"
        head = [f"Stretch {it['number']}", span(it["first"], it["last"]), f"{seconds(made.time(it['first']))} to {seconds(made.time(it['last']))}"]
        head += notes_of(report)
        want(list(map(plain, shown["head"])) == list(map(plain, head)), f"{name}: {shown['head']}, wanted {head}")
        wanted = list(sums_of(report, places_of(report), unknown_in(*unknown, it["first"], it["last"])))
        want(shown["sums"] == wanted, f"{name}: {shown['sums']}, wanted {wanted}")
    if not made.totals:
        want(came["total"] is None, f"there are totals: {came['total']}")
        return
    places = total_places(made)
    changed = [f"the decimal places of {SENDERS[it]} changed: its sums here have none" for it in page_test.DEVICES if len(places[it]) > 1]
    want(came["total"]["head"] == ["All stretches", *notes_of(made.totals), *changed], f"the totals: {came['total']['head']}")
    shared = list(sums_of(made.totals, lambda device: next(iter(places[device])) if len(places[device]) == 1 else 0, unknown_in(*unknown)))
    want(came["total"]["sums"] == shared, f"the totals: {came['total']['sums']}")


def compare_lanes(made, came):
    if len(made.faults) > MOST:
        return
    stretches = [[made.time(it["first"]), made.time(it["last"]),
                  f"stretch {it['number']:,}: rows {it['first']:,} to {it['last']:,}, from {seconds(made.time(it['first']))} to {seconds(made.time(it['last']))}"]
                 for it in made.stretches]
    words = {"Profile": "isn't followed"}
    faults = [[made.time(row), made.time(row), f"row {row:,} {words.get(rule, f'breaks the rule {rule}')}, {SENDERS[blame]}, at {seconds(made.time(row))}"]
              for row, rule, blame in made.faults]
    for name, wanted, lane, drawn in zip(("stretches", "faults"), (stretches, faults), came["lanes"], came["drawn"]):
        want(lane == wanted, f"the lane {name}: {lane[:3]}, wanted {wanted[:3]}")
        # What is drawn has each once: alone, or counted.
        count = sum(1 if it.startswith(("stretch ", "row ")) else int(plain(it.split(" ")[0])) for it in drawn)
        want(count == len(wanted), f"the lane {name} shows {count} of {len(wanted)}: {drawn[:3]}")


def compare_words(made, came, words):
    """What the page says around the tables."""
    n = len(made.faults)
    count = f"{n:,} fault{'' if n == 1 else 's'} in {made.rows:,} row{'' if made.rows == 1 else 's'}"
    want(came["lead"].startswith(count), f"{came['lead']!r}, wanted {count!r}")
    if made.counts:
        senders = [it for it in SENDERS if made.counts.get(it)]
        want(all(f"by {SENDERS[it]}: {made.counts[it]:,}" in came["lead"] for it in senders), f"{came['lead']!r}: {made.counts}")
        profile = made.counts["profile"]
        want((f"{profile:,} row" in came["lead"] and "no fault of anybody" in came["lead"]) if profile else "Profile" not in came["lead"], came["lead"])
    want(came["lead"] in came["offer"] and came["lead"] in came["announced"], f"{came['offer']!r}, {came['announced']!r}")
    row = made.faults[0][0]
    want(came["ruling"].startswith((f"Row {row:,} breaks ", f"From row {row:,} on, ", f"At level 1 row {row:,} breaks ")), f"the first no: {came['ruling']!r}")
    want(came["contents"] == came["titles"] and {"All faults", "Money by stretch"} < set(came["contents"]), f"{came['contents']}, {came['titles']}")
    quoted = [f"'{it}'" if " " in it else it for it in words]
    want(came["command"].replace("--setup=", "--setup ").split(" ")[:2] == ["mdbcheck", "survey"], came["command"])
    want(sorted(came["command"].removesuffix(" < FILE").split(" ")) == sorted(" ".join(["mdbcheck", "survey", *quoted]).split(" ")), f"{came['command']!r}, {words}")
    want(came["focus"] == "survey-title", f"the focus is on {came['focus']!r}")
    refused = made.ran.stderr.decode("latin-1")
    want((came["end"] is not None) == (made.status == 2), f"the end: {came['end']!r}, {refused!r}")
    if made.status == 2:
        told = refused.strip().split(": ", 2)[2]
        want(told.split(":")[0] in came["end"] and "no totals" in came["end"], f"the end: {came['end']!r}, {refused!r}")


def compare(page, data, words, name):
    """Surveys a recording, and compares; answers what the program found. None where there is no no."""
    shown = page.give(data if isinstance(data, pathlib.Path) else data, words, name)
    data = data.read_bytes() if isinstance(data, pathlib.Path) else data
    if shown["lead"] == "This proves nothing, and blames nobody.":
        want(not page.has_button(), "a recording of one line is surveyed")
        return None
    is_no = shown["card"] in ("card no", "card limit")
    want(page.has_button() == is_no, f"the button: {shown['card']}")
    if not is_no:
        if shown["card"] == "card yes":
            told = json.loads(page.browser.value("readyChecker().ask({surveyed: state.way.bytes}).then((it) => JSON.stringify([it.answer, it.text + it.last]))"))
            want(told == [0, Survey(data, words).text], f"the module's survey of a yes: {told}")
        return None
    made, came = Survey(data, words), page.survey()
    if len(made.faults) <= MOST:
        want(came["whole"] == made.text, f"the text is {came['whole'][:300]!r}, wanted {made.text[:300]!r}")
        want(came["text"] == made.text or len(made.text) > 1_000_000, "the text on the page")
    want(came["check"] == shown["text"], "the text of the check")
    compare_words(made, came, words)
    compare_faults(made, came)
    entries = page_gaps.compare_lists(page, made, words, SHOWN, MOST, want, FOUND)
    compare_stretches(made, came, entries["money"])
    compare_lanes(made, came)
    want(not page.has_button(), "the button stays")
    unjudged = page.value("[by('verdict').textContent.includes('was judged'), by('told').textContent.includes('not judged')]")
    want(unjudged == [False, False] or made.status == 2 or len(made.faults) > MOST, f"what the survey took isn't judged: {unjudged}")
    return made


def text_of(rows):
    return "".join(f"{row}\n" for row in rows).encode()


def wrong_sums(count):
    """Polls that the changer answers with a wrong sum each."""
    words = (0, "M,10B"), (1146, "M,00B"), (3000, "S,005"), (4146, "S,106")
    return [f"{1000 + 20_000 * i + at},{word}" for i in range(count) for at, word in words]


def try_examples(page):
    counts = [0, 0, 0]
    for path in sorted(EXAMPLES.glob("*.csv")):
        for words in ([], ["--joined"], ["--without", "cashless"], ["--extended"], ["--joined", "--extended"]):
            try:
                made = compare(page, path, words, path.name)
            except Wrong as wrong:
                raise Wrong(f"{path.name} {words}: {wrong}") from None
            if made:
                counts = [a + b for a, b in zip(counts, (1, len(made.faults), len(made.stretches)))]
    print("surveys of {} examples: {} faults and {} stretches, as the program prints them".format(*counts))


def try_cases(page):
    """The worked cases of surveys by the extended profile."""
    count = 0
    for case in all_cases():
        if case.words[0] != "survey" or "--extended" not in case.words or not is_way_of_page(case.words[1:]):
            continue
        try:
            made = compare(page, case.input().encode("latin-1"), case.words[1:], "case.csv")
            want(made.text == case.output(), f"the program prints {made.text!r}")
            for number in range(1, len(made.faults) + 1):
                try_story(page, made, number)
        except Wrong as wrong:
            raise Wrong(f"{case.name}: {wrong}") from None
        count += 1
    print(f"{count} worked cases of surveys by the extended profile")


def generated(number, seed):
    """Damaged recordings with their options, those that tests/surveyed compares: by either profile in turn."""
    surveyed, made = load("surveyed"), []
    surveyed.CASES = surveyed.without.recorded()
    surveyed.compared = lambda _, lines, options: made.append(("".join(lines).encode(), options)) or {}
    for index in range(number):
        surveyed.surveyed((f"page {seed}", index, 1))
        data, options = made.pop()
        words = ["--joined"] * options.is_joined + ["--extended"] * options.is_extended
        bare = (" ".join(SETUP.fullmatch(it).groups()) for it in options.values())
        for word, values in (("--without", options.left_out), ("--setup", bare)):
            words += [it for value in values for it in (word, value)]
        yield data, words


def try_generated(page, number, seed):
    counts, refused, told = [0, 0, 0], 0, 0
    for index, (data, words) in enumerate(generated(number, seed)):
        if b'"' in data:
            continue  # quotes are the import's
        try:
            made = compare(page, data, words, "recording.csv")
            if made:
                told += sum(try_story(page, made, it) for it in range(1, min(6, len(made.faults) + 1)))
        except Wrong as wrong:
            (TOP / "out" / "survey-wrong.csv").write_bytes(data)
            raise Wrong(f"damaged recording {index} of seed {seed}, {words} (out/survey-wrong.csv): {wrong}") from None
        if made:
            counts = [a + b for a, b in zip(counts, (1, len(made.faults), len(made.stretches)))]
            refused += made.status == 2
    print("surveys of {} damaged recordings of {}: {} faults and {} stretches, {} end at a line that is no row; {} sentences on the faults".format(counts[0], number, *counts[1:], refused, told))


STORY = """(() => { const it = document.querySelector('#survey-rows [data-number="%d"]').nextSibling;
  return [[...it.querySelectorAll("li")].map((one) => [one.textContent, [...one.querySelectorAll("a.jump")].map((a) => [Number(a.dataset.row), Number(a.dataset.last)])]),
    [...it.querySelectorAll("tr.mark")].map((one) => [...one.children].map((c) => c.textContent)).at(-1)]; })()"""


def unjudged_in(made, number):
    """Whether a fault isn't judged. By the extended profile the stretch is told levels. By the base one all acts before it
    show them, and none goes on after a gap; the fault is in a command of its stretch."""
    row, rule, blame = made.faults[number - 1]
    before = made.faults[number - 2][0] if number > 1 else 0
    if "--extended" not in made.words:
        gaps = {at for at, broken, _ in made.faults[: number - 1] if broken not in page_gaps.DEVICE_RULES}
        rows = ["0,B,0" if at in gaps else line for at, line in enumerate(made.lines, 1)]
        is_asked = any(",M,1" in line for line in made.lines[before:row])
        return is_asked and unjudged(text_of(rows), [*made.words, *["--joined"] * (number > 1)], row, rule, blame)
    words = page_gaps.words_before(SHOWN, made, made.words, MOST, number, before) if before else made.words
    return rule == "Profile" and page_profiles.missing(RUN, text_of(made.lines[before:row]), words)


def try_story(page, made, number):
    """What is said of a fault of the table: sentences with rows of its stretch, and its row of the file."""
    row, rule, blame = made.faults[number - 1]
    before, reader = made.faults[number - 2][0] if number > 1 else 0, unjudged_in(made, number)
    page.browser.value(f"(() => {{ document.querySelector('#survey-rows [data-number=\"{number}\"] button').click(); return 1; }})()")
    page.until(f"document.querySelector('#survey-rows [data-number=\"{number}\"]').nextSibling?.classList.contains('about')")
    told, marked = page.value(STORY % number)
    said = "this row isn't judged" if reader else {"Profile": "this row isn't followed"}.get(rule, "this row breaks the rule")
    want("--extended" in made.words or bool(reader) == any("At feature level 1" in words for words, _ in told), f"row {row} of {reader}: {told}")
    # (an answer with 0D or 0E may be followed at no level, and still break `Answer` at one)
    is_either = rule == "Profile" and any(re.search(",S,.0[DE]", line) for line in made.lines[max(0, row - 36):row])
    want(marked is not None and plain(marked[0]) == str(row) and marked[1].startswith(made.lines[row - 1][:20]), f"the rows about row {row}: {marked}")
    want(marked[2] == said or is_either, f"row {row}: {marked}, wanted {said}")
    want(all(words.strip() and not re.search("undefined|null|NaN", words) for words, _ in told), f"row {row}: {told}")
    came = page.value(f"(({{list}}) => Array.from({{length: list.count}}, (_, i) => list.line(i)))(state.survey.faults[{number - 1}].about)")
    wanted = acts_about(made, row, before, page_gaps.words_before(SHOWN, made, made.words, MOST, number, row))
    want(came == wanted, f"what was said up to row {row}: {page_gaps.first_difference(came, wanted)}")
    rows = [it for _, links in told for it in links]
    most = row + (36 if rule == "Profile" else 0)
    want(all(before < first <= last <= most for first, last in rows), f"row {row}, of which the stretch begins after {before}: {told}")
    return len(told)


def try_unjudged(page):
    """A fault after the first one that rests on a reader's level, which no row shows, blames nobody."""
    rows = (EXAMPLES / "sale-never-approved.csv").read_text().splitlines()
    for front, reader in (([], "isn't judged"), (rows[8:29], "breaks the rule")):
        begin, later = len(front), rows[29:]
        later[8] = later[8].replace(",000", ",001")
        made = compare(page, text_of(front + later), ["--joined"], "unjudged.csv")
        want([it[:2] for it in made.faults] == [(begin + 10, "Sum"), (begin + 46, "Cashless")], f"faults: {made.faults}")
        try_story(page, made, 1)
        try_story(page, made, 2)
        want(reader in page.value("document.querySelector('#survey-rows [data-number=\"2\"]').nextSibling.textContent"), f"row {begin + 46} {reader}")
    print("a fault of a survey that rests on a level that isn't known is not judged")


def try_ends(page):
    """A line that is no row after a fault; a fault in the only row; faults one after the other."""
    rows = (EXAMPLES / "a-days-recording.csv").read_text().splitlines()
    for spoiled in ("x,M,108", "1;M;108", "7205000000,L,108", "7205000000,M,8"):
        made = compare(page, text_of([*rows[:120], spoiled, *rows[120:]]), [], "spoiled.csv")
        want(made.status == 2 and len(made.faults) == 1, f"{spoiled}: {made.ran}")
    for given in (["1000,M,008"], ["1000,S,155", "1000,S,155"], ["1000,M,108", "900,M,008", "800,M,008"], ["1000,M,108", "900000,B,500", "2000,B,500", "3000,B,500"]):
        made = compare(page, text_of(given), [], "short.csv")
        want(made is not None, f"{given} is possible")
    compare(page, b"\xef\xbb\xbf" + "\r\n".join(rows).encode() + b"\r\n\r\n", [], "windows.csv")
    compare(page, "\n".join(rows).encode(), [], "no-end.csv")
    print("surveys that end at a line that is no row, and of few rows")


def try_many(page):
    """10,000 faults, more than are listed, and what so many come of."""
    made = compare(page, text_of(wrong_sums(10_000)), [], "many.csv")
    want(len(made.faults) == 10_000, f"{len(made.faults)} faults")
    want("most likely it is the file" in page.value("by('survey-many').textContent"), "10,000 faults")
    shown = page.value("[by('survey-rows').children.length, by('survey-count').textContent, by('survey-text').textContent.length < 1100000]")
    want(shown == [AT_A_TIME, "Faults 1 to 200 of 10,000.", True], f"10,000 faults: {shown}")
    saved = page.value("(() => { window.kept = null; const old = window.save; window.save = (...it) => { window.kept = it; }; by('save-survey').click(); window.save = old; return [kept[0], kept[1] === state.survey.whole]; })()")
    want(saved == ["many-survey.txt", True], f"the saved text: {saved}")
    made = compare(page, text_of(f"{1000 + 1_000_000 * i},B,500" for i in range(MOST + 5)), [], "breaks.csv")
    want(not made.stretches and "there are no sums" in page.value("by('stretches').textContent"), "faults alone")
    made = compare(page, text_of([*wrong_sums(MOST + 10), "1000000000000,M,10B"]), [], "one-more.csv")
    made = compare(page, text_of(wrong_sums(MOST + 10)), [], "more.csv")
    told = page.value("by('survey').textContent")
    want(f"The first 20,000 of {MOST + 10:,} faults are listed." in told and page.value("state.survey.faults.length") == MOST, "more than are listed")
    day = (EXAMPLES / "a-days-recording.csv").read_text().splitlines()
    split = [row.split(",") for row in day]
    compare(page, text_of([f"{int(at) // 1000},{line},{value}" for at, line, value in split]), [], "ms.csv")
    want("most likely it is the file" in page.value("by('survey-many').textContent"), "times in milliseconds")
    other = {"M": "S", "S": "M", "B": "B"}
    compare(page, text_of([f"{at},{other[line]},{value}" for at, line, value in split]), [], "exchanged.csv")
    want("lines M and S are exchanged" in page.value("by('survey-many').textContent"), "exchanged lines")
    compare(page, EXAMPLES / "a-days-recording.csv", [], "a-days-recording.csv")
    want(page.value("by('survey-many')") is None, "two faults aren't many")
    print("10,000 faults, more than are listed, times in milliseconds and exchanged lines")


# The sales of the table: their rows, and the outcome.
SALES = """[...document.querySelectorAll('#statement-rows tr')].map((line) =>
  [[...line.querySelectorAll('a[data-row]')].map((a) => Number(a.dataset.row)), line.children[4].textContent])"""


def try_cut_sales(page):
    """Four sales, of which one fault damages the end of the second, and one stands between approval and end of the
    third. Neither is listed as sold with an amount."""
    generate = make_day.load()
    sale, rows, at, steps = generate.Sale(0x10), [], 0, {}
    for name, part in [("", generate.set_up()), *((f"{k} {i}", it) for k in range(4) for i, it in enumerate(sale.sold()))]:
        steps[name] = len(rows) + 1
        for gap, row in part + generate.poll_all():
            at += gap
            rows.append(f"{at},{row}")
    damaged = [steps["1 3"] + 4, steps["2 3"] - 4]
    for row in damaged:
        time_at, line, value = rows[row - 1].split(",")
        rows[row - 1] = f"{time_at},{line},{int(value, 16) ^ 2:03X}"
    made = compare(page, text_of(rows), [], "cut.csv")
    want([it[0] for it in made.faults] == damaged, f"the faults: {made.faults}, wanted {damaged}")
    first = {f"{k} {i}": steps[f"{k} {i}"] for k in range(4) for i in (1, 3)}
    poll = {k: steps[f"{k} 2"] + 2 for k in range(4)}
    whole = [([first[f"{k} 1"], poll[k], first[f"{k} 3"]], "sold") for k in (0, 3)]
    words = "no outcome before row {}, which cuts this sale"
    cut = [([first[f"{k} 1"], poll[k], row], words.format(row)) for k, row in zip((1, 2), damaged)]
    late = ([first["2 3"], damaged[1]], f"sold; row {damaged[1]} cuts this sale")
    came = [(rows, said.removesuffix("possible")) for rows, said in page.value(SALES)]
    want(came == [whole[0], *cut, late, whole[1]], f"the sales are {came}")
    last = page.value("[...document.querySelectorAll('#statement-rows tr')].at(-1).lastChild.textContent")
    want(last == "soldcard reader 1 0.20 and 1 of unknown valuecontroller 0.20 and 1 of unknown value", last)
    title = page.value("by('line-unread').textContent")
    want(title == "The gaps are hatched." and page.value("document.querySelectorAll('#line rect.unread').length") > 0, title)
    print("sales that a fault cuts are two lines, and none has an amount that the fault may hide")


def try_unread(page):
    """Before a survey what comes after a fault of the link is hatched; a search finds a gap's acts after it."""
    page.give(EXAMPLES / "a-days-recording.csv", [], "a-days-recording.csv")
    told = page.value("[by('line-unread').textContent, document.querySelectorAll('#line rect.unread').length, state.line.end, state.gaps ?? null, by('gaps')]")
    end = int((EXAMPLES / "a-days-recording.csv").read_text().splitlines()[-1].split(",")[0])
    want(told == ["What comes after row 100 wasn't read: it is hatched.", 1, end, None, None], f"before a survey: {told}")
    page.survey()
    page.value("(() => { by('act-polls').checked = true; by('act-text').value = '0B 0B'; by('act-text').dispatchEvent(new Event('input')); return 1; })()")
    page.until("state.isSearched")
    hits = page.value("state.hits.map((i) => state.list.first(i))")
    wanted = [int(line.split("-")[0]) for line in page.lines() if "0B 0B" in line]
    want(hits == wanted and wanted[-1] > 100, f"0B 0B is found in {hits}, wanted {wanted}")
    gaps = page.value("[...document.querySelectorAll('#act-rows tr.gap')].map((it) => it.id)")
    want(gaps == ["row-100"], f"the gaps among what was found: {gaps}")
    print("what wasn't read is hatched, and a search goes over all stretches")


def given(page, path):
    """Gives a file, and surveys it after a no. Answers how long that took, in seconds."""
    begin = time.monotonic()
    page.give(path, [], path.name)
    if page.has_button():
        before = page.shown()
        page.push("survey-go")
        page.wait(before)
    return time.monotonic() - begin


def try_day(page, sales=1_033, flips=8, seed=1):
    """A day of eight hours with flipped bits lists all its sales but those that a flip cuts, and takes at most twice
    as long as the day without them."""
    rows = make_day.rows_of(sales, seed)
    lines, flipped = make_day.flipped(rows, flips, seed)
    whole, spoiled = page.work / "day.csv", page.work / "day-with-flips.csv"
    whole.write_bytes(text_of(make_day.flipped(rows, 0, seed)[0]))
    spoiled.write_bytes(text_of(lines))
    took = []
    for _ in range(3):
        took.append((given(page, whole), given(page, spoiled)))
    without, with_flips = map(min, zip(*took))
    made = Survey(spoiled.read_bytes(), [])
    page_gaps.compare_lists(page, made, [], SHOWN, MOST, want, FOUND)
    came = json.loads(page.browser.value(page_gaps.SOLD))
    ran = subprocess.run([MDBCHECK, "show"], stdin=whole.open("rb"), capture_output=True, check=True)
    spans = page_gaps.sales_of(page_gaps.entries_of([ran.stdout.decode().splitlines()], []))
    want(len(spans) == sales, f"the day has {len(spans)} sales")
    cut = [row for row, (first, last) in spans.items() if any(first <= it <= last for it in flipped)]
    want(set(spans) - set(came) <= set(cut), f"sales aren't listed: {sorted(set(spans) - set(came) - set(cut))[:5]}")
    want(len(made.faults) > flips // 2, f"{flips} flips make {len(made.faults)} faults")
    print(f"a day of {len(lines):,} rows with {flips} flipped bits, {len(made.faults)} faults: {len(set(spans) & set(came)):,} of {sales:,} sales are listed; {with_flips:.1f} s, and {without:.1f} s without flips")
    want(with_flips <= 2 * without, f"it takes {with_flips:.1f} s, and {without:.1f} s without faults")


def try_about(page):
    """The rows about each fault, and what was said up to it."""
    path = EXAMPLES / "a-days-recording.csv"
    made = compare(page, path, [], path.name)
    for number, (row, rule, _) in enumerate(made.faults, 1):
        page.browser.value(f"(() => {{ const it = document.querySelector('#survey-rows [data-number=\"{number}\"] button'); it.focus(); it.click(); return 1; }})()")
        page.until(f"document.querySelector('#survey-rows [data-number=\"{number}\"]').nextSibling?.classList.contains('about')")
        marked, acts, isOpen = page.value("""(() => { const it = document.querySelector('#survey-rows [data-number="%d"]'), tables = [...it.nextSibling.querySelectorAll("table")];
            return [[...tables.at(-1).querySelectorAll("tr.mark")].map((one) => [...one.children].map((c) => c.textContent)),
                tables.length > 1 ? [...tables[0].querySelectorAll(":scope > tbody > tr")].map((one) => [one.children[1].textContent, one.lastChild.textContent]) : [],
                document.activeElement.getAttribute("aria-expanded")]; })()""" % number)
        want(marked and marked[0][:3] == [str(row), made.lines[row - 1], "this row breaks the rule"], f"the rows about row {row}: {marked}")
        before = made.faults[number - 2][0] if number > 1 else 0
        wanted = [line.split(" ") for line in acts_about(made, row, before, [])][-8:]
        wanted = [["–".join(dict.fromkeys(rows.split("-"))), " ".join(words)] for rows, _, _, *words in wanted]
        want(wanted == acts, f"what was said up to row {row}: {acts}")
        want(isOpen == "true", "the button doesn't say that it is open")
    # A row of a sentence leads to its act, also after a fault, and back. The row of a gap leads to the gap.
    page.browser.value("(() => { const it = document.querySelector('.about li a[data-row=\"138\"]'); it.focus(); it.click(); return 1; })()")
    came = page.value("[document.activeElement.closest('#acts') !== null, document.activeElement.id, document.activeElement.getAttribute('aria-current')]")
    want(came == [True, "row-138", "true"], f"the row of a sentence leads to {came}")
    page.push("back")
    want(page.value("[document.activeElement.dataset.row, document.querySelectorAll('.about').length]") == ["138", 2], "back to the sentence")
    page.browser.value("document.querySelector('#survey-rows a[data-row=\"100\"]').click(); 1")
    came = page.value("[document.activeElement.id, document.activeElement.className, document.activeElement.textContent]")
    want(came[:2] == ["row-100", "gap here"] and "Gap: row 100 breaks the rule Sum" in came[2], f"the row of a gap leads to {came}")
    page.browser.value("document.activeElement.querySelector('[data-fault]').click(); 1")
    want(page.value("document.activeElement.dataset.number") == "1", "a gap leads to its fault")
    page.push("back")
    page.push("back")
    page.browser.value("(() => { for (const it of document.querySelectorAll('#survey-rows button')) it.click(); return 1; })()")
    want(page.value("document.querySelectorAll('#survey-rows .about').length") == 0, "it doesn't close")
    print("the rows about each fault, and what was said up to it, as `show` has it")


def acts_about(made, row, before, words):
    """The acts before a row and with it, as `mdbcheck show` has them of the rows from a command on."""
    place = next((it for it in range(max(before + 1, row - 2000), row) if re.search(",M,1", made.lines[it - 1])), row)
    return page_gaps.part_of(SHOWN, made.lines, place, row, False, words).lines if place < row else []


def try_links(page):
    """Marks of the time line lead to their rows in the tables, and back."""
    path = EXAMPLES / "a-days-recording.csv"
    compare(page, path, [], path.name)
    page.push("back")
    want(page.value("document.activeElement.id") == "survey-offer", "the way back leads to the card")
    page.browser.value("document.querySelector('#survey-offer a').click(); 1")
    want(page.value("document.activeElement.id") == "survey-title", "the card leads to the faults")
    for name, table, count in (("faults", "#survey-rows", 2), ("stretches", "#stretch-table", 3)):
        for k in range(count):
            page.browser.value("(() => { const row = state.line.lanes.findIndex((it) => it.name === '%s'); state.line.drawn.filter((it) => it.row === row)[%d].go(by('line').querySelector('svg')); return 1; })()" % (name, k))
            came = page.value("[document.activeElement.dataset.number, document.activeElement.closest('%s') !== null, document.activeElement.getAttribute('aria-current')]" % table)
            want(came == [str(k + 1), True, "true"], f"mark {k} of {name} leads to {came}")
            page.push("back")
            want(page.value("document.activeElement.tagName") == "svg", f"back from {name}")
    # A key leads from mark to mark, and zooming keeps the lanes.
    page.browser.value("(() => { const it = by('line').querySelector('svg'); it.focus(); it.dispatchEvent(new KeyboardEvent('keydown', {key: '+', bubbles: true})); return 1; })()")
    want(page.value("state.line.lanes.map((it) => it.name).slice(-2)") == ["stretches", "faults"], "the lanes, zoomed")
    label = page.value("by('line').querySelector('svg').getAttribute('aria-label')")
    want("3 stretches, 2 faults" in label, label)
    page.browser.value("document.querySelector('#survey-rows a[data-at]').click(); 1")
    want(page.value("document.activeElement.tagName") == "svg", "a fault's time leads to the time line")
    print("marks, times and the card lead to the faults and the stretches, and back")


def try_stops(page):
    """Surveys that are stopped, or overtaken by another file or other options: nothing of them stands."""
    day, long = EXAMPLES / "a-days-recording.csv", page.work / "long.csv"
    with long.open("wb") as file:
        subprocess.run([sys.executable, TOP / "bench" / "generate", "mixed", "400000"], stdout=file, check=True)
        file.write(b"5,M,108\n")
    page.give(long)
    want(page.has_button(), "the long recording has no no")
    word = page.value("document.querySelector('#verdict .word').textContent")
    for isBefore in (False, True):
        if isBefore:  # before its checksum is there
            page.give(long)
        page.browser.value("(() => { by('survey-go').click(); by('stop').click(); return 1; })()")
        told = page.value("[by('survey-told').textContent, document.activeElement.id, document.querySelector('#verdict .word').textContent, document.title, isWorking, by('survey'), by('work').hidden, by('main').inert]")
        want(told == ["You stopped the survey.", "survey-go", word, "no – long.csv – mdbcheck", False, None, True, False], f"after a stop: {told}")
        page.until("state.sha256 && by('sum').textContent === state.sha256 && !by('save-report').disabled")
    made = Survey(long.read_bytes(), [])
    want(page.survey()["whole"] == made.text, "the survey after a stop")
    page.until("state.sha256 && !by('save-report').disabled")
    # While it works, what the answer offers is off.
    page.give(long)
    off = page.value("(() => { by('survey-go').click(); return [by('main').inert, [...by('main').querySelectorAll('button, input, select')].filter((it) => !it.disabled).length, by('again').disabled, document.title, by('work').hidden]; })()")
    want(off == [True, 0, True, "checking – long.csv – mdbcheck", False], f"while it works: {off}")
    # Another file is given while it works.
    before = page.shown()
    page.browser.choose("#file", day)
    page.wait(before)
    time.sleep(0.5)
    told = page.value("[by('survey'), by('name').textContent, by('survey-go') !== null, state.survey ?? null, by('survey-text'), surveying]")
    want(told == [None, day.name, True, None, None, None], f"after another file: {told}")
    page.survey()
    want(page.value("by('survey') !== null && by('survey-text') !== null"), "no survey")
    # Other options, or the same ones, are asked for: the survey goes.
    for words in ("by('joined').checked = true", "by('joined').checked = false"):
        before = page.shown()
        page.browser.value(f"(() => {{ {words}; showWay(); by('again').click(); return 1; }})()")
        page.wait(before)
        told = page.value("[by('survey'), by('stretches'), by('survey-text'), by('survey-command'), state.line.lanes.some((it) => it.name === 'stretches')]")
        want(told == [None, None, None, None, False], f"after another check: {told}")
    # Fields that were changed after the check don't change how the survey is made.
    page.browser.value("(() => { by('joined').checked = true; by('without-changer').checked = true; showWay(); return 1; })()")
    came = page.survey()
    want(came["whole"] == Survey(day.read_bytes(), []).text and came["command"] == "mdbcheck survey < FILE", came["command"])
    want(page.value("!by('stale').hidden"), "the page doesn't say that the settings are others")
    # A late answer of another number is dropped, and a run overtakes a survey.
    page.options([])
    page.give(long)
    before = page.shown()
    page.browser.value("(() => { by('survey-go').click(); run(); return 1; })()")
    page.wait(before)
    time.sleep(0.5)
    want(page.value("[by('survey'), surveying, isWorking, by('survey-go') !== null]") == [None, None, False, True], "a run after a survey began")
    # The file is gone, and its worker as well: the answer stays, and says why.
    gone = page.work / "gone.csv"
    gone.write_bytes(day.read_bytes())
    page.give(gone)
    page.until("state.sha256")
    gone.unlink()
    page.browser.value("(() => { endChecker(); return 1; })()")
    before = page.shown()
    page.push("survey-go")
    page.wait(before)
    told = page.value("[by('survey-told').textContent, document.activeElement.id, state !== null, by('survey')]")
    want("There is no survey: The file" in told[0] and told[1:] == ["survey-go", True, None], f"a file that is gone: {told}")
    print("surveys that are stopped, overtaken or refused leave the answer as it was")


def try_report(page):
    """The saved report has the survey, and its text byte for byte."""
    evidence = load("page_evidence.py")
    day = EXAMPLES / "a-days-recording.csv"
    made = compare(page, day, [], day.name)
    page.until("state.sha256 && !by('save-report').disabled")
    page.browser.value("(() => { for (const it of document.querySelectorAll('#survey-rows button')) it.click(); return 1; })()")
    page.until("document.querySelectorAll('#survey-rows .about').length === 2")
    text = page.value("(() => { window.kept = null; const old = window.save; window.save = (...it) => { window.kept = it; }; by('save-report').click(); window.save = old; return kept[1]; })()")
    report = evidence.Report(text)
    want(report.texts["survey-text"] == made.text, "the survey's text in the report")
    want(report.texts["survey-command"] == "mdbcheck survey < FILE", "the survey's command in the report")
    want(all(it in report.texts["survey"] for it in ("2:00:04.669", "Changer", "the coin changer")), report.texts["survey"])
    want("All stretches" in report.texts["stretches"] and "1.00 to 2.00" in report.texts["stretches"], report.texts["stretches"])
    print("the saved report has the survey")


def try_seen(page):
    """What a screen reader is given, contrast, print, a telephone, and the keyboard. In Chromium."""
    day = EXAMPLES / "a-days-recording.csv"
    page.give(day)
    page.browser.value("by('survey-go').focus(); 1")
    before = page.shown()
    for kind in ("keyDown", "keyUp"):
        page.browser.ask("Input.dispatchKeyEvent", type=kind, key="Enter", code="Enter", windowsVirtualKeyCode=13, text="\r")
    page.wait(before)
    want(page.value("document.activeElement.id") == "survey-title", "by the keyboard")
    top, high = page.value("[by('survey-title').getBoundingClientRect().top, innerHeight]")
    want(-1 < top < high / 2, f"the section is at {top}")
    page.browser.value("(() => { for (const it of document.querySelectorAll('#survey-rows button')) it.click(); return 1; })()")
    page.until("document.querySelectorAll('#survey-rows .about').length === 2")
    levels = []
    for node in page.browser.ask("Accessibility.getFullAXTree")["nodes"]:
        role, name = node.get("role", {}).get("value"), node.get("name", {}).get("value", "")
        if node.get("ignored"):
            continue
        want(role not in page_test.NAMED or name.strip(), f"a {role} has no name: {node}")
        if role == "heading":
            levels.append(next(it["value"]["value"] for it in node["properties"] if it["name"] == "level"))
    want(all(after <= before + 1 for before, after in zip(levels, levels[1:])), f"the headings are {levels}")
    ids = page.value("[...document.querySelectorAll('[id]')].map((it) => it.id)")
    want(len(ids) == len(set(ids)), f"ids that stand twice: {[it for it in ids if ids.count(it) > 1]}")
    for scheme in ("light", "dark"):
        page.browser.ask("Emulation.setEmulatedMedia", features=[{"name": "prefers-color-scheme", "value": scheme}])
        faint = json.loads(page.browser.value(page_test.FAINT))
        want(not faint, f"{scheme}: too faint: {faint[:5]}")
    page.browser.ask("Emulation.setEmulatedMedia", media="print", features=[])
    shown = page.value("['survey-rows', 'stretch-table', 'survey-text', 'line'].map((it) => by(it).checkVisibility())")
    want(shown == [True] * 4 and not page.value("by('survey-csv').checkVisibility()"), f"printed: {shown}")
    page.browser.ask("Emulation.setEmulatedMedia", media="", features=[])
    page.browser.ask("Emulation.setDeviceMetricsOverride", width=400, height=850, deviceScaleFactor=1, mobile=True)
    wide = page.value("[document.documentElement.scrollWidth, ...['#survey .scroll', '#stretches .scroll'].map((it) => document.querySelector(it).scrollWidth - document.querySelector(it).clientWidth)]")
    want(wide[0] <= 400 and wide[1:] == [0, 0], f"on a telephone it is {wide} wide")
    page.browser.ask("Emulation.clearDeviceMetricsOverride")
    print("a survey by the keyboard; names, headings, contrast, print, and the width of a telephone")


def try_all(browser, work, number, seed):
    page = Page(work, browser)
    try_examples(page)
    try_cases(page)
    try_ends(page)
    try_unjudged(page)
    try_about(page)
    try_links(page)
    try_report(page)
    try_cut_sales(page)
    try_unread(page)
    if isinstance(browser, Browser):
        try_seen(page)
    try_generated(page, number, seed)
    try_many(page)
    if isinstance(browser, Browser):
        try_day(page)
    try_stops(page)
    want(not browser.complaints(), f"the console has {browser.complaints()[:2]}")
    want(not browser.requests(), f"asked for {browser.requests()[:2]}")


def main():
    given = [int(it) for it in sys.argv[1:] if it != "--firefox"]
    number, seed = (given + [200, 1][len(given):])[:2]
    with tempfile.TemporaryDirectory() as work:
        browser = Firefox() if "--firefox" in sys.argv else Browser()
        try:
            try_all(browser, pathlib.Path(work), number, seed)
        except Wrong as wrong:
            sys.exit(f"page_survey: {wrong}")
        finally:
            browser.close()
    print("page_survey: all as wanted")


if __name__ == "__main__":
    main()
