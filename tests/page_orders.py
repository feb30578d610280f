#!/usr/bin/env python3
"""tests/page_orders.py [--firefox] [ORDERS [SEED]]: whether each answer on the page is that of the
file and the settings beside it, whatever was clicked.

Chooses, drops, ticks, checks, stops and presses the card's buttons in so many random orders (300 if
not said), with short files and with files of some MB, whose check is still running at the next
click. After each order the page has to show

- the file that was given last, and the settings at the time when the last check began, on the card
  and in the program's command;
- the text that the program prints for that file and that command, and after a survey that of
  `survey`; after a stop, a file that can't
  be read or set-up bytes that can't be used: no verdict, and why;
- a title that says the same as the card.

Then it plays what once showed a wrong answer, each by itself. tests/page calls this, too. Ends with
status 1 at the first difference.
"""

import json
import pathlib
import random
import shlex
import subprocess
import sys
import tempfile
import time

sys.dont_write_bytecode = True

from browser import Browser  # noqa: E402
from firefox import Firefox  # noqa: E402
from page_profiles import shown_words  # noqa: E402
from programs import MDBCHECK as PROGRAM, PAGE  # noqa: E402

TOP = pathlib.Path(__file__).resolve().parent.parent
EXAMPLES = TOP / "examples"
# A file that has gone by the time that it is read.
GONE = "gone.csv"
DEVICES = ["changer", "bill", "cashless", "cashless-2"]
SETUP = "02 00 01 05 02 00 07 01 02 05 19"

READ = """(() => {
  const text = (it) => it ? it.textContent : null, card = document.getElementById("verdict"), all = (q) => [...document.querySelectorAll(q)];
  const stale = document.getElementById("stale"), focus = document.activeElement;
  return JSON.stringify({
    card: card.className, word: text(card.querySelector(".word")), lead: text(document.getElementById("lead")), verdict: text(card), name: text(document.getElementById("name")),
    text: text(document.getElementById("text")), command: text(document.getElementById("command")), told: text(document.getElementById("told")),
    title: document.title, isStale: !stale.hidden, isWorking: document.getElementById("main").getAttribute("aria-busy") === "true",
    isState: state !== null, isWay: state !== null && card.textContent.includes(wayWords(state)), again: !document.getElementById("again").disabled,
    live: all("#verdict button").filter((it) => !it.disabled).map(text), inert: document.getElementById("main").inert,
    focus: focus.id || focus.tagName, top: card.getBoundingClientRect().top, high: innerHeight, announced: text(document.getElementById("announced")),
    faults: all("#setups .fault").map(text).filter((it) => it), setupTold: text(document.getElementById("setup-told")),
    late: text(document.getElementById("late")), badRow: text(document.getElementById("bad-row")), buttons: all("#verdict button").map(text),
    survey: state?.survey?.whole ?? null, surveyTold: text(document.getElementById("survey-told")), shown: text(document.getElementById("survey-text")),
    rowTold: text(document.getElementById("act-row-told")), acts: text(document.getElementById("act-count")),
  });
})()"""
# Notes what the fields say each time that the page reads them, as words of a command, whatever their bytes are.
NOTE = """(() => {
  const all = ["changer", "bill", "cashless", "cashless-2"];
  window.fieldsNow = () => {
    const joined = by("joined").checked, words = joined ? ["--joined"] : [];
    if (!by("letter").checked) words.push("--extended");
    for (const it of all) {
      const value = (field) => by(field + "-" + it)?.value.trim() ?? "", level = value("level");
      const told = [value("setup"), level && "level " + level, value("config"), value("options")].filter(Boolean);
      if (by("without-" + it).checked) words.push("--without", it);
      else if (joined) for (const one of told) words.push("--setup", it + " " + one);
    }
    return words;
  };
  const read = options;
  window.options = (...words) => {
    window.noted = fieldsNow();
    return read(...words);
  };
  return 1;
})()"""


class Wrong(Exception):
    """The page shows something else than is wanted."""


def want(is_so, words):
    if not is_so:
        raise Wrong(words)


def rows_of(name):
    return (EXAMPLES / f"{name}.csv").read_text().splitlines()


def moved(rows, by):
    """Rows, later by so many microseconds."""
    return [f"{int(at) + by},{rest}" for at, rest in (row.split(",", 1) for row in rows)]


def text_of(rows):
    return "".join(row + "\n" for row in rows)


def late_at_level_3():
    """The end of a recording whose level is needed: a session of ten bytes, with a card's number that may be messages."""
    card = {",S,0FF": ",S,000", ",S,1D6": ",S,1DA"}
    return [row[:-6] + card.get(row[-6:], row[-6:]) for row in rows_of("coins-beside-a-level-3-reader")[215:]]


VALIDATOR_RESET = ["1000,M,130", "2200,M,030", "4200,S,100"]


def make_files(folder):
    """Makes the files that are given; their names."""
    late, twice = rows_of("coin-in-mid-session"), rows_of("coin-told-twice")
    end = int(late[-1].split(",")[0])
    cycle = [*late, f"{end + 100_000},B,150000", *moved(twice, end + 500_000)]
    long = subprocess.run([sys.executable, TOP / "bench" / "generate", "mixed", "170000"], capture_output=True, check=True).stdout.decode().splitlines()
    last = int(long[-1].split(",")[0])
    made = {
        "told twice.csv": text_of(twice),
        "begins late.csv": text_of(late),
        "late, then a cycle.csv": text_of(cycle),
        "late beside a validator.csv": text_of([*VALIDATOR_RESET, *moved(late, 100_000)]),
        "late, then a no.csv": text_of([*late, *moved(rows_of("sale-never-approved"), end + 500_000)]),
        "late, a cycle, a no.csv": text_of([*cycle, *moved(rows_of("sale-never-approved"), end + 5_000_000)]),
        "late beside one, then a no.csv": text_of([*VALIDATOR_RESET, *moved(late, 100_000), *moved(rows_of("sale-never-approved"), end + 500_000)]),
        "late, then no row.csv": text_of(late) + "x,M,108\n",
        "begins in a block.csv": text_of(late[2:]),
        "exchanged.csv": text_of([row.translate(str.maketrans("MS", "SM")) for row in twice[29:]]),
        "never approved.csv": text_of(rows_of("sale-never-approved")),
        "level 3.csv": text_of(rows_of("coins-beside-a-level-3-reader")),
        "level 3, late.csv": text_of(late_at_level_3()),
        "no row.csv": text_of(twice[:9]) + "1.5,M,108\n",
        "long.csv": text_of(long),
        "long, with a no.csv": text_of([*long, *moved(rows_of("sale-never-approved"), last + 500_000)]),
        GONE: "1000,M,108\n",
    }
    for name, text in made.items():
        (folder / name).write_text(text)
    return list(made)


class Orders:
    """The page, and what it should show: the answer for the file that was given last, unless that was stopped."""

    def __init__(self, browser, work):
        self.browser, self.work, self.answers = browser, work, {}
        self.names = make_files(work)
        self.fresh()

    def fresh(self):
        """The page as it is when it was opened, with a field for each file, so that a script can drop it."""
        self.name, self.is_stopped = None, False
        self.want_calm()
        self.browser.open(PAGE.as_uri())
        self.browser.value(NOTE)
        self.browser.value("""(() => { for (let i = 0; i < %d; i++) {
            const it = document.createElement("input"); it.type = "file"; it.id = "test-" + i; it.hidden = true; document.body.append(it); }
            return 1; })()""" % len(self.names))
        (self.work / GONE).write_text("1000,M,108\n")
        for i, name in enumerate(self.names):
            self.browser.choose(f"#test-{i}", self.work / name)
        (self.work / GONE).unlink()

    def want_calm(self):
        want(not self.browser.complaints(), f"the console has {self.browser.complaints()[:2]}")
        want(not self.browser.requests(), f"asked for {self.browser.requests()[:2]}")

    def value(self, code):
        return json.loads(self.browser.value(f"JSON.stringify({code})"))

    def read(self):
        return json.loads(self.browser.value(READ))

    def settled(self, most=120):
        """What is shown when nothing works any more."""
        end = time.monotonic() + most
        while True:
            came = self.read()
            if not came["isWorking"] and not (came["setupTold"] or "").startswith("Reading "):
                return came
            want(time.monotonic() < end, f"it still works after {most} s")
            time.sleep(0.01)

    def until(self, code, most=120, rests="!isWorking && !document.querySelector('#import-told progress')"):
        """Waits until the page rests, and this is so."""
        end = time.monotonic() + most
        while not self.value(f"{rests} && Boolean({code})"):
            want(time.monotonic() < end, f"not after {most} s: {code}")
            time.sleep(0.01)

    def push(self, name):
        """Presses a button as by the keyboard: it has the focus. The page is at its top."""
        self.value("(() => { const it = document.getElementById('%s'); scrollTo(0, 0); it?.focus(); it?.click(); return 1; })()" % name)

    def give(self, name, begin):
        """Gives a file, and waits for its run to begin."""
        before = self.value("newest")
        begin()
        end = time.monotonic() + 120
        while self.value("newest") == before:
            want(time.monotonic() < end, f"{name} was given, and no run began")
            time.sleep(0.002)
        self.name, self.is_stopped = name, False

    def choose(self, name):
        self.give(name, lambda: self.browser.choose("#file", self.work / name))

    def drop(self, name):
        self.give(name, lambda: self.value("""(() => { const data = new DataTransfer(); data.items.add(by("test-%d").files[0]);
            for (const kind of ["dragover", "drop"]) by("main").dispatchEvent(new DragEvent(kind, {dataTransfer: data, bubbles: true, cancelable: true}));
            return 1; })()""" % self.names.index(name)))

    def click(self, code):
        """Clicks an element, if there is one; whether a run began, or ended, by it."""
        return self.value("(() => { const before = newest; (%s)?.click(); return newest !== before; })()" % code)

    def press(self, code):
        """Clicks a button that checks again."""
        if self.click(code):
            self.is_stopped = False

    def stop(self):
        """Stops what works. A survey that is stopped leaves the answer."""
        if self.value("(() => { const before = newest, isSurvey = surveying !== null; by('stop').click(); return newest !== before && !isSurvey; })()"):
            self.is_stopped = True

    def bytes(self, value, device="changer"):
        self.value("""(() => { const it = by("setup-%s"); it.value = "%s";
            for (const kind of ["input", "change"]) it.dispatchEvent(new Event(kind, {bubbles: true})); return 1; })()""" % (device, value))

    def program(self, name, words, command="check"):
        """What the program answers."""
        key = name, command, *words
        if key not in self.answers:
            with (self.work / name).open("rb") as file:
                ran = subprocess.run([PROGRAM, command, *words], stdin=file, capture_output=True)
            self.answers[key] = ran.returncode, ran.stdout.decode(), ran.stderr.decode()
        return self.answers[key]

    def compare(self, came=None):
        """Compares what is shown with what the program prints; answers what that is."""
        came, name = came or self.settled(), self.name
        if name is None:
            want(came["name"] is None and came["title"] == "mdbcheck" and not came["again"], f"nothing was given: {came['verdict']!r}")
            return "nothing"
        limit = "not judged" if came["word"].startswith("Not judged") else "not followed"
        word = {"card yes": "yes", "card no": "no", "card limit": limit}.get(came["card"], "no verdict")
        want(came["name"] == name, f"the card names {came['name']}: {came['verdict']!r}")
        want(came["title"] == f"{word} – {name} – mdbcheck", f"the card is {came['card']}, the title {came['title']!r}")
        announced = "All faults. " if came["survey"] is not None else came["surveyTold"] or f"{name}: {came['word']}. {came['lead']}"
        want(came["announced"].startswith(announced), f"announced is {came['announced']!r}, wanted {announced!r}")
        want(not came["inert"] and came["again"], "the controls are off")
        words = self.value("window.noted ?? null")
        is_wrong = any("zz" in it for it in words or [])
        if self.is_stopped or is_wrong or name == GONE:
            # What can't be read is told before the settings are looked at.
            reason = "You stopped" if self.is_stopped else "can't be read" if name == GONE else "set-up bytes"
            want(came["card"] == "card none" and reason in came["verdict"], f"wanted {reason!r}: {came['verdict']!r}")
            want(not came["isState"] and not came["told"] and not came["isStale"], "something is left of an answer")
            return reason.lower().strip(": ")
        self.compare_answer(came, words, word)
        return word

    def compare_answer(self, came, given, word):
        words = shown_words(given)
        status, text, err = self.program(self.name, words)
        want(shlex.split(came["command"]) == ["mdbcheck", "check", *words, "<", "FILE"], f"the command is {came['command']!r}, wanted {words}")
        want(came["isWay"], f"the card names other settings than {words}: {came['verdict']!r}")
        want(came["isStale"] == (self.value("fieldsNow()") != given), f"the note on other settings: {came['isStale']}")
        if status == 2:
            want(came["badRow"] and came["badRow"] in err, f"{came['verdict']!r}, wanted {err!r}")
        else:
            want(came["text"] == text, f"{words}: the text is {came['text']!r}, wanted {text!r}")
            want(("no" if word.startswith("not ") else word) == text.split()[1], f"the card is {came['card']}")
        if came["survey"] is not None:
            text = self.program(self.name, words, "survey")[1]
            want(came["survey"] == text and came["shown"] == text, f"{words}: the survey is {came['survey']!r}, wanted {text!r}")


def button(words):
    """The button on the page that begins with these words."""
    return "[...document.querySelectorAll('#main button')].find((it) => it.textContent.startsWith(%s))" % json.dumps(words)


STEPS = ("choose", "choose", "drop", "drop", "tick", "tick", "bytes", "again", "again", "stop", "late", "leave", "level", "level", "earlier", "row",
         "survey", "survey")


def take_step(page, dice):
    """One random step; in words."""
    kind = dice.choice(STEPS)
    if kind in ("choose", "drop"):
        name = dice.choice([it for it in page.names if it != GONE or kind == "drop"])
        (page.choose if kind == "choose" else page.drop)(name)
        return f"{kind} {name}"
    if kind == "tick":
        box = dice.choice(["joined", "joined", "letter", *("without-" + it for it in DEVICES)])
        page.click(f"by('{box}')")
        return box
    if kind == "bytes":
        value = dice.choice(("", "", SETUP, SETUP, "zz"))
        page.bytes(value)
        return f"bytes {value}"
    if kind == "stop":
        page.stop()
    elif kind == "earlier":
        page.browser.choose("#setup-file", page.work / dice.choice(["told twice.csv", "never approved.csv", "level 3.csv", "no row.csv"]))
    elif kind == "row":
        page.value("(() => { const it = by('act-row'); if (it && !it.disabled) { it.value = %d; it.dispatchEvent(new KeyboardEvent('keydown', {key: 'Enter', bubbles: true})); } return 1; })()" % dice.randrange(1, 120))
    elif kind == "survey":
        page.click("by('survey-go')")
    else:
        page.press({"again": "by('again')", "late": button("Check as"), "leave": button("Leave out"),
                    "level": button(f"Level {dice.choice([1, 2, 3])}")}[kind])
    return kind


def try_order(page, dice):
    """One random order of steps, and what is shown after it."""
    steps = []
    try:
        for _ in range(dice.randrange(3, 10)):
            steps.append(take_step(page, dice))
            time.sleep(dice.choice((0, 0, 0, 0.005, 0.02, 0.06, 0.15, 0.4)))
            came = page.read()
            if came["isWorking"]:
                want(came["title"] == f"checking – {page.name} – mdbcheck", f"while it works the title is {came['title']!r}")
                want(came["inert"] and not came["live"] and not came["again"] and not came["isStale"], f"while it works this can be pressed: {came['inert']}, {came['live']}, {came['again']}")
            if dice.random() < 0.2:
                page.settled()
        return page.compare()
    except Wrong as wrong:
        raise Wrong(f"{steps}: {wrong}") from None


def try_orders(page, number, seed):
    counts, begin = {}, time.monotonic()
    for index in range(number):
        dice = random.Random(f"orders {seed} {index}")
        if dice.random() < 0.2:
            page.fresh()
        try:
            word = try_order(page, dice)
        except Wrong as wrong:
            raise Wrong(f"order {index} of seed {seed}: {wrong}") from None
        counts[word] = counts.get(word, 0) + 1
    said = ", ".join(f"{n} {word}" for word, n in sorted(counts.items()))
    print(f"{number} orders of clicks, files and stops, each with the answer of its file and settings ({said}; {time.monotonic() - begin:.0f} s)")


def try_again_while_working(page):
    """Another check is asked for while one runs, by a script that doesn't care what can be pressed: the answer is that
    of the later settings. The controls are off while it works, and a late answer of another number is dropped."""
    page.fresh()
    page.choose("long, with a no.csv")
    page.value("(() => { by('joined').checked = true; showWay(); run(); return 1; })()")
    page.compare()
    page.choose("long.csv")
    page.value("(() => { by('joined').checked = false; by('without-changer').checked = true; showWay(); run(); run(); return 1; })()")
    page.compare()
    # A file whose recording takes long to be there, and another one before it is.
    page.value("(() => { window.recordingOf = async (it) => { if (it.name.startsWith('told')) await new Promise((done) => setTimeout(done, 300)); return it; }; return 1; })()")
    page.choose("told twice.csv")
    page.choose("begins late.csv")
    page.compare()
    time.sleep(0.5)
    page.compare()
    page.value("(() => { checker.hear({told: 'done', number: 1, answer: 1, text: 'verdict no\\n'}); return 1; })()")
    page.compare()


def try_started_before(page):
    """Only a start of the row's device before the row counts: not one after it, and not one of another device."""
    page.fresh()
    for name in ("begins late.csv", "late, then a cycle.csv", "late beside a validator.csv"):
        page.choose(name)
        came = page.settled()
        page.compare(came)
        want("Was the machine already running" in came["lead"] and "it would be a yes" in came["late"], f"{name}: {came['late']!r}")
        want("broke the protocol" not in came["verdict"], f"{name}: {came['verdict']!r}")
        want(page.program(name, ["--joined"])[0] == 0, name)
        page.press(button("Check as already running"))
        came = page.settled()
        page.compare(came)
        want(came["card"] == "card yes" and came["focus"] == "verdict" and -1 < came["top"] < came["high"], f"{name}: {came['focus']}, {came['top']}")
        page.value("(() => { by('joined').checked = false; showWay(); return 1; })()")
    # Here the module doesn't decide whether to ask: as of a machine that was running, it is a no as well.
    for name in ("late, a cycle, a no.csv", "late beside one, then a no.csv"):
        page.choose(name)
        came = page.settled()
        page.compare(came)
        want(page.program(name, ["--joined"])[0] == 1 and "the first that breaks a rule: the rule Cashless" in came["late"], f"{name}: {came['late']!r}")
        want("Was the machine already running" in came["lead"] and "broke the protocol" not in came["verdict"], f"{name}: {came['verdict']!r}")
    for name, words, status in (("late, then a no.csv", "row 102 would be the first that breaks a rule: the rule Cashless", 1), ("late, then no row.csv", "no verdict: row 28 can't be read", 2)):
        page.choose(name)
        came = page.settled()
        page.compare(came)
        ran = page.program(name, ["--joined"])
        want(ran[0] == status and (status == 2 or "row 102\nrule Cashless\n" in ran[1]), f"{name}: {ran}")
        want("Was the machine already running" in came["lead"] and words in came["late"], f"{name}: {came['late']!r}")
    for name, words in (("begins in a block.csv", "it would be a yes."), ("exchanged.csv", "most likely lines M and S are exchanged")):
        page.choose(name)
        came = page.settled()
        page.compare(came)
        want(page.program(name, ["--joined"])[0] == 0 and came["text"].startswith("verdict no\nrow 1\n"), f"{name}: {came['text']!r}")
        want(words in came["late"] and "No reset" not in came["late"], f"{name}: {came['late']!r}")
        first = "Read it with M and S exchanged" if "exchanged" in name else "Check as already running"
        want(came["buttons"] == [first, "Go on: survey the whole recording"], f"{name}: {came['buttons']}")
    page.choose("never approved.csv")
    came = page.settled()
    status, text, _ = page.program("never approved.csv", ["--joined"])
    want(status == 1 and text == came["text"] and "It makes no difference" in came["late"], came["late"])
    want("broke the protocol" in came["verdict"] and [it[:5] for it in came["buttons"]] == ["Go on"], came["verdict"])


def try_focus(page):
    """After each button of the card, and after a check that was stopped and begun again, the card has the focus and is in sight."""
    page.fresh()
    page.click("by('letter')")
    for name, words in (("level 3.csv", "Leave out card reader"), ("begins late.csv", "Check as already")):
        page.choose(name)
        page.settled()
        page.value(f"(() => {{ scrollTo(0, 100000); ({button(words)}).focus(); return 1; }})()")
        page.press(button(words))
        came = page.settled()
        page.compare(came)
        want(came["focus"] == "verdict" and -1 < came["top"] < came["high"], f"{words}: {came['focus']}, {came['top']}")
        page.value("(() => { by('joined').checked = by('without-cashless').checked = false; showWay(); return 1; })()")
    page.fresh()
    (page.work / "coin-told-twice.csv").write_text(text_of(rows_of("coin-told-twice")))
    page.give("coin-told-twice.csv", lambda: page.click("document.querySelector('[data-example=\"coin-told-twice.csv\"]')"))
    came = page.settled()
    page.compare(came)
    want(came["focus"] == "verdict" and -1 < came["top"] < came["high"], f"an example: {came['focus']}, {came['top']}")
    page.choose("exchanged.csv")
    page.settled()
    page.press(button("Read it with M and S exchanged"))
    for _ in range(2000):
        came = page.settled()
        if came["name"].endswith("(M and S exchanged)"):
            break
    want(came["focus"] == "verdict" and came["card"] == "card no", f"exchanged: {came['focus']}, {came['name']}")
    # Another file is given before the exchanged rows are there: that one counts.
    page.choose("exchanged.csv")
    page.settled()
    page.value("(() => { window.oldBuffer = Blob.prototype.arrayBuffer; Blob.prototype.arrayBuffer = async function() { await new Promise((done) => setTimeout(done, 300)); return oldBuffer.call(this); }; return 1; })()")
    page.press(button("Read it with M and S exchanged"))
    page.choose("told twice.csv")
    page.compare()
    time.sleep(0.6)
    page.compare()
    page.value("(() => { Blob.prototype.arrayBuffer = oldBuffer; return 1; })()")
    page.choose("long.csv")
    page.stop()
    page.compare()
    page.press(button("Check it after all"))
    came = page.settled()
    page.compare(came)
    want(came["focus"] == "verdict" and came["card"] == "card yes", f"after a stop: {came['focus']}, {came['verdict']!r}")


# More than the page reads before an import is begun (1 MiB), and then a row that can't come after the last of them.
POLLS = [row for at in range(20_000, 800_020_000, 20_000) for row in (f"{at},M,108", f"{at + 1200},M,008")]
POLLS.insert(2, "23200,S,100")
IMPORTED = [*POLLS, "800001200,S,100", "800030000,M,000"]


def open_panel(page):
    """Chooses these rows in milliseconds; the panel asks for their unit."""
    page.fresh()
    (page.work / "ms.csv").write_text(text_of([f"{int(at) / 1000},{rest}" for at, rest in (row.split(",", 1) for row in IMPORTED)]))
    page.browser.choose("#file", page.work / "ms.csv")
    page.until("document.getElementById('import-go')")


def try_focus_of_panel(page):
    """The panel of an import has the focus when it comes, and then what a choice drew anew. Where the import is refused, the
    reason has it, and is in sight; then the field that a button filled in."""
    open_panel(page)
    want(page.read()["focus"] == "import-title", f"the panel came, and the focus is on {page.read()['focus']}")
    for format in ("saleae", "rows"):
        page.value("(() => { const it = by('import-format'); it.focus(); it.value = '%s'; it.dataset.old = 1; it.dispatchEvent(new Event('change')); return 1; })()" % format)
        page.until("!by('import-format').dataset.old && (by('import-first').childNodes.length || by('import-told').childNodes.length)")
        want(page.read()["focus"] == "import-format", f"a format was chosen, and the focus is on {page.read()['focus']}")
    for name in ("import-save", "import-go"):
        open_panel(page)
        page.value("(() => { by('import-unit').value = 'ms'; showFirstRows(); return 1; })()")
        page.until("by('import-first').querySelector('tbody tr')")
        page.push(name)
        page.until("document.getElementById('import-before')")
        focus, told, high = page.value("[document.activeElement.id, by('import-told').getBoundingClientRect().bottom, innerHeight]")
        want(focus == "import-told" and 0 < told < high + 1, f"{name}, refused: {focus}, {told} of {high}")
    page.push("import-go-on")
    want(page.read()["focus"] == "import-from", f"the import goes on, and the focus is on {page.read()['focus']}")


def try_focus_of_import(page):
    """After a button of the panel that checks rows the card has the focus, and is in sight."""
    open_panel(page)
    page.value("(() => { by('import-unit').value = 'ms'; showFirstRows().then(() => by('import-go').click()); return 1; })()")
    page.until("document.getElementById('import-before')")
    for name, rows in (("import-before", POLLS), ("import-go", IMPORTED[-1:])):
        (page.work / "ms-rows.csv").write_text(text_of(rows))
        page.answers.clear()
        page.give("ms-rows.csv", lambda: page.push(name))
        came = page.settled()
        page.compare(came)
        want(came["focus"] == "verdict" and -1 < came["top"] < came["high"], f"{name}: {came['focus']}, {came['top']}")
        page.push("import-go-on")
        page.until("by('import-first').textContent === 'No row is made of its beginning.'")


def try_two_imports(page):
    """Two files that have to be imported are given, and the one is told before the other: neither is taken for the other."""
    table = EXAMPLES / "exports" / "saleae.csv"
    for first, second, words in (("#file", "#setup-file", "the card"), ("#setup-file", "#file", "the set-up")):
        open_panel(page)
        page.value("(() => { by('joined').click(); const ask = Importer.prototype.ask, held = new Promise((done) => window.letGo = done);"
                   " Importer.prototype.ask = async function(...it) { if (this.file.name === 'saleae.csv') await held; return ask.call(this, ...it); }; return 1; })()")
        page.browser.choose(first, table)
        (page.work / "other.csv").write_bytes((page.work / "ms.csv").read_bytes())
        page.browser.choose(second, page.work / "other.csv")
        page.until("openImport?.file.name === 'other.csv' && document.getElementById('import-go')", rests="true")
        page.value("(letGo(), 1)")
        page.until("document.body.textContent.includes('nother file was chosen before this one was read')")
        came = page.settled()
        told = came["verdict"] if first == "#file" else came["setupTold"]
        want("nother file was chosen before this one was read" in told and "saleae.csv" in told, f"{words}: {told!r}")
        want(page.value("by('import-title').textContent").startswith("These are rows"), words)


def try_failures(page):
    """After a stop and a file that can't be read nothing of the answer before is left: the title, the answer, the note."""
    page.fresh()
    for fail in ("stop", GONE):
        page.choose("told twice.csv")
        page.compare()
        page.click("by('joined')")
        if fail == "stop":
            page.choose("long.csv")
            page.stop()
            want(page.settled()["focus"] == "verdict", "after a stop the card has the focus")
        else:
            page.drop(GONE)
        page.compare()
        page.click("by('joined')")


def try_wrong_bytes(page):
    """Bytes of a set-up that can't be used: the file stays chosen, and the reason stands beside the field."""
    page.fresh()
    page.choose("told twice.csv")
    page.compare()
    page.click("by('joined')")
    for value, words in (("zz", "aren't bytes"), ("02 00 01", "their sum is 02"), ("02 02", "no answer of the device to SETUP"), ("02 00 02", "no answer of the device to SETUP")):
        page.bytes(value)
        page.choose("begins late.csv")
        came = page.settled()
        want(came["name"] == "begins late.csv" and "set-up bytes" in came["verdict"] and not came["isState"], came["verdict"])
        want(len(came["faults"]) == 1 and words in came["faults"][0], f"{value}: {came['faults']}")
        want(came["focus"] == "setup-changer", f"the focus is on {came['focus']}")
        page.bytes("")
        want(not page.read()["faults"], "what is wrong stays beside the field")
        page.press("by('again')")
        came = page.settled()
        want(came["focus"] == "verdict", f"after the button the focus is on {came['focus']}")
        page.compare(came)


def try_missing_rows(page):
    """A row that isn't listed is said so."""
    page.fresh()
    page.choose("told twice.csv")
    page.settled()
    count = len(rows_of("coin-told-twice"))

    def seek(row):
        page.value("(() => { const it = by('act-row'); it.value = %s; it.dispatchEvent(new KeyboardEvent('keydown', {key: 'Enter', bubbles: true})); return 1; })()" % json.dumps(str(row)))
        return page.read()["rowTold"]

    want(seek(count) == "", "the last row")
    want(seek(99_999) == f"Row 99,999 isn't listed: the list ends with row {count}.", page.read()["rowTold"])
    want(seek(0) != "" and seek(1.5) != "" and seek(4) == "", "row 0")
    # A long list, played: as if the acts from number 5 on came after others.
    played = page.value("(() => { state.hole = 5; return [state.list.last(4), state.list.first(5)]; })()")
    page.value("(() => { const it = state.list; for (const name of ['first', 'last']) { const of = it[name].bind(it); it[name] = (i) => of(i) + (i < 5 ? 0 : 1000); } return 1; })()")
    want("isn't listed: of so long a recording" in seek(500), page.read()["rowTold"])
    want(seek(played[0]) == "" and seek(played[1] + 1000) == "", "the rows about the hole")


TURNED = "day \u202egnp.1.csv"


def try_names(page):
    """A name can't turn the text round it: what does that is written out."""
    page.fresh()
    (page.work / TURNED).write_text(text_of(rows_of("coin-told-twice")))
    shown = TURNED.replace("\u202e", "\\u202E")
    page.browser.choose("#file", page.work / TURNED)
    came = page.settled()
    for _ in range(500):
        if came["isState"]:
            break
        came = page.settled()
    want(came["name"] == shown and came["title"] == f"yes – {shown} – mdbcheck", f"{came['name']!r}, {came['title']!r}")
    want(page.value("by('name').tagName") == "BDI", "the name isn't by itself")
    want("\u202e" not in page.value("document.body.textContent"), "the name's sign is on the page")
    page.browser.choose("#setup-file", page.work / TURNED)
    for _ in range(500):
        told = page.settled()["setupTold"]
        if told:
            break
    want(told.startswith(f"{shown} shows the set-up of "), told)


def try_earlier(page):
    """An earlier recording that can't be read says which row is none, and nothing is taken of it."""
    page.fresh()
    page.click("by('joined')")
    page.bytes(SETUP)
    err = page.program("no row.csv", [])[2].removeprefix("mdbcheck: ").strip()
    page.browser.choose("#setup-file", page.work / "no row.csv")
    for _ in range(500):
        told = page.settled()["setupTold"]
        if told:
            break
    want("no row.csv: row 10 is no row. " in told and err.split(": ", 1)[1] in told, f"{told!r}, {err!r}")
    want(page.value("by('setup-changer').value") == SETUP, "bytes were taken of it")


def try_apart(page):
    """`check` answers for a file without a change of what is shown, while another one is checked, too."""
    page.fresh()
    page.choose("told twice.csv")
    page.settled()
    page.value("(() => { window.apart = null; check(by('test-%d').files[0], options()).then((it) => { window.apart = it; }); return 1; })()" % page.names.index("begins late.csv"))
    page.choose("never approved.csv")
    page.compare()
    for _ in range(1000):
        apart = page.value("apart && [apart.name, apart.text, apart.late.answer]")
        if apart:
            break
        time.sleep(0.01)
    want(apart == ["begins late.csv", page.program("begins late.csv", [])[1], 0], apart)
    page.compare()


def try_dropping(page):
    """While something is over the page, the place for it shows that."""
    page.fresh()
    over = """(() => { const at = by("%s"), data = new DataTransfer(); at.dispatchEvent(new DragEvent("%s", {dataTransfer: data, bubbles: true, cancelable: true}));
        return [...document.querySelectorAll(".over")].map((it) => it.id); })()"""
    rest = page.value("getComputedStyle(by('drop')).borderTopColor")
    want(page.value(over % ("main", "dragover")) == ["drop"], "the place for a recording")
    want(page.value("getComputedStyle(by('drop')).borderTopColor") != rest, "it looks as at rest")
    want(page.value(over % ("drop-setup", "dragover")) == ["drop-setup"], "the place for an earlier recording")
    want(page.value(over % ("drop-setup", "dragleave")) == [], "what has left")


def try_announced(page):
    """Whoever can't see the page hears that it reads and checks, and what comes of it; the card is no live region."""
    page.fresh()
    page.value("(() => { window.heard = []; new MutationObserver(() => heard.push(by('announced').textContent)).observe(by('announced'), {childList: true}); return 1; })()")
    page.choose("long.csv")
    came = page.settled()
    heard = page.value("heard")
    want(heard[0].startswith(("Reading long.csv", "Listing long.csv")), heard)
    want(any(it.startswith("Checking long.csv") for it in heard) and heard[-1] == f"long.csv: {came['word']}. {came['lead']}", heard)
    want(page.value("document.querySelectorAll('[role=status] button, [aria-live] button').length") == 0, "buttons in a live region")


def try_all(browser, work, number, seed):
    page = Orders(browser, work)
    for one in (try_again_while_working, try_started_before, try_focus, try_focus_of_panel, try_focus_of_import, try_two_imports, try_failures, try_wrong_bytes, try_missing_rows, try_names, try_earlier, try_apart, try_dropping, try_announced):
        try:
            one(page)
        except Wrong as wrong:
            raise Wrong(f"{one.__name__}: {wrong}") from None
    print("what once was a wrong answer: each is right")
    try_orders(page, number, seed)
    page.want_calm()


def main():
    given = [int(it) for it in sys.argv[1:] if it != "--firefox"]
    number, seed = (given + [300, 1][len(given):])[:2]
    with tempfile.TemporaryDirectory() as work:
        browser = Firefox() if "--firefox" in sys.argv else Browser()
        try:
            try_all(browser, pathlib.Path(work), number, seed)
        except Wrong as wrong:
            sys.exit(f"page_orders: {wrong}")
        finally:
            browser.close()


if __name__ == "__main__":
    main()
