#!/usr/bin/env python3
"""tests/page_evidence.py [--firefox]: whether a saved report holds what it is to prove.

- SHA-256: the page's own code, and what it shows of a recording, against Python's hashlib, for many
  sizes, and in pieces of any size;
- the saved report of each recording of examples/, and of files with hostile names: well-formed HTML
  without script, with the program's text byte for byte, the checksums of the recording and of the
  module, the file's name and size, the command, the verdict and the sums that the page shows. The
  browser opens it without a complaint, and it asks for nothing;
- that the file is saved under the recording's name, and what is printed (both in Chromium).

tests/page calls this, too. Ends with status 1 at the first difference.
"""

import base64
import hashlib
import html.parser
import json
import pathlib
import random
import re
import sys
import tempfile
import time
import zlib

sys.dont_write_bytecode = True

from browser import Browser  # noqa: E402
from firefox import Firefox  # noqa: E402
from programs import MDBCHECK, PAGE, Runs  # noqa: E402

TOP = pathlib.Path(__file__).resolve().parent.parent
EXAMPLES = TOP / "examples"
# Elements that have no end.
VOID = {"meta", "br", "hr", "img", "input", "link"}


class Wrong(Exception):
    """The page shows something else than is wanted."""


def want(is_so, words):
    if not is_so:
        raise Wrong(words)


class Report(html.parser.HTMLParser):
    """A saved report, read: elements that don't close in order, scripts and whatever asks for something are wrong."""

    def __init__(self, text):
        super().__init__()
        self.open, self.texts, self.cells, self.rows, self.title, self.card = [], {}, [], {}, "", None
        want(text.startswith("<!doctype html>\n<html"), f"the report begins with {text[:40]!r}")
        self.feed(text)
        self.close()
        want(not self.open, f"these don't end: {self.open}")

    def handle_starttag(self, tag, attributes):
        attributes = dict(attributes)
        want(tag not in ("script", "link", "img", "iframe", "object", "button", "input", "form", "base", "a"), f"a report has the element {tag}")
        for name, value in attributes.items():
            want(not name.startswith("on") and name not in ("src", "href", "style", "tabindex"), f"a report has the attribute {name}={value!r}")
        if attributes.get("id") == "verdict":
            self.card = attributes.get("class")
        if tag not in VOID:
            self.open.append((tag, attributes.get("id"), attributes))

    def handle_startendtag(self, tag, attributes):
        raise Wrong(f"<{tag}/> in HTML")

    def handle_endtag(self, tag):
        want(self.open and self.open[-1][0] == tag, f"</{tag}> ends {self.open[-1:]}")
        _, _, attributes = self.open.pop()
        if tag == "tr":
            if self.cells:
                self.rows.setdefault(self.cells[0], self.cells[1:])
            self.cells = []

    def handle_data(self, data):
        for tag, name, attributes in self.open:
            if name:
                self.texts[name] = self.texts.get(name, "") + data
        tags = [tag for tag, _, _ in self.open]
        if "title" in tags and "svg" not in tags:
            self.title += data
        if tags and "tr" in tags:
            at = len(tags) - 1 - tags[::-1].index("tr")
            cell = [it for it in tags[at:] if it in ("th", "td")]
            if cell:
                if not self.cells or self.last is not self.open[at + 1]:
                    self.cells.append("")
                    self.last = self.open[at + 1]
                self.cells[-1] += data


SHOWN = """(() => {
  const text = (it) => it ? it.textContent : null, all = (q) => [...document.querySelectorAll(q)];
  return JSON.stringify({word: text(document.querySelector("#verdict .word")), card: document.getElementById("verdict").className, text: text(document.getElementById("text")),
    command: text(document.getElementById("command")), sum: text(document.getElementById("sum")), name: text(document.getElementById("name")),
    bounds: [...all("tr[data-side]").map((it) => [it.dataset.account, it.dataset.side, ...[...it.children].slice(1).map(text)]),
      ...all(".agreed").map((it) => [it.dataset.account, "both", text(it.querySelector(".sum"))])],
    isOff: document.getElementById("save-report").disabled, when: state.when.getTime()});
})()"""


class Page:
    """The page, and what it saves."""

    def __init__(self, browser, work):
        self.browser, self.work = browser, work
        self.browser.open(PAGE.as_uri())
        found = re.search(r'\bMODULE ?= ?"([A-Za-z0-9+/=]*)"', PAGE.read_text())
        self.module = hashlib.sha256(zlib.decompress(base64.b64decode(found[1]), -15)).hexdigest()

    def value(self, code):
        return json.loads(self.browser.value(f"JSON.stringify({code})"))

    def want_calm(self):
        want(not self.browser.complaints(), f"the console has {self.browser.complaints()[:2]}")
        want(not self.browser.requests(), f"asked for {self.browser.requests()[:2]}")

    def until(self, code, words, most=120):
        end = time.monotonic() + most
        while True:
            came = self.value(code)
            if came:
                return came
            want(time.monotonic() < end, f"{words}: not within {most} s")
            time.sleep(0.005)

    def give(self, path):
        """Chooses a recording, and waits for its answer and its checksum."""
        before = self.value("times")
        self.browser.choose("#file", path)
        self.until(f"times > {before}", "an answer")
        self.until("state.sha256 ?? null", "a checksum")
        return json.loads(self.browser.value(SHOWN))

    def saved(self):
        """What the button saves: the name and the text."""
        self.value("(() => { window.kept = null; window.save = (...it) => { window.kept = it; }; by('save-report').click(); return 1; })()")
        name, text, kind = self.value("kept")
        want(kind == "text/html", kind)
        return name, text


def try_sums(page):
    """The checksum of bytes in pieces of any size."""
    dice = random.Random(1)
    sizes = [*range(0, 260), 1000, 4095, 4096, 65_537, 1_000_003]
    source = (TOP / "page" / "checker" / "sha256.js").read_text()
    jobs = []
    for size in sizes:
        cuts = sorted(dice.randrange(size + 1) for _ in range(dice.choice((0, 0, 1, 2, 9))))
        jobs.append([size, *cuts])
    came = json.loads(page.browser.value("""(() => { %s
      const all = new Uint8Array(1000003);
      for (let i = 0, it = 1; i < all.length; i++) { it = it * 75 %% 65537; all[i] = it; }
      return JSON.stringify(%s.map(([size, ...cuts]) => { const sum = new Sha256(); let from = 0;
        for (const to of [...cuts, size]) { sum.add(all.subarray(from, to)); from = to; }
        return sum.hex(); })); })()""" % (source.replace("export ", ""), json.dumps(jobs))))
    data, it = bytearray(), 1
    for _ in range(1_000_003):
        it = it * 75 % 65537
        data.append(it & 255)
    for (size, *cuts), sum_ in zip(jobs, came):
        want(sum_ == hashlib.sha256(data[:size]).hexdigest(), f"{size} bytes, cut at {cuts}: {sum_}")
    sizes = (0, 1, 55, 56, 63, 64, 65, 119, 120, (1 << 22) - 1, 1 << 22, (1 << 22) + 1, 3 << 22, (1 << 24) + 7)
    row = (EXAMPLES / "coin-told-twice.csv").read_bytes()
    for size in sizes:
        path = page.work / "sized.csv"
        content = (row + b"\n" * size)[:size]
        path.write_bytes(content)
        came = page.give(path)
        want(came["sum"] == hashlib.sha256(content).hexdigest() and not came["isOff"], f"a file of {size} bytes: {came['sum']}")
    # Another check while the sum is made.
    path.write_bytes(row + b"\n" * (3 << 23))
    before = page.value("times")
    page.browser.choose("#file", path)
    page.until(f"times > {before}", "an answer")
    page.value("(() => { run(); return 1; })()")
    page.until(f"times > {before + 1} && (state?.sha256 ?? null)", "a checksum")
    want(page.value("by('sum').textContent") == hashlib.sha256(path.read_bytes()).hexdigest(), "the sum after another check")
    print(f"SHA-256: {len(jobs)} sizes in pieces and {len(sizes) + 1} recordings, each as hashlib has it")


def compare_report(page, path, came):
    """Compares what is saved with what is shown, and with the file."""
    name, text = page.saved()
    report, data = Report(text), path.read_bytes()
    cells = {words: cells[0] for words, cells in report.rows.items() if cells}
    want(cells["SHA-256 of the recording"] == hashlib.sha256(data).hexdigest(), "the checksum of the recording")
    want(page.module in cells["Checked by"] and re.match(r"mdbcheck \d+\.\d+\.\d+\. ", cells["Checked by"]), cells["Checked by"])
    want(cells["Size"] == f"{len(data):,} bytes", cells["Size"])
    want(cells["Recording"] == came["name"] == report.texts["name"] and report.title == f"{came['name']} – report of mdbcheck", cells["Recording"])
    want(cells["Command with the same answer"] == came["command"], "the command")
    want(re.fullmatch(r"\d{4}-\d\d-\d\d \d\d:\d\d:\d\d \(UTC[+−]\d\d:\d\d\)", cells["Checked"]), cells["Checked"])
    want(report.card == came["card"] and came["word"] in report.texts["verdict"], "the verdict")
    if came["text"] is not None:
        want(report.texts["text"].encode() == came["text"].encode(), f"the text: {report.texts.get('text')!r}")
    for account, side, *ends in came["bounds"]:
        want(all(it in report.texts["account-" + account] for it in ends), f"{account} {side}: {ends}")
    want(not re.search(r"url\((?!#)", text) and "@import" not in text, "the style asks for something")
    return name, text


HOSTILE = ("<img src=x onerror=window.ran=1>.csv", "a\"b'c&amp;&lt;d.csv", "day \u202egnp.1.csv", "]]>--><!--.csv", "no ending", ".csv", "x" * 200 + ".csv", "אבג.csv")


def try_reports(page):
    count = 0
    for path in sorted(EXAMPLES.glob("*.csv")):
        came = page.give(path)
        try:
            name, _ = compare_report(page, path, came)
            want(name == f"{path.stem}-report.html", name)
            want(came["text"] == Runs(MDBCHECK).run(path.read_bytes(), "check", "--extended")[1], "the text of the program")
        except Wrong as wrong:
            raise Wrong(f"the report of {path.name}: {wrong}") from None
        count += 1
    for i, hostile in enumerate(HOSTILE):
        path = page.work / hostile
        path.write_bytes((EXAMPLES / ("sale-never-approved.csv" if i % 2 else "coin-told-twice.csv")).read_bytes() + (b"" if i % 3 else b"<b>x</b>\n"))
        came = page.give(path)
        try:
            name, text = compare_report(page, path, came)
            want(re.fullmatch(r"[^\x00-\x1f\\/:*?\"<>|\u202e]+-report\.html", name) and len(name) <= 112, f"it is saved as {name!r}")
        except Wrong as wrong:
            raise Wrong(f"the report of {hostile!r}: {wrong}") from None
        page.want_calm()
        # Opened, it is what was saved.
        saved = page.work / "opened.html"
        saved.write_text(text)
        page.browser.open(saved.as_uri())
        want(page.value("[window.ran ?? null, document.scripts.length, getComputedStyle(document.body).maxWidth !== 'none']") == [None, 0, True], f"{hostile!r}: opened")
        want(page.value("document.getElementById('text')?.textContent ?? null") == came["text"], f"{hostile!r}: the text, opened")
        page.want_calm()
        page.browser.open(PAGE.as_uri())
    print(f"{count} saved reports of examples and {len(HOSTILE)} of hostile names: well-formed, with text and checksums")


def try_saved(page):
    """The files as the browser saves them, and the page as it is printed. In Chromium."""
    folder = page.work / "saved"
    folder.mkdir()
    page.browser.ask("Page.setDownloadBehavior", behavior="allow", downloadPath=str(folder))
    page.give(EXAMPLES / "sale-never-approved.csv")
    for button, name in (("save-report", "sale-never-approved-report.html"), ("save", "sale-never-approved-money.csv")):
        page.value(f"(() => {{ by('{button}').click(); return 1; }})()")
        for _ in range(2000):
            if (folder / name).exists():
                break
            time.sleep(0.01)
        want((folder / name).exists(), f"{[it.name for it in folder.iterdir()]}, wanted {name}")
    Report((folder / "sale-never-approved-report.html").read_text())
    page.browser.ask("Emulation.setEmulatedMedia", media="print")
    printed = page.value("['facts', 'sum', 'text', 'verdict'].map((it) => by(it).checkVisibility())")
    want(printed == [True] * 4, f"printed: {printed}")
    want(not page.value("by('save-report').checkVisibility()"), "the button is printed")
    mark = page.value("getComputedStyle(document.querySelector('tr.mark').firstElementChild).borderLeftWidth")
    want(mark == "6px", f"the marked row, printed: {mark}")
    page.browser.ask("Emulation.setEmulatedMedia", media="")
    print("saved under the recording's name; printed with checksums, and the marked row has a border")


def try_all(browser, work):
    want(not browser.complaints(), f"the console has {browser.complaints()[:2]}")
    page = Page(browser, work)
    try_sums(page)
    try_reports(page)
    if isinstance(browser, Browser):
        try_saved(page)
    page.want_calm()


def main():
    with tempfile.TemporaryDirectory() as work:
        browser = Firefox() if "--firefox" in sys.argv else Browser()
        try:
            try_all(browser, pathlib.Path(work))
        except Wrong as wrong:
            sys.exit(f"page_evidence: {wrong}")
        finally:
            browser.close()


if __name__ == "__main__":
    main()
