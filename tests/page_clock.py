"""The clock of the page: all times are of the clock that a user or an export gives, and are found by it. tests/page
calls `try_clock`. What is wanted is made here, from the rows, by Python's own calendar."""

import csv
import datetime
import io
import json
import pathlib
import re
import time

from page_links import acts_of

TOP = pathlib.Path(__file__).resolve().parent.parent
EXAMPLES = TOP / "examples"
EPOCH = datetime.datetime(1970, 1, 1)

# What is written into the field, and what it means. A recording of hours passes midnight in some.
CLOCKS = (("2026-11-28 08:00", datetime.datetime(2026, 11, 28, 8)),
          ("2026-12-31T22:15:00.5", datetime.datetime(2026, 12, 31, 22, 15, 0, 500000)),
          ("7:05:09", EPOCH.replace(hour=7, minute=5, second=9)), ("23:30", EPOCH.replace(hour=23, minute=30)))

# Every time that stands on the page, by where it stands.
TIMES = """JSON.stringify({
  acts: [...document.querySelectorAll('#act-rows tr:not(.gap)')].map((it) => [it.children[1].textContent, it.children[0].textContent]),
  lines: [...document.querySelectorAll('#statement-rows [data-at]')].map((it) => [it.dataset.at, it.textContent]),
  links: [...document.querySelectorAll('[data-at]')].map((it) => [it.dataset.at, it.textContent]),
  faults: [...document.querySelectorAll('#survey-rows tr')].map((it) => [it.children[1].textContent, it.children[2].textContent]),
  range: document.getElementById('line-range')?.textContent, axis: [...document.querySelectorAll('#line svg .faint')].map((it) => it.textContent),
  card: document.getElementById('verdict').textContent, way: document.getElementById('way').textContent,
  told: document.getElementById('began-told').textContent, fault: document.getElementById('began-fault').textContent,
  facts: document.getElementById('facts')?.textContent, silences: document.getElementById('silences')?.textContent ?? ''})"""


class Wrong(Exception):
    """The page shows another time than is wanted."""


def want(is_so, words):
    if not is_so:
        raise Wrong(words)


def row_time(micros):
    """A time of the rows, as the page writes it where no clock is known."""
    whole, part = micros // 1_000_000, micros // 1000 % 1000
    if whole < 60:
        return f"{whole}.{part:03} s"
    hours, minutes, rest = whole // 3600, whole // 60 % 60, whole % 60
    return f"{hours}:{minutes:02}:{rest:02}.{part:03}" if hours else f"{minutes}:{rest:02}.{part:03}"


def clock_time(began, has_date, first):
    """What writes a TIME of the rows by a clock that stood so at TIME 0, where row 1 has the time `first`."""
    day = (began + datetime.timedelta(microseconds=first)).date()

    def write(micros):
        at = began + datetime.timedelta(microseconds=micros)
        words = f"{at:%H:%M:%S}.{at.microsecond // 1000:03}"
        if at.date() == day:
            return words
        return f"{at:%Y-%m-%d} {words}" if has_date else f"day {(at.date() - day).days + 1}, {words}"
    return write


def shown(page):
    time.sleep(0.2)
    return json.loads(page.browser.value(TIMES))


def set_began(page, words):
    page.browser.value(f"by('began').value = {json.dumps(words)}; by('began').dispatchEvent(new Event('change', {{bubbles: true}})); 1")


def compare(page, path, write, where):
    """Compares the times that are shown with those of the rows, as `write` has them. Answers how many."""
    times = [int(line.split(",")[0]) for line in path.read_text().splitlines()]
    page.browser.value("by('act-polls').checked = true; find(state).then(() => 1)")
    came, count = shown(page), 0
    for rows, told in came["acts"]:
        want(told == write(times[int(re.match(r"\d+", rows)[0]) - 1]), f"{where}: rows {rows} begin at {told}")
        count += 1
    for at, told in came["links"]:
        want(told == write(int(at)), f"{where}: {at} is written {told}")
        count += 1
    for row, told in came["faults"]:
        want(told == write(times[int(row.replace(",", "")) - 1]), f"{where}: the fault in row {row} is at {told}")
    want(came["range"] == f"{write(min(times))} to {write(max(times))}", f"{where}: the time line has {came['range']}")
    return count


def saved(page, code):
    return list(csv.DictReader(io.StringIO(page.browser.value(code), newline="")))


def compare_saved(page, path, began, has_date, where):
    """Compares the column `clock` of the saved tables, which have the rows' microseconds too."""
    for line in saved(page, "csv(state)"):
        at = None if began is None else began + datetime.timedelta(microseconds=int(line["time_us"]))
        wanted = "" if at is None else at.strftime("%Y-%m-%d %H:%M:%S.%f" if has_date else "%H:%M:%S.%f")
        want(line["clock"] == wanted, f"{where}: saved {line}, wanted {wanted}")


def try_given(page):
    """A clock that is given: with a date, alone, past midnight, and taken away again."""
    path, count = EXAMPLES / "a-days-recording.csv", 0
    page.give(path)
    acts, _ = acts_of(path)
    first = int(path.read_text().split(",", 1)[0])
    for words, began in CLOCKS:
        set_began(page, words)
        search(page, path, clock_time(began, began.year > 1970, first), acts)
    set_began(page, "")
    # Times that are shown while a survey is made can't become those of another clock than the survey's.
    want(page.browser.value("(() => { const done = survey(), is = by('began').disabled; return done.then(() => is && !by('began').disabled); })()"),
         "the clock can be set while a survey is made")
    count += compare(page, path, row_time, "without a clock")
    compare_saved(page, path, None, False, "without a clock")
    for words, began in CLOCKS:
        set_began(page, words)
        has_date = began.year > 1970
        write = clock_time(began, has_date, first)
        count += compare(page, path, write, words)
        compare_saved(page, path, began, has_date, words)
        came = shown(page)
        want(came["faults"], f"{words}: the survey is gone")
        want(f"began at {words}" in came["way"] and words in came["facts"], f"{words}: {came['way']}, {came['facts']}")
        want(write(first) in came["told"], f"{words}: when row 1 was: {came['told']}")
        report = page.browser.value("reportPage(state)")
        want(words in report and all(told in report for _, told in came["faults"]), f"{words}: the saved report")
    for words in ("8 o'clock", "25:00", "2026-02-30 08:00", "08:60", "2026-11-28"):
        set_began(page, words)
        came = shown(page)
        want("Write a date and a time" in came["fault"], f"{words} is taken")
    set_began(page, "")
    count += compare(page, path, row_time, "the clock taken away")
    want(not shown(page)["fault"], "an empty field is wrong")
    return count


def search(page, path, write, acts):
    """What a time that is written finds: the acts of that thousandth of a second, that second and that minute."""
    for act in (acts[0], acts[len(acts) // 2], acts[-1]):
        told = write(act.start)
        for words in (told, told[:-4], told[:-7]):
            wanted = [it.rows() for it in acts if any(write(at).startswith(words) for at in (it.start, it.end))]
            page.browser.value(f"by('act-text').value = {json.dumps(words)}; by('act-polls').checked = true; find(state).then(() => 1)")
            came = [rows for rows, _ in shown(page)["acts"]]
            want(came == wanted[:100] and wanted, f"{words} finds {came[:5]}, wanted {wanted[:5]}")
    page.browser.value("by('act-text').value = ''; find(state).then(() => 1)")


def try_export(page):
    """An export with times of day fills the field, whatever the page showed before. Another recording empties it."""
    rows = [line.split(",") for line in (EXAMPLES / "coin-told-twice.csv").read_text().splitlines()]
    base = (14 * 3600 + 32 * 60) * 1_000_000
    lines = ["Time;Line;Word"]
    for at, line, value in rows:
        when = EPOCH + datetime.timedelta(microseconds=base + int(at))
        lines.append(f"{when:%H:%M:%S.%f};{line};{int(value) / 1e6 if line == 'B' else value}")
    path = page.work / "clock.csv"
    path.write_text("\n".join(lines) + "\n")
    set_began(page, "2020-01-01 00:00")
    page.give(path)
    for _ in range(100):
        if page.browser.value("by('import-go') && !by('import-go').disabled && by('import-first').textContent ? 1 : 0"):
            break
        time.sleep(0.05)
    before = page.shown()
    page.browser.value("by('import-go').click(); 1")
    page.wait(before)
    came = shown(page)
    write = clock_time(EPOCH, False, base)
    want([told for _, told in came["acts"]][0] == write(base + int(rows[0][0])), f"an export with times of day: {came['acts'][:2]}")
    want("row 1, as the file has it" in came["told"] and "row 1, as the file has it" in came["facts"], f"{came['told']}; {came['facts']}")
    set_began(page, "2026-11-28 14:30:00")
    came = shown(page)
    want(came["acts"][0][1] == "14:30:00.000" and "2026-11-28 14:30:00 (row 1" in came["facts"], f"corrected: {came['acts'][0]}, {came['facts']}")
    page.give(EXAMPLES / "coin-told-twice.csv")
    came = shown(page)
    want(page.browser.value("by('began').value") == "" and came["acts"][0][1].endswith(" s"), f"another recording: {came['acts'][0]}")


def try_clock(page):
    count = try_given(page)
    try_export(page)
    print(f"the clock: {count:,} times as the rows and the clock have them; found, saved and reported; an export gives it")
