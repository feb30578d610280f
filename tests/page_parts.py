"""For tests/page: a part of a recording and a search by a range of times, and the remarks on times beside the sums."""

import json
import pathlib
import time

import make_day

TOP = pathlib.Path(__file__).resolve().parent.parent
DAY = TOP / "examples" / "a-days-recording.csv"
CHANGER, READER = 0x08, 0x60
LATE, EARLY, SHORT = 9_146, 4_746, 97_000
REMARKS = [
    "The controller went on early once, 3.6 ms after a command without an answer (the standard asks for 5); at ",
    "The controller made a break too short once, 97.0 ms long (the standard asks for 100); at ",
    "The coin changer answered late 2 times, at most 8.0 ms after the command (the standard allows 5); first at ",
]
UNHEARD = "A late answer of the coin changer tells of money, and wasn't acknowledged (rows "


class Wrong(Exception):
    """The page shows something else than is wanted."""


def want(is_so, words):
    if not is_so:
        raise Wrong(words)


def late(generate, content, is_heard=True):
    """The changer's answer to POLL, late."""
    rows = generate.told(generate.poll(CHANGER), *content)
    return [*rows[:2], (LATE, rows[2][1]), *(rows[3:] if is_heard else rows[3:-1])]


def untimely(is_heard):
    """A recording in which nothing but times is wrong; a coin that is told late is acknowledged, or it isn't."""
    generate = make_day.load()
    rest = [*generate.poll(READER), *[(EARLY, row) if i == 0 else (gap, row) for i, (gap, row) in enumerate(generate.poll(CHANGER) + generate.ACK)]]
    again = generate.poll(CHANGER) + generate.ACK if is_heard else generate.told(generate.poll(CHANGER), 0x52, 9)
    rows = generate.set_up() + late(generate, (0x0A,)) + late(generate, (0x52, 9), is_heard) + again + rest
    at, lines = 1_000_000, [f"500000,B,{SHORT}"]
    for gap, row in rows:
        at += gap
        lines.append(f"{at},{row}")
    return "\n".join(lines) + "\n"


def give_wide(page, name, text):
    path = page.work / name
    path.write_text(text)
    page.give(path, ["--extended"])
    time.sleep(0.2)


def try_remarks(page):
    give_wide(page, "late.csv", untimely(True))
    told = page.browser.value("by('remarks')?.textContent ?? ''")
    want(all(it in told for it in REMARKS), f"the remarks: {told}")
    want(not page.browser.value("by('verdict').hasAttribute('data-open')"), "late answers that were heard leave something to do")
    give_wide(page, "unheard.csv", untimely(False))
    card = page.browser.value("by('verdict').textContent")
    want(UNHEARD in card and page.browser.value("by('verdict').hasAttribute('data-open')"), f"a coin told late and not heard: {card}")


def field(page, name, words):
    page.browser.value(f"by({name!r}).value = {json.dumps(words)}; 1")


def check_part(page, begin, end):
    before = page.shown()
    field(page, "part-from", begin)
    field(page, "part-to", end)
    page.browser.value("by('part-go').click(); 1")
    page.wait(before)


def try_parts(page):
    page.give(DAY)
    rows = DAY.read_text().splitlines()
    times = [int(it.split(",")[0]) for it in rows]
    low, high = times[len(rows) // 3], times[2 * len(rows) // 3]
    page.browser.value(f"by('act-text').value = '{low} to {high}'; by('act-polls').checked = true; find(state).then(() => 1)")
    wanted = page.browser.value(
        f"Array.from({{length: state.list.count}}, (_, i) => i).filter((i) => state.list.end(i) >= {low} && state.list.start(i) <= {high})")
    want(page.browser.value("state.hits") == wanted and wanted, f"{low} to {high} finds other acts")
    check_part(page, str(low), str(high))
    came = page.browser.value("recording.text()")
    want(came.splitlines() == [row for row, at in zip(rows, times) if low <= at < high], "the part has other rows")
    want(page.browser.value("by('joined').checked"), "the part isn't taken as one of a running machine")
    record = page.browser.value("by('record').textContent")
    want(f"mdbimport rows --unit us --from {low} --until {high - 1} < FILE" in record, f"the record: {record}")
    check_part(page, "", "")
    want(page.browser.value("recording.text()") == DAY.read_text(), "the whole isn't checked again")
    field(page, "part-from", "soon")
    page.browser.value("by('part-go').click(); 1")
    time.sleep(0.1)
    want("Write two times" in page.browser.value("by('part-fault').textContent"), "a time that is none is taken")
    page.browser.value("by('joined').checked = false; 1")


def try_all(page):
    try_remarks(page)
    try_parts(page)
    print("parts of a recording, a range of times that is searched, and remarks on times")
