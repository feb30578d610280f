"""By which profile the page shows an answer, for tests/page: docs/bench/page.md, *Settings*.

Each recording is checked by the extended profile, and by the base one where *To the letter of feature level 1* is ticked.
What each of them says, the program says (`Runs`, programs.py). The bytes that the extended profile has alone are told in
words. Where it needs a reader's level or options, the card says so, and offers levels: whether they would help, the program
says too, where it is told them (`missing`).
"""

import json
import pathlib
import re
import time

from cases import told_in
from page_open_money import Bus

TOP = pathlib.Path(__file__).resolve().parent.parent
# By which profile the answer is, how the page names it, and what was asked of the worker. The saved report has it too.
PROFILE = """JSON.stringify({
  isWide: isExtended(state.way), text: by("text")?.textContent ?? null, command: by("command").textContent,
  story: [...document.querySelectorAll("#story li")].map((it) => it.textContent), leave: by("leave-out")?.textContent ?? null,
  next: [...document.querySelectorAll("#next li")].map((it) => it.textContent),
  way: by("way").textContent, card: by("verdict").textContent, isStale: !by("stale").hidden, asked: checker.number,
  report: new DOMParser().parseFromString(reportPage(state), "text/html").getElementById("verdict").textContent,
})"""
LETTER = "to the letter of feature level 1"


def ended(answer):
    """The row at which an answer ends, and whether it ends at something that isn't followed."""
    status, out, err = answer
    if status == 1:
        told = dict(line.split(" ", 1) for line in out.splitlines())
        return int(told["row"]), told["rule"] == "Profile"
    found = re.search(r"row (\d+): ", err)
    return int(found[1]) if status == 2 and found else 0, False


def shown_words(words):
    """The words by which the page checks. What is for the extended profile alone doesn't count with the base one."""
    drop = set() if "--extended" in words else {value for value, _, field, _ in told_in(words) if field != "setup"}
    return [it for it, after in zip(words, [*words[1:], ""]) if it not in drop and not (it == "--setup" and after in drop)]


def wide_of(words):
    """The words for the extended profile, in the page's order."""
    front = ["--joined"] * ("--joined" in words) + ["--extended"]
    return front + [it for it in words if it not in front]


READERS = {"cashless": 0x10, "cashless-2": 0x60}


def answer_at(level):
    """A reader's answer to SETUP config with this level, as `--setup` has it."""
    block = bytes([1, level, 0, 0x40, 1, 2, 5, 0])
    return bytes([*block, sum(block) & 255]).hex(" ").upper()


def asked_at(data, row):
    """The reader to which the last command up to a row is; None if it is to none."""
    lines = [it.split(",") for it in data.decode("latin-1").splitlines() if it.strip()][:row]
    begun = next((int(it[2], 16) & 0xF8 for it in reversed(lines) if it[1] == "M" and it[2].startswith("1")), 0)
    return next((name for name, base in READERS.items() if base == begun), None)


def missing(run, data, words):
    """Of which reader the extended profile needs the level or the options to go on in mid-session, and which of them: it gets
    further if the program is told them. None if it doesn't. Of a level or options that the words tell, that isn't asked."""
    words = wide_of(words)
    told = run(data, "check", *words)
    if "--joined" not in words or told[0] != 1 or not ended(told)[1]:
        return None
    row, blame = ended(told)[0], re.search(r"^blame (.*)$", told[1], re.M)[1]
    reader = asked_at(data, row) if blame == "controller" else blame
    if reader not in READERS:
        return None

    def helps(*values):
        came = run(data, "check", *words, *(word for value in values for word in ("--setup", f"{reader} {value}")))
        return came[0] == 0 or ended(came)[0] > row or ended(came) == (row, False)

    known, base = {field for _, device, field, _ in told_in(words) if device == reader}, READERS[reader]
    # (a level goes with neither the controller's SETUP nor another level: with that SETUP the reader's answer tells its own)
    tell = None if "level" in known else "level {}".format if "config" not in known else answer_at if "setup" not in known else None
    options = [bytes([base + 7, 4, 0, 0, 0, idle, base + 11 + idle & 255]).hex(" ").upper() for idle in (0, 0x20)]
    options = [[it] for it in options if "options" not in known]
    if tell and any(helps(tell(level), *more) for level in (1, 2, 3) for more in ([], *options)):
        return reader, "level"
    return (reader, "options") if any(helps(*it) for it in options) else None


def read(page):
    return json.loads(page.browser.value(PROFILE))


def press(page, code):
    before = page.shown()
    page.browser.value(f"(() => {{ {code}; return 1; }})()")
    page.wait(before)
    for _ in range(200):
        if page.browser.value("document.activeElement.id") == "verdict":
            break
        time.sleep(0.01)
    return read(page)


def try_wide(page, want, name, base, wide):
    """The answer by the extended profile, the other one by the setting, and back."""
    page.take(TOP / "examples" / f"{name}.csv", [])
    came = read(page)
    want(came["text"] == wide and came["isWide"] and "profile" not in came["card"], f"{name}: by itself it shows {came['card']!r}")
    want(came["command"] == "mdbcheck check --extended < FILE", f"{name}: {came['command']}")
    want(came["way"] == "from power-on, all devices" and not came["isStale"], f"{name}: the settings say {came['way']!r}")
    want(all(LETTER not in it for it in (came["card"], came["report"])), f"{name}: {came['card']!r}")
    for text, is_wide in ((base, False), (wide, True)):
        came = press(page, "by('letter').click(); by('again').click()")
        want(came["text"] == text and came["isWide"] == is_wide, f"{name}: the other answer is {came['text']!r}")
        want(came["command"] == f"mdbcheck check {'--extended ' * is_wide}< FILE", f"{name}: {came['command']}")
        want(all((LETTER in it) != is_wide for it in (came["card"], came["report"])), f"{name}: {came['card']!r}")
        want(("to the letter of level 1" in came["way"]) != is_wide, f"{name}: the settings say {came['way']!r}")
        is_end = "rule Profile" in text
        want(any("untick “To the letter" in it for it in came["next"]) == is_end and not is_wide or is_wide, f"{name}: {came['next']}")


def try_survey(page, want, name, run):
    """A survey is by the profile of the answer that is shown."""
    rows = (TOP / "examples" / f"{name}.csv").read_text().splitlines()
    bad = rows[-1].split(",")[0] + ",S,1FE"
    path = page.work / "wide-no.csv"
    path.write_text("".join(it + "\n" for it in [*rows, bad]))
    page.take(path, [])
    came = read(page)
    want(came["isWide"] and came["text"].startswith("verdict no"), f"{name}, with a no: {came['text']!r}")
    for words in (["--extended"], []):
        came = press(page, "by('survey-go').click()")
        told = json.loads(page.browser.value("JSON.stringify([state.survey.whole, by('survey-command').textContent])"))
        want(told == [run(path.read_bytes(), "survey", *words)[1], " ".join(["mdbcheck survey", *words, "< FILE"])], f"{name}: the survey is {told}")
        want(came["isWide"] == bool(words), f"{name}: the survey is by another profile than {words}")
        press(page, "by('letter').click(); by('again').click()")


def try_neither(page, want, run):
    """What neither profile follows, and how to leave the device out."""
    path = TOP / "examples" / "bills-beside-alternative-payout.csv"
    page.take(path, [])
    came = read(page)
    want(came["text"] == run(path.read_bytes(), "check", "--extended")[1] and came["isWide"], f"{path.stem}: {came['text']!r}")
    want("Not followed: " in came["card"] and came["leave"].startswith("Leave out the coin changer"), f"{path.stem}: {came['card']}")
    want("If it is about this device, switch the feature off and record again." in came["next"], f"{path.stem}: {came['next']}")


def try_options(page, want):
    """The headline names the option that isn't followed, and the story has the command."""
    page.take(Bus().reader(level=3, own=3).ack(0x17, 4, 0, 0, 0, 0x22).data, [], "options.csv")
    came = read(page)
    want("Not followed: the controller enables money of 32 bits on card reader 1" in came["card"], f"options: {came['card']!r}")
    want(any("the command 17 04 00 00 00 22 3D, enable options: money of 32 bits, always idle" in it for it in came["story"]), f"options: {came['story']}")


def try_once(page, want):
    """The worker is asked once, and once more for what is open."""
    page.take(TOP / "examples" / "sale-by-card.csv", [])
    first = read(page)["asked"]
    want(first <= 2, f"the worker was asked {first} times")


# What is said, and how the list has it in words. The validator's second bill is worth 10.00.
ID = [0x41] * 29
SAID = [
    ([0x12], [3, 3, 0xE8, 0x12, 0x34, 0x56, 0x78, 0x41, 0, 0x2A], "POLL: begin session, funds 10.00, media ID 12345678, type 41, data 002A"),
    ([0x13, 4], [], "SESSION COMPLETE: acknowledged (ACK)"),
    ([0x12], [7], "POLL: end session"),
    ([0x17, 0, *ID], [9, *ID, 0, 0, 0, 0x29], "EXPANSION request ID: peripheral ID, options: file transfer, negative vend, always idle"),
    ([0x17, 4, 0, 0, 1, 9], [], "EXPANSION enable options: file transfer, negative vend, bit 8"),
    ([0x12], [0x0B, 4], "POLL: command out of sequence, status 04 (session idle)"),
    ([0x12], [0x0B], "POLL: command out of sequence"),
    ([0x12], [0x11, 4], "POLL: asks for time and date; asks to end the session"),
    ([0x33], [0xB1], "POLL: 10.00 to the recycler"),
    ([0x33], [0xD0, 0xE1, 0xFF], "POLL: status D0, put into the recycler by hand; status E1, taken out of the recycler by hand; "
                                 "status FF, from the recycler to the cash box"),
]


def try_words(page, want):
    """All that the extended profile has alone, in words, and its money in the table."""
    bus = Bus().validator().reader(level=3, own=3)
    for command, answer, _ in SAID:
        (bus.told(command, *answer) if answer else bus.ack(*command)).polls(1, device=0x33)
    page.take(bus.data, [], "words.csv")
    came = read(page)
    want(came["isWide"] and came["text"].startswith("verdict yes"), f"words: {came['text']!r}")
    told = json.loads(page.browser.value("JSON.stringify(Array.from({length: state.list.count}, (_, i) => actWords(state.list, i)))"))
    at = 0
    for *_, words in SAID:
        want(words in told[at:], f"{words!r} isn't in {told[at:]}")
        at = told.index(words, at) + 1
    saved = page.browser.value("csv(state)")
    want("bill to the recycler,1,1,10.00,yes,possible\r\n" in saved, saved)
    sums = page.browser.value("[...document.querySelectorAll('#statement-rows tr')].map((it) => it.textContent).join()")
    want("bill to the recycler, type 1" in sums and "validator 10.00" in sums, sums)


RUNNING = """JSON.stringify({word: by("verdict").querySelector(".word").textContent, levels: [...document.querySelectorAll("#levels button")].map((it) => it.textContent),
  story: [...document.querySelectorAll("#story li")].map((it) => it.textContent), fields: ["level", "config", "options"].map((it) => by(it + "-cashless").value),
  faults: [...document.querySelectorAll("#setups .fault")].map((it) => it.textContent).filter((it) => it), focus: document.activeElement.id,
  late: by("late")?.textContent ?? null, told: by("setup-told").textContent, title: document.title})"""


def earlier(page, path):
    """Gives an earlier recording."""
    page.browser.value("by('setup-told').textContent = ''; 1")
    page.browser.choose("#setup-file", path)
    for _ in range(500):
        told = page.browser.value("by('setup-told').textContent")
        if told and not told.startswith("Reading "):
            return told
        time.sleep(0.01)
    return None


def try_running(page, want, run):
    """A machine that was running, with a reader of level 3: where the rows show enough the page goes on by the extended
    profile. Where they don't, the card has a button for each level, and an earlier recording shows what is needed."""
    start = TOP / "examples" / "coins-beside-a-level-3-reader.csv"
    seen = lambda: json.loads(page.browser.value(RUNNING))
    plain = b"".join(start.read_bytes().splitlines(True)[215:])
    late = plain.replace(b",S,0FF", b",S,000").replace(b",S,1D6", b",S,1DA")
    page.take(plain, ["--joined"])
    came, (base, wide) = read(page), (run(plain, "check", "--joined", *it) for it in ([], ["--extended"]))
    want(came["isWide"] and came["text"] == wide[1] and wide[0] == 0, f"a card's number of FF: {came['text']!r}")
    came = press(page, "by('letter').click(); by('again').click()")
    want(came["text"] == base[1] and not came["isWide"] and seen()["word"].startswith("Not judged: "), f"to the letter: {came['card']!r}")
    for words in (["--joined"], ["--joined", "--extended"]):
        for level in (1, 2, 3):
            page.give(late, words)
            came = seen()
            want(came["word"] == "Not judged: the reader's level isn't in this recording" and came["levels"] == ["Level 1", "Level 2", "Level 3"], f"{words}: {came}")
            want(came["title"].startswith("not judged"), came["title"])
            came = press(page, f"document.querySelector('[data-level=\"{level}\"]').click()")
            told = run(late, "check", "--joined", "--extended", "--setup", f"cashless level {level}")
            want(came["text"] == told[1] and came["isWide"], f"level {level}: {came['text']!r}, and not {told}")
            want(came["command"] == f"mdbcheck check --joined --extended --setup 'cashless level {level}' < FILE", came["command"])
            want(f"Given for card reader 1: level {level}." in came["card"], f"level {level}: {came['card']!r}")
    page.take(late, [])
    came = seen()
    want(came["late"] is None or "Profile" not in came["late"], f"as of power-on: {came['late']!r}")
    page.take(late, ["--joined"])
    told = earlier(page, start)
    want("It shows the controller's SETUP to card reader 1." in (told or ""), f"the earlier recording: {told!r}")
    fields = seen()["fields"]
    want(fields[0] == "" and fields[1].startswith("11 00 ") and fields[2] == "", f"its fields: {fields}")
    came = press(page, "by('again').click()")
    want(came["isWide"] and came["text"].startswith("verdict yes") and f"--setup 'cashless {fields[1]}'" in came["command"], f"with it: {came['text']!r}, {came['command']!r}")
    told = earlier(page, TOP / "examples" / "sales-without-a-session.csv")
    want("It shows the controller's SETUP and ENABLE OPTIONS to card reader 1." in (told or ""), f"another one: {told!r}")
    want(seen()["fields"][2].startswith("17 04 "), f"its options: {seen()['fields']}")
    for field, value, words in (("level", "2", "Give the level or this command, not both"), ("config", "11 00 03 10 02 01 28", "The last byte has to be the sum"),
                                ("config", "11 01 03 10 02 01 28", "no SETUP of the controller"), ("config", "61 00 03 10 02 01 77", "no SETUP of the controller"),
                                ("options", "17 04 00 00 00 02 1D", "Leave this reader out"), ("options", "11 00 03 10 02 01 27", "no ENABLE OPTIONS")):
        page.browser.value("by('level-cashless').value = ''; by('config-cashless').value = '12-18 ask cashless 11 00 03 10 02 01 27'; by('options-cashless').value = ''; 1")
        page.browser.value(f"by('{field}-cashless').value = '{value}'; 1")
        before = page.shown()
        page.browser.value("by('again').disabled = false; by('again').click(); 1")
        page.wait(before)
        came, at = seen(), "options" if field == "options" else "config"
        want(len(came["faults"]) == 1 and words in came["faults"][0] and came["focus"] == f"{at}-cashless", f"{field} {value}: {came}")
    page.options([])


def try_profiles(page, want, run):
    examples = sorted((TOP / "examples").glob("*.check-extended"))
    for path in examples:
        try_wide(page, want, path.stem, path.with_suffix(".check").read_text(), path.read_text())
    try_survey(page, want, examples[0].stem, run)
    try_neither(page, want, run)
    try_options(page, want)
    try_once(page, want)
    try_words(page, want)
    try_running(page, want, run)
    print(f"profiles: {len(examples)} recordings by the extended profile, to the letter of level 1 and back; one that neither follows")
