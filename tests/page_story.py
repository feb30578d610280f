#!/usr/bin/env python3
"""tests/page_story.py [--firefox] [SHARE]: whether the story on the page's card is that of the recording.

Gives the page each recording of examples/ and one in SHARE (2 if not said) of the worked cases that
are a `check`. The story's sentences are compared with what `mdbcheck show` and `mdbcheck check` print, read a second time
here:

- rows that a sentence names are those of an act, or rows of the block that breaks a rule of the link;
- an item, an amount, an approval, a denial, a sale, an order is told by an act in the rows that its sentence names;
- an amount that isn't certain, and what the two sides counted, are the report's;
- the acts that leave an amount open are those at which a range became wider, and what settles a part of it is where one
  became narrower, by `mdbcheck check` of the rows up to each row;
- the sums if nothing was lost are those that `replay` prints of the rows without marks, and what another end of a range
  takes is as much as `explain` writes;
- what a sentence says is missing isn't there: an approval, an order, a report of a reset, a later event of a session;
- a silence has as many commands without an answer as the sentence says;
- each device that the card's story names is one of an act there, of the blame, or of a line of the report that isn't zero.

The stories of the examples are compared word for word. Ends with status 1 at the first difference.
"""

import importlib.machinery
import importlib.util
import json
import pathlib
import re
import subprocess
import sys
import tempfile

sys.dont_write_bytecode = True

from browser import Browser  # noqa: E402
from cases import is_way_of_page, readers_in, setups_in  # noqa: E402
from firefox import Firefox  # noqa: E402
from programs import MDBCHECK as PROGRAM  # noqa: E402
from reader_formats import BASE, Formats, cut  # noqa: E402

TOP = pathlib.Path(__file__).resolve().parent.parent
NAMES = {"changer": "changer", "validator": "bill", "card reader 1": "cashless", "card reader 2": "cashless-2"}
ACCOUNTS = {"coins-in": "changer", "bills-in": "bill", "paid-out": "changer", "approved": "cashless", "sold": "cashless",
            "approved-2": "cashless-2", "sold-2": "cashless-2"}
STORY = """JSON.stringify({
  word: document.querySelector("#verdict .word").textContent, lead: document.getElementById("lead").textContent,
  sentences: [...document.querySelectorAll("#story li, #next li")].map((it) => ({kind: it.dataset.kind, text: it.textContent,
    rows: [...it.querySelectorAll("[data-row]")].map((a) => a.textContent)})),
  open: [...document.querySelectorAll("#open li")].map((it) => it.dataset.device),
})"""

EXAMPLES = {
    "bill-stacked-without-an-order": [
        "The validator reported a bill of 5.00 stacked (rows 40–41).",
        "It was in escrow (rows 35–36), and the controller hadn't ordered to stack it."],
    "bills-beside-alternative-payout": [
        "The controller sends the coin changer the command 0F 02 of alternative payout (rows 208–209). The checker doesn't follow this command."],
    "changer-reset-and-poll": ["No money was reported."],
    "coin-behind-a-reset-message": [
        "0.25 isn't certain: a coin of 0.25 was reported in rows 32–34 and again in rows 38–41. It was one coin or two.",
        "The changer took 0.25 to 0.50; the controller counted 0.25.",
        "If nothing was lost, the changer took 0.25 in coins, and the controller counted the same.",
        "The changer took 0.50 only if it restarted unseen."],
    "coin-in-mid-session": [
        "The changer reported a coin of 0.25 to a tube (rows 24–26).",
        "It hadn't reported its reset since the recording began, which must come first."],
    "coin-not-told-again": [
        "The changer reported a coin of 0.25 to a tube (rows 32–34). The controller didn't acknowledge that, so the changer had to report it again.",
        "Instead it answered POLL with a mere ACK (row 38)."],
    "coin-told-twice": [
        "0.25 isn't certain: a coin of 0.25 was reported in rows 32–34 and again in rows 38–40. It was one coin or two.",
        "The changer took 0.25 to 0.50; the controller counted 0.50.",
        "If nothing was lost, the changer took 0.50 in coins, and the controller counted the same.",
        "The changer took 0.25 only if 1 acknowledgement was lost."],
    "coins-beside-a-level-3-reader": [
        "Card reader 1 reports feature level 3 in its answer to SETUP (rows 99–107), and so does the controller, with level 3 (rows 92–98).",
        "From level 2 on the messages of a session have other forms. The extended profile follows them."],
    "coins-beside-a-recycler": [
        "The bill validator sends the message B1 of bill recycling (rows 194–195). The checker doesn't follow this message."],
    "four-devices-on-a-bus": ["The controller and the devices agree for certain: 0.25 in coins."],
    "late-acknowledgement": [
        "The changer answered RESET (rows 1–2) after 6.297 ms (row 3).",
        "An answer starts at most 6.296 ms after the word before it."],
    "other-words-in-a-repeat": [
        "Asked to repeat its answer (rows 18–20), the changer sent the word 008 (row 23). The first time it was 009 (row 19)."],
    "sale-answered-by-a-reset-message": [
        "0.10 isn't certain: card reader 1 answered the sale of item 5 (rows 55–59) with the report that it was reset (rows 60–61). Whether it had booked it by then isn't certain.",
        "Card reader 1 booked 0.00 to 0.10; the controller counted 0.10.",
        "If nothing was lost, card reader 1 booked 0.10, and the controller counted the same.",
        "Card reader 1 booked 0.00 only if it restarted unseen."],
    "sale-by-card": ["The controller and the devices agree for certain: 1.00 approved by card reader 1 and 1.00 sold by card reader 1."],
    "sale-never-approved": [
        "The controller asked for 1.50 for item 8 (rows 58–64), and card reader 1 denied it (rows 68–69).",
        "The controller reported item 8 as sold all the same (rows 71–75). No approval of the reader pays for this 1.50."],
    "sale-of-one-item": ["The controller and the devices agree for certain: 0.10 approved by card reader 1 and 0.10 sold by card reader 1."],
    "silent-changer": [
        "The coin changer gave no answer for 3.007 s: from 0.531 s to 3.539 s, asked 7 times (rows 9–22)."],
    "wrong-sum-in-a-poll-reply": [
        "The bytes of the answer of the changer to POLL (rows 4–5) add up to 0B (row 6), and its last byte says 0C (row 7)."],
}


class Wrong(Exception):
    """The story says what the recording doesn't."""


def want(is_so, words):
    if not is_so:
        raise Wrong(words)


def the_page():
    """The driver of tests/page."""
    loader = importlib.machinery.SourceFileLoader("page", str(TOP / "tests" / "page"))
    module = importlib.util.module_from_spec(importlib.util.spec_from_loader("page", loader))
    loader.exec_module(module)
    return module


def amount(units, places):
    """An amount as the page writes it."""
    digits = str(abs(units)).rjust(places + 1, "0")
    return f"{'−' if units < 0 else ''}{digits[:-places]}.{digits[-places:]}" if places else f"{'−' if units < 0 else ''}{digits}"


def messages(device, data):
    """The messages of an answer to POLL of the changer or the validator, cut."""
    found, i = [], 0
    while i < len(data):
        size = 2 if device == "changer" and data[i] >= 0x40 else 1
        found.append(data[i:i + size])
        i += size
    return found


class Recording:
    """The acts that `show` prints, and what they say of items and amounts."""

    def __init__(self, text, options):
        self.acts, values, ask = [], {}, b""
        self.formats, self.told = Formats("--extended" in options, readers_in(options)), []
        for _, device, data in setups_in(options):
            self.told = cut(list(data[:-1]), BASE) or [] if device.startswith("cashless") else []
            values[device] = self.values(device, b"", data)
        for line in text.splitlines():
            found = re.fullmatch(r"(\d+)-(\d+) (\S+)((?: [a-z]\S*)?)((?: [0-9A-F]{2})*)(?: \d+)?", line)
            if line.startswith("fault ") or not found or found[3] == "break":
                if re.match(r"\d+-\d+ break", line):
                    first, last = map(int, line.split()[0].split("-"))
                    self.acts.append({"first": first, "last": last, "kind": "break", "device": "", "data": b"", "says": set(), "is_poll": False})
                continue
            kind, device, data = found[3], found[4].strip(), bytes.fromhex(found[5].replace(" ", ""))
            if kind == "ask":
                ask = data
                self.formats.ask(device, data[:-1])
            if kind == "reply" and device.startswith("cashless"):
                self.told = self.formats.reply(device, data[:-1])
            if kind in ("reply", "repeat"):
                values[device] = self.values(device, ask, data) or values.get(device)
            says = self.says(kind, device, ask, data, values.get(device)) if device else set()
            self.acts.append({"first": int(found[1]), "last": int(found[2]), "kind": kind, "device": device, "data": data, "says": says,
                              "is_poll": ask[:1] in (b"\x0b", b"\x33")})

    def values(self, device, ask, data):
        """The scale, the decimals and the credits that an answer tells; None where it tells none."""
        if device == "changer" and ask[:1] in (b"\x09", b"") and len(data) >= 8:
            return data[3], data[4], data[7:-1]
        if device == "bill" and ask[:1] in (b"\x31", b"") and len(data) >= 12:
            return data[3] * 256 + data[4], data[5], data[11:-1]
        if device.startswith("cashless"):
            for m in self.told:
                if m[0] == 1:
                    return m[4], m[5], b""
        return None

    def says(self, kind, device, ask, data, values):
        """What an act says, as words: items, amounts, and what was done."""
        says = set()
        scale, places, credits = values or (0, 0, b"")

        def add(what, raw):
            says.add(f"{what} {amount(raw * scale, places)}" if values else f"{what} unknown")

        def coin(kind_of, n, count=1):
            credit = credits[n] if n < len(credits) else 0
            add(kind_of, 0 if credit == 255 else credit * count)
            says.add(f"type {n}")
        if kind == "ask" and data[0] & 7 == 3 and device.startswith("cashless"):
            if data[1] in (0, 2):
                says |= {f"item {data[-3] * 256 + data[-2]}", "request" if data[1] == 0 else "sold"}
            if data[1] == 0:
                add("money", data[2] * 256 + data[3])
            says.add(["request", "cancel", "sold", "failure", "complete", "cash"][data[1]])
        if kind == "ask" and data[0] == 0x0D:
            coin("money", data[1] & 15, data[1] >> 4)
        if kind == "ask" and data[0] == 0x35 and data[1] & 1:
            says.add("order")
        if kind in ("reply", "repeat"):
            for m in self.told if device.startswith("cashless") else messages(device, data[:-1]):
                if device.startswith("cashless"):
                    says.add({0: "reset", 3: "begun", 4: "asked", 5: "approved", 6: "denied", 7: "ended"}.get(m[0], "other"))
                    if m[0] == 5 and len(m) == 3:
                        add("money", m[1] * 256 + m[2])
                elif device == "changer" and ask[:1] == b"\x0B":
                    if m[0] == 0x0B:
                        says.add("reset")
                    if 0x40 <= m[0] < 0x60:
                        says.add("coin")
                        coin("money", m[0] & 15)
                    if m[0] >= 0x80:
                        coin("money", m[0] & 15, m[0] >> 4 & 7)
                elif device == "bill" and ask[:1] == b"\x33":
                    if m[0] == 6:
                        says.add("reset")
                    if 0x80 <= m[0] < 0xC0:
                        says.add({8: "stacked", 9: "escrow", 10: "returned", 11: "recycled"}[m[0] >> 4])
                        coin("money", m[0] & 15)
        return says

    def at(self, rows):
        """The act in just these rows."""
        first, _, last = rows.partition("–")
        pair = int(first), int(last or first)
        return next((it for it in self.acts if (it["first"], it["last"]) == pair), None)


# What the card's headline says of an example.
HEADS = {
    "sale-never-approved": "Sold although the card was denied: 1.50, item 8",
    "bill-stacked-without-an-order": "Out of order: a bill of 5.00 stacked",
    "coin-in-mid-session": "Reported before the changer told of its reset: a coin of 0.25 to a tube",
    "coin-not-told-again": "Not reported again: a coin of 0.25 to a tube",
    "late-acknowledgement": "Late answer of the changer",
    "sale-by-card": "All devices kept the protocol",
}

# A phrase of a sentence, and what one of the acts that the sentence names has to say for it. The part in the phrase
# that stands between brackets goes into it.
PHRASES = [
    (r"\bitem (\d+)", "item {0}"), (r"asked for (\d[\d.]*) for item", "money {0}"), (r"asked for \S+ for item", "request"),
    (r"item \d+ as sold", "sold"), (r"the sale of", "sold"), (r"(?<!nor )denied (?:it|the request)\b", "denied"),
    (r"card reader \d approved (\d[\d.]*)(?= for| \(|[.,] )", "money {0}"), (r"card reader \d approved \S+(?: for item \d+)? \(", "approved"),
    (r"(?:coin|bill|payout|order to pay out|approval) of (\d[\d.]*)", "money {0}"), (r"a coin of", "coin"),
    (r"a bill of \S+ stacked", "stacked"), (r"a bill of \S+ to the recycler", "recycled"), (r"(?-i:escrow) \(rows", "escrow"), (r"began a session", "begun"),
    (r"card reader \d ended the session", "ended"), (r"the controller ended the session \(", "complete"),
    (r"cancelled its request", "cancel"), (r"didn't come", "failure"), (r"(?:report that it|reported that it) was reset", "reset"),
    (r"(?:coin|bill) of type (\d+)", "type {0}"), (r"taken the order", "order"),
]


def compare_rows(sentence, recording, report, row):
    """Each row that a sentence names is an act's, or one of the block in which the reading ended."""
    end = recording.acts[-1]["last"] if recording.acts else 0
    for rows in sentence["rows"]:
        first, _, last = rows.partition("–")
        first, last = int(first), int(last or first)
        is_inside = any(it["first"] <= first and last <= it["last"] for it in recording.acts)
        is_block = report["verdict"] == "no" and end < last <= row + (36 if report["rule"] == "Profile" else 0)
        is_silence = "gave no answer" in sentence["text"]
        # A block's last row but one stands before the row, as the sum's bytes do.
        want(recording.at(rows) or is_silence or is_block or is_inside and first == last, f"rows {rows}: {sentence['text']}")


def compare_phrases(sentence, recording):
    """What a sentence says of items, amounts and events is said in the rows that it names. (Sums are compared apart.)"""
    if sentence["text"].startswith("If nothing was lost"):
        return
    says = set().union(*(it["says"] for it in map(recording.at, sentence["rows"]) if it))
    for phrase, wanted in PHRASES:
        for found in re.finditer(phrase, sentence["text"], re.I):
            it = wanted.format(*found.groups())
            want(it in says, f"{it!r} isn't in what the rows say ({sorted(says)}): {sentence['text']}")
    if "didn't acknowledge" in sentence["text"]:
        acts = recording.acts
        after = [acts[i + 1]["kind"] for i, it in enumerate(acts[:-1]) if it is recording.at(sentence["rows"][-1 if "approval" not in sentence["text"] else 1])]
        want("vmc-ack" not in after, f"it was acknowledged: {sentence['text']}")


EVENTS = {"request", "cancel", "sold", "failure", "complete", "begun", "approved", "denied", "ended", "asked", "reset"}


def since(text):
    """The row from which on a sentence says that something is missing."""
    found = re.search(r"since the (?:controller reset it|break) \(rows? (?:\d+–)?(\d+)\)", text)
    return int(found[1]) if found else 0


def compare_missing(sentence, recording, row):
    """What a sentence says is missing before the row that cannot be isn't there."""
    text, acts = sentence["text"], recording.acts
    here = next((it for it in acts if it["first"] <= row <= it["last"]), None)
    if not here:
        return 0
    named = [it for it in map(recording.at, sentence["rows"]) if it]

    def between(low):
        return [it for it in acts if it["device"] == here["device"] and low < it["first"] and it["last"] < here["first"]]

    def taken(it):
        i = acts.index(it)
        return acts[i + 1]["kind"] in ("ack", "reply") and acts[i + 1]["device"] == it["device"]
    after = between(since(text))
    type_of = re.search(r"has enabled type (\d+)", text)
    request = max((it["last"] for it in between(0) if "request" in it["says"]), default=0)
    missing = {
        "hadn't reported its reset": lambda: [it for it in after if "reset" in it["says"]],
        "hadn't asked for a sale": lambda: [it for it in after if "request" in it["says"]],
        "No session stands before it": lambda: [it for it in after if it["says"] & EVENTS],
        "hadn't enabled card reader": lambda: [it for it in after if it["kind"] == "ask" and it["data"][0] & 7 == 4 and it["data"][1] == 1],
        "has enabled type": lambda: [it for it in after if it["kind"] == "ask" and it["data"][0] in (0x0C, 0x34) and taken(it)
                                     and (it["data"][1] * 256 + it["data"][2]) >> int(type_of[1]) & 1],
        "hadn't ordered to stack it": lambda: [it for it in between(named[0]["last"]) if "order" in it["says"]],
        "hadn't ended the session that began": lambda: [it for it in between(named[0]["last"]) if it["says"] & {"complete", "begun"}],
        "hadn't ended a session": lambda: [it for it in after if it["says"] & {"complete", "begun"}],
        "neither approved nor denied it": lambda: [it for it in between(request) if it["says"] & {"approved", "denied"}],
        "The last event of its sessions before that": lambda: [it for it in between(named[0]["last"]) if it["says"] & EVENTS and it["kind"] != "repeat"],
    }
    count = 0
    for phrase, found in missing.items():
        if phrase in text:
            want(not found(), f"it isn't missing, {found()}: {text}")
            count += 1
    return count


def bounds(line):
    return [tuple(map(int, it.split(".."))) for it in line[1::2]]


def ranges(rows, options):
    """The ranges of both sides of each account, as `check` prints them for these rows."""
    lines = [line.split(" ") for line in run(["check", *options], b"".join(rows)).splitlines()]
    return {line[0]: bounds(line[1:])[:2] for line in lines if line[0] in ACCOUNTS}


def moved(data, options):
    """Where ranges became wider, and where narrower: pairs of an account and a row, by `check` of the rows up to each."""
    rows = [line for line in data.splitlines(keepends=True) if line.strip()]
    wider, narrower, before = set(), set(), ranges([], options)
    for n in range(1, len(rows) + 1):
        after = ranges(rows[:n], options)
        for name in ACCOUNTS:
            for (low, high), (least, greatest) in zip(before[name], after[name]):
                if greatest - least != high - low:
                    (wider if greatest - least > high - low else narrower).add((name, n))
        before = after
    return wider, narrower


# What a sentence says of an act that leaves money open.
OPENS = re.compile(r"again in row|in the recording, and may have been counted|with the report that it was reset|was answered in row|new isn't certain")
# So many rows a recording has at most of which `check` is asked for each front.
FEW_ROWS = 700


def compare_openings(sentences, data, options):
    """The acts that leave money open, and those that settle a part, are named, and no others."""
    wider, narrower = moved(data, options)
    # The report and the controller's acknowledgement after it are of one act.
    wider = {(name, row) for name, row in wider if (name, row - 1) not in wider}
    rows = {row for _, row in wider}

    def ends(sentence):
        return {int(it.rpartition("–")[2]) for it in sentence["rows"]}
    acts = [it for it in sentences if it["kind"] == "fact" and OPENS.search(it["text"])]
    more = [it for it in sentences if "open too" in it["text"]]
    for it in acts:
        want(ends(it) & rows, f"no range became wider there, but in {sorted(wider)}: {it['text']}")
    for it in more:
        want(ends(it) <= rows, f"a range didn't become wider there, but in {sorted(wider)}: {it['text']}")
    count = len(acts) + sum(int(it["text"].split(" ")[0].replace(",", "")) for it in more)
    want(count == len(wider), f"{count} acts are told, and these are open: {sorted(wider)}")
    settled = {row for it in sentences if "was settled by" in it["text"] for row in ends(it)}
    want(settled <= {row for _, row in narrower} and bool(settled) == bool(narrower), f"settled by {settled}, and not {sorted(narrower)}")
    return len(wider)


# What a device did with the money of an account.
DID = {"coins-in": "the changer took {} in coins", "bills-in": "the validator took {} in bills", "paid-out": "the changer paid out {}",
       "approved": "card reader 1 approved {}", "sold": "card reader 1 booked {}",
       "approved-2": "card reader 2 approved {}", "sold-2": "card reader 2 booked {}"}


def compare_plain(sentences, values, data, options):
    """What the sums are if nothing was lost, and that something was, is what `replay` prints of the rows without marks."""
    told = [it["text"] for it in sentences if it["text"].startswith("If nothing was lost")]
    lost = [it["rows"] for it in sentences if "or a device restarted unseen, for certain" in it["text"]]
    wanted, wanted_lost, wanted_losses = [], [], []
    is_open = {name: any(low != high for low, high in bounds(values[name])) for name in ACCOUNTS}
    if "--joined" not in options and any(is_open.values()):
        lines = [line.split(" ") for line in run(["replay", *left_out(options)], data).splitlines()]
        if lines[0][1] == "no":
            wanted_lost = [[lines[1][1]]]
        sums = {line[0]: bounds(line[1:]) for line in lines if line[0] in ACCOUNTS}
        places = dict(zip(values["decimals"][::2], values["decimals"][1::2]))
        for name in sums:
            if is_open[name]:
                d = 0 if places[ACCOUNTS[name]] == "-" else int(places[ACCOUNTS[name]])
                (one, _), (other, _) = sums[name][:2]
                rest = "the same" if one == other else amount(other, d)
                wanted.append(f"If nothing was lost, {DID[name].format(amount(one, d))}, and the controller counted {rest}.")
                wanted_losses += losses(name, values, d, data, options)
    want(told == wanted, f"if nothing was lost: {told}, and not {wanted}")
    if wanted:
        said = [(it["text"][0].lower() + it["text"][1:]).split(" only if ")[0] for it in sentences if " only if " in it["text"]]
        marks = [count_of(words) for it in sentences for words in re.findall(r" only if (.*?)(?=;|\.$)", it["text"])]
        want([said, marks] == [[it for it, _ in wanted_losses], [n for _, some in wanted_losses for n in some]], f"what an end takes: {said} {marks}, and not {wanted_losses}")
    want([[row.rpartition("–")[2].replace(",", "") for row in rows] for rows in lost] == wanted_lost, f"lost for certain: {lost}, and not {wanted_lost}")


def count_of(words):
    """How many losses the words tell of."""
    restarts = re.search(r"restarted unseen(?: (\d+) times)?", words)
    return sum(map(int, re.findall(r"(\d+) (?:ack|app)", words))) + (int(restarts[1] or 1) if restarts else 0)


def losses(name, values, d, data, options):
    """What is told of the ends of an account that take a mark: the first of each side, and how many marks each takes."""
    found = []
    for side, words, ends in zip(("device", "controller"), (DID[name].removesuffix(" in coins").removesuffix(" in bills"), "the controller counted {}"), bounds(values[name])):
        if ends[0] == ends[1]:
            continue
        written = [run(["explain", name, side, bound, *left_out(options)], data) for bound in ("least", "greatest")]
        marks = [len(re.findall(r"(?m)^[1-9]\d*,[LRC],-$", it)) for it in written]
        told = sorted((n, i) for i, n in enumerate(marks) if n)
        if told:
            found.append((words.format(amount(ends[told[0][1]], d)), [n for n, _ in told]))
    return found


def compare_breaks(sentences, recording, data):
    """A break is told of that comes at most 30 s after cash moved, and no other one; three at most."""
    times = [int(found[0]) for line in data.splitlines() if (found := re.search(rb"\d+", line))]
    at = {it["first"]: times[it["first"] - 1] for it in recording.acts}
    wanted, latest = [], None
    for it in recording.acts:
        if it["kind"] == "break":
            if latest is not None and at[it["first"]] - latest <= 30_000_000:
                wanted.append(it["first"])
        elif moves_cash(it):
            latest = at[it["first"]]
    told = [int(it["rows"][0].replace(",", "")) for it in sentences if it["text"].startswith("A break, as when power goes off")]
    want(told == wanted[:3], f"breaks are told in rows {told}, and not {wanted[:3]}")


def moves_cash(act):
    """Whether an act tells of coins or bills that came in or went out, or are in escrow."""
    data, kind, device = act["data"], act["kind"], act["device"]
    if kind == "ask":
        return device == "changer" and data[:1] == b"\x0d"
    if kind != "reply" or not act["is_poll"]:
        return False
    if device == "bill":
        return any(0x80 <= b <= 0xAF for b in data[:-1])
    firsts, i = [], 0
    while i < len(data) - 1:
        firsts.append(data[i])
        i += 2 if data[i] >= 0x40 else 1
    return device == "changer" and any(0x40 <= b <= 0x5F or b >= 0x80 and b & 0x70 for b in firsts)


def compare_yes(sentences, recording, report, values):
    """What is said of uncertain money, of silences and of agreement is what the report says."""
    places = dict(zip(values["decimals"][::2], values["decimals"][1::2]))
    widths, ranges = set(), set()
    for name, device in ACCOUNTS.items():
        d = 0 if places[device] == "-" else int(places[device])
        sides = bounds(values[name])
        widths.add(amount(max(high - low for low, high in sides), d))
        ranges |= {amount(low, d) if low == high else f"{amount(low, d)} to {amount(high, d)}" for low, high in sides}
    for it in sentences:
        if it["text"].startswith("If nothing was lost"):
            continue
        found = re.match(r"(?:Up to )?([−\d.]+) isn't certain", it["text"])
        want(not found or found[1] in widths, f"{found and found[1]} isn't {widths}")
        for said in re.findall(r"(?:took|paid out|approved|booked|counted) ([−\d.]+(?: to [−\d.]+)?)[;.]$|; the controller \D+([−\d.]+(?: to [−\d.]+)?)\.", it["text"]):
            want(set(said) - {""} <= ranges, f"{said} isn't among {ranges}: {it['text']}")
        asked = re.search(r"asked (\d+) times? \(rows (\d+)–(\d+)\)", it["text"])
        if asked:
            first, last = int(asked[2]), int(asked[3])
            device = next(slug for name, slug in NAMES.items() if name in it["text"].lower())
            count = sum(a["kind"] == "ask" and a["device"] == device and first <= a["first"] and a["last"] <= last for a in recording.acts)
            want(count == int(asked[1]), f"asked {count} times: {it['text']}")
    is_open = any(low != high for name in ACCOUNTS for low, high in bounds(values[name]))
    want(any("isn't certain" in it["text"] for it in sentences) == is_open, f"what isn't certain: {[it['text'] for it in sentences]}")
    is_differing = any(low > 0 or high < 0 for name in ACCOUNTS for low, high in bounds(values[name])[2:])
    want(any("differ for certain" in it["text"] for it in sentences) == is_differing, f"differ: {[it['text'] for it in sentences]}")
    silent = {d for d, n in zip(values["silences"][::2], values["silences"][1::2]) if n != "0"}
    told = {slug for name, slug in NAMES.items() for it in sentences if re.search(rf"{name} (gave no answer|was silent)", it["text"], re.I)}
    want(silent == told, f"silent: {silent}, told: {told}")


def involved(story, recording, report, values, data, row):
    """The devices that a story may name."""
    found = {it["device"] for s in story["sentences"] for rows in s["rows"] if (it := recording.at(rows))} | {report.get("blame", "")}
    found |= set(story["open"])
    if report["verdict"] == "yes":
        for name, device in ACCOUNTS.items():
            if any(it != (0, 0) for it in bounds(values[name])):
                found.add(device)
        for word in ("silences", "unvalued"):
            found |= {d for d, n in zip(values.get(word, [])[::2], values.get(word, [])[1::2]) if n != "0"}
        # Money that was reported before its value was.
        found |= {it["device"] for it in recording.acts if any(s.startswith("money unknown") for s in it["says"])}
    elif report["rule"] == "Profile" and report["blame"] == "controller" or story["word"].startswith("Not judged"):
        lines = [it.split(",") for it in data.decode("latin-1").splitlines() if it.strip()]
        address = next((int(it[2], 16) & 255 for it in reversed(lines[:row]) if it[1] == "M" and it[2].startswith("1")), 0)
        found.add({1: "changer", 2: "cashless", 6: "bill", 12: "cashless-2"}.get(address >> 3, ""))
    return found


def compare_story(story, show, check, options, data):
    """Compares a story with what the program prints."""
    lines = check.splitlines()
    report = {line.split(" ")[0]: line.split(" ")[1] for line in lines}
    values = {line.split(" ")[0]: line.split(" ")[1:] for line in lines}
    recording, row = Recording(show, options), int(report.get("row", "0"))
    for sentence in story["sentences"]:
        compare_rows(sentence, recording, report, row)
        compare_phrases(sentence, recording)
        compare_missing(sentence, recording, row)
    text = " ".join([story["word"], *(it["text"] for it in story["sentences"])])
    may = involved(story, recording, report, values, data, row)
    for name, device in NAMES.items():
        want(name not in text.lower() or device in may, f"{name} isn't involved ({may}): {text}")
    if report["verdict"] == "yes" and report["rows"] != "0" and "Nothing was followed" not in story["word"]:
        compare_yes(story["sentences"], recording, report, values)
        compare_plain(story["sentences"], values, data, options)
        compare_breaks(story["sentences"], recording, data)
        if int(report["rows"]) <= FEW_ROWS and any("isn't certain" in it["text"] for it in story["sentences"]):
            compare_openings(story["sentences"], data, options)
    return report


def left_out(options):
    """The options that `show` takes too: those of the extended profile, and the devices that are left out."""
    if "--extended" in options:
        return options
    found = []
    for i, word in enumerate(options):
        if word.startswith("--without"):
            found += [word] if "=" in word else [word, options[i + 1]]
    return found


def run(words, data):
    return subprocess.run([PROGRAM, *words], input=data, capture_output=True).stdout.decode("latin-1")


def jobs(module, share):
    """The name, the recording and the options of each that is tried."""
    for path in sorted((TOP / "examples").glob("*.csv")):
        for way in ([], ["--joined"], ["--extended"], ["--joined", "--extended"], *(module.without_words(it) for it in ("cashless", "changer", "bill"))):
            yield path.stem + " " + " ".join(way), path.read_bytes(), way
    for i, (name, words, data, status, _, _) in enumerate(module.worked_cases()):
        rest = words[1:]
        if words[:1] == ["check"] and is_way_of_page(rest) and status in ("0", "1") and i % share == 0:
            yield name, data, rest


def main():
    is_firefox = "--firefox" in sys.argv
    given = [int(it) for it in sys.argv[1:] if it != "--firefox"]
    module = the_page()
    counts, sentences = {}, 0
    with tempfile.TemporaryDirectory() as work:
        page = module.Page(pathlib.Path(work), Firefox() if is_firefox else Browser())
        try:
            for name, data, options in jobs(module, (given + [2])[0]):
                page.give(data, options)
                story = json.loads(page.browser.value(STORY))
                if module.only_line(data):
                    continue
                check, show = run(["check", *options], data), run(["show", *left_out(options)], data)
                try:
                    report = compare_story(story, show, check, options, data)
                    if name.endswith(" ") and name.strip() in EXAMPLES:
                        lead = [story["lead"]] if re.match("The controller and the devices agree|No money was", story["lead"]) else []
                        told = lead + [it["text"] for it in story["sentences"] if it["kind"] != "next"]
                        want(HEADS.get(name.strip(), story["word"]) == story["word"], f"the headline is {story['word']}")
                        want(told == EXAMPLES[name.strip()], f"the story is {told}")
                except Wrong as wrong:
                    sys.exit(f"page_story: {name}, {options}: {wrong}")
                sentences += len(story["sentences"])
                counts[report.get("rule", "yes")] = counts.get(report.get("rule", "yes"), 0) + 1
        finally:
            page.browser.close()
    print(f"page_story: {sentences} sentences, each as the acts and the report say: " + ", ".join(f"{k} {n}" for k, n in sorted(counts.items())))


if __name__ == "__main__":
    main()
