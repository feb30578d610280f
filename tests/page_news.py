"""What tests/page wants of the page's entries: money, sales, sessions, resets, breaks and silences.

A walk over what `show` prints finds the same, by docs/bench/commands-and-messages.md and extended-profile.md alone. The
saved CSV of a long recording has every entry. The silences are as many as a report counts, in
recordings that begin anywhere, and in which readers tell how long they may be silent.
"""

import collections
import csv
import io
import json
import random
import subprocess
import sys

from cases import readers_in, setups_in
from reader_formats import Formats

DEVICES = ["changer", "bill", "cashless", "cashless-2"]
RESETS = {0x08, 0x30, 0x10, 0x60}
SALES = {0: "vend request", 1: "vend cancel", 2: "vend success", 3: "vend failure", 4: "session complete", 5: "cash sale"}
LISTS = ("money", "sessions", "resets", "breaks")
# The entries that the page has, as the walk writes them.
FOUND = """JSON.stringify(Object.fromEntries(["money", "sessions", "resets", "breaks"].map((list) => [list,
  state.found[list].map((m) => [m.first, m.last, m.device ?? 0, m.what ?? "break", m.type ?? "", m.count ?? 1,
    m.noAmount || m.units === undefined || m.units === null ? null : [String(m.units), m.decimals],
    m.length ?? m.acknowledged])])))"""
SILENCES = "JSON.stringify([1, 2, 3, 4].map((d) => state.found.silences.filter((it) => it.device === d).length))"


def number(high, low):
    return 256 * high + low


class Setup:
    """What a device's answer to SETUP tells of values."""

    def __init__(self, scale, decimals, credits=()):
        self.scale, self.decimals, self.credits = scale, decimals, credits

    def of_type(self, kind):
        credit = self.credits[kind] if kind < len(self.credits) else 0
        return 0 if credit == 0xFF else credit * self.scale


def config_of(messages):
    """What the last config message of a reader's reply tells."""
    configs = [it for it in messages if it[0] == 1]
    return Setup(configs[-1][4], configs[-1][5]) if configs else None


def setup_of(device, command, data, messages):
    """What a reply tells of its device's values, if it does. A reader's has messages."""
    if device >= 3:
        return config_of(messages)
    if command[0] == 0x09:
        return Setup(data[3], data[4], data[7:])
    if command[0] == 0x31:
        return Setup(number(data[3], data[4]), data[5], data[11:])
    return None


class Walk:
    """Takes the lines of `show`, and finds entries: lists of first row, last row, device, what, type or item, how
    many, units and decimals or None, and whether it is acknowledged."""

    def __init__(self, setups=(), is_extended=False, known=()):
        self.setups = {1: None, 2: None, 3: None, 4: None, **dict(setups)}
        self.formats, self.messages = Formats(is_extended, known), []
        self.found = {name: [] for name in LISTS}
        self.command, self.waiting = None, []

    def add(self, name, rows, device, what, kind="", count=1, units=None):
        setup = self.setups[device]
        amount = None if units is None or setup is None else [str(units), setup.decimals]
        entry = [*rows, device, what, kind, count, amount, False]
        self.found[name].append(entry)
        self.waiting.append(entry)

    def coins(self, rows, device, what, kind, count):
        setup = self.setups[device]
        self.add("money", rows, device, what, kind, count, setup and setup.of_type(kind) * count)

    def amount(self, name, rows, device, what, kind, raw):
        setup = self.setups[device]
        self.add(name, rows, device, what, kind, 1, setup and raw * setup.scale)

    def line(self, line):
        where, kind, *words = line.split(" ")
        rows = [int(it) for it in where.split("-")]
        if kind == "break":
            self.waiting = []
            self.found["breaks"].append([*rows, 0, "break", "", 1, None, int(words[0])])
            return
        if kind in ("vmc-nak", "vmc-ret", "repeat"):
            return
        if kind in ("ack", "reply", "vmc-ack"):
            for entry in self.waiting:
                entry[7] = True
        if kind != "cut":
            self.waiting = []
        device = DEVICES.index(words[0]) + 1 if words else 0
        data = [int(it, 16) for it in words[1:]][:-1]
        if kind == "ask":
            self.command = data
            self.formats.ask(device, data)
            self.ask(rows, device, data)
        elif kind == "reply":
            self.messages = self.formats.reply(device, data) if device >= 3 else []
            self.setups[device] = setup_of(device, self.command, data, self.messages) or self.setups[device]
            self.reply(rows, device, data)

    def ask(self, rows, device, data):
        if data[0] in RESETS:
            self.add("resets", rows, device, "RESET")
        elif data[0] == 0x0D:
            self.coins(rows, device, "coins ordered (DISPENSE)", data[1] % 16, data[1] // 16)
        elif data[0] in (0x13, 0x63):
            what = SALES[data[1]]
            if data[1] in (0, 5):
                self.amount("money", rows, device, what, f"item {number(*data[4:6])}", number(*data[2:4]))
            elif data[1] == 4:
                self.add("sessions", rows, device, what)
            else:
                self.add("money", rows, device, what, f"item {number(*data[2:4])}" if data[1] == 2 else "")

    def reply(self, rows, device, data):
        if device >= 3:
            for message in self.messages:
                self.reader(rows, device, message)
        elif self.command[0] == 0x33:
            for byte in data:
                self.bill(rows, byte)
        elif self.command[0] == 0x0B:
            self.changer(rows, data)

    def changer(self, rows, data):
        while data:
            first, data = data[0], data[1:]
            if first >= 0x80 and first // 16 % 8:
                count = first // 16 % 8
                self.coins(rows, 1, "coin dispensed by hand" if count == 1 else "coins dispensed by hand", first % 16, count)
            elif first // 16 in (4, 5):
                self.coins(rows, 1, f"coin deposited to {['cash box', 'tube'][first // 16 - 4]}", first % 16, 1)
            elif first == 0x0B:
                self.add("resets", rows, 1, "was reset")
            if first >= 0x40:
                data = data[1:]

    def bill(self, rows, byte):
        whats = {8: "bill stacked", 9: "bill in escrow", 10: "bill returned", 11: "bill to the recycler"}
        if byte // 16 in whats:
            self.coins(rows, 2, whats[byte // 16], byte % 16, 1)
        elif byte == 6:
            self.add("resets", rows, 2, "was reset")

    def reader(self, rows, device, message):
        raw = number(*message[1:3]) if message[0] in (3, 5) else None
        if message[0] == 0:
            self.add("resets", rows, device, "was reset")
        elif message[0] == 3 and raw == 0xFFFF:
            self.add("sessions", rows, device, "session begun")
        elif message[0] == 3:
            self.amount("sessions", rows, device, "session begun", "", raw)
        elif message[0] == 5:
            self.amount("money", rows, device, "vend approved", "", raw)
        elif message[0] == 6:
            self.add("money", rows, device, "vend denied")
        elif message[0] == 7:
            self.add("sessions", rows, device, "session ended")


def setups_of(words):
    """What --setup gives, by device."""
    for _, name, data in setups_in(words):
        device = DEVICES.index(name) + 1
        content = list(data[:-1])
        yield device, setup_of(device, [{1: 0x09, 2: 0x31}.get(device, 0)], content, Formats().reply(device, content) if device >= 3 else [])


def known_in(words):
    """What is told of the readers, by device."""
    return [(DEVICES.index(name) + 1, field, value) for name, field, value in readers_in(words)]


def walked(text, words=()):
    walk = Walk(setups_of(words), "--extended" in words, known_in(words))
    for line in text.splitlines():
        if not line.startswith("fault "):
            walk.line(line)
    return walk.found


def differences(page, text, words=()):
    """Where the page's entries aren't those of the walk over what `show` prints; None if nowhere."""
    wanted, came = walked(text, words), json.loads(page.browser.value(FOUND))
    for name in LISTS:
        if came[name] != wanted[name]:
            first = next((it for it in zip(came[name], wanted[name]) if it[0] != it[1]), None)
            return f"{name}: {len(came[name])}, wanted {len(wanted[name])}; shown and wanted: {first}"
    return None


def decimal(amount):
    """An amount as the CSV writes it."""
    if amount is None:
        return ""
    units, places = amount
    digits = units.rjust(places + 1, "0")
    return f"{digits[:-places]}.{digits[-places:]}" if places else digits


def sums_of(entries):
    """How many of what and of which type there are, and their amount as written, in all."""
    sums = collections.Counter()
    for device, what, kind, count, amount in entries:
        sums[device, what, kind, "entries"] += 1
        sums[device, what, kind, "count"] += int(count)
        sums[device, what, kind, "units"] += int(amount.replace(".", "") or 0)
    return sums


def try_long(page, program, top, want, rows=2_000_000):
    """The CSV of a long recording has each entry that a walk over all its acts finds."""
    path = page.work / "long.csv"
    with path.open("wb") as file:
        subprocess.run([sys.executable, top / "bench" / "generate", "mixed", str(rows)], stdout=file, check=True)
    page.give(path)
    text = subprocess.run([program, "show"], stdin=path.open("rb"), capture_output=True, check=True).stdout.decode()
    listed = json.loads(page.browser.value("JSON.stringify([state.hole, state.list.count])"))
    want(listed == [-1, text.count("\n")], f"not all acts of the long recording are listed: {listed}")
    want(page.browser.value("by('open-scope')") is None, "the list of open money says that it doesn't speak of all rows")
    starts = [line.split(b",", 1)[0].decode() for line in path.read_bytes().splitlines() if line]
    wanted = walked(text)["money"]
    saved = list(csv.reader(io.StringIO(page.browser.value("csv(state)"), newline="")))[1:]
    came = sums_of(it[4:9] for it in saved)
    made = sums_of((DEVICES[d - 1], what, str(kind), count, decimal(amount)) for _, _, d, what, kind, count, amount, _ in wanted)
    want(came == made, f"sums: {[(it, came[it], made[it]) for it in came | made if came[it] != made[it]][:3]}")
    want(len(saved) == len(wanted), f"{len(saved)} entries are saved, wanted {len(wanted)}")
    for line, (first, last, device, what, kind, count, amount, heard) in zip(saved, wanted):
        row = [starts[last - 1], "", str(first), str(last), DEVICES[device - 1], what, str(kind), str(count), decimal(amount),
               "yes" if heard else "no", "possible"]
        want(line == row, f"saved {line}, wanted {row}")
    fault = differences(page, text)
    want(fault is None, fault)
    print(f"a long recording of {rows:,} rows: its CSV has {len(saved):,} entries, as a walk over all acts finds")


class Silent:
    """A recording, taken up in mid-session, in which devices often leave commands without an answer."""

    def __init__(self, dice):
        self.dice, self.time, self.rows = dice, 0, []

    def words(self, line, values, gap):
        for value in values:
            self.time += gap
            self.rows.append(f"{self.time},{line},{value:03X}\n")
            gap = 1_200

    def block(self, line, data, gap):
        values = [*data, sum(data) % 256]
        if line == "M":
            values[0] += 0x100
        else:
            values[-1] += 0x100
        self.words(line, values, gap)

    def configure(self, gap):
        """A reader tells its response time, or answers without it."""
        first = self.dice.choice([0x11, 0x61])
        self.block("M", [first, 0, 1, 0, 0, 0], gap)
        answer = self.dice.randrange(3)
        if answer == 0:
            self.block("S", [1, 1, 0, 0x78, 5, 2, self.dice.choice([0, 3, 5, 6, 7, 10]), 0], 2_000)
            self.words("M", [0x000], 2_000)
        elif answer == 1:
            self.words("S", [0x100], 2_000)

    def step(self):
        gap = self.dice.choice([20_000, 400_000, 900_000, 1_999_000, 2_000_000, 2_600_000, self.dice.randrange(20_000, 6_000_000)])
        kind = self.dice.randrange(20)
        if kind == 0:
            self.rows.append(f"{self.time + gap},B,100000\n")
            self.time += gap + 300_000
        elif kind < 3:
            self.configure(gap)
        else:
            self.block("M", [self.dice.choice([0x0B, 0x33, 0x12, 0x62])], gap)
            if self.dice.randrange(3) == 0:
                self.words("S", [self.dice.choice([0x100, 0x100, 0x1FF])], 2_000)

    def recording(self, steps):
        for _ in range(steps):
            self.step()
        return "".join(self.rows).encode()


# A reader at 10H that may be silent for 10 s.
SLOW = ["--setup", "cashless 01 01 00 78 05 02 0A 00 8B"]


def silences_in(text):
    line = next(it for it in text.splitlines() if it.startswith("silences "))
    return [int(it) for it in line.split(" ")[2::2]]


def try_silences(page, program, want, count=200, seed=1):
    """The page lists as many silences of each device as a report counts."""
    dice, yes, total = random.Random(seed), 0, [0, 0, 0, 0]
    for index in range(count):
        data, words = Silent(dice).recording(dice.choice([10, 60, 200])), ["--joined", *(SLOW if index % 2 else [])]
        ran = subprocess.run([program, "check", *words], input=data, capture_output=True)
        page.give(data, words)
        if ran.returncode:
            continue
        wanted, came = silences_in(ran.stdout.decode()), json.loads(page.browser.value(SILENCES))
        if came != wanted:
            (page.work / "silent.csv").write_bytes(data)
            want(False, f"silences of recording {index} of seed {seed}: {came}, wanted {wanted}")
        yes += 1
        total = [a + b for a, b in zip(total, wanted)]
    want(yes > count // 2 and all(total), f"{yes} of {count} recordings are a yes, with silences {total}")
    print(f"silences: as many as the report counts in {yes} recordings, {', '.join(map(str, total))} by device")
