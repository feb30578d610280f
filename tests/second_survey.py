#!/usr/bin/env python3
"""A second `mdbcheck survey`: the recording is cut by hand.

    second_survey.py [survey] [--joined [--setup 'DEVICE ..']..] [--extended] [--without DEVICE]..
        [--json]

It reads a transcript, and does what a technician does who has `check` and `show` alone, `head`,
`tail` and a pencil:

1. Check the rest of the rows: the first time as the options say, later with `--joined`, with
   `--setup` for each device whose answer to SETUP was seen, and with `--without`.
2. At a no, check the rows before it, for their report. They are a stretch, the row is its fault.
3. Read the answers to SETUP, and the levels that the controller told, in what `show` prints of the
   stretch. Go on with the row after the fault.

One thing can't be told to `check`: the level that the controller told a reader before the fault. So
this reader finds by itself where that level, and the one that the reader tells, are both 2 or more.

By the extended profile it asks no program: tests/second_replay.py follows each stretch, and reads
what is said in it. What a later stretch is told is as docs/bench/extended-profile.md, *A survey*,
has it. It is taken as if `--setup` told it.

This reader shares nothing with `survey` but what `check` and `show` of tests/programs.py's program
say. By the extended profile it shares only the words about a row that isn't one.

    survey(text, options, run) -> (status, out, err)

is the same as a function; `run(text, *words)` runs the program. Words of the command line that are
wrong, and more rows than the program takes, are nothing for this reader.
"""

import argparse
import collections
import functools
import json
import re
import sys
from typing import Callable, Iterator, NamedTuple, Optional

sys.dont_write_bytecode = True

import second_replay as replay  # noqa: E402
from programs import MDBCHECK, Runs  # noqa: E402
from second_replay import records  # noqa: E402

#: The devices, in the order of the report.
DEVICES = ("changer", "bill", "cashless", "cashless-2")

#: The accounts, in the order of the report, and whose they are.
ACCOUNTS = {
    "coins-in": "changer",
    "bills-in": "bill",
    "paid-out": "changer",
    "approved": "cashless",
    "sold": "cashless",
    "approved-2": "cashless-2",
    "sold-2": "cashless-2",
}
SIDES = ("device", "controller", "difference")

#: Whose rows can be untimely, in the order of the report.
SENDERS = ("controller", *DEVICES)

#: Who can be to blame, in the order of the last line.
BLAMES = ("controller", *DEVICES, "other")

#: How the asks begin to which a device answers its setup data; a reader tells them in a message.
SETUP_ASKS = {"changer": b"\x09", "bill": b"\x31"}

#: How the SETUP config ask of each reader begins. The level of the controller is the byte after it.
CONFIG_ASKS = {"cashless": b"\x11\x00", "cashless-2": b"\x61\x00"}

#: The messages of a reader by their first byte: how many bytes. A display request (02) is the rest.
LENGTHS = {0: 1, 1: 8, 3: 3, 4: 1, 5: 3, 6: 1, 7: 1, 8: 1, 9: 30, 10: 2, 11: 1}
CONFIG = 1
PLACES_IN_CONFIG = 5

#: By the extended profile: how ENABLE OPTIONS begins at each reader, and how many rows it has. The
#: message by which a reader doesn't accept a command.
OPTIONS_ASKS = {"cashless": (0x117, 0x004), "cashless-2": (0x167, 0x004)}
OPTIONS_ROWS = 7
IS_TOLD_OF_READER = re.compile(r"cashless(-2)? (level|[16][17])")
OUT_OF_SEQUENCE = 0x0B

Run = Callable[..., "tuple[int, str, str]"]


class Options(NamedTuple):
    """The words of the command line."""

    is_joined: bool = False
    setups: dict = {}  # by device, the bytes as text
    left_out: tuple = ()
    is_json: bool = False
    is_extended: bool = False
    told: tuple = ()  # what else `--setup` tells of readers, by the extended profile

    def values(self) -> "list[str]":
        """Those of `--setup`."""
        return [*(f"{device} {text}" for device, text in self.setups.items()), *self.told]

    def words(self) -> "list[str]":
        words = ["--joined"] * self.is_joined + ["--extended"] * self.is_extended
        for value in self.values():
            words += ["--setup", value]
        for device in self.left_out:
            words += ["--without", device]
        return words + ["--json"] * self.is_json


class Act(NamedTuple):
    """A line of `show`, with rows of the whole recording; a reply also with the ask before it."""

    first: int
    last: int
    kind: str
    device: Optional[str] = None
    content: bytes = b""  # without the sum
    asked: bytes = b""


class Stretch(NamedTuple):
    """Rows that are possible, and their report as `check --json` writes it."""

    number: int
    first: int
    last: int
    report: dict


class Fault(NamedTuple):
    """A row that isn't possible after the stretch before it."""

    row: int
    rule: str
    blame: str


# --------------------------------------------------------------------------------------------------
# What is read
# --------------------------------------------------------------------------------------------------


def lines_of(text: bytes) -> "list[bytes]":
    """The records of a text, each as a line that is read as the same record wherever it stands."""
    return [b",".join(map(quoted, fields)) + b"\n" for fields in records(text)]


def quoted(field: bytes) -> bytes:
    """A field, in quotes where it needs some. (A line of an empty field would be blank without.)"""
    if field and not re.search(rb'["\r\n,]|^\xef\xbb\xbf', field):
        return field
    return b'"' + field.replace(b'"', b'""') + b'"'


def is_begin(line: bytes) -> bool:
    """Whether a row is a break, or a marked word of the controller."""
    return bool(re.match(rb"[0-9]+,(B|M,1)", line))


def acts_in(lines: "list[bytes]", first: int, last: int, left_out, run: Run) -> Iterator[Act]:
    """The acts that end in some rows (numbers from 1), by `show`. What stands before the first
    marked word of the controller or break is foreign traffic to a joined recording. It is cut off,
    since `show` knows nothing of joined recordings. The last row may be a fault."""
    while first <= last and not is_begin(lines[first - 1]):
        first += 1
    words = Options(left_out=left_out).words()
    _, out, _ = run(b"".join(lines[first - 1:last]), "show", *words)
    asked = b""
    for line in out.splitlines():
        place, *said = line.split(" ")
        if place == "fault" and int(said[0]) < last - first + 1:
            raise RuntimeError(f"rows {first} to {last} are possible, and show says {line}")
        if place == "fault" or said[0] == "cut":
            continue
        begin, end = (int(row) + first - 1 for row in place.split("-"))
        if said[0] in ("foreign", "break"):
            yield Act(begin, end, said[0])
            continue
        kind, device, *content = said
        content = bytes.fromhex(" ".join(content))[:-1]
        asked = content if kind == "ask" else asked
        yield Act(begin, end, kind, device, content, asked if kind == "reply" else b"")


def configs_in(act: Act) -> "list[bytes]":
    """The config messages that a reader tells in a reply."""
    if act.kind != "reply" or act.device not in CONFIG_ASKS:
        return []
    found, rest = [], act.content
    while rest:
        length = LENGTHS.get(rest[0], len(rest))
        if rest[0] == CONFIG:
            found.append(rest[:length])
        rest = rest[length:]
    return found


def level_asked(act: Act) -> Optional[int]:
    """The level that the controller tells in a SETUP config ask."""
    head = CONFIG_ASKS.get(act.device)
    if act.kind != "ask" or head is None or not act.content.startswith(head):
        return None
    return act.content[2]


# --------------------------------------------------------------------------------------------------
# What the stretches so far have shown
# --------------------------------------------------------------------------------------------------


class Known:
    """What the next stretch is told, and who is left out in it."""

    def __init__(self, options: Options):
        self.setups = dict(options.setups)
        self.left_out = set(options.left_out)
        #: Of each reader the level of the last SETUP config ask; and the same where no config
        #: message of that reader came after it.
        self.asked: "dict[str, int]" = {}
        self.unanswered: "dict[str, int]" = {}

    def learn(self, act: Act):
        """What a whole act of a stretch tells for the next ones."""
        if act.kind == "reply" and act.asked[:1] == SETUP_ASKS.get(act.device):
            self.setups[act.device] = bytes_text(act.content)
        for config in configs_in(act):
            self.setups[act.device] = bytes_text(config)
            self.unanswered.pop(act.device, None)
        level = level_asked(act)
        if level is not None:
            self.asked[act.device] = self.unanswered[act.device] = level

    def blames(self, fault: Fault):
        """After its `Profile` a reader is left out, unless the controller told it a low level."""
        if fault.rule == "Profile" and fault.blame in CONFIG_ASKS:
            if self.asked.get(fault.blame, 2) >= 2:
                self.left_out.add(fault.blame)

    def options(self) -> Options:
        """How the next stretch is checked. `check` takes no setup data of a device that it leaves
        out, and they would serve nothing."""
        setups = {d: text for d, text in self.setups.items() if d not in self.left_out}
        return Options(True, setups, tuple(sorted(self.left_out)), True)


def bytes_text(content: bytes) -> str:
    """A block as `show` prints it, with its sum."""
    return " ".join(f"{byte:02X}" for byte in [*content, sum(content) % 256])


def level_2(acts: "list[Act]", told: "dict[str, int]") -> Optional[Fault]:
    """The first reply that is `Profile` by a level that the controller told before the stretch. An
    ask of the stretch takes the place of what was told, and is known to `check`."""
    told = dict(told)
    for act in acts:
        if level_asked(act) is not None:
            told.pop(act.device, None)
        is_high = told.get(act.device, 0) >= 2
        if is_high and any(config[1] >= 2 for config in configs_in(act)):
            return Fault(act.last, "Profile", act.device)
    return None


# --------------------------------------------------------------------------------------------------
# The survey
# --------------------------------------------------------------------------------------------------


def refusal(row: int, why: str) -> str:
    """The line that refuses a row; only that of the first row says what the text looks like."""
    return f"mdbcheck: row {row}: {why if row == 1 else re.sub('; this looks like .*', '', why)}"


class Survey:
    """A recording that is cut, from its first row on."""

    version = 1

    def __init__(self, lines: "list[bytes]", options: Options, run: Run):
        self.lines, self.run = lines, run
        self.parts: "list[Stretch | Fault]" = []
        self.refused: Optional[str] = None  # the line about a row that isn't one
        #: How often `check` can't find a fault in the rows of its stretch, and what is told.
        self.came = collections.Counter()
        self.begins(options)
        first = 1
        while first <= len(lines) and self.refused is None:
            fault = self.takes(first)
            if fault is None:
                break
            self.parts.append(fault)
            self.goes_on(first, fault)
            first = fault.row + 1

    def begins(self, options: Options):
        self.known, self.now = Known(options), options._replace(is_json=True)

    def goes_on(self, first: int, fault: Fault):
        """A stretch ended with a fault: how is the next one checked?"""
        self.known.blames(fault)
        self.now = self.known.options()

    def check(self, first: int, last: int, options: Options):
        return self.run(b"".join(self.lines[first - 1:last]), "check", *options.words())

    def takes(self, first: int) -> Optional[Fault]:
        """The stretch that begins with a row; and its fault, if it has one."""
        options = self.now
        answer = self.check(first, len(self.lines), options)
        last, fault, refused = self.first_no(first, answer)
        left_out, told = options.left_out, self.known.unanswered
        acts = []
        if last < len(self.lines) or any(level >= 2 for level in told.values()):
            # With the fault's row: if it breaks the rule of the levels too, that may be the first.
            upto = last + (fault is not None)
            acts = list(acts_in(self.lines, first, upto, left_out, self.run))
            earlier = level_2(acts, told)
            if earlier:
                last, fault, refused = earlier.row - 1, earlier, None
                self.came["by a level told before"] += 1
        self.refused = refused
        if first <= last:
            if last < len(self.lines):
                answer = self.check(first, last, options)
            self.adds(first, last, answer)
        for act in acts:
            if act.last <= last:
                self.known.learn(act)
        return fault

    def first_no(self, first: int, answer):
        """The last row before the first one that `check` doesn't take, and why it doesn't."""
        status, out, err = answer
        if status == 0:
            return len(self.lines), None, None
        if status == 1:
            no = json.loads(out)
            row = first + no["row"] - 1
            return row - 1, Fault(row, no["rule"], no["blame"]), None
        found = re.match(r"mdbcheck: row ([0-9]+): ", err)
        if not found:
            raise RuntimeError(f"check ends with {answer}")
        row = first + int(found[1]) - 1
        return row - 1, None, refusal(row, err[found.end():])

    def adds(self, first: int, last: int, answer):
        """A stretch, with the answer to its rows."""
        status, out, err = answer
        report = json.loads(out) if status == 0 else {}
        if err or report.get("rows") != last - first + 1:
            raise RuntimeError(f"rows {first} to {last}: check says {answer}")
        for device in DEVICES:
            told = report["devices"][device]
            told["setup"] = device in self.known.setups
            # `check` takes no setup data of a device that it leaves out. A survey may know some: of
            # a reader that it left out later. Its decimal places are known then, too.
            if told["setup"] and told["without"]:
                told["decimals"] = bytes.fromhex(self.known.setups[device])[PLACES_IN_CONFIG]
        self.stands(first, last, report)

    def stands(self, first: int, last: int, report: dict):
        """A stretch, with its report."""
        number = 1 + sum(isinstance(part, Fault) for part in self.parts)
        self.parts.append(Stretch(number, first, last, report))

    def faults(self) -> "list[Fault]":
        return [part for part in self.parts if isinstance(part, Fault)]

    def answer(self, is_json: bool) -> "tuple[int, str, str]":
        """Status, standard output and standard error."""
        status = 2 if self.refused else 1 if self.faults() else 0
        return status, (json_of if is_json else text_of)(self), self.refused or ""

    def total(self) -> Optional[dict]:
        """The sums of all stretches' ranges and counts; None where there is none."""
        reports = [part.report for part in self.parts if isinstance(part, Stretch)]
        if not reports:
            return None
        of_each = ((device, [report["devices"][device] for report in reports]) for device in DEVICES)
        total = {"devices": {device: added(of) for device, of in of_each}}
        if "untimely" in reports[0]:
            senders = ((sender, [report["untimely"][sender] for report in reports]) for sender in SENDERS)
            total["untimely"] = {sender: sum(of) for sender, of in senders}
        return total


def added(reports: "list[dict]") -> dict:
    """The sums of what the reports of a device count."""
    accounts = {
        account: {
            side: {
                end: sum(report["accounts"][account][side][end] for report in reports)
                for end in ("least", "greatest")
            }
            for side in SIDES
        }
        for account in reports[0]["accounts"]
    }
    counts = {name: sum(report[name] for report in reports) for name in ("silences", "unvalued")}
    return {"accounts": accounts, **counts}


# --------------------------------------------------------------------------------------------------
# The survey by the extended profile
# --------------------------------------------------------------------------------------------------


class ReaderKnown:
    """What is known of a reader, after the acts so far."""

    def __init__(self):
        self.sent: Optional[int] = None  # the last level of the controller, and of the reader
        self.own: Optional[int] = None
        #: Whether it took an ENABLE OPTIONS since the last break or RESET, or one is told.
        self.has_options = False

    def crosses_a_fault(self):
        """The fault may hide a SETUP that raises a low level of the controller. That serves nothing
        beside a low level of the reader."""
        if self.sent is not None and self.sent < 2 and (self.own is None or self.own >= 2):
            self.sent = None

    def is_known(self) -> bool:
        return self.sent is not None or self.own is not None or self.has_options

    def told(self) -> "Iterator[str]":
        """What the next stretch is told, by its name."""
        if self.sent is not None or self.own is not None:
            both = self.sent is not None and self.own is not None
            yield "told both levels" if both else "told one level"
        if self.has_options:
            yield "told that options are known"


class ExtendedKnown:
    """What the next stretch is told, and who is left out in it."""

    def __init__(self, options: Options):
        self.is_joined, self.left_out = options.is_joined, set(options.left_out)
        self.setups: "dict[str, bytes]" = {}  # an answer to SETUP; of a reader its config message
        self.readers = {name: ReaderKnown() for name in CONFIG_ASKS}
        if options.is_joined:
            told = replay.read_setups(options.values(), self.left_out, True)
            self.setups.update(told.setup)
            for name, reader in self.readers.items():
                reader.sent, reader.own = told.sent_levels.get(name), told.told_levels.get(name)
                reader.has_options = name in told.options

    def named(self) -> "list[str]":
        """Who stands in the line `setup`."""
        known = {name for name, reader in self.readers.items() if reader.is_known()}
        return [device for device in DEVICES if device in known or device in self.setups]

    def told(self) -> "Optional[replay.Told]":
        """The same in the words of the second replay."""
        if not self.is_joined:
            return None
        told = replay.Told(True)
        told.setup = dict(self.setups)
        for name, reader in self.readers.items():
            if reader.sent is not None:
                told.sent_levels[name] = reader.sent
            if reader.own is not None:
                told.told_levels[name] = reader.own
            if reader.has_options:
                told.options.add(name)
        return told

    def runs(self) -> replay.Runs:
        """All runs of the next stretch, at its begin."""
        return replay.Runs(self.left_out, True, None, self.told())

    def acts(self, rows: "list[tuple]") -> "Iterator[tuple[int, replay.Act]]":
        """The acts of the next stretch, each with the number of its last row, from 0."""
        link = replay.Link(self.left_out, True, self.told())
        for number, row in enumerate(rows):
            act = link.take(*row)
            if act is not None:
                yield number, act

    def learn(self, act: replay.Act):
        """What a whole act of the stretch tells."""
        if act.kind == "break":
            for reader in self.readers.values():
                reader.has_options = False
        elif act.command.device in self.readers:
            self.learn_of_reader(act, self.readers[act.command.device])
        elif act.kind == "reply" and act.command.name == "SETUP":
            self.setups[act.command.device] = act.content

    def learn_of_reader(self, act: replay.Act, reader: ReaderKnown):
        name, messages = act.command.name, act.messages
        if act.kind == "ask" and name == "SETUP config":
            reader.sent = act.asked[2]
        is_accepted = all(message[0] != OUT_OF_SEQUENCE for message in messages)
        if act.kind == "ack" or act.kind == "reply" and is_accepted:
            if name in ("RESET", "ENABLE OPTIONS"):
                reader.has_options = name == "ENABLE OPTIONS"
        for message in messages:
            if message[0] == CONFIG:
                self.setups[act.command.device], reader.own = message, message[1]

    def crosses(self, asked_for_more: Optional[str]):
        """A fault: the next stretch is joined. A reader that was asked for more is left out."""
        self.is_joined = True
        for reader in self.readers.values():
            reader.crosses_a_fault()
        if asked_for_more:
            self.left_out.add(asked_for_more)


class ExtendedSurvey(Survey):
    """A recording that is cut by the extended profile."""

    version = 3

    def begins(self, options: Options):
        self.known = ExtendedKnown(options)
        self.rows: "list[tuple]" = []  # those that were read so far

    def row(self, number: int) -> tuple:
        """A row: time, line and value."""
        if number > len(self.rows):
            (fields,) = records(self.lines[number - 1])
            self.rows.append(replay.read_row(fields, number))
        return self.rows[number - 1]

    def takes(self, first: int) -> Optional[Fault]:
        runs = self.known.runs()
        last, fault, silences = self.follows(runs, first)
        if first <= last:
            self.stands(first, last, self.report_of(runs, last - first + 1, silences))
        for _, act in list(self.known.acts(self.rows[first - 1:last])):
            self.known.learn(act)
        return fault

    def follows(self, runs: replay.Runs, first: int) -> "tuple[int, Optional[Fault], dict]":
        """The last row of a stretch, its fault, if it has one, and its silences.

        The fault's row may have counted one more.
        """
        silences, counted = dict.fromkeys(DEVICES, 0), runs.silences
        for number in range(first, len(self.lines) + 1):
            try:
                runs.take_row(*self.row(number))
            except replay.Broken as broken:
                return number - 1, Fault(number, broken.rule, broken.blame), silences
            except replay.NoAnswer:
                _, _, err = self.run(self.lines[number - 1], "check")
                self.refused = refusal(number, err.removeprefix("mdbcheck: row 1: "))
                return number - 1, None, silences
            silences = {device: counted[device].number for device in DEVICES}
        return len(self.lines), None, silences

    def report_of(self, runs: replay.Runs, rows: int, silences: dict) -> dict:
        """The report of a stretch, as `check --json` writes it."""
        devices = {
            device: {
                "accounts": {},
                "decimals": runs.devices[device][0].decimals(),
                "silences": silences[device],
                "unvalued": runs.devices[device][0].unvalued,
                "setup": device in self.known.named(),
                "without": device in self.known.left_out,
            }
            for device in DEVICES
        }
        for account, device in ACCOUNTS.items():
            name = account.removesuffix("-2").replace("-", "_")
            sums = {getattr(state, name) for state in runs.devices[device]}
            joined = functools.reduce(replay.Sum.joined, sums)
            devices[device]["accounts"][account] = sides_of(joined)
        head = {"verdict": "yes", "rows": rows, "joined": self.known.is_joined}
        counted = {"devices": devices, "untimely": dict(runs.untimely)}
        return {**head, "extended": True, **counted, "version": self.version}

    def goes_on(self, first: int, fault: Fault):
        self.known.crosses(asked_for_more(self.rows, first, fault))
        for name in self.known.readers.keys() - self.known.left_out:
            self.came.update(self.known.readers[name].told())


def asked_for_more(rows: "list[tuple]", first: int, fault: Fault) -> Optional[str]:
    """The reader to which a fault is an ENABLE OPTIONS with options that aren't followed. The block
    stands in the stretch, which begins with row `first`."""
    begin = fault.row - OPTIONS_ROWS + 1
    if fault.rule != "Profile" or begin < first:
        return None
    words = [(line, value) for _, line, value in rows[begin - 1:fault.row]]
    for reader, heads in OPTIONS_ASKS.items():
        if words[:2] == [(b"M", head) for head in heads] and all(line == b"M" for line, _ in words):
            return reader
    return None


def sides_of(account: replay.Sum) -> dict:
    """The ranges of an account."""
    return {side: {"least": least, "greatest": most} for side, (least, most) in zip(SIDES, account)}


# --------------------------------------------------------------------------------------------------
# The text
# --------------------------------------------------------------------------------------------------


def text_of(survey: Survey) -> str:
    lines = []
    for part in survey.parts:
        if isinstance(part, Fault):
            lines.append(f"fault {part.row} {part.rule} {part.blame}")
        else:
            lines.append(f"stretch {part.number} rows {part.first}-{part.last}")
            lines += report_lines(part.report)
    if not survey.refused:
        lines += last_lines(survey)
    return "".join(line + "\n" for line in lines)


def report_lines(report: dict) -> "list[str]":
    """The lines of a stretch after its first."""
    devices = report["devices"]
    places = {d: devices[d]["decimals"] for d in DEVICES}
    lines = [by_device("decimals", {d: "-" if n is None else n for d, n in places.items()})]
    lines += [*sum_lines(devices), *count_lines(report)]
    for word in ("setup", "without"):
        lines += named(word, [device for device in DEVICES if devices[device][word]])
    return lines


def sum_lines(devices: dict) -> Iterator[str]:
    for account, device in ACCOUNTS.items():
        sides = devices[device]["accounts"][account]
        ranges = (f"{side} {sides[side]['least']}..{sides[side]['greatest']}" for side in SIDES)
        yield f"{account} {' '.join(ranges)}"


def count_lines(counted: dict) -> Iterator[str]:
    """The counts of a report, or of a total."""
    devices = counted["devices"]
    yield by_device("silences", {device: devices[device]["silences"] for device in DEVICES})
    if "untimely" in counted:
        yield by_device("untimely", {sender: counted["untimely"][sender] for sender in SENDERS})
    yield by_device("unvalued", {device: devices[device]["unvalued"] for device in DEVICES})


def by_device(word: str, values: dict) -> str:
    return " ".join([word, *(f"{name} {value}" for name, value in values.items())])


def named(word: str, devices: "list[str]") -> "list[str]":
    """A line that names devices, where there is one."""
    return [" ".join([word, *devices])] if devices else []


def last_lines(survey: Survey) -> "list[str]":
    """The totals, and the last line."""
    lines, total = [], survey.total()
    if total is not None:
        lines += [*sum_lines(total["devices"]), *count_lines(total)]
        lines += named("without", [d for d in DEVICES if d in survey.known.left_out])
    lines = [f"total {line}" for line in lines]
    faults, (blames, profiles) = survey.faults(), counted(survey.faults())
    lines.append(f"faults {len(faults)} {by_device('', blames).lstrip()} profile {profiles}")
    return lines


def counted(faults: "list[Fault]"):
    """How many faults count for whom, and how many are `Profile`, which count for nobody."""
    blamed = [fault.blame for fault in faults if fault.rule != "Profile"]
    return {name: blamed.count(name) for name in BLAMES}, len(faults) - len(blamed)


# --------------------------------------------------------------------------------------------------
# The same as JSON
# --------------------------------------------------------------------------------------------------


def json_of(survey: Survey) -> str:
    objects = []
    for part in survey.parts:
        if isinstance(part, Fault):
            objects.append({"fault": part._asdict()})
        else:
            place = {"stretch": part.number, "first": part.first, "last": part.last}
            objects.append({**place, "report": part.report})
    if not survey.refused:
        objects.append({"total": json_total(survey), "faults": json_faults(survey.faults())})
    return "".join(json_line({**each, "version": survey.version}) for each in objects)


def json_total(survey: Survey) -> Optional[dict]:
    """The totals, by device as in a report, with who is left out at the end."""
    total, left_out = survey.total(), survey.known.left_out
    if total is None:
        return None
    devices = total["devices"].items()
    return {**total, "devices": {name: {**of, "without": name in left_out} for name, of in devices}}


def json_faults(faults: "list[Fault]") -> dict:
    blames, profiles = counted(faults)
    return {"all": len(faults), **blames, "profile": profiles}


def json_line(value: dict) -> str:
    return json.dumps(value, sort_keys=True, separators=(",", ":")) + "\n"


# --------------------------------------------------------------------------------------------------
# The command
# --------------------------------------------------------------------------------------------------


def survey_of(text: bytes, options: Options, run: Run) -> Survey:
    """The survey of a text, by its profile."""
    return (ExtendedSurvey if options.is_extended else Survey)(lines_of(text), options, run)


def survey(text: bytes, options: Options, run: Run) -> "tuple[int, str, str]":
    """Status, standard output and standard error of `survey` on a text."""
    return survey_of(text, options, run).answer(options.is_json)


def options_of(words: "list[str]") -> Options:
    """The options of a command line that is right."""
    parser = argparse.ArgumentParser(usage=__doc__, allow_abbrev=False)
    parser.add_argument("command", nargs="?", choices=["survey"])
    parser.add_argument("--joined", action="store_true")
    parser.add_argument("--extended", action="store_true")
    parser.add_argument("--setup", action="append", default=[])
    parser.add_argument("--without", action="append", default=[], choices=DEVICES)
    parser.add_argument("--json", action="store_true")
    read = parser.parse_args(words)
    told = tuple(value for value in read.setup if IS_TOLD_OF_READER.search(value))
    setups = dict(value.split(" ", 1) for value in read.setup if value not in told)
    left_out = tuple(dict.fromkeys(read.without))
    return Options(read.joined, setups, left_out, read.json, read.extended, told)


def main() -> int:
    answer = survey(sys.stdin.buffer.read(), options_of(sys.argv[1:]), Runs(MDBCHECK).run)
    status, out, err = answer
    sys.stdout.write(out)
    sys.stderr.write(err)
    return status


if __name__ == "__main__":
    sys.exit(main())
