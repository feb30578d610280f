#!/usr/bin/env python3
"""Reads what a recorder's program exports, and gives the rows of a recording: a second reader,
written from the pages in words (docs/bench/sigrok-trace.md) and not from a program's code, to compare
with.

    tests/second_import.py sigrok [--swap] [--skip-damaged] [--from TIME] [--until TIME] < TRACE

prints the rows, or the line that is no row and on standard error one that tells why, with status 2. As
a module: `read(text, swap, skip)` answers the rows, each (time, line, value) with the value as it stands
in a row, the pulses and the damaged words; or a Refusal.
"""

import re
import sys
from typing import NamedTuple

from second_clock import LAST_TIME, LONG, end_of
from second_edges import answer_of
from second_rows import REFUSED, is_refused, remarks


class Refusal(NamedTuple):
    """Why a trace gives no rows."""

    record: int  # the record's number, counted from 1: it stands one line further down
    time: "int | None"  # its time in whole microseconds, where it has one
    why: str  # what was wanted
    line: "str | None" = None  # M or S, where the record is on one of them

    def __str__(self):
        at = "" if self.time is None else f" at {self.time}"
        on = "" if self.line is None else f" on {self.line}"
        return f"record {self.record}{at}{on}: wanted {self.why}"


class Refused(Exception):
    def __init__(self, *refusal):
        self.refusal = Refusal(*refusal)


HEAD = b'{"traceEvents": ['
TAIL = b"]}"
RECORD = re.compile(
    rb'\{"ph": "([BE])", "ts": ([0-9]+)\.([0-9]{6}), "pid": "uart-1", '
    rb'"tid": "([^"]*)", "name": "([^"]*)"\}(,?)'
)
HEXADECIMAL = re.compile(rb"[0-9A-F]+")

# What may stand in a trace: the kind of a record by its `tid` without TX or RX, and its `name`.
START, DATA, FRAME, PARITY, BREAK = range(5)
NAMES = {
    (b"", b"Start bit"): START,
    (b" warnings", b"Frame error"): FRAME,
    (b"", b"Parity error"): PARITY,
    (b" break", b"Break condition"): BREAK,
}

SHORTEST_BREAK = 95_000  # where damage is skipped
LONGEST_BREAK = 10**9 - 1

# What is wanted in more places than one.
HINT = "; --skip-damaged leaves out what is damaged"
NO_BREAK = "a stop bit after the word: a framing error that is no break" + HINT
EARLY = "a time after that of the row before it on this line"
OTHER_KIND = "something of RX or TX that was asked for: see the annotations (-A)"


def whole(millionths):
    """Whole microseconds, the nearest; the half goes up."""
    return (millionths + 500_000) // 1_000_000


def records_of(text):
    """The pairs of records: (number of the first, kind, TX or RX, name, start, end), times in
    millionths of a microsecond."""
    lines = text.split(b"\n")
    if lines[-1] == b"":
        lines.pop()
    lines = [line[:-1] if line.endswith(b"\r") else line for line in lines]
    if not lines or lines[0] != HEAD:
        why = 'a trace, whose first line is {"traceEvents": [, and it is another one'
        raise Refused(0, None, why)
    opened = None  # the first record of a pair, until its second comes
    number = 0
    next_is = "record"  # or the "end" of the trace, or "nothing"
    for line in lines[1:]:
        if next_is == "nothing":
            raise Refused(number + 1, None, "nothing after the line ]}, where the trace ends")
        if next_is == "end":
            if line != TAIL or opened is not None:
                why = "the last line of a trace, ]}, after a record without a comma"
                raise Refused(number + 1, None, why)
            next_is = "nothing"
            continue
        number += 1
        found = RECORD.fullmatch(line)
        if not found:
            raise Refused(number, None, "a record as sigrok-cli writes it for its decoder uart-1")
        phase, units, parts, tid, name, comma = found.groups()
        units = units.lstrip(b"0")
        time = int(units + parts) if len(units) <= 18 else None
        if time is None or whole(time) > LAST_TIME:
            raise Refused(number, None, LONG.removeprefix("wanted "))
        next_is = "record" if comma else "end"
        if opened is None:
            if phase != b"B":
                why = "the beginning of something (B), and it is an end (E)"
                raise Refused(number, whole(time), why)
            opened = (number, time, tid, name)
            continue
        first, start, tid_before, name_before = opened
        if phase != b"E" or (tid, name) != (tid_before, name_before):
            why = "the end of what begins there as the next record"
            raise Refused(first, whole(start), why)
        opened = None
        yield (first, tid, name, start, time)
    if next_is != "nothing":
        raise Refused(number + 1, None, "more records, or the last line ]}: the trace is cut")


FREE, STARTED, WORDED, LOW = range(4)


class Line:
    """What was read of one line: its rows, and what its next record goes on from."""

    def __init__(self, name, skip):
        self.name, self.skip = name, skip
        self.rows, self.pulses, self.damaged = [], [], []
        self.state = FREE
        self.last = -1  # the time of the last row, pulse or damaged word, in whole microseconds
        self.opened = None  # the record of the start bit, and its time in millionths
        self.word = None  # the word that came after it
        self.wrong = None  # the word's frame error: its record and time

    def refuse(self, number, time, why):
        raise Refused(number, time, why, self.name)

    def no_break(self):
        """What refuses a low line where no break comes."""
        self.refuse(*self.wrong, NO_BREAK)

    def is_damaged(self):
        """The word with a frame error is damaged, and its row is taken back."""
        self.rows.pop()
        self.last = whole(self.opened[1])
        self.damaged.append((self.last, self.name))
        self.state = FREE

    def is_later(self, number, time):
        if time <= self.last:
            self.refuse(number, time, EARLY)

    def end(self):
        if self.state == LOW:
            if not self.skip:
                self.no_break()
            self.is_damaged()

    def take(self, number, kind, name, start, end):
        by_kind = {START: self.take_start, DATA: self.take_word, FRAME: self.take_frame_error,
                   BREAK: self.take_break}
        if kind in by_kind:
            return by_kind[kind](number, name, start, end)
        if self.state == LOW:
            self.no_break()
        self.refuse(number, whole(start),
                    "no parity: decode with parity=none" if kind == PARITY else OTHER_KIND)

    def take_start(self, number, _, start, __):
        if self.state == STARTED:
            self.refuse(self.opened[0], whole(self.opened[1]),
                        "the word of the start bit before the next start bit")
        if self.state == LOW:
            if not self.skip:
                self.no_break()
            self.is_damaged()
        if self.state == WORDED:
            self.last = self.rows[-1][0]
        self.is_later(number, whole(start))
        self.state, self.opened = STARTED, (number, start)

    def take_word(self, number, name, start, _):
        time = whole(start)
        if self.state == LOW and not self.skip:
            self.no_break()
        if self.state != STARTED:
            self.refuse(number, time, "a start bit right before the word")
        if len(name) != 3:
            self.refuse(number, time, "a word of three hexadecimal digits: decode with nine data bits")
        if int(name, 16) > 0x1FF:
            self.refuse(number, time, "a word of at most 1FF: decode with nine data bits")
        self.rows.append((whole(self.opened[1]), self.name, name.decode()))
        self.state, self.word = WORDED, name

    def take_frame_error(self, number, _, start, __):
        time = whole(start)
        if self.state == STARTED:
            self.refuse(number, time, NO_BREAK)
        if self.state in (WORDED, LOW):
            of_the_word = 3 * (start - self.opened[1]) < 3_203_125_000
            if self.state == LOW:
                if of_the_word or not self.skip:
                    self.no_break()
                self.is_damaged()
            elif of_the_word:
                if self.word != b"000" and not self.skip:
                    self.refuse(number, time, NO_BREAK)
                self.state, self.wrong = LOW, (number, time)
                return
            else:
                self.last = self.rows[-1][0]
        self.is_later(number, time)
        self.pulses.append((time, self.name))
        self.state, self.last = FREE, time

    def take_break(self, number, _, start, end):
        time = whole(start)
        if self.state != LOW:
            self.refuse(number, time, "a word 000 and its framing error right before the break")
        if self.name != "M" and not self.skip:
            self.refuse(number, time, "no break on the line of the devices: are the lines exchanged "
                        "(--swap)?" + HINT)
        if end < start:
            self.refuse(number, time, "the end of the break after its beginning")
        length = whole(end - start)
        if self.skip:
            is_break = SHORTEST_BREAK <= length <= LONGEST_BREAK
            if self.name != "M" or self.word != b"000" or not is_break:
                self.is_damaged()
                return
        elif length > LONGEST_BREAK:
            self.refuse(number, time, "a break of at most 999999999 microseconds" + HINT)
        self.rows.pop()
        self.is_later(number, time)
        self.rows.append((time, "B", str(length)))
        self.state, self.last = FREE, time


class Trace(NamedTuple):
    """What a trace gives, all in the order of the times."""

    rows: list  # (time, line, value)
    pulses: list  # (time, line)
    damaged: list


def read(text: bytes, swap: bool = False, skip: bool = False):
    """What the JSON trace gives that sigrok-cli writes for its decoder `uart`, or a Refusal."""
    controller, device = Line("M", skip), Line("S", skip)
    of = {b"TX": device, b"RX": controller} if swap else {b"TX": controller, b"RX": device}
    try:
        for number, tid, name, start, end in records_of(text):
            line, rest = of.get(tid[:2]), tid[2:]
            kind = NAMES.get((rest, name))
            if kind is None and rest == b"" and HEXADECIMAL.fullmatch(name):
                kind = DATA
            if line is None:
                raise Refused(number, whole(start), OTHER_KIND)
            line.take(number, kind, name, start, end)
        controller.end()
        device.end()
    except Refused as refused:
        return refused.refusal
    # By their starts, and at one time the controller's first.
    return Trace(*(sorted(two[0] + two[1], key=lambda row: (row[0], row[1] == "S"))
                   for two in ((controller.rows, device.rows), (controller.pulses, device.pulses),
                               (controller.damaged, device.damaged))))


def main(words):
    told = {}
    rest = list(words[1:])
    flags = ("--swap", "--skip-damaged")
    while rest:
        option = rest.pop(0)
        if option not in ("--from", "--until", *flags) or (option not in flags and not rest):
            words = []
            break
        told[option] = True if option in flags else end_of(rest.pop(0))
    if words[:1] != ["sigrok"]:
        print(__doc__, file=sys.stderr)
        return 2
    came = read(sys.stdin.buffer.read(), "--swap" in told, "--skip-damaged" in told)
    if isinstance(came, Refusal):
        print(REFUSED)
        print(f"second_import: {came}", file=sys.stderr)
        return 2
    answer = answer_of(*came, told.get("--from"), told.get("--until"))
    for row in answer.rows + ([REFUSED] if is_refused(answer) else []):
        print(row)
    for line in remarks(answer):
        print(f"second_import: {line}", file=sys.stderr)
    return 2 if is_refused(answer) else 0


if __name__ == "__main__":
    sys.exit(main(sys.argv[1:]))
