#!/usr/bin/env python3
"""Reads a table of edges, and gives the rows of a recording: a second reader, written from the page
docs/bench/edges.md and not from a program's code, to compare with. Which likely cause follows a refusal was
tried, since the page leaves it open.

    tests/second_edges.py [--controller NAME] [--peripheral NAME] [--unit s|ms|us|ns] [--invert]
                          [--invert-line NAME] [--skip-damaged] [--from TIME] [--until TIME] < TABLE

prints the rows; or, where the table is refused, the line that is no row, and on standard error why,
with status 2. As a module: `read(text, ..)` answers all that the pages say of a table, and `told(..)` the lines on
standard error.
"""

import sys
from bisect import bisect_right
from fractions import Fraction
from typing import NamedTuple

from second_clock import LAST_TIME, LONG, end_of
from second_csv import found, is_comment, plain, records_of, trimmed
from second_looks import looks
from second_rows import REFUSED, is_refused, remarks

BIT = Fraction(1, 9600)
MICROSECOND = Fraction(1, 10**6)
UNITS = {"s": 1, "ms": 1000, "us": 10**6, "ns": 10**9}


class Refused(Exception):
    """What is wrong, with the number of the record, a time in microseconds and the line; and what the
    line shows after that."""

    def __init__(self, number, why, time=None, line=None, found=""):
        super().__init__(why)
        self.number, self.why, self.time, self.line, self.found = number, why, time, line, found


class Answer(NamedTuple):
    """What a table gives."""

    rows: "list[str]"  # those of the part; none where the table is refused
    refused: "int | None"  # the number of the record that is refused, from 1
    why: "str | None"
    time: "int | None"  # its time, where one is told
    line: "str | None"  # and the line
    before: int  # how many rows are before the part
    after: int  # and after it
    lines: "set[str]"  # M, S: those that have a word
    marked: bool  # a word has its mode bit set
    times: "list[int]" = ()  # those of all rows
    pulses: "list" = ()  # (time, line) of each, those outside the part included
    damaged: "list" = ()  # the same of each damaged word
    found: "str" = ""  # what the line shows of the record that is refused, the likely cause, and what the table looks like
    upside_down: "str | None" = None  # the line that is low at rest, and is read upside down
    low: "str | None" = None  # what is told of a line that is low at rest, and has damaged words


NO_HEADER = "wanted a header that names the columns"
NO_COLUMN = "wanted one column of each line: as --controller and --peripheral say, or M and S"
FEWER = "wanted as many fields as the header has"
HINT = "--skip-damaged leaves out what is damaged"
FRAMING = "wanted a high stop bit, or a break of 95 ms or more, and the stop bit is low"
DEVICE_BREAK = ("wanted words alone on the line of the peripherals, and it is low for a break")
LONG_BREAK = "wanted a break of at most 999999999 microseconds, and it is longer"
CUT = "wanted a line that is high at the end of the export, and it is low"


def number_of(field):
    """The number that a field writes, exactly; or None."""
    marks = [at for at, byte in enumerate(field) if byte in b".,"]
    if len(marks) > 1:
        return None
    parts = [field] if not marks else [field[: marks[0]], field[marks[0] + 1 :]]
    for part, most in zip(parts, (21, 15)):
        if not 1 <= len(part) <= most or not all(48 <= one <= 57 for one in part):
            return None
    number = Fraction(int(parts[0]))
    if marks:
        number += Fraction(int(parts[1]), 10 ** len(parts[1]))
    return number


def micros(seconds):
    """Whole microseconds, the nearest; a half goes up."""
    doubled = 2 * seconds / MICROSECOND + 1
    return doubled.numerator // doubled.denominator // 2


def columns_named(header, name, letters):
    """The places of the columns that are called so."""
    names = [name.encode()] if name is not None else [one.encode() for one in letters]
    return [at for at, field in enumerate(header) if at > 0 and field in names]


def cause_of(why, record, names):
    """The likely cause of what is wrong with a record by itself, or nothing."""
    text, fields = b",".join(record), [trimmed(field) for field in record]
    for mark, called in ((b";", "semicolons"), (b"\t", "tabs")):
        if mark in text:
            return f"; are its fields parted by {called}, and not by commas?"
    if why == FEWER and len(fields) > 3 and fields[0].isdigit() and fields[1].isdigit():
        return "; is there a decimal comma that doesn't stand in quotes?"
    if why == NO_COLUMN:
        for name in (name.encode() for name in names if name is not None):
            alike = [field for field in fields[1:] if field.lower() == name.lower()]
            if alike and name not in alike:
                return "; does a name differ by great and small letters alone?"
    return ""


class Records(NamedTuple):
    """The levels of the lines over time, up to what is refused by itself or to the end."""

    times: "list[Fraction]"
    levels: "dict[str, list[bool | None]]"  # for M and S whether it is 1 from each time on, or no level
    numbers: "list[int]"  # where each is read: the number of its record
    end: int  # the number of what would come next
    fault: "Refused | None"  # what is wrong with what comes after them; None: nothing comes

    def seen(self, time):
        """Where the first is read that is later than a time, or the end where none is; None where
        that can't be told, since something was refused before."""
        at = bisect_right(self.times, time)
        if at < len(self.times):
            return self.numbers[at]
        return None if self.fault else self.end

    def is_high(self, letter, is_turned):
        """Whether a line is high from each time on; upside down, if it is turned."""
        return [level is not None and level != is_turned for level in self.levels[letter]]


class LineRead(NamedTuple):
    """What a line gives."""

    rows: list
    pulses: list
    damaged: list
    fault: "Refused | None"  # what is wrong with it


def line_of(records, letter, is_turned, skip):
    """What is read of a line: rules 1 to 6."""
    times, levels, end = records.times, records.is_high(letter, is_turned), records.end
    rows, pulses, damaged = [], [], []

    def level(time):
        at = bisect_right(times, time)
        return at > 0 and levels[at - 1]

    def next_of(wanted, at):
        """The first record, from one on, that leaves the line so."""
        return next((one for one in range(at, len(times)) if levels[one] == wanted), None)

    def answer(fault=None):
        return LineRead(rows, pulses, damaged, fault)

    def refused(number, start, why):
        return answer(Refused(number, why, micros(start), letter))

    idle = next_of(True, 0)
    while idle is not None:
        fall = next_of(False, idle)
        if fall is None:
            break
        start = times[fall]
        middles = [start + (2 * bit + 1) * BIT / 2 for bit in range(11)]
        if records.seen(middles[0]) is None:
            break
        if level(middles[0]):
            pulses.append((micros(start), letter))
            idle = bisect_right(times, middles[0]) - 1
            continue
        stop = middles[10]
        number = records.seen(stop)
        if number is None:
            break
        if level(stop):
            value = sum(level(middle) << place for place, middle in enumerate(middles[1:10]))
            rows.append((micros(start), letter, f"{value:03X}"))
            idle = bisect_right(times, stop) - 1
            continue
        rise = next_of(True, bisect_right(times, stop))
        low_since = next_of(True, fall) == rise  # low from the start bit to there
        length = None if rise is None else micros(times[rise] - start)
        is_break = low_since and letter == "M" and rise is not None and 95_000 <= length < 10**9
        if is_break:
            rows.append((micros(start), "B", str(length)))
        elif skip:
            damaged.append((micros(start), letter))
        elif number == end and not levels[-1]:
            return refused(end, start, CUT)
        elif not low_since:
            return refused(number, start, FRAMING)
        elif rise is None:
            return answer() if records.fault else refused(end, start, CUT)
        elif length < 95_000:
            return refused(records.numbers[rise], start, FRAMING)
        else:
            why = DEVICE_BREAK if letter == "S" else LONG_BREAK
            return refused(records.numbers[rise], start, why)
        idle = rise
    return answer()


class Table:
    """What is known of a table while its records are read."""

    def __init__(self, controller, peripheral, unit):
        self.names, self.unit = (controller, peripheral), unit
        self.width, self.columns = None, None
        self.times, self.levels = [], {"M": [], "S": []}

    def header(self, number, record):
        fields = [trimmed(field) for field in record]
        if number_of(fields[0]) is not None:
            self.refuse(number, record, NO_HEADER)
        sent = columns_named(fields, self.names[0], "Mm")
        answered = columns_named(fields, self.names[1], "Ss")
        if len(sent) != 1 or len(answered) != 1 or sent == answered:
            self.refuse(number, record, NO_COLUMN)
        self.width, self.columns = len(fields), {"M": sent[0], "S": answered[0]}

    def refuse(self, number, record, why):
        raise Refused(number, why, found=found(record) + cause_of(why, record, self.names))

    def record(self, number, record):
        fields = [trimmed(field) for field in record]
        if len(fields) != self.width:
            self.refuse(number, record, FEWER)
        time = number_of(fields[0])
        if time is None:
            self.refuse(number, record, "wanted a time: up to 21 digits, perhaps with decimals")
        time /= UNITS[self.unit]
        if micros(time) > LAST_TIME:
            self.refuse(number, record, LONG)
        for letter, column in self.columns.items():
            if fields[column] not in (b"0", b"1"):
                raise Refused(number, "wanted a level, 0 or 1", micros(time), letter, found(record))
        if self.times and time <= self.times[-1]:
            how = "the same" if time == self.times[-1] else "earlier"
            why = f"wanted a time after that of the record before it, and it is {how}"
            raise Refused(number, why, micros(time), None, found(record))
        self.times.append(time)
        for letter, column in self.columns.items():
            self.levels[letter].append(fields[column] == b"1")


def records_in(text, controller, peripheral, unit):
    table, number, fault, begin = Table(controller, peripheral, unit), 0, None, 2
    try:
        for number, record in enumerate(records_of(plain(text)), 1):
            if table.columns:
                table.record(number, record)
            elif not is_comment(record):
                table.header(number, record)
            elif trimmed(record[0])[:1] == b"#":
                try:
                    table.header(number, record)
                except Refused:
                    pass
            begin = begin if table.times else number + 1
        if not table.columns:
            raise Refused(number + 1, NO_HEADER)
    except Refused as refused:
        fault = refused
        fault.found += "" if table.columns else looks(text, "edges")
    end = begin + len(table.times)
    return Records(table.times, table.levels, range(begin, end), end, fault)


def is_at_rest(level, records, letter, is_turned):
    """Whether two or more levels of a line are low (0) or high (1) and long, and more than are otherwise and long, from the
    first time that it is high to its last change."""
    high, long = records.is_high(letter, is_turned), [0, 0]
    changes = [at for at in range(len(high)) if high[at] != (at > 0 and high[at - 1])]  # the first is to high
    for number, (at, until) in enumerate(zip(changes, changes[1:])):
        long[number % 2] += records.times[until] - records.times[at] > 11 * BIT
    most, other = long[not level], long[level]
    return most >= 2 and most > other


class Lines:
    """What both lines give, of which some are turned by options."""

    def __init__(self, records, turned, skip):
        self.turned = turned
        self.low = {letter: is_at_rest(0, records, letter, letter in turned) for letter in "MS"}
        self.exported_low = {letter: is_at_rest(letter in turned, records, letter, letter in turned) for letter in "MS"}
        self.read = {letter: line_of(records, letter, letter in turned, skip) for letter in "MS"}
        other = {letter: line_of(records, letter, True, skip) for letter in "MS" if self.low[letter] and not turned}
        stand = [letter for letter, its in other.items() if (self.read[letter].fault or self.read[letter].damaged)
                 and not its.fault and not its.damaged and any(row[1] != "B" for row in its.rows)]
        self.upside_down = stand[0] if len(stand) == 1 else None
        self.read.update((letter, other[letter]) for letter in stand if len(stand) == 1)

    def hint(self, letter):
        """What may help where a line has something damaged."""
        if not self.low[letter]:
            return HINT
        if letter in self.turned:
            return f"line {letter} is low at rest as --invert or --invert-line has it read"
        if all(self.exported_low.values()):
            return "both lines are low at rest: --invert reads them upside down"
        return f"line {letter} is low at rest: --invert-line {letter} reads it upside down"

    def in_order(self, what):
        """What both lines have of this, in the order of the times."""
        both = [one for line in self.read.values() for one in getattr(line, what)]
        return sorted(both, key=lambda one: (one[0], one[1] == "S"))


def answer_from(records, turned, first, last, skip):
    """What the levels of a text give, or why it is refused."""
    lines = Lines(records, turned, skip)
    faults = [line.fault for line in lines.read.values() if line.fault]
    for fault in faults:
        fault.why += f"; {lines.hint(fault.line)}"
    faults += [records.fault] if records.fault else []
    if faults:
        return refusal(min(faults, key=lambda fault: fault.number))  # of two at one record the first
    answer = answer_of(*map(lines.in_order, ("rows", "pulses", "damaged")), first, last)
    low = [lines.hint(letter) for letter in "MS" if lines.low[letter] and lines.read[letter].damaged]
    return answer._replace(upside_down=lines.upside_down, low=low[0] if low else None)


def turned_by(invert, line, controller, peripheral):
    """The lines that options turn."""
    return {letter for letter, name in (("M", controller), ("S", peripheral))
            if invert or line is not None and line in (letter, letter.lower(), name)}


def read(text, controller=None, peripheral=None, unit="s", invert=False, line=None, first=None, last=None, skip=False):
    """All that the pages say of a table."""
    records = records_in(text, controller, peripheral, unit)
    return answer_from(records, turned_by(invert, line, controller, peripheral), first, last, skip)


def refusal(fault):
    return Answer([], fault.number, fault.why, fault.time, fault.line, 0, 0, set(), False, found=fault.found)


def told(answer, place="record", on="line "):
    """The lines on standard error, without the name of the program."""
    if answer.refused is None:
        return remarks(answer)
    at = "" if answer.time is None else f" at {answer.time}"
    at += "" if answer.line is None else f" on {on}{answer.line}"
    return [f"{place} {answer.refused}{at}: {answer.why}{answer.found}"]


def answer_of(rows, pulses, damaged, first, last):
    """The rows of the part, and what is told of them."""
    part, before, after, lines, marked = [], 0, 0, set(), False
    for time, line, value in rows:
        if line != "B":
            lines.add(line)
            marked = marked or value >= "100"
        if first is not None and time < first:
            before += 1
        elif last is not None and time > last:
            after += 1
        else:
            part.append(f"{time},{line},{value}")
    return Answer(part, None, None, None, None, before, after, lines, marked, [time for time, _, _ in rows], pulses, damaged)


def main(words):
    options = {"unit": "s", "invert": False}
    names = {"--controller": "controller", "--peripheral": "peripheral", "--unit": "unit", "--invert-line": "line",
             "--from": "first", "--until": "last"}
    words = list(words)
    while words:
        word = words.pop(0)
        if word in ("--invert", "--skip-damaged"):
            options["invert" if word == "--invert" else "skip"] = True
        elif word in names and words:
            value = words.pop(0)
            options[names[word]] = end_of(value) if word in ("--from", "--until") else value
        else:
            print(__doc__, file=sys.stderr)
            return 2
    answer = read(sys.stdin.buffer.read(), **options)
    for row in answer.rows + ([REFUSED] if is_refused(answer) else []):
        print(row)
    for line in told(answer):
        print(f"second_edges: {line}", file=sys.stderr)
    return 2 if is_refused(answer) else 0


if __name__ == "__main__":
    sys.exit(main(sys.argv[1:]))
