#!/usr/bin/env python3
"""Reads an export that is nearly rows, and gives the rows of a recording: a second reader, written
from the page docs/bench/importing.md and not from a program's code, to compare with.

    tests/second_rows.py [--unit s|ms|us|ns] [--controller NAME] [--peripheral NAME] [--decimal]
                         [--from TIME] [--until TIME] < EXPORT

prints the rows, and those before a record that is refused, then the line that is no row, with one line
on standard error that has the record's number, and status 2. As a module:
`read(text, unit, controller, peripheral, first, last)` answers all that the page says of it, and `told(..)` the
lines on standard error. What the page says of all formats is here too: REFUSED, disturbances(), remarks() and is_refused().
"""

import re
import sys
from typing import NamedTuple

from second_clock import LAST_TIME, Clock, end_of, form_of, microseconds, midnight, number_of
from second_csv import fields_of, found, is_comment, plain, records_of
from second_looks import looks, word_of

# What is written at the end of a refused export.
REFUSED = "mdbimport refused this export"


def disturbances(pulses, damaged):
    """The lines that tell of pulses and of damaged words, each (time, line)."""
    def placed(places):
        places = sorted(places, key=lambda place: (place[0], place[1] == "S"))
        return [f"{time} on {line}" for time, line in places[:5]]

    lines = []
    if len(pulses) == 1:
        lines.append(f"passed over 1 pulse shorter than half a bit, at {placed(pulses)[0]}")
    elif pulses:
        lines.append(f"passed over {len(pulses)} pulses shorter than half a bit; the first at "
                     f"{placed(pulses)[0]}")
    if damaged:
        words = "word" if len(damaged) == 1 else "words"
        at = "the first at" if len(damaged) > 5 else "at"
        lines.append(f"left out {len(damaged)} damaged {words}, {at} {', '.join(placed(damaged))}; "
                     "mdbcheck survey shows what is missing")
    return lines


def is_refused(answer):
    """Whether the export is refused: a record of it, or the whole since there is no row."""
    return answer.refused is not None or not answer.rows


def left_out(before, after):
    """The line on rows outside a part."""
    return f"left out {before} row{'s' * (before != 1)} before the part and {after} after it"


def passed(count):
    """The line on records outside a part that aren't read as rows."""
    what = "record outside the part that is no row" if count == 1 else "records outside the part that are no rows"
    return f"left out {count} {what}, or not in order"


def remarks(answer):
    """The lines on standard error where no record is refused, in their order."""
    lines = []
    if getattr(answer, "upside_down", None):
        lines.append(f"line {answer.upside_down} is low at rest, and is read upside down")
    if getattr(answer, "header", False):
        lines.append("the first record is taken for a header")
    lines += midnight(getattr(answer, "midnights", 0))
    if answer.before or answer.after:
        lines.append(left_out(answer.before, answer.after))
    if getattr(answer, "passed", 0):
        lines.append(passed(answer.passed))
    lines += disturbances(answer.pulses, answer.damaged)
    lines += [answer.low] if getattr(answer, "low", None) else []
    if not answer.times:
        return lines + ["there is no row in the export"]
    if not answer.rows:
        first, last = min(answer.times), max(answer.times)
        return lines + [f"the part has no row: the rows have times from {first} to {last}"]
    if not answer.lines & {"M", "S"}:
        return lines + ["there is no word on either line"]
    if "M" not in answer.lines:
        lines.append("no word of the controller (M): was only the peripherals' line recorded?")
    if "S" not in answer.lines:
        lines.append("no word of a peripheral (S): was only the controller's line recorded?")
    if not answer.marked:
        lines.append("no word has its mode bit set: was it recorded with 8 bits and not 9?")
    return lines


class Answer(NamedTuple):
    """What an export gives."""

    rows: "list[str]"  # those of the part, up to the record that is refused
    refused: "int | None"  # the number of that record, from 1
    at: "int | None"  # the time that its first field tells
    behind: "int | None"  # the time of the last row before it that isn't after the part
    why: "str | None"  # what was wanted there
    header: bool  # the first record is one
    before: int  # how many rows are before the part
    after: int  # and after it
    passed: int  # how many records outside it are no rows, or not in order
    lines: "set[str]"  # M, S, B: those that the rows of the whole export have
    marked: bool  # one of its words has its mode bit set
    times: "list[int]"  # those of its rows
    midnights: int  # how often midnight passed
    pulses: "list" = ()  # (time, line) of each pulse; rows have none
    damaged: "list" = ()  # the same of each damaged word
    found: "str" = ""  # what the line shows of the record that is refused
    looks: "str" = ""  # and what the export looks like


LONGEST_BREAK = 10**9 - 1
HEXADECIMAL = "wanted a word in hexadecimal digits, at most 1FF"
DECIMAL = "wanted a word in decimal digits, at most 511"
NO_ROWS = "wanted rows below the comments, and there are none"
ARE_DECIMAL = "; are the words decimal (--decimal)?"


def has_digit(field):
    return re.search(rb"[0-9]", field) is not None


def is_header(record, names):
    """Whether a record isn't compressed, and has three fields or more, none of which is empty or has the form of a time;
    neither the first nor the last has a digit; and the second of three names no line or break."""
    fields = fields_of(record)
    if record[0].startswith(b"\x1f\x8b") or len(fields) < 3 or (len(fields) == 3 and fields[1] in names):
        return False
    if has_digit(fields[0]) or has_digit(fields[-1]):
        return False
    return all(field and form_of(field) is None for field in fields)


def row_of(fields, time, unit, names, before, is_decimal):
    """The row of a record: (time, line, value), or a text that says what was wanted. Its time is one too, or such a text."""
    if len(fields) != 3:
        return "wanted three fields: TIME, LINE and VALUE"
    _, line, value = fields
    if isinstance(time, str):
        return time
    line = names.get(line)
    if line is None:
        return "wanted M, S or B, or a name given by --controller or --peripheral"
    if line == "B":
        length = number_of(value)
        if length is None or microseconds(length, unit or "s") > LONGEST_BREAK:
            return "wanted the length of the break, below 1000 seconds"
        value = str(microseconds(length, unit or "s"))
    else:
        word = word_of(value, is_decimal)
        if word is None:
            return DECIMAL if is_decimal else HEXADECIMAL
        value = f"{word:03X}"
    if before is not None and time <= before:
        what = "the same" if time == before else "earlier"
        return f"wanted a time after that of the row before it, and it is {what}"
    return (time, line, value)


def read(text, unit=None, controller=None, peripheral=None, first=None, last=None, is_decimal=False):
    """All that the pages say of an export."""
    names = {one.encode(): one.upper() for one in "MmSsBb"}
    if controller is not None:
        names[controller.encode()] = "M"
    if peripheral is not None:
        names[peripheral.encode()] = "S"
    rows, header, before_part, after_part, passed, times = [], False, 0, 0, 0, []
    before, lines, marked, clock = None, set(), False, Clock(unit)
    refusal, shown, number, is_first = (None, None, None, None), "", 0, True
    for number, record in enumerate(records_of(plain(text)), 1):
        if is_first and is_comment(record):
            continue
        fields, was_first, is_first = fields_of(record), is_first, False
        if was_first and is_header(record, names):
            header = True
            continue
        own = clock.time_of(fields[0])
        row = row_of(fields, own, unit, names, before, is_decimal)
        if isinstance(row, str):
            own = None if isinstance(own, str) else own
            if own is not None and (own < (first or 0) or (last is not None and own > last)):
                passed += 1
                continue
            refusal, shown = (number, own, before, row), found(record)
            if row == HEXADECIMAL and re.fullmatch(rb"[0-9]{1,18}", fields[2]) and 200 <= int(fields[2]) <= 511:
                shown += ARE_DECIMAL
            break
        times.append(own)
        lines.add(row[1])
        marked = marked or (row[1] != "B" and row[2] >= "100")
        if first is not None and own < first:
            before_part += 1
        elif last is not None and own > last:
            after_part += 1
            continue  # what comes next need not be later than that
        else:
            rows.append("%d,%s,%s" % row)
        before = own
    if number and is_first:
        refusal = number + 1, None, None, NO_ROWS
    looks_like = looks(text, "rows") if refusal[0] and before is None else ""
    return Answer(rows, *refusal, header, before_part, after_part, passed, lines, marked, times, clock.midnights,
                  found=shown, looks=looks_like)


def goes_on(answer):
    """The time to go on with after a record that is refused, or None."""
    first = None if answer.at is None else max(answer.at, answer.behind or 0) + 1
    return first if first is not None and first <= LAST_TIME else None


def told(answer):
    """The lines on standard error, without the name of the program."""
    if answer.refused is None:
        return remarks(answer)
    at = "" if answer.behind is None else f" after {answer.behind}"
    at = at if answer.at is None else f" at {answer.at}"
    further = "" if goes_on(answer) is None else f"; go on with --from {goes_on(answer)}"
    return [f"record {answer.refused}{at}: {answer.why}{answer.found}{further}{answer.looks}"]


def main(words):
    is_decimal, words = "--decimal" in words, [word for word in words if word != "--decimal"]
    options = dict(zip(words[::2], words[1::2]))
    known = ("--unit", "--controller", "--peripheral", "--from", "--until")
    if len(words) != 2 * len(options) or any(option not in known for option in options):
        print(__doc__, file=sys.stderr)
        return 2
    unit, controller, peripheral, first, last = (options.get(option) for option in known)
    part = (time and end_of(time) for time in (first, last))
    answer = read(sys.stdin.buffer.read(), unit, controller, peripheral, *part, is_decimal)
    for row in answer.rows + ([REFUSED] if is_refused(answer) else []):
        print(row)
    for line in told(answer):
        print(f"second_rows: {line}", file=sys.stderr)
    return 2 if is_refused(answer) else 0


if __name__ == "__main__":
    sys.exit(main(sys.argv[1:]))
