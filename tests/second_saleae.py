#!/usr/bin/env python3
"""Reads the table of an asynchronous serial analyser, and gives the rows of a recording: a second
reader, written from the page in words (docs/bench/saleae.md) and not from a program's code, to compare
with.

    tests/second_saleae.py [--controller NAME] [--peripheral NAME] [--break MICROSECONDS]
                           [--skip-damaged] [--from TIME] [--until TIME] < TABLE

prints the rows, and those before a record that is refused, then the line that is no row, with one line
on standard error that has the record's number, its time where it has one, and what was wanted, and
status 2. As a module: `read(..)`.
"""

import re
import sys
from decimal import ROUND_HALF_UP, Decimal, localcontext
from typing import NamedTuple

from second_clock import LAST_TIME, LONG, end_of
from second_csv import found, is_comment, plain, records_of, trimmed
from second_looks import looks
from second_rows import REFUSED, is_refused, remarks


class Answer(NamedTuple):
    """What a table gives."""

    rows: "list[str]"  # those of the part, up to the record that is refused
    refused: "int | None"  # the number of that record, from 1
    time: "int | None"  # its time in microseconds, where it has one
    why: "str | None"  # what was wanted there
    before: int  # how many rows are before the part
    after: int  # and after it
    lines: "set[str]"  # M, S, B: those that the rows of the whole table have
    marked: bool  # one of its words has its mode bit set
    times: "list[int]"  # those of its rows
    pulses: "list" = ()  # a table has none
    damaged: "list" = ()  # (time, line) of each damaged word, those outside the part included
    found: "str" = ""  # what the line shows of the record that is refused


class Refused(Exception):
    """A record that can't be: what was wanted, and its time."""


# The names of the columns.
TITLES = {
    b"start_time": "time",
    b"Time [s]": "time",
    b"name": "name",
    b"Analyzer Name": "name",
    b"data": "data",
    b"Value": "data",
    b"error": "error",
    b"Parity Error": "parity",
    b"Framing Error": "framing",
    b"type": "type",
    b"address": "address",
}
# What a refusal calls them.
CALLED = {
    "time": "start_time (or Time [s])",
    "name": "name (or Analyzer Name)",
    "data": "data (or Value)",
    "error": "error (or Parity Error and Framing Error)",
    "parity": "Parity Error",
    "framing": "Framing Error",
    "type": "type",
    "address": "address",
}


def columns_of(header):
    """The place of each column that the header names."""
    places = {}
    for place, title in enumerate(header):
        if title in TITLES:
            places.setdefault(TITLES[title], []).append(place)
    order = ["error", "parity", "framing", None, "time", "name", "type", "data", "address"]
    for column in order:
        if column is None:
            if "error" not in places and not ("parity" in places and "framing" in places):
                raise Refused(f"wanted a column {CALLED['error']}", None)
        elif len(places.get(column, [])) > 1:
            raise Refused(f"wanted one column {CALLED[column]}, and there are more", None)
        elif column in ("time", "name", "data") and column not in places:
            raise Refused(f"wanted a column {CALLED[column]}", None)
    return {column: at[0] for column, at in places.items()}


def time_of(field):
    if field.startswith(b"-"):
        raise Refused("wanted no negative time: set the time zero to the start of the capture", None)
    if not re.fullmatch(rb"[0-9]{1,21}(\.[0-9]+)?", field):
        raise Refused("wanted a time in seconds: up to 21 digits, perhaps with decimals after a "
                      "point", None)
    with localcontext() as context:
        context.prec = len(field) + 20
        seconds = Decimal(field.decode()) * 1_000_000
        micros = int(seconds.quantize(Decimal(1), rounding=ROUND_HALF_UP))
    if micros > LAST_TIME:
        raise Refused(LONG, None)
    return micros


def line_of(field, controller, peripheral):
    if field in (b"M", b"m") or (controller is not None and field == controller.encode()):
        return "M"
    if field in (b"S", b"s") or (peripheral is not None and field == peripheral.encode()):
        return "S"
    return None


HINT = "; --skip-damaged leaves out what is damaged"


def row_of(fields, columns, controller, peripheral, length, skip):
    """The row of a record: (time, line, value); or a value of None for a damaged word."""
    time = time_of(fields[columns["time"]])

    def cell(column, other=b""):
        return fields[columns[column]] if column in columns else other

    def wants(holds, what):
        if not holds:
            raise Refused(what, time)

    wants(cell("type", b"data") == b"data", "wanted the type data, which a word has")
    line = line_of(cell("name"), controller, peripheral)
    wants(line, "wanted M or S as the analyser, or a name given by --controller or --peripheral")
    error = cell("error")
    wants(cell("parity") == b"" and error != b"parity",
          "wanted no parity error: set the analyser to nine bits with no parity bit")
    wants(error in (b"", b"framing"), "wanted no error, or the error framing")
    wants(cell("address") in (b"true", b"false", b""),
          "wanted true or false as the address, or nothing")
    digits = re.fullmatch(rb"0[xX]([0-9A-Fa-f]{1,4})", cell("data"))
    wants(digits, "wanted data as 0x and 1 to 4 hexadecimal digits: export them as hexadecimal")
    word = int(digits[1], 16)
    wants(word <= (0xFF if "address" in columns else 0x1FF),
          "wanted data of at most 0x1FF, and of at most 0xFF beside a column address")
    if cell("address") == b"true":
        word += 0x100
    if error == b"" and cell("framing") == b"":
        return time, line, f"{word:03X}"
    if skip and (line == "S" or word != 0):
        return time, line, None
    wants(line == "M", "wanted a stop bit: only the controller sends a break" + HINT)
    wants(word == 0, "wanted a stop bit: a word that isn't 0 is no break" + HINT)
    wants(length is not None,
          "the table doesn't tell how long the break is: give --break MICROSECONDS")
    return time, "B", str(length)


def read(text, controller=None, peripheral=None, length=None, first=None, last=None, skip=False):
    """All that the page says of a table."""
    rows, before_part, after_part, before, lines, marked = [], 0, 0, None, set(), False
    damaged, times = [], []
    number, columns, width, record = 0, None, 0, None
    try:
        for number, record in enumerate(records_of(plain(text)), 1):
            fields = [trimmed(field) for field in record]
            if columns is None:
                try:
                    if not (is_comment(record) and fields[0].startswith(b";")):
                        columns, width = columns_of(fields), len(fields)
                except Refused:
                    if not is_comment(record):
                        raise
                continue
            if len(fields) != width:
                raise Refused("wanted as many fields as the header has", None)
            time, line, value = row_of(fields, columns, controller, peripheral, length, skip)
            if value is None:
                damaged.append((time, line))
                continue
            if before is not None and time == before:
                raise Refused("wanted a time after that of the row before it, and it is the same",
                              time)
            if before is not None and time < before:
                raise Refused("wanted a later time than the row before it: sort the table by the "
                              "start time", time)
            before = time
            times.append(time)
            lines.add(line)
            marked = marked or (line != "B" and value[0] == "1")
            if first is not None and time < first:
                before_part += 1
            elif last is not None and time > last:
                after_part += 1
            else:
                rows.append(f"{time},{line},{value}")
        if columns is None:
            number, record = number + 1, None
            raise Refused("wanted a header with the names of the columns, and the table is empty",
                          None)
    except Refused as refused:
        why, time = refused.args
        shown = ("" if record is None else found(record)) + ("" if columns else looks(text, "saleae"))
        return Answer(rows, number, time, why, before_part, after_part, lines, marked, times, found=shown)
    return Answer(rows, None, None, None, before_part, after_part, lines, marked, times, (), damaged)


def told(answer):
    """The lines on standard error, without the name of the program."""
    if answer.refused is None:
        return remarks(answer)
    at = "" if answer.time is None else f" at {answer.time}"
    return [f"record {answer.refused}{at}: {answer.why}{answer.found}"]


def main(words):
    skip = "--skip-damaged" in words
    words = [word for word in words if word != "--skip-damaged"]
    options = dict(zip(words[::2], words[1::2]))
    known = ("--controller", "--peripheral", "--break", "--from", "--until")
    if len(words) != 2 * len(options) or any(option not in known for option in options):
        print(__doc__, file=sys.stderr)
        return 2
    controller, peripheral, *numbers = (options.get(option) for option in known)
    answer = read(sys.stdin.buffer.read(), controller, peripheral, *(it and end_of(it) for it in numbers), skip)
    for row in answer.rows + ([REFUSED] if is_refused(answer) else []):
        print(row)
    for line in told(answer):
        print(f"second_saleae: {line}", file=sys.stderr)
    return 2 if is_refused(answer) else 0


if __name__ == "__main__":
    sys.exit(main(sys.argv[1:]))
