"""What an input looks like that another command reads: docs/bench/importing.md, *What another command reads*, and the
VALUE of a word. Written from the page, and not from a program's code.
"""

import re

from second_clock import form_of, number_of
from second_csv import fields_of, trimmed

HEXADECIMAL = re.compile(rb"(\*?)(?:0[xX]([0-9A-Fa-f]{1,4})|([0-9A-Fa-f]{1,4})[hH]?)(\*?)")
DECIMAL = re.compile(rb"(\*?)([0-9]{1,3})(\*?)")
LAST_PIECE = re.compile(rb"(\*?)(?:0[xX])?[0-9A-Fa-f]{2,3}(\*?)")
PIECES = re.compile(rb'[^ \t,;\[\]()<>=|"]+')
FRONT = 512


def word_of(field, is_decimal=False):
    """The word that a VALUE tells, or None."""
    found = (DECIMAL if is_decimal else HEXADECIMAL).fullmatch(field)
    if not found or found[1] and found[found.lastindex]:
        return None
    digits = found[2] or found[3]
    word, most = int(digits, 10 if is_decimal else 16), 0xFF if b"*" in field else 0x1FF
    return None if word > most else word + 0x1FF - most


def is_rows(line):
    """Whether a line looks like a row in another form."""
    fields = fields_of([line])
    if len(fields) != 3 or form_of(fields[0]) is None or not fields[1] or number_of(fields[1]) is not None:
        return False
    return word_of(fields[2]) is not None or fields[1] in (b"B", b"b") and number_of(fields[2]) is not None


def is_message(line):
    """Whether a line looks like one of a sniffer's log."""
    pieces = list(PIECES.finditer(line))
    words = [its is not None and not (its[1] and its[2]) for its in (LAST_PIECE.fullmatch(piece[0]) for piece in pieces)]
    if len(pieces) < 3 or not words[-1] or line[pieces[-1].start() - 1 : pieces[-1].start()] != b" " and not words[-2]:
        return False
    return len({form_of(piece[0]) is not None for piece in pieces[:-1]}) == 2


def command_of(text):
    """What reads a text: a command of mdbimport, `zcat`, or None."""
    front = text.removeprefix(b"\xef\xbb\xbf")[:FRONT]
    for command, begin in (("zcat", rb"\x1f\x8b"), ("vcd", rb"[ \t\r\n]*\$[a-z]"), ("sigrok", rb'\{"traceEvents": \[')):
        if re.match(begin, front):
            return command
    lines = re.split(rb"[\r\n]", front)
    lines = [line for line in lines[: -1 if len(front) == FRONT else None] if line.lstrip(b' \t"')[:1] not in (b"", b"#", b";")]
    first, second = ([trimmed(field) for field in line.split(b",")] for line in (lines + [b"", b""])[:2])
    if all(set(first) & names for names in ({b"start_time", b"Time [s]"}, {b"data", b"Value"}, {b"error", b"Framing Error"})):
        return "saleae"
    if len(second) == len(first) >= 3 and number_of(second[0]) is not None and number_of(first[0]) is None:
        if set(second[1:]) <= {b"0", b"1"}:
            return "edges"
    if any(map(is_rows, lines[:2])):
        return "rows"
    return "messages" if any(map(is_message, lines[:2])) else None


LOOKS = {
    "zcat": "this is compressed by gzip: write zcat FILE | before the command",
    "vcd": "this looks like a value change dump: mdbimport vcd reads it",
    "sigrok": "this looks like a trace of sigrok-cli: mdbimport sigrok reads it",
    "saleae": "this looks like a table of Logic 2's analyser: mdbimport saleae reads it",
    "edges": "this looks like a table of edges: mdbimport edges reads it",
    "rows": "this looks like rows: mdbimport rows reads it",
    "messages": "this looks like the log of a sniffer: mdbimport messages reads it",
}


def looks(text, command):
    """The end of the line that refuses a text to a command: what it looks like, or nothing."""
    reads = command_of(text)
    return "" if reads in (None, command) or (command, reads) == ("messages", "rows") else f"; {LOOKS[reads]}"
