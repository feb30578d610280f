#!/usr/bin/env python3
"""Reads a value change dump, and gives the rows of a recording: a second reader, written from the pages
docs/bench/vcd.md and docs/bench/edges.md and not from a program's code, to compare with. What a line's
levels give is read as second_edges.py does.

    tests/second_vcd.py [--controller NAME] [--peripheral NAME] [--invert] [--invert-line NAME] [--skip-damaged]
                        [--from TIME] [--until TIME] < DUMP

prints the rows; or, where the dump is refused, the line that is no row, and on standard error why, with
status 2. As a module: `read(text, ..)` answers all that the pages say of a dump.
"""

import re
import sys
from fractions import Fraction

from second_clock import LAST_TIME, LONG, end_of
from second_edges import Records, Refused, answer_from, micros, refusal, told, turned_by
from second_looks import looks
from second_rows import REFUSED, is_refused

NO_COMMAND = "wanted a command of the header, up to $enddefinitions $end"
TIMESCALE = "wanted a timescale of 1, 10 or 100 s, ms, us, ns, ps or fs"
SECOND_TIMESCALE = "wanted one timescale, and this is another one"
SCOPE = "wanted a type and a name of the scope"
NO_SCOPE = "wanted an open scope before $upscope"
VARIABLE = "wanted a type, a size, a code and a name of the variable"
SIZE = "wanted a variable of one bit for the line"
SEVERAL = "wanted one variable of each line: several are called so; give a path"
NO_TIMESCALE = "wanted a timescale in the header"
NO_VARIABLE = "wanted one variable of each line: as --controller and --peripheral say, or M and S"
SAME = "wanted another variable for each line, and it is the same"
NO_TOKEN = "wanted a time, a change of a value, or a command of the dump"
NO_TIME = "wanted a time: digits after #"
EARLY = "wanted a time that isn't before the time before it"
NO_LEVEL = "wanted a level, 0 or 1, and the value is none"
LOST_LEVEL = "wanted a level, 0 or 1, after the first one, and it is x or z"
CUT = "wanted more of the dump: it is cut"

UNITS = {b"s": 1, b"ms": 10**3, b"us": 10**6, b"ns": 10**9, b"ps": 10**12, b"fs": 10**15}
LEVELS = {b"0": False, b"1": True, b"x": None, b"X": None, b"z": None, b"Z": None}
PASSED = (b"$dumpvars", b"$dumpall", b"$dumpon", b"$dumpoff", b"$end")


class Tokens:
    """The tokens of a text. A number is a token's place among them, from 0."""

    def __init__(self, text):
        found = list(re.finditer(rb"[^ \t\r\n]+", text))
        self.tokens = [one[0] for one in found]
        self.lines, line, at = [], 1, 0
        for one in found:
            line += text.count(b"\n", at, one.start())
            at = one.start()
            self.lines.append(line)
        # After the last line, whether or not it has its end.
        self.next_line = text.count(b"\n") + (0 if text.endswith(b"\n") or not text else 1) + 1
        self.at = 0

    def take(self, without):
        """The next token; what is refused where there is none."""
        if self.at == len(self.tokens):
            raise Refused(self.at, without)
        self.at += 1
        return self.tokens[self.at - 1]

    def line_of(self, number):
        return self.lines[number] if number < len(self.lines) else self.next_line


def timescale_of(words):
    found = re.fullmatch(rb"(1|10|100) ?(s|ms|us|ns|ps|fs)", b" ".join(words))
    return Fraction(int(found[1]), UNITS[found[2]]) if found else None


class Header:
    """What the header tells: the length of a timescale in seconds, and the codes of the lines."""

    def __init__(self, controller, peripheral):
        self.called = {"M": controller, "S": peripheral}
        self.timescale, self.codes, self.scopes = None, {}, []

    def is_called(self, line, name):
        """Whether a variable in the open scopes is called as a line is."""
        called = self.called[line]
        if called is None:
            return name in (line.encode(), line.lower().encode())
        return called.encode() in (name, b".".join(self.scopes + [name]))

    def command(self, command, words, end):
        """A command with the words in it; what is wrong is so at its end."""
        if command == b"$timescale":
            if self.timescale is not None:
                raise Refused(end, SECOND_TIMESCALE)
            self.timescale = timescale_of(words)
            if self.timescale is None:
                raise Refused(end, TIMESCALE)
        elif command == b"$scope":
            if len(words) != 2:
                raise Refused(end, SCOPE)
            self.scopes.append(words[1])
        elif command == b"$upscope":
            if not self.scopes:
                raise Refused(end, NO_SCOPE)
            self.scopes.pop()
        elif command == b"$var":
            if len(words) < 4:
                raise Refused(end, VARIABLE)
            self.variable(words[1], words[2], b"".join(words[3:]), end)
        elif command == b"$enddefinitions":
            if self.timescale is None:
                raise Refused(end, NO_TIMESCALE)
            if len(self.codes) < 2:
                raise Refused(end, NO_VARIABLE)
            if self.codes["M"] == self.codes["S"]:
                raise Refused(end, SAME)

    def variable(self, size, code, name, end):
        for line in "MS":
            if self.is_called(line, name):
                if size != b"1":
                    raise Refused(end, SIZE)
                if self.codes.setdefault(line, code) != code:
                    raise Refused(end, SEVERAL)

    def read(self, tokens):
        command = None
        while command != b"$enddefinitions":
            command = tokens.take(CUT)
            if not command.startswith(b"$") or command == b"$end":
                raise Refused(tokens.at - 1, NO_COMMAND)
            words = list(iter(lambda: tokens.take(CUT), b"$end"))
            self.command(command, words, tokens.at - 1)


class Body:
    """What the body was read to: the levels over time."""

    def __init__(self, timescale, codes):
        self.timescale, self.codes = timescale, codes
        self.now, self.levels = Fraction(0), {"M": None, "S": None}
        self.times, self.read_as, self.numbers = [], {"M": [], "S": []}, []

    def moment(self, number):
        """The levels of the time that has passed are read."""
        self.times.append(self.now)
        self.numbers.append(number)
        for line, level in self.levels.items():
            self.read_as[line].append(level)

    def time(self, number, digits):
        time = int(digits) * self.timescale if len(digits) < 1000 else None
        if time is None or micros(time) > LAST_TIME:
            raise Refused(number, LONG)
        if time < self.now:
            raise Refused(number, EARLY, micros(time))
        if time > self.now:
            self.moment(number)
            self.now = time

    def change(self, number, code, value):
        """A change of a code: its value, or None for what is no level at all."""
        line = self.codes.get(code)
        if line is None:
            return
        if value not in LEVELS:
            raise Refused(number, NO_LEVEL, micros(self.now), line)
        if LEVELS[value] is None:
            if self.levels[line] is not None:
                raise Refused(number, LOST_LEVEL, micros(self.now), line)
        else:
            self.levels[line] = LEVELS[value]

    def read(self, tokens):
        while tokens.at < len(tokens.tokens):
            number, token = tokens.at, tokens.take(None)
            if token.startswith(b"#"):
                if not re.fullmatch(rb"#[0-9]+", token):
                    raise Refused(number, NO_TIME)
                self.time(number, token[1:].lstrip(b"0") or b"0")
            elif token[:1] in LEVELS and len(token) > 1:
                self.change(number, token[1:], token[:1])
            elif token[:1] in b"bBrRsS":
                code = tokens.take(CUT)
                self.change(number + 1, code, token[1:] if token[:1] in b"bB" else None)
            elif token == b"$comment":
                while tokens.take(CUT) != b"$end":
                    pass
            elif token not in PASSED:
                raise Refused(number, NO_TOKEN)
        self.moment(tokens.at)


def records_in(tokens, controller, peripheral):
    header = Header(controller, peripheral)
    header.read(tokens)
    codes = {code: line for line, code in header.codes.items()}
    body, fault = Body(header.timescale, codes), None
    try:
        body.read(tokens)
    except Refused as refused:
        fault = refused
    # At the end of the text the levels of the last time are read, and then comes the end of the lines.
    return Records(body.times, body.read_as, body.numbers, len(tokens.tokens) + 1, fault)


def read(text, controller=None, peripheral=None, invert=False, line=None, first=None, last=None, skip=False):
    """All that the pages say of a dump. `refused` is the number of a line of the text."""
    tokens = Tokens(text)
    try:
        records = records_in(tokens, controller, peripheral)
        answer = answer_from(records, turned_by(invert, line, controller, peripheral), first, last, skip)
    except Refused as fault:
        fault.found = looks(text, "vcd") if fault.why == NO_COMMAND else ""
        answer = refusal(fault)
    return answer if answer.refused is None else answer._replace(refused=tokens.line_of(answer.refused))


def main(words):
    options, words = {}, list(words)
    names = {"--controller": "controller", "--peripheral": "peripheral", "--invert-line": "line", "--from": "first",
             "--until": "last"}
    while words:
        word = words.pop(0)
        if word in ("--invert", "--skip-damaged"):
            options["invert" if word == "--invert" else "skip"] = True
        elif word in names and words:
            value = words.pop(0)
            options[names[word]] = end_of(value) if word in ("--from", "--until") else value
        else:
            print(__doc__, file=sys.stderr)
            return 2
    answer = read(sys.stdin.buffer.read(), **options)
    for row in answer.rows + ([REFUSED] if is_refused(answer) else []):
        print(row)
    for line in told(answer, "line"):
        print(f"second_vcd: {line}", file=sys.stderr)
    return 2 if is_refused(answer) else 0


if __name__ == "__main__":
    sys.exit(main(sys.argv[1:]))
