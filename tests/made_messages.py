#!/usr/bin/env python3
"""Makes logs of sniffers in the forms that docs/bench/messages.md allows, from the rows of recordings, and others
that are nearly so.

    tests/made_messages.py [LOGS [SEED]]

gives the logs by hand (messages_cases.py) and so many made ones (2,000) to the second reader (second_messages.py),
with no program. Of the made ones it wants the rows that they were made from.
"""

import random
import re
import sys
from typing import NamedTuple

import import_answers
import made_rows
import made_times
import messages_cases
from export_parts import (Export, choose, damage_bytes, damage_lines, options_of, padded, part_of, part_words,
                          wrong_words)
from programs import TOP, load

WORD = 1146  # microseconds that a word lasts
MOST_MOVED = 50_000


class Style(NamedTuple):
    """How a program writes its lines."""

    form: str  # with {t}, a time, {who} speaks, {to} whom, {arrow} and {words}
    comma: bool = False  # a time may have a decimal comma
    digits: bool = False  # a name may begin with a digit
    mark: bool = False  # a name may begin with a mark
    last: str = ""  # what may stand between words, next to blanks


STYLES = [
    Style("[{t}] {who} {arrow} {words}", comma=True, digits=True, last=", "),
    Style("[{t}] {who} {words}", comma=True, digits=True, mark=True),
    Style("{t},{who},{words}", comma=True, last=","),
    Style('"{t}","{who}","{words}"', comma=True, last=", "),
    Style("{t};{who};{words}", comma=True, digits=True, mark=True, last=";"),
    Style("{t}\t{who}\t{words}", comma=True, digits=True, mark=True, last="\t"),
    Style("{t} {who}: {words}", comma=True, digits=True),
    Style("{t}: {who}> {words}", comma=True),
    Style("{t} {who}->{to} {words}", comma=True, digits=True),
    Style("{t} - {who} - {words} -", comma=True, digits=True),
    Style("| {t} | {who} | {words} |", comma=True, digits=True, last=" | "),
    Style("({t}) {who} = <{words}>", comma=True, digits=True, last=", "),
    Style("{who} {t} {words}", comma=True, mark=True),
    Style("{who};{t};{words}", comma=True, mark=True, last=";"),
    Style("{who},{t},{words}", last=","),
    Style("{who}->{to}: {t}: {words}", comma=True, last=", "),
    Style("{who}>>{to}, {t} [{words}]", last=":"),
    Style(" {who}:\t<{t}> {words}\t", comma=True),
]
NAMES = made_rows.NAMES + [("Master 1", "Master 12"), ("C", "A0"), ("VMC:", "PER"), ("M->S", "S->M"), ("08", "8"),
                           ("B1", "ss"), ("m-m", "s.s"), ("VMC ->", "VMC <-"), ("MM", "SSS"), ("x" * 70, "x" * 71)]
MARKS = [(">", "<"), ("->", "<-"), ("<", ">"), ("=", "=="), ("(M)", "(S)"), (":", "|"), ("-M", "-S")]
HEADERS = ["Time,Speaker,Bytes", "time;who;data", "[time] from -> to", "----", "Zeit\tWer\tWas", "M S AA", "S", "\xb5s"]
NO_HEADERS = ["Time [1], who", "sniffer 1.2, 9600 baud", "2026-11-29", "M: 08", "time who bytes 0..9", "-1 M 08", "1e5 M 08"]
EARLY_COMMENTS = [";", "; saved", " \t;x 12", ";5 M 08 08"]  # above the header and the first message alone
COMMENTS = ["#", "# 12.5 M 08 08", " \t# it was off", "#M", "##", "# \xe4"]
BLANKS = ["", " ", "\t", " \t "]
OTHER_LINES = ["-----", "Time,Line,Data", "#", "1 M 08", "1;S;00", "0:00:01 S 00", "99:59:59 M 08 08", "12:60:00 M 08",
               "999999999999999999 M 08", "9999999999999999999999 S 00", "2026-11-30 09:14:22 M 08", "30.11.2026;9:14:22,5;S;00",
               "2026-11-30T10:14:22+01:00 M 08", "M,2026-11-30,09:14:22,08", "M 1.1.1970 00:30:00Z 08", "0 M 108", "0 S", "M", "1 X 08", "2 M 0G", "0 S 100 0B", "1 M 08* 08", "1 S *00", ";5 M 08", "2 S 256", "3 M 511 8",
               "5 M 0B0B0B", "5 M 10B10B", "-5 M 08", "1 M " + "00 " * 37, "1 S 200", "x", "3 M 1FF 1FF", "\xa0"]
BYTES = b"0123456789ABCDEFabcdefMmSsxXTZ+*.,:;-> \t\"\r\n#[]=|()<\x00\xa0"


def messages_of(rows):
    """The messages of rows, each (time of its first row, time of its last, line, words)."""
    found = []
    for time, line, value in rows:
        word = None if line == "B" else int(value, 16)
        before = found[-1] if found else None
        goes_on = before and before[2] == line and time - before[1] < 3000 and len(before[3]) < 36
        goes_on = goes_on and not (line == "M" and word > 0xFF) and not (line == "S" and before[3][-1] > 0xFF)
        if word is None:
            continue
        if goes_on:
            found[-1] = (before[0], time, line, before[3] + [word])
        else:
            found.append((time, time, line, [word]))
    return found


def is_as_on_a_bus(line, words):
    """Whether the mode bits of a message are those that the bus has."""
    marks = [word > 0xFF for word in words]
    if line == "S":
        return marks[-1] and not any(marks[:-1])
    if len(words) == 1 and words[0] & 0xFF in (0x00, 0xAA, 0xFF):
        return not marks[0]
    return marks[0] and not any(marks[1:])


def parted(messages):
    """The messages, each of which begins when the one before it has ended, or later."""
    free, found = 0, []
    for time, _, line, words in messages:
        time = max(time, free)
        free = time + len(words) * WORD
        found.append((time, free - WORD, line, words))
    return found


def rows_of(messages, times, is_last):
    """The rows of messages with these times, up to the first that can't be; and which that is."""
    free, rows = 0, []
    for number, ((_, _, line, words), time) in enumerate(zip(messages, times)):
        own = time - (len(words) - 1) * WORD * is_last
        begin = max(own, free)
        if begin > own + MOST_MOVED:
            return rows, number
        rows += [(begin + place * WORD, line, f"{word:03X}") for place, word in enumerate(words)]
        free = begin + len(words) * WORD
    return rows, None


class Writer:
    """Writes the messages of one log."""

    def __init__(self, rng):
        self.rng = rng
        self.style = rng.choice(STYLES)
        self.digits = choose(rng, (2, 2), (1, 3))
        self.is_decimal = rng.random() < 0.06
        self.stars = [line for line in "MS" if rng.random() < (0.2 if self.digits == 2 else 0.3 * self.is_decimal)]
        self.kind = rng.choice(made_times.FORMS)
        self.comma = self.style.comma and rng.random() < 0.5
        self.time = made_times.Written(rng, self.kind, rng.random() < 0.6).time
        self.is_last = rng.random() < 0.2  # times are those of the last words
        self.step = choose(rng, (4, 1), (1, 100), (4, 1000), (3, 10_000), (1, 100_000))  # microseconds between times
        self.case = rng.choice([str.upper, str.upper, str.lower, lambda text: rng.choice([text.lower(), text])])
        self.glued = rng.random() < 0.2 and not self.is_decimal
        self.before = choose(rng, (3, ""), (1, "0x"), (1, "0X")) if not self.is_decimal else ""
        self.between = rng.choice([" ", " ", "  ", ",", ", ", self.style.last or "\t"])
        self.names = self.own_names()

    def own_names(self):
        """The names of both lines, and those of which are given in options."""
        pairs = [pair for pair in NAMES if self.style.digits or not any(name[0].isdigit() for name in pair)]
        if ">" in self.style.form or "{arrow}" in self.style.form:  # what may be taken for the other's name
            pairs = [pair for pair in pairs if not any(re.fullmatch("[0-9A-Fa-f]{%d,}|.->." % (2 - self.is_decimal), name) for name in pair)]
        pair = self.rng.choice(pairs)
        if self.style.mark and self.rng.random() < 0.3:
            pair = self.rng.choice(MARKS)
        pair = pair[:: self.rng.choice([1, -1])]
        self.given = [name if self.rng.random() < 0.7 else None for name in pair]
        names = {}
        for line, name in zip("MS", self.given):
            names[line] = [line, line.lower()] if name is None else self.rng.choice([[name], [name], [line, name]])
        return names

    def words(self, line, words):
        if self.glued:
            words = [self.case(f"{word if self.digits == 3 else word & 0xFF:0{self.digits}X}") for word in words]
            return self.before + "".join(words)
        return self.between.join(self.word(line, word) for word in words)

    def word(self, line, word):
        star = word > 0xFF and line in self.stars and (self.digits == 2 or self.rng.random() < 0.5)
        if self.is_decimal:
            text = f"{word - 256 * star:0{self.rng.choice([1, 2, 3])}}"
        else:
            text = self.before + self.case(f"{word if self.digits == 3 else word & 0xFF:0{self.digits}X}")
        return self.rng.choice([f"*{text}", f"{text}*"]) if star else text

    def may_write(self, line, words, decided):
        """Whether it writes a message, after others by which it is decided which lines show their mode bits."""
        if self.digits == 3 or self.is_decimal:
            return True
        if self.glued or line not in self.stars:
            return is_as_on_a_bus(line, words)
        shows, answers = any(word > 0xFF for word in words), line == "M" and words in ([0x00], [0xAA], [0xFF])
        decided |= {line} if shows else set()
        return line in decided or answers

    def is_unclear(self, words):
        """Whether a message's words may be bytes or words of three, by themselves."""
        return self.glued and len(words) > 1 and self.digits * len(words) % 6 == 0

    def line(self, time, line, words):
        who, to = (self.rng.choice(self.names[one]) for one in (line, "S" if line == "M" else "M"))
        arrow = "->" if line == "M" else "<-"
        return self.style.form.format(t=time, who=who, to=to, arrow=arrow, words=self.words(line, words))


def moved_in_time(rng, rows, kind):
    """The rows at another time."""
    shift = made_times.shift_of(rng, kind, rows[-1][0] - rows[0][0])
    shift -= rows[0][0] if kind == "day" else rng.choice([rows[0][0], 0])
    return [(max(0, time + shift), line, value) for time, line, value in rows]


def with_others(rng, entries):
    """The lines, each with the number of its message, with comments, blank lines and a header among them; and the
    number of the line that is refused by itself."""
    refused, what = None, choose(rng, (6, None), (3, HEADERS), (1, NO_HEADERS))
    if what:
        entries = [(rng.choice(what), None)] + entries
    for _ in range(choose(rng, (4, 0), (2, 1), (1, 5))):
        entries.insert(rng.randint(0, len(entries)), (rng.choice(COMMENTS + BLANKS), None))
    if rng.random() < 0.1:
        entries = [(rng.choice(EARLY_COMMENTS), None) for _ in range(rng.choice([1, 1, 3]))] + entries
    if what is NO_HEADERS:
        refused = next(at for at, (line, _) in enumerate(entries, 1) if line in NO_HEADERS)
    return entries, refused


def as_bytes(rng, lines, names, blanks):
    """The text of the lines, perhaps after many of these blanks."""
    ends = rng.choice([["\n"], ["\n"], ["\r\n"], ["\r"], ["\n", "\r\n"], ["\r", "\r\n"]])
    text = "".join(line + rng.choice(ends) for line in lines)
    if rng.random() < 0.2:
        text = text.rstrip("\r\n")
    encoding, mark = choose(rng, (4, ("utf-8", b"")), (1, ("utf-8", b"\xef\xbb\xbf")), (1, ("utf-16-le", b"\xff\xfe")),
                            (1, ("utf-16-be", b"\xfe\xff")), (1, ("latin-1", b"")))
    if encoding == "latin-1" and not "".join(name or "" for name in names).isascii():
        encoding = "utf-8"
    return mark + padded(rng, text.encode(encoding), rng.choice(blanks).encode(encoding))


def options(rng, writer, rows):
    """The words of the command line."""
    words = ["messages"]
    if writer.kind in made_times.UNITS or rng.random() < 0.1:
        words += ["--unit", writer.kind if writer.kind in made_times.UNITS else rng.choice(list(made_times.UNITS))]
    for option, name in zip(("--controller", "--peripheral"), writer.given):
        words += [option, name] if name is not None else []
    if writer.is_last or rng.random() < 0.1:
        words += ["--time-of", "last" if writer.is_last else "first"]
    words += ["--decimal"] * writer.is_decimal
    return words + part_words(rng, [time for time, _, _ in rows], 0.15)


def told_messages(rng, writer, recordings):
    """Messages, the times that the log has of them, the rows that it has to give, and which is refused, or None."""
    rows = moved_in_time(rng, part_of(rng, recordings, 0), writer.kind)
    decided = set()
    messages = [it for it in messages_of(rows) if writer.may_write(*it[2:], decided)]
    if writer.step == 1:  # no time is rounded, and none moved: the rows come back as they are
        messages = parted(messages)
        wanted = [(begin + place * WORD, line, f"{word:03X}") for begin, _, line, words in messages
                  for place, word in enumerate(words)]
        return messages, [it[1] if writer.is_last else it[0] for it in messages], wanted, None
    up = rng.choice([0, writer.step // 2])
    times = [(it[1] if writer.is_last else it[0]) + up for it in messages]
    times = [time // writer.step * writer.step for time in times]
    return messages, times, *rows_of(messages, times, writer.is_last)


def messages_export(rng, recordings):
    """A log, and the rows that it has to give."""
    writer = Writer(rng)
    messages, times, wanted, at = told_messages(rng, writer, recordings)
    written = [writer.time(time, writer.comma) for time in times]
    if not messages or None in written:
        return messages_export(rng, recordings)
    at = 0 if writer.is_unclear(messages[0][3]) else at
    entries = [(writer.line(time, *it[2:]), number) for number, (time, it) in enumerate(zip(written, messages))]
    entries, refused = with_others(rng, entries)
    if refused is None and at is not None:
        refused = next(number for number, (_, its) in enumerate(entries, 1) if its == at)
    words, lines = options(rng, writer, wanted), [line for line, _ in entries]
    damage = 0 if rng.random() < 0.5 else choose(rng, (3, 1), (2, 2), (1, 3))
    in_lines = sum(rng.random() < 0.5 for _ in range(damage))
    for _ in range(in_lines):
        damage_lines(rng, lines, at_an_edge, OTHER_LINES)
    if damage and rng.random() < 0.1:
        flags = [words.pop(words.index(flag)) for flag in ("--decimal",) if flag in words]
        wrong_words(rng, words)
        words += flags if rng.random() < 0.7 else []
    text = as_bytes(rng, lines, writer.given, " \t" if refused else " \t\n\r")
    for _ in range(damage - in_lines):
        text = damage_bytes(rng, text, BYTES)
    if damage or refused is not None:
        return Export(text, words, None, refused=None if damage else refused)
    its, _ = options_of(words)
    part = range(its.get("--from", 0), its.get("--until", 10**18) + 1)
    return Export(text, words, ["%d,%s,%s" % row for row in wanted if row[0] in part])


def at_an_edge(rng, line):
    """A line in which one thing is at an edge of what may stand there."""
    if rng.random() < 0.2:
        return made_times.at_an_edge(rng, line)
    things = list(re.finditer(r"[0-9.,:]+|[A-Za-z]+|[^0-9A-Za-z]+", line))
    if not things:
        return rng.choice(OTHER_LINES)
    thing = rng.choice(things)
    old = thing[0]
    new = rng.choice([old + old, old + " " + old, old.swapcase(), "", " ", "-" + old, old + "-", "0x" + old, old + "0",
                      old.zfill(21), old.zfill(22), old + ".5", old + ",5", "*" + old, old + "*", f"*{old}*", "*", "256", "08*", "511", "512", old.replace(",", "."), old.replace(".", ","),
                      "M", "S", "1FF", "200", "0" + old, f'"{old}"', old + "\xa0", "->", ">S", "M>", "00 " * 36, "#"])
    return line[: thing.start()] + new + line[thing.end() :]


def main(words):
    count, seed = int((words or ["2000"])[0]), (words[1:] or ["1"])[0]
    imported = load("imported")
    by_hand = list(messages_cases.cases())
    for words, text, wrong_with in by_hand:
        wrong = wrong_with(import_answers.whole(words, import_answers.answer_of(words, text)))
        if wrong:
            print(f"{words} < {text!r}: {wrong}", file=sys.stderr)
            return 1
    recordings = imported.recordings_in(TOP / "examples")
    whole = refused = 0
    for number in range(count):
        export = messages_export(random.Random(f"{seed} messages {number}"), recordings)
        answer = import_answers.answer_of(export.words, export.text)
        wrong = imported.made_wrong(export, answer)
        if wrong:
            print(f"log {number} of seed {seed}: {wrong}; {export.words} < {export.text!r}", file=sys.stderr)
            return 1
        whole += export.rows is not None
        refused += answer.refused is not None
    print(f"{len(by_hand)} logs by hand; {count} made ones, {whole} with the rows they were made from, {refused} refused")
    return 0


if __name__ == "__main__":
    sys.exit(main(sys.argv[1:]))
