#!/usr/bin/env python3
"""Reads the log of a sniffer, one message a line, and gives the rows of a recording: a second reader,
written from the page docs/bench/messages.md and not from a program's code, to compare with.

    tests/second_messages.py [--unit s|ms|us|ns] [--controller NAME] [--peripheral NAME]
                             [--time-of first|last] [--decimal] [--from TIME] [--until TIME] < LOG

prints the rows, and those before a line that is refused, then the line that is no row, with one line
on standard error that has the line's number and what was wanted, and status 2. As a module: `read(..)`
answers all that the page says of a log, and `told(..)` the lines on standard error.
"""

import re
import sys
from typing import NamedTuple

import second_rows
from second_clock import DATE, LAST_TIME, LONG, NO_TIME, OFFSET, Clock, end_of, midnight
from second_csv import found, plain
from second_looks import looks
from second_rows import REFUSED, is_refused

SPEAKER = "wanted M or S before the bytes, or a name given by --controller or --peripheral"
WORDS = "wanted bytes of two hexadecimal digits, or words of three, at most 1FF"
DECIMAL = "wanted words in decimal digits, at most 511"
STARS = "wanted * in the messages of a line from the first on, or in none"
MIXED = "wanted two digits in each word, or three in each, as before"
PARTED = "wanted blanks between the words: so many digits are bytes or words of three"
LONGEST = "wanted at most 36 words, which is the longest block"
ORDER = "wanted a message that begins after the one before it, or at most 50 ms too early"
TIMES = ("each message has one time: the times of its words are made up, and rules about times say nothing "
         "here; moved ")

WORD = 1146  # microseconds that a word lasts
MOST_MOVED = 50_000
MOST_WORDS = 36


class Refused(Exception):
    """A line that is no message: what was wanted; and what stands after what was found."""


class Answer(NamedTuple):
    """What a log gives."""

    rows: "list[str]"  # those of the part, up to the line that is refused
    refused: "int | None"  # the number of that line, from 1
    why: "str | None"  # what was wanted there
    found: str  # what is shown of it
    header: bool  # the first line is one
    before: int  # how many rows are before the part
    after: int  # and after it
    moved: "list[int]"  # by how many microseconds each message was moved that was
    lines: "set[str]"  # M, S: those that the rows of the whole log have
    marked: bool  # one of its words has its mode bit set
    times: "list[int]"  # those of all rows
    midnights: int  # how often midnight passed
    pulses: "tuple" = ()  # a log has none
    damaged: "tuple" = ()


# ------------------------------------------------------------------------------- what stands in a line

HEXADECIMAL = b"0123456789ABCDEFabcdef"
GROUP = re.compile(rb"(\*?)(?:0[xX](?=[0-9A-Fa-f]))?([0-9A-Fa-f]+)(\*?)")
NUMBER = re.compile(rb"(\*?)([0-9]{1,3})(\*?)")
# A date may stand before a time of day, and an offset after it; a comma may end the time of day.
TIME, TIME_TO_COMMA = (re.compile(rb"%b[0-9.:%b]*[0-9]%b?|[0-9.:%b]*[0-9]" % (DATE, comma, OFFSET, comma))
                       for comma in (b",", b""))


def is_mark(line, at):
    """Whether a mark stands at a place of a line."""
    if line[at : at + 1] == b"-":
        return line[at + 1 : at + 2] == b"" or line[at + 1] not in HEXADECIMAL
    return line[at] in b' \t[]()<>=:;,|"'


def ends(line, at):
    """Whether what stands before a place ends there."""
    return at == len(line) or is_mark(line, at)


def name_at(line, at, names, after_the_time):
    """The longest of these names that stands at a place, or None."""
    there = [name for name in names if line.startswith(name, at) and ends(line, at + len(name))]
    there = [name for name in there if after_the_time or not name[:1].isdigit()]
    return max(there, key=len, default=None)


def head_of(line, names):
    """What stands before the words: the time as it is written, the line of the speaker or None, and the
    place at which the words begin."""
    time = speaker = None
    now, others = names, {}  # the names that may stand here, and those that may after a >
    comma = False  # one was passed over after the speaker
    at = 0
    while at < len(line):
        name = name_at(line, at, now, time is not None)
        if name is not None:
            if speaker is None:
                speaker = names[name]
                others = {other: whose for other, whose in names.items() if whose != speaker}
            else:
                others = {}
            now = {}
            at += len(name)
        elif is_mark(line, at):
            if speaker is not None:
                comma = comma or line[at : at + 1] == b","
                now = others if line[at : at + 1] == b">" else now
            at += 1
        elif time is None:
            run = (TIME_TO_COMMA if comma else TIME).match(line, at)
            if not run or not ends(line, run.end()):
                raise Refused(NO_TIME)
            time, at = run[0], run.end()
        else:
            break
    if time is None:
        raise Refused(NO_TIME)
    return time, speaker, at


def digits_of(group):
    """How many digits the words of a group may have."""
    length = len(group)
    may = [2] if length % 2 == 0 else []
    may += [3] if length % 3 == 0 else []
    if not may:
        raise Refused(WORDS)
    return may


def groups_of(line, at, form, why):
    """What stands between marks from a place on, each (a star before it or none, its digits, a star after it or none)."""
    groups = []
    while at < len(line):
        if is_mark(line, at):
            at += 1
            continue
        group = form.match(line, at)
        if not group or group[1] and group[3] or not ends(line, group.end()):
            raise Refused(why)
        groups.append(group.groups())
        at = group.end()
    if not groups:
        raise Refused(why)
    return groups


def decimal_words(line, at):
    """The words that stand from a place on as decimal numbers, and whether one has three digits and is 200 or more."""
    groups = [(int(digits), bool(before or after)) for before, digits, after in groups_of(line, at, NUMBER, DECIMAL)]
    if any(word > (255 if star else 511) for word, star in groups):
        raise Refused(DECIMAL)
    return [word + 256 * star for word, star in groups], any(word >= 200 for word, _ in groups)


def words_of(line, at, digits):
    """The words that stand from a place on, each with whether it has a star; how many digits they have, which is None if no
    word of the log stands before them; whether others have another number; and whether that isn't clear."""
    words, mixed, unclear = [], False, False
    for (before, group, after), may in [(it, digits_of(it[1])) for it in groups_of(line, at, GROUP, WORDS)]:
        if (before or after) and len(group) != 2:
            raise Refused(WORDS)
        if len(may) == 2 and digits is None:
            unclear = True
            continue
        own = digits if digits in may else may[0]
        digits = digits or own
        mixed = mixed or own != digits
        some = [[int(group[place : place + own], 16), False] for place in range(0, len(group), own)]
        some[0][1] = bool(before or after)
        words += some
    if any(word > 0x1FF for word, _ in words):
        raise Refused(WORDS)
    return words, digits, mixed, unclear


def with_mode_bits(speaker, words, stars):
    """Words of two digits with the mode bits of the bus, or with those that stars show: `stars` has whether they do, by the
    first message of a line that decides."""
    words, shown = [word for word, _ in words], [star for _, star in words]
    answers = speaker == "M" and words in ([0x00], [0xAA], [0xFF])
    if not answers or any(shown):
        stars.setdefault(speaker, any(shown))
    if not answers and not stars[speaker]:
        shown[-1 if speaker == "S" else 0] = True
    return [word | 0x100 * star for word, star in zip(words, shown)]


# ------------------------------------------------------------------------------------------- the log


class Log:
    """What is known of a log while its lines are read."""

    def __init__(self, unit, names, is_decimal):
        self.clock, self.names, self.is_decimal = Clock(unit), names, is_decimal
        self.digits, self.stars = None, {}

    def message(self, line):
        """The message of a line: (time, speaker, words)."""
        time, speaker, at = head_of(line, self.names)
        time = self.clock.time_of(time)
        if isinstance(time, str):
            raise Refused(time)
        if speaker is None:
            raise Refused(SPEAKER)
        words = decimal_words(line, at)[0] if self.is_decimal else self.words(line, at, speaker)
        if len(words) > MOST_WORDS:
            raise Refused(LONGEST)
        return time, speaker, words

    def words(self, line, at, speaker):
        try:
            words, self.digits, mixed, unclear = words_of(line, at, self.digits)
        except Refused:
            try:
                words, hint = decimal_words(line, at)
                hint = hint and len(words) <= MOST_WORDS
            except Refused:
                hint = False
            raise Refused(WORDS, second_rows.ARE_DECIMAL * hint)
        stray = self.stars.get(speaker) is False and any(star for _, star in words)
        for wrong, why in ((mixed, MIXED), (stray, STARS), (unclear, PARTED)):
            if wrong:
                raise Refused(why)
        return with_mode_bits(speaker, words, self.stars) if self.digits == 2 else [word for word, _ in words]


def begin_of(time, count, time_of, free):
    """When a message of so many words begins, if the bus is free from a time on; and how much it was moved."""
    own = time - (count - 1) * WORD if time_of == "last" else time
    begin = max(own, free)
    if begin - own > MOST_MOVED:
        raise Refused(ORDER)
    if begin + (count - 1) * WORD > LAST_TIME:
        raise Refused(LONG)
    return begin, begin - own


def read(text, unit=None, controller=None, peripheral=None, time_of=None, first=None, last=None, is_decimal=False):
    """All that the page says of a log."""
    names = {b"M": "M", b"m": "M", b"S": "S", b"s": "S"}
    names.update({name.encode(): line for name, line in ((controller, "M"), (peripheral, "S")) if name})
    rows, moves, free, is_first, header, log = [], [], 0, True, False, Log(unit, names, is_decimal)
    refused, why, shown = None, None, ""
    for number, line in enumerate(re.split(rb"\r\n|\r|\n", plain(text)), 1):
        begins = line.lstrip(b" \t")[:1]
        if begins in (b"", b"#") or begins == b";" and line.count(b";") == 1 and not (header or rows):
            continue
        was_first, is_first = is_first, False
        if was_first and not re.match(rb"\x1f\x8b|.*[0-9]", line, re.DOTALL):
            header = True
            continue
        try:
            time, speaker, words = log.message(line)
            begin, move = begin_of(time, len(words), time_of, free)
        except Refused as refusal:
            refused, why, shown = number, refusal.args[0], found([line]) + "".join(refusal.args[1:])
            shown += "" if rows else looks(text, "messages")
            break
        moves += [move] if move else []
        rows += [(begin + place * WORD, speaker, word) for place, word in enumerate(words)]
        free = begin + len(words) * WORD
    first, last = first or 0, LAST_TIME if last is None else last
    part = [f"{time},{line},{word:03X}" for time, line, word in rows if first <= time <= last]
    before = sum(time < first for time, _, _ in rows)
    after = sum(time > last and time >= first for time, _, _ in rows)
    return Answer(part, refused, why, shown, header, before, after, moves, {line for _, line, _ in rows},
                  any(word > 0xFF for _, _, word in rows), [time for time, _, _ in rows], log.clock.midnights)


def told(answer):
    """The lines on standard error, without the name of the program."""
    if answer.refused is not None:
        return [f"line {answer.refused}: {answer.why}{answer.found}"]
    lines = ["the first line is taken for a header"] if answer.header else []
    lines += midnight(answer.midnights)
    if answer.before or answer.after:
        lines.append(second_rows.left_out(answer.before, answer.after))
    count, most = len(answer.moved), max(answer.moved, default=0)
    moved = f"{count} messages, by at most {most} microseconds"
    moved = {0: "no message", 1: f"1 message, by {most} microseconds"}.get(count, moved)
    return lines + [TIMES + moved] + second_rows.remarks(answer._replace(header=False, midnights=0, before=0, after=0))


def main(words):
    is_decimal, words = "--decimal" in words, [word for word in words if word != "--decimal"]
    options = dict(zip(words[::2], words[1::2]))
    known = ("--unit", "--controller", "--peripheral", "--time-of", "--from", "--until")
    if len(words) != 2 * len(options) or any(option not in known for option in options):
        print(__doc__, file=sys.stderr)
        return 2
    unit, controller, peripheral, time_of, *part = (options.get(option) for option in known)
    part = (time and end_of(time) for time in part)
    answer = read(sys.stdin.buffer.read(), unit, controller, peripheral, time_of, *part, is_decimal)
    for row in answer.rows + ([REFUSED] if is_refused(answer) else []):
        print(row)
    for line in told(answer):
        print(f"second_messages: {line}", file=sys.stderr)
    return 2 if is_refused(answer) else 0


if __name__ == "__main__":
    sys.exit(main(sys.argv[1:]))
