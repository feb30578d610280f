#!/usr/bin/env python3
"""What `check` writes to standard error of a no by which perhaps nobody did wrong.

Either the no isn't judged, since the rows don't show a reader's feature level; or the row is out of the base profile's
times alone, and in those of the extended one; or its rule is Profile. Written from
docs/bench/recorded-while-it-ran.md (*Feature levels*) and docs/bench/rows-and-command-line.md (*Standard error*), apart from the
program and the page. Scripts of tests/ compare both with it.

`unjudged.py RECORDING WORDS..` prints the line for the report on standard input, if it has one.
"""

import pathlib
import re
import sys

import second_replay
from second_program import values_of

READERS = {2: "cashless", 12: "cashless-2"}
DEVICES = {1: "changer", 6: "bill", **READERS}
# The rules of time, and the time at which the row is tried again, from the row before it.
MOVED = {"Early": 200_000, "Late": 996, "Spacing": 996, "Break": 200_000}
# The times of the extended profile.
REST, SHORT_BREAK = 996, 95_000


def rows_of(data):
    """The rows at the front of a text, up to the first line that is none: line and value."""
    for line in data.decode("latin-1").removeprefix("ï»¿").replace('"', "").splitlines():
        if not line.strip():
            continue
        fields = line.split(",")
        if len(fields) != 3 or not re.fullmatch(r"B,\d+|[MS],[0-9A-F]{3}", ",".join(fields[1:])):
            return
        yield fields[1], int(fields[2], 10 if fields[1] == "B" else 16)


def last_begun(rows):
    """The byte with which the last block of the controller in these rows begins."""
    return next((word & 255 for line, word in reversed(rows) if line == "M" and word > 255), None)


def given_levels(words):
    """The readers that `--setup` says to have level 1, or 0, which counts as 1."""
    text = " ".join(words)
    return {reader: 1 for reader in READERS.values() if re.search(f"{reader} 01 0[01]", text)}


def shown_levels(rows, words):
    """The levels that the controller reported to each reader, and those that the readers reported."""
    told, own, block, answer = {}, given_levels(words), [], []
    for line, word in rows:
        if line == "B":
            block, answer = [], []
        elif line == "M" and word > 255:
            block, answer = [word & 255], []
        elif line == "M" and not answer:
            # Before the first marked word the words are foreign.
            block += [word] * bool(block)
            if len(block) == 7 and block[0] in (0x11, 0x61) and block[1] == 0:
                told[READERS[block[0] >> 3]] = block[2]
        elif line == "M":
            answer = []
        else:
            answer.append(word & 255)
            reader = READERS.get(block[0] >> 3) if block else None
            if word > 255 and reader and len(answer) > 8 and answer[0] == 1:
                own[reader] = answer[1]
    return told, own


def is_left_out(reader, words):
    """Whether words of a command line leave a reader out."""
    pairs = zip(["", *words], words)
    return any(word == f"--without={reader}" or (before, word) == ("--without", reader) for before, word in pairs)


def unjudged(data, words, row, rule, blame):
    """The reader of a no that isn't judged; None if it is judged."""
    if "--joined" not in words or "--extended" in words:
        return None
    rows = list(rows_of(data))[:row]
    begun = last_begun(rows)
    if rows[-1][0] == "M" and rows[-1][1] > 255:
        return None
    reader = READERS.get(begun >> 3) if begun is not None else None
    if reader is None or is_left_out(reader, words):
        return None
    told, own = shown_levels(rows[:-1], words)
    if told.get(reader, 2) < 2 or own.get(reader, 2) < 2:
        return None
    if rule in ("Cashless", "Message"):
        return reader
    if blame != "controller":
        is_open = rule == "Answer" or rule == "Profile" and told.get(reader, 0) < 2
    else:
        is_open = rule in ("Sum", "Mode") and begun & 7 in (1, 3)
    return reader if is_open else None


def line_of(reader):
    """The line of the program on such a no."""
    return (f"mdbcheck: not judged: the rows don't show whether {reader} and the controller speak feature level 1: "
            f"add --extended (or leave it out: --without {reader})\n")


def link_before(data, words, row):
    """The bus before a row of a no, as the second reader has it, and the row."""
    left_out, setups = set(values_of(words, "--without")), values_of(words, "--setup")
    told = second_replay.read_setups(setups if "--joined" in words else None, left_out, False)
    link = second_replay.Link(left_out, False, told)
    for number, fields in enumerate(second_replay.records(data), 1):
        event = second_replay.read_row(fields, number)
        if number == row:
            return link, event
        link.take(*event)


def spared(data, words, row, rule):
    """The microseconds of a row whose time alone is wrong, where the times of the extended profile have it; else None."""
    if rule not in MOVED or "--extended" in words:
        return None
    link, (time, line, value) = link_before(data, words, row)
    gap, length = time - link.since, value
    if gap < (0 if link.is_after_break else REST) or rule == "Break" and length < SHORT_BREAK:
        return None
    try:
        link.take(link.since + MOVED[rule], line, max(length, 100_000) if line == b"B" else value)
    except second_replay.Broken:
        return None
    return length if rule == "Break" else gap


def is_asked_again(data, row):
    """Whether the row before this one is RET. Of the controller's words it alone comes right after a device's."""
    before = list(rows_of(data))[max(0, row - 3):row - 1]
    return [line for line, _ in before] == ["S", "M"]


def spared_line(row, rule, blame, micros, is_again):
    """The line of the program on such a row: what is too long is rounded up, and what is too short down."""
    tenths = -(-micros // 100) if rule in ("Late", "Spacing") else micros // 100
    sender = {"controller": "the controller", "other": "a device"}.get(blame, blame)
    did, since = {
        "Early": ("sent a command", " after the row before it"),
        "Late": ("answered", " after the reply" if blame == "controller" else
                 " after the controller asked again" if is_again else " after the command"),
        "Spacing": ("sent a word", " after the word before it"),
        "Break": ("sent a break of", ""),
    }[rule]
    return (f"mdbcheck: row {row}: {sender} {did} {tenths // 10}.{tenths % 10} ms{since}; "
            "--extended counts that and goes on\n")


def is_level_given(words, reader):
    """Whether `--setup` gives the levels of both sides, the controller's and a reader's."""
    told = second_replay.read_setups(values_of(words, "--setup"), set(values_of(words, "--without")), True)
    return reader in told.sent_levels and reader in told.told_levels


def beyond(data, words, row, blame):
    """The line of the program on a row that isn't followed: the device is who sent it, or who the block is to."""
    if "--extended" not in words and blame == "bill":
        why = "bill may report a recycler: add --extended"
    elif "--extended" not in words and blame in READERS.values():
        why = f"{blame} goes beyond feature level 1: add --extended"
    elif "--joined" in words and blame in READERS.values() and not is_level_given(words, blame):
        why = (f"{blame} sends a message that isn't followed, at least while its level isn't known: "
               f"tell it, as in --setup '{blame} level 3' (or leave it out: --without {blame})")
    elif blame == "controller":
        device = DEVICES[last_begun(list(rows_of(data))[:row]) >> 3]
        why = f"the controller sends {device} a command that isn't followed (leave it out: --without {device})"
    else:
        why = f"{blame} sends a message that isn't followed (leave it out: --without {blame})"
    return f"mdbcheck: row {row}: {why}\n"


def members(data, words, row, rule, blame):
    """The members that `check --json` has beside those of any no."""
    micros = spared(data, words, row, rule)
    device = blame if blame != "controller" else DEVICES.get((last_begun(list(rows_of(data))[:row]) or 0) >> 3)
    return {
        "unjudged": unjudged(data, words, row, rule, blame),
        "spared": None if micros is None else {"micros": micros, "after-ret": is_asked_again(data, row)},
        "unfollowed": device if rule == "Profile" else None,
    }


def aside(data, words, report):
    """What the program writes to standard error where its report, as text, is this: one line, or nothing."""
    found = re.match(r"verdict no\nrow (\d+)\nrule (\w+)\nblame (\S+)\n", report)
    if not found or words[0] != "check":
        return ""
    row, rule, blame = int(found[1]), found[2], found[3]
    reader = unjudged(data, words, row, rule, blame)
    if reader:
        return line_of(reader)
    micros = spared(data, words, row, rule)
    if micros is not None:
        return spared_line(row, rule, blame, micros, is_asked_again(data, row))
    return beyond(data, words, row, blame) if rule == "Profile" else ""


if __name__ == "__main__":
    sys.stdout.write(aside(pathlib.Path(sys.argv[1]).read_bytes(), sys.argv[2:], sys.stdin.read()))
