#!/usr/bin/env python3
"""A second reader of the command lines of `mdbcheck` and `mdbimport`, written from what `mdbcheck manual` and
`mdbimport manual` print, and from what docs/bench/ says of options (rows-and-command-line.md, importing.md), of
what --setup tells (extended-profile.md), and of answers to SETUP (commands-and-messages.md).

    tests/second_words.py mdbcheck|mdbimport [WORD]..

prints what the words name. As a module: `named(program, words)` answers a `Task`, a `Help`, VERSION or REFUSED
for words that are bytes. It shares nothing with the programs.
"""

import os
import re
import sys
from typing import NamedTuple, Optional

import second_replay
from second_clock import end_of

DEVICES = ("changer", "bill", "cashless", "cashless-2")
ADDRESSES = {"cashless": 0x10, "cashless-2": 0x60}  # of the readers: the first byte of a RESET

#: Of each program and command: the words that it wants, in brackets where they may be missing, and its options.
COMMANDS = {
    "mdbcheck": {
        "check": ("[FILE]", "--joined --extended --setup --without --json"),
        "survey": ("[FILE]", "--joined --extended --setup --without --json"),
        "show": ("[FILE]", "--extended --joined --setup --without --json"),
        "explain": ("ACCOUNT SIDE BOUND [FILE]", "--extended --without"),
        "replay": ("[FILE]", "--extended --without --json"),
        "manual": ("[COMMAND]", ""),
    },
    "mdbimport": {
        "rows": ("[FILE]", "--unit --controller --peripheral --decimal --from --until"),
        "sigrok": ("[FILE]", "--swap --skip-damaged --from --until"),
        "saleae": ("[FILE]", "--controller --peripheral --break --skip-damaged --from --until"),
        "edges": ("[FILE]", "--unit --controller --peripheral --invert --invert-line --skip-damaged --from --until"),
        "vcd": ("[FILE]", "--controller --peripheral --invert --invert-line --skip-damaged --from --until"),
        "messages": ("[FILE]", "--unit --controller --peripheral --time-of --decimal --from --until"),
        "manual": ("[COMMAND]", ""),
    },
}

FLAGS = ("--joined", "--extended", "--json", "--decimal", "--swap", "--invert", "--skip-damaged")  # they have no value
SEVERAL = ("--setup", "--without")  # they may stand again with another value

#: What the words after `explain` may be.
GOALS = {
    "ACCOUNT": ("coins-in", "bills-in", "paid-out", "approved", "sold", "approved-2", "sold-2"),
    "SIDE": ("device", "controller", "difference"),
    "BOUND": ("least", "greatest"),
}

#: The form of a value. What --setup may say is below, and what --from and --until may say in second_clock.py.
NAME, ANY = "(?![MmSsBb]\\Z)(?s:.+)", "(?s:.*)"
VALUES = {
    "--setup": ANY, "--without": "|".join(DEVICES), "--unit": "s|ms|us|ns", "--controller": NAME, "--peripheral": NAME,
    "--invert-line": ANY, "--time-of": "first|last", "--break": "(?=0*[0-9]{1,9}\\Z)[0-9]{1,18}", "--from": ANY, "--until": ANY,
}
NUMBERS = ("--break", "--from", "--until")


class Task(NamedTuple):
    """What a program is asked to do: a command, the words after it, and the options with their values. A flag
    has True. A number is whole; --without has its devices in the order of DEVICES; --setup has texts, sorted. A
    file is read in place of standard input."""

    command: str
    goal: tuple
    options: dict
    file: Optional[str] = None

    def words(self):
        """The task in one spelling: the options in the order of the manual, each value as a word of its own."""
        words = [self.command, *self.goal]
        for option, value in self.options.items():
            for one in value if option in SEVERAL else [value]:
                words += [option] if one is True else [option, str(one)]
        return words


class Help(NamedTuple):
    """The words ask how a command is called, or without one which commands there are."""

    command: Optional[str]


VERSION, REFUSED = "version", "refused"


class Wrong(Exception):
    """The words are refused."""


def demand(holds):
    """Refuses the words unless something holds."""
    if not holds:
        raise Wrong


def named(program, words):
    """What the words after the program's name are."""
    try:
        texts = [word.decode() for word in words]
        return of_first(program, texts) or of_command(program, texts)
    except (UnicodeDecodeError, Wrong):
        return REFUSED


def of_first(program, words):
    """What the first word asks for, where it isn't the command of a task."""
    demand(words)
    first, rest = words[0], words[1:]
    if first == "--help" or first.startswith("-h"):
        return Help(None)
    if first == "--version" or first.startswith("-V"):
        return VERSION
    if first == "help":
        demand(not rest or len(rest) == 1 and rest[0] in (*COMMANDS[program], "help"))
        return Help(rest[0] if rest and rest[0] != "help" else None)
    demand(first in COMMANDS[program])
    return None


def of_command(program, words):
    """The task of a command and its words, or help on it."""
    command, rest = words[0], list(words[1:])
    wanted, known = (text.split() for text in COMMANDS[program][command])
    plain, given = [], []
    only_plain = False  # after `--`
    while rest:
        word = rest.pop(0)
        if word == "--" and not only_plain:
            only_plain = True
        elif only_plain or word == "-" or not word.startswith("-"):
            plain.append(word)
            demand(len(plain) <= len(wanted))
        elif word == "--help" or word.startswith("-h"):
            return Help(command)
        else:
            given.append(option_of(word, rest, known))
    demand(len(plain) >= sum(one[0] != "[" for one in wanted))
    file = plain.pop() if wanted[-1] == "[FILE]" and len(plain) == len(wanted) else None
    for word, kind in zip(plain, wanted):
        demand(word in GOALS.get(kind, COMMANDS[program]))
    return Task(command, tuple(plain), values_of(command, known, given), None if file == "-" else file)


def option_of(word, rest, known):
    """An option and its value, which may be the first of the rest, and is taken from it then."""
    name, is_in_word, value = word.partition("=")
    demand(name in known)
    if name in FLAGS:
        demand(not is_in_word)
        return name, True
    if not is_in_word:
        demand(rest and (rest[0] == "-" or not rest[0].startswith("-")))
        value = rest.pop(0)
    return name, value


def values_of(command, known, given):
    """What the options say, in the order of the manual."""
    options = {}
    for option in known:
        values = [value for name, value in given if name == option]
        if not values:
            continue
        demand(len(values) == 1 or option in FLAGS + SEVERAL)
        demand(option in FLAGS or all(re.fullmatch(VALUES[option], value) for value in values))
        if option == "--without":
            values = sorted(set(values), key=DEVICES.index)
        first = end_of(values[0]) if option in NUMBERS else values[0]
        demand(first is not None)
        options[option] = values if option in SEVERAL else first
    fit_together(command, options)
    if "--setup" in options:
        left_out, is_extended = options.get("--without", []), "--extended" in options
        options["--setup"] = setups_of(options["--setup"], is_extended, left_out)
    return options


def fit_together(command, options):
    """Refuses options that don't go together."""
    demand("--setup" not in options or "--joined" in options)
    demand(command != "show" or "--joined" not in options or "--extended" in options)
    names = [options[option] for option in ("--controller", "--peripheral") if option in options]
    demand(len(set(names)) == len(names))
    demand(options.get("--invert-line", "M") in ["M", "m", "S", "s", *names])


SETUP = re.compile(
    r"((?P<kind>([0-9]{1,15}-[0-9]{1,15} )?(reply|ask)) )?(?P<device>changer|bill|cashless|cashless-2) "
    r"(level (?P<level>[1-3])|(?P<bytes>[0-9A-F]{2}( [0-9A-F]{2})*))"
)


def setups_of(values, is_extended, left_out):
    """What is said of the devices, each thing once: in the form DEVICE BYTES, or DEVICE level N."""
    things = {}
    for value in values:
        thing, text = setup_of(value, is_extended)
        demand(thing not in things and thing[0] not in left_out)
        things[thing] = text
    return sorted(things.values())


def setup_of(value, is_extended):
    """What a value says: the device with what is said of it, and the value without what may stand before it."""
    found = SETUP.fullmatch(value)
    demand(found and (is_extended or "ask" not in (found["kind"] or "")))
    device, kind = found["device"], found["kind"]
    if found["level"]:
        demand(is_extended and kind is None and device in ADDRESSES)
        return (device, "level"), f"{device} level {found['level']}"
    *content, last = bytes.fromhex(found["bytes"])
    demand(content and sum(content) % 256 == last)
    text = f"{device} {found['bytes']}"
    address = ADDRESSES.get(device)
    if is_extended and address and content[0] in (address + 1, address + 7):
        return (device, block_of(content, address)), text
    demand(is_answer(device, bytes(content), is_extended))
    return (device, "answer"), text


def block_of(content, address):
    """What a block of the controller to a reader shows: its SETUP the level, its ENABLE OPTIONS the options."""
    demand(len(content) == 6 and content[1] == (0 if content[0] == address + 1 else 4))
    if content[1] == 0:
        return "level"
    demand(content[5] & 0x06 == 0)  # money of 32 bits, and several currencies
    return "options"


def is_answer(device, content, is_extended):
    """Whether a device may answer SETUP by these bytes."""
    if device == "changer":
        return 7 <= len(content) <= 23
    if device == "bill":
        return 11 <= len(content) <= 27 and content[10] in (0x00, 0xFF)
    if is_extended:
        messages, fault = second_replay.read_reply(content, None, None, False)
        return len(content) <= 35 and fault is None and any(message[0] == 1 for message in messages)
    return len(content) <= 35 and b"\x01" in first_bytes(content)


def first_bytes(content):
    """The first bytes of the messages of a reader by the base profile; none where it can't answer SETUP by them."""
    lengths, first = {0: 1, 1: 8, 4: 1, 8: 1, 9: 30, 0x0A: 2, 0x0B: 1}, b""
    while content:
        rest = len(content) if 2 <= len(content) <= 34 else None  # of a display request
        length = rest if content[0] == 2 else lengths.get(content[0])
        if length is None or len(content) < length:
            return b""
        first, content = first + content[:1], content[length:]
    return first


if __name__ == "__main__":
    print(named(sys.argv[1], [os.fsencode(word) for word in sys.argv[2:]]))
