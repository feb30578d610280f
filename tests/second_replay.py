#!/usr/bin/env python3
"""A second `mdbcheck replay` and `mdbcheck check`, written from the pages of `docs/` alone.

    second_replay.py [--extended] [--without DEVICE].. < EXPLANATION
    second_replay.py --check [--joined [--setup VALUE]..] [--extended] [--without DEVICE].. < RECORDING

The first reads the marks and rows of an explanation, follows the one run that has these marks and no others,
and prints what `mdbcheck replay` prints: the report of a yes (status 0), the four lines of a no (status 1),
or a line on standard error (status 2). The second follows all runs at once, and prints what `mdbcheck check`
prints. It shares no code, no tables and no definitions with `mdbcheck`; so where both agree, they agree
because the pages say so.

    replay(text, without, extended) -> (status, out, err)
    check(text, without, extended, setups) -> (status, out, err)
    fewest_marks(text, without, extended, account, side, end) -> int

are the same as functions, and how many marks an explanation has; `setups` has the values of `--setup`, and is `None` from power-on. What stands on
standard error after the word of a row that isn't one (`wanted .., found ..`), and after a fault of the words
(`usage: ..`), isn't made here. Nor is what `check` says there of a no by which nobody did wrong.

The parts, and the page of `docs/` that each follows:

    records, rows and marks     rows-and-command-line.md, *The recording* and *Explanations*
    commands, messages          commands-and-messages.md
    the link                    bus.md, *What a bus may do*, *Times*, *The rules*
    the machines                machines.md
    silences, the report        report.md, *The report*
    what `--extended` changes   extended-profile.md
    what `--joined` changes     recorded-while-it-ran.md; extended-profile.md, *A machine that was running*
"""

import functools
import itertools
import re
import sys
from typing import Iterator, NamedTuple, Optional

import second_times as times

CONTROLLER = "controller"
CHANGER = "changer"
BILL = "bill"
CASHLESS = "cashless"
CASHLESS_2 = "cashless-2"
OTHER = "other"

#: The devices, in the order of the report.
DEVICES = (CHANGER, BILL, CASHLESS, CASHLESS_2)
READERS = (CASHLESS, CASHLESS_2)
#: Whose rows can be untimely, in the order of the report.
SENDERS = (CONTROLLER, *DEVICES)
#: The accounts in the order of the report: whose each is, and its name in the machine.
ACCOUNTS = {
    "coins-in": (CHANGER, "coins_in"),
    "bills-in": (BILL, "bills_in"),
    "paid-out": (CHANGER, "paid_out"),
    "approved": (CASHLESS, "approved"),
    "sold": (CASHLESS, "sold"),
    "approved-2": (CASHLESS_2, "approved"),
    "sold-2": (CASHLESS_2, "sold"),
}

#: The greatest number of rows, and of marks.
MOST_ROWS = 100_000_000


class NoAnswer(Exception):
    """There is no answer: status 2. The text is what follows `mdbcheck: ` on standard error."""


class Broken(Exception):
    """A row breaks a rule: status 1."""

    def __init__(self, rule: str, blame: str):
        super().__init__(rule, blame)
        self.rule = rule
        self.blame = blame


# ------------------------------------------------------------------------------------------------------
# Records (rows-and-command-line.md, *The recording*)
# ------------------------------------------------------------------------------------------------------

#: One field and what ends it. A quote counts where it is the first byte of the field; two quotes inside are
#: one; one that isn't closed goes on to the end of the text. Bytes after the closing quote belong to the
#: field, and a quote among them is a byte like any.
_FIELD = re.compile(rb'(?:"([^"]*(?:""[^"]*)*)(?:"|\Z))?([^,\r\n]*)(,|[\r\n]|\Z)')


def records(text: bytes) -> Iterator[list[bytes]]:
    """The records of a text, each as its fields.

    A line ends in LF, CR LF or CR, the last one may lack its end, and a blank line is no record. A byte
    order mark at the very start is dropped.
    """
    if text.startswith(b"\xef\xbb\xbf"):
        text = text[3:]
    if b'"' in text:
        yield from _records_with_quotes(text)
        return
    for line in text.replace(b"\r", b"\n").split(b"\n"):
        if line:
            yield line.split(b",")


def _records_with_quotes(text: bytes) -> Iterator[list[bytes]]:
    """The records of a text in which there are quotes. (The byte order mark is gone.)"""
    at, end = 0, len(text)
    while at < end:
        if text[at] in b"\r\n":
            at += 1
            continue
        fields = []
        while True:
            found = _FIELD.match(text, at)
            quoted, rest, stop = found.groups()
            fields.append(rest if quoted is None else quoted.replace(b'""', b'"') + rest)
            at = found.end()
            if stop != b",":
                break
        yield fields


# ------------------------------------------------------------------------------------------------------
# Rows and marks (rows-and-command-line.md, *The recording*, *Traps*, *Explanations*)
# ------------------------------------------------------------------------------------------------------


def _spellings(byte: int) -> set[str]:
    """The ways to write a byte as two hexadecimal digits of either case."""
    high, low = f"{byte:02x}"
    return {a + b for a in (high, high.upper()) for b in (low, low.upper())}


#: The nine bits of each word, by each of its spellings.
WORDS = {
    f"{mode}{digits}".encode(): mode << 8 | byte
    for mode in (0, 1)
    for byte in range(0x100)
    for digits in _spellings(byte)
}


def is_number(field: bytes, most_digits: int) -> bool:
    """Whether a field is 1 to so many decimal digits."""
    return field.isdigit() and len(field) <= most_digits


def read_row(fields: list[bytes], record: int) -> tuple[int, bytes, int]:
    """Time, line and value of a row; the value is the word, or at `B` the length of the break."""
    if len(fields) != 3:
        raise NoAnswer(f"row {record}: FieldCount")
    time, line, value = fields
    if not is_number(time, 18):
        raise NoAnswer(f"row {record}: BadTime")
    if line == b"M" or line == b"S":
        word = WORDS.get(value)
        if word is None:
            raise NoAnswer(f"row {record}: BadValue")
        return int(time), line, word
    if line != b"B":
        raise NoAnswer(f"row {record}: BadLine")
    if not is_number(value, 9):
        raise NoAnswer(f"row {record}: BadValue")
    return int(time), line, int(value)


def no_such_mark(row: int) -> NoAnswer:
    return NoAnswer(f"no such mark may stand at row {row}")


class Marks:
    """The marks in front of the rows, in their order: `ROW,L,-`, `ROW,R,-` and `ROW,C,-`. (Without `--extended`
    no row takes a `C`.)

    They are read before the first row, and then taken off one by one as their rows are read.
    """

    LETTERS = b"L", b"R", b"C"

    def __init__(self):
        self.marks: list[tuple[int, str]] = []
        self.taken = 0
        #: The row of the next mark that isn't taken off; 0 where there is none.
        self.next_row = 0

    def is_mark(self, fields: list[bytes]) -> bool:
        return len(fields) == 3 and fields[1] in self.LETTERS

    def read(self, fields: list[bytes], record: int):
        """Takes a mark that stands before the first row."""
        if len(self.marks) == MOST_ROWS:
            raise NoAnswer(f"more than {MOST_ROWS} rows")
        number, letter, dash = fields
        if not is_number(number, 15):
            raise NoAnswer(f"row {record}: BadTime")
        if dash != b"-":
            raise NoAnswer(f"row {record}: BadValue")
        row = int(number)
        if row <= (self.marks[-1][0] if self.marks else 0):
            raise no_such_mark(row)
        self.marks.append((row, letter.decode()))
        self.next_row = self.marks[self.taken][0]

    def take_off(self) -> str:
        """The letter of the next mark, which is taken off."""
        letter = self.marks[self.taken][1]
        self.taken += 1
        self.next_row = self.marks[self.taken][0] if self.taken < len(self.marks) else 0
        return letter


# ------------------------------------------------------------------------------------------------------
# Commands (commands-and-messages.md, *Commands*)
# ------------------------------------------------------------------------------------------------------


class Command(NamedTuple):
    """A kind of command to one device."""

    device: str
    name: str
    #: Bytes of the whole block, the sum among them.
    length: int
    #: How many bytes, without the sum, a data block in answer has; at most 0 where it may have none.
    least_data: int
    most_data: int


#: What begins with this byte is outside of the profile.
PROFILE = "Profile"

#: Commands that are longer with money of 32 bits.
_WITH_AMOUNTS = ("SETUP prices", "VEND REQUEST", "CASH SALE")
_TRANSACTIONS = ("VEND REQUEST", "VEND CANCEL", "VEND SUCCESS", "VEND FAILURE", "SESSION COMPLETE")


def _changer_and_bill_openings() -> dict:
    def changer(name, length, least=0, most=0):
        return Command(CHANGER, name, length, least, most)

    def bill(name, length, least=0, most=0):
        return Command(BILL, name, length, least, most)

    return {
        0x08: changer("RESET", 2),
        0x09: changer("SETUP", 2, 7, 23),
        0x0A: changer("TUBE STATUS", 2, 2, 18),
        0x0B: changer("POLL", 2, 1, 16),
        0x0C: changer("COIN TYPE", 6),
        0x0D: changer("DISPENSE", 3),
        0x0E: PROFILE,
        0x0F: {
            0x00: changer("EXPANSION", 3, 33, 33),
            0x01: changer("EXPANSION", 7),
            0x02: PROFILE,
            0x03: PROFILE,
            0x04: PROFILE,
        },
        0x30: bill("RESET", 2),
        0x31: bill("SETUP", 2, 11, 27),
        0x32: bill("SECURITY", 4),
        0x33: bill("POLL", 2, 1, 16),
        0x34: bill("BILL TYPE", 6),
        0x35: bill("ESCROW", 3),
        0x36: bill("STACKER", 2, 2, 2),
        0x37: {
            0x00: bill("EXPANSION", 3, 29, 29),
            0x01: bill("EXPANSION", 7),
            0x02: bill("EXPANSION", 3, 33, 33),
        },
    }


#: The option bits that aren't followed, in the last byte of ENABLE OPTIONS.
_OPTIONS_OF_PROFILE = 0x02 | 0x04


def _reader_openings(device: str, address: int, extended: bool) -> dict:
    def reader(name, length):
        return Command(device, name, length, 1, 35)

    def rest_is_profile(known):
        return {sub: known.get(sub, PROFILE) for sub in range(0x100)}

    expansions = {0: reader("EXPANSION", 32)}
    if extended:
        expansions[4] = reader("ENABLE OPTIONS", 7)
    return {
        address: reader("RESET", 2),
        address + 1: rest_is_profile({0: reader("SETUP config", 7), 1: reader("SETUP prices", 7)}),
        address + 2: reader("POLL", 2),
        address + 3: rest_is_profile({
            0: reader("VEND REQUEST", 7),
            1: reader("VEND CANCEL", 3),
            2: reader("VEND SUCCESS", 5),
            3: reader("VEND FAILURE", 3),
            4: reader("SESSION COMPLETE", 3),
            5: reader("CASH SALE", 7),
        }),
        address + 4: rest_is_profile({
            0: reader("READER DISABLE", 3),
            1: reader("READER ENABLE", 3),
            2: reader("READER CANCEL", 3),
        }),
        address + 5: PROFILE,
        address + 6: PROFILE,
        address + 7: expansions,
    }


def openings_without(without: set[str], extended: bool) -> dict:
    """What a block to a device that is followed may begin with: by its first byte a command, `PROFILE`, or,
    by its second byte, commands and `PROFILE`. What isn't there is foreign."""
    openings = {
        **_changer_and_bill_openings(),
        **_reader_openings(CASHLESS, 0x10, extended),
        **_reader_openings(CASHLESS_2, 0x60, extended),
    }
    addresses = {CHANGER: 0x08, BILL: 0x30, CASHLESS: 0x10, CASHLESS_2: 0x60}
    for device in without:
        for byte in range(addresses[device], addresses[device] + 8):
            del openings[byte]
    return openings


# ------------------------------------------------------------------------------------------------------
# Messages (commands-and-messages.md, *Answers* of each device)
# ------------------------------------------------------------------------------------------------------

#: In the place of a length: no message at all.
NO_MESSAGE = "Message"


def _changer_message_lengths() -> list:
    lengths: list = [1] * 0x40 + [2] * 0x20 + [NO_MESSAGE] * 0x10 + [2] * 0x90
    lengths[0x1B:0x20] = [PROFILE] * 5
    return lengths


def _bill_message_lengths(extended: bool) -> list:
    lengths: list = [1] * 0x60 + [NO_MESSAGE] * 0x20 + [1] * 0x80
    lengths[0x1B:0x20] = [PROFILE] * 5
    if not extended:
        lengths[0xB0:0xC0] = [PROFILE] * 0x10
        lengths[0xD0:] = [PROFILE] * 0x30
    return lengths


#: By the first byte of a message how long it is, or the rule that it breaks. Where it depends on the bytes that
#: are left in the block, that is said of these.
_CHANGER_MESSAGES = _changer_message_lengths()
_BILL_MESSAGES = {extended: _bill_message_lengths(extended) for extended in (False, True)}
#: In the place of a length: the rest of the block, a time and up to 32 bytes of text.
_DISPLAY = len
READER_MESSAGES = [1, 8, _DISPLAY, 3, 1, 3, 1, 1, 1, 30, 2, 1] + [PROFILE] * 0xF4


# With the extended profile.

def _id_with_options(rest: bytes) -> int:
    """An ID, which has options where there are bytes enough."""
    return 34 if len(rest) >= 34 else 30


def _id_without_options(rest: bytes) -> int:
    """An ID, which has options only where they begin with 00."""
    return 34 if len(rest) >= 34 and rest[30] == 0 else 30


def _status_if_any(rest: bytes) -> int:
    return min(len(rest), 2)


def _messages_of(is_long: bool, has_options: bool) -> list:
    """The messages of a reading: a short one or a long one, whose IDs have options or mostly not."""
    lengths: list = [*READER_MESSAGES]
    lengths[0x09] = _id_with_options if has_options else _id_without_options
    if is_long:
        lengths[0x03], lengths[0x0B], lengths[0x11] = 10, _status_if_any, 1
    return lengths


READINGS = {(is_long, has): _messages_of(is_long, has) for is_long in (True, False) for has in (True, False)}


#: Messages, and the rule that the first one breaks that can't be taken.
Reading = tuple[list[bytes], Optional[str]]


def read_messages(content: bytes, lengths: list) -> Reading:
    """The messages of a data block in one reading."""
    messages = []
    at, end = 0, len(content)
    while at < end:
        length = lengths[content[at]]
        if isinstance(length, str):
            return messages, length
        if callable(length):
            is_display, length = length is _DISPLAY, length(content[at:])
            if is_display and not 2 <= length <= 34:
                return messages, NO_MESSAGE
        if at + length > end:
            return messages, NO_MESSAGE
        messages.append(content[at:at + length])
        at += length
    return messages, None


def read_reply(content: bytes, sent: Optional[int], own: Optional[int], joined: bool) -> Reading:
    """The messages of a reader's reply, by the levels of the controller and of the reader, if they are known."""
    levels = [level for level in (sent, own) if level is not None]
    if joined and len(levels) < 2 and all(level >= 2 for level in levels):
        return open_reading([read_messages(content, lengths) for lengths in READINGS.values()])
    has_options = all(level >= 3 for level in levels) if len(levels) == 2 else all(level >= 2 for level in levels)
    long, short = (read_messages(content, READINGS[is_long, has_options]) for is_long in (True, False))
    if len(levels) == 2 and min(levels) >= 2:
        return first_reading([long, short])
    return short if own is not None and own < 2 else first_reading([short, long])


def first_reading(readings: list[Reading]) -> Reading:
    """The first one without a fault; where each has one, the first."""
    return next((one for one in readings if one[1] is None), readings[0])


def open_reading(readings: list[Reading]) -> Reading:
    """How an open reply is read, by all its readings."""
    held = [one for one in readings if one[1] is None]
    if not held:
        return [], PROFILE if any(rule == PROFILE for _, rule in readings) else NO_MESSAGE
    if any(what_counts(one[0]) != what_counts(held[0][0]) for one in held):
        return [], PROFILE
    return held[0]


def what_counts(messages: list[bytes]) -> tuple:
    """What two readings of an open reply have to say the same of: some of their messages, whether one is 0B, and
    whether the reply may have the mark `R`."""
    counting = [m for m in messages if m[0] in (0x00, 0x01, 0x05, 0x06)]
    first = next((m[0] for m in messages if m[0] == _RESET or m[0] in _SESSION_MESSAGES), None)
    return counting, any(m[0] == _OUT_OF_SEQUENCE for m in messages), first == _RESET


#: The messages of a session and a sale.
_SESSION_MESSAGES = frozenset((0x03, 0x05, 0x06, 0x07))
_RESET, _CONFIG, _APPROVED, _DENIED = 0x00, 0x01, 0x05, 0x06
_OUT_OF_SEQUENCE = 0x0B


def has_messages(command: Command) -> bool:
    """Whether the data in answer to a command is a list of messages."""
    return command.device in READERS or command.name == "POLL"


# ------------------------------------------------------------------------------------------------------
# The link (bus.md, *What a bus may do*, *Times*, *The rules*)
# ------------------------------------------------------------------------------------------------------

MOST_WORDS = 36
#: From when gaps count at the first row: nothing is too early there.
LONG_AGO = -times.BASE[times.AFTER_BREAK].least

#: The positions of the bus.
QUIET, IN_COMMAND, ASKED, IN_DATA, REPLIED, RETURNED, IN_REPEAT, FOREIGN = range(8)

_ACK, _NAK, _RET = 0x100, 0x1FF, 0x0AA
_VMC_ANSWERS = {0x000: "vmc-ack", 0x0FF: "vmc-nak", _RET: "vmc-ret"}


class Act(NamedTuple):
    """What ends at a row, as far as a device goes by it. (Foreign acts and tails change nothing.)"""

    kind: str  # ask, ack, nak, reply, vmc-ack, vmc-nak, vmc-ret, repeat, break
    command: Optional[Command] = None
    #: The bytes of the command, without the sum.
    asked: bytes = b""
    #: Of a reply: its bytes, without the sum, and its messages, if its answer has such.
    content: bytes = b""
    messages: tuple = ()


class Told:
    """What is known of a machine that was running (*With the setup data*, *What you can give for a reader*)."""

    def __init__(self, extended: bool):
        #: Who is named in the line `setup`.
        self.named: set[str] = set()
        #: The setup data: an answer to SETUP, of a reader its config message.
        self.setup: dict[str, bytes] = {}
        #: Of each reader the levels of the controller and of the reader.
        self.sent_levels: dict[str, int] = {}
        self.told_levels: dict[str, int] = {}
        #: The readers whose options are known. (Without `--extended` there are none to know.)
        self.options: set[str] = set() if extended else set(READERS)


class Link:
    """The bus as the rows so far leave it. `take` judges the next row by the rules of the link.

    `told` says what is known of a machine that was running; it is `None` from power-on.
    """

    def __init__(self, without: set[str], extended: bool, told: Optional[Told] = None):
        self.extended = extended
        self.joined = told is not None
        self.openings = openings_without(without, extended)
        self.position = FOREIGN if self.joined else QUIET
        #: When the last row started, and from when gaps count: that, or the end of a break.
        self.started = -1
        self.since = LONG_AGO
        self.is_after_break = False
        #: Whether nothing was answered since the controller began its last block, or sent RET.
        self.is_unanswered = False
        #: Whether it began the last block before the time to answer was over.
        self.is_before_its_time = False
        #: For whom the last row is untimely, if it is.
        self.untimely: Optional[str] = None
        #: The device of the last whole command, since a break or a foreign opening: it is blamed for row S.
        self.device: Optional[str] = None
        #: What is open: what the command may be, its bytes so far (at the end without the sum); the words
        #: of the data block, and how many of them the repeat has.
        self.command = None
        self.asked = bytearray()
        self.words: list[int] = []
        self.repeated = 0
        #: The levels that were shown of each reader: in the last SETUP config data that it was sent, and in
        #: the last config message that it told.
        self.sent_levels = dict(told.sent_levels) if told else {}
        self.told_levels = dict(told.told_levels) if told else {}
        #: The readers whose options aren't known (*What isn't known*).
        self.options_unknown = set(READERS) - told.options if told else set()

    def take(self, time: int, line: bytes, value: int) -> Optional[Act]:
        """The act that the row ends, if one."""
        if time <= self.started:
            raise Broken("Order", self._sender(line))
        gap, self.untimely = time - self.since, None
        if line == b"B":
            return self._break(time, gap, value)
        word = self._controller_word if line == b"M" else self._peripheral_word
        try:
            act = word(gap, value)
        except Broken as broken:
            raise self.blamed(broken, line) from None
        self.started = self.since = time
        self.is_after_break = False
        is_to_answer = value > 0xFF or value == _RET or self.is_unanswered
        self.is_unanswered = line == b"M" and is_to_answer
        return act

    def blamed(self, broken: Broken, line: bytes) -> Broken:
        """What a fault of a word is: after a block that came before its time the controller's, mostly."""
        is_own = line == b"M" and broken.blame == CONTROLLER
        if not self.is_before_its_time or is_own or broken.rule == PROFILE:
            return broken
        return Broken("Early", CONTROLLER)

    def _sender(self, line: bytes) -> str:
        return (self.device or OTHER) if line == b"S" else CONTROLLER

    # -- breaks

    def _break(self, time: int, gap: int, length: int) -> Act:
        self._in_time(gap, times.FROM_BREAK_TO_BREAK if self.is_after_break else times.BETWEEN_WORDS, CONTROLLER)
        self._in_time(length, times.BREAK_LENGTH, CONTROLLER)
        self.started = time
        self.since = time + length
        self.is_after_break, self.is_unanswered, self.is_before_its_time = True, False, False
        self.position = QUIET
        self.device = None
        self.options_unknown.clear()
        return Act("break")

    # -- words of the controller

    def _controller_word(self, gap: int, word: int) -> Optional[Act]:
        position = self.position
        marked = word > 0xFF
        if position == IN_COMMAND:
            if marked:
                raise Broken("Mode", CONTROLLER)
            self._in_time(gap, times.IN_BLOCK, CONTROLLER)
            return self._further_of_command(word)
        if position == IN_DATA or position == IN_REPEAT:
            if gap <= times.BASE[times.IN_BLOCK].most:
                raise Broken("Speaker", CONTROLLER)
            raise Broken("Spacing", self.device)
        if marked:
            self._next_block_in_time(gap)
            self._begin_block(word & 0xFF)
            return None
        if position == REPLIED:
            self._in_time(gap, times.TO_ANSWER, CONTROLLER)
            return self._answer_of_controller(word)
        if position == FOREIGN:
            self._in_time(gap, times.BETWEEN_WORDS, CONTROLLER)
            return None
        may_go_on = position == ASKED and self._may_be_longer(self.command)
        raise Broken(PROFILE if may_go_on else "Mode", CONTROLLER)

    def _next_block_in_time(self, gap: int):
        awaits = self.position in (ASKED, REPLIED, RETURNED)
        kind = times.AFTER_BREAK if self.is_after_break else times.BETWEEN_WORDS
        self._in_time(gap, times.TO_NEXT_BLOCK if awaits else kind, CONTROLLER)
        is_soon = times.is_untimely(gap, times.TO_NEXT_BLOCK)
        self.is_before_its_time = self.extended and self.is_unanswered and is_soon

    def _begin_block(self, first: int):
        opening = self.openings.get(first)
        if opening is None:
            self._open_foreign()
        elif opening is PROFILE:
            raise Broken("Profile", CONTROLLER)
        else:
            self.position = IN_COMMAND
            self.command = opening
            self.asked = bytearray((first,))

    def _open_foreign(self):
        self.position = FOREIGN
        self.device = None

    def _further_of_command(self, byte: int) -> Optional[Act]:
        command = self.command
        if isinstance(command, dict):  # this is the second byte, and says which command it is
            command = self.command = command.get(byte)
            if command is None:
                self._open_foreign()
                return None
            if command is PROFILE:
                raise Broken("Profile", CONTROLLER)
        asked = self.asked
        if len(asked) + 1 < command.length:
            asked.append(byte)
            return None
        if sum(asked) & 0xFF != byte:
            raise Broken(PROFILE if self._may_be_longer(command) else "Sum", CONTROLLER)
        self.position = ASKED
        self.device = command.device
        if command.name == "ENABLE OPTIONS" and asked[-1] & _OPTIONS_OF_PROFILE:
            raise Broken(PROFILE, CONTROLLER)
        if command.name == "SETUP config":
            self.sent_levels[command.device] = asked[2]
        return Act("ask", command, bytes(asked))

    def _may_be_longer(self, command: Command) -> bool:
        """Whether a command may have amounts of 32 bits, by what is known of the reader's options."""
        return command.name in _WITH_AMOUNTS and not self._are_options_known(command.device)

    def _accepted(self, command: Command):
        if command.name in ("RESET", "ENABLE OPTIONS"):
            self.options_unknown.discard(command.device)

    def _answer_of_controller(self, word: int) -> Act:
        kind = _VMC_ANSWERS.get(word)
        if kind is None:
            raise Broken("Answer", CONTROLLER)
        self.position = RETURNED if kind == "vmc-ret" else QUIET
        return Act(kind, self.command)

    # -- words of peripherals

    def _peripheral_word(self, gap: int, word: int) -> Optional[Act]:
        position = self.position
        if position == IN_DATA:
            self._in_time(gap, times.IN_BLOCK, self.device)
            return self._further_of_data(word)
        if position == ASKED:
            self._in_time(gap, times.TO_ANSWER, self.device)
            return self._answer_of_peripheral(word)
        if position == RETURNED:
            self._in_time(gap, times.TO_ANSWER, self.device)
            self.position = IN_REPEAT
            self.repeated = 0
            return self._word_of_repeat(word)
        if position == IN_REPEAT:
            self._in_time(gap, times.IN_BLOCK, self.device)
            return self._word_of_repeat(word)
        if position == FOREIGN:
            self._in_time(gap, times.BETWEEN_WORDS, OTHER)
            return None
        raise Broken("Speaker", self._sender(b"S"))

    def _answer_of_peripheral(self, word: int) -> Optional[Act]:
        if word == _ACK or word == _NAK:
            self.position = QUIET
            if word == _ACK:
                self._accepted(self.command)
            return Act("ack" if word == _ACK else "nak", self.command, bytes(self.asked))
        if word > 0xFF or self.command.most_data == 0:
            raise Broken("Answer", self.device)
        self.position = IN_DATA
        self.words = [word]
        return None

    def _further_of_data(self, word: int) -> Optional[Act]:
        words = self.words
        words.append(word)
        if word <= 0xFF:
            if len(words) == MOST_WORDS:
                raise Broken("Length", self.device)
            return None
        content = bytes(words[:-1])
        messages = self.judge_data(content, word & 0xFF)
        self.position = REPLIED
        return Act("reply", self.command, bytes(self.asked), content, tuple(messages))

    def judge_data(self, content: bytes, last: int) -> list[bytes]:
        """Judges a whole data block (commands-and-messages.md, *In which order*): its messages."""
        command = self.command
        device = command.device
        if not command.least_data <= len(content) <= command.most_data:
            raise Broken("Length", device)
        if sum(content) & 0xFF != last:
            raise Broken("Sum", device)
        if not has_messages(command):
            if device == BILL and command.name == "SETUP" and content[10] not in (0x00, 0xFF):
                raise Broken("Message", device)
            return []
        messages, rule = self._read_answer(content)
        if rule is not None:
            is_other = rule == NO_MESSAGE and not self._are_options_known(device)
            raise Broken(PROFILE if is_other else rule, device)
        if device in READERS:
            self._judge_list(messages)
        return messages

    def _judge_list(self, messages: list[bytes]):
        """Judges the messages of a reader that were read."""
        device = self.command.device
        levels = [m[1] for m in messages if m[0] == _CONFIG]
        if not self.extended and self.sent_levels.get(device, 0) >= 2 and any(level >= 2 for level in levels):
            raise Broken(PROFILE, device)
        if levels:
            self.told_levels[device] = levels[-1]
        if all(m[0] != _OUT_OF_SEQUENCE for m in messages):
            self._accepted(self.command)

    def _read_answer(self, content: bytes) -> Reading:
        """The messages of a data block, in the format that they have."""
        device = self.command.device
        if device == CHANGER:
            return read_messages(content, _CHANGER_MESSAGES)
        if device == BILL:
            return read_messages(content, _BILL_MESSAGES[self.extended])
        if not self.extended:
            return self._read_in_base(content)
        return read_reply(content, self.sent_levels.get(device), self.told_levels.get(device), self.joined)

    def _are_options_known(self, device: str) -> bool:
        """Whether they are, or the level is below 3."""
        levels = [known[device] for known in (self.sent_levels, self.told_levels) if device in known]
        return device not in self.options_unknown or len(levels) == 2 and min(levels) < 3

    def _read_in_base(self, content: bytes) -> Reading:
        """A list of a reader by the base profile."""
        messages, rule = read_messages(content, READER_MESSAGES)
        if rule is None:
            session_may_be_told = self.command.name == "POLL" or self.command.name in _TRANSACTIONS
            if not session_may_be_told and any(m[0] in _SESSION_MESSAGES for m in messages):
                rule = "Answer"
        return messages, rule

    def _word_of_repeat(self, word: int) -> Optional[Act]:
        if word != self.words[self.repeated]:
            raise Broken("Same", self.device)
        self.repeated += 1
        if self.repeated < len(self.words):
            return None
        self.position = REPLIED
        return Act("repeat", self.command)

    # -- times

    def _in_time(self, time: int, kind: str, sender: str):
        """Judges a time; one beyond a limit that is a remark is the sender's."""
        rule = times.broken_by(time, kind, self.extended)
        if rule is not None:
            raise Broken(rule, sender)
        if times.is_untimely(time, kind):
            self.untimely = sender


# ------------------------------------------------------------------------------------------------------
# The machines (machines.md)
# ------------------------------------------------------------------------------------------------------


class Impossible(Exception):
    """The act can't have been, as it is marked."""


#: What was said before the first row of a recording with `--joined`. It may be anything, at each row anew.
UNKNOWN = object()


class Guess(NamedTuple):
    """One of the ways in which an act can have gone: what is chosen, and what isn't known."""

    #: The mark of the act: L, R, C or none.
    mark: str = ""
    #: Whether the command is the same as the last one of its kind.
    is_same: bool = False
    #: How many messages the last kept list has; by the extended profile, how many 05s the last reply with one.
    held: int = 0
    #: Whether the controller awaits the approval that it acknowledges.
    is_awaited: bool = False


class Sum(NamedTuple):
    """An account in the runs that come to one state: the least and the greatest that the device's book says,
    the controller's, and the difference. In one run alone they are equal."""

    device: tuple = (0, 0)
    controller: tuple = (0, 0)
    difference: tuple = (0, 0)

    def plus(self, device: int = 0, controller: int = 0) -> "Sum":
        steps = (device, controller, device - controller)
        return Sum(*((least + step, greatest + step) for (least, greatest), step in zip(self, steps)))

    def joined(self, other: "Sum") -> "Sum":
        return Sum(*((min(a[0], b[0]), max(a[1], b[1])) for a, b in zip(self, other)))

    def line(self, name: str) -> str:
        sides = zip(self._fields, self)
        return name + "".join(f" {side} {least}..{greatest}" for side, (least, greatest) in sides)


class Machine:
    """A device and the controller's part in its acts.

    `break_off`, `ask`, `ack`, `reply` and `vmc_ack` are the acts; `Impossible` is raised where one
    can't have been. RET, NAK and repeats change nothing.
    """

    #: The rule of an act that can't have been, and the first byte of the reset message.
    rule = ""
    reset_message = -1
    #: What differs between runs, with all that it may be; and the accounts. All else is the same in all runs.
    varies: dict[str, tuple] = {}
    accounts: tuple = ()
    #: What is looked for, if anything is: an account, a side, and the sign by which more of it is better. How much
    #: of that the best run to this state has; and of several such runs, the least marks, below 0.
    goal: Optional[tuple[str, str, int]] = None
    best = (0, 0)

    def __init__(self, name: str, told: Optional[Told], extended: bool):
        self.joined, self.extended = told is not None, extended
        self.setup = told.setup.get(name) if told else None
        self.unvalued = 0

    def unless_joined(self, known):
        """What is known from power-on alone."""
        return UNKNOWN if self.joined else known

    def copy(self, **changes) -> "Machine":
        other = object.__new__(type(self))
        other.__dict__.update(self.__dict__, **changes)
        return other

    def at_start(self) -> list["Machine"]:
        """The states in which the device can be at the first row."""
        if not self.joined:
            return [self]
        values = itertools.product(*self.varies.values())
        return [self.copy(**dict(zip(self.varies, one))) for one in values]

    def place(self) -> tuple:
        """The state: all that varies, as far as it matters."""
        raise NotImplementedError

    def join(self, other: "Machine"):
        """Joins the sums of another run that came to the same state to these."""
        for account in self.accounts:
            setattr(self, account, getattr(self, account).joined(getattr(other, account)))
        self.best = max(self.best, other.best)

    def goes_on(self, before: "Machine", mark: str):
        """This state is the next after another one, by an act with this mark."""
        value, marks = before.best
        if self.goal:
            account, side, sign = self.goal
            value += sign * (getattr(getattr(self, account), side)[0] - getattr(getattr(before, account), side)[0])
        self.best = value, marks - bool(mark)

    def is_kept(self, message: bytes) -> bool:
        raise NotImplementedError

    def letters(self, messages: tuple) -> tuple:
        """The marks that a reply may have."""
        return ("R",) if self.may_tell_restart(messages) else ()

    def may_tell_restart(self, messages: tuple) -> bool:
        """Whether a reply may have the mark `R`: it has a reset message, and no kept one in front of it."""
        for message in messages:
            if message[0] == self.reset_message:
                return True
            if self.is_kept(message):
                return False
        return False

    def guesses(self, act: Act, marks: list[str]) -> list[Guess]:
        """The ways in which an ask, an ack, a reply or a vmc-ack can have gone, by what was said before it."""
        raise NotImplementedError

    def break_off(self):
        raise NotImplementedError

    def ask(self, act: Act, guess: Guess):
        """The controller sends a command."""

    def ack(self, act: Act, guess: Guess):
        """The device answers with ACK."""

    def reply(self, act: Act, guess: Guess):
        """The device answers with data."""

    def vmc_ack(self, act: Act, guess: Guess):
        """The controller acknowledges the last reply."""


class Device(Machine):
    """*What was said before*, *What all devices do*."""

    def __init__(self, name: str, told: Optional[Told], extended: bool):
        super().__init__(name, told, extended)
        self.reset_owed = not self.joined
        #: The last kept list, and whether the device holds it.
        self.kept = self.unless_joined([])
        self.holds = False
        #: The last reply: the command that it answers, the messages, and the kept ones among them.
        self.replied_to: Optional[Command] = None
        self.told: tuple = ()
        self.told_kept: list[bytes] = []

    def guesses(self, act, marks):
        if act.kind == "vmc-ack":
            return [Guess(mark) for mark in marks]
        kept = [m for m in act.messages if self.is_kept(m)]
        helds = range(1, max(len(kept), 1) + 1) if self.kept is UNKNOWN else (len(self.kept),)
        return [Guess(*one) for one in itertools.product(marks, self.sames(act), helds)]

    # What differs between the devices.

    def are_same(self, one: list[bytes], other: list[bytes]) -> bool:
        """Whether two lists of kept messages are the same."""
        return one == other

    def to_power_on(self):
        """The device's own state, as at power-on."""
        self.holds = False

    def forget(self):
        """What a break and a RESET that is taken end of what was said before."""
        self.reset_owed = True

    def controller_to_power_on(self):
        """The controller's part, as at power-on."""

    def sames(self, act: Act) -> tuple:
        """Whether the command is the same as the last one of its kind: all that is possible."""
        return (False,)

    def is_unvalued(self, message: bytes) -> bool:
        """Whether a message tells an amount that has no value."""
        raise NotImplementedError

    def take_command(self, act: Act, guess: Guess):
        """The effect of a command that the device takes, on the device."""

    def answer_heard(self, command: Command):
        """The effect of an ACK that the controller heard."""

    def learn(self, command: Command, content: bytes, messages: tuple):
        """The setup data that a reply tells."""

    def tell(self, message: bytes):
        """A new kept message, and its effect."""
        raise NotImplementedError

    def after_reply(self):
        """What a reply tells further, after its effect."""

    def acknowledged(self):
        """What the controller makes of the last reply as it acknowledges it."""

    # What is the same for all.

    def takes(self, messages: tuple) -> bool:
        """Whether a reply with these messages takes the command."""
        return True

    def break_off(self):
        self.to_power_on()
        self.forget()
        self.controller_to_power_on()

    def ack(self, act: Act, guess: Guess):
        command = act.command
        if command.name == "POLL" and self.holds:
            raise Impossible
        self.take_command(act, guess)
        if guess.mark != "L":
            self.answer_heard(command)

    def reply(self, act: Act, guess: Guess):
        command, messages = act.command, act.messages
        if guess.mark == "R":
            self.to_power_on()
        if self.takes(messages):
            self.take_command(act, guess)
        self.learn(command, act.content, messages)
        kept = [m for m in messages if self.is_kept(m)]
        if kept and self.reset_owed and not self.may_tell_restart(messages):
            raise Impossible
        if kept or command.name == "POLL":
            for message in self.new_ones(kept, guess.held):
                self.tell(message)
        if kept:
            self.kept = kept
            self.holds = True
        if any(m[0] == self.reset_message for m in messages):
            self.reset_owed = False
        self.replied_to, self.told, self.told_kept = command, messages, kept
        self.unvalued += sum(self.is_unvalued(m) for m in kept)
        self.after_reply()

    def new_ones(self, kept: list[bytes], held: int) -> list[bytes]:
        """The kept messages of a reply that are new."""
        if not self.holds:
            return kept
        if len(kept) < held or self.kept is not UNKNOWN and not self.are_same(kept[:held], self.kept):
            raise Impossible
        return kept[held:]

    def vmc_ack(self, act: Act, guess: Guess):
        if self.told_kept and guess.mark != "L":
            self.holds = False
        self.acknowledged()


#: All types, which count as enabled with `--joined`.
_ALL_TYPES = 0xFFFF


def may_be_same(one, last) -> tuple:
    """Whether this is the same as the last one: all that is possible."""
    return (False, True) if last is UNKNOWN else (one == last,)


def types_of(asked: bytes) -> int:
    """The types that a COIN TYPE or BILL TYPE enables: its first two bytes; the lowest bit is type 0."""
    return asked[1] << 8 | asked[2]


class Changer(Device):
    """*The changer*."""

    rule = "Changer"
    reset_message = 0x0B
    varies = {"holds": (False, True), "waits": (False, True)}
    accounts = ("coins_in", "paid_out")

    def __init__(self, name, told, extended):
        super().__init__(name, told, extended)
        self.types = _ALL_TYPES if self.joined else 0
        #: Whether the controller waits for the end of a DISPENSE, and the byte of the last one asked.
        self.waits = False
        self.last_dispense = self.unless_joined(None)
        self.coins_in = Sum()
        self.paid_out = Sum()

    def place(self):
        return self.holds, self.waits

    def decimals(self) -> Optional[int]:
        return None if self.setup is None else self.setup[4]

    def value(self, coin: int) -> int:
        """The value of a coin type."""
        if self.setup is None or len(self.setup) <= 7 + coin or self.setup[7 + coin] == 0xFF:
            return 0
        return self.setup[3] * self.setup[7 + coin]

    def is_kept(self, message: bytes) -> bool:
        return 0x40 <= message[0] <= 0x5F or message[0] >= 0x80

    def are_same(self, one, other):
        return [m[0] for m in one] == [m[0] for m in other]

    def forget(self):
        super().forget()
        if not self.extended:
            self.types = 0

    def controller_to_power_on(self):
        self.waits = False

    def dispensed(self, byte: int) -> int:
        """What a DISPENSE with this byte pays out."""
        return (byte >> 4) * self.value(byte & 0x0F)

    def paid_by_hand(self, first: int) -> int:
        """What a message 80 to FF tells."""
        return (first >> 4 & 0x07) * self.value(first & 0x0F)

    def sames(self, act):
        if act.kind != "ask" or act.command.name != "DISPENSE":
            return (False,)
        return may_be_same(act.asked[1], self.last_dispense)

    def is_unvalued(self, message):
        return self.setup is None

    def ask(self, act, guess):
        if act.command.name == "RESET":
            self.waits = False
        elif act.command.name == "DISPENSE":
            self.last_dispense = act.asked[1]
            self.unvalued += self.setup is None
            if not (self.waits and guess.is_same):
                self.paid_out = self.paid_out.plus(controller=self.dispensed(act.asked[1]))
                self.waits = True

    def take_command(self, act, guess):
        name = act.command.name
        if name == "RESET":
            self.to_power_on()
            self.forget()
        elif name == "COIN TYPE":
            self.types |= types_of(act.asked)
        elif name == "DISPENSE":
            self.paid_out = self.paid_out.plus(device=self.dispensed(act.asked[1]))

    def answer_heard(self, command):
        if command.name == "DISPENSE":
            self.waits = False

    def learn(self, command, content, messages):
        if command.name == "SETUP":
            self.setup = content

    def tell(self, message):
        first = message[0]
        if first >= 0x80:
            self.paid_out = self.paid_out.plus(device=self.paid_by_hand(first))
            return
        if not self.types >> (first & 0x0F) & 1:
            raise Impossible
        self.coins_in = self.coins_in.plus(device=self.value(first & 0x0F))

    def acknowledged(self):
        if self.replied_to.name != "POLL":
            return
        for message in self.told:
            first = message[0]
            if first >= 0x80:
                self.paid_out = self.paid_out.plus(controller=self.paid_by_hand(first))
            elif 0x40 <= first <= 0x5F:
                self.coins_in = self.coins_in.plus(controller=self.value(first & 0x0F))
            elif first == self.reset_message:
                self.waits = False


class Validator(Device):
    """*The validator*."""

    rule = "Bill"
    reset_message = 0x06
    varies = {"holds": (False, True), "escrow": (None, *range(16)), "ordered": (False, True)}
    accounts = ("bills_in",)

    def __init__(self, name, told, extended):
        super().__init__(name, told, extended)
        self.types = _ALL_TYPES if self.joined else 0
        #: The type of the bill in escrow, if there is one, and whether it has the order to be stacked.
        self.escrow: Optional[int] = None
        self.ordered = False
        self.bills_in = Sum()

    def decimals(self) -> Optional[int]:
        return None if self.setup is None else self.setup[5]

    def value(self, bill: int) -> int:
        """The value of a bill type."""
        if self.setup is None or len(self.setup) <= 11 + bill or self.setup[11 + bill] == 0xFF:
            return 0
        return (self.setup[3] << 8 | self.setup[4]) * self.setup[11 + bill]

    def is_kept(self, message: bytes) -> bool:
        return 0x80 <= message[0] <= 0xBF

    def to_power_on(self):
        super().to_power_on()
        self.escrow = None

    def forget(self):
        super().forget()
        if not self.extended:
            self.types = 0

    def place(self):
        return self.holds, self.escrow, self.escrow is not None and self.ordered

    def is_unvalued(self, message):
        return self.setup is None and self.is_stacked(message)

    @staticmethod
    def is_stacked(message: bytes) -> bool:
        """Whether a bill was stacked, or went to the recycler."""
        return message[0] & 0xF0 in (0x80, 0xB0)

    def take_command(self, act, guess):
        name = act.command.name
        if name == "RESET":
            self.to_power_on()
            self.forget()
        elif name == "BILL TYPE":
            self.types |= types_of(act.asked)
        elif name == "ESCROW" and act.asked[1] & 1 and self.escrow is not None:
            self.ordered = True

    def learn(self, command, content, messages):
        if command.name == "SETUP":
            self.setup = content

    def tell(self, message):
        kind, bill = message[0] & 0xF0, message[0] & 0x0F
        enabled = self.types >> bill & 1
        if self.is_stacked(message):
            if not enabled or self.escrow is not None and not (self.escrow == bill and self.ordered):
                raise Impossible
            self.escrow = None
            self.bills_in = self.bills_in.plus(device=self.value(bill))
        elif kind == 0x90:  # in escrow
            if not enabled or self.escrow is not None:
                raise Impossible
            self.escrow, self.ordered = bill, False
        else:  # returned
            if self.escrow is not None and self.escrow != bill:
                raise Impossible
            self.escrow = None

    def acknowledged(self):
        if self.replied_to.name == "POLL":
            for message in self.told:
                if self.is_stacked(message):
                    self.bills_in = self.bills_in.plus(controller=self.value(message[0] & 0x0F))


#: The states of a reader. From IDLE on it is in a session.
INACTIVE, DISABLED, ENABLED, IDLE, VEND, APPROVED, ENDING = range(7)
#: What the controller knows of.
VIEWS = ("no session", "Idle", "Ending", "Asked", "Waiting", "Approved", "SuccessOwed", "FailureOwed")


class ReaderOfAny:
    """What the readers of both profiles have in common."""

    rule = "Cashless"
    reset_message = _RESET
    accounts = ("approved", "sold")
    setup: Optional[bytes]

    def decimals(self) -> Optional[int]:
        return None if self.setup is None else self.setup[5]

    def response_time(self) -> int:
        """The response time that the reader told, in microseconds."""
        return 0 if self.setup is None else self.setup[6] * 1_000_000

    def value(self, amount) -> int:
        return 0 if self.setup is None or amount is UNKNOWN else self.setup[4] * amount

    def is_kept(self, message: bytes) -> bool:
        return message[0] in _SESSION_MESSAGES

    def takes(self, messages) -> bool:
        return all(m[0] != _OUT_OF_SEQUENCE for m in messages)

    def learn(self, command, content, messages):
        for message in messages:
            if message[0] == _CONFIG:
                self.setup = message


class Reader(ReaderOfAny, Device):
    """*A reader*, and *What the controller knows of a reader*."""

    varies = {"holds": (False, True), "state": tuple(range(7)), "back": (DISABLED, ENABLED), "view": VIEWS}

    def __init__(self, name, told, extended):
        super().__init__(name, told, extended)
        self.state = INACTIVE
        #: In a session: the state that it goes back to.
        self.back = DISABLED
        #: The last transaction asked, and the last one taken.
        self.last_asked = self.last_taken = self.unless_joined(None)
        #: The last amount of 05.
        self.amount = self.unless_joined(0)
        self.view = "no session"
        self.approved = Sum()
        self.sold = Sum()

    def to_power_on(self):
        super().to_power_on()
        self.state = INACTIVE

    def forget(self):
        super().forget()
        self.last_taken = None

    def controller_to_power_on(self):
        self.view = "no session"

    def place(self):
        return self.holds, self.state, self.state >= IDLE and self.back, self.view

    def sames(self, act):
        if act.command.name not in _TRANSACTIONS:
            return (False,)
        return may_be_same(act.asked, self.last_asked if act.kind == "ask" else self.last_taken)

    def is_unvalued(self, message):
        return self.setup is None and message[0] == 0x05

    # -- the reader

    def take_command(self, act, guess):
        name = act.command.name
        if name in _TRANSACTIONS:
            if not (guess.is_same and self.holds):
                self._take_transaction(name)
                self.holds = False
            self.last_taken = act.asked
        elif name == "RESET":
            self.to_power_on()
            self.forget()
        elif name == "SETUP config":
            if self.state == INACTIVE:
                self.state = DISABLED
        elif name == "READER ENABLE":
            self._enable(DISABLED, ENABLED)
        elif name == "READER DISABLE":
            self._enable(ENABLED, DISABLED)

    def _enable(self, before: int, after: int):
        if self.state == before:
            self.state = after
        elif self.state >= IDLE:
            self.back = after

    def _take_transaction(self, name: str):
        state = self.state
        if name == "VEND REQUEST" or name == "VEND CANCEL":
            if state in (IDLE, VEND, APPROVED):
                self.state = VEND
        elif name == "SESSION COMPLETE":
            if state >= IDLE:
                self.state = ENDING
        elif state == APPROVED:
            self.state = IDLE
            if name == "VEND SUCCESS":
                self.sold = self.sold.plus(device=self.value(self.amount))

    def tell(self, message):
        first = message[0]
        if first == 0x03:
            self._go(self.state == ENABLED, IDLE)
            self.back = ENABLED
        elif first == 0x05:
            last = self.last_taken
            requested = last is UNKNOWN or last is not None and last[1] == 0x00
            self._go(self.state == VEND and requested, APPROVED)
            self.approved = self.approved.plus(device=self.value(amount_of(message)))
        elif first == 0x06:
            self._go(self.state == VEND, IDLE)
        else:
            self._go(self.state == ENDING, self.back)

    def _go(self, possible: bool, state: int):
        if not possible:
            raise Impossible
        self.state = state

    def after_reply(self):
        for message in self.told:
            if message[0] == 0x05:
                self.amount = amount_of(message)
            elif message[0] == 0x03:
                self.last_taken = None

    # -- the controller

    def ask(self, act, guess):
        name = act.command.name
        if name == "RESET":
            self.view = "no session"
        elif name in _TRANSACTIONS:
            self._ask_transaction(name, self.view, guess.is_same)
            self.last_asked = act.asked
            if name == "VEND SUCCESS" and (self.setup is None or self.amount is UNKNOWN):
                self.unvalued += 1

    def _ask_transaction(self, name: str, view: str, again: bool):
        if name == "VEND REQUEST":
            possible, after = view == "Idle" or view == "Asked" and again, "Asked"
        elif name == "VEND CANCEL":
            possible, after = view in ("Asked", "Waiting"), "Waiting"
        elif name == "VEND SUCCESS":
            possible, after = view == "Approved" or view == "SuccessOwed" and again, "SuccessOwed"
            if view == "Approved":
                self.sold = self.sold.plus(controller=self.value(self.amount))
        elif name == "VEND FAILURE":
            possible, after = view in ("Approved", "FailureOwed"), "FailureOwed"
        else:
            possible, after = view in ("Idle", "Ending"), "Ending"
        if not possible:
            raise Impossible
        self.view = after

    def answer_heard(self, command):
        if command.name in _TRANSACTIONS:
            if self.view == "Asked":
                self.view = "Waiting"
            elif self.view in ("SuccessOwed", "FailureOwed"):
                self.view = "Idle"

    def acknowledged(self):
        if self.takes(self.told):
            self.answer_heard(self.replied_to)
        for message in self.told:
            first = message[0]
            awaits = self.view in ("Asked", "Waiting")
            if first == 0x00:
                self.view = "no session"
            elif first == 0x03 and self.view == "no session":
                self.view = "Idle"
            elif first == 0x05 and awaits:
                self.view = "Approved"
                self.approved = self.approved.plus(controller=self.value(amount_of(message)))
            elif first == 0x06 and awaits:
                self.view = "Idle"
            elif first == 0x07 and self.view == "Ending":
                self.view = "no session"


def amount_of(message: bytes) -> int:
    """The amount of a message 05."""
    return message[1] << 8 | message[2]


class Sale(NamedTuple):
    """What a controller and a reader are about, as the acts show it."""

    stage: str
    #: Of an approved one the amount.
    amount: int = 0
    #: Of a sold one the VEND SUCCESS.
    block: bytes = b""


NO_SALE, AWAITED, ASKED = Sale("none"), Sale("awaited"), Sale("asked")
#: Where the first row isn't power-on: nothing is known; and so, but that no approval is awaited.
ANY_SALE, ANY_BUT_AWAITED = Sale("any"), Sale("any but awaited")


class ExtendedReader(ReaderOfAny, Machine):
    """A reader and its controller by the extended profile (extended-profile.md)."""

    varies = {"is_asked": (False, True), "is_approved": (False, True), "may_repeat": (False, True)}

    def __init__(self, name, told, extended):
        super().__init__(name, told, extended)
        #: Whether a request may be approved; an approval stands that no sale used; and what was last
        #: approved may be told again.
        self.is_asked = self.is_approved = self.may_repeat = False
        #: The 05s of the last reply that had one, and all messages of the last reply.
        self.approvals = self.unless_joined([])
        self.told: tuple = ()
        self.sale = ANY_SALE if self.joined else NO_SALE
        #: Whether each VEND REQUEST that there was is recorded, or the last one is.
        self.is_request_known = not self.joined
        self.approved, self.sold = Sum(), Sum()

    def place(self):
        return self.is_asked, self.is_approved, self.may_repeat

    def amount(self) -> int:
        """The amount of the last 05 told; 0 where none is known."""
        return amount_of(self.approvals[-1]) if self.are_approvals_known() and self.approvals else 0

    def are_approvals_known(self) -> bool:
        return self.approvals is not UNKNOWN

    def letters(self, messages):
        return super().letters(messages) + ("C",) * any(m[0] == _APPROVED for m in messages)

    def guesses(self, act, marks):
        told = sum(m[0] == _APPROVED for m in act.messages)
        helds = (told,) if self.are_approvals_known() or told < 2 else (told, told - 1)
        sames = (False, True) if self.sale in (ANY_SALE, ANY_BUT_AWAITED) else (False,)
        awaits = (False, True) if self.sale == ANY_SALE else (False,)
        return [Guess(*one) for one in itertools.product(marks, sames, helds, awaits)]

    # -- the reader

    def forget(self):
        self.is_asked = self.is_approved = self.may_repeat = False

    def break_off(self):
        self.forget()
        self.sale = NO_SALE

    def ack(self, act, guess):
        if act.command.name == "POLL":
            self.may_repeat = False
        self.take_command(act.command.name)

    def take_command(self, name: str):
        if name == "RESET":
            self.forget()
        elif name == "VEND SUCCESS" and self.is_approved:
            self.sold = self.sold.plus(device=self.value(self.amount()))
            self.is_approved = False

    def reply(self, act, guess):
        if guess.mark == "R":
            self.forget()
        if self.takes(act.messages):
            self.take_command(act.command.name)
        self.learn(act.command, act.content, act.messages)
        approvals = [m for m in act.messages if m[0] == _APPROVED]
        if approvals:
            for message in self.new_ones(approvals, guess):
                self.approve(message)
            self.approvals = approvals
            self.unvalued += len(approvals) * (self.setup is None)
        self.told = act.messages

    def new_ones(self, approvals: list[bytes], guess: Guess) -> list[bytes]:
        """The 05s of a reply that aren't told again."""
        held = self.approvals if self.are_approvals_known() else approvals[:guess.held]
        may_repeat = self.may_repeat and approvals[:len(held)] == held
        may_be_either = may_repeat and len(approvals) == 1 and self.is_asked
        if guess.mark == "C" and not may_be_either:
            raise Impossible
        if may_be_either:
            may_repeat = guess.mark == "C"
        return approvals[len(held):] if may_repeat else approvals

    def approve(self, message: bytes):
        if not self.is_asked:
            raise Impossible
        self.is_asked, self.is_approved, self.may_repeat = False, True, True
        self.approved = self.approved.plus(device=self.value(amount_of(message)))

    # -- the controller

    def ask(self, act, guess):
        name = act.command.name
        if name == "VEND REQUEST":
            self.is_asked = self.is_request_known = True
            self.sale = AWAITED
        elif name == "VEND CANCEL":
            if self.sale not in (AWAITED, ASKED, ANY_SALE):
                self.sale = NO_SALE
        elif name == "VEND SUCCESS":
            self.sell(act.asked, guess)
        elif name in ("RESET", "VEND FAILURE", "SESSION COMPLETE"):
            self.sale = NO_SALE

    def sell(self, block: bytes, guess: Guess):
        """VEND SUCCESS is asked."""
        is_same = guess.is_same or self.sale == Sale("sold", block=block)
        if not self.is_request_known:
            amount = self.amount()
        elif self.sale.stage == "approved":
            amount = self.sale.amount
        elif not is_same:
            raise Impossible
        if not is_same:
            self.sold = self.sold.plus(controller=self.value(amount))
        has_value = self.setup is not None and self.are_approvals_known() and self.is_request_known
        self.unvalued += not has_value
        self.sale = Sale("sold", block=block)

    def vmc_ack(self, act, guess):
        if guess.mark != "L" and any(m[0] == _APPROVED for m in self.told):
            self.may_repeat = False
        for message in self.told:
            self.hear(message, guess.is_awaited)

    def hear(self, message: bytes, is_awaited: bool):
        """The controller's part of a message that it acknowledges."""
        sale, head = self.sale, message[0]
        if sale == ANY_SALE and head in (_RESET, _APPROVED, _DENIED):
            self.sale = ANY_BUT_AWAITED
            if head == _APPROVED and is_awaited:
                self.approve_by_controller(message)
        elif sale == AWAITED and head in (_RESET, _DENIED):
            self.sale = ASKED
        elif sale in (AWAITED, ASKED) and head == _APPROVED:
            self.sale = Sale("approved", amount_of(message))
            if sale == AWAITED:
                self.approve_by_controller(message)

    def approve_by_controller(self, message: bytes):
        self.approved = self.approved.plus(controller=self.value(amount_of(message)))


# ------------------------------------------------------------------------------------------------------
# Silences (report.md, *The report*)
# ------------------------------------------------------------------------------------------------------


class Silences:
    """How often a device was silent for too long."""

    def __init__(self):
        self.number = 0
        #: Of the stretch that is open: when its first command ended, its limit, and whether it is counted.
        self.first: Optional[int] = None
        self.limit = 0
        self.counted = False

    def ask(self, time: int, limit: int):
        if self.first is None:
            self.first, self.limit, self.counted = time, limit, False
        elif not self.counted and time - self.first > self.limit:
            self.counted = True
            self.number += 1

    def end(self):
        self.first = None


# ------------------------------------------------------------------------------------------------------
# The replay, and the check
# ------------------------------------------------------------------------------------------------------


class Runs:
    """The runs of the rows so far: all that are possible, or the one that has the given marks."""

    def __init__(self, without: set[str], extended: bool, marks: Optional[Marks], told: Optional[Told] = None):
        self.without = without
        self.link = Link(without, extended, told)
        self.told = told
        #: The marks of the one run; `None` for all runs.
        self.marks = marks
        #: The states that each device can have. The devices don't depend on one another.
        reader = ExtendedReader if extended else Reader
        machines = {CHANGER: Changer, BILL: Validator, CASHLESS: reader, CASHLESS_2: reader}
        self.devices = {name: machine(name, told, extended).at_start() for name, machine in machines.items()}
        self.silences = {device: Silences() for device in DEVICES}
        #: How many rows are untimely, by sender.
        self.untimely = dict.fromkeys(SENDERS, 0)
        self.rows = 0

    def take_row(self, time: int, line: bytes, value: int):
        """Judges the next row: the link first, then its mark, and then whether the act is possible."""
        act = self.link.take(time, line, value)
        self.rows += 1
        letters = () if act is None else self._letters(act)
        choices = ["", *letters]
        if self.marks is not None:
            is_marked = self.marks.next_row == self.rows
            choices = [self.marks.take_off() if is_marked else ""]
            if is_marked and choices[0] not in letters:
                raise no_such_mark(self.rows)
        if act is not None:
            try:
                self._follow(act, time, choices)
            except Broken as broken:
                raise self.link.blamed(broken, line) from None
        if self.link.untimely is not None:
            self.untimely[self.link.untimely] += 1

    def _letters(self, act: Act) -> tuple:
        """The marks that the act may have (machines.md, *What is chosen*)."""
        if act.kind in ("ack", "vmc-ack"):
            return ("L",)
        # That goes by what was said alone, so by each state of the device alike.
        return self.devices[act.command.device][0].letters(act.messages) if act.kind == "reply" else ()

    def _follow(self, act: Act, time: int, marks: list[str]):
        """Follows an act, with each of these marks."""
        if act.kind == "break":
            for device in DEVICES:
                self._step(device, lambda state, _: state.break_off(), [Guess()], device)
                self.silences[device].end()
            return
        device, kind = act.command.device, act.kind
        if kind == "ask":
            self.silences[device].ask(time, self._limit(device))
        elif kind in ("ack", "nak", "reply"):
            self.silences[device].end()
        if kind in ("ask", "ack", "reply", "vmc-ack"):
            guesses = self.devices[device][0].guesses(act, marks)
            name, blame = kind.replace("-", "_"), CONTROLLER if kind == "ask" else device
            self._step(device, lambda state, guess: getattr(state, name)(act, guess), guesses, blame)

    def _step(self, device: str, effect, guesses: list[Guess], blame: str):
        """All states after an act; what is impossible from every state, in every way, is a no."""
        after: dict[tuple, Machine] = {}
        for before in self.devices[device]:
            for guess in guesses:
                state = before.copy()
                try:
                    effect(state, guess)
                except Impossible:
                    continue
                state.goes_on(before, guess.mark)
                first = after.setdefault(state.place(), state)
                if first is not state:
                    first.join(state)
        if not after:
            raise Broken(self.devices[device][0].rule, blame)
        self.devices[device] = list(after.values())

    def _limit(self, device: str) -> int:
        """The limit of a silence that begins now."""
        if device == CHANGER:
            return 2_000_000
        if device == BILL:
            return 5_000_000
        return max(5_000_000, self.devices[device][0].response_time())

    def report(self) -> str:
        """The report of a yes."""
        def one_line(name, parts):
            return name + "".join(f" {device} {part}" for device, part in parts)

        def account(name):
            device, attribute = ACCOUNTS[name]
            sums = [getattr(state, attribute) for state in self.devices[device]]
            return functools.reduce(Sum.joined, sums).line(name)

        decimals = ((d, self.devices[d][0].decimals()) for d in DEVICES)
        lines = [
            "verdict yes",
            f"rows {self.rows}",
            one_line("decimals", ((d, "-" if places is None else places) for d, places in decimals)),
            *map(account, ACCOUNTS),
            one_line("silences", ((d, self.silences[d].number) for d in DEVICES)),
        ]
        if self.link.extended:
            lines.append(one_line("untimely", self.untimely.items()))
        if self.told is not None:
            lines.append(one_line("unvalued", ((d, self.devices[d][0].unvalued) for d in DEVICES)))
            if self.told.named:
                lines.append("setup " + " ".join(d for d in DEVICES if d in self.told.named))
        if self.without:
            lines.append("without " + " ".join(d for d in DEVICES if d in self.without))
        return "\n".join(lines) + "\n"


def replay(text: bytes, without: set[str], extended: bool = False) -> tuple[int, str, str]:
    """Status, standard output and standard error of `mdbcheck replay` for this explanation.

    `without` has the words of the devices that are left out.
    """
    return _answer(text, without, extended, Marks())


def check(
    text: bytes, without: set[str], extended: bool = False, setups: Optional[list[str]] = None
) -> tuple[int, str, str]:
    """The same of `mdbcheck check` for this recording. With `--joined`, `setups` has the values of `--setup`;
    from power-on it is `None`."""
    try:
        told = read_setups(setups, without, extended)
    except NoAnswer as fault:
        return 2, "", f"mdbcheck: {fault}\n"
    return _answer(text, without, extended, None, told)


def fewest_marks(text: bytes, without: set[str], extended: bool, account: str, side: str, end: str) -> int:
    """The fewest marks of a run that comes to an end of a range, of rows that are possible from power-on."""
    runs = Runs(without, extended, None)
    device, attribute = ACCOUNTS[account]
    runs.devices[device][0].goal = attribute, side, 1 if end == "greatest" else -1
    for row, fields in enumerate(records(text), 1):
        runs.take_row(*read_row(fields, row))
    return -sum(max(state.best for state in states)[1] for states in runs.devices.values())


def said(text: bytes, without: set[str], extended: bool, setups: Optional[list[str]] = None) -> Iterator[tuple]:
    """What the rows say by the rules of the link alone: each act with its row, and perhaps a fault."""
    link = Link(without, extended, read_setups(setups, without, extended))
    for row, fields in enumerate(records(text), 1):
        try:
            act = link.take(*read_row(fields, row))
        except Broken as broken:
            yield row, broken.args
            return
        if act is not None:
            yield row, act


def _answer(text: bytes, without: set[str], extended: bool, marks, told=None) -> tuple[int, str, str]:
    runs = Runs(without, extended, marks, told)
    record = 0
    try:
        for fields in records(text):
            record += 1
            is_mark = marks is not None and marks.is_mark(fields)
            if runs.rows == 0 and is_mark:
                marks.read(fields, record)
                continue
            if runs.rows == MOST_ROWS and not is_mark:
                raise NoAnswer(f"more than {MOST_ROWS} rows")
            runs.take_row(*read_row(fields, record))
        if marks is not None and marks.next_row:
            raise no_such_mark(marks.next_row)
    except Broken as broken:
        row = record - (0 if marks is None else len(marks.marks))
        return 1, f"verdict no\nrow {row}\nrule {broken.rule}\nblame {broken.blame}\n", ""
    except NoAnswer as fault:
        return 2, "", f"mdbcheck: {fault}\n"
    return 0, runs.report(), ""


# ------------------------------------------------------------------------------------------------------
# What is told with --setup (rows-and-command-line.md, *Options*)
# ------------------------------------------------------------------------------------------------------

_SETUP = re.compile(
    r"(?:(?:[0-9]{1,15}-[0-9]{1,15} )?(?P<kind>reply|ask) )?(?P<device>changer|bill|cashless|cashless-2) "
    r"(?:level (?P<level>[123])|(?P<block>[0-9A-F]{2}(?: [0-9A-F]{2})*))"
)
_SETUP_COMMANDS = {CHANGER: b"\x09", BILL: b"\x31", CASHLESS: b"\x11\x00", CASHLESS_2: b"\x61\x00"}
#: The first bytes of a block of the controller to a reader.
_OPENINGS_TOLD = {CASHLESS: (0x11, 0x17), CASHLESS_2: (0x61, 0x67)}


def read_setups(values: Optional[list[str]], without: set[str], extended: bool) -> Optional[Told]:
    """What the values of `--setup` tell; without `--joined` there is nothing of the kind."""
    if values is None:
        return None
    told, levels, seen = Told(extended), {}, set()
    for value in values:
        device, thing = _read_setup(value, extended, told, levels)
        if (device, thing) in seen or device in without:
            raise NoAnswer(f"--setup {value!r} is one too many")
        seen.add((device, thing))
    # A told level goes before the one in a told answer.
    for device, level in levels.items():
        told.sent_levels[device] = told.told_levels[device] = level
    told.named = {device for device, _ in seen}
    return told


def _read_setup(value: str, extended: bool, told: Told, levels: dict[str, int]) -> tuple[str, str]:
    """Takes what one value tells. The device, and what was told of it."""
    found = _SETUP.fullmatch(value)
    if found is None:
        raise NoAnswer(f"--setup {value!r} isn't DEVICE BYTES")
    kind, device, level = found["kind"], found["device"], found["level"]
    if level:
        if kind or not extended or device not in READERS:
            raise NoAnswer(f"--setup {value!r} isn't DEVICE BYTES")
        levels[device] = int(level)
        return device, "level"
    if kind == "ask" and not extended:
        raise NoAnswer(f"--setup {value!r} isn't DEVICE BYTES")
    block = bytes.fromhex(found["block"])
    if not extended or block[0] not in _OPENINGS_TOLD.get(device, ()):
        _learn_answer(device, block, extended, told)
        return device, "answer"
    command = _command_of(block)
    if command is None or len(block) != command.length or sum(block[:-1]) & 0xFF != block[-1]:
        raise NoAnswer(f"--setup {value!r} is neither SETUP config nor ENABLE OPTIONS")
    if command.name == "SETUP config":
        told.sent_levels[device] = block[2]
        return device, "level"
    if block[-2] & _OPTIONS_OF_PROFILE:
        raise NoAnswer(f"--setup {value!r} has options that aren't followed")
    told.options.add(device)
    return device, "options"


def _command_of(block: bytes) -> Optional[Command]:
    """The command that a told block of the controller begins as, if that can be told."""
    command = openings_without(set(), True)[block[0]].get(block[1]) if len(block) > 1 else None
    is_told = isinstance(command, Command) and command.name in ("SETUP config", "ENABLE OPTIONS")
    return command if is_told else None


def _learn_answer(device: str, block: bytes, extended: bool, told: Told):
    """Takes an answer to SETUP, which is read as if nothing was said before."""
    link = Link(set(), extended)
    opening = link.openings[_SETUP_COMMANDS[device][0]]
    link.command = opening[0] if isinstance(opening, dict) else opening
    content = block[:-1]
    try:
        messages = link.judge_data(content, block[-1])
    except Broken as broken:
        raise NoAnswer(f"--setup {block.hex()!r} is no answer to SETUP: {broken.rule}")
    if device not in READERS:
        told.setup[device] = content
        return
    configs = [m for m in messages if m[0] == _CONFIG]
    if not configs:
        raise NoAnswer(f"--setup {block.hex()!r} is no answer to SETUP")
    told.setup[device] = configs[-1]
    told.told_levels[device] = configs[-1][1]


# ------------------------------------------------------------------------------------------------------
# The command line (rows-and-command-line.md, *Options*)
# ------------------------------------------------------------------------------------------------------


class HelpAsked(Exception):
    """The words ask how the program is called: status 2, as for any words that are no command."""


def read_words(words: list[str]) -> tuple[dict, set[str]]:
    """The values of the options after the command, and the options without one. Of faults the first by
    reading is told, but what a value says after all others."""
    values, options = {"--without": [], "--setup": []}, set()
    rest = iter(words)
    for word in rest:
        name, _, value = word.partition("=")
        if word in values:
            value = next(rest, "")
            if value.startswith("-"):  # that is another option, so this one has no value
                raise NoAnswer(f"{word} has no value")
            values[word].append(value)
        elif name in values:
            values[name].append(value)
        elif word in ("--check", "--extended", "--joined"):
            options.add(word)
        elif word in ("--help", "-h"):
            raise HelpAsked
        elif word == "--" and next(rest, None) is None:
            break
        else:
            raise NoAnswer(f"unknown word {word!r}")
    if "--joined" in options and "--check" not in options:
        raise NoAnswer("replay has no --joined")
    if values["--setup"] and "--joined" not in options:
        raise NoAnswer("--setup needs --joined")
    for value in values["--without"]:
        if value not in DEVICES:
            raise NoAnswer(f"--without {value!r} isn't changer, bill, cashless, cashless-2")
    return values, options


def main() -> int:
    try:
        values, options = read_words(sys.argv[1:])
    except HelpAsked:
        sys.stderr.write(
            "usage: second_replay.py [--check [--joined [--setup VALUE]..]] [--extended] "
            "[--without DEVICE].. < ROWS\n"
        )
        return 2
    except NoAnswer as fault:
        sys.stderr.write(f"mdbcheck: {fault}\n")
        return 2
    text, without, extended = sys.stdin.buffer.read(), set(values["--without"]), "--extended" in options
    if "--check" in options:
        answer = check(text, without, extended, values["--setup"] if "--joined" in options else None)
    else:
        answer = replay(text, without, extended)
    status, out, err = answer
    sys.stdout.write(out)
    sys.stderr.write(err)
    return status


if __name__ == "__main__":
    sys.exit(main())
