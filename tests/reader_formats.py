"""The messages of a reader's answers, as tests/second_replay.py reads them, for scripts of tests/ that read what `show` prints.

A reader is named as `show` names it, or by any other name that its commands and its replies both have.
"""

import second_replay as second

# The base profile's reading, and of the extended profile a short and a long one.
BASE, SHORT, LONG = range(3)
LENGTHS = {BASE: second.READER_MESSAGES, SHORT: second.READINGS[False, True], LONG: second.READINGS[True, True]}
# By the base profile messages of a session may stand in answers to these alone.
SESSION = {0x03, 0x05, 0x06, 0x07}
MAY_TELL = {(0x12,), *((0x13, it) for it in range(5))}


def in_lists(reading):
    """The messages of a reading as lists; None where it has a fault."""
    messages, fault = reading
    return None if fault else [list(message) for message in messages]


def cut(data, reading):
    """The messages of an answer without its sum; None where a message is cut off or isn't followed."""
    return in_lists(second.read_messages(bytes(data), LENGTHS[reading]))


def kept_open(data):
    """The messages of an answer whose readings say the same of what counts: it is kept in the first one, whatever the levels
    are. None of any other."""
    return in_lists(second.open_reading([second.read_messages(data, lengths) for lengths in second.READINGS.values()]))


def may_answer(command, messages):
    """Whether messages may answer a command to a reader by the base profile."""
    first = command[0] - 0x50 * (command[0] >= 0x60)
    return (first, *command[1:2])[: 1 + (first == 0x13)] in MAY_TELL or not any(it[0] in SESSION for it in messages)


def own_reading(messages):
    """The first reading that has messages: an answer is kept in it."""
    if any(it[0] == 0x11 or it[0] == 3 and len(it) == 10 or it[0] == 0x0B and len(it) == 2 for it in messages):
        return LONG
    return SHORT if any(it[0] == 9 and len(it) == 34 for it in messages) else BASE


class Formats:
    """How readers' answers are read, as acts go on. `known` has what `--setup` tells of readers: of each the field and its value,
    as tests/cases.py has them."""

    def __init__(self, is_extended=False, known=(), is_joined=False):
        self.is_extended, self.is_joined, self.told, self.own = is_extended, is_joined, {}, {}
        for reader, field, value in sorted(known, key=lambda it: it[1] == "level"):
            if field == "level":
                self.told[reader] = self.own[reader] = value
            elif field == "config":
                self.told[reader] = value[2]
            elif field == "setup":
                found = in_lists(second.read_reply(bytes(value[:-1]), None, None, False)) if is_extended else cut(value[:-1], BASE)
                self.own.update((reader, it[1]) for it in found or [] if it[0] == 1)

    def ask(self, reader, data):
        """A command to a reader was asked."""
        if data[0] in (0x11, 0x61) and data[1] == 0:
            self.told[reader] = data[2]

    def reply(self, reader, data):
        """The messages of a reader's answer without its sum. It counts from then on."""
        found = self.messages(reader, data)
        for message in found or ():
            if message[0] == 1:
                self.own[reader] = message[1]
        return found

    def messages(self, reader, data):
        """The messages of an answer; None where it can't be read."""
        if not self.is_extended:
            return cut(data, BASE)
        return kept_open(bytes(data)) or in_lists(
            second.read_reply(bytes(data), self.told.get(reader), self.own.get(reader), self.is_joined)
        )
