"""The limits of time, for tests/second_replay.py: docs/bench/bus.md, *Times*, and with `--extended`
docs/bench/extended-profile.md.

A time is from the start of a row, or the end of a break, to the start of the next row; or it is the
length of a break. With `--extended` most limits of the base profile are remarks: a row beyond one
is *untimely*.
"""

import math
from typing import NamedTuple, Optional

IN_BLOCK, TO_ANSWER = "in a block", "to an answer"
TO_NEXT_BLOCK = "to the next block, where an answer is open"
BETWEEN_WORDS, AFTER_BREAK = "between any two words", "after a break"
FROM_BREAK_TO_BREAK, BREAK_LENGTH = "from break to break", "the length of a break"


class Limit(NamedTuple):
    """What a time may be, and the rule that is broken below that and above."""

    least: int
    most: float = math.inf
    below: str = "Early"
    above: str = ""

    def has(self, time: int) -> bool:
        return self.least <= time <= self.most


BASE = {
    BETWEEN_WORDS: Limit(996),
    IN_BLOCK: Limit(996, 2296, above="Spacing"),
    TO_ANSWER: Limit(996, 6296, above="Late"),
    TO_NEXT_BLOCK: Limit(5996),
    AFTER_BREAK: Limit(200_000),
    FROM_BREAK_TO_BREAK: Limit(0),
    BREAK_LENGTH: Limit(100_000, below="Break"),
}
EXTENDED = dict.fromkeys(BASE, Limit(996)) | {
    AFTER_BREAK: Limit(0),
    FROM_BREAK_TO_BREAK: Limit(0),
    BREAK_LENGTH: Limit(95_000, below="Break"),
}


def broken_by(time: int, kind: str, extended: bool) -> Optional[str]:
    """The rule that a time of a kind breaks, if one."""
    limit = (EXTENDED if extended else BASE)[kind]
    if limit.has(time):
        return None
    return limit.below if time < limit.least else limit.above


def is_untimely(time: int, kind: str) -> bool:
    """Whether a time is beyond a limit of the base profile."""
    return not BASE[kind].has(time)
