"""Recordings at times that only the extended profile takes, for scripts of tests/.

retimed(dice, rows) is what slow devices, a hasty controller and short breaks make of the rows of an
honest machine: the same words in the same order, so what was said and lost stays. With `is_wild` a
time may also be one that nobody may have. collided(dice, rows) lets a controller go on before an
answer that comes all the same; hastened(dice, rows) and broken(dice, rows) put what stands near the
limits. untimely_in(rows, acts) counts the untimely rows of a recording, by
the acts that its player tells.

Rows are tuples of time, line and value.
"""

import collections

WORD = 996  # the least from word to word

IN_BLOCK, ANSWER, BLOCK = "in a block", "an answer", "a block"
AFTER_BREAK, BREAK_AFTER_BREAK = "a word after a break", "a break after a break"
LENGTH = "the length of a break"

# Of each time the least and the most that an honest machine has here, and limits of both profiles.
TIMES = {
    IN_BLOCK: (WORD, 4_000, (WORD, 2_296, 2_297)),
    ANSWER: (WORD, 40_000, (WORD, 6_296, 6_297)),
    BLOCK: (WORD, 5_995, (WORD, 5_995, 5_996)),
    AFTER_BREAK: (0, 200_000, (0, 199_999, 200_000)),
    BREAK_AFTER_BREAK: (0, 5_000, (0,)),
    LENGTH: (95_000, 105_000, (95_000, 99_999, 100_000)),
}
SHARES = (0, 0, 0, 0.03, 0.2, 1)  # how often somebody has another time


def is_begin(row):
    """Whether a row is the first word of a block of the controller."""
    return row[1] == "M" and row[2] > 0xFF


def kind_of(before, row):
    """What the time between two rows is, if it may be another one."""
    if before[1] == "B":
        return BREAK_AFTER_BREAK if row[1] == "B" else AFTER_BREAK
    if row[1] == "B":
        return None
    if is_begin(row):
        return BLOCK
    return IN_BLOCK if before[1] == row[1] else ANSWER


def end_of(row):
    return row[0] + (row[2] if row[1] == "B" else 0)


def some_time(dice, kind, is_wild):
    least, most, limits = TIMES[kind]
    if is_wild and dice.random() < (0.1 if kind == LENGTH else 0.01):
        return max(least - dice.choice((1, 1, 5_000)), 0)
    return dice.choice(limits) if dice.random() < 0.15 else dice.randint(least, most)


def retimed(dice, rows, is_wild=False):
    """The rows at other times, by the habits of those who send them."""
    shares, made, address, shift = {}, [], None, 0
    for before, row in zip([None, *rows], rows):
        time, line, value = row
        address = value >> 3 if is_begin(row) else address
        kind = kind_of(before, row) if before else None
        habit = kind, line, line == "S" and address
        if kind and dice.random() < shares.setdefault(habit, dice.choice(SHARES)):
            shift = end_of(made[-1]) + some_time(dice, kind, is_wild) - time
        if line == "B" and dice.random() < shares.setdefault(LENGTH, dice.choice(SHARES)):
            value = some_time(dice, LENGTH, is_wild)
        made.append((max(time + shift, 0), line, value))
        shift += value - row[2] if line == "B" else 0
    return made


def played(dice, taken):
    """A recording of an honest machine, mostly at other times."""
    return taken._replace(rows=retimed(dice, taken.rows)) if dice.random() < 0.7 else taken


def sometimes(dice, rows, share=0.6):
    """The rows as they are, or at other times, some of which nobody may have."""
    rows = list(rows)
    if dice.random() < share:
        rows = retimed(dice, rows, dice.random() < 0.5)
        while dice.random() < 0.4:
            rows = dice.choice((collided, hastened, hastened, broken))(dice, rows)
    return rows


def collided(dice, rows):
    """The rows with an answer that comes once the controller has gone on, or begins to."""
    answers = [i for i in range(1, len(rows)) if rows[i][1] == "S" and rows[i - 1][1] == "M"]
    if not answers:
        return rows
    begin = dice.choice(answers)
    end = first(rows, begin, lambda row: row[1] != "S")
    block = first(rows, end, lambda row: row[1] == "B" or is_begin(row))
    after = first(rows, block + 1, lambda row: row[1] != "M" or is_begin(row))
    if block == len(rows) or rows[block][1] == "B":
        return rows
    asked = rows[begin - 1][0]
    late, soon = dice.choice((9_000, 12_000, 40_000)), dice.choice((3_000, 5_995, 6_500))
    answer = moved_to(rows[begin:end], asked + dice.randint(WORD, late))
    both = sorted(answer + moved_to(rows[block:after], asked + dice.randint(WORD, soon)))
    rest = moved_to(rows[after:], both[-1][0] + dice.choice((WORD, 2_000, 7_000, 20_000)))
    return [*rows[:begin], *both, *rest]


def hastened(dice, rows):
    """The rows with a block that comes about as an answer is due, and mostly with a fault in what
    is answered to it."""
    blocks = [i for i in range(len(rows)) if is_begin(rows[i])]
    if not blocks:
        return rows
    begin = dice.choice(blocks)
    end = first(rows, begin + 1, lambda row: row[1] == "B" or is_begin(row))
    before, time = list(rows[:begin]), rows[begin][0]
    if before and before[-1][1:] == ("M", 0) and dice.random() < 0.6:
        before[-1] = (before[-1][0], "M", 0xAA)  # the ACK of an answer becomes a RET
    else:
        poll = dice.choice((0x0B, 0x33, 0x12, 0x62, 0x1A))
        before += [(time, "M", 0x100 + poll), (time + 1_200, "M", poll)]
    gap = dice.choice((WORD, 5_995, 5_996, dice.randint(WORD, 6_100)))
    block = moved_to(rows[begin:end], before[-1][0] + gap)
    return [*before, *answered(dice, block), *moved_to(rows[end:], block[-1][0] + 50_000)]


def answered(dice, block):
    """A block of the controller and what is said after it, with another answer."""
    asked = first(block, 0, lambda row: row[1] == "S")
    draw, at = dice.random(), dice.randrange(len(block))
    if draw < 0.3:
        head = dice.choice((0x1B, 0x0C, 0x4F, 0x8F, 0x80, 0x03, 0x05, 0x06, 0x0B))
        content = [head, *[9] * dice.randrange(3)]
        words = [*content, sum(content) % 256 + 256]
        time = block[asked - 1][0]
        return [*block[:asked], *((time + 1_200 * i, "S", word) for i, word in enumerate(words, 1))]
    if draw < 0.6:
        line, word = dice.choice((("S", 0x100), ("S", 0x1FF), ("S", 0x00B), ("M", 0x10B), ("M", 0)))
        put = (block[at][0] + dice.choice((WORD, 1_100, 2_296, 2_297)), line, word)
        return [*block[: at + 1], put, *moved_to(block[at + 1 :], put[0] + 1_200)]
    if draw < 0.8:
        time, line, word = block[at]
        block[at] = time, line, word ^ 1 << dice.randrange(9)
    return block


def broken(dice, rows):
    """The rows with a break about as long, and about as long before a word, as it may be."""
    at = dice.randint(0, len(rows))
    start = (end_of(rows[at - 1]) if at else 0) + dice.choice((WORD, 2_000, WORD - 1))
    length = dice.choice((94_999, 95_000, 95_000, 99_999, 100_000))
    held = (start, "B", length)
    wait = dice.choice((0, 0, 0, 1, 199_999, 200_000, -1))
    return [*rows[:at], held, *moved_to(rows[at:], start + length + wait)]


def first(rows, begin, is_it):
    """The place of the first such row from one on, or the end."""
    return next((i for i in range(begin, len(rows)) if is_it(rows[i])), len(rows))


def moved_to(rows, time):
    """The rows so much earlier or later that the first has this time."""
    return [(time + row[0] - rows[0][0], *row[1:]) for row in rows]


# What is untimely.

DEVICES = {0x08: "changer", 0x10: "cashless", 0x30: "bill", 0x60: "cashless-2"}
# The EXPANSIONs that are followed.
EXPANSIONS = {0x0F: (0, 1, 2, 3, 4), 0x17: (0, 4), 0x37: (0, 1, 2), 0x67: (0, 4)}


def untimely_in(rows, acts):
    """How many rows of a recording from power-on are untimely, by sender. The acts are those of
    tests/joined: kind, first row, and the row after the last."""
    counts, device, before = collections.Counter(), None, None
    ended = acts[-1][2] if acts else 0
    for kind, begin, end in [*acts, ("cut", ended, len(rows))]:
        judged = end
        if begin < end and is_begin(rows[begin]):
            kind, judged = kind_of_block(rows, begin, end)
            device = DEVICES.get(rows[begin][2] & 0xF8)
        for row in range(begin, judged):
            sender = device if rows[row][1] == "S" else "controller"
            counts[sender] += is_untimely(rows, row, before if row == begin else kind)
        before = kind
    return counts


def kind_of_block(rows, begin, end):
    """Whether a block of the controller is an ask or foreign, and up to which row it has limits."""
    head = rows[begin][2] & 0xFF
    known = EXPANSIONS.get(head)
    if head & 0xF8 not in DEVICES:
        return "foreign", begin + 1
    if known and end > begin + 1 and rows[begin + 1][2] not in known:
        return "foreign", begin + 2
    return "ask", end


LEAST_TO_BLOCK = dict.fromkeys(("ask", "reply", "repeat", "vmc-ret"), 5_996) | {"break": 200_000}


def is_untimely(rows, at, act):
    """Whether a row is untimely that goes on an act, or begins one after it."""
    if rows[at][1] == "B":
        return rows[at][2] < 100_000
    if at == 0:
        return False
    gap = rows[at][0] - end_of(rows[at - 1])
    if is_begin(rows[at]):
        return gap < LEAST_TO_BLOCK.get(act, 0)
    return gap > (2_296 if rows[at - 1][1] == rows[at][1] else 6_296)
