"""The bus of tests/honest: two lines, receivers that lose words, and a recorder that doesn't.

A recording is rows `time,line,word`. Beside them stands what really happened: a *book* of money, in
which each side writes with which row it took, paid, approved or sold, and the rows that came out of
their time. Both are written as the machines act, and nothing is read back from the rows.
"""

import bisect

ACK, NAK, RET = "ack", "nak", "ret"
S_WORDS = {ACK: 0x100, NAK: 0x1FF}
M_WORDS = {ACK: 0x000, NAK: 0x0FF, RET: 0x0AA}
MARK = 0x100

# The longest and the least times of the standard, from the start of a word to that of the next.
WORD_MOST, ANSWER_MOST, NEXT_LEAST = 2296, 6296, 5996
BREAK_LEAST, AFTER_BREAK_LEAST = 100_000, 200_000
WORDS_LEAST = 996


class Dip(Exception):
    """The power dips: the controller's line is low, and all devices start anew."""


class Pace:
    """How long everybody takes. Each side has a chance to be out of its time."""

    def __init__(self, random, standard):
        self.random = random
        names = ("word", "answer", "verdict", "next", "break", "after break")
        chances = (0, 0, 0.02, 0.1, 0.5)
        self.odd = {name: 0 if standard else random.choice(chances) for name in names}

    def draw(self, name, usual, unusual):
        """A usual time, or by habit an unusual one: now and then the least or the most of them."""
        low, high = unusual if self.random.random() < self.odd[name] else usual
        if self.random.random() < 0.03:
            return self.random.choice((low, high))
        return self.random.randint(low, high)

    def word(self):
        if self.random.random() < 0.01:
            return WORDS_LEAST
        return self.draw("word", (1146, WORD_MOST), (WORD_MOST + 1, 4000))

    def answer(self):
        return self.draw("answer", (WORDS_LEAST, ANSWER_MOST), (ANSWER_MOST + 1, 40_000))

    def verdict(self):
        return self.draw("verdict", (WORDS_LEAST, ANSWER_MOST), (ANSWER_MOST + 1, 40_000))

    def next(self, unanswered):
        """The time to the next block. Who waits for an answer in vain may not wait long enough."""
        if unanswered:
            return self.draw("next", (NEXT_LEAST, 60_000), (WORDS_LEAST, NEXT_LEAST - 1))
        return self.draw("next", (WORDS_LEAST, 200_000), (WORDS_LEAST, 1500))

    def broken(self):
        return self.draw("break", (BREAK_LEAST, 400_000), (95_000, BREAK_LEAST - 1))

    def after_break(self):
        usual, unusual = (AFTER_BREAK_LEAST, 700_000), (0, AFTER_BREAK_LEAST - 1)
        return self.draw("after break", usual, unusual)


class Recording:
    """The rows, and the truth beside them."""

    def __init__(self):
        self.rows = []
        self.book = []  # row, account, side, amount
        self.untimely = []  # row, side
        self.setups = []  # row, device, kind, words for --setup

    def note(self, account, side, amount):
        """A side takes note of money, with the row that was said last."""
        if amount:
            self.book.append((len(self.rows) - 1, account, side, amount))

    def setup(self, device, kind, block):
        """From the row that was said last, this is known of how a device is set up."""
        words = " ".join(f"{byte:02X}" for byte in with_sum(block))
        self.setups.append((len(self.rows) - 1, device, kind, f"{device} {words}"))

    def begins(self, first):
        """The first row from there on that is a marked word of the controller, or a break."""
        for at in range(first, len(self.rows)):
            _, line, value = self.rows[at]
            if line == "B" or (line == "M" and value & MARK):
                return at
        return len(self.rows)

    def sums(self, first, end):
        """What both sides of each account really had in these rows."""
        sums = {}
        for row, account, side, amount in self.book[bisect.bisect_left(self.book, (first,)) :]:
            if row >= end:
                break
            both = sums.setdefault(account, {"device": 0, "controller": 0})
            both[side] += amount
        return sums

    def late(self, first, end, joined):
        """How many rows of each side came out of their time. The first word of an end doesn't."""
        begun = self.rows[first][1] if first < end else "M"
        counts = {}
        for row, side in self.untimely:
            if first <= row < end and not (joined and row == first and begun == "M"):
                counts[side] = counts.get(side, 0) + 1
        return counts

    def known(self, first):
        """What is in force at that row: of each device and kind the last one."""
        return {(device, kind): words for row, device, kind, words in self.setups if row < first}

    def cut(self, end):
        """The recording ends before that row."""
        self.rows = self.rows[:end]
        self.book = [entry for entry in self.book if entry[0] < end]
        self.untimely = [entry for entry in self.untimely if entry[0] < end]

    def text(self, first=0):
        return text_of(self.rows[first:])


def text_of(rows):
    """Rows as a transcript."""
    return "".join(
        f"{time},{line},{value if line == 'B' else format(value, '03X')}\n"
        for time, line, value in rows
    )


def with_sum(block):
    return (*block, sum(block) & 0xFF)


class Bus:
    """Who says what when. `waits` tells whether the last word left an answer that may come."""

    def __init__(self, random, pace, loss):
        self.random, self.pace, self.loss = random, pace, loss
        self.recording = Recording()
        self.time = random.randint(0, 5_000_000)
        self.broke, self.waits = False, False
        self.asked = None  # the device of the last whole command, if it is followed
        self.dip_in = None  # the power dips before so many words more

    def heard(self):
        """Whether a receiver gets what was just said to it."""
        return self.random.random() >= self.loss

    def place(self, gap, line, value, side=None, least=0, most=None):
        """A word. One that breaks a limit of the standard is a remark on that side."""
        if self.dip_in is not None:
            self.dip_in -= 1
            if self.dip_in < 0:
                raise Dip
        self.time += gap
        if side and (gap < least or (most is not None and gap > most)):
            self.recording.untimely.append((len(self.recording.rows), side))
        self.recording.rows.append((self.time, line, value))

    def begin(self, word):
        """The controller's first word of a block."""
        if self.broke:
            gap, least = self.pace.after_break(), AFTER_BREAK_LEAST
            self.place(gap, "M", MARK | word, "controller", least=least)
            self.broke = False
        elif self.waits:
            self.place(self.pace.next(True), "M", MARK | word, "controller", least=NEXT_LEAST)
        else:
            self.place(self.pace.next(False), "M", MARK | word)

    def ask(self, device, block):
        """The controller sends a command to a device that is followed."""
        first, *rest = with_sum(block)
        self.begin(first)
        for byte in rest:
            self.place(self.pace.word(), "M", byte, "controller", most=WORD_MOST)
        self.asked, self.waits = device, True

    def data(self, block):
        """A device answers with data, or repeats them."""
        words = list(with_sum(block))
        words[-1] |= MARK
        self.place(self.pace.answer(), "S", words[0], self.asked, most=ANSWER_MOST)
        for word in words[1:]:
            self.place(self.pace.word(), "S", word, self.asked, most=WORD_MOST)
        self.waits = True

    def answer(self, said):
        """A device answers a command: ACK, NAK or data."""
        if said in (ACK, NAK):
            self.place(self.pace.answer(), "S", S_WORDS[said], self.asked, most=ANSWER_MOST)
            self.waits = False
        else:
            self.data(said)

    def verdict(self, said):
        """The controller answers data."""
        self.place(self.pace.verdict(), "M", M_WORDS[said], "controller", most=ANSWER_MOST)
        self.waits = said == RET

    def foreign(self, block, inside, answer):
        """An exchange with a device that isn't followed. `inside` words are still a command's."""
        first, *rest = with_sum(block)
        self.begin(first)
        for at, byte in enumerate(rest):
            side = "controller" if at + 1 < inside else None
            self.place(self.pace.word(), "M", byte, side, most=WORD_MOST)
        self.waits, self.asked = False, None
        if answer is None:
            return
        words = list(with_sum(answer)) if answer else [0]
        words[-1] |= MARK
        self.place(self.pace.answer(), "S", words[0])
        for word in words[1:]:
            self.place(self.pace.word(), "S", word)
        if answer:
            self.place(self.pace.verdict(), "M", M_WORDS[ACK])

    def dip(self):
        """The power dips now."""
        self.dip_in = None
        length = self.pace.broken()
        gap = self.random.randint(*((0, 100_000) if self.broke else (WORDS_LEAST, 9000)))
        self.place(gap, "B", length)
        if length < BREAK_LEAST:
            self.recording.untimely.append((len(self.recording.rows) - 1, "controller"))
        self.time += length
        self.broke, self.waits, self.asked = True, False, None
