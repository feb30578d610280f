"""What both lines do over time, with pulses, spikes and damaged words among the words of a recording: a
scene. It is laid out in whole units of time (samples, or decimals of a second), so it is known what a
reader of the levels has to find. `trace` writes it as sigrok-cli's decoder does, by the page
docs/bench/sigrok-trace.md, and tells what that trace holds.
"""

from fractions import Fraction
from typing import NamedTuple

WORD, BREAK, PULSE, DAMAGED = "word", "break", "pulse", "damaged"

PULSES = ["one", "one", "half", "several", "twice", "spike", "spike of more than half", "double spike"]
DAMAGE = ["stop bit", "stop bit, long", "low for 11 bits", "low", "low", "break on S", "too long",
          "edge of a break", "fell in a word", "pulse in a stop bit", "cut", "cut in a word"]


def above(time):
    """The first whole unit that is later."""
    return int(time // 1) + 1


class Thing(NamedTuple):
    """Something that a line does, from where it falls."""

    line: str  # M or S
    start: int
    edges: "list[int]"  # where the level changes, from the start on: it falls first
    shows: "list"  # what a reader of the levels finds: (from the start, kind, value)
    free: "int | None"  # from where on the line may fall again; None: it stays low

    def at(self, start):
        return self._replace(start=start)


class Truth(NamedTuple):
    """What a reader has to find; rows are None where it has to refuse."""

    rows: "list | None"  # (time, line, value)
    pulses: list  # (time, line)
    damaged: list


def in_order(found):
    return sorted(found, key=lambda one: (one[0], one[1] == "S"))


class Scene:
    """The lines of some rows, in so many units a second (whole microseconds have whole numbers)."""

    def __init__(self, rng, rows, units, bit=None):
        self.rng, self.units, self.micro = rng, units, units // 10**6
        self.bit = Fraction(units, 9600)
        self.sent_bit = bit or self.bit  # that of those who send
        self.things = []
        for time, line, value in rows:
            start = max(0, time * self.micro + self.near())
            if line == "B":
                self.things.append(self.low("M", int(value) * self.micro + self.near()).at(start))
            else:
                self.things.append(self.word(line, int(value, 16)).at(start))

    def near(self):
        """So many units that a time rounds to the same microsecond."""
        half = self.micro // 2
        return self.rng.choice([0, -half, half - 1, self.rng.randint(-half, half - 1)]) if half else 0

    def micros(self, units):
        return (2 * units * 10**6 + self.units) // (2 * self.units)

    def bits(self, number):
        return number * self.bit

    # What a line may do.

    def word(self, line, value):
        levels = [0] + [value >> place & 1 for place in range(9)] + [1]
        edges = [round(at * self.sent_bit) for at, level in enumerate(levels)
                 if level != (levels[at - 1] if at else 1)]
        return Thing(line, 0, edges, [(0, WORD, value)], above(self.bits(Fraction(21, 2))))

    def low(self, line, length):
        """Low for so long, which is longer than a word."""
        micros = self.micros(length)
        kind = BREAK if line == "M" and 95_000 <= micros < 10**9 else DAMAGED
        return Thing(line, 0, [0, length], [(0, kind, micros)], length + 1)

    def spoilt(self, line, value, rise):
        """A word whose stop bit is low, and how long."""
        edges = self.word(line, value).edges
        if value >= 256:
            edges[-1:] = [edges[-1], round(10 * self.sent_bit)]  # it falls for the stop bit
        else:
            edges.pop()
        return Thing(line, 0, edges + [rise], [(0, DAMAGED, None)], rise + 1)

    def thing(self, line, kind):
        """What has a name in PULSES or DAMAGE."""
        rng, half, stop = self.rng, self.bits(Fraction(1, 2)), self.bits(Fraction(21, 2))
        below = int(half // 1)  # the last unit at which a pulse may end
        milli = 1000 * self.micro
        if kind in ("one", "half"):
            length = below if kind == "half" else rng.randint(1, below)
            return Thing(line, 0, [0, length], [(0, PULSE, None)], above(half))
        if kind == "several":
            edges, shows, at = [], [], 0
            for _ in range(rng.choice([2, 2, 3, 5, 6, 9])):
                edges += [at, at + rng.randint(1, below)]
                shows.append((at, PULSE, None))
                free = at + above(half)
                at = free + rng.choice([0, rng.randrange(milli)])
            return Thing(line, 0, edges, shows, free)
        if kind == "twice":
            edges = sorted(rng.sample(range(1, below + 1), 3))
            return Thing(line, 0, [0] + edges, [(0, PULSE, None)], above(half))
        if "spike" in kind:
            last = int(self.bits(Fraction(3, 2)) // 1)
            end = above(half) if kind.endswith("half") else rng.randint(above(half), last)
            edges = sorted(rng.sample(range(1, below + 1), 2)) if kind.startswith("double") else []
            return Thing(line, 0, [0] + edges + [end], [(0, WORD, 0x1FF)], above(stop))
        value = rng.choice([0, 0x100, 0x1FF, rng.randrange(512)])
        if kind == "stop bit":
            return self.spoilt(line, value, rng.randint(above(stop), int(self.bits(11) // 1)))
        if kind == "stop bit, long":
            return self.spoilt(line, value or 1, rng.randint(2 * milli, rng.choice([99, 200]) * milli))
        if kind == "low for 11 bits":
            off = rng.choice([-2, -1, 0, 1, 2, rng.randint(-20 * self.micro, 20 * self.micro)])
            return self.low(line, int(self.bits(11) // 1) + off)
        if kind == "low":
            return self.low(line, rng.randint(2 * milli, 94 * milli))
        if kind == "break on S":
            return self.low("S", rng.choice([95 * milli, rng.randint(95 * milli, 10**4 * milli),
                                             10**6 * milli]))
        if kind == "too long":
            return self.low("M", 10**6 * milli + rng.choice([0, rng.randint(0, 10**6 * milli)]))
        if kind == "edge of a break":
            edge = rng.choice([95 * milli, 10**6 * milli])
            return self.low("M", edge - self.micro // 2 + rng.choice([-1, 0, -self.micro, self.micro]))
        if kind == "fell in a word":
            return self.fell(line, rng.choice([rng.randint(2 * milli, 94 * milli),
                                               rng.randint(95 * milli, 10**3 * milli)]))
        if kind == "pulse in a stop bit":
            word = self.word(line, rng.randrange(512))
            fall = rng.randint(max(word.edges[-1] + 1, int(self.bits(10) // 1) + 1), int(stop // 1))
            rise = rng.randint(above(stop), int(self.bits(11) // 1))
            return Thing(line, 0, word.edges + [fall, rise], [(0, DAMAGED, None)], rise + 1)
        if kind == "cut":
            return Thing(line, 0, [0], [(0, DAMAGED, None)], None)
        return self.fell(line, None)

    def fell(self, line, length):
        """A line that goes low within a word, and stays low for so long, or for good."""
        bit, value = self.rng.randrange(1, 9), self.rng.randrange(512) | 1
        value &= (1 << bit) - 1
        edges = self.word(line, value).edges
        edges.pop()  # it isn't high at the stop bit
        if length is not None:
            edges.append(edges[-1] + length)
        return Thing(line, 0, edges, [(0, DAMAGED, None)], None if length is None else edges[-1] + 1)

    # Where it is put.

    def put(self, kind):
        """Puts something that has a name somewhere; what comes after it may have to be later."""
        rng = self.rng
        line = "S" if kind == "break on S" else "M" if kind in ("too long", "edge of a break") else (
            rng.choice("MS"))
        own = sorted((one for one in self.things if one.line == line), key=lambda one: one.start)
        if own and own[-1].free is None:
            return  # it is low for good
        new = self.thing(line, kind)
        breaks = [at for at, one in enumerate(own) if one.shows[0][1] == BREAK]
        zeros = [at + 1 for at, one in enumerate(own) if one.shows[0][1:] == (WORD, 0)]
        at = rng.choice([rng.randint(0, len(own)), len(own), *breaks[:3], *zeros[:3]])
        at = len(own) if new.free is None else at
        earliest = own[at - 1].start + own[at - 1].free if at else self.micro
        if at < len(own):
            lacks = earliest + (new.free or 0) - own[at].start
            if lacks > 0:
                self.delay(own[at].start, -(-lacks // self.micro) + rng.choice([0, 0, 1, 500]))
            own = sorted((one for one in self.things if one.line == line), key=lambda one: one.start)
            latest = own[at].start - new.free
        else:
            latest = earliest + rng.randrange(10**4) * self.micro
        start = rng.choice([earliest, earliest, latest, rng.randint(earliest, latest)])
        self.things.append(new.at(start))

    def delay(self, start, micros):
        """What begins there or later begins so much later."""
        self.things = [one.at(one.start + micros * self.micro) if one.start >= start else one
                       for one in self.things]

    # What comes of it.

    def changes(self):
        """The levels that change, by time: {time: {line: level}}."""
        changes = {}
        for one in self.things:
            for place, edge in enumerate(one.edges):
                changes.setdefault(one.start + edge, {})[one.line] = place % 2
        return changes

    def truth(self, skip):
        """What a reader of the levels has to find."""
        rows, pulses, damaged = [], [], []
        for one in self.things:
            for offset, kind, value in one.shows:
                time = self.micros(one.start + offset)
                if kind in (WORD, BREAK):
                    value = f"{value:03X}" if kind == WORD else str(value)
                    rows.append((time, one.line if kind == WORD else "B", value))
                else:
                    (pulses if kind == PULSE else damaged).append((time, one.line))
        if damaged and not skip:
            return Truth(None, [], [])
        return Truth(*map(in_order, (rows, pulses, damaged)))


# ------------------------------------------------------------------------- sigrok-cli's decoder


class Decoded(NamedTuple):
    """What the decoder writes of a line, and what that means."""

    pairs: list  # (sample at which it is written, tid, name, from, to), in samples
    found: list  # (PULSE, from) or (WORD, from, value, has an error, (from, to) of a break or None)


def decoded(changes, line, tid, rate):
    """What the decoder `uart` writes of a line, by the samples at which it changes."""
    bit = Fraction(rate, 9600)
    times = sorted(time for time in changes if line in changes[time])
    edges, level = [], 1
    for time in times:
        if changes[time][line] != level:
            level = changes[time][line]
            edges.append((time, level))
    pairs, found, at, low = [], [], 0, None  # `at`: the next edge; low: where it fell

    def level_at(sample, place):
        while place < len(edges) and edges[place][0] <= sample:
            place += 1
        return (edges[place - 1][1] if place else 1), place

    def around(sample):
        return sample - int(bit / 2 // 1), sample - int(-bit / 2 // 1)

    while at < len(edges):
        fall, level = edges[at]
        if level == 1:
            at += 1
            continue
        point = fall + (bit - 1) / 2
        samples = [-int(-(point + number * bit) // 1) for number in range(11)]
        high, place = level_at(samples[0], at)
        if high:
            pairs.append((samples[0], f"{tid} warnings", "Frame error", *around(samples[0])))
            found.append((PULSE, around(samples[0])[0]))
            at = place
            continue
        pairs.append((samples[0], tid, "Start bit", *around(samples[0])))
        bits = []
        for sample in samples[1:]:
            high, place = level_at(sample, place)
            bits.append(high)
        value = sum(one << number for number, one in enumerate(bits[:9]))
        pairs.append((samples[9], tid, f"{value:03X}", around(samples[1])[0], around(samples[9])[1]))
        if bits[9]:
            found.append((WORD, around(samples[0])[0], value, False, None))
            at = place
            continue
        pairs.append((samples[10], f"{tid} warnings", "Frame error", *around(samples[10])))
        low = edges[place - 1][0]  # the last fall
        broken = None
        if place < len(edges) and edges[place][0] - low >= -int(-11 * bit // 1):
            broken = (fall, edges[place][0])
            pairs.append((edges[place][0], f"{tid} break", "Break condition", *broken))
        found.append((WORD, around(samples[0])[0], value, True, broken))
        at = place
    return Decoded(pairs, found)


def trace(changes, rate, tids):
    """The pairs of a trace in the order in which they are written: (tid, name, from, to), in samples;
    and what was found on each line. `tids` has the line's name of TX and RX."""
    lines = {tid: decoded(changes, line, tid, rate) for tid, line in tids.items()}
    pairs = sorted((pair for one in lines.values() for pair in one.pairs),
                   key=lambda pair: (pair[0], pair[1][0] == "T"))
    return [pair[1:] for pair in pairs], {tid: one.found for tid, one in lines.items()}


def trace_truth(found, at, skip):
    """What a reader of a trace has to find: `found` by M and S; `at` gives the time of a sample in
    millionths of a microsecond."""
    def whole(millionths):
        return (millionths + 500_000) // 1_000_000

    rows, pulses, damaged = [], [], []
    for line, things in found.items():
        for kind, start, *rest in things:
            time = whole(at(start))
            if kind == PULSE:
                pulses.append((time, line))
                continue
            value, is_wrong, broken = rest
            length = whole(at(broken[1]) - at(broken[0])) if broken else 0
            if not is_wrong:
                rows.append((time, line, f"{value:03X}"))
            elif line == "M" and value == 0 and broken and length < 10**9 and (
                    length >= 95_000 or not skip):
                rows.append((whole(at(broken[0])), "B", str(length)))
            elif skip:
                damaged.append((time, line))
            else:
                return Truth(None, [], [])
    return Truth(*map(in_order, (rows, pulses, damaged)))
