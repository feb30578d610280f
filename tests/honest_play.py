"""Whole machines of tests/honest: who is on the bus, with which habits, and what happens."""

import random as chance

from honest_bus import ACK, NAK, RET, Bus, Dip, Pace
from honest_cash import BillDesk, Changer, CoinDesk, Validator
from honest_readers import BASES, Reader, ReaderDesk

# How often each habit shows, by the book and at its most.
BY_THE_BOOK = {
    "deaf": 0.01, "boots": 0.2, "reset alone": 0.5, "lists": 0.9, "later": 0.0, "status": 0.05,
    "on its way": 0.0, "refuses": 0.03, "restarts": 0.0, "jams": 0.0, "money": 0.25,
    "by hand": 0.03, "rejects": 0.05, "returns": 0.05, "no repeat": 0.02, "fussy": 0.02,
    "other": 0.15, "RESET again": 0.0, "no RESET": 0.0, "recycler": 0.3, "silent reset": 0.0,
    "counts anew": False, "dips": 0.002,
}  # fmt: skip
CASH_HABITS = {
    "deaf": 0.2, "boots": 0.8, "reset alone": 1.0, "lists": 1.0, "later": 0.5, "status": 0.3,
    "on its way": 1.0, "refuses": 0.4, "restarts": 0.05, "jams": 0.05, "money": 0.6,
    "by hand": 0.15, "rejects": 0.2, "returns": 0.3, "no repeat": 0.5, "fussy": 0.2, "other": 0.4,
    "RESET again": 0.5, "no RESET": 0.7, "recycler": 0.5, "silent reset": 0.3, "dips": 0.03,
}  # fmt: skip
READERS_BY_THE_BOOK = BY_THE_BOOK | {
    "deaf": 0.0, "fussy": 0.0, "at once": 0.5, "once": 0.0, "drops": 1.0, "takes all": 0.0,
    "refuses": 0.0, "same again": 1.0, "stubborn": 0.0, "mute": 0.0, "refuses afterwards": 0.0,
    "across DISABLE": 0.0, "ends": 0.0, "anywhere": 0.0, "cancels": 0.03, "gives up": 0.0,
    "asks anyway": 0.0, "other": 0.05,
}  # fmt: skip
READER_HABITS = CASH_HABITS | {
    "at once": 1.0, "once": 1.0, "drops": 1.0, "takes all": 1.0, "refuses": 0.3, "stubborn": 1.0,
    "same again": 1.0, "mute": 0.3, "refuses afterwards": 0.3, "across DISABLE": 0.5, "ends": 0.3,
    "anywhere": 1.0, "cancels": 0.2, "gives up": 0.4, "asks anyway": 0.5, "restarts": 0.03,
    "other": 0.2,
}  # fmt: skip
LOSSES = (0, 0, 0.01, 0.05, 0.15)

# The kinds of machines, and how many commands a recording of each has.
KINDS = {"times": (20, 120), "cash": (30, 200), "readers": (30, 160), "whole": (60, 300)}

# Blocks to devices that aren't followed, each with the number of words that are a command's.
FOREIGN = (
    (1, (0x1A,)), (1, (0x18,)), (1, (0x42,)), (1, (0x5A,)), (1, (0x69,)), (1, (0xE2, 1, 2, 3)),
    (2, (0x0F, 0x05, 0x05)), (2, (0x37, 0x03)), (2, (0x37, 0x04, 0, 3, 3, 3)), (2, (0x37, 0x08)),
    (2, (0x17, 0xFA, 0, 1, 0)), (2, (0x67, 0x01, 0, 5)),
)  # fmt: skip


def habits_of(random, odd, book=BY_THE_BOOK, at_most=CASH_HABITS):
    """The habits of one device: by the book, or each as often as it likes."""
    habits = dict(book)
    if odd:
        for name, most in at_most.items():
            habits[name] = most * random.choice((0, 0.1, 0.5, 1)) * random.random() ** 0.3
        habits["counts anew"] = random.random() < 0.5
    return habits


class Machine:
    """A machine: its bus, its devices, and the desks of its controller."""

    reader, reader_desk = Reader, ReaderDesk

    def __init__(self, random, kind, options):
        self.random, self.odd = random, kind != "times" and "by_the_book" not in options
        standard = bool(options) or (kind != "times" and random.random() < 0.5)
        loss = 0 if kind != "cash" and "by_the_book" in options else random.choice(LOSSES)
        self.bus = Bus(random, Pace(random, standard), loss)
        self.dips = habits_of(random, self.odd)["dips"]
        self.foreign = random.choice((0, 0, 0.1))
        self.desks = []
        if kind != "readers":
            self.add_cash()
        if kind in ("readers", "whole"):
            self.add_readers()
        fitted = [name for name, _ in self.desks]
        self.absent = [name for name in BASES if name not in fitted and random.random() < 0.4]

    def add_cash(self):
        """A changer and a validator, or the controller's vain questions for them."""
        for device, desk in ((Changer, CoinDesk), (Validator, BillDesk)):
            habits = habits_of(self.random, self.odd)
            common = self.random, habits, self.bus.recording
            fitted = device(*common) if self.random.random() < 0.85 else None
            self.desks.append((device.name, desk(*common, fitted)))

    def add_readers(self):
        """One reader, or two."""
        for name in self.random.choice((("cashless",), ("cashless-2",), tuple(BASES))):
            habits = habits_of(self.random, self.odd, READERS_BY_THE_BOOK, READER_HABITS)
            common = self.random, habits, self.bus.recording
            self.desks.append((name, self.reader_desk(*common, self.reader(*common, name))))

    def play(self, exchanges):
        """So many commands, and what comes of them."""
        for _ in range(exchanges):
            if self.bus.dip_in is None and self.random.random() < self.dips:
                self.bus.dip_in = self.random.randint(0, self.random.choice((0, 6, 30)))
            try:
                self.turn()
            except Dip:
                self.dip()
        return self.bus.recording

    def turn(self):
        """Something happens, and the controller turns to one device."""
        for _, desk in self.desks:
            if desk.device:
                desk.device.happens()
        if self.random.random() < self.foreign:
            inside, block = self.random.choice(FOREIGN)
            self.bus.foreign(block, inside, self.random.choice((None, (), (1,), (5, 6, 7))))
        elif self.absent and self.random.random() < 0.1:
            device = self.random.choice(self.absent)
            self.bus.ask(device, (BASES[device] + 2,))
        else:
            self.exchange(*self.random.choice(self.desks))

    def dip(self):
        """The power is gone and comes back."""
        self.bus.dip()
        for _, desk in self.desks:
            if desk.device:
                desk.device.reset()
            desk.start()

    def exchange(self, name, desk):
        """The controller asks a device, which answers as it likes, if it hears."""
        ask = desk.next_ask()
        self.bus.ask(name, ask)
        desk.asked(ask)
        if not desk.device or not self.bus.heard():
            return
        said, effect = desk.device.answer(ask)
        if said is None:
            return
        self.bus.answer(said)
        if effect:
            effect()
        if said not in (ACK, NAK):
            self.settle(desk, ask, said)
        elif self.bus.heard():
            desk.told(ask, said)

    def settle(self, desk, ask, data):
        """The controller answers data: with RET it asks for them again."""
        said = desk.verdict(self.bus.heard())
        while said == RET:
            self.bus.verdict(RET)
            if not self.bus.heard() or not desk.device.repeats():
                return
            self.bus.data(data)
            said = desk.verdict(self.bus.heard())
        if said is None:
            return
        self.bus.verdict(said)
        reached = self.bus.heard()
        if said == ACK:
            desk.acknowledged(ask, data)
            if reached:
                desk.device.heard()


def recording_of(seed, number, kind, options):
    """A recording, and the machine's own truth beside it. Some end anywhere."""
    random = chance.Random(f"{seed} {number} {kind}")
    recording = Machine(random, kind, options).play(random.randint(*KINDS[kind]))
    if random.random() < 0.3:
        recording.cut(random.randint(1, len(recording.rows)))
    return recording, random


def setups(known, random):
    """Words for --setup: what is in force, now and then a level in place of a SETUP block."""
    known = dict(known)
    for name in BASES:
        block, config = known.get((name, "ask")), known.get((name, "setup"))
        if block and config and random.random() < 0.3:
            level = min(int(block.split()[3], 16), int(config.split()[2], 16))
            known[name, "ask"] = f"{name} level {level}"
    return list(known.values())
