"""Recordings with readers of feature levels 1 to 3 and with recyclers, for tests/replayed.

played(dice) plays whole honest machines, as tests/joined does it, some of whose readers need no session;
a coin or a bill that is on its way as a device is reset is told after that; and mostly they have other
times (tests/other_times.py). habitual(dice) plays the readers of tests/honest. talked(dice) puts single
talks together, as tests/without does it, with each message that docs/bench/extended-profile.md has, and
sales in which all comes at any time, some of it where that page doesn't allow it.
"""

import honest_play

import other_times
from programs import load

joined, without = load("joined"), load("without")

# The status that a reader tells with 0B, by its state.
STATUSES = {"inactive": 1, "disabled": 2, "enabled": 3}
STATUSES |= {"idle": 4, "vend": 5, "approved": 5, "ending": 4}
MEDIA = (0xFF, 0xFF, 0xFF, 0xFF, 0, 0, 0)


# Whole machines.


class Reader(joined.Reader):
    """A reader of any level."""

    def __init__(self, bus, name):
        super().__init__(bus, name)
        self.setup[1] = bus.dice.choice((1, 2, 3, 3))
        self.asked_level = bus.dice.choice((1, 2, 3, 3))
        if bus.dice.random() < 0.3:
            self.setup[1] = self.asked_level = 3
        self.is_long = self.setup[1] >= 2 and self.asked_level >= 2
        self.has_id_options = bus.dice.random() < 0.5
        self.needs_no_session = bus.dice.random() < 0.4

    def power_on(self):
        super().power_on()
        self.refuses = False  # at the next POLL a request that it acknowledged
        self.latest = None  # the last command of a sale that it took, whatever it told since
        self.owed = []  # what it still tells of commands for which it had no session

    def media(self):
        return MEDIA if self.is_long else ()

    def refusal(self):
        if not self.is_long or self.dice.random() < 0.2:
            return [0x0B]
        return [0x0B, STATUSES[self.state]]

    def identity(self):
        return super().identity() + [0, 0, 0, 7] * self.has_id_options

    def remarks(self):
        return (*super().remarks(), (0x11,)) if self.is_long else super().remarks()

    def obeys(self, low, command):
        second = command[1] if len(command) > 1 else None
        if low == 3 and second < 5:
            self.latest = command
        if low == 3 and second == 0 and self.state == "idle" and self.dice.random() < 0.05:
            self.refuses = True
        elif self.needs_no_session and (low, second) == (3, 0) and self.state == "enabled":
            self.state, self.comes_back = "vend", "enabled"
        elif self.needs_no_session and (low, second) == (3, 1) and self.state in ("enabled", "idle"):
            self.owed.append((6,))
        elif self.needs_no_session and (low, second) == (3, 4) and self.state == "enabled":
            self.owed.append((7,))
        else:
            super().obeys(low, command)

    def answers(self, low, command):
        if low == 7 and command[1] == 4:
            return joined.ACK
        if low == 3 and self.refuses:
            return joined.ACK
        return super().answers(low, command)

    def tells(self, others, is_poll):
        if is_poll and self.refuses:
            self.refuses = False
            # (a status, since other messages may come after it)
            others = [(0x0B, *[STATUSES[self.state]] * self.is_long)]
        if not (is_poll and self.needs_no_session and not self.has_told_setup):
            return super().tells(others, is_poll)
        # It decides nothing before that.
        answer = super().tells([tuple(self.setup)], is_poll)
        self.has_told_setup = True
        return answer

    def news(self, is_poll):
        if not self.needs_no_session:
            return super().news(is_poll)
        fresh = []
        while self.dice.random() < 0.6 and self.room() > sum(map(len, fresh)) + 10:
            message = self.event(is_poll)
            if message is None:
                break
            fresh.append(message)
        return fresh

    def event(self, is_poll):
        """What it tells next, which now and then is what nobody asked for."""
        draw, state = self.dice.random(), self.state
        if not self.has_told_setup:
            return None
        if self.owed:
            told = self.owed.pop(0)
        elif state == "vend" and draw < 0.6:
            return self.decides()
        elif state == "enabled" and self.begins(is_poll) and draw < 0.2:
            told = (3, 0, 100, *self.media())
        elif state == "ending" and draw < 0.8:
            told = (7,)
        elif state != "inactive" and draw > 0.92:
            told = self.dice.choice(((3, 0, 100, *self.media()), (6,), (7,)))
        else:
            return None
        if (told[0], state) == (3, "enabled"):
            self.state, self.comes_back = "idle", "enabled"
        elif (told[0], state) == (6, "vend"):
            self.state = "idle"
        elif (told[0], state) == (7, "ending"):
            self.state = self.comes_back
        return told

    def decides(self):
        """Its answer to a request, if that wasn't cancelled."""
        if self.latest[1] != 0 or self.dice.random() < 0.2:
            self.state = "idle"
            return (6,)
        asked = self.latest[2] * 256 + self.latest[3]
        self.amount, self.state = self.dice.choice((asked, asked, asked + 1)), "approved"
        self.gained.append((self.approved, self.scale * self.amount))
        return (5, *divmod(self.amount, 256))


class ReaderController(joined.ReaderController):
    """A controller that goes on when a transaction was refused."""

    UNDECIDED = ("asked", "waiting", "success owed", "failure owed", "ending")
    is_refused = False

    def split(self, answer):
        """In the long format each 0B of these readers has a status, or is alone."""
        rest = list(answer)
        while rest:
            if self.device.is_long and rest[0] == 0x0B and len(rest) > 1:
                yield tuple(rest[:2])
                del rest[:2]
            elif rest[0] == 9:
                yield tuple(rest)
                rest.clear()
            else:
                message = next(super().split(rest))
                yield message
                del rest[: len(message)]

    def sets_up(self):
        yield from super().sets_up()
        if self.dice.random() < 0.6:
            yield from self.enables_options()

    def enables_options(self):
        options = self.dice.choice((0, 1, 8, 0x10, 0xC0, 0x20, 0x39))
        yield from self.insists(self.base + 7, 4, 0, 0, 0, options)

    def works(self):
        if self.dice.random() < 0.01:
            yield from self.enables_options()
        else:
            yield from super().works()

    def goes_on(self, vend):
        draw = self.dice.random()
        if self.device.needs_no_session and self.view == "none" and draw < 0.65:
            if draw < 0.05:
                self.say(vend, 4)
            else:
                self.sale = (vend, 0, 0, self.dice.choice((10, 25)), 0, self.dice.randrange(9))
                self.say(*self.sale)
            return
        if self.device.needs_no_session and self.view == "asked" and draw < 0.2:
            self.say(vend, 1)
            return
        may_go_on = self.is_refused and self.device.is_long and self.view in self.UNDECIDED
        if may_go_on and self.dice.random() < 0.6:
            self.view = "idle"
        super().goes_on(vend)

    def says(self, command):
        if command[0] == self.base + 3 and command[1] < 5:
            self.is_refused = False
        super().says(command)

    def hears_nak(self, command):
        self.is_refused = command[0] == self.base + 3 and command[1] < 5

    def hears(self, command, heard):
        super().hears(command, heard)
        for message in heard.messages:
            if message[0] == 0x0B and (len(message) == 1 or 1 <= message[1] <= 4):
                self.is_refused = True


class LateCoins:
    """A changer that tells a coin that was on its way as it was reset: of a type that it took before."""

    once_enabled, on_its_way = 0, ()

    def hears(self, command):
        self.once_enabled |= self.enabled
        return super().hears(command)

    def power_on(self):
        super().power_on()
        kinds = [kind for kind in range(16) if self.once_enabled >> kind & 1]
        if kinds and self.dice.random() < 0.3 and not getattr(self.bus, "is_base", False):
            self.on_its_way = [self.dice.choice(kinds)]

    def coins(self):
        if not self.on_its_way or self.room() < 2 or self.dice.random() < 0.3:
            return super().coins()
        (kind,), self.on_its_way = self.on_its_way, ()
        self.gained.append(("coins-in", self.value(kind)))
        return [(self.dice.choice((0x40, 0x50)) + kind, self.dice.randrange(60))]


class LateBills:
    """A validator that tells after a reset that it has stacked a bill as it was ordered before."""

    escrow, order, on_its_way = None, None, ()

    def power_on(self):
        ordered = self.escrow if self.order == "stack" else None
        super().power_on()
        if ordered is not None and self.dice.random() < 0.7 and not getattr(self.bus, "is_base", False):
            self.on_its_way = [ordered]

    def bills(self):
        if not self.on_its_way:
            return super().bills()
        if self.dice.random() < 0.3:
            return []
        (kind,), self.on_its_way = self.on_its_way, ()
        self.gained.append(("bills-in", self.value(kind)))
        return [(0x80 + kind,)]


class Changer(LateCoins, joined.Changer):
    pass


class Recycler(LateBills, joined.Validator):
    """A validator that stacks into a recycler, and says what becomes of its bills."""

    def again(self, message):
        return message

    def bills(self):
        fresh = super().bills()
        return [
            (message[0] + 0x30,) if message[0] < 0x90 and self.dice.random() < 0.6 else message
            for message in fresh
        ]

    def statuses(self):
        if self.dice.random() < 0.9:
            return []
        return [(self.dice.randrange(0xD0, 0x100),)]


class RecyclerController(joined.ValidatorController):
    def is_kept(self, message):
        return 0x80 <= message[0] < 0xC0

    def is_money(self, message):
        return message[0] & 0xF0 in (0x80, 0xB0)

    def hears(self, command, heard):
        messages = [
            (head - 0x30,) if head & 0xF0 == 0xB0 else (head,) for (head,) in heard.messages
        ]
        super().hears(command, heard._replace(messages=messages))


MACHINES = {
    "changer": (Changer, joined.ChangerController),
    "bill": (Recycler, RecyclerController),
    "cashless": (Reader, ReaderController),
    "cashless-2": (Reader, ReaderController),
}


def played(dice):
    """A whole recording from power-on, with the truth of it."""
    return other_times.played(dice, joined.recording(dice, MACHINES))


def habitual(dice):
    """The rows of a machine with readers of all habits."""
    kind = dice.choice(("readers", "readers", "whole"))
    return honest_play.recording_of(dice.random(), 0, kind, set())[0].rows


# Single talks.

HEADS = (*range(0x12), 0x03, 0x05, 0x0B, 0x12, 0xFF)
LENGTHS = {0x01: 8, 0x05: 3, 0x0A: 2, 0x0F: 3}


def message(dice, is_long, heads=HEADS):
    """One of these messages, mostly of the length that it has in this format."""
    head = dice.choice(heads)
    length = LENGTHS.get(head, 1)
    if head == 0x02:
        length = dice.choice((1, 2, 20, 34, 35))
    elif head == 0x03:
        length = 10 if is_long else 3
    elif head == 0x09:
        length = dice.choice((30, 30, 34, 34, 33))
    elif head == 0x0B and is_long:
        length = dice.choice((1, 2, 2))
    if dice.random() < 0.03:
        length = max(length + dice.choice((-1, 1)), 1)
    fill = dice.choice(((0,), (0, 1, 2, 3, 4, 5), (0xFF,), range(0x12)))
    return [head, *(dice.choice(fill) for _ in range(length - 1))]


def messages(dice, is_long):
    """A list of messages that fits into a block."""
    content = message(dice, is_long)
    while len(content) < 35 and dice.random() < 0.4:
        more = message(dice, is_long)
        content = content + more if dice.random() < 0.5 else more + content
    if dice.random() < 0.2:
        content = [0x0B, dice.choice((1, 3, 5)), *content]
    return content[:35]


def transactions(dice, base):
    """A transaction of each kind."""
    vend = base + 3
    request = (vend, 0, 0, dice.choice((10, 25)), 0, 5)
    return request, (vend, 1), (vend, 2, 0, 5), (vend, 3), (vend, 4)


def other_command(dice, base):
    """A command that is no transaction, mostly POLL."""
    setup = (base + 1, 0, dice.choice((1, 3)), 0, 0, 0)
    others = (base + 4, 1), (base + 4, 2), setup, (base + 7, 4, 0, 0, 0, 1)
    return dice.choice(((base + 2,),) * 3 + others)


def config(dice, level):
    return 1, level, 0, 1, dice.choice((1, 1, 5)), 2, dice.choice((5, 5, 9)), 0


def sets_up(bus, base, asked, own, is_wild):
    """SETUP and READER ENABLE, perhaps in one of many ways: SETUP may be missing, or unanswered."""
    dice = bus.dice
    way = dice.randrange(9 if is_wild else 6)
    setup = (base + 1, 0, asked, 16, 2, 0)
    if way < 4:
        yield from without.told(bus, setup, *config(dice, own))
    elif way < 6:
        yield from without.taken(bus, *setup)
        if way == 4:
            yield from without.tells(bus, base, *config(dice, own))
    elif way == 6:
        yield from without.told(bus, (base + 2,), *config(dice, 1), *config(dice, own))
    elif way == 7:
        bus.ask(*setup)
        if dice.random() < 0.3:
            bus.nak()
    if dice.random() < 0.15:
        yield from options(bus, base)
    if is_wild and dice.random() < 0.4:
        told = messages(dice, dice.random() < 0.5)
        yield from without.told(bus, other_command(dice, base), *told)
    yield from without.taken(bus, base + 4, 1)


def options(bus, base):
    """ENABLE OPTIONS, mostly with bits that are followed; the sum may be wrong."""
    dice = bus.dice
    options = [0, 0, 0, dice.choice((0x01, 0x08, 0x10, 0x40, 0x80))]
    if dice.random() < 0.5:
        options[dice.choice((0, 1, 2, 3, 3))] |= dice.choice((0x02, 0x04, 0x20, 0x20))
    command = (base + 7, 4, *options)
    if dice.random() < 0.8:
        yield from without.taken(bus, *command)
        return
    bus.ask(*command)
    time, line, value = bus.rows[-1]
    bus.rows[-1] = (time, line, value ^ 1)


def reader(bus, base, careless):
    dice = bus.dice
    if dice.random() < 0.5:
        yield from without.taken(bus, base)
    yield from without.tells(bus, base, 0x00)
    is_wild = dice.random() < 0.5
    asked, own = (dice.choice((1, 2, 3, 3)) for _ in range(2))
    yield from sets_up(bus, base, asked, own, is_wild)
    while True:
        yield
        draw = dice.random() if is_wild else dice.uniform(0.35, 1)
        is_long = (asked >= 2 and own >= 2) != (dice.random() < careless)
        if dice.random() < careless:
            without.anything(bus, base)
        elif draw < 0.15:
            command = dice.choice(transactions(dice, base))
            command = dice.choice((other_command(dice, base), command))
            yield from without.told(bus, command, *messages(dice, is_long))
        elif draw < 0.2:
            told = message(dice, is_long, (0x09,))
            yield from without.told(bus, (base + 7, 0, *bytes(29)), *told)
        elif draw < 0.25:
            yield from options(bus, base)
        elif draw < 0.3:
            asked, own = (dice.choice((1, 2, 3)) for _ in range(2))
            yield from sets_up(bus, base, asked, own, is_wild)
        elif draw < 0.35:
            asked = dice.choice((1, 3))
            bus.ask(base + 1, 0, asked, 16, 2, 0)
        elif draw < 0.4:
            yield from without.taken(bus, base + 2)
        else:
            yield from session(bus, base, is_long, careless)


def session(bus, base, is_long, careless):
    """A session in which controller and reader do what they should."""
    dice = bus.dice
    vend = base + 3
    yield from without.tells(bus, base, 3, 0, 100, *(MEDIA if is_long else ()))
    for _ in range(dice.choice((0, 1, 1, 2, 3))):
        yield
        price = dice.choice((10, 25))
        request = (vend, 0, 0, price, 0, 5)
        approved = dice.random() < 0.8
        answer = (5, *dice.choice(((0, price), (0, price), (0xFF, 0xFF)))) if approved else (6,)
        if dice.random() < 0.3:
            yield from without.told(bus, request, *answer)
        else:
            yield from without.taken(bus, *request)
            yield from without.tells(bus, base, *answer)
        yield
        if dice.random() < careless:
            without.anything(bus, base)
        if approved:
            yield from without.taken(bus, *dice.choice(((vend, 2, 0, 5),) * 3 + ((vend, 3),)))
    if dice.random() < 0.5:
        yield from without.told(bus, (vend, 4), 7)
    else:
        yield from without.taken(bus, vend, 4)
        yield from without.tells(bus, base, 7)


class Seller:
    """A controller and a reader that ask and tell anything at any time. What they may is known here, so that
    most of it is possible: what the reader may approve, what it may tell again, and the controller's sale."""

    def __init__(self, bus, base, careless):
        self.bus, self.dice, self.base, self.careless = bus, bus.dice, base, careless
        self.levels = self.dice.choice(((3, 3), (3, 3), (2, 3), (1, 1), (3, 1), (1, 3)))
        self.is_asked, self.may_repeat, self.told = False, False, []
        self.sale, self.sold = "none", ()
        self.price = self.dice.choice((10, 25))

    def talk(self):
        dice = self.dice
        if dice.random() < 0.6:
            yield from sets_up(self.bus, self.base, *self.levels, dice.random() < 0.1)
        while True:
            if dice.random() < self.careless:
                without.anything(self.bus, self.base)
            elif dice.random() < 0.03:
                yield from options(self.bus, self.base)
            elif dice.random() < 0.03:
                yield from sets_up(self.bus, self.base, *self.levels, False)
            else:
                self.turn()
            yield

    def turn(self):
        """A command and what comes of it."""
        bus, dice = self.bus, self.dice
        command = self.command()
        bus.ask(*command)
        self.asks(command)
        draw = dice.random()
        if draw < 0.06:
            return
        if draw < 0.1:
            return bus.nak()
        tells = dice.random() < (0.75 if len(command) == 1 and command[0] != self.base else 0.35)
        told = self.messages() if tells else []
        if not told:
            bus.ack()
            self.takes(command)
            if command == (self.base + 2,):
                self.may_repeat = False
            return
        if all(message[0] != 0x0B for message in told):
            self.takes(command)
        self.answers([byte for message in told for byte in message], [m for m in told if m[0] == 5], told)

    def answers(self, content, approvals, told):
        """A reply, and what the controller says to it."""
        bus, dice = self.bus, self.dice
        bus.reply(*content)
        if approvals:
            self.is_asked = self.is_asked and approvals[: len(self.told)] == self.told and len(approvals) == len(self.told)
            self.may_repeat, self.told = True, approvals
        while dice.random() < 0.1:
            bus.vmc(without.RET)
            if dice.random() < 0.2:
                return
            bus.reply(*content)
        draw = dice.random()
        if draw < (0.55 if approvals else 0.8):
            bus.vmc(without.ACK)
            self.hears(told)
            self.may_repeat = self.may_repeat and (not approvals or dice.random() < 0.4)
        elif draw < 0.9:
            bus.vmc(without.NAK)

    def command(self):
        """Mostly one of a sale, or POLL."""
        dice, vend = self.dice, self.base + 3
        if dice.random() < 0.1:
            self.price = dice.choice((10, 25))
        request, success = (vend, 0, 0, self.price, 0, 5), (vend, 2, 0, dice.choice((5, 5, 5, 6)))
        may_sell = self.sale == "approved" or self.sale == "sold" and success == self.sold
        if may_sell and dice.random() < 0.5 or dice.random() < self.careless / 4:
            return success
        others = (vend, 1), (vend, 1), (vend, 3), (vend, 4), (vend, 5, 0, 25, 0, 7), (self.base,)
        ables = tuple((self.base + 4, able) for able in range(3))
        weighed = ((self.base + 2,), 30), (request, 20), (dice.choice(others), 8), (dice.choice(ables), 3)
        return dice.choices(*zip(*weighed))[0]

    def asks(self, command):
        """What a command means for the sale."""
        base, sale = self.base, self.sale
        if command == (base,):
            self.sale = "none"
        if command[0] != base + 3 or command[1] == 5:
            return
        if command[1] == 0:
            self.is_asked, self.sale = True, "awaited"
        elif command[1] == 1:
            self.sale = sale if sale in ("awaited", "asked") else "none"
        else:
            self.sale = "sold" if command[1] == 2 else "none"
            self.sold = command

    def takes(self, command):
        if command == (self.base,):
            self.is_asked = self.may_repeat = False

    def hears(self, told):
        for message in told:
            if message[0] == 5 and self.sale in ("awaited", "asked"):
                self.sale = "approved"
            elif message[0] in (0, 6) and self.sale == "awaited":
                self.sale = "asked"

    def messages(self):
        """Messages of all kinds; and perhaps what was approved, or is now."""
        dice, is_long = self.dice, min(self.levels) >= 2
        begin = (3, 0, 100, *(MEDIA if is_long != (dice.random() < 0.05) else ()))
        refusal = (0x0B, dice.choice((1, 2, 3, 4, 5))) if is_long else (0x0B,)
        others = begin, (6,), (7,), (4,), (8,), (0x0A, 0x30), refusal, (0,), (0x11,) if is_long else (4,)
        told = [dice.choice(others) for _ in range(dice.choice((0, 0, 1, 1, 2)))]
        approvals, new = [], (5, 0, dice.choice((self.price, self.price, 10, 25)))
        if self.may_repeat and dice.random() < 0.6:
            approvals += self.told
        if self.is_asked and dice.random() < 0.5 or dice.random() < self.careless / 4:
            approvals.append(new)
        places = sorted(dice.randint(0, len(told)) for _ in approvals[:4])
        for place, approval in reversed([*zip(places, approvals)]):
            told.insert(place, approval)
        return told


def seller(bus, base, careless):
    return Seller(bus, base, careless).talk()


def recycler(bus, careless):
    """A validator whose bills go to a recycler, mostly."""
    dice = bus.dice
    talk = without.validator(bus, careless)
    for _ in range(dice.choice((5, 8))):
        next(talk)
    while True:
        yield
        draw = dice.random()
        bill = dice.randrange(2)
        if draw < 0.35:
            yield from without.tells(bus, 0x30, 0x90 + bill)
            yield from without.taken(bus, 0x35, dice.random() < 0.8)
            yield from without.tells(bus, 0x30, dice.choice((0x80, 0xB0, 0xB0, 0xA0)) + bill)
        elif draw < 0.55:
            heads = dice.choices((0x80, 0xB0, 0xB0, 0xD0, 0xE0, 0xF0), k=dice.randint(1, 3))
            yield from without.tells(bus, 0x30, *(head + dice.randrange(2) for head in heads))
        elif draw < 0.65:
            bus.ask(0x37, dice.randint(3, 10), 0, 1)
            bus.ack()
        else:
            next(talk)


def masked(bus, base):
    """A changer or a validator that is reset, broken off and enabled for few types at any time, and tells
    coins or bills, mostly of types that it once took."""
    dice, once = bus.dice, {0}
    reset, mask, heads = (0x0B, 0x0C, (0x40, 0x50)) if base == 8 else (0x06, 0x34, (0x80, 0x80, 0xB0))
    tail = [9] * (base == 8)
    yield from without.tells(bus, base, reset)
    while True:
        yield
        draw, kind = dice.random(), dice.choice([*once] * 4 + [3])
        if draw < 0.35:
            types = dice.choice((0, 1, 2, 3, 5))
            bus.ask(mask, 0, types, 0, 0xFF)
            dice.choice((bus.ack, bus.ack, bus.ack, bus.nak, lambda: None))()
            once |= {bit for bit in range(3) if types >> bit & 1}
        elif draw < 0.6:
            yield from is_reset(bus, base)
            yield from without.tells(bus, base, reset, *[dice.choice(heads) + kind, *tail] * dice.randrange(2))
        elif draw < 0.8 or base == 8:
            yield from without.tells(bus, base, dice.choice(heads) + kind, *tail)
        else:
            yield from without.tells(bus, base, 0x90 + kind)
            yield from without.taken(bus, 0x35, dice.random() < 0.8)
            if dice.random() < 0.7:
                yield from is_reset(bus, base)
                yield from without.tells(bus, base, reset)
            yield from without.tells(bus, base, dice.choice(heads) + kind)


def is_reset(bus, base):
    """A break, or a RESET, which may not be taken."""
    if bus.dice.random() < 0.4:
        bus.hold()
    else:
        bus.ask(base)
        bus.dice.choice((bus.ack, bus.ack, bus.ack, bus.nak, lambda: None))()
    yield


def talks(bus, dice):
    """Those of some devices from power-on, and perhaps of others."""
    if dice.random() < 0.15:
        return [masked(bus, dice.choice((0x08, 0x30)))]  # alone, since it breaks off
    careless = dice.choice((0, 0, 0, 0.02, 0.1))
    made = [dice.choice((reader, seller, seller))(bus, base, careless) for base in without.READERS]
    made = dice.sample(made, dice.choice((0, 1, 1, 1, 1, 2)))
    if not made or dice.random() < 0.15:
        made.append(recycler(bus, careless))
    if dice.random() < 0.05:
        made.append(without.changer(bus, careless))
    if dice.random() < 0.1:
        made.append(without.others(bus))
    return made


def talked(dice):
    """The rows of some talks at once, mostly at other times, perhaps with some of them damaged."""
    rows = other_times.sometimes(dice, without.generated(dice, talks, dice.choice((150, 300, 500))))
    for _ in range(dice.choice((0, 0, 0, 0, 1, 1, 2))):
        if rows:
            rows = without.changed(dice, rows)
    return rows
