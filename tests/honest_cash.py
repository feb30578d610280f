"""Coin changers and bill validators of tests/honest, and what a controller wants of them.

A device keeps what it told until it heard that the controller acknowledged it, and tells it again,
first and in the same order. What it hasn't told yet survives a RESET, a restart or a dip, if it has
that habit: a coin on its way, a bill that was ordered.
"""

from honest_bus import ACK, NAK, RET


class Message:
    """What a device has to tell: its bytes, and what it writes into its book as it tells it."""

    def __init__(self, data, account=None, amount=0):
        self.data, self.account, self.amount = tuple(data), account, amount


def flat(messages):
    return tuple(byte for message in messages for byte in message.data)


class Teller:
    """What changer and validator have in common."""

    name, room, resets = "", 16, ()
    reset_message, statuses = 0, ()

    def __init__(self, random, habits, recording):
        self.random, self.habits, self.recording = random, habits, recording
        self.accepts = 0  # the types that the controller enabled
        self.waiting, self.told = [], []  # messages: not yet told; told, and perhaps not heard
        self.owes_reset, self.dropped = True, False
        self.jam = 0
        self.when_heard = None

    def chance(self, habit):
        return self.random.random() < self.habits[habit]

    def answer(self, ask):
        """What it answers, and what it does once it has said it."""
        self.when_heard = None
        if self.jam:
            self.jam -= 1
            return None, None
        if self.chance("deaf"):
            return self.random.choice((None, NAK)), None
        if ask == self.resets and self.chance("silent reset"):
            self.restart()
            return None, None
        return self.carry_out(ask)

    def heard(self):
        """It hears that the controller acknowledged its data."""
        if self.when_heard:
            self.when_heard()

    def repeats(self):
        return not self.chance("no repeat")

    def poll(self):
        """The answer to POLL: the reset message, what it told before, and what is new."""
        reset = (self.reset_message,) if self.owes_reset else ()
        if reset and not self.told and not self.dropped and self.chance("boots"):
            return ACK, None  # it isn't ready yet
        if reset and not self.told and self.chance("reset alone"):
            news = []
        else:
            news = self.news(self.room - len(reset) - len(flat(self.told)))
        messages = self.told + news
        if not reset and not messages and not self.chance("status"):
            return ACK, None

        def effect():
            self.told, self.waiting = messages, self.waiting[len(news) :]
            self.when_heard = self.let_go
            for message in news:
                self.recording.note(message.account, "device", message.amount)

        return self.with_statuses(reset, messages), effect

    def news(self, room):
        """The new messages that it tells now: as many as fit, or one at a time, or later."""
        if self.chance("later") or (self.told and not self.chance("lists")):
            return []
        news = []
        for message in self.waiting[: None if self.chance("lists") else 1]:
            room -= len(message.data)
            if room < 0:
                break
            news.append(message)
        return news

    def with_statuses(self, reset, messages):
        """The bytes of an answer to POLL, with some statuses between them."""
        parts = [reset] + [self.again(message) for message in messages]
        room = self.room - sum(len(part) for part in parts)
        while room and (self.chance("status") or not any(parts)):
            parts.insert(self.random.randint(0, len(parts)), (self.random.choice(self.statuses),))
            room -= 1
        return tuple(byte for part in parts for byte in part)

    def again(self, message):
        return message.data

    def let_go(self):
        self.told, self.owes_reset = [], False

    def reset(self):
        """It takes RESET, or has its power back."""
        self.survives()
        self.told, self.accepts = [], 0
        self.owes_reset, self.dropped = True, False

    def restart(self):
        """It starts anew by itself."""
        self.reset()
        self.dropped = True

    def survives(self):
        """It forgets what it hasn't told. Or it doesn't, and money comes that was on its way."""
        if not self.chance("on its way"):
            self.waiting = []
        elif self.accepts and self.random.random() < 0.5:
            self.money(self.random.choice(self.accepted()))

    def accepted(self):
        return [kind for kind in range(16) if self.accepts >> kind & 1]


class Changer(Teller):
    name, reset_message, resets = "changer", 0x0B, (0x08,)
    statuses = (0x01, 0x02, 0x03, 0x04, 0x05, 0x06, 0x07, 0x09, 0x0A, 0x0C, 0x21, 0x22)

    def __init__(self, random, habits, recording):
        super().__init__(random, habits, recording)
        self.scale = random.choice((1, 5, 10, 25))
        self.credits = self.some_credits(random)
        self.level = random.choice((2, 3))
        self.places = random.choice((0, 2, 2, 3))
        self.tubes = [random.randint(0, 30) for _ in range(16)]

    @staticmethod
    def some_credits(random):
        """Of up to 16 types: coins, and now and then a token or a type that isn't used."""
        coins = sorted(random.sample((1, 2, 4, 5, 10, 20, 40, 100, 200), random.randint(2, 6)))
        return [random.choice((coin,) * 12 + (0xFF, 0)) for coin in coins]

    def value(self, kind):
        credit = self.credits[kind] if kind < len(self.credits) else 0
        return 0 if credit == 0xFF else self.scale * credit

    def carry_out(self, ask):
        """The answer to a command that it heard."""
        if ask[0] == 0x0B:
            return self.poll()
        if ask[0] == 0x08:
            return ACK, self.reset
        if ask[0] == 0x09:
            block = (self.level, 0x00, 0x01, self.scale, self.places, 0x00, 0x07, *self.credits)
            return block, lambda: self.recording.setup("changer", "setup", block)
        if ask[0] == 0x0A:
            return (0, 0, *self.tubes[: len(self.credits)]), None
        if ask[0] == 0x0C:
            return ACK, lambda: self.enable(ask[1] << 8 | ask[2])
        if ask[0] == 0x0D:
            return self.dispense(ask[1] >> 4, ask[1] & 15)
        return (ACK, None) if ask[1] else (tuple(b"ABC" + b"0" * 26 + bytes((1, 2, 0, 3))), None)

    def enable(self, types):
        self.accepts = types

    def dispense(self, count, kind):
        """It pays what it acknowledges, and may refuse."""
        if self.chance("refuses"):
            return self.random.choice((NAK, None)), None

        def pay():
            self.tubes[kind] = max(0, self.tubes[kind] - count)
            self.recording.note("paid-out", "device", count * self.value(kind))

        return ACK, pay

    def happens(self):
        """What may happen at the machine between two commands."""
        if self.chance("restarts"):
            self.restart()
        if self.chance("jams"):
            self.jam = self.random.randint(1, 6)
        while self.accepts and self.chance("money"):
            self.money(self.random.choice(self.accepted()))
        if self.accepts and self.chance("by hand"):
            count, kind = self.random.randint(0, 7), self.random.randrange(len(self.credits))
            self.tubes[kind] = max(0, self.tubes[kind] - count)
            hand = (0x80 | count << 4 | kind, self.tubes[kind])
            self.waiting.append(Message(hand, "paid-out", count * self.value(kind)))

    def money(self, kind):
        """A coin falls into the cash box or into a tube, or is rejected."""
        if self.chance("rejects"):
            self.waiting.append(Message((0x70 | kind, 0)))
            return
        tube = self.random.random() < 0.7
        self.tubes[kind] += tube
        first = (0x50 if tube else 0x40) | kind
        data = (first, min(255, self.tubes[kind]))
        self.waiting.append(Message(data, "coins-in", self.value(kind)))

    def again(self, message):
        """The coins in the tube are those of now, if it counts anew when it tells again."""
        first, count = message.data
        if first < 0x70 and self.habits["counts anew"]:
            return first, min(255, self.tubes[first & 15])
        return first, count


class Validator(Teller):
    name, reset_message, resets = "bill", 0x06, (0x30,)
    statuses = (0x01, 0x02, 0x03, 0x05, 0x08, 0x09, 0x0A, 0x0B, 0x21, 0x41, 0xC1)
    recycler_statuses = (0xD1, 0xD0, 0xE1, 0xF0, 0xFF, 0xEF)

    def __init__(self, random, habits, recording):
        super().__init__(random, habits, recording)
        self.scale = random.choice((1, 10, 100, 500))
        self.credits = sorted(random.sample((1, 2, 5, 10, 20, 50), random.randint(1, 5)))
        self.places = random.choice((0, 2))
        self.has_escrow = random.random() < 0.8
        self.recycles = random.random() < habits["recycler"]
        if self.recycles:
            self.statuses += self.recycler_statuses
        self.escrow, self.moving, self.announced = None, None, False
        self.escrow_types = 0

    def value(self, kind):
        return self.scale * self.credits[kind] if kind < len(self.credits) else 0

    def carry_out(self, ask):
        """The answer to a command that it heard."""
        if ask[0] == 0x33:
            return self.poll()
        if ask[0] == 0x30:
            return ACK, self.reset
        if ask[0] == 0x31:
            scale = (self.scale >> 8, self.scale & 0xFF)
            escrow = 0xFF if self.has_escrow else 0
            block = (1, 0x00, 0x01, *scale, self.places, 0x01, 0xF4, 0, 0, escrow, *self.credits)
            return block, lambda: self.recording.setup("bill", "setup", block)
        if ask[0] == 0x34:
            return ACK, lambda: self.enable(ask[1] << 8 | ask[2], ask[3] << 8 | ask[4])
        if ask[0] == 0x35:
            return self.order(ask[1] & 1)
        if ask[0] == 0x36:
            return (0, self.random.randint(0, 200)), None
        if ask[0] == 0x37 and ask[1] != 1:
            return tuple(b"ABC" + b"0" * (26 if ask[1] == 0 else 30)), None
        return ACK, None

    def enable(self, types, escrow):
        self.accepts, self.escrow_types = types, escrow

    def order(self, stack):
        """ESCROW: an order for the bill that it told to be in escrow."""
        if self.chance("refuses") or (self.escrow is not None and not self.announced):
            return self.random.choice((NAK, None)), None

        def effect():
            if self.escrow is not None and self.moving is None:
                self.moving = "stack" if stack else "return"

        return ACK, effect

    def poll(self):
        said, effect = super().poll()
        if effect is None:
            return said, None

        def also():
            effect()
            self.announced = not any(message.data[0] >> 4 == 9 for message in self.waiting)

        return said, also

    def happens(self):
        """What may happen at the machine between two commands."""
        if self.chance("restarts"):
            self.restart()
        if self.chance("jams"):
            self.jam = self.random.randint(1, 6)
        if self.moving and self.random.random() < 0.6:
            self.settle(self.moving)
        rests = self.escrow is not None and self.announced and not self.moving
        if rests and self.chance("returns"):
            self.settle("return")
        if self.escrow is None and self.accepts and self.chance("money"):
            self.money(self.random.choice(self.accepted()))
        if self.escrow is None and self.chance("rejects"):
            self.waiting.append(Message((0xA0 | self.random.randrange(len(self.credits)),)))

    def money(self, kind):
        """A bill comes: it is held in escrow, or stacked at once."""
        if self.has_escrow and self.escrow_types >> kind & 1:
            self.escrow, self.moving, self.announced = kind, None, False
            self.waiting.append(Message((0x90 | kind,)))
        else:
            self.waiting.append(self.stacked(kind))

    def stacked(self, kind):
        to_recycler = self.recycles and self.random.random() < 0.5
        return Message(((0xB0 if to_recycler else 0x80) | kind,), "bills-in", self.value(kind))

    def settle(self, how):
        """The bill in escrow is stacked or returned: an order to stack it may fail."""
        stacks = how == "stack" and not self.chance("returns")
        self.waiting.append(self.stacked(self.escrow) if stacks else Message((0xA0 | self.escrow,)))
        self.escrow, self.moving = None, None

    def survives(self):
        """A bill that was ordered is stacked, and told after the reset message. Others go back."""
        if self.escrow is not None:
            self.settle(self.moving or "return")
        super().survives()
        self.escrow = None
        self.waiting = [message for message in self.waiting if message.data[0] >> 4 != 9]


class Desk:
    """What a controller wants of one device: first to make it ready, then to poll it."""

    poll, resets, setup = (), (), 0
    reset_message = 0

    def __init__(self, random, habits, recording, device):
        self.random, self.habits, self.recording, self.device = random, habits, recording, device
        self.tries = 0
        self.todo = []
        self.start()

    def chance(self, habit):
        return self.random.random() < self.habits[habit]

    def start(self):
        """The power is back."""
        self.todo = [self.resets] if not self.chance("no RESET") else []
        self.todo += ["until reset", *self.ready()]
        self.tries = 0

    def next_ask(self):
        """The next command."""
        if self.todo and self.random.random() < 0.85:
            step = self.todo[0]
            if self.tries > 6 and step != self.setup:
                self.done()
            return self.poll if step == "until reset" else step
        return self.other() if not self.todo and self.chance("other") else self.poll

    def done(self):
        self.todo, self.tries = self.todo[1:], 0

    def asked(self, ask):
        """The command was sent whole."""
        self.tries += 1

    def told(self, ask, said):
        """It hears an ACK or a NAK."""
        if said == ACK and self.todo and self.todo[0] == ask:
            self.done()

    def verdict(self, heard):
        """What it answers to data, which it may not have got."""
        if heard:
            return self.random.choice((NAK, RET, None)) if self.chance("fussy") else ACK
        return self.random.choice((NAK, RET, RET, None))

    def acknowledged(self, ask, data):
        """It has acknowledged data."""
        if ask == self.poll:
            for message in self.messages(data):
                self.message(message)
        elif self.todo and self.todo[0] == ask:
            self.done()

    def was_reset(self):
        """The device told that it was reset."""
        if self.todo and self.todo[0] == "until reset":
            self.done()
        elif not self.todo:
            self.todo, self.tries = self.ready(), 0


class CoinDesk(Desk):
    poll, resets, setup = (0x0B,), (0x08,), (0x09,)

    def start(self):
        super().start()
        self.unsure = None  # the last DISPENSE, as long as its end isn't known

    def ready(self):
        """What makes a changer ready."""
        types = (1 << len(self.device.credits)) - 1 if self.device else 0xFFFF
        enable = (0x0C, types >> 8, types & 0xFF, types >> 8, types & 0xFF)
        extras = [(0x0F, 0x00), (0x0F, 0x01, 0, 0, 0, 2), (0x0A,)]
        return [self.setup, *(extra for extra in extras if self.random.random() < 0.4), enable]

    def other(self):
        """A command that comes now and then."""
        kinds = len(self.device.credits) if self.device else 4
        turn = self.random.random()
        if turn < 0.4:
            coins = self.random.randint(1, 4) << 4 | self.random.randrange(kinds)
            return (0x0D, self.unsure if self.unsure is not None and turn < 0.3 else coins)
        if turn < 0.6:
            types = self.random.getrandbits(kinds) if self.random.random() < 0.6 else 0
            return (0x0C, types >> 8, types & 0xFF, 0, types & 0xFF)
        if turn < 0.7 and self.chance("RESET again"):
            self.todo = [self.resets, "until reset", *self.ready()]
            return self.resets
        if turn < 0.8 and not self.todo:
            self.todo = [self.ready()[-1]]
        return (0x0A,)

    def asked(self, ask):
        """It writes down what it asks for. The same again isn't new while its end isn't known."""
        super().asked(ask)
        if ask == self.resets:
            self.unsure = None
        if ask[0] == 0x0D and ask[1] != self.unsure:
            value = self.device.value(ask[1] & 15) if self.device else 0
            self.recording.note("paid-out", "controller", (ask[1] >> 4) * value)
        if ask[0] == 0x0D:
            self.unsure = ask[1]

    def told(self, ask, said):
        super().told(ask, said)
        if ask[0] == 0x0D and said == ACK:
            self.unsure = None

    @staticmethod
    def messages(data):
        """The messages of an answer to POLL."""
        while data:
            length = 2 if data[0] >> 4 in (4, 5, 7) or data[0] >= 0x80 else 1
            yield data[:length]
            data = data[length:]

    def message(self, message):
        first, kind = message[0], message[0] & 15
        if first == 0x0B:
            self.unsure = None
            self.was_reset()
        elif first >= 0x80:
            amount = (first >> 4 & 7) * self.device.value(kind)
            self.recording.note("paid-out", "controller", amount)
        elif first >> 4 in (4, 5):
            self.recording.note("coins-in", "controller", self.device.value(kind))


class BillDesk(Desk):
    poll, resets, setup = (0x33,), (0x30,), (0x31,)

    def start(self):
        super().start()
        self.order = None  # the order for a bill in escrow, until it is acknowledged

    def ready(self):
        """What makes a validator ready."""
        enable = self.types((1 << len(self.device.credits)) - 1 if self.device else 0xFFFF)
        extras = [(0x37, 0x00), (0x37, 0x02), (0x37, 0x01, 0, 0, 0, 2), (0x32, 0, 0), (0x36,)]
        return [self.setup, *(extra for extra in extras if self.random.random() < 0.3), enable]

    def types(self, types):
        escrow = types & self.random.choice((0xFFFF, 0xFFFF, 0x5555, 0))
        return (0x34, types >> 8, types & 0xFF, escrow >> 8, escrow & 0xFF)

    def next_ask(self):
        if self.order and not self.todo and self.random.random() < 0.6:
            return self.order
        return super().next_ask()

    def other(self):
        """A command that comes now and then."""
        turn = self.random.random()
        if turn < 0.3:
            kinds = len(self.device.credits) if self.device else 4
            return self.types(self.random.getrandbits(kinds))
        if turn < 0.4 and self.chance("RESET again"):
            self.todo = [self.resets, "until reset", *self.ready()]
            return self.resets
        if turn < 0.5:
            return (0x35, self.random.choice((0, 1)))
        if turn < 0.7 and not self.todo:
            self.todo = [self.ready()[-1]]
        return (0x36,)

    def asked(self, ask):
        super().asked(ask)
        if ask == self.resets:
            self.order = None

    def told(self, ask, said):
        super().told(ask, said)
        if ask == self.order and (said == ACK or self.random.random() < 0.3):
            self.order = None

    @staticmethod
    def messages(data):
        return ((byte,) for byte in data)

    def message(self, message):
        kind, high = message[0] & 15, message[0] >> 4
        if message[0] == 0x06:
            self.order = None
            self.was_reset()
        elif high in (8, 0xB):
            self.recording.note("bills-in", "controller", self.device.value(kind))
        elif high == 9:
            self.order = (0x35, 1 if self.random.random() < 0.75 else 0)
        elif high == 0xA:
            self.order = None
