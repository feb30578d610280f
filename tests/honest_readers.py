"""Cashless readers of tests/honest, of feature levels 1 to 3, and what a controller wants of them.

A reader approves what it was asked for, once for each request. It may tell an approval again until
it hears that the controller acknowledged it. What it has sold is what it acknowledged: a VEND
SUCCESS behind an approval that no other sale used. All else it does as it likes.
"""

from honest_bus import ACK, NAK
from honest_cash import Desk

BASES = {"cashless": 0x10, "cashless-2": 0x60}
RESET, SETUP, POLL, VEND, READER, EXPANSION = 0, 1, 2, 3, 4, 7
REQUEST, CANCEL, SUCCESS, FAILURE, COMPLETE, CASH_SALE = range(6)
UNKNOWN = 0xFFFF  # an approval of an amount that isn't known

CODES = {"reset": 0x00, "cancel": 0x04, "deny": 0x06, "end": 0x07, "cancelled": 0x08, "time": 0x11}


def account(name, of):
    """The name of a reader's account."""
    return of + ("-2" if name == "cashless-2" else "")


class Item:
    """A message of a reader, before it is bytes."""

    def __init__(self, kind, amount=0, data=()):
        self.kind, self.amount, self.data = kind, amount, tuple(data)


class Reader:
    room = 35

    def __init__(self, random, habits, recording, name):
        self.random, self.habits, self.recording, self.name = random, habits, recording, name
        self.base = BASES[name] - 0x10
        self.level = random.choice((1, 2, 3, 3))
        self.scale = random.choice((1, 1, 5, 10))
        self.config = (0x01, self.level, 0x19, 0x78, self.scale, random.choice((0, 2)), 5, 0)
        kinds = ("begin", "approve", "deny", "end")
        self.keeps = {kind for kind in kinds if not self.chance("once")}
        self.forget()

    def chance(self, habit):
        return self.random.random() < self.habits[habit]

    def note(self, of, amount):
        self.recording.note(account(self.name, of), "device", amount * self.scale)

    def forget(self):
        """It starts anew, and forgets all that it was about to do."""
        self.controller_level = None
        self.enabled, self.session, self.always_idle = False, False, False
        self.queue, self.told, self.last = [], [], None
        self.pending = None  # the price of a request that isn't decided
        self.unsold = None  # the last approval that it told, as long as no sale used it
        self.owes_reset, self.silent_reset = True, True
        self.when_heard = None

    reset = forget

    @property
    def long(self):
        """Whether messages have the form of levels 2 and 3."""
        return self.level >= 2 and (self.controller_level or 0) >= 2

    def answer(self, ask):
        """What it answers, and what it does once it has said it."""
        self.when_heard = None
        if self.chance("deaf"):
            return self.random.choice((None, NAK)), None
        command = ask[0] - self.base - 0x10
        if command == RESET:
            return self.take_reset()
        if command == SETUP:
            return self.take_setup(ask)
        if command == POLL:
            return self.poll()
        if command == VEND:
            return self.vend(ask)
        return self.switch(ask) if command == READER else self.expand(ask)

    def take_reset(self):
        """RESET: it acknowledges it, answers with the reset message, or does it without a word."""
        if self.chance("silent reset"):
            self.forget()
            return None, None
        if not self.chance("at once"):
            return ACK, self.forget

        def effect():
            self.forget()
            self.commit([], reset=True)

        self.said = [Item("reset")]
        return (0x00,), effect

    def take_setup(self, ask):
        """SETUP: the config comes at once, or by a later POLL."""
        if ask[1] == 1:
            return ACK, None

        def effect():
            self.controller_level = ask[2]
            self.queue = [item for item in self.queue if item.kind != "config"] + [Item("config")]

        if not self.chance("at once"):
            return ACK, effect

        def at_once():
            self.controller_level = ask[2]
            self.recording.setup(self.name, "setup", self.config)

        self.said = [Item("config")]
        return self.config, at_once

    def poll(self):
        """What it has to tell: first again what it told and nobody heard."""
        reset = self.owes_reset and not (self.silent_reset and self.chance("boots"))
        nothing_new = self.chance("later") or (reset and self.chance("reset alone"))
        news = [] if nothing_new else self.news(reset)
        if not reset and not news and not self.told:
            return ACK, None
        return self.tell(reset, news)

    def news(self, reset):
        """The messages of the queue that it tells now."""
        most = len(self.queue) if self.chance("lists") else max(0, 1 - len(self.told))
        room = self.room - (1 if reset else 0) - sum(len(self.data(item)) for item in self.told)
        news = []
        for item in self.queue[:most]:
            bare = item.kind == "sequence" and not (self.long and item.data)
            alone = bare or item.kind in ("display", "id")
            room -= len(self.data(item))
            if room < 0 or (alone and (news or self.told or reset)):
                break
            news.append(item)
            if alone or item.kind == "config":
                break
        return news

    def tell(self, reset, news, also=None):
        """An answer with data, and what comes of it once it is told."""
        self.said = ([Item("reset")] if reset else []) + self.told + news
        block = tuple(byte for item in self.said for byte in self.data(item))

        def effect():
            if also:
                also()
            self.commit(news, reset)

        return block, effect

    def commit(self, news, reset):
        """It has told these for the first time, and perhaps that it was reset."""
        for item in news:
            if item.kind == "approve":
                self.unsold = item.amount
                self.note("approved", item.amount)
            elif item.kind == "config":
                self.recording.setup(self.name, "setup", self.config)
        self.queue = [item for item in self.queue if item not in news]
        self.told += [item for item in news if item.kind in self.keeps]
        self.when_heard = self.let_go
        if reset:
            self.silent_reset = False
            self.owes_reset = not self.chance("once")

    def heard(self):
        """It hears that the controller acknowledged its data."""
        if self.when_heard:
            self.when_heard()

    def let_go(self):
        self.told = []
        self.owes_reset = self.owes_reset and self.silent_reset

    def repeats(self):
        return not self.chance("no repeat")

    def data(self, item):
        """The bytes of a message."""
        if item.kind == "begin":
            return (0x03, *item.data) if self.long else (0x03, *item.data[:2])
        if item.kind == "approve":
            return (0x05, item.amount >> 8, item.amount & 0xFF)
        if item.kind == "config":
            return self.config
        if item.kind == "sequence":
            return (0x0B, *item.data) if self.long else (0x0B,)
        return item.data or (CODES[item.kind],)

    def vend(self, ask):
        """A command of a session: it takes it, or it refuses."""
        if self.silent_reset or (ask[1] != CASH_SALE and self.refuses(ask[1])):
            return self.refusal(later=not self.silent_reset and ask[1] != SUCCESS)
        same, self.last = ask == self.last, ask
        if same and self.told and ask[1] != SUCCESS and self.chance("same again"):
            return self.taken()
        if ask[1] not in (SUCCESS, CASH_SALE) and not same and self.chance("drops"):
            self.told = []
        if ask[1] == SUCCESS:
            return self.success()
        if ask[1] == CASH_SALE and not self.chance("anywhere"):
            return self.acknowledged()
        effects = {REQUEST: self.request, CANCEL: self.cancel, COMPLETE: self.complete}
        if ask[1] in effects:
            effects[ask[1]](ask)
        return self.taken()

    def refuses(self, what):
        """Whether it doesn't take a command, because of its state or because it isn't ready."""
        if what == REQUEST and self.controller_level is None:
            return True
        if what == REQUEST and not (self.session or self.always_idle):
            return not self.chance("takes all")
        return self.chance("refuses")

    def refusal(self, later):
        """Silence, NAK, or 0B: at once, or by a later POLL behind an ACK."""
        how = self.random.choice(("silence", "nak", "sequence", "later" if later else "silence"))
        if how == "silence":
            return None, None
        if how == "nak":
            return NAK, None
        item = Item("sequence", data=self.random.choice(((), (4,), (1,), (5,))))
        if how == "later":
            self.queue.append(item)
            return self.acknowledged()
        self.said = [item]
        return self.data(item), None

    def acknowledged(self):
        return ACK, None

    def taken(self, also=None):
        """It takes a command: by ACK, or with what it has to tell."""
        news = self.news(False) if self.chance("at once") else []
        if not news or "sequence" in [item.kind for item in news + self.told]:
            return ACK, also
        return self.tell(False, news, also)

    def request(self, ask):
        """VEND REQUEST. One decision at a time: what wasn't told of an earlier request is gone."""
        self.queue = [item for item in self.queue if item.kind not in ("approve", "deny")]
        self.pending = ask[2] << 8 | ask[3]
        if self.chance("at once"):
            self.decide()

    def decide(self):
        """It approves, or denies."""
        price, self.pending = self.pending, None
        if self.random.random() < 0.25:
            self.queue.append(Item("deny"))
            return
        others = (UNKNOWN, max(1, price - 1)) if self.chance("takes all") else ()
        self.queue.append(Item("approve", self.random.choice((price,) * 8 + others)))

    def cancel(self, _):
        """VEND CANCEL: it denies, or it approves all the same."""
        undecided = self.pending is not None or any(item.kind == "approve" for item in self.queue)
        if undecided and not self.chance("stubborn"):
            self.pending = None
            self.queue = [item for item in self.queue if item.kind != "approve"]
            undecided = False
        if not undecided:
            self.queue.append(Item("deny"))

    def complete(self, _):
        """SESSION COMPLETE: what isn't decided is gone, or is decided all the same."""
        if not self.chance("stubborn"):
            self.pending = None
            self.queue = [item for item in self.queue if item.kind not in ("approve", "deny")]
        if self.session or self.chance("takes all"):
            self.queue.append(Item("end"))
        self.session = False

    def success(self):
        """VEND SUCCESS: it has sold what it acknowledges. One may carry it out and say nothing."""
        if self.unsold is None and self.chance("refuses"):
            return self.refusal(later=False)
        if self.chance("mute"):
            return None, None

        def sold():
            if self.unsold is not None:
                self.note("sold", self.unsold)
            self.unsold = None

        if self.chance("refuses afterwards"):
            self.queue.append(Item("sequence", data=(4,)))
            return ACK, sold
        return self.taken(sold)

    def switch(self, ask):
        """READER DISABLE, ENABLE and CANCEL."""
        if ask[1] == 2:
            self.queue.append(Item("cancelled"))
            return self.taken() if self.chance("anywhere") else self.acknowledged()
        enables = ask[1] == 1

        def effect():
            self.enabled = enables

        return ACK, effect

    def expand(self, ask):
        """The reader's ID, and options."""
        if ask[1] == 4:
            always_idle = bool(ask[5] & 0x20) and self.level == 3

            def effect():
                self.always_idle = always_idle
                self.recording.setup(self.name, "options", ask)

            return ACK, effect
        options = (0, 0, 0, 0x20) if self.level == 3 and self.controller_level == 3 else ()
        item = Item("id", data=(0x09, *(b"XYZ" + b"1" * 26), *options))
        if self.chance("at once") and not self.told:
            self.said = [item]
            return self.data(item), None
        self.queue.append(item)
        return self.acknowledged()

    def happens(self):
        """What may happen at the reader between two commands."""
        if self.chance("restarts"):
            self.forget()
        if self.controller_level is None or self.silent_reset:
            return
        if self.pending is not None and self.random.random() < 0.4:
            self.decide()
        may_begin = not self.session and (self.enabled or self.chance("across DISABLE"))
        if may_begin and self.random.random() < 0.3:
            self.begin()
        elif self.session and self.chance("ends"):
            self.session = False
            self.queue.append(Item("end"))
        elif self.session and self.chance("cancels"):
            self.queue.append(Item("cancel"))
        if self.chance("status"):
            self.queue.append(self.remark())

    def begin(self):
        """A card is there."""
        self.session = True
        funds = self.random.choice((0x00C8, 0x03E8, UNKNOWN))
        media = (self.random.getrandbits(8) for _ in range(7))
        self.queue.append(Item("begin", data=(funds >> 8, funds & 0xFF, *media)))

    def remark(self):
        """A message on which no money hangs."""
        text = b"CARD PLEASE"[: self.random.randint(0, 11)]
        remarks = [Item("malfunction", data=(0x0A, 0x10))]
        remarks.append(Item("display", data=(0x02, 0x32, *text)))
        if self.long:
            remarks.append(Item("time"))
        if self.habits["takes all"]:
            remarks += [Item("deny"), Item("end"), Item("cancelled")]
        return self.random.choice(remarks)


class ReaderDesk(Desk):
    """A controller's view of a reader: one sale at a time."""

    def __init__(self, random, habits, recording, reader):
        self.reader_name = reader.name
        self.base = BASES[reader.name]
        self.poll, self.resets = (self.base + POLL,), (self.base + RESET,)
        self.level = random.choice((1, 2, 3, 3))
        self.setup = (self.base + SETUP, 0, self.level, 0x10, 0x02, 0x01)
        self.idle_options = self.level == 3 and random.random() < 0.5
        self.scale = reader.scale
        super().__init__(random, habits, recording, reader)

    def start(self):
        super().start()
        self.sale, self.amount = "none", 0  # none, awaited, ended, approved, sold
        self.last, self.confirmed = None, True  # the last command of a session; its ACK was heard
        self.session, self.closing, self.ending = False, False, False

    def ready(self):
        """What makes a reader ready."""
        prices = (self.base + SETUP, 1, 0x03, 0xE8, 0x00, 0x0A)
        name = (self.base + EXPANSION, 0, *(b"VMC" + b"7" * 26))
        options = (self.base + EXPANSION, 4, 0, 0, 0, 0x20 if self.idle_options else 0)
        extras = [extra for extra in (prices, name) if self.random.random() < 0.4]
        if self.level == 3 and (self.idle_options or self.random.random() < 0.5):
            extras.append(options)
        return [self.setup, *extras, (self.base + READER, 1)]

    def note(self, of, amount):
        self.recording.note(account(self.reader_name, of), "controller", amount * self.scale)

    def vend(self, what, *rest):
        return (self.base + VEND, what, *rest)

    def some_request(self):
        price, item = self.random.choice((100, 100, 150, 200)), self.random.randint(1, 9)
        return self.vend(REQUEST, price >> 8, price & 0xFF, 0, item)

    def next_ask(self):
        """The next command: for the sale, if there is one to go on with."""
        if self.todo:
            return super().next_ask()
        if self.chance("other"):
            return self.other()
        choices = {
            "none": self.idle, "awaited": self.waiting, "ended": self.idle,
            "approved": self.deliver, "sold": self.confirm,
        }  # fmt: skip
        return choices[self.sale]()

    def idle(self):
        """No sale is on: it asks for one, ends the session, or polls."""
        turn = self.random.random()
        if self.last and not self.confirmed and not self.chance("asks anyway"):
            return self.last
        if self.ending and not self.chance("asks anyway"):
            return self.poll
        if self.closing or (self.session and turn < 0.15):
            return self.vend(COMPLETE)
        always_idle = self.idle_options and self.device.level == 3
        if turn < 0.5 and (self.session or always_idle or self.chance("asks anyway")):
            return self.some_request()
        return self.poll

    def waiting(self):
        """It waits for the decision, asks again, or gives up."""
        turn = self.random.random()
        if not self.confirmed and turn < 0.5:
            return self.last
        if self.chance("gives up"):
            return self.give_up()
        return self.poll

    def give_up(self):
        """It gives up a sale, in one of the ways that there are."""
        ways = [self.vend(COMPLETE), self.vend(CANCEL), self.vend(CANCEL), self.resets]
        ways.append(self.some_request())
        way = self.random.choice(ways)
        if way == self.resets:
            self.todo = ["until reset", *self.ready()]
        return way

    def deliver(self):
        """The sale is approved."""
        if self.chance("gives up"):
            return self.random.choice((self.give_up(), self.poll))
        if self.random.random() < 0.15:
            return self.vend(FAILURE)
        return self.vend(SUCCESS, 0, self.random.randint(1, 9))

    def confirm(self):
        """VEND SUCCESS was sent: it says that again until it hears an answer, or gives up."""
        if not self.confirmed:
            return self.give_up() if self.chance("gives up") else self.last
        return self.idle()

    def other(self):
        """A command that comes now and then."""
        disable, enable, cancel = ((self.base + READER, what) for what in range(3))
        others = [enable, cancel, self.vend(CASH_SALE, 0, 100, 0, 3)]
        if self.chance("asks anyway"):
            others = [disable, self.vend(FAILURE), self.vend(COMPLETE), self.vend(CANCEL)]
        if self.chance("RESET again"):
            self.todo = ["until reset", *self.ready()]
            return self.resets
        return self.random.choice(others)

    def asked(self, ask):
        """It sent a command, and knows what that means for its sale."""
        super().asked(ask)
        if ask == self.setup:
            self.recording.setup(self.reader_name, "ask", ask)
        if ask == self.resets:
            self.sale, self.last, self.confirmed = "none", None, True
            self.session, self.closing, self.ending = False, False, False
        if ask[0] != self.base + VEND or ask[1] == CASH_SALE:
            return
        if ask[1] == REQUEST:
            self.sale = "awaited"
        elif ask[1] == CANCEL:
            self.sale = self.sale if self.sale in ("awaited", "ended") else "none"
        elif ask[1] == SUCCESS:
            if self.sale == "approved":
                self.note("sold", self.amount)
            self.sale = "sold"
        else:
            self.sale = "none"
        if ask[1] == COMPLETE:
            self.session, self.closing, self.ending = False, False, True
        self.last, self.confirmed = ask, False

    def told(self, ask, said):
        super().told(ask, said)
        if ask == self.last and said == ACK:
            self.confirmed = True

    def acknowledged(self, ask, data):
        """It has acknowledged data, and takes them message by message."""
        kinds = [item.kind for item in self.device.said]
        if ask == self.last and "sequence" not in kinds:
            self.confirmed = True
        step = self.todo[0] if self.todo else None
        if step == ask or (step == self.setup and "config" in kinds):
            self.done()
        for item in self.device.said:
            self.message(item)

    def message(self, item):
        """What a message is to it."""
        if item.kind in ("reset", "deny") and self.sale == "awaited":
            self.sale = "ended"
        if item.kind == "reset":
            self.session, self.ending = False, False
            self.was_reset()
        elif item.kind == "approve" and self.sale in ("awaited", "ended"):
            if self.sale == "awaited":
                self.note("approved", item.amount)
            self.sale, self.amount = "approved", item.amount
        elif item.kind in ("begin", "end"):
            self.session, self.ending, self.closing = item.kind == "begin", False, False
        elif item.kind == "cancel":
            self.closing = self.session
