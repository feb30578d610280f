#!/usr/bin/env python3
"""tests/page_open_money.py [--firefox] [GENERATED [SEED]]: whether the card lists open money, in the colours that go with it.

Gives the page recordings of small scenes. What happened in each, and so what the card has to list, is
written beside it: the money, a phrase of the sentence, what is to be done, and whether anything is left to do. So many
generated recordings (30), those of tests/open-money, follow. Of each recording the entries that the page has of its
module's acts are those of tests/second_open_money.py, and the rows that a sentence names are those of its entry. Ends with
status 1 at the first difference.
"""

import importlib.machinery
import importlib.util
import json
import pathlib
import random
import sys
import tempfile
from typing import NamedTuple

sys.dont_write_bytecode = True

from browser import Browser  # noqa: E402
from firefox import Firefox  # noqa: E402
import second_open_money  # noqa: E402

TOP = pathlib.Path(__file__).resolve().parent.parent
# What the card shows, and what the page has of it.
READ = """(() => {
  const named = (part) => ({...part, device: DEVICES[part.device]});
  const it = by("verdict"), text = (all) => [...all].map((one) => one.textContent);
  return JSON.stringify({
    kind: it.className, isOpen: it.hasAttribute("data-open"), colour: getComputedStyle(it).borderLeftColor,
    open: text(it.querySelectorAll("#open > li")), story: text(it.querySelectorAll("#story > li")),
    next: text(it.querySelectorAll("#next li")), scope: it.querySelector("#open-scope")?.textContent ?? "", lead: by("lead").textContent,
    rows: [...it.querySelectorAll("#open > li")].map((one) => [...one.querySelectorAll("[data-row]")].map((a) => [Number(a.dataset.row), Number(a.dataset.last)])),
    entries: openMoneyOf(state).map(({until, ...one}) => ({...one, device: DEVICES[one.device],
      amounts: one.amounts.map(named), paid: one.paid && named(one.paid)})),
    table: by("statement-rows")?.textContent ?? "",
    offer: by("survey-offer")?.textContent ?? "",
    total: text(document.querySelectorAll("#stretch-total tr[data-account='paid-out'] td")),
  });
})()"""
AMBER, GREEN, RED = "rgb(122, 79, 1)", "rgb(17, 99, 41)", "rgb(164, 14, 38)"


class Wrong(Exception):
    """The card says something else than happened."""


def want(is_so, words):
    if not is_so:
        raise Wrong(words)


def loaded(name):
    loader = importlib.machinery.SourceFileLoader(name.replace("-", "_"), str(TOP / "tests" / name))
    module = importlib.util.module_from_spec(importlib.util.spec_from_loader(loader.name, loader))
    loader.exec_module(module)
    return module


class Bus:
    """A recording, written as it is sent."""

    def __init__(self):
        self.rows, self.time = [], 0

    def word(self, line, value, gap=1500):
        self.time += gap
        self.rows.append(f"{self.time},{line},{value:03X}")

    def block(self, line, content, gap, marked):
        content = [*content, sum(content) % 256]
        for i, byte in enumerate(content):
            self.word(line, byte + 256 * (i == marked % len(content)), 1200 if i else gap)

    def ask(self, *content, after=0):
        """A command, and no answer."""
        self.block("M", content, 8000 + after, 0)
        return self

    def ack(self, *content, after=0):
        """A command with ACK."""
        self.ask(*content, after=after).word("S", 0x100)
        return self

    def nak(self, *content):
        self.ask(*content).word("S", 0x1FF)
        return self

    def told(self, command, *content, after=0):
        """A command, its data, and the controller's ACK."""
        self.ask(*command, after=after).block("S", content, 1500, -1)
        self.word("M", 0)
        return self

    def off(self):
        """Power goes off and comes back: the controller sends a break."""
        self.time += 300_000
        self.rows.append(f"{self.time},B,120000")
        self.time += 330_000
        return self

    # What devices do after power-on: coins of 0.05, 0.10, 0.20, 0.50, 1.00, 2.00; bills of 5.00, 10.00.

    def changer(self, level=2):
        self.ack(0x08).told([0x0B], 0x0B).told([0x09], level, 0x19, 0x78, 5, 2, 0, 0x3F, 1, 2, 4, 10, 20, 40)
        return self.told([0x0A], 0, 0, 20, 18, 15, 12, 10, 8).ack(0x0C, 0, 0x3F, 0, 0x3F)

    def validator(self):
        self.ack(0x30).told([0x33], 6).told([0x31], 1, 0x19, 0x78, 1, 0xF4, 2, 2, 0x58, 0, 0, 0xFF, 1, 2)
        return self.told([0x36], 0, 12).ack(0x34, 0, 3, 0, 3)

    def reader(self, base=0x10, level=1, is_late=False, own=1):
        config = [1, level, 0x19, 0x78, 1, 2, 5, 9]
        self.ack(base).told([base + 2], 0)
        if is_late:
            self.ack(base + 1, 0, 1, 0, 0, 0).told([base + 2], *config)
        else:
            self.told([base + 1, 0, own, 0, 0, 0], *config)
        return self.ack(base + 4, 1)

    def polls(self, count, gap=50_000, device=0x0B):
        for _ in range(count):
            self.ack(device, after=gap)
        return self

    def coin(self, kind, tube=9):
        return self.told([0x0B], 0x50 + kind, tube)

    def approved(self, base=0x10, cents=150, item=7, media=()):
        """A session with a request that the reader approves."""
        self.told([base + 2], 3, 3, 0xE8, *media).ack(base + 3, 0, 0, cents, 0, item)
        return self.told([base + 2], 5, 0, cents)

    def over(self, base=0x10):
        return self.ack(base + 3, 4).told([base + 2], 7)

    @property
    def data(self):
        return "".join(f"{it}\n" for it in self.rows).encode()


class Scene(NamedTuple):
    """A recording, and what its card has to show: each entry has its kind, its amount and phrases of its sentence."""

    name: str
    bus: Bus
    colour: str
    entries: list
    says: "tuple" = ()  # phrases that the story and the steps have
    never: "tuple" = ()  # phrases that the card hasn't
    options: "tuple" = ()
    surveyed: "list | None" = None  # the entries after a survey, if one is asked for


def scenes():
    card = lambda: Bus().changer().reader()
    cash = lambda: Bus().changer().coin(4)
    makers = ("makers", "Send")
    yield Scene("coins, a sale, change", cash().coin(3).ack(0x0D, 0x12).ack(0x0D, 0x11).told([0x0B], 2).polls(9), GREEN, [])
    yield Scene("a bill returned, another one stacked", Bus().validator().told([0x33], 0x91).ack(0x35, 0).told([0x33], 0xA1)
                .told([0x33], 0x90).ack(0x35, 1).told([0x33], 0x80), GREEN, [])
    sale = card().approved().ack(0x13, 2, 0, 7).over()
    yield Scene("a card sale", sale, GREEN, [])
    yield Scene("a reader of level 3", Bus().changer().reader(level=3).approved().ack(0x13, 2, 0, 7).over(), GREEN, [])
    # The bytes of its payment media would be an approval of 2.58 in a session of three bytes.
    media, wide = (5, 1, 2, 6, 0x0A, 0xC0, 4), Bus().changer().reader(level=3, own=3)
    yield Scene("a card sale at level 3", wide.approved(media=media).ack(0x13, 2, 0, 7).over(), GREEN, [], options=("--extended",))
    wide = Bus().changer().reader(level=3, own=3).approved(media=media).told([0x12], 0x0B, 5).polls(40)
    yield Scene("no outcome at level 3", wide, AMBER, [("approved", "1.50", "item 7", "up to the end of the recording")],
                ("card company",), makers, options=("--extended",))
    yield Scene("a bill to the recycler", Bus().validator().told([0x33], 0x91).ack(0x35, 1).told([0x33], 0xB1)
                .told([0x33], 0x90).ack(0x35, 1).told([0x33], 0x80), GREEN, [], options=("--extended",))
    yield Scene("a bill in escrow, another one to the recycler", Bus().validator().told([0x33], 0x91).polls(40, device=0x33).off().validator()
                .told([0x33], 0x90).ack(0x35, 1).told([0x33], 0xB0), AMBER,
                [("escrow", "10.00", "neither as stacked nor as returned", "break")], ("in the validator",), options=("--extended",))
    yield Scene("config in a later POLL", Bus().reader(is_late=True).approved().ack(0x13, 2, 0, 7).over(), GREEN, [])
    yield Scene("a session that is cancelled", card().told([0x12], 3, 3, 0xE8).told([0x12], 4).over(), GREEN, [])
    yield Scene("VEND FAILURE", card().approved().ack(0x13, 3).over(), AMBER,
                [("failed", "1.50", "item 7", "VEND FAILURE", "give it back")], ("given back",), makers)
    yield Scene("power went off", card().approved().off().changer().reader(), AMBER,
                [("approved", "1.50", "item 7", "neither a sale nor a failure", "break")], ("card company", "reason of the break"), makers)
    yield Scene("no outcome", card().approved().polls(40), AMBER,
                [("approved", "1.50", "item 7", "up to the end of the recording")], ("card company",), makers)
    yield Scene("the session ends without an outcome", card().approved().over(), RED,
                [("approved", "1.50", "item 7", "before SESSION COMPLETE")], ("card company",))
    yield Scene("the next sale", card().approved().off().reader().approved(item=8).ack(0x13, 2, 0, 8).over(), AMBER,
                [("approved", "1.50", "item 7", "break")])
    yield Scene("the reader restarts", card().approved().told([0x12], 0).polls(3), AMBER,
                [("approved", "1.50", "item 7", "the report of a reset")], ("card company", "power and the plug"), makers)
    both = Bus().reader().reader(0x60).approved(0x60, 100, 5).approved(0x10).ack(0x13, 2, 0, 7).over()
    yield Scene("two readers", both, AMBER, [("approved", "1.00", "ard reader 2", "item 5", "end of the recording")])
    silent = Bus().changer().coin(4).told([0x0B], 0x0C).ack(0x0D, 0x12)
    for _ in range(40):
        silent.ask(0x0B, after=250_000)
    yield Scene("a jam, and then silence", silent, AMBER, [("trouble", "", "coin jam", "0C"), ("payout", "0.20", "Whether it paid")],
                ("gave no answer for 10.", "what was reported as trouble"))
    yield Scene("the lever", cash().told([0x0B], 1).polls(100), AMBER, [("lever", "1.00", "coins of 1.00", "nothing was paid out")],
                ("Ask the customer",), makers)
    yield Scene("the lever, and a minute", cash().told([0x0B], 1).told([0x0B], 1).polls(2, 31_000_000), AMBER,
                [("lever", "1.00", "2 times", "within 30 s")])
    yield Scene("the lever, and change", cash().told([0x0B], 1).polls(9).ack(0x0D, 0x14).polls(2, 31_000_000), GREEN, [])
    yield Scene("the lever with nothing in", Bus().changer().told([0x0B], 1).polls(2, 31_000_000), GREEN, [])
    yield Scene("a bill in escrow", Bus().validator().told([0x33], 0x91).polls(100, device=0x33), AMBER,
                [("escrow", "10.00", "neither as stacked nor as returned")], ("in the validator",), ("No money was reported", *makers))
    yield Scene("DISPENSE without an answer", cash().ask(0x0D, 0x43).polls(3), AMBER, [("payout", "2.00", "didn't answer")],
                ("differ for certain", "This is the reason"), makers)
    yield Scene("DISPENSE refused", cash().nak(0x0D, 0x43).polls(3), AMBER, [("payout", "2.00", "refused it (NAK")],
                ("differ for certain", "This is the reason"), makers)
    yield Scene("DISPENSE refused, others paid", Bus().changer().coin(5).nak(0x0D, 0x15).polls(2).ack(0x0D, 0x24).told([0x0B], 2).polls(5),
                AMBER, [("payout", "2.00", "refused it (NAK", "other coins")], ("differ for certain", "This is the reason"), makers)
    yield Scene("DISPENSE refused, and then taken", cash().nak(0x0D, 0x14).ack(0x0D, 0x14).told([0x0B], 2).polls(5), GREEN, [])
    yield Scene("the stacker is full", Bus().validator().told([0x36], 0x80, 200).told([0x36], 0x80, 200), AMBER,
                [("trouble", "", "a full stacker", "2 times")])
    yield Scene("a malfunction", card().told([0x12], 0x0A, 0xC0), AMBER, [("trouble", "", "malfunction (0A C0: refund error")])
    yield from scenes_of_sales()
    yield from scenes_of_payouts()
    yield from scenes_of_restarts()
    yield from complaints()
    choice = Bus().changer(3).coin(5).coin(4, 8).ask(0x0F, 2, 0x0F)
    choice.word("S", 0x100)
    choice = choice.told([0x0B], 0x53, 7)
    unknown = [("choice", "", "Paid-out isn't known from row", "What was paid in is known")]
    yield Scene("a payout by the changer's choice", choice, AMBER, unknown, ("Count the tubes",), ("makers",), surveyed=unknown)
    broken = card().approved(item=7)
    broken.ask(0x0B).block("S", (0x51, 7), 1500, -1)
    broken.rows[-1] = broken.rows[-1][:-2] + "00"
    broken = broken.ack(0x13, 4).told([0x12], 7).approved(item=8).polls(3).told([0x0B], 0x53, 7).nak(0x0D, 0x15).polls(2)
    before = ("approved", "1.50", "item 7", "up to row")
    yield Scene("a wrong sum, and then the day goes on", broken, RED, [before], ("card company",),
                surveyed=[before, ("approved", "1.50", "item 8", "end of the recording"), ("payout", "2.00", "refused it (NAK")])
    late = Bus()
    late.rows = sale.rows[next(i for i, it in enumerate(sale.rows) if it.endswith("M,113")):-12]
    late.time = sale.time
    cut = Bus()
    cut.rows, cut.time = [it for it in late.rows], late.time
    cut.rows = cut.rows[:next(i for i, it in enumerate(cut.rows) if i and it.endswith("M,113"))]
    failed = Bus()
    failed.rows = card().approved().ack(0x13, 3).over().rows
    failed.rows = failed.rows[next(i for i, it in enumerate(failed.rows) if it.endswith("M,113") and failed.rows[i + 1].endswith("003")):]
    yield Scene("a failure of what was approved before", failed, AMBER,
                [("failed", "value not known", "VEND FAILURE to card reader 1", "isn't in these rows", "give back")], ("given back",),
                ("No money was reported",), options=("--joined",))
    yield Scene("an approval without a known value", cut, AMBER, [("approved", "value not known", "an amount of unknown value")],
                ("no known value",), options=("--joined",))


def scenes_of_sales():
    """Requests without an answer, denied and cancelled ones, and sales that the reader doesn't take."""
    card, makers = lambda: Bus().changer().reader(), ("makers", "Send")
    asked = lambda: card().told([0x12], 3, 3, 0xE8).ack(0x13, 0, 0, 150, 0, 7)
    never, silent = ("No money was reported", "makers"), asked().polls(3, device=0x12)
    for _ in range(60):
        silent.ask(0x12, after=250_000)
    yield Scene("a request without an answer", silent.reader(), AMBER,
                [("request", "1.50", "item 7", "before a RESET", "silent for 15.")], ("card company", "power and the plug"), never)
    yield Scene("a request that is told twice", card().told([0x12], 3, 3, 0xE8).ask(0x13, 0, 0, 150, 0, 7).ack(0x13, 0, 0, 150, 0, 7)
                .told([0x12], 5, 0, 150).ack(0x13, 2, 0, 7).over(), GREEN, [])
    yield Scene("a request that is denied", asked().told([0x12], 6).over(), GREEN, [],
                ("Card reader 1 denied 1.50 for item 7 at", "No money moved"), never)
    yield Scene("a request that is denied, and an end that comes too early", asked().told([0x12], 6, 7), RED, [],
                ("Card reader 1 ended the session", "hadn't ended the session that began"))
    yield Scene("a request that is cancelled", asked().ack(0x13, 1).told([0x12], 6).over(), GREEN, [],
                ("cancelled its request of 1.50 for item 7",), never)
    untaken = card().approved().ask(0x13, 2, 0, 7).ask(0x13, 2, 0, 7).reader()
    yield Scene("a sale that is never taken, and another one", untaken.approved(item=8).ack(0x13, 2, 0, 8).over(), AMBER,
                [("untaken", "1.50", "item 7", "2 times", "never took it", "before a RESET")], ("This is the reason", "card company", "controller 3.00"), ("makers", "controller 4.50"))
    yield Scene("a sale that is taken at the second time", card().approved().ask(0x13, 2, 0, 7).ack(0x13, 2, 0, 7).over(), GREEN, [])
    twice = card().approved().ack(0x13, 2, 0, 7).ack(0x13, 0, 0, 150, 0, 7).told([0x12], 5, 0, 150).told([0x12], 5, 0, 150)
    firm = "by card reader 1: 3.00, unless 4 or more acknowledgements were lost, restarts unseen or approvals told again."
    yield Scene("the same sale again, and its approval told twice", twice.ack(0x13, 2, 0, 7).over(), GREEN, [],
                (f"Approved {firm} Sold {firm}", "1.50 only if 2 acknowledgements were lost and 2 approvals were told again"), makers,
                options=("--extended",))
    yield Scene("an approval without an amount", card().told([0x12], 3, 3, 0xE8).ack(0x13, 0, 0xFF, 0xFF, 0, 7).told([0x12], 5, 0xFF, 0xFF)
                .ack(0x13, 2, 0, 7).over(), GREEN, [], ("amount not told (item 7)",), ("655.35", "earlier recording"))
    negative = card().told([0x12], 3, 3, 0xE8).ack(0x13, 6, 0, 25, 0, 1).told([0x12], 5, 0, 25)
    yield Scene("a negative vend, and a sale", negative.approved(item=8).ack(0x13, 2, 0, 8).over(), AMBER, [],
                ("asks to put 0.25 onto the card",), surveyed=[])
    yield Scene("a negative vend, and no outcome", negative.told([0x12], 0x0B), AMBER, [], surveyed=[])


def scenes_of_payouts():
    """Payouts that the changer took and perhaps didn't make, and those of devices that aren't followed."""
    tubes = lambda bus, ones: bus.told([0x0A], 0, 0, 20, 18, 15, 12, ones, 8)
    paid = lambda: tubes(Bus().changer().coin(5), 10).ack(0x0D, 0x14).told([0x0B], 2)
    yield Scene("a jam after a payout", paid().told([0x0B], 7), AMBER,
                [("payout", "1.00", "reported trouble"), ("trouble", "", "tube jam")], ("Ask the customer whether the coins came",))
    yield Scene("a jam long after a payout", paid().polls(2, 6_000_000).told([0x0B], 7), AMBER, [("trouble", "", "tube jam")])
    yield Scene("the coins are still in the tube", tubes(paid().polls(3), 10), AMBER,
                [("payout", "1.00", "TUBE STATUS", "still in the tube")], ("Ask the customer whether the coins came",))
    yield Scene("the tube has a coin less", tubes(paid().polls(3), 9), GREEN, [])
    yield Scene("the tube is looked at too early", tubes(paid(), 10), GREEN, [])
    yield Scene("a hopper pays", Bus().changer().coin(4).ack(0x5D, 0, 0, 3), AMBER, [("order", "", "hopper (58H)", "isn't followed")],
                ("Ask the customer",), ("for certain",))
    yield Scene("a hopper is polled", Bus().changer().coin(4).polls(3, device=0x5B), GREEN, [])
    bill = lambda: Bus().changer().validator().told([0x33], 0x91).ack(0x35, 1).told([0x33], 0x81)
    yield Scene("a recycler pays", bill().ack(0x37, 6, 0, 0, 1).ack(0x37, 7, 0, 2), AMBER, [("order", "15.00", "2 orders to pay out 15.00", "recycler")],
                ("Ask the customer",), options=("--extended",))


def complaints():
    """What customers complained of, each with what had happened."""
    card, extended = lambda: Bus().changer().reader(), ("--extended",)
    bill = lambda: Bus().validator().told([0x33], 0x91)
    yield Scene("he pressed the lever, and got one coin of two", Bus().changer().coin(5).told([0x0B], 1).ack(0x0D, 0x14).told([0x0B], 2)
                .polls(3).nak(0x0D, 0x23).polls(9), AMBER, [("payout", "1.00", "refused it (NAK")], ("differ for certain", "This is the reason"))
    yield Scene("the card was denied, and he paid in coins", card().told([0x12], 3, 3, 0xE8).ack(0x13, 0, 0, 150, 0, 7).told([0x12], 6).over()
                .coin(4).coin(3).ack(0x13, 5, 0, 150, 0, 7), GREEN, [], ("Card reader 1 denied 1.50 for item 7 at",), ("No money",))
    yield Scene("the reader refuses to book the sale", card().approved().nak(0x13, 2, 0, 7).nak(0x13, 2, 0, 7).over(), AMBER,
                [("untaken", "1.50", "item 7", "2 times", "refused it (NAK)", "before SESSION COMPLETE")], ("This is the reason",), options=extended)
    yield Scene("power goes off while a sale is booked", card().approved().ask(0x13, 2, 0, 7).off().reader(), AMBER,
                [("untaken", "1.50", "item 7", "never took it", "a break")], ("This is the reason", "reason of the break"))
    yield Scene("power dips while a bill goes back", bill().ack(0x35, 0).off().validator().told([0x33], 0xA1), AMBER, [],
                ("reported as returned",), ("and no end",), options=extended)
    jam = Bus().changer().coin(5).ack(0x0D, 0x14).told([0x0B], 2).polls(3).ack(0x0D, 0x13).told([0x0B], 2).told([0x0B], 7)
    yield Scene("a jam after two payouts", jam, AMBER, [("payout", "1.00", "reported trouble"), ("payout", "0.50", "reported trouble"),
                                                        ("trouble", "", "tube jam")])
    yield Scene("change from the recycler, as a value", Bus().changer().validator().told([0x33], 0x91).ack(0x35, 1).told([0x33], 0x81)
                .ack(0x37, 7, 0, 1), AMBER, [("order", "5.00", "1 order to pay out 5.00", "recycler")], options=extended)
    told = lambda *counts: [it for count in [*counts, *[0] * (16 - len(counts))] for it in (0, count)]
    yield Scene("the recycler says that it paid less", Bus().changer().validator().told([0x33], 0x91).ack(0x35, 1).told([0x33], 0x81)
                .ack(0x37, 6, 0, 0, 2).told([0x37, 8], *told(1)), AMBER, [("order", "10.00", "1 order to pay out 10.00", "reported 5.00 as paid out (37 08)")],
                options=extended)
    yield Scene("the recycler says twice what it paid", Bus().changer().validator().told([0x33], 0x91).ack(0x35, 1).told([0x33], 0x81)
                .ack(0x37, 6, 0, 0, 1).told([0x37, 8], *told(1)).told([0x37, 8], *told(1)).ack(0x37, 6, 1, 0, 1).told([0x37, 8], *told(0, 1)),
                AMBER, [("order", "15.00", "2 orders to pay out 15.00", "reported 15.00 as paid out (37 08)")], options=extended)
    yield Scene("change from the second hopper", Bus().changer().coin(4).ack(0x75, 0, 0, 3).ack(0x76, 4), AMBER,
                [("order", "", "2 orders to pay out went", "hopper (70H)")])
    second = Bus().reader().reader(0x60).told([0x62], 3, 3, 0xE8).ack(0x63, 0, 0, 100, 0, 5).approved().ack(0x13, 2, 0, 7).over()
    for _ in range(60):
        second.ask(0x62, after=250_000)
    yield Scene("the second reader dies after the request", second, AMBER,
                [("request", "1.00", "card reader 2", "item 5", "up to the end of the recording", "silent for 1")], ("plug of card reader 2",))
    for name, gap, colour, found in (("28 s", 14, AMBER, [("restart", "1.00", "sent RESET")]), ("32 s", 16, GREEN, [])):
        yield Scene(f"a RESET {name} after a coin", Bus().changer().coin(4).polls(2, gap * 1_000_000).changer(), colour, found)
    price = card().approved().ack(0x13, 2, 0, 7).over().told([0x12], 3, 3, 0xE8).ack(0x13, 0, 0xFF, 0xFF, 0, 8).told([0x12], 5, 0xFF, 0xFF)
    yield Scene("one sale with its amount, and one without", price.ack(0x13, 2, 0, 8).over(), GREEN, [], ("amount not told (item 8)", "The other sales, as reported: 1.50."), ("655.35",))
    yield Scene("the reader ends the session before the sale", card().approved().told([0x12], 7).polls(3), AMBER,
                [("approved", "1.50", "item 7", "the end of the session")], ("card company",), options=extended)


def scenes_of_restarts():
    """Cash before a restart, and bills whose end is told after it."""
    cash = lambda: Bus().changer().coin(4)
    escrow = lambda: Bus().validator().told([0x33], 0x91)
    yield Scene("the controller restarts after a coin", cash().polls(9).changer(), AMBER,
                [("restart", "1.00", "sent RESET", "the bus doesn't show")], ("credit may be lost",))
    yield Scene("a restart long after a coin", cash().polls(2, 31_000_000).changer(), GREEN, [])
    yield Scene("a restart after the change", cash().ack(0x0D, 0x14).told([0x0B], 2).polls(9).changer(), GREEN, [])
    yield Scene("a jam after the order", escrow().ack(0x35, 1).told([0x33], 5), AMBER,
                [("escrow", "10.00", "took the order to stack it"), ("trouble", "", "a jam (05)")], never=("gave no order",))
    late = escrow().ack(0x35, 1).off().validator().told([0x33], 0x81)
    yield Scene("stacked, as is told after the break", late, AMBER, [], ("After the break it was reported as stacked",), ("undefined",))
    yield Scene("in escrow at the break", escrow().off().validator(), AMBER, [("escrow", "10.00", "break")],
                ("gave no order", "a bill of 10.00 in escrow"), never=("undefined",))


def compare(page, name, data, options, without, setups=None):
    """What the page has is what the second reader finds, and its rows are linked."""
    page.give(data, [*options, *(word for it in without for word in ("--without", it))], "scene.csv")
    came = json.loads(page.browser.value(READ))
    is_extended = "--extended" in options
    wanted = second_open_money.entries(data, page.show(data, without, is_extended), setups, is_extended)
    want(came["entries"] == wanted, f"{name}: the page has {came['entries']}, wanted {wanted}")
    for entry, rows in zip(wanted, came["rows"]):
        named = [tuple(it) for it in rows]
        first = (entry["rows"][0][0], entry["rows"][0][-1])
        want(first in named and set(named) <= {*map(tuple, entry["rows"]), tuple(entry["cameRows"] or ())}, f"{name}: rows {named} of {entry}")
    return came


def try_scene(page, scene):
    came = compare(page, scene.name, scene.bus.data, scene.options, ())
    compare_card(scene, came, scene.entries)
    if scene.surveyed is None:
        return
    before = page.shown()
    page.browser.value("survey(); 1")
    page.wait(before)
    came = json.loads(page.browser.value(READ))
    compare_card(scene, came, scene.surveyed)
    want("negative vend" not in scene.name or "Card reader 1 approved 0.25 in it (rows " in came["offer"], f"{scene.name}: {came['offer']}")
    is_unknown = len(came["total"]) == 1 and came["total"][0].startswith("not known from row")
    want(is_unknown == any(kind == "choice" for kind, *_ in scene.surveyed), f"{scene.name}: the total is {came['total']}")


def compare_card(scene, came, entries):
    """What the card shows is what happened."""
    whole = " ".join([came["lead"], *came["open"], *came["story"], *came["next"], came["table"]])
    want(came["colour"] == scene.colour, f"{scene.name}: the colour is {came['colour']}, the card says {whole}")
    want([it["kind"] for it in came["entries"]] == [kind for kind, *_ in entries], f"{scene.name}: the card lists {came['open']}")
    for text, (_, money, *phrases) in zip(came["open"], entries):
        want(text.startswith(money) and all(it.lower() in text.lower() for it in phrases), f"{scene.name}: {text!r} hasn't {money!r} and {phrases}")
    want(all(it in whole for it in scene.says), f"{scene.name}: {scene.says} isn't in {whole}")
    want(not any(it in whole for it in scene.never), f"{scene.name}: {scene.never} is in {whole}")
    want(bool(came["next"]) == (scene.colour != GREEN), f"{scene.name}: what to do next is {came['next']}")


def main():
    given = [int(it) for it in sys.argv[1:] if it != "--firefox"]
    count, seed = (given + [30, 1][len(given):])[:2]
    driver, generator = loaded("page"), loaded("open-money")
    entries, tried = 0, list(scenes())
    with tempfile.TemporaryDirectory() as work:
        page = driver.Page(pathlib.Path(work), Firefox() if "--firefox" in sys.argv else Browser())
        page.show = generator.show
        try:
            for scene in tried:
                try_scene(page, scene)
            for i in range(count):
                is_extended = i % 3 == 2
                data, _, without = generator.recording(random.Random(f"{seed} page {i}"), is_extended)
                entries += len(compare(page, f"{seed} {i}", data, ["--extended"] * is_extended, without)["entries"])
        except Wrong as wrong:
            sys.exit(f"page_open_money: {wrong}")
        finally:
            page.browser.close()
    print(f"page_open_money: the cards of {len(tried)} scenes, and {entries} entries of {count} generated recordings")


if __name__ == "__main__":
    main()
