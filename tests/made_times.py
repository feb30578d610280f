"""Writes times in the forms that docs/bench/importing.md has (*Times*), for the makers of exports."""

import datetime
import re

UNITS = {"s": 10**6, "ms": 10**3, "us": 1, "ns": None}  # in microseconds
FORMS = [*UNITS, "day", "day", "date", "offset"]
DAY = 24 * 60 * 60 * 10**6
LAST_DATE = (datetime.date.max - datetime.date(1970, 1, 1)).days * DAY
OFFSETS = [0, 0, 60, 60, 120, -300, 330, -1, 1, 23 * 60 + 59, -23 * 60 - 59, 12 * 60, -210]  # in minutes
SEPARATORS = [" ", " ", " ", "T", "T", "t", "  ", ", ", ",", "; ", ";", "\t", " ,;\t"]

# Fields that are no time, or one of another form than the others.
OTHER_TIMES = ["2026-11-30 09:14:22", "30.11.2026 09:14:22,5", "2026-11-30T09:14:22Z", "30.11.2026T9:14:22.447-0130",
               "2026-02-29 00:00:00", "29.2.2028 0:0:0", "29.2.2100 0:0:0", "31.4.2026 00:00:00", "0000-01-01 00:00:00",
               "1969-12-31 23:59:59", "1970-01-01T00:00:00Z", "1970-01-01T00:29:59+00:30", "1969-12-31T23:59:59-01:00",
               "1970-01-01T00:00:59.9999999+00:01", "9999-12-31T23:59:59.9999999-23:59", "2026-00-01 00:00:00",
               "2026-13-01 0:0:0", "0.1.2026 0:0:0", "2026-11-30 24:00:00", "2026-11-30 23:59:60", "2026-11-30 23:60:00",
               "2026-11-30T09:14:22+24:00", "2026-11-30T09:14:22+01:60", "2026-11-30T09:14:22+1:00", "2026-11-30T09:14:22-01:",
               "2026-11-30T09:14:22 Z", "2026-11-30T09:14:22.Z", "2026-11-30T09:14:22+00:00Z", "2026-11-30TT09:14:22",
               "2026-11-30 T09:14:22", "2026-11-3009:14:22", "2026-11-30-09:14:22", "2026-1-30 09:14:22", "26-11-30 09:14:22",
               "11/30/2026 09:14:22", "30.11.26 09:14:22", "030.11.2026 09:14:22", "30.11.02026 09:14:22", "2026-11-30",
               "30.11.2026", "2026-11-30 5", "09:14:22Z", "09:14:22+01:00", "09:14:22-01", "0:00:00", "23:59:59.9999999", "1"]


def number(rng, micros, unit, comma, exact):
    """Digits in the unit that are nearest to these microseconds, or None."""
    parts = micros * 10**12  # in 10**-18 seconds
    if not exact and (micros or rng.random() < 0.5):
        off = rng.choice([-5, 4, rng.randint(-5, 4), rng.randint(-5, 4)]) * 10**11
        off += rng.choice([0, rng.randrange(10**11)])
        parts = max(0, parts + off)
    digits = {"s": 18, "ms": 15, "us": 12, "ns": 9}[unit]
    whole, rest = divmod(parts, 10**digits)
    decimals = f"{rest:0{digits}}"
    if len(decimals) > 15 or rng.random() < 0.8:
        decimals = decimals.rstrip("0")
    if len(decimals) > 15:  # of seconds: no more than that may stand there
        whole, decimals = micros // 10**6, f"{micros % 10**6:06}"
    whole = str(whole)
    if len(whole) > 21:
        return None
    if rng.random() < 0.1:
        whole = whole.zfill(rng.randint(len(whole), 21))
    if not decimals and rng.random() < 0.2:
        decimals = "0" * rng.randint(1, 15)
    return whole + ("," if comma else ".") + decimals if decimals else whole


def time_of_day(rng, micros, comma, exact):
    """A time of day, or None from 100 hours on."""
    minutes, rest = divmod(micros, 60 * 10**6)
    if minutes >= 60 * 100:
        return None
    seconds = number(rng, rest, "s", comma, exact or rest == 0 or rest > 59 * 10**6).lstrip("0")
    if not seconds[:1].isdigit():
        seconds = "0" + seconds
    if not seconds[1:2].isdigit() and rng.random() < 0.9:
        seconds = "0" + seconds
    hours, minutes = divmod(minutes, 60)
    width = rng.choice([1, 2, 2])
    return f"{hours:0{width}}:{minutes:0{rng.choice([width, 2])}}:{seconds}"


def dated(rng, micros, separator, comma=False, exact=True, dashes=0.5):
    """A date with a time of day, or None where none has four digits of its year."""
    days, rest = divmod(micros, DAY)
    if not 0 <= micros <= LAST_DATE:
        return None
    date = datetime.date(1970, 1, 1) + datetime.timedelta(days)
    text = date.isoformat()
    if rng.random() < dashes:
        return text + separator + time_of_day(rng, rest, comma, exact)
    width = rng.choice([1, 2])
    return f"{date.day:0{width}}.{date.month:0{width}}.{date.year:04}{separator}{time_of_day(rng, rest, comma, exact)}"


def with_offset(rng, micros, separator, comma=False, exact=True, dashes=0.5):
    """A date with an offset."""
    minutes = rng.choice(OFFSETS)
    text = dated(rng, micros + minutes * 60 * 10**6, separator, comma, exact, dashes)
    if text is None:
        return None
    hours, more = divmod(abs(minutes), 60)
    forms = [f"{hours:02}:{more:02}", f"{hours:02}{more:02}"] + ([f"{hours:02}"] if more == 0 else [])
    forms = [("-" if minutes < 0 else "+") + form for form in forms]
    return text + rng.choice(forms + ["Z", "z", "-00"] if minutes == 0 else forms)


class Written:
    """The times of one export, in their order, in a form: a unit, or `day`, `date` or `offset`."""

    def __init__(self, rng, form, exact):
        self.rng, self.form, self.exact = rng, form, exact
        self.separators, self.dashes = rng.sample(SEPARATORS, 2) + [" ", "T"], rng.choice([0, 1, 1, 0.5])
        self.before = self.midnights = 0

    def time(self, micros, comma, without=""):
        """A time as it is written, or None if it can't be. Between a date and the time of day some bytes don't stand."""
        if self.form == "day":
            return self.of_day(micros, comma)
        if self.form in UNITS:
            return number(self.rng, micros, self.form, comma, self.exact)
        write = dated if self.form == "date" else with_offset
        separator = next(it for it in self.separators if not set(it) & set(without))
        return write(self.rng, micros, separator, comma, self.exact, self.dashes)

    def of_day(self, micros, comma):
        own = micros - self.midnights * DAY
        if own >= DAY and self.before - (own - DAY) > DAY // 2 and self.rng.random() < 0.95:
            self.midnights, own = self.midnights + 1, own - DAY
        elif own < 0 or self.before - own > DAY // 2:
            return None
        self.before = own
        return time_of_day(self.rng, own, comma, self.exact)


def shift_of(rng, form, span):
    """By how much the rows of an export of a form may be shifted, which are so long."""
    if form == "day":
        return rng.choice([rng.randrange(86_000 * 10**6), max(0, rng.choice([1, 1, 1, 2, 3]) * DAY - rng.randint(1, span + 1))])
    if form in UNITS:
        return rng.choice([0, 0, 0, rng.randrange(10**6), rng.randrange(10 ** rng.choice([14, 17]))])
    return rng.choice([rng.randrange(10**9), 1_796_030_062_447_000, rng.randrange(1_600_000_000, 2_000_000_000) * 10**6,
                       rng.randrange(LAST_DATE - 10 * DAY)])


def part_end(rng, micros):
    """An end of a part, in one of the forms that it may have."""
    text = None
    if rng.random() < 0.2:
        write = rng.choice([lambda: time_of_day(rng, micros, rng.random() < 0.5, True),
                            lambda: dated(rng, micros, rng.choice(SEPARATORS), rng.random() < 0.5),
                            lambda: with_offset(rng, micros, rng.choice(SEPARATORS), rng.random() < 0.5)])
        text = write()
    return text or str(micros).zfill(rng.choice([1, 1, 1, 18]))


def at_an_edge(rng, field):
    """A time in which one thing is at an edge of what may stand there."""
    things = list(re.finditer(r"[0-9]+|[^0-9]+", field))
    if not things or rng.random() < 0.2:
        return rng.choice(OTHER_TIMES)
    thing = rng.choice(things)
    old = thing[0]
    new = rng.choice([old + old, "0" + old, old[1:], old[:-1], old.zfill(21), old.zfill(22), "59", "60", "23", "24", "99", "00",
                      "29", "31", "1970", "1969", "T", "t", " ", ":", ".", ",", "-", "+", "Z", "z", "; ", "\xa0"])
    return field[: thing.start()] + new + field[thing.end():]
