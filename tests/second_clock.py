"""The times of exports: docs/bench/importing.md, *Times* and *A part*. What the second readers of rows and messages share,
and what all share of a part's ends. Written from the page, and not from a program's code.
"""

import datetime
import re

NO_TIME = "wanted a time: up to 21 digits, perhaps with decimals, or HH:MM:SS, perhaps after 2026-11-30 or 30.11.2026"
UNIT = "the unit of the times isn't known: give --unit s, ms, us or ns"
NO_DATE = "wanted a date that exists, from 1970 on"
LONG = "wanted a time of at most 18 digits of microseconds"
LAST_TIME = 10**18 - 1

# Numbers, and seconds, are read in these parts of one.
PARTS = 10**15
UNITS = {"s": 1, "ms": 10**3, "us": 10**6, "ns": 10**9}  # so many are a second
DAY = 24 * 60 * 60

DECIMAL = rb"[0-9]{1,21}(?:[.,][0-9]{1,15})?"
TIME_OF_DAY = re.compile(rb"([0-9]{1,2}):([0-9]{1,2}):(%b)" % DECIMAL)
DATE = rb"(?:([0-9]{4})-([0-9]{2})-([0-9]{2})|([0-9]{1,2})\.([0-9]{1,2})\.([0-9]{4}))(?:[Tt]|[ \t,;]+)"
OFFSET = rb"(?:[Zz]|([+-])([0-9]{2})(?::?([0-9]{2}))?)"
DATED = re.compile(DATE + rb"([0-9:.,]+)(" + OFFSET + rb")?")


def number_of(field):
    """The number in a field in PARTS, or None."""
    if not re.fullmatch(DECIMAL, field):
        return None
    whole, _, decimals = field.replace(b",", b".").partition(b".")
    return int(whole + decimals.ljust(15, b"0"))


def microseconds(parts, unit):
    """The nearest whole number of microseconds, the later of two."""
    one = PARTS * UNITS[unit]
    return (2 * parts * 10**6 + one) // (2 * one)


def time_of_day(field, most=99):
    """The seconds of a time of day in PARTS, or None."""
    found = TIME_OF_DAY.fullmatch(field)
    if not found:
        return None
    hours, minutes, seconds = int(found[1]), int(found[2]), number_of(found[3])
    return None if hours > most or minutes > 59 or seconds >= 60 * PARTS else (hours * 60 + minutes) * 60 * PARTS + seconds


def since_1970(date, parts):
    """A time of a date (year, month, day) in PARTS since 1970, or None where its TIME is below 0 or no such day exists."""
    try:
        days = datetime.date(*map(int, date)).toordinal() - datetime.date(1970, 1, 1).toordinal()
    except ValueError:
        return None
    time = days * DAY * PARTS + parts
    return None if days < 0 or microseconds(time, "s") < 0 else time


def form_of(field):
    """The form of a time, and the time in PARTS (None for a date that can't be); None for another field."""
    for form, parts in (("a number", number_of(field)), ("a time of day", time_of_day(field))):
        if parts is not None:
            return form, parts
    found = DATED.fullmatch(field)
    time = found and time_of_day(found[7], 23)
    if time is None:
        return None
    hours, minutes = int(found[10] or 0), int(found[11] or 0)
    if hours > 23 or minutes > 59:
        return None
    date = found.group(1, 2, 3) if found[1] else found.group(6, 5, 4)
    time -= (hours * 60 + minutes) * 60 * PARTS * (-1 if found[9] == b"-" else 1)
    return f"a date {'with' if found[8] else 'without'} an offset", since_1970(date, time)


class Clock:
    """Reads the times of an export in their order."""

    def __init__(self, unit):
        self.unit, self.form, self.written, self.midnights = unit, None, 0, 0

    def time_of(self, field):
        """The TIME of a field, or a text that says what was wanted."""
        form, parts = form_of(field) or (None, None)
        if form is None:
            return NO_TIME
        if self.form not in (None, form):
            return f"wanted a time in the form of the first, and this is {form}"
        if form == "a number" and self.unit is None:
            return UNIT
        if parts is None:
            return NO_DATE
        time = microseconds(parts, self.unit if form == "a number" else "s")
        midnights = self.midnights
        if form == "a time of day":
            midnights += self.written - time > DAY // 2 * 10**6
        if time + midnights * DAY * 10**6 > LAST_TIME:
            return LONG
        self.form, self.written, self.midnights = form, time, midnights
        return time + midnights * DAY * 10**6


def end_of(word):
    """The end of a part that a word gives, or None where it gives none."""
    word = word.encode()
    if re.fullmatch(rb"[0-9]{1,18}", word):
        return int(word)
    time = None if number_of(word) is not None else Clock(None).time_of(word)
    return time if isinstance(time, int) else None


def midnight(times):
    """The lines about midnights."""
    if times == 1:
        return ["midnight passed 1 time: the times after it have 24 hours more"]
    return [f"midnight passed {times} times: the times after each have 24 hours more"] if times else []
