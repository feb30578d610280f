"""Recordings by hand with pulses and damaged words, and what `mdbimport` has to give of each: as a table of
edges, as a value change dump, and as a trace of sigrok-cli. Worked out from docs/bench/edges.md,
sigrok-trace.md, saleae.md and importing.md.

A wave is a list of what the lines do, at whole microseconds (1 MHz): `1000M=108` is a word,
`1000M=108-150` a word whose stop bit is low for so long, `1000S-30` a low level for so long, and `1000S_`
a line that falls for good. Both lines have a word before that, 108 and 100.
"""

import random
import re

import scenes
from second_rows import REFUSED

BASE = "1000M=108 3000S=100 "
BASE_ROWS = ["1000,M,108", "3000,S,100"]
SURVEY = "; mdbcheck survey shows what is missing"
ONE_PULSE = "passed over 1 pulse shorter than half a bit, at {}"
PULSES = "passed over {} pulses shorter than half a bit; the first at {}"


def damaged(*places):
    if len(places) == 1:
        return f"left out 1 damaged word, at {places[0]}{SURVEY}"
    first = "the first " if len(places) > 5 else ""
    return f"left out {len(places)} damaged words, {first}at {', '.join(places[:5])}{SURVEY}"


SAME = "the same"  # with --skip-damaged as without
REFUSES = None  # it is refused without --skip-damaged
# A name, a wave, the rows after those of BASE and what is told without --skip-damaged, and with it; and
# perhaps the same of a trace, where that is another.
CASES = [
    ("nothing", "", ("", []), SAME),
    ("a pulse", "10000S-30", ("", [ONE_PULSE.format("10000 on S")]), SAME),
    ("a pulse of one microsecond", "10000M-1", ("", [ONE_PULSE.format("10000 on M")]), SAME),
    ("three pulses on both lines", "10000S-52 9000M-20 10060S-5",
     ("", [PULSES.format(3, "9000 on M")]), SAME),
    ("two pulses at one time", "10000S-9 10000M-40", ("", [PULSES.format(2, "10000 on M")]), SAME),
    ("two falls within half a bit", "10000S-10 10020S-10", ("", [ONE_PULSE.format("10000 on S")]), SAME),
    ("low again at the middle", "10000S-10 10040S-60", ("10000,S,1FF", []), SAME),
    ("low for more than half a bit", "10000S-53", ("10000,S,1FF", []), SAME),
    ("a pulse directly after a word 000", "10000M=000 11096M-30",
     ("10000,M,000", [ONE_PULSE.format("11096 on M")]), SAME),
    ("a word directly after a pulse", "10000M-30 10054M=10B",
     ("10054,M,10B", [ONE_PULSE.format("10000 on M")]), SAME),
    ("a pulse right before a break", "10000M-30 10060M-100500",
     ("10060,B,100500", [ONE_PULSE.format("10000 on M")]), SAME),
    ("a pulse right after a break", "10000M-100500 110502M-30",
     ("10000,B,100500", [ONE_PULSE.format("110502 on M")]), SAME),
    ("pulses while the other line speaks", "10000M=10B 10200S-30 10500S-30",
     ("10000,M,10B", [PULSES.format(2, "10200 on S")]), SAME),
    ("a wrong stop bit", "10000S=003-100 12000M=108", REFUSES,
     ("12000,M,108", [damaged("10000 on S")])),
    ("a wrong stop bit, and low for 20 ms", "10000M=003-20000 40000M=108", REFUSES,
     ("40000,M,108", [damaged("10000 on M")])),
    ("low for 11 bits less 2 microseconds", "10000M-1144", REFUSES, ("", [damaged("10000 on M")])),
    ("low for 2 ms, over the other line's words", "10000S-2000 10100M=108 11300M=008", REFUSES,
     ("10100,M,108 11300,M,008", [damaged("10000 on S")])),
    ("low for 30 ms on M", "10000M-30000 20000S=00B", REFUSES,
     ("20000,S,00B", [damaged("10000 on M")]), ("10000,B,30000 20000,S,00B", [])),
    ("low for 94,999 microseconds on M", "10000M-94999", REFUSES, ("", [damaged("10000 on M")]),
     ("10000,B,94999", [])),
    ("low for 95,000 microseconds on M", "10000M-95000", ("10000,B,95000", []), SAME),
    ("the longest break", "10000M-999999999", ("10000,B,999999999", []), SAME),
    ("too long for a break", "10000M-1000000000 1000020000M=008", REFUSES,
     ("1000020000,M,008", [damaged("10000 on M")])),
    ("a break on S", "10000S-100500 120000S=000", REFUSES, ("120000,S,000", [damaged("10000 on S")])),
    ("low at the end", "10000M=008 20000S_", REFUSES, ("10000,M,008", [damaged("20000 on S")])),
    ("both lines low at the end", "20000S_ 20000M_", REFUSES,
     ("", [damaged("20000 on M", "20000 on S")])),
    ("a wrong stop bit at the end", "10000M=008-100", REFUSES, ("", [damaged("10000 on M")])),
    ("a pulse after a wrong stop bit", "10000S=003-100 11200S-30", REFUSES,
     ("", [ONE_PULSE.format("11200 on S"), damaged("10000 on S")])),
    ("two on both lines", "10000S-3000 10000M-3000 10000000M=008", REFUSES,
     ("10000000,M,008", [damaged("10000 on M", "10000 on S")])),
    ("five", "10000S-3000 20000M=001-90 30000S-3000 40000S=0FF-90 50000S-3000", REFUSES,
     ("", [damaged("10000 on S", "20000 on M", "30000 on S", "40000 on S", "50000 on S")])),
    ("seven, and two pulses", "70000M=001-90 10000S-3000 20000M=001-90 30000S-3000 40000S=0FF-90 "
     "50000S-3000 60000S-3000 9000M-9 61000M-9", REFUSES,
     ("", [PULSES.format(2, "9000 on M"),
           damaged("10000 on S", "20000 on M", "30000 on S", "40000 on S", "50000 on S", "..", "..")])),
]


def changes_of(wave):
    """The levels that change, by time in microseconds."""
    scene = scenes.Scene(random.Random(0), [], 10**6)
    for time, line, kind, value, more in re.findall(r"(\d+)([MS])([=_-])([0-9A-F]*)(-\d+)?", wave):
        if kind == "=" and more:
            edges = scene.spoilt(line, int(value, 16), round(10 * scene.bit) - int(more)).edges
        elif kind == "=":
            edges = scene.word(line, int(value, 16)).edges
        else:
            edges = [0] if kind == "_" else [0, int(value)]
        scene.things.append(scenes.Thing(line, int(time), edges, [], None))
    return scene.changes()


def table(changes):
    """As a table of edges, in seconds."""
    levels, lines = {"M": 1, "S": 1}, ["Time [s],M,S", "0.000000,1,1"]
    for time in sorted(changes):
        levels.update(changes[time])
        lines.append(f"{time // 10**6}.{time % 10**6:06},{levels['M']},{levels['S']}")
    return "".join(line + "\n" for line in lines)


def dump(changes):
    """As a value change dump."""
    codes = {"M": "!", "S": '"'}
    lines = ["$timescale 1 us $end", "$scope module bus $end", "$var wire 1 ! M $end",
             '$var wire 1 " S $end', "$upscope $end", "$enddefinitions $end", "#0", "1!", '1"']
    for time in sorted(changes):
        lines += [f"#{time}"] + [f"{level}{codes[line]}" for line, level in changes[time].items()]
    return "".join(line + "\n" for line in lines)


def trace(changes):
    """As sigrok-cli's decoder writes it."""
    pairs, _ = scenes.trace(changes, 10**6, {"TX": "M", "RX": "S"})
    lines = [f'{{"ph": "{ph}", "ts": {time}.000000, "pid": "uart-1", "tid": "{tid}", "name": "{name}"}}'
             for tid, name, *times in pairs for ph, time in zip("BE", times)]
    return '{"traceEvents": [\n' + ",\n".join(lines) + "\n]}\n"


FORMS = {"edges": table, "vcd": dump, "sigrok": trace}


def gives(wanted):
    """Whether a whole answer has the rows of BASE and these, and these lines; or a refusal for None: a function
    that says what is wrong, or None."""
    def wrong(came):
        rows, told = came.out.decode(), came.err.decode()
        if wanted is None:
            is_so = (came.status, rows, told.count("\n")) == (2, f"{REFUSED}\n", 1)
            return None if is_so else f"status {came.status}, {rows!r}, {told!r}"
        lines = "".join(f"{row}\n" for row in BASE_ROWS + wanted[0].split())
        wanted_told = "".join(f"mdbimport: {line}\n" for line in wanted[1])
        if (came.status, rows, told) == (0, lines, wanted_told):
            return None
        return f"status {came.status}, {rows!r} and {told!r}, and not {lines!r} and {wanted_told!r}"
    return wrong


def waves():
    """All of them: the words, the text, and the rows and lines that it has to give; None is a refusal."""
    for _, wave, plain, skipped, *of_trace in CASES:
        for form, text in FORMS.items():
            text = text(changes_of(BASE + wave)).encode()
            without = of_trace[0] if form == "sigrok" and of_trace else plain
            for words, wanted in (([form], without), ([form, "--skip-damaged"], skipped)):
                yield words, text, plain if wanted == SAME else wanted


def cases():
    """The words, the text, and what is to be said of it: a function as that of gives()."""
    for words, text, wanted in waves():
        yield words, text, gives(wanted)
