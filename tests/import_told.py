"""Exports by hand, and what mdbimport has to tell of each, worked out from docs/bench/*.md. Those of
import_cases.py have pulses and damaged words; these have what is refused, and what is remarked.
"""

import re

from import_corners import HEADER, IN_PART, LONG, NO_MODE, NO_ROW, THREE
from import_corners import SKIP as HINT
from import_corners import TIME as NO_TIME
from made_sigrok import pair
from second_rows import REFUSED

# Tables of edges, and what is found in a record that is refused by itself, and its likely cause.
NAMED = "edges --controller A --peripheral P"
EDGES_TOLD = [
    (NAMED, b"", ""),
    (NAMED, b"t;A;P\n0;1;1\n", '; found "t;A;P"; are its fields parted by semicolons, and not by '
     "commas?"),
    (NAMED, b"t\tA\tP\n0\t1\t1\n", '; found "t\\x09A\\x09P"; are its fields parted by tabs, and '
     "not by commas?"),
    (NAMED, b"t,a,P\n0,1,1\n", '; found "t,a,P"; does a name differ by great and small letters '
     "alone?"),
    (NAMED, b"t,C,P\n0,1,1\n", '; found "t,C,P"'),
    (NAMED, b"t,A,a\n0,1,1\n", '; found "t,A,a"'),
    (NAMED, b"0,1,1\n", '; found "0,1,1"'),
    (NAMED, b"t,A,P\n0,000,1,1\n", '; found "0,000,1,1"; is there a decimal comma that doesn\'t '
     "stand in quotes?"),
    (NAMED, b"t,A,P\n0,1\n", '; found "0,1"'),
    (NAMED, b"t,A,P\n0,1,x\n", '; found "0,1,x"'),
    (NAMED, b"t,A,P\n5,1,1\n4,1,1\n", '; found "4,1,1"'),
]


# Exports of rows, and all that is told of them on standard error.
BOTH = b"1,M,108\n2,S,0\n"
DAMAGED_TABLE = (b"name,start_time,data,error\nM,0.001,0x108,\nS,0.002,0x055,framing\nS,0.003,0x100,\n"
                 b"M,0.004,0x000,framing\nS,1,0x000,framing\nM,0.0001,0x001,framing\n")
US = "rows --unit us"
TOLD = [
    # Nothing is told of a recording of both lines with mode bits.
    (US, BOTH, ""),
    (US, b"1,M,8\n2,S,100\n", ""),
    (US, b"1,M,8\n2,S,0\n", NO_MODE),
    (US, b"1,M,108\n", "no word of a peripheral (S): was only the controller's line recorded?"),
    (US, b"1,S,108\n", "no word of the controller (M): was only the peripherals' line recorded?"),
    (US, b"1,S,8\n", "no word of the controller (M): was only the peripherals' line recorded?\n"
     + NO_MODE),
    (US, b"", NO_ROW),
    (US, b"1,B,100000\n", "there is no word on either line"),
    (US + " --from 3", BOTH, "left out 2 rows before the part and 0 after it\n" + IN_PART.format(1, 2)),
    (US + " --from 2", BOTH, "left out 1 row before the part and 0 after it"),
    (US + " --until 1", BOTH, "left out 0 rows before the part and 1 after it"),
    (US + " --until 2", BOTH + b"3,X,0\n4\n", "left out 2 records outside the part that are no "
     "rows, or not in order"),
    (US + " --from 3", BOTH + b"2,M,0\n3,S,0\n", "left out 2 rows before the part and 0 after it\n"
     "left out 1 record outside the part that is no row, or not in order"),
    # A header, and first records that are nearly rows.
    (US, b"Time [us],Line,Value\n" + BOTH, HEADER),
    (US, b"Time;Ch;Hex\n" + BOTH, HEADER),
    (US, b"Time[us], Channel 1, Value\n" + BOTH, HEADER),
    (US, b"T,L,D\n" + BOTH, HEADER),
    (US, b"Time,Line,Ch\n" + BOTH, HEADER),
    (US, b"s,TX,m\n" + BOTH, HEADER),
    (US, b"\"Time, s\",\"Line\",\"Word\"\n" + BOTH, HEADER),
    (US, b"Time,M,Value,Note\n" + BOTH, HEADER),
    (US, b"t\n" + BOTH, f'record 1: {THREE}; found "t"'),
    (US, b"TX,FF\n" + BOTH, f'record 1: {THREE}; found "TX,FF"'),
    (US, b"Time,Line,Value,\n" + BOTH, f'record 1: {THREE}; found "Time,Line,Value,"'),
    (US, b"Time,TX,Value,M1\n" + BOTH, f'record 1: {THREE}; found "Time,TX,Value,M1"'),
    (US, b"2024-01-02T10:00,BREAK,100us\n" + BOTH,
     f'record 1: {NO_TIME}; found "2024-01-02T10:00,BREAK,100us"'),
    (US, b"l000,TX,0x308\n" + BOTH, f'record 1: {NO_TIME}; found "l000,TX,0x308"'),
    (US, b"l000,X,\n" + BOTH, f'record 1: {NO_TIME}; found "l000,X,"'),
    (US, b",TX,FF\n" + BOTH, f'record 1: {NO_TIME}; found ",TX,FF"'),
    (US, b"?,TX,0x308\n" + BOTH, f'record 1: {NO_TIME}; found "?,TX,0x308"'),
    (US, b"l000,X,FF\n" + BOTH, f'record 1: {NO_TIME}; found "l000,X,FF"'),
    (US, b"l000,M,108\n" + BOTH, f'record 1: {NO_TIME}; found "l000,M,108"'),
    (US, b"l000,b,250000\n" + BOTH, f'record 1: {NO_TIME}; found "l000,b,250000"'),
    (US, b"l000,TX,10B\n" + BOTH, f'record 1: {NO_TIME}; found "l000,TX,10B"'),
    (US, b"Time,s,Value\n" + BOTH, f'record 1: {NO_TIME}; found "Time,s,Value"'),
    (US + " --controller TX", b"Time,TX,Value\n" + BOTH, f'record 1: {NO_TIME}; found '
     '"Time,TX,Value"'),
    (US, b"0.M,108\n" + BOTH, f'record 1: {THREE}; found "0.M,108"'),
    (US, b"0.M,10B\n" + BOTH, f'record 1: {THREE}; found "0.M,10B"'),
    (US, b"Time,Line,Value\n" * 2 + BOTH, f'record 2: {NO_TIME}; found "Time,Line,Value"'),
    # Other formats.
    ("saleae", b"name,start_time,data,error\nM,0.000001,0x108,\nS,0.000002,0x000,\n", ""),
    ("saleae", b"name,start_time,data,error\nM,0.000001,0x008,\nS,0.000002,0x000,\n", NO_MODE),
    ("saleae --until 1", b"name,start_time,data,error\nM,0.000001,0x108,\nS,0.000002,0x000,\n",
     "left out 0 rows before the part and 1 after it"),
    *((f"saleae {words}", DAMAGED_TABLE, told) for words, told in (
        ("", "record 3 at 2000: wanted a stop bit: only the controller sends a break" + HINT
         + '; found "S,0.002,0x055,framing"'),
        ("--skip-damaged", "record 5 at 4000: the table doesn't tell how long the break is: give --break "
         'MICROSECONDS; found "M,0.004,0x000,framing"'),
        ("--skip-damaged --break 5", "left out 3 damaged words, at 100 on M, 2000 on S, 1000000 on S; mdbcheck "
         "survey shows what is missing"),
        ("--break 5 --from 4000 --skip-damaged", "left out 2 rows before the part and 0 after it\nleft out 3 "
         "damaged words, at 100 on M, 2000 on S, 1000000 on S; mdbcheck survey shows what is missing"))),
    ("saleae --break 5", b"name,start_time,data,error\nM,0.001,0x108,framing\n",
     "record 2 at 1000: wanted a stop bit: a word that isn't 0 is no break" + HINT
     + '; found "M,0.001,0x108,framing"'),
    ("saleae --skip-damaged", b"name,start_time,data,error\nM,0.001,0x108,framing\nS,0.001,0x100,\n",
     "left out 1 damaged word, at 1000 on M; mdbcheck survey shows what is missing\n"
     "no word of the controller (M): was only the peripherals' line recorded?"),
    ("edges", b"Time,M,S\n0,1,1\n", NO_ROW),
    ("vcd", b"$timescale 1us $end $var wire 1 a M $end $var wire 1 b S $end $enddefinitions $end",
     NO_ROW),
    # A line without a level counts as low, upside down too: where it then is low it doesn't fall.
    ("vcd --invert", b"$timescale 1us $end $var wire 1 a M $end $var wire 1 b S $end $enddefinitions $end\n"
     b"xa xb #1000 1a 1b #1104 0a 0b #2500 1b #2604 0b", "no word of the controller (M): was only the "
     "peripherals' line recorded?"),
]


def trace(*pairs, end=True):
    """The text of a trace of these things: (tid, name, begin, end) in microseconds."""
    lines = [line for tid, name, begin, until in pairs
             for line in pair(tid, name, begin * 10**6, until * 10**6)]
    if end:
        lines = lines[:-1] + [lines[-1].removesuffix(","), "]}"]
    return "".join(line + "\n" for line in ['{"traceEvents": ['] + lines).encode()


def started(line, *more):
    return [(line, "Start bit", 1000, 1104), *((line + tid, *rest) for tid, *rest in more)]


# Traces that are refused, and what is told of each, by the line it is on.
ZERO = ("", "000", 1104, 2042), (" warnings", "Frame error", 2042, 2146)
NO_BREAK = "wanted a stop bit after the word: a framing error that is no break" + HINT
TRACES_TOLD = [
    (("", "200", 1104, 2042), "record 3 at 1104 on {}: wanted a word of at most 1FF: decode with "
     "nine data bits"),
    (("", "08", 1104, 2042), "record 3 at 1104 on {}: wanted a word of three hexadecimal digits: "
     "decode with nine data bits"),
    (("", "0001", 1104, 2042), "record 3 at 1104 on {}: wanted a word of three hexadecimal digits: "
     "decode with nine data bits"),
    (("", "Parity error", 1104, 2042), "record 3 at 1104 on {}: wanted no parity: decode with "
     "parity=none"),
    (("", "Stop bit", 1104, 2042), "record 3 at 1104 on {}: wanted something of RX or TX that was "
     "asked for: see the annotations (-A)"),
    (("", "1ff", 1104, 2042), "record 3 at 1104 on {}: wanted something of RX or TX that was "
     "asked for: see the annotations (-A)"),
    (("", "Start bit", 1104, 2042), "record 1 at 1000 on {}: wanted the word of the start bit "
     "before the next start bit"),
    ((" warnings", "Frame error", 1104, 2042), "record 3 at 1104 on {}: " + NO_BREAK),
    ((" break", "Break condition", 1104, 2042), "record 3 at 1104 on {}: wanted a word 000 and its "
     "framing error right before the break"),
    (*ZERO, "record 5 at 2042 on {}: " + NO_BREAK),
    (ZERO[0], ("", "000", 2200, 3000), "record 5 at 2200 on {}: wanted a start bit right before "
     "the word"),
    (ZERO[0], ("", "Start bit", 1000, 1104), "record 5 at 1000 on {}: wanted a time after that of "
     "the row before it on this line"),
]
# Traces that are refused with --skip-damaged too, and what is told of each then.
WRONG = ("", "0FF", 1104, 2042), (" warnings", "Frame error", 2042, 2146)
SKIPPED_TOLD = [
    ((*WRONG, (" warnings", "Frame error", 2050, 2154)), "record 5 at 2042 on {}: " + NO_BREAK),
    ((*WRONG, ("", "Parity error", 3000, 3100)), "record 5 at 2042 on {}: " + NO_BREAK),
    ((*WRONG, ("", "Stop bit", 3000, 3100)), "record 5 at 2042 on {}: " + NO_BREAK),
    ((*WRONG, ("", "000", 3000, 3100)), "record 7 at 3000 on {}: wanted a start bit right before the word"),
    ((*WRONG, ("", "Start bit", 1000, 1104)), "record 7 at 1000 on {}: wanted a time after that of the row "
     "before it on this line"),
    ((*WRONG, (" break", "Break condition", 1000, 999)), "record 7 at 1000 on {}: wanted the end of the break "
     "after its beginning"),
    ((*WRONG, (" warnings", "Frame error", 2200, 2300), (" warnings", "Frame error", 2200, 2300)),
     "record 9 at 2200 on {}: wanted a time after that of the row before it on this line"),
    ((*WRONG, (" warnings", "Frame error", 2200, 2300), (" break", "Break condition", 2200, 9000)),
     "record 9 at 2200 on {}: wanted a word 000 and its framing error right before the break"),
    ((*WRONG, (" warnings", "Frame error", 2200, 2300), ("", "Start bit", 2200, 2300)),
     "record 9 at 2200 on {}: wanted a time after that of the row before it on this line"),
    (((" warnings", "Frame error", 2042, 2146),), "record 3 at 2042 on {}: " + NO_BREAK),
]
BREAKS_TOLD = [
    ("TX", 1000, 999, "record 7 at 1000 on M: wanted the end of the break after its beginning"),
    ("TX", 1000, 10**9 + 1000, "record 7 at 1000 on M: wanted a break of at most 999999999 "
     "microseconds" + HINT),
    ("RX", 1000, 101000, "record 7 at 1000 on S: wanted no break on the line of the devices: are "
     "the lines exchanged (--swap)?" + HINT),
]


def traces():
    """Words, a trace, and the line that it has to be refused with."""
    yield "", trace(*started("TX", ZERO[0]), end=False), (
        "record 5: wanted more records, or the last line ]}: the trace is cut")
    for line, begin, until, told in BREAKS_TOLD:
        yield "", trace(*started(line, *ZERO, (" break", "Break condition", begin, until))), told
    for *things, told in TRACES_TOLD:
        for words, line, name in (("", "TX", "M"), ("", "RX", "S"), ("--swap", "TX", "S")):
            yield words, trace(*started(line, *things)), told.format(name)
    for things, told in SKIPPED_TOLD:
        for line, name in (("TX", "M"), ("RX", "S")):
            yield "--skip-damaged", trace(*started(line, *things)), told.format(name)


# Dumps that are refused, and what is told of each, by docs/bench/vcd.md. A dump is what it has in place of
# the lines of DUMP, by their numbers.
DUMP = ["$timescale 1 us $end", "$scope module bus $end", "$var wire 1 ! M $end", '$var wire 1 " S $end',
        "$upscope $end", "$enddefinitions $end", "#0", '1! 1"', "#1000", "0!", "#1104", "1!", "#2500", '0"',
        "#2604", '1"', "#9000"]
NO_VARIABLE = "wanted one variable of each line: as --controller and --peripheral say, or M and S"
SEVERAL = "wanted one variable of each line: several are called so; give a path"
SIZE = "wanted a variable of one bit for the line"
SCALE = "wanted a timescale of 1, 10 or 100 s, ms, us, ns, ps or fs"
SECOND_SCALE = "wanted one timescale, and this is another one"
NO_SCALE = "wanted a timescale in the header"
VARIABLE = "wanted a type, a size, a code and a name of the variable"
SCOPE = "wanted a type and a name of the scope"
NO_COMMAND = "wanted a command of the header, up to $enddefinitions $end"
NO_TOKEN = "wanted a time, a change of a value, or a command of the dump"
NO_DIGITS = "wanted a time: digits after #"
CUT_DUMP = "wanted more of the dump: it is cut"
NO_LEVEL = "wanted a level, 0 or 1, and the value is none"
LOST_LEVEL = "wanted a level, 0 or 1, after the first one, and it is x or z"
DUMPS_TOLD = [
    ("", {}, None),
    ("", {1: "hello"}, "line 1: " + NO_COMMAND),
    ("", {1: "", 2: "\n\n#0"}, "line 4: " + NO_COMMAND),
    ("", {1: "$end"}, "line 1: " + NO_COMMAND),
    ("", {6: ""}, "line 7: " + NO_COMMAND),
    ("", dict.fromkeys(range(1, 18), ""), "line 18: " + CUT_DUMP),
    ("", {6: "$enddefinitions", **dict.fromkeys(range(7, 18), "x")}, "line 18: " + CUT_DUMP),
    ("", {1: "$comment"}, "line 5: wanted an open scope before $upscope"),
    ("", {1: ""}, "line 6: " + NO_SCALE),
    ("", {1: "", 3: "", 4: ""}, "line 6: " + NO_SCALE),
    ("", {1: "$timescale\n2 us\n$end"}, "line 3: " + SCALE),
    ("", {1: "$timescale 1 us $end $timescale 1 us\n$end"}, "line 2: " + SECOND_SCALE),
    ("", {1: "$timescale 1 us $end $timescale\n$end"}, "line 2: " + SECOND_SCALE),
    ("", {1: "$timescale 1 u s $end"}, "line 1: " + SCALE),
    ("", {2: "$scope module\n$end"}, "line 3: " + SCOPE),
    ("", {2: "$scope module bus 1 $end"}, "line 2: " + SCOPE),
    ("", {5: "$upscope $end $upscope\n$end"}, "line 6: wanted an open scope before $upscope"),
    ("", {3: "$var wire 1 !\n$end"}, "line 4: " + VARIABLE),
    ("", {3: "$var wire 2 ! M $end"}, "line 3: " + SIZE),
    ("", {4: '$var wire 01 " S\n$end'}, "line 5: " + SIZE),
    ("", {3: ""}, "line 6: " + NO_VARIABLE),
    ("", {4: "$var wire 1 ? other $end"}, "line 6: " + NO_VARIABLE),
    ("", {3: '$var wire 1 " M $end'}, "line 6: wanted another variable for each line, and it is the same"),
    ("", {3: "$var wire 1 ! M $end $var wire 1 ? m $end"}, "line 3: " + SEVERAL),
    ("", {3: "$var wire 1 ! M $end $var wire 2 ? m $end"}, "line 3: " + SIZE),
    ("", {3: "$var wire 1 ! M $end $var wire 1 ! m $end"}, None),
    ("--controller bus.M", {}, None),
    ("--controller us.M", {}, "line 6: " + NO_VARIABLE),
    ("--controller D[0]", {3: "$var wire 1 ! D [0] $end"}, None),
    ("--controller D", {3: "$var wire 1 ! D [0] $end"}, "line 6: " + NO_VARIABLE),
    ("--peripheral TX", {3: "$var wire 1 ! M $end", 4: '$var wire 1 " TX $end'}, None),
    ("", {9: "#1000x"}, "line 9: " + NO_DIGITS),
    ("", {9: "#"}, "line 9: " + NO_DIGITS),
    ("", {10: "0 !"}, "line 10: " + NO_TOKEN),
    ("", {10: "2!"}, "line 10: " + NO_TOKEN),
    ("", {10: "$dumpports"}, "line 10: " + NO_TOKEN),
    ("", {10: "0! $var"}, "line 10: " + NO_TOKEN),
    ("", {9: "#1000000000000000000"}, "line 9: " + LONG),
    ("", {9: "#" + "9" * 500}, "line 9: " + LONG),
    ("", {11: "#999"}, "line 11 at 999: wanted a time that isn't before the time before it"),
    ("", {11: "#1000"}, None),
    ("", {10: "b00 !"}, "line 10 at 1000 on line M: " + NO_LEVEL),
    ("", {14: 'r0 "'}, "line 14 at 2500 on line S: " + NO_LEVEL),
    ("", {14: 's\n"'}, "line 15 at 2500 on line S: " + NO_LEVEL),
    ("", {14: 'r0 $', 16: "s $dumpvars"}, None),
    ("", {14: 'bx "'}, "line 14 at 2500 on line S: " + LOST_LEVEL),
    ("", {10: "z!"}, "line 10 at 1000 on line M: " + LOST_LEVEL),
    ("", {8: 'x! Z" b1 ! B1 "'}, None),
    ("", {17: "#9000\nb1"}, "line 19: " + CUT_DUMP),
    ("", {17: "$comment 1!"}, "line 18: " + CUT_DUMP),
    ("", {16: '0"', 17: "#2605"}, "line 18 at 2500 on line S: wanted a line that is high at the end of the export"),
    ("", {12: "0!"}, "line 18 at 1000 on line M: wanted a line that is high at the end of the export"),
    ("", {12: "1!\n#1500\n0!"}, "line 17 at 1000 on line M: wanted a high stop bit, or a break of 95 ms"),
    ("", {12: "1!\n#1500\n0!", 13: "#2093", 14: "0?"}, "line 19 at 1000 on line M: wanted a high stop bit"),
]


def dump(changed):
    """The text of DUMP with other lines."""
    return "".join(changed.get(number, line) + "\n" for number, line in enumerate(DUMP, 1)).encode()


def tells(wanted):
    """Whether a whole answer tells these lines: a function that says what is wrong, or None. A line on what
    is refused, or of a part of it, makes the status 2."""
    lines = "".join(f"mdbimport: {line}\n" for line in wanted.split("\n") if line)
    refused = bool(re.match(r"(record|line) \d", wanted)) or wanted.endswith(NO_ROW) or "the part has no row" in wanted

    def wrong(came):
        told = came.err.decode()
        if told != lines or came.status != (2 if refused else 0):
            return f"status {came.status}, told is {told!r}, and not {lines!r}"
        return None if came.out.decode().endswith(f"{REFUSED}\n") == refused else f"it writes {came.out!r}"
    return wrong


def begins(wanted):
    """Whether it is refused in one line that begins so, or accepted: a function as that of tells()."""
    def wrong(came):
        told = came.err.decode()
        if wanted is None:
            return None if came.status == 0 else f"status {came.status}, {told!r}"
        is_so = (came.status, came.out.decode(), told.count("\n")) == (2, f"{REFUSED}\n", 1)
        return None if is_so and told.startswith(f"mdbimport: {wanted}") else f"{told!r}, and not {wanted!r}"
    return wrong


def ends(wanted):
    """Whether the one line on a refused export shows this: a function as that of tells()."""
    def wrong(came):
        told = came.err.decode()
        is_so = (came.status, came.out.decode(), told.count("\n")) == (2, f"{REFUSED}\n", 1)
        found = told.removesuffix("\n").partition("; found ")
        return None if is_so and found[1] + found[2] == wanted else f"{told!r}, and not {wanted!r}"
    return wrong


def cases():
    """All of them: the words, the text, and what is to be said of it: a function as that of tells()."""
    for words, text, wanted in EDGES_TOLD:
        yield words.split(), text, ends(wanted)
    for words, text, wanted in TOLD:
        yield words.split(), text, tells(wanted)
    for words, text, wanted in traces():
        yield ["sigrok", *words.split()], text, tells(wanted)
    for words, changed, wanted in DUMPS_TOLD:
        yield ["vcd", *words.split()], dump(changed), begins(wanted)
    # In tenths of a picosecond both words are pulses.
    yield ["vcd"], dump({1: "$timescale 100fs $end", 17: "#900000000000000"}), tells(
        f"passed over 2 pulses shorter than half a bit; the first at 0 on M\n{NO_ROW}")
