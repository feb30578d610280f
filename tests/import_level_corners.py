"""Rare corners of traces, tables of edges, and value change dumps, as import_corners.py has those of the other
formats: exports by hand, and what mdbimport has to write and to tell of each.
"""

from import_corners import IN_PART, LONG, NO_MODE, NO_ROW, NO_WORD, ONLY_M, ONLY_S, SKIP, SURVEY, shown, writes
from second_rows import left_out

# ---------------------------------------------------------------------------------- sigrok

HEAD, TAIL = '{"traceEvents": [\n', "\n]}\n"
RECORD = "wanted a record as sigrok-cli writes it for its decoder uart-1"
FIRST = 'record 0: wanted a trace, whose first line is {"traceEvents": [, and it is another one'
CUT = "wanted more records, or the last line ]}: the trace is cut"
LAST = "wanted the last line of a trace, ]}, after a record without a comma"
AFTER = "wanted nothing after the line ]}, where the trace ends"
NO_END = "wanted the end of what begins there as the next record"
NO_BEGIN = "wanted the beginning of something (B), and it is an end (E)"
OTHER = "wanted something of RX or TX that was asked for: see the annotations (-A)"
NO_START = "wanted a start bit right before the word"
NO_STOP = "wanted a stop bit after the word: a framing error that is no break" + SKIP
NO_ZERO = "wanted a word 000 and its framing error right before the break"
ON_S = "wanted no break on the line of the devices: are the lines exchanged (--swap)?" + SKIP
LONG_BREAK = "wanted a break of at most 999999999 microseconds" + SKIP
LATE = "wanted a time after that of the row before it on this line"
TWO_STARTS = "wanted the word of the start bit before the next start bit"
THREE_DIGITS = "wanted a word of three hexadecimal digits: decode with nine data bits"
PULSE = "passed over 1 pulse shorter than half a bit, at {}"


def damaged(*places):
    words = "word" if len(places) == 1 else "words"
    return f"left out {len(places)} damaged {words}, at {', '.join(places)}{SURVEY}"


def record(ph, time, tid, name):
    time = time if "." in time else f"{time}.000000"
    return f'{{"ph": "{ph}", "ts": {time}, "pid": "uart-1", "tid": "{tid}", "name": "{name}"}}'


def trace(text):
    """A trace of pairs with slashes between them: `TX S 1000` is a start bit, `TX 108 1104` a word, `TX F 2042`
    a frame error, and `TX B 1000 101000` a break; others are written out: `RX=Stop bit 5`."""
    kinds = {"S": ("", "Start bit"), "F": (" warnings", "Frame error"), "B": (" break", "Break condition"),
             "P": ("", "Parity error")}
    records = []
    for one in filter(None, (one.strip() for one in text.split("/"))):
        if "=" in one:
            tid, _, rest = one.partition("=")
            name, begin = rest.rsplit(" ", 1)
            end = begin
        else:
            line, kind, begin, *end = one.split()
            end = (end or [begin])[0]
            more, name = kinds.get(kind, ("", kind))
            tid = line + more
        records += [record("B", begin, tid, name), record("E", end, tid, name)]
    return HEAD + ",\n".join(records) + TAIL


M, S = "TX S 1000/TX 108 1104/", "RX S 3000/RX 100 3104/"
ZERO = "TX S 5000/TX 000 5104/TX F 6042/"
DEVICE_ZERO = "RX S 5000/RX 000 5104/RX F 6042/"
B1, E1 = record("B", "1", "TX", "Start bit"), record("E", "1", "TX", "Start bit")
TEXTS = [
    ("", "", "", FIRST), ("", "\n", "", FIRST), ("", ' {"traceEvents": [\n', "", FIRST),
    ("", "\ufeff" + HEAD, "", FIRST),
    ("", '{"traceEvents":[\n', "", FIRST), ("", HEAD, "", f"record 1: {CUT}"),
    ("", HEAD.strip(), "", f"record 1: {CUT}"),
    ("", HEAD + "]}\n", "", f"record 1: {RECORD}"), ("", HEAD + "\n]}\n", "", f"record 1: {RECORD}"),
    ("", f"{HEAD}{B1}{TAIL}", "", f"record 2: {LAST}"), ("", f"{HEAD}{B1}\n{E1}{TAIL}", "", f"record 2: {LAST}"),
    ("", f"{HEAD}{B1},\n{E1}\n", "", f"record 3: {CUT}"), ("", f"{HEAD}{B1},\n{E1},\n", "", f"record 3: {CUT}"),
    ("", f"{HEAD}{B1},\n{E1},{TAIL}", "", f"record 3: {RECORD}"),
    ("", f"{HEAD}{B1},\n{E1}\n]\n", "", f"record 3: {LAST}"),
    ("", f"{HEAD}{B1},\n{E1}{TAIL}\n", "", f"record 3: {AFTER}"),
    ("", f"{HEAD}{B1},\n{E1}{TAIL}]}}", "", f"record 3: {AFTER}"),
    ("", f"{HEAD}{B1},\n{E1}\n]}}", "", NO_ROW), ("", f"{HEAD}{B1},\n{E1}{TAIL}".replace("\n", "\r\n"), "", NO_ROW),
    ("", f"{HEAD}{B1},\r\n{E1}\n]}}\r\n", "", NO_ROW), ("", f"{HEAD}{B1},\r\r\n{E1}{TAIL}", "",
     f"record 1: {RECORD}"),
    ("", f"{HEAD}{E1},\n{E1}{TAIL}", "", f"record 1 at 1: {NO_BEGIN}"),
    ("", f"{HEAD}{B1},\n{E1},\n{E1},\n{E1}{TAIL}", "", f"record 3 at 1: {NO_BEGIN}"),
    ("", f"{HEAD}{B1},\n{B1}{TAIL}", "", f"record 1 at 1: {NO_END}"),
    ("", f"{HEAD}{B1},\n{record('E', '1', 'RX', 'Start bit')}{TAIL}", "", f"record 1 at 1: {NO_END}"),
    ("", f"{HEAD}{B1},\n{record('E', '1', 'TX', '000')}{TAIL}", "", f"record 1 at 1: {NO_END}"),
    *(("", f"{HEAD}{B1.replace(old, new)},\n{E1}{TAIL}", "", f"record 1: {RECORD}") for old, new in (
        ("uart-1", "uart-2"), ("1.000000", "1.00000"), ("1.000000", "1.0000000"), ("1.000000", "1"),
        ("1.000000", ".000000"),
        ("1.000000", "-1.000000"), ("1.000000", "1,000000"), ('"B"', '"b"'), ('"B"', '"X"'), (', "pid"', ',"pid"'),
        ("}", "} "), ("{", " {"), ("Start bit", 'Start "bit'), ("}", ""))),
    ("", f"{HEAD}{B1}, \n{E1}{TAIL}", "", f"record 1: {RECORD}"),
    ("", f"{HEAD}{record('B', '999999999999999999.500000', 'TX', 'Start bit')},\n{E1}{TAIL}", "", f"record 1: {LONG}"),
    ("", f"{HEAD}{B1},\n{record('E', '1000000000000000000', 'TX', 'Start bit')}{TAIL}", "", f"record 2: {LONG}"),
    ("", f"{HEAD}{record('B', '9' * 40, 'TX', 'Start bit')},\n{E1}{TAIL}", "", f"record 1: {LONG}"),
]
TRACES = [
    ("", M + S, "1000,M,108 3000,S,100", ""),
    ("", S + M, "1000,M,108 3000,S,100", ""),
    ("--swap", M + S, "1000,S,108 3000,M,100", ""),
    ("", "RX S 1000/TX S 1000/RX 100 1104/TX 108 1104", "1000,M,108 1000,S,100", ""),
    ("", "RX S 1000.400000/TX S 1000.500000/RX 100 1104/TX 108 1104", "1000,S,100 1001,M,108", ""),
    ("", "TX S 0.499999/TX 108 104/RX S 0.500000/RX 001 104", "0,M,108 1,S,001", ""),
    ("", "TX S 00000000000000000000007/TX 108 104", "7,M,108", ONLY_M),
    ("", "TX S 999999999999999999.499999/TX 008 999999999999999999", "999999999999999999,M,008",
     f"{ONLY_M}\n{NO_MODE}"),
    ("", M + "TX S 5000", "1000,M,108", ONLY_M),
    ("", M + "RX S 900/", "1000,M,108", ONLY_M),
    ("", "TX S 1000/TX 1FF 1104/", "1000,M,1FF", ONLY_M),
    ("", "TX S 1000/TX 0FF 1104/RX S 5/RX 000 109/", "5,S,000 1000,M,0FF", NO_MODE),
    ("", "TX S 1000/TX S 2000", "", f"record 1 at 1000 on M: {TWO_STARTS}"),
    ("", M + "TX S 5000.500000/RX S 7/TX S 6000", "", f"record 5 at 5001 on M: {TWO_STARTS}"),
    ("", M + "TX 001 2200", "", f"record 5 at 2200 on M: {NO_START}"),
    ("", "RX 001 2200", "", f"record 1 at 2200 on S: {NO_START}"),
    ("", "TX S 1000/TX 200 1104", "",
     "record 3 at 1104 on M: wanted a word of at most 1FF: decode with nine data bits"),
    ("", "TX S 1000/TX FFFF 1104", "", f"record 3 at 1104 on M: {THREE_DIGITS}"),
    ("", "TX S 1000/TX F 1104", "", f"record 3 at 1104 on M: {NO_STOP}"),
    ("", "RX S 1000/RX 0F 1104", "", f"record 3 at 1104 on S: {THREE_DIGITS}"),
    ("", "TX 0F 1104", "", f"record 1 at 1104 on M: {NO_START}"),
    ("", "TX S 1000/TX=0f8 1104", "", f"record 3 at 1104 on M: {OTHER}"),
    ("", "TX S 1000/TX= 1104", "", f"record 3 at 1104 on M: {OTHER}"),
    ("", "TX S 1000/TX warnings=1FF 1104", "", f"record 3 at 1104 on M: {OTHER}"),
    ("", "TX S 1000/TX break=000 1104", "", f"record 3 at 1104 on M: {OTHER}"),
    ("", "TX warnings=Start bit 1104", "", f"record 1 at 1104 on M: {OTHER}"),
    ("", "TX=Frame error 1104", "", f"record 1 at 1104 on M: {OTHER}"),
    ("", "RX warnings=Break condition 1104", "", f"record 1 at 1104 on S: {OTHER}"),
    ("", "RX =Start bit 1104", "", f"record 1 at 1104 on S: {OTHER}"),
    ("", "RXX=Start bit 1104", "", f"record 1 at 1104 on S: {OTHER}"),
    ("", "tx=Start bit 1104", "", f"record 1 at 1104: {OTHER}"),
    ("", "T=Start bit 1104", "", f"record 1 at 1104: {OTHER}"),
    ("", "=000 1104.500000", "", f"record 1 at 1105: {OTHER}"),
    ("", ZERO + "XX=000 7000", "", f"record 7 at 7000: {OTHER}"),
    ("", ZERO + "TX=x 7000", "", f"record 5 at 6042 on M: {NO_STOP}"),
    ("", ZERO + "RX=x 7000", "", f"record 7 at 7000 on S: {OTHER}"),
    ("", "RX P 1104", "", "record 1 at 1104 on S: wanted no parity: decode with parity=none"),
    # Frame errors, pulses and breaks.
    ("", "TX F 500/" + M + S, "1000,M,108 3000,S,100", PULSE.format("500 on M")),
    ("", M + S + "RX F 4067.708334", "1000,M,108 3000,S,100", PULSE.format("4068 on S")),
    ("", M + S + "RX F 4067.708333", "", f"record 9 at 4068 on S: {NO_STOP}"),
    ("--skip-damaged", M + S + "RX F 4067.708333", "1000,M,108", damaged("3000 on S") + f"\n{ONLY_M}"),
    ("", ZERO + "TX F 6067.708334", "", f"record 5 at 6042 on M: {NO_STOP}"),
    ("--skip-damaged", ZERO + "TX F 6067.708334", "",
     f"{PULSE.format('6068 on M')}\n{damaged('5000 on M')}\n{NO_ROW}"),
    ("--skip-damaged", ZERO + "TX F 6067.708333", "", f"record 5 at 6042 on M: {NO_STOP}"),
    ("", ZERO + "TX B 5000 5000", "5000,B,0", NO_WORD),
    ("", ZERO + "TX B 5000 4999.999999", "",
     "record 7 at 5000 on M: wanted the end of the break after its beginning"),
    ("", ZERO + "TX B 5000.500000 105000.400000", "5001,B,100000", NO_WORD),
    ("", ZERO + "TX B 5000 1000004999.499999", "5000,B,999999999", NO_WORD),
    ("", ZERO + "TX B 5000 1000004999.500000", "", f"record 7 at 5000 on M: {LONG_BREAK}"),
    ("--skip-damaged", ZERO + "TX B 5000 1000004999.499999", "5000,B,999999999", NO_WORD),
    ("--skip-damaged", ZERO + "TX B 5000 1000004999.500000", "", f"{damaged('5000 on M')}\n{NO_ROW}"),
    ("--skip-damaged", ZERO + "TX B 5000 99999.499999", "", f"{damaged('5000 on M')}\n{NO_ROW}"),
    ("--skip-damaged", ZERO + "TX B 5000 99999.500000", "5000,B,95000", NO_WORD),
    ("", ZERO + "TX B 5000 99999.499999", "5000,B,94999", NO_WORD),
    ("--skip-damaged", ZERO.replace("000 ", "001 ") + "TX B 5000 205000", "", f"{damaged('5000 on M')}\n{NO_ROW}"),
    ("", DEVICE_ZERO + "RX B 5000 205000", "", f"record 7 at 5000 on S: {ON_S}"),
    ("", DEVICE_ZERO + "RX B 5000 4000", "", f"record 7 at 5000 on S: {ON_S}"),
    ("--skip-damaged", DEVICE_ZERO + "RX B 5000 4000", "",
     "record 7 at 5000 on S: wanted the end of the break after its beginning"),
    ("--skip-damaged", DEVICE_ZERO + "RX B 5000 205000", "", f"{damaged('5000 on S')}\n{NO_ROW}"),
    ("--swap", DEVICE_ZERO + "RX B 5000 205000", "5000,B,200000", NO_WORD),
    ("", M + "TX B 5000 205000", "", f"record 5 at 5000 on M: {NO_ZERO}"),
    ("", "TX B 5000 205000", "", f"record 1 at 5000 on M: {NO_ZERO}"),
    ("", "TX S 1/TX 000 105/TX B 1 205000", "", f"record 5 at 1 on M: {NO_ZERO}"),
    ("", M + ZERO + "TX B 900 205000", "", f"record 11 at 900 on M: {LATE}"),
    ("", M + ZERO + "TX B 1000 205000", "", f"record 11 at 1000 on M: {LATE}"),
    ("", M + ZERO + "TX B 1001 201001", "1000,M,108 1001,B,200000", ONLY_M),
    ("--skip-damaged", M + ZERO + "TX B 900 205000", "", f"record 11 at 900 on M: {LATE}"),
    ("--skip-damaged", M + ZERO + "TX B 900 1900", "1000,M,108", f"{damaged('5000 on M')}\n{ONLY_M}"),
    ("", ZERO + "TX B 5000 205000/TX S 5000", "", f"record 9 at 5000 on M: {LATE}"),
    ("", ZERO + "TX B 5000 205000/TX S 5001/TX 108 5105", "5000,B,200000 5001,M,108", ONLY_M),
    ("", ZERO + "TX 001 7000", "", f"record 5 at 6042 on M: {NO_STOP}"),
    ("", ZERO + "TX S 7000", "", f"record 5 at 6042 on M: {NO_STOP}"),
    ("", ZERO + "TX P 7000", "", f"record 5 at 6042 on M: {NO_STOP}"),
    ("--skip-damaged", ZERO + "TX P 7000", "", f"record 5 at 6042 on M: {NO_STOP}"),
    ("", DEVICE_ZERO + ZERO, "", f"record 11 at 6042 on M: {NO_STOP}"),
    ("", ZERO + DEVICE_ZERO, "", f"record 5 at 6042 on M: {NO_STOP}"),
    ("", ZERO + M.replace("TX", "RX"), "", f"record 5 at 6042 on M: {NO_STOP}"),
    ("--skip-damaged", ZERO + DEVICE_ZERO, "", f"{damaged('5000 on M', '5000 on S')}\n{NO_ROW}"),
    ("--skip-damaged", ZERO + "TX S 5000", "", f"record 7 at 5000 on M: {LATE}"),
    ("--skip-damaged", ZERO + "TX S 5001/TX 108 5105", "5001,M,108", f"{damaged('5000 on M')}\n{ONLY_M}"),
    ("", M + "TX S 1000", "", f"record 5 at 1000 on M: {LATE}"),
    ("", M + "TX S 1000.499999", "", f"record 5 at 1000 on M: {LATE}"),
    ("", M + "TX S 1000.500000/TX 001 1105", "1000,M,108 1001,M,001", ONLY_M),
    ("", M + "TX S 3000/TX 001 3104/TX S 3000", "", f"record 9 at 3000 on M: {LATE}"),
    ("", M + "TX S 3000/TX 001 3104/TX S 2000", "", f"record 9 at 2000 on M: {LATE}"),
    ("", "RX F 500/RX F 500", "", f"record 3 at 500 on S: {LATE}"),
    ("", "RX F 500/RX F 499", "", f"record 3 at 499 on S: {LATE}"),
    ("", "RX F 500/TX F 500", "", f"passed over 2 pulses shorter than half a bit; the first at 500 on M\n{NO_ROW}"),
    ("", "RX F 500/RX S 500", "", f"record 3 at 500 on S: {LATE}"),
    ("", "RX F 0/RX S 1/RX 100 105", "1,S,100", f"{PULSE.format('0 on S')}\n{ONLY_S}"),
    ("", "/".join(f"RX F {at}000" for at in range(1, 301)), "",
     f"passed over 300 pulses shorter than half a bit; the first at 1000 on S\n{NO_ROW}"),
    ("--from 1001 --until 3000", "TX F 5/" + M + S + "TX S 5000/TX 008 5104", "3000,S,100",
     f"{left_out(1, 1)}\n{PULSE.format('5 on M')}"),
    ("--from 9000", M + ZERO + "TX B 5000 205000", "", f"{left_out(2, 0)}\n{IN_PART.format(1000, 5000)}"),
    ("--from 9000", "TX S 1000/TX F 1104", "", f"record 3 at 1104 on M: {NO_STOP}"),
    ("--skip-damaged --until 9", ZERO + S, "",
     f"{left_out(0, 1)}\n{damaged('5000 on M')}\n{IN_PART.format(3000, 3000)}"),
]

# ----------------------------------------------------------------------------------- edges

NO_HEADER = "wanted a header that names the columns"
NO_COLUMN = "wanted one column of each line: as --controller and --peripheral say, or M and S"
FIELDS = "wanted as many fields as the header has"
TIME = "wanted a time: up to 21 digits, perhaps with decimals"
LEVEL = "wanted a level, 0 or 1"
FRAMING = "wanted a high stop bit, or a break of 95 ms or more, and the stop bit is low" + SKIP
DEVICE = "wanted words alone on the line of the peripherals, and it is low for a break" + SKIP
TOO_LONG = "wanted a break of at most 999999999 microseconds, and it is longer" + SKIP
CUT_LINE = "wanted a line that is high at the end of the export, and it is low" + SKIP
SAME_RECORD = "wanted a time after that of the record before it, and it is the same"
EARLY_RECORD = "wanted a time after that of the record before it, and it is earlier"
SEMICOLONS = "; are its fields parted by semicolons, and not by commas?"
TABS = "; are its fields parted by tabs, and not by commas?"
COMMA = "; is there a decimal comma that doesn't stand in quotes?"
LETTERS = "; does a name differ by great and small letters alone?"

# What a fault's text has in place of SKIP, where the line is low at rest; and remarks.
LOW_M = "; line M is low at rest: --invert-line M reads it upside down"
LOW_S = "; line S is low at rest: --invert-line S reads it upside down"
BOTH_LOW = "; both lines are low at rest: --invert reads them upside down"
TURNED_LOW = "; line {} is low at rest as --invert or --invert-line has it read"
TURNED = "line {} is low at rest, and is read upside down"
FRAME = FRAMING.removesuffix(SKIP)
S_TURNED = "0:10 1000:00 1060:10 3000:11 3060:10 8000:11 8060:10 13000:11 13060:10"
M_TURNED = "0:01 1000:00 1060:01 3000:11 3060:01 8000:11 8060:01 13000:11 13060:01"
BOTH_TURNED = ("0:00 1000:10 1060:00 3000:01 3060:00 5000:10 5060:00 7000:01 7060:00 9000:10 9060:00 "
               "11000:01 11060:00")
UPRIGHT = "0:11 1000:01 1060:11 3000:10 3060:11 5000:01 5060:11 7000:10 7060:11 9000:01 9060:11 11000:10 11060:11"
SIX = "1000,M,1FF 3000,S,1FF 5000,M,1FF 7000,S,1FF 9000,M,1FF 11000,S,1FF"
S_DAMAGED = "0:10 1000:00 1060:10 3000:11 3060:10 8000:11 8060:10 12000:11 15000:10 40000:11 40060:10"
M_DAMAGED = "0:10 20000:00 23000:10 25000:11 25060:10 28000:11 28060:10 31000:11 31060:10"

# Levels over time in microseconds, as tables and dumps have them: `1000:01` are the levels of M and S. Next to
# that the rows and lines; of a fault its place, which is the number of a change from 1, or one above the last.
LEVELS = [
    ("", "0:11 1000:01 1060:11", "1000,M,1FF", ONLY_M),
    ("", "0:11 1000:10 1060:11", "1000,S,1FF", ONLY_S),
    ("", "0:11 1000:00 1060:11", "1000,M,1FF 1000,S,1FF", ""),
    ("", "0:11 1000:00 1060:10 1200:11", "1000,M,1FF 1000,S,1FE", ""),
    ("", "0:00 1000:11 2000:01 2060:11", "2000,M,1FF", ONLY_M),
    ("", "0:01 500:00 1000:11 2000:01 2060:11", "500,S,1F0 2000,M,1FF", ""),
    ("", "0:00 500:10 1000:00 1060:10", "1000,M,1FF", ONLY_M),
    ("", "0:00", "", NO_ROW), ("", "0:01", "", NO_ROW), ("", "0:11", "", NO_ROW),
    ("", "1000:01 1060:11", "", NO_ROW),
    ("--invert", "0:00 1000:10 1060:00", "1000,M,1FF", ONLY_M),
    # Where levels are read.
    ("", "0:11 1000.5:01 1060:11", "1001,M,1FF", ONLY_M),
    ("", "0:11 1000.499999:01 1060:11", "1000,M,1FF", ONLY_M),
    ("", "0:11 1000:01 1156.25:11", "1000,M,1FF", ONLY_M),
    ("", "0:11 1000:01 1156.250001:11", "1000,M,1FE", ONLY_M),
    ("", "0:11 1000:01 1468.749999:11", "1000,M,1F8", ONLY_M),
    ("", "0:11 1000:01 1468.75:11", "1000,M,1F8", ONLY_M),
    ("", "0:11 1000:01 1468.750001:11", "1000,M,1F0", ONLY_M),
    ("", "0:11 1000:01 1781.25:11", "1000,M,1C0", ONLY_M),
    ("", "0:11 1000:01 1781.250001:11", "1000,M,180", ONLY_M),
    ("", "0:11 1000:01 1989.583333:11", "1000,M,100", ONLY_M),
    ("", "0:11 1000:01 1989.583334:11", "1000,M,000", f"{ONLY_M}\n{NO_MODE}"),
    ("", "0:11 1000:01 2093.75:11", "1000,M,000", f"{ONLY_M}\n{NO_MODE}"),
    ("", "0:11 1000:01 2093.750001:11", "", f"?3 1000 M {FRAMING}"),
    ("--skip-damaged", "0:11 1000:01 2093.750001:11", "", f"{damaged('1000 on M')}\n{NO_ROW}"),
    ("", "0:11 1000:01 1060:11 2093.75:01 2100:11", "", f"?5 1000 M {FRAMING}"),
    ("--skip-damaged", "0:11 1000:01 1060:11 2093.75:01 2100:11", "", f"{damaged('1000 on M')}\n{NO_ROW}"),
    ("", "0:11 1000:01 1060:11 2093.749999:01 2093.75:11", "1000,M,1FF", ONLY_M),
    ("", "0:11 1000:01 1060:11 2093.750001:01 2160:11", "1000,M,1FF 2094,M,1FF", ONLY_M),
    ("", "0:11 1000:01 1060:11 1070:01 1080:11 2000:01 2010:11", "1000,M,1FF", ONLY_M),
    # Pulses.
    ("", "0:11 1000:01 1052.083333:11", "", f"{PULSE.format('1000 on M')}\n{NO_ROW}"),
    ("", "0:11 1000:01 1052.083334:11", "1000,M,1FF", ONLY_M),
    ("", "0:11 1000:10 1052:11 1052.083333:10 1060:11", "1000,S,1FF", ONLY_S),
    ("", "0:11 1000:10 1052:11 1052.083334:10 1112:11", "1052,S,1FF", f"{PULSE.format('1000 on S')}\n{ONLY_S}"),
    ("", "0:11 1000.5:10 1001:11", "", f"{PULSE.format('1001 on S')}\n{NO_ROW}"),
    ("", "0:11 " + " ".join(f"{at}000:10 {at}030:11" for at in range(1, 301)), "",
     f"passed over 300 pulses shorter than half a bit; the first at 1000 on S\n{NO_ROW}"),
    # Breaks.
    ("", "0:11 1000:01 95999.499999:11", "", f"?3 1000 M {FRAMING}"),
    ("", "0:11 1000:01 95999.5:11", "1000,B,95000", NO_WORD),
    ("", "0:11 1000.5:01 96000:11", "1001,B,95000", NO_WORD),
    ("", "0:11 1000.5:01 96000.4:11", "1001,B,95000", NO_WORD),
    ("", "0:11 1000:01 1000000999.499999:11", "1000,B,999999999", NO_WORD),
    ("", "0:11 1000:01 1000000999.5:11", "", f"?3 1000 M {TOO_LONG}"),
    ("--skip-damaged", "0:11 1000:01 1000000999.5:11", "", f"{damaged('1000 on M')}\n{NO_ROW}"),
    ("", "0:11 1000:10 95999.499999:11", "", f"?3 1000 S {FRAMING}"),
    ("", "0:11 1000:10 95999.5:11", "", f"?3 1000 S {DEVICE}"),
    ("", "0:11 1000:10 2000001000:11", "", f"?3 1000 S {DEVICE}"),
    ("--skip-damaged", "0:11 1000:10 201000:11 300000:10 300060:11", "300000,S,1FF",
     f"{damaged('1000 on S')}\n{ONLY_S}"),
    ("", "0:11 1000:01 201000:11 201000.000001:01 201060:11", "1000,B,200000 201000,M,1FF", ONLY_M),
    ("", "0:11 1000:00 1060:01 201000:11", "1000,B,200000 1000,S,1FF", ONLY_S),
    # Where a fault is seen: which comes first, and of which line.
    ("", "0:11 1000:01 1200:11 1300:01 2093.75:00 2093.8:00", "", f"?6 1000 M {FRAMING}"),
    ("", "0:11 1000:01 1200:11 1300:01 5000:01 6000:11", "", f"?5 1000 M {FRAMING}"),
    ("", "0:11 1000:00 1200:11 1300:00 5000:11", "", f"?5 1000 M {FRAMING}"),
    ("", "0:11 1000:00 1200:11 1300:00", "", f"?5 1000 M {CUT_LINE}"),
    ("", "0:11 1000:10 1200:11 1300:10 2000:01", "", f"?6 2000 M {CUT_LINE}"),
    ("", "0:11 1000:10 1200:11 1300:10 2000:00 2094:00", "", f"?6 1000 S {FRAMING}"),
    ("", "0:11 1000:01 3000:00", "", f"?4 1000 M {CUT_LINE}"),
    ("", "0:11 1000:10", "", f"?3 1000 S {CUT_LINE}"),
    ("", "0:11 1000:11 1001:10 9000:10", "", f"?5 1001 S {CUT_LINE}"),
    ("--skip-damaged", "0:11 1000:10 9000:00", "", f"{damaged('1000 on S', '9000 on M')}\n{NO_ROW}"),
    ("--skip-damaged", "0:11 1000:10 9000:00 9060:10", "9000,M,1FF", f"{damaged('1000 on S')}\n{ONLY_M}"),
    ("--skip-damaged", "0:11 1000:01 1060:11 1500:01", "", f"{damaged('1000 on M')}\n{NO_ROW}"),
    ("", "0:11 1000:01 1060:11 1500:01 1600:11", "1000,M,1EF", ONLY_M),
    ("", "0:11 1000:01 1160:11 1170:01 201000:11", "", f"?5 1000 M {FRAMING}"),
    ("--skip-damaged", "0:11 1000:01 1160:11 1170:01 201000:11", "", f"{damaged('1000 on M')}\n{NO_ROW}"),
    ("", "0:11 1000:01 3000:00 3060:01 5000:11", "", f"?5 1000 M {FRAMING}"),
    ("", "0:11 1000:01 1200:11 1300:01 3000:00 3060:01 5000:11", "", f"?5 1000 M {FRAMING}"),
    ("", "0:11 1000:01 1000.1:00 1200:01 1300:00 3000:01 3060:01 50000:11", "", f"?6 1000 S {FRAMING}"),
    # A damaged word ends where the line is high after its stop bit.
    ("--skip-damaged", "0:11 1000:01 2200:11 2201:01 2261:11", "2201,M,1FF", f"{damaged('1000 on M')}\n{ONLY_M}"),
    ("--skip-damaged", "0:11 1000:01 2000:11 2050:01 2200:11 2300:01 2360:11", "2300,M,1FF",
     f"{damaged('1000 on M')}\n{ONLY_M}"),
    # Parts.
    ("--from 1001 --until 3000", "0:11 1000:01 1060:11 3000:10 3060:11 5000:01 5060:11", "3000,S,1FF", left_out(1,
     1)),
    ("--from 9000", "0:11 1000:10 1030:11 3000:10 3060:11", "",
     f"{left_out(1, 0)}\n{PULSE.format('1000 on S')}\n{IN_PART.format(3000, 3000)}"),
    ("--from 9000", "0:11 1000:10 2200:11", "", f"?3 1000 S {FRAMING}"),
    ("--from 1001", "0:11 1000.5:10 1060:11", "1001,S,1FF", ONLY_S),
    # One line upside down: S has words at 3000, 8000 and 13000, and M one at 1000; and the other way round.
    *((words, S_TURNED, "1000,M,1FF 3000,S,1FF 8000,S,1FF 13000,S,1FF", told) for words, told in (
        ("", TURNED.format("S")), ("--invert-line S", ""), ("--invert-line s", ""), ("--skip-damaged", TURNED.format("S")))),
    *((words, M_TURNED, "1000,S,1FF 3000,M,1FF 8000,M,1FF 13000,M,1FF", told) for words, told in (
        ("", TURNED.format("M")), ("--invert-line M", ""), ("--invert-line m", ""), ("--skip-damaged", TURNED.format("M")))),
    ("--from 3000 --until 3000", S_TURNED, "3000,S,1FF", f"{TURNED.format('S')}\n{left_out(1, 2)}"),
    ("", S_TURNED.replace("1000:", "500:11 530:10 1000:"), "1000,M,1FF 3000,S,1FF 8000,S,1FF 13000,S,1FF",
     f"{TURNED.format('S')}\n{PULSE.format('500 on S')}"),
    ("--invert-line M", S_TURNED, "", f"?6 3060 S {FRAME}{LOW_S}"),
    # Two words are too few: one low level alone is long.
    ("", "0:10 1000:00 1060:10 3000:11 3060:10 8000:11 8060:10", "", f"?6 3060 S {FRAMING}"),
    # A line that is high at the first level, upside down: it counts as low before that.
    ("", "0:11 60:10 1000:00 1060:10 8000:11 8060:10 13000:11 13060:10", "1000,M,1FF 8000,S,1FF 13000,S,1FF",
     TURNED.format("S")),
    # Both lines upside down.
    ("", BOTH_TURNED, "", f"?6 1060 M {FRAME}{BOTH_LOW}"),
    *((words, BOTH_TURNED, SIX, "") for words in ("--invert", "--invert --invert-line M")),
    ("--invert-line M", BOTH_TURNED, "", f"?8 3060 S {FRAME}{BOTH_LOW}"),
    ("--skip-damaged", BOTH_TURNED, "", "left out 6 damaged words, the first at 1060 on M, 3060 on S, 5060 on M, 7060 on "
     f"S, 9060 on M{SURVEY}\n{BOTH_LOW[2:]}\n{NO_ROW}"),
    # The right way up, and read upside down.
    ("", UPRIGHT, SIX, ""),
    ("--invert", UPRIGHT, "", f"?6 1060 M {FRAME}{TURNED_LOW.format('M')}"),
    ("--invert-line S", UPRIGHT, "", f"?8 3060 S {FRAME}{TURNED_LOW.format('S')}"),
    # S upside down, and something on it is damaged.
    ("", S_DAMAGED, "", f"?6 3060 S {FRAME}{LOW_S}"),
    ("--skip-damaged", S_DAMAGED, "1000,M,1FF",
     f"{damaged('3060 on S', '8060 on S', '15000 on S', '40060 on S')}\n{LOW_S[2:]}\n{ONLY_M}"),
    ("--skip-damaged --invert-line S", S_DAMAGED, "1000,M,1FF 3000,S,1FF 8000,S,1FF 40000,S,1FF", damaged("12000 on S")),
    # S upside down, and something on M is damaged.
    ("", M_DAMAGED, "", f"?3 20000 M {FRAMING}"),
    ("--skip-damaged", M_DAMAGED, "25000,S,1FF 28000,S,1FF 31000,S,1FF",
     f"{TURNED.format('S')}\n{damaged('20000 on M')}\n{ONLY_S}"),
    # Low at rest, but with nothing wrong; and without a word upside down.
    ("", "0:11 1000:01 1060:11 2100:01 98000:11 99000:01 199000:11", "1000,M,1FF 2100,B,95900 99000,B,100000", ONLY_M),
    ("", "0:10 1000:00 1060:10 3000:11 3030:10 8000:11 8030:10 13000:11 13030:10", "", f"?6 3030 S {FRAME}{LOW_S}"),
    ("--invert-line S", "0:10 1000:00 1060:10 3000:11 3030:10 8000:11 8030:10 13000:11 13030:10", "1000,M,1FF",
     f"passed over 3 pulses shorter than half a bit; the first at 3000 on S\n{ONLY_M}"),
    # Levels of 11 bits: S has two long low levels, and two high ones that are just long enough, or one.
    ("", "0:10 1000:00 1060:10 3000:11 3060:10 5000:11 6145.833334:10 9000:11 10145.833334:10", "",
     f"?6 3060 S {FRAMING}"),
    ("", "0:10 1000:00 1060:10 3000:11 3060:10 5000:11 6145.833333:10 9000:11 10145.833334:10", "",
     f"?6 3060 S {FRAME}{LOW_S}"),
    # One that is off for most of the time isn't upside down.
    ("", "0:11 5000:01 5060:11 9000:10 9060:11 20000:10 900000:11", "", f"?7 20000 S {DEVICE}"),
    ("--skip-damaged", "0:11 5000:01 5060:11 9000:10 9060:11 20000:10 900000:11", "5000,M,1FF 9000,S,1FF",
     damaged("20000 on S")),
]


def changes_in(levels):
    return [(time, *map(int, both)) for time, _, both in (one.partition(":") for one in levels.split())]


def as_table(levels):
    return "t,M,S\n" + "".join(f"{time},{m},{s}\n" for time, m, s in changes_in(levels))


def as_dump(levels):
    """In picoseconds; a change is a line, and the header the first five."""
    lines = ["$timescale 1 ps $end", "$var wire 1 ! M $end", '$var wire 1 " S $end', "$enddefinitions", "$end"]
    for time, m, s in changes_in(levels):
        whole, _, rest = time.partition(".")
        lines.append(f'#{whole}{rest:0<6} {m}! {s}"')
    return "".join(line + "\n" for line in lines)


def placed(told, wave, form):
    """The line on a fault, which stands as `?NUMBER TIME LINE WHY`, by its place. A dump shows a change where the
    next one comes."""
    if not told.startswith("?"):
        return told
    number, time, line, why = told[1:].split(" ", 3)
    place = f"record {int(number) + 1}"
    if form == "vcd":
        place = f"line {min(int(number) + 1, len(wave.split()) + 1) + 5}"
    return f"{place} at {time} on line {line}: {why}"


HEADERS = [
    ("", "", "", f"record 1: {NO_HEADER}"), ("", "\n\r\n", "", f"record 1: {NO_HEADER}"),
    *(("", f"{header}\n", "", f"record 1: {NO_HEADER}{shown(header)}") for header in ("0,M,S", "0.5,M,S", "12345,M,S",
     "0", "123456789012345678901,M,S")),
    ("", '"0,5",M,S\n', "", f'record 1: {NO_HEADER}; found "0,5,M,S"'),
    *(("", f"{header}\n", "", f"record 1: {NO_COLUMN}{shown(header)}") for header in (
        "t,M,M,S", "t,M,m,S", "t,M,S,s", "M,S", "t,M", "t,S", "x", "-1,M", "1e3,A,B", "0x,m",
        "1234567890123456789012,M")),
    *(("", f"{header}\n0,1,1\n", "", NO_ROW) for header in (
        "t,M,S", "0x,M,S", ",M,S", "M,M,S", "S,s,m", "1.,M,S", '"t","M","S"', " t , M , S ", "1234567890123456789012,M,S")),
    ("--controller A", "t,A,M,S\n0,1,x,1\n", "", NO_ROW), ("--controller A", "A,A,M,S\n0,1,x,1\n", "", NO_ROW),
    ("--controller A", "t,M,S\n", "", f"record 1: {NO_COLUMN}{shown('t,M,S')}"),
    ("--controller A", "t,a,S\n", "", f"record 1: {NO_COLUMN}{shown('t,a,S')}{LETTERS}"),
    ("--controller A", "a,x,S\n", "", f"record 1: {NO_COLUMN}{shown('a,x,S')}"),
    ("--controller A", "t,A,x\n", "", f"record 1: {NO_COLUMN}{shown('t,A,x')}"),
    ("--peripheral A", "t,M,S\n", "", f"record 1: {NO_COLUMN}{shown('t,M,S')}"),
    ("--peripheral A", "t,a,M\n", "", f"record 1: {NO_COLUMN}{shown('t,a,M')}{LETTERS}"),
    ("--controller A", "t,A,a,x\n", "", f"record 1: {NO_COLUMN}{shown('t,A,a,x')}"),
    ("--controller A", "t,a;S\n", "", f"record 1: {NO_COLUMN}{shown('t,a;S')}{SEMICOLONS}"),
    ("--controller A", "t,a\tS\n", "", f"record 1: {NO_COLUMN}{shown(chr(9).join(('t,a', 'S')))}{TABS}"),
    ("", "t;M;S\n", "", f"record 1: {NO_COLUMN}{shown('t;M;S')}{SEMICOLONS}"),
    ("", "t\tM;S\n", "", f"record 1: {NO_COLUMN}{shown(chr(9).join(('t', 'M;S')))}{SEMICOLONS}"),
]
T = "t,M,S\n0,1,1\n"
# Comments above the header.
ABOVE = [
    ("", "; a, b\n;\n#c\nt,M,S\n0,1,1\n", "", NO_ROW),
    ("", "#t,M,S\n0,1,1\n", "", NO_ROW),
    ("", "#t,M,s,S\nt,M,S\n0,1,1\n", "", NO_ROW),
    ("", ";t,M,S\n0,1,1\n", "", f'record 2: {NO_HEADER}; found "0,1,1"'),
    ("", ";t;M,S\nt,M,S\n0,1,1\n", "", f"record 1: {NO_COLUMN}{shown(';t;M,S')}{SEMICOLONS}"),
    ("", ' " # a"\n"; b, c",d\nt,M,S\n0,x,1\n', "", f'record 4 at 0 on line M: {LEVEL}; found "0,x,1"'),
    ("", "# a\n\n# b\n", "", f"record 3: {NO_HEADER}"),
    ("", "t,M,S\n# a\n0,1,1\n", "", f'record 2: {FIELDS}; found "# a"'),
    ("--controller 0 --peripheral 1", "; CSV, generated by libsigrok4DSL 0.2.0 on Mon Nov 30 09:12:01 2026\n"
     "; Channels (2/16)\n; Sample rate: 1 MHz\n; Sample count: 12 M Samples\nTime(s),0,1\n0.000000000,1,1\n"
     "0.001000000,0,1\n0.001060000,1,1\n", "1000,M,1FF", ONLY_M),
]
TURNED_TABLE = ("t,M,S\n0,0,0\n1000,1,0\n1060,0,0\n3000,0,1\n3060,0,0\n5000,1,0\n5060,0,0\n7000,0,1\n7060,0,0\n"
                "9000,1,0\n9060,0,0\n")
RECORDS = ABOVE + [
    *(("", f"{T}{one}\n", "", f"record 3: {FIELDS}{shown(one)}{cause}") for one, cause in (
        ("1,1", ""), ("1", ""), ("0,5x,1,1", ""), ("0x,5,1,1", ""), (" 0 , 5 ,1,1", COMMA), ("1,1,1,x", COMMA),
        ("0,5,1,1", COMMA), ("0,5,1,1,1", COMMA), ("x,5,1,1", ""), ("0,x,1,1", ""),
        ("0,,1,1", ""), ("0.5,1,1,1", ""), ("1;1;1", SEMICOLONS), ("1\t1\t1", TABS), ("0,5,1,1;", SEMICOLONS))),
    *(("", f"{T}{one},1,1\n", "", f"record 3: {TIME}{shown(f'{one},1,1')}{cause}") for one, cause in (
        ("", ""), ("x", ""), ("-1", ""), ("+1", ""), ("1.2E-05", ""), (".5", ""), ("5.", ""), ("1.2.3", ""),
        ("0:01", ""),
        ("1234567890123456789012", ""), ("1.1234567890123456", ""), ("1 2", ""), ("1;5", SEMICOLONS), ("1\t", TABS),
        ("1;\t", SEMICOLONS))),
    *((words, f"{T}{one},1,1\n", "", f"record 3: {LONG}{shown(f'{one},1,1')}") for words, one in (
        ("", "999999999999.9999995"), ("", "1000000000000"), ("--unit ms", "999999999999999.9995"),
        ("--unit us", "999999999999999999.5"), ("--unit ns", "999999999999999999999.5"),
        ("--unit ns", "999999999999999999500"), ("", "999999999999999999999.999999999999999"))),
    *((words, f"{T}{one},1,1\n", "", NO_ROW) for words, one in (
        ("", "999999999999.9999994"), ("--unit ms", "999999999999999.9994"), ("--unit us", "999999999999999999.4"),
        ("--unit ns", "999999999999999999499.999999999999999"), ("", '"0,5"'), ("", " 1 "), ("", "0.000000000000001"),
        ("", "000000000000000000001"))),
    *(("", f"{T}1,{one},1\n", "", f"record 3 at 1000000 on line M: {LEVEL}{shown(f'1,{one},1')}") for one in (
        "", "2", "01", "1.0", "-1", "x", "1;", "true", "\xb9")),
    ("", "t,M,S,x,y\n0,5,1,1\n", "", f"record 2: {FIELDS}{shown('0,5,1,1')}{COMMA}"),
    ("", "t,M,S,x,y\n0,5,1\n", "", f"record 2: {FIELDS}{shown('0,5,1')}"),
    ("", T + "1,1,x\n", "", f'record 3 at 1000000 on line S: {LEVEL}; found "1,1,x"'),
    ("", T + "1,x,x\n", "", f'record 3 at 1000000 on line M: {LEVEL}; found "1,x,x"'),
    ("", T + "0.0000005,x,1\n", "", f'record 3 at 1 on line M: {LEVEL}; found "0.0000005,x,1"'),
    ("", T + ' 1 ," ""1"" ", 1\n', "", NO_ROW),
    ("", T + "0,1,1\n", "", f'record 3 at 0: {SAME_RECORD}; found "0,1,1"'),
    ("", "t,M,S\n5,1,1\n5.0,1,1\n", "", f'record 3 at 5000000: {SAME_RECORD}; found "5.0,1,1"'),
    ("", "t,M,S\n5,1,1\n4.999999999999999,1,1\n", "",
     f'record 3 at 5000000: {EARLY_RECORD}; found "4.999999999999999,1,1"'),
    ("", "t,M,S\n5,1,1\n5.000000000000001,1,1\n", "", NO_ROW),
    # Which of several things is reported.
    ("", T + "x,x\n", "", f'record 3: {FIELDS}; found "x,x"'),
    ("", T + "x,x,x\n", "", f'record 3: {TIME}; found "x,x,x"'),
    ("", T + "9999999999999,x,x\n", "", f'record 3: {LONG}; found "9999999999999,x,x"'),
    ("", T + "0,x,x\n", "", f'record 3 at 0 on line M: {LEVEL}; found "0,x,x"'),
    ("", T + "0.001,0,1\n0.09,1,1\n0.09,1,1\n", "", f"record 4 at 1000 on line M: {FRAMING}"),
    ("", T + "0.001,0,1\n0.09,x,1\n", "", f'record 4 at 90000 on line M: {LEVEL}; found "0.09,x,1"'),
    ("", T + "0.001,0,1\n0.0005,1,1\n", "", f'record 4 at 500: {EARLY_RECORD}; found "0.0005,1,1"'),
    ("", T + "0.001,0,1\n0.0011,1,1\n0.0012,0,1\n0.01,0,1\nx,1,1\n", "", f"record 6 at 1000 on line M: {FRAMING}"),
    ("", "S,t,x,M\n0,1,,1\n".replace("S,t", "t,S"), "", NO_ROW),
    # A record that is refused for its form, below a fault in the levels.
    ("--unit us", "t,M,S\n0,1,0\n1000,0,0\n1060,1,0\n3000,1,1\n3060,1,0\n6000,1,1\n6060,1,0\n9000,1,1\nx,1,0\n", "",
     f'record 10: {TIME}; found "x,1,0"'),
    ("--unit us", f"{TURNED_TABLE}11000,0,1\nx,1,0\n", "", f"record 7 at 1060 on line M: {FRAME}{BOTH_LOW}"),
    ("--unit us", f"{TURNED_TABLE}x,1,0\n", "", f"record 9 at 3060 on line S: {FRAMING}"),
    ("--controller A --peripheral C --invert-line C --unit us",
     "t,A,C\n0,1,0\n1000,0,0\n1060,1,0\n3000,1,1\n3060,1,0\n8000,1,1\n8060,1,0\n", "1000,M,1FF 3000,S,1FF 8000,S,1FF",
     ""),
    ("", 't,x,M,y,S\n0,"a,b",1,"c\nd",1\n0.001,,0,,1\n0.00106,;,1,\t,1\n', "1000,M,1FF", ONLY_M),
    ("--unit us", "t,M,S\n" + "".join(f"{time},1,1\n" for time in range(70_000)) + "x,1,1\n", "",
     f'record 70002: {TIME}; found "x,1,1"'),
    ("",
     "t,S," + ",".join(f"x{place}" for place in range(60)) + ",M\n0,1," + "1," * 60 + "1\n0.001,1," + ",".join("x" * 60)
     + ",0\n0.00106,1," + '"",' * 60 + "1\n", "1000,M,1FF", ONLY_M),
    ("", 't,x,M,S\n0,"a"",b",1,1\n0.001,"""",0,1\n0.00106,"a""",1,1\n', "1000,M,1FF", ONLY_M),
    ("", 't,M,S\n0,1,1\n0.001,0,1\n0.00106,1,"1', "1000,M,1FF", ONLY_M),
    ("--unit ns", "t,M,S\n0,1,1\n1000499,0,1\n1060000,1,1\n", "1000,M,1FF", ONLY_M),
    ("--unit ns", "t,M,S\n0,1,1\n1000500,0,1\n1060000,1,1\n", "1001,M,1FF", ONLY_M),
    ("--unit ms", "t,M,S\n0,1,1\n1.0005,0,1\n1.06,1,1\n", "1001,M,1FF", ONLY_M),
    ("", "t,M,S\r0,1,1\r\n0.001,0,1\n\n\r0.00106,1,1", "1000,M,1FF", ONLY_M),
]

# ------------------------------------------------------------------------------------- vcd

CODES = '$var wire 1 ! M $end $var wire 1 " S $end\n'
LATE_TIME = "wanted a time that isn't before the time before it"
NO_LEVEL = "wanted a level, 0 or 1, and the value is none"
LOST = "wanted a level, 0 or 1, after the first one, and it is x or z"
TOKEN = "wanted a time, a change of a value, or a command of the dump"
DIGITS = "wanted a time: digits after #"
CUT_DUMP = "wanted more of the dump: it is cut"
SCALE = "wanted a timescale of 1, 10 or 100 s, ms, us, ns, ps or fs"
UNITS = {"s": 10**15, "ms": 10**12, "us": 10**9, "ns": 10**6, "ps": 10**3, "fs": 1}  # in femtoseconds
BODY = f"$timescale 1 us $end {CODES}$enddefinitions $end\n"  # its lines are the first two
BODIES = [
    ("", '1! 1" #1000 0! #1060 1!', "1000,M,1FF", ONLY_M),
    ("", '#1000 0! #1000 1! 1" #2000 0! #2060 1!', "2000,M,1FF", ONLY_M),
    ("", '#0001000 1! 1" #00000000000000000000002000 0! #2060 1!', "2000,M,1FF", ONLY_M),
    ("", '1! 1" #1000 0! 1! #2000 1! 0! #2060 0! 1!', "2000,M,1FF", ONLY_M),
    ("", '1! 1" #1000 0! #1000 1! #2000 #2000 0! #2000 #2060 1!', "2000,M,1FF", ONLY_M),
    ("", 'b1 ! B1 " #1000 b0 ! #1060\nB1\n!', "1000,M,1FF", ONLY_M),
    ("", 'x! z" #5 X! Z" #6 bx ! Bz " bX ! BZ " #7 1! 1" #1000 0! #1060 1!', "1000,M,1FF", ONLY_M),
    ("", 'x! 1" #500 0! #900 1! #1000 0! #1060 1!', "1000,M,1FF", ONLY_M),
    ("", '0! 1" #900 1! #1000 0! #1060 1!', "1000,M,1FF", ONLY_M),
    ("", '1! #1000 0! #1060 1!', "1000,M,1FF", ONLY_M),
    ("--invert", '0! 0" #1000 1! #1060 0!', "1000,M,1FF", ONLY_M),
    ("",
     '$dumpvars 1! 1" $end $comment #1 0! $dumpoff $end #1000 $dumpall 0! $dumpon $end #1060 1! $dumpoff $end $end',
     "1000,M,1FF",
     ONLY_M),
    ("", '1! 1" r1.5 ? s! ? S0! R R1 r bxz ? b01 ?? b ? 0? x1 z0 10 #1000 0! #1060 1!', "1000,M,1FF", ONLY_M),
    ("", '1! 1" #1000 0!\n#1060', "", f"line 5 at 1000 on line M: {CUT_LINE}"),
    *(("", f'1! 1"\n#7 {token} #8', "", f"line 4: {why}") for token, why in (
        ("1", TOKEN), ("0", TOKEN), ("x", TOKEN), ("z", TOKEN), ("2!", TOKEN), ("y!", TOKEN), ("-", TOKEN),
        ("$var", TOKEN),
        ("$enddefinitions", TOKEN), ("$dumpports", TOKEN), ("$timescale", TOKEN), ("$", TOKEN), ("$END", TOKEN),
        ("!", TOKEN),
        ("#", DIGITS), ("#1.5", DIGITS), ("#-1", DIGITS), ("#+1", DIGITS), ("#1e3", DIGITS), ("##1", DIGITS),
        ("#1#", DIGITS),
        ("#a", DIGITS), ("#999999999999999999999", LONG), ("#1000000000000000000", LONG))),
    *(("", f'1! 1"\n#7 {token}', "", f"line 5: {CUT_DUMP}") for token in ("b1", "B", "r1", "R", "s", "Sx", "$comment",
     "$comment !")),
    *(("", f'1! 1"\n#7\n{token}', "", f"line 5 at 7 on line M: {why}") for token, why in (
        ("x!", LOST), ("X!", LOST), ("z!", LOST), ("Z!", LOST), ("bx !", LOST), ("BZ !", LOST), ("b !", NO_LEVEL),
        ("b00 !", NO_LEVEL),
        ("b01 !", NO_LEVEL), ("b2 !", NO_LEVEL), ("bxx !", NO_LEVEL), ("r1 !", NO_LEVEL), ("R0 !", NO_LEVEL),
        ("s1 !", NO_LEVEL),
        ("S !", NO_LEVEL), ("b- !", NO_LEVEL))),
    ("", '1! 1"\n#7 bx\n"', "", f"line 5 at 7 on line S: {LOST}"),
    ("", 'r1\n"', "", f"line 4 at 0 on line S: {NO_LEVEL}"),
    ("", '1! 1"\n#7\n#6', "", f"line 5 at 6: {LATE_TIME}"), ("", '1! 1"\n#7\n#7\n#06', "",
     f"line 6 at 6: {LATE_TIME}"),
    ("", '1! 1" #999999999999999999', "", NO_ROW), ("", "", "", NO_ROW), ("", "$end", "", NO_ROW),
    ("", "#5", "", NO_ROW),
    ("", '1! 1"\x0b', "", NO_ROW), ("", '1! 1" \x0b', "", f"line 3: {TOKEN}"),
    ("", '1!\t1"\r#1000\r0!\r\n#1060 1!', "1000,M,1FF", ONLY_M),
    ("", '1! 1"\r\r\n#x', "", f"line 4: {DIGITS}"), ("", "\n" * 70_000 + "#x", "", f"line 70003: {DIGITS}"),
    # A fault in the levels is seen at the next later time, and what a token shows by itself comes first.
    ("", '1! 1" #1000 0!\n#5000\n1!\n#5000\n#5001', "", f"line 7 at 1000 on line M: {FRAMING}"),
    ("", '1! 1" #1000 0!\n#5000\n1!\nx!', "", f"line 6 at 5000 on line M: {LOST}"),
    ("", '1! 1" #1000 0!\n#5000 1!\nx" #5001', "", f"line 5 at 5000 on line S: {LOST}"),
    ("", '1! 1" #1000 0!\n#5000 1!\n#4999', "", f"line 5 at 4999: {LATE_TIME}"),
    ("", '1! 1" #1000 0!\n#5000 1!', "", f"line 5 at 1000 on line M: {FRAMING}"),
    ("", '1! 1" #1000 0!\n#5000 1!\n\n', "", f"line 6 at 1000 on line M: {FRAMING}"),
    ("", '1! 1" #1000 0! 0"\n#5000 1! 1"\n#9000', "", f"line 5 at 1000 on line M: {FRAMING}"),
    ("", '1! 1" #1000 0"\n#5000 1" 0!\n', "", f"line 5 at 1000 on line S: {FRAMING}"),
    ("", '1! 1" #1000 0!\n#5000 b1', "", f"line 5: {CUT_DUMP}"),
]


def dumps():
    """Those of dumps."""
    for unit, femtos in UNITS.items():
        for number in (1, 10, 100):
            scale = number * femtos
            begin = max(1, 10**12 // scale)  # a millisecond, or the first time above 0
            end = begin + max(1, 2 * 10**14 // scale)  # 200 ms later
            row = f"{begin * scale // 10**9},B,{(end - begin) * scale // 10**9}"
            most = (10**27 - 5 * 10**8 - 1) // scale
            for form in (f"{number}{unit}", f"{number} {unit}", f"\n{number}\n{unit}\n"):
                header = f"$timescale {form} $end {CODES}$enddefinitions $end\n"
                yield "", f'{header}#0 1! 1" #{begin} 0! #{end} 1!', row, NO_WORD
                yield "", f'{header}#0 1! 1" #{most}', "", NO_ROW
                line = header.count("\n") + 1
                yield "", f'{header}#0 1! 1" #{most + 1}', "", f"line {line}: {LONG}"
    for form in ("1", "us", "2us", "0 us", "1000us", "1 US", "1 Us", "1us us", "1 1 us", "01us", "1.0us", "1 u s",
    "us 1", "1 min", ""):
        yield "", f"$timescale {form} $end {CODES}$enddefinitions $end\n", "", f"line 1: {SCALE}"
    for option in ("--controller", "--peripheral"):
        yield f"{option} TX", BODY, "", (
            "line 2: wanted one variable of each line: as --controller and --peripheral say, or M and S")
    yield "--controller TX", (  # M is another variable then, of any size
        '$timescale 1 us $end $var wire 8 x M $end $var wire 1 ! TX $end $var wire 1 " S $end $enddefinitions $end'
        '\n1! 1" bxz1 x #1000 0! #1060 1!'), "1000,M,1FF", ONLY_M
    for words, body, rows, told in BODIES:
        yield words, BODY + body, rows, told
    deep = "".join(f"$scope module s{number} $end " for number in range(40))
    path = ".".join(f"s{number}" for number in range(40))
    header = f"$timescale 1 us $end {CODES}{deep}$var wire 1 ? M $end {'$upscope $end ' * 40}$enddefinitions $end\n"
    yield f"--controller {path}.M", f'{header}1? 1! 1" #1000 0? #1060 1?', "1000,M,1FF", ONLY_M
    yield "", header, "", ("line 2: wanted one variable of each line: several are called so; give a path")
    yield f"--controller {path}", header, "", (
        "line 2: wanted one variable of each line: as --controller and --peripheral say, or M and S")


def levels():
    """Those of levels, as tables and as dumps."""
    for words, wave, rows, told in LEVELS:
        yield ["edges", "--unit", "us", *words.split()], as_table(wave), rows, placed(told, wave, "edges")
        yield ["vcd", *words.split()], as_dump(wave), rows, placed(told, wave, "vcd")


def cases():
    """All of them: the words, the text, and what is to be said of it: a function as that of writes()."""
    for words, text, rows, told in [*TEXTS, *((words, trace(pairs), rows, told) for words, pairs, rows,
    told in TRACES)]:
        yield ["sigrok", *words.split()], text.encode(), writes(rows, told)
    for words, text, rows, told in HEADERS + RECORDS:
        yield ["edges", *words.split()], text.encode(), writes(rows, told)
    for words, text, rows, told in dumps():
        yield ["vcd", *words.split()], text.encode(), writes(rows, told)
    for words, text, rows, told in levels():
        yield words, text.encode(), writes(rows, told)
