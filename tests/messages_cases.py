"""Logs of sniffers by hand, and all that mdbimport has to write of each, worked out from docs/bench/messages.md.

A case is the words after `messages`, the log, and what it gives: rows with blanks between them and perhaps lines
after them; or a refusal, which begins with the number of the line. Without lines, no message was moved, and
nothing else is told but which line has no word.
"""

from import_corners import DATE, IN_PART, LONG, MIDNIGHT, MIDNIGHTS, NO_ROW, OTHER, TIME, UNIT
from second_csv import found
from second_rows import REFUSED, left_out

WHO = "wanted M or S before the bytes, or a name given by --controller or --peripheral"
WORDS = "wanted bytes of two hexadecimal digits, or words of three, at most 1FF"
MIXED = "wanted two digits in each word, or three in each, as before"
PARTED = "wanted blanks between the words: so many digits are bytes or words of three"
MOST = "wanted at most 36 words, which is the longest block"
DECIMALS = "wanted words in decimal digits, at most 511"
MARKS = "wanted * in the messages of a line from the first on, or in none"
ARE_DECIMAL = "; are the words decimal (--decimal)?"
LIKELY = WORDS + ARE_DECIMAL  # the end stands after what was found
ORDER = "wanted a message that begins after the one before it, or at most 50 ms too early"

HEADER = "the first line is taken for a header"
MADE_UP = "each message has one time: the times of its words are made up, and rules about times say nothing here; "
STAYS = MADE_UP + "moved no message"
ONE = MADE_UP + "moved 1 message, by {} microseconds"
SOME = MADE_UP + "moved {} messages, by at most {} microseconds"
ONLY_M = "no word of a peripheral (S): was only the controller's line recorded?"
ONLY_S = "no word of the controller (M): was only the peripherals' line recorded?"
NO_MODE = "no word has its mode bit set: was it recorded with 8 bits and not 9?"

US = "--unit us"
TWO = f"{US} --controller VMC --peripheral PER"
DIGIT = f"{US} --controller 1 --peripheral 0"
ARROWS = f"{US} --controller > --peripheral <"
MASTER = [*US.split(), "--controller", "Master 1", "--peripheral", "Master 12"]


def block(time, line, *words):
    """The rows of a message that begins at a time."""
    return " ".join(f"{time + place * 1146},{line},{word}" for place, word in enumerate(words))


ACK = "1,M,000"
# One line, and its rows, or why it is refused.
LINES = [
    # Marks, and what is none.
    (US, '[]()<=:;,|"\t 5 []()<>=:;,|"\t M []()<>=:;,|"\t 08 []()<>=:;,|"\t 09 []()<>=:;,|"\t -',
     block(5, "M", "108", "009")), (US, "5 - M - 08 - 09 -", block(5, "M", "108", "009")),
    (US, "5-M-> 08", "5,M,108"), (US, "--- 5 M 08", "5,M,108"), (US, "-5 M 08", TIME), (US, "--5 M 08", TIME),
    (US, "5 M -08", WORDS), (US, "5 M 08-09", WORDS), (US, "5 M 08 -aa", WORDS), (US, "5 M 08 -AA", WORDS),
    (US, "5 M 08 -F", WORDS), (US, "5 M 08 -g", WORDS), (US, "5-A M 08", TIME), (US, "5-g M 08", WHO),
    (US, "5 M-08", WHO), (US, "5 M-F 08", WHO), (US, "5 M-g 08", WORDS), (US, "5 M-", WORDS),
    *((US, f"5 M {other} 08", WORDS) for other in "./\\'{}*+&%$!?~_@^`#\x0b\x0c\xa0\0\x7f"),
    *((US, f"5 M{other}08", WHO) for other in "./\\'{}*+#\x0b\0"),
    *((US, f"5{other}M 08", TIME) for other in "./\\'+#\x0b\0us"),
    # The time.
    (US, "0 M 00", "0,M,000"), (US, "000000000000001 M 00", ACK), (US, "0000000000000000000001 M 00", TIME),
    (US, "999999999999999999 M 00", "999999999999999999,M,000"),
    (US, "999999999999999999.4 M 00", "999999999999999999,M,000"), (US, "999999999999999999.5 M 00", LONG),
    (US, "1000000000000000000 M 00", LONG), (US, "1.123456789012345 M 00", ACK),
    (US, "1.1234567890123456 M 00", TIME), (US, "0.5 M 00", ACK), (US, "0,5 M 00", ACK),
    (US, "1,499 M 00", ACK), ("--unit s", "0.0000005 M 00", ACK),
    ("--unit s", "999999999999.9999994 M 00", "999999999999999999,M,000"),
    ("--unit s", "999999999999.9999995 M 00", LONG), ("--unit ms", "12,5 M 00", "12500,M,000"),
    ("--unit ns", "1499 M 00", ACK), ("", "14:28:00.447 M 00", "52080447000,M,000"),
    ("", "1:2:3,5 M 00", "3723500000,M,000"), ("", "99:59:59 M 00", "359999000000,M,000"),
    ("--unit ns", "0:0:1 M 00", "1000000,M,000"), ("", "100:00:00 M 00", TIME), ("", "1:60:00 M 00", TIME),
    ("", "1:59:60 M 00", TIME), ("", "1:2 M 00", TIME), ("", "1:2:3:4 M 00", TIME), ("", "1 M 00", UNIT),
    ("", "M 1 00", UNIT), (US, "1, M 00", ACK), (US, "1: M 00", ACK), (US, "1,:,: M 00", ACK),
    (US, "1. M 00", TIME), (US, "1.: M 00", TIME), (US, "1:. M 00", WHO), (US, "1,000,5 M 00", TIME),
    (US, "1.000.5 M 00", TIME), (US, "1.000,5 M 00", TIME), (US, ".5 M 00", TIME), (US, "1e5 M 00", TIME),
    (US, "+1 M 00", TIME), (US, "0x1 M 00", TIME), (US, "1us M 00", TIME), (US, "1M 00", TIME),
    (US, "11/29/2026 14:28:00 M 00", TIME), (US, "29. 11. 2026 M 00", TIME), (US, ",1,M,00", ACK),
    (US, "::1 M 00", ACK), (US, "1 2 M 00", WHO), (US, "1,2 M 00", ACK),
    # Dates, with 1,795,962,480 seconds from 1970-01-01 to 2026-11-29 14:28:00.
    *((words, f"{text} M 00", "1795962480000000,M,000") for words in ("", "--unit ns") for text in (
        "2026-11-29 14:28:00", "29.11.2026 14:28:00", "[2026-11-29T14:28:00]", "2026-11-29\t14:28:00:",
        "2026-11-29;14:28:00;", "29.11.2026, 14:28:00,", "2026-11-29 ;,\t 14:28:00 -", "2026-11-29T14:28:00Z",
        "(2026-11-29t14:28:00z)", "2026-11-29T15:28:00+01:00:", "2026-11-29T15:28:00+0100", "2026-11-29T15:28:00+01",
        "2026-11-29T15:28:00+01: -", "2026-11-29 09:58:00-0430", "2026-11-29T14:28:00-", "29.11.2026 14:28:00.0:,")),
    ("", "2026-11-29 14:28:00,447 M 00", "1795962480447000,M,000"),
    ("", "2026-11-29,14:28:00,08,M,09", "1795962480080000,M,109"),
    ("", "M,2026-11-29,14:28:00,08,09", block(1795962480000000, "M", "108", "009")),
    ("", "M,2026-11-29,14:28:00.447Z,08,09", block(1795962480447000, "M", "108", "009")),
    ("", "M 2026-11-29,14:28:00,5 08", "1795962480500000,M,108"), ("", "M 2026-11-29,14:28:00,5,08", TIME),
    ("", "M;2026-11-29T14:28:00+00;08", "1795962480000000,M,108"),
    *(("", f"{text} M 00", TIME) for text in (
        "2026-11-29", "2026-11-29T", "2026-11-29 ,", "2026-11-29 14:28", "2026-11-29 5", "2026-11-29 24:00:00",
        "2026-11-29[14:28:00]", "2026-11-29 [14:28:00]", "2026-11-29_14:28:00", "2026-11-29T 14:28:00",
        "2026-11-2914:28:00", "26-11-29 14:28:00", "2026-11-9 14:28:00", "29.11.26 14:28:00", "29.11.2026",
        "2026-11-29 14:28:00A", "2026-11-29 14:28:00-A", "2026-11-29 14:28:00-5", "2026-11-29 14:28:00+5",
        "2026-11-29 14:28:00+", "2026-11-29 14:28:00+24:00", "2026-11-29 14:28:00-01:60", "2026-11-29 14:28:00+010",
        "2026-11-29 14:28:00+01000", "2026-11-29 14:28:00+01:000", "2026-11-29 14:28:00ZZ", "2026-11-29 14:28:00Z1",
        "2026-11-29T14:28:00.Z", "14:28:00Z", "14:28:00+01:00", "2026-11-29:14:28:00", "-2026-11-29 14:28:00")),
    ("", "2026-11-29 14:28:00+01:5 M 00", WHO), ("", "2026-11-29 14:28:00 +01:00 M 00", WHO),
    ("", "2026-11-29 14:28:00 Z M 00", WHO), ("", "2026-11-29 14:28:00 M", WORDS), ("", "M 2026-11-29 14:28:00", WORDS),
    ("", "29.2.2026 14:28:00 X 0G", DATE), ("", "1970-01-01T00:00:00+00:01 M 00", DATE),
    ("", "9999-12-31 23:59:59.999999 M 00", "253402300799999999,M,000"),
    # The speaker before the time: a comma between them separates.
    (US, "M 1 00", ACK), (US, "M,1,00", ACK), (US, "M,1,08,09", block(1, "M", "108", "009")),
    (US, "M,0.5,00", ACK), (US, "M;0,5;00", ACK), (US, "M 0,5 00", ACK), (US, "M:0,5 00", ACK),
    (US, "M,0,5,00", WORDS), (US, "M;,0,5;00", WORDS), (US, "M,1,50,00", block(1, "M", "150", "000")),
    (US, "M 1,50 00", "2,M,000"), (US, "M:1,08", WORDS), (US, "M, 1, 00", ACK),
    (US, "M, 1,50 00", block(1, "M", "150", "000")), (US, "M,; 1,50;00", block(1, "M", "150", "000")),
    ("", "M,0:0:1,00", "1000000,M,000"), ("", "M;0:0:1,5;00", "1500000,M,000"), (US, "[M] 1: 00", ACK),
    (US, "M 00", WORDS), (US, "M -1 00", TIME), (US, "M x 1 00", TIME), (US, "M 0", WORDS),
    (US, "x 1 M 00", TIME), (US, "PER 1 00", TIME),
    # Who spoke.
    (US, "1 M 08", "1,M,108"), (US, "1 m 08", "1,M,108"), (US, "1 S 08", "1,S,108"),
    (US, "1 s 08", "1,S,108"), (US, "1 08", WHO), (US, "1", WHO), (US, "1 M", WORDS), (US, "M 1", WORDS),
    (US, "1 MM 08", WHO), (US, "1 M S 08", WORDS), (US, "1 M M 08", WORDS), (US, "1 B 08", WHO),
    (US, "1 VMC 08", WHO), (TWO, "1 VMC 08", "1,M,108"), (TWO, "1 PER 08", "1,S,108"), (TWO, "1 vmc 08", WHO),
    (TWO, "1 m 08", "1,M,108"), (TWO, "1 S 08", "1,S,108"), (TWO, "1 VMC2 08", WHO), (TWO, "1 VM 08", WHO),
    (TWO, "1 VMC08", WHO), (TWO, "VMC: 1 08", "1,M,108"), (TWO, "1 VMC", WORDS), (TWO, "PER 1", WORDS),
    (f"{US} --controller VMC:", "1 VMC: 08", "1,M,108"), (f"{US} --controller VMC:", "1 VMC:08", WHO),
    (f"{US} --controller {'x' * 300}", f"1 {'x' * 300} 08", "1,M,108"),
    (f"{US} --controller {'x' * 300}", f"1 {'x' * 299} 08", WHO),
    (f"{US} --controller Gerät", "1 Gerät 08", "1,M,108"), (MASTER, "1 Master 1 08", "1,M,108"),
    (MASTER, "1 Master 12 08", "1,S,108"), (MASTER, "1 Master 1 2 08", WORDS),
    (MASTER, "1 Master 123 08", WHO), ([*US.split(), "--controller", "M 1"], "5 M 1 08", "5,M,108"),
    ([*US.split(), "--controller", "M 1"], "5 M 11 08", block(5, "M", "111", "008")),
    (f"{US} --peripheral M:", "5 M: 08", "5,S,108"), (f"{US} --peripheral M:", "5 M:08", "5,M,108"),
    (f"{US} --controller D", "5 D 0D 0D", block(5, "M", "10D", "00D")),
    (f"{US} --controller 0D", "5 0D 0D", "5,M,10D"), (DIGIT, "5 1 08", "5,M,108"),
    (DIGIT, "5;0;08", "5,S,108"), (DIGIT, "1 1 08", "1,M,108"), (DIGIT, "1 5 08", WHO),
    (DIGIT, "0 M 08", "0,M,108"), (DIGIT, "5,0,08", TIME), (DIGIT, "5,0;1;08", "5,M,108"),
    (DIGIT, "[5]: 0: 08", "5,S,108"), (DIGIT, "1", WHO), (DIGIT, "5 1", WORDS),
    (f"{US} --controller 1x", "1x 5 08", TIME), (f"{US} --controller 1x", "5 1x 08", "5,M,108"),
    (ARROWS, "1 > 08", "1,M,108"), (ARROWS, "1 < 08", "1,S,108"), (ARROWS, "> 1 08", "1,M,108"),
    (ARROWS, "1 -> 08", "1,M,108"), (ARROWS, "1 <- 08", "1,S,108"), (ARROWS, "1 >08", WHO),
    (ARROWS, "1 >- 08", "1,M,108"), (ARROWS, "1 > < 08", "1,M,108"), (ARROWS, "1 >> < 08", "1,M,108"),
    (ARROWS, "<1> > 08", "1,M,108"),
    (f"{US} --controller [1] --peripheral [2]", "[2] 5 08", "5,S,108"),
    (f"{US} --controller : --peripheral |", "5: 08", "5,M,108"),
    (f"{US} --controller .5", ".5 1 08", "1,M,108"),
    (["--unit", "us", "--controller", "VMC ->", "--peripheral", "VMC <-"], "1 VMC <- 08", "1,S,108"),
    (["--unit", "us", "--controller", "VMC ->", "--peripheral", "VMC <-"], "1 VMC -> 08", "1,M,108"),
    (["--unit", "us", "--controller", "VMC ->", "--peripheral", "VMC <-"], "1 VMC - 08", WHO),
    (f"{US} --controller VMC --peripheral PER", "1 VMC <- PER 00", WORDS),
    # To whom.
    (US, "1 M->S 08 08", block(1, "M", "108", "008")), (US, "1 M -> s: 08", "1,M,108"),
    (US, "1 M>S 08", "1,M,108"), (US, "1 S->M 08", "1,S,108"), (US, "1 M->M 08", WORDS),
    (US, "1 M-S 08", WORDS), (US, "1 M <- S 08", WORDS), (US, "1 M->S->S 08", WORDS),
    (US, "1 M->S>M 08", WORDS), (US, "1 M->SS 08", WORDS), (US, "1 M->S08", WORDS), (US, "1 M->S", WORDS),
    (US, "1 M > > S 08", "1,M,108"), (US, "> 1 M S 08", WORDS), (US, "1 > M S 08", WORDS),
    (US, "1 M S > 08", WORDS), (US, "1 M 08 > S 09", WORDS), (US, "M->S 1 08", "1,M,108"),
    (US, "M-> 1 S 08", "1,M,108"), (US, "M-> 1 08", "1,M,108"), (US, "M-> S 1 S 08", WORDS),
    (TWO, "1 VMC->PER 08", "1,M,108"), (TWO, "1 VMC->S 08", "1,M,108"), (TWO, "1 M->PER 08", "1,M,108"),
    (TWO, "1 PER>VMC> 08", "1,S,108"), (TWO, "1 VMC->VMC 08", WORDS), (TWO, "1 VMC->M 08", WORDS),
    ([*US.split(), "--peripheral", "S 08"], "1 M->S 08 09", "1,M,109"),
    (f"{US} --peripheral 7", "5 M->7 08", "5,M,108"), (f"{US} --peripheral 7", "M->7 5 08", WORDS),
    (f"{US} --peripheral 7", "M->7 05 08", block(7, "M", "105", "008")),
    (f"{US} --peripheral >", "1 M -> > 08", "1,M,108"), (f"{US} --peripheral >", "1 M -> 08", "1,M,108"),
    (f"{US} --peripheral >", "1 M -> > > 08", "1,M,108"),
    # The words.
    (US, "1 M 08 0b 0B", block(1, "M", "108", "00B", "00B")),
    (US, "1 M 108 1ff 1FF", block(1, "M", "108", "1FF", "1FF")), (US, "1 M 200", LIKELY),
    (US, "1 M 1FF 200", WORDS), (US, "1 M 8", WORDS), (US, "1 M 08 8", WORDS), (US, "1 M 08 0G", WORDS),
    (US, "1 M ,", WORDS), (US, "1 M 08 x", WORDS), (US, "1 M 08 # x", WORDS), (US, "1 M 08.09", WORDS),
    (US, "1 M 08h", WORDS), (US, "1 M 08 (ACK)", WORDS), (US, "1 M 08\xe4", WORDS),
    (US, "1 M " + "01 " * 36, block(1, "M", "101", *["001"] * 35)), (US, "1 M " + "01 " * 37, MOST),
    (US, "1 M " + "101 " * 37, MOST), (US, "1 M " + "01 " * 500, MOST),
    (US, "1 M " + "01 " * 37 + "0G", WORDS), (US, "1 M " + "01 " * 37 + "101", MIXED),
    (US, "1 M 08,09;0A|0B", block(1, "M", "108", "009", "00A", "00B")),
    (US, '1 M [08][09] "0A" (0B)', block(1, "M", "108", "009", "00A", "00B")),
    (US, "1 M 0x08, 0X0b", block(1, "M", "108", "00B")), (US, "1 M 0x108 0x00B", block(1, "M", "108", "00B")),
    (US, "1 M 0x0809", block(1, "M", "108", "009")), (US, "1 M 0x", WORDS), (US, "1 M 0x 08", WORDS),
    (US, "1 M 0x8", WORDS), (US, "1 M 00x08", WORDS), (US, "1 M 08 0x", WORDS), (US, "1 M x08", WORDS),
    (US, "1 M 0x0x08", WORDS), (US, "1 M 0x08h", WORDS), (US, "1 M 0x0", WORDS),
    (US, "1 M 0x08 09", block(1, "M", "108", "009")),
    # Long lines.
    (US, "1 M" + " " * 70_000 + "08" + "\t" * 70_000, "1,M,108"), (US, "1 M " + "01" * 50_000, MOST),
    (US, "1 M " + "01" * 60_000, PARTED), (US, "1 M " + "0" * 70_001, WORDS),
    (US, "0" * 70_000 + " M 00", TIME), (US, "1 " + "M" * 70_000 + " 00", WHO),
    # Nothing between them.
    (US, "1 M 0809", block(1, "M", "108", "009")), (US, "1 M 08090", WORDS), (US, "1 M 080910", PARTED),
    (US, "1 M 0809101", WORDS), (US, "1 M 08091011", block(1, "M", "108", "009", "010", "011")),
    (US, "1 M 10800910B", block(1, "M", "108", "009", "10B")), (US, "1 M 108009200", WORDS),
    (US, "1 M 08 080910", block(1, "M", "108", "008", "009", "010")), (US, "1 M 0x080910", PARTED),
    (US, "1 M 080910 08", PARTED), (US, "1 M 108 009010", block(1, "M", "108", "009", "010")),
    (US, "1 M 108 009200", WORDS), (US, "1 M FFFFFF", PARTED), (US, "1 M 080910111213", PARTED),
    (US, "1 M 08 080910111213", block(1, "M", "108", "008", "009", "010", "011", "012", "013")),
    (US, "1 M 108 009010011012", block(1, "M", "108", "009", "010", "011", "012")),
    (US, "1 M " + "01" * 37, MOST), (US, "1 M " + "01" * 36, PARTED), (US, "1 M 01 " + "01" * 36, MOST),
    (US, "1 M " + "1010" * 9 + "", PARTED), (US, "1 M " + "101" * 37, MOST),
    (US, "1 M " + "101" * 35, block(1, "M", *["101"] * 35)), (US, "1 M 08 108", MIXED),
    (US, "1 M 108 08", MIXED), (US, "1 M 0809 108", MIXED), (US, "1 M 08 10800910B", MIXED),
    (US, "1 M 108 0809", MIXED), (US, "1 M 080910 08 108", MIXED), (US, "1 M 080910 " + "08 " * 40, PARTED),
    (US, "1 M 08 108 0G", WORDS), (US, "1 M 08 200", LIKELY), (US, "1 M 080910 8", WORDS),
    # Mode bits.
    (US, "1 M 00", "1,M,000"), (US, "1 M AA", "1,M,0AA"), (US, "1 M ff", "1,M,0FF"),
    (US, "1 M 01", "1,M,101"), (US, "1 M 00 00", block(1, "M", "100", "000")),
    (US, "1 M AA AA", block(1, "M", "1AA", "0AA")), (US, "1 S 00", "1,S,100"), (US, "1 S FF", "1,S,1FF"),
    (US, "1 S 00 00", block(1, "S", "000", "100")), (US, "1 M 008 008", block(1, "M", "008", "008")),
    (US, "1 S 100 000", block(1, "S", "100", "000")), (US, "1 M 100", "1,M,100"), (US, "1 S 000", "1,S,000"),
    # The time of the last word, and the greatest time.
    (US, "999999999999999999 M 08 08", LONG),
    (US, "999999999999998853 M 08 08", block(999999999999998853, "M", "108", "008")),
    (US, "999999999999998854 M 08 08", LONG),
    (f"{US} --time-of last", "999999999999999999 M 08 08", block(999999999999998853, "M", "108", "008")),
    (f"{US} --time-of last", "2292 M 08 08 08", block(0, "M", "108", "008", "008")),
    (f"{US} --time-of first", "2292 M 08 08 08", block(2292, "M", "108", "008", "008")),
    (f"{US} --time-of last", "5 M 00", "5,M,000"),
    # What comes first of several things.
    ("", "x 0G", TIME), ("", "1 X 0G", UNIT), ("--unit s", "9999999999999 X 0G", LONG), (US, "1 X 0G", WHO),
    (US, "9999999999999999999999 X", TIME), ("--unit s", "9999999999999 M", LONG),
    (US, "999999999999999999 M 08 0G", WORDS), (US, "999999999999999999 M 08 108", MIXED),
    # Mode bits that are shown.
    *((US, f"5 M {words}", block(5, "M", "108", "008")) for words in (
        "08* 08", "*08 08", "0x08* 0x08", "*0x08,08", "08*[08]")),
    (US, "5 M 08 08*", block(5, "M", "008", "108")), (US, "5 M 08*,*08", block(5, "M", "108", "108")),
    (US, "5 M 00*", "5,M,100"), (US, "5 S 08* 08", block(5, "S", "108", "008")),
    (US, "5 S 03 01*", block(5, "S", "003", "101")), (US, "5 S FF*", "5,S,1FF"),
    *((US, f"5 M {words}", WORDS) for words in ("08*08", "*08*", "108*", "*108", "0808*", "8*", "08 *", "* 08", "**08",
                                              "08**", "08*-F", "0x*08", "*")),
    # Decimal words.
    *((f"{US} --decimal", f"5 M {words}", block(5, "M", "108", "008")) for words in ("264 8", "264,008", "8* 8", "*8 08")),
    (f"{US} --decimal", "5 S 256", "5,S,100"), (f"{US} --decimal", "5 S 8 8", block(5, "S", "008", "008")),
    (f"{US} --decimal", "5 M 511 255*", block(5, "M", "1FF", "1FF")), (f"{US} --decimal", "5 M", DECIMALS),
    *((f"{US} --decimal", f"5 M {words}", DECIMALS) for words in ("512", "0264", "256*", "*8*", "0B", "0x8", "8h", "8-F",
                                                               "8*8", "*", "999", "8 *")),
    (f"{US} --decimal", "5 M" + " 8" * 36, block(5, "M", *["008"] * 36)), (f"{US} --decimal", "5 M" + " 8" * 37, MOST),
]
B = "0 M 08\n"  # a first line of bytes, and one of words
T = "0 M 108\n"
NO_LINE = STAYS, NO_ROW
# Logs of several lines: what they give, then the lines; or the rows, the number of the refused line, and why.
LOGS = [
    # Ends of lines, blank ones and comments.
    (US, "1 M 08\r2000 S 00\r\n4000 M 08\n", "1,M,108 2000,S,100 4000,M,108"),
    (US, "1 M 08\n2000 S 00", "1,M,108 2000,S,100"), (US, "1 M 08\r\r\nx", "1,M,108", 3, TIME),
    (US, "\n\n\r\n1 M 0G", "", 4, WORDS), (US, "1 M 08\n\r\n\rx\n", "1,M,108", 4, TIME),
    (US, "\r\r\n\n1 M 0G\r\n", "", 4, WORDS),
    (US, " \t \n\t\n# 5 M 0G\n \t# x\n1 M 00\n#\n\n2000 X 00", "1,M,000", 8, WHO),
    (US, "[# x 1\n", "", 1, TIME), (US, "1 M 08\n;# x\n", "1,M,108", 2, TIME),
    (US, "1 M 08\n\x0b\n", "1,M,108", 2, TIME), (US, "1 M 08\n\xa0\n", "1,M,108", 2, TIME),
    (US, "1 M 08\n\0\n", "1,M,108", 2, TIME), (US, "1 M 08\n---\n", "1,M,108", 2, TIME),
    (US, "", "", *NO_LINE), (US, "\n \n# 1 M 08\n", "", *NO_LINE),
    (US, b"# \xff\xfe\0\n1 M 08\n2000 S 00\n", "1,M,108 2000,S,100"),
    # Byte order marks, and what is no text.
    (US, b"\xef\xbb\xbf1 M 08\n2000 S 00\n", "1,M,108 2000,S,100"), (US, b"\xef\xbb\xbf# x 1\n1 M 00", ACK),
    (US, b"1 M 00\n\xef\xbb\xbf2 M 00\n", ACK, 2, TIME),
    (US, "\ufeff1 M 08\r\n2000 S 00\r\n".encode("utf-16-le"), "1,M,108 2000,S,100"),
    (US, "\ufeff1 M 08\r2000 S 00".encode("utf-16-be"), "1,M,108 2000,S,100"),
    (f"{US} --controller Gerät", "\ufeff1 Gerät 08\r2000 S 00".encode("utf-16-le"), "1,M,108 2000,S,100"),
    (f"{US} --controller Gerät", "1 Gerät 08".encode("latin-1"), "", 1, WHO),
    (US, "1 M 08\n".encode("utf-16-le"), "", 1, TIME), (US, b"1 M 08\xff\n", "", 1, WORDS),
    (US, b"1 \xff 08\n", "", 1, WHO), (US, b"\xff1 M 08\n", "", 1, TIME), (US, b"1 M\x00 08\n", "", 1, WHO),
    (US, b"1 M 08\x00\n", "", 1, WORDS), (US, b"1\x00 M 08\n", "", 1, TIME),
    # Headers.
    (US, "Time,Who,Bytes\n1 M 08\n2000 S 00\n", "1,M,108 2000,S,100", HEADER, STAYS),
    (US, "\n# 1\n time\n1 M 00\n", ACK, HEADER, STAYS, ONLY_M, NO_MODE),
    (US, "Time [1]\n1 M 08\n", "", 1, TIME), (US, "M S AA\n1 S 08\n", "1,S,108", HEADER, STAYS, ONLY_S),
    (US, "-----\n1 S 08\n", "1,S,108", HEADER, STAYS, ONLY_S),
    (US, "\xa0\n1 S 08\n", "1,S,108", HEADER, STAYS, ONLY_S), (US, "a\nb\n", "", 2, TIME),
    (US, "1 S 08\na\n", "1,S,108", 2, TIME), (US, "a", "", HEADER, *NO_LINE),
    (US, "M: AA FF\nx", "", 2, TIME), (US, "time\n1 M 0G\n", "", 2, WORDS),
    # Two digits or three: the log's first word decides.
    (US, B + "5000 S 080910\n", f"0,M,108 {block(5000, 'S', '008', '009', '110')}"),
    (US, T + "5000 S 008109\n", f"0,M,108 {block(5000, 'S', '008', '109')}"),
    (US, T + "5000 S 008209\n", "0,M,108", 2, WORDS), (US, B + "5000 S 108\n", "0,M,108", 2, MIXED),
    (US, T + "5000 S 08\n", "0,M,108", 2, MIXED), (US, T + "5000 S 0809\n", "0,M,108", 2, MIXED),
    (US, B + "5000 S 008009100\n", "0,M,108", 2, MIXED), (US, B + "5000 S 108 FFFFFF\n", "0,M,108", 2, MIXED),
    (US, T + "5000 S 08 FFFFFF\n", "0,M,108", 2, WORDS), (US, B + "5000 S 200\n", "0,M,108", 2, LIKELY),
    (US, B + "5000 S 8\n", "0,M,108", 2, WORDS),
    (US, T + "5000 S " + "101" * 36, f"0,M,108 {block(5000, 'S', *['101'] * 36)}"),
    (US, B + "5000 S " + "01" * 36, f"0,M,108 {block(5000, 'S', *['001'] * 35, '101')}"),
    (US, B + "5000 S " + "01" * 39, "0,M,108", 2, MOST), (US, T + "5000 S " + "101" * 38, "0,M,108", 2, MOST),
    (US, "0 M 080910\n5000 S 08\n", "", 1, PARTED),
    # Messages that are moved.
    (US, B + "1146 S 00\n", "0,M,108 1146,S,100"),
    (US, B + "1145 S 00\n", "0,M,108 1146,S,100", ONE.format(1)),
    (US, B + "0 S 00\n", "0,M,108 1146,S,100", ONE.format(1146)),
    (US, "0 M 08 08\n1147 S 00\n", "0,M,108 1146,M,008 2292,S,100", ONE.format(1145)),
    (US, "100000 M 08\n51146 S 00\n", "100000,M,108 101146,S,100", ONE.format(50000)),
    (US, "100000 M 08\n51145 S 00\n", "100000,M,108", 2, ORDER),
    (US, "5 M 08\n5 M 08\n5 S 00\n9000 S 00\n", "5,M,108 1151,M,108 2297,S,100 9000,S,100",
     SOME.format(2, 2292)),
    (US, "5 M 08\n4 M 08\n2000 S 00\n", "5,M,108 1151,M,108 2297,S,100", SOME.format(2, 1147)),
    (US, "0 S 00\n" * 44, " ".join(f"{1146 * at},S,100" for at in range(44)), SOME.format(43, 49278), ONLY_S),
    (US, "0 S 00\n" * 45, " ".join(f"{1146 * at},S,100" for at in range(44)), 45, ORDER),
    (f"{US} --time-of last", "0 S 00 00\n", "0,S,000 1146,S,100", ONE.format(1146), ONLY_S),
    (f"{US} --time-of last", "0 S" + " 00" * 36, block(0, "S", *["000"] * 35, "100"), ONE.format(40110),
     ONLY_S),
    (f"{US} --time-of last", "0 M 08\n1000 S 00 00\n", "0,M,108 1146,S,000 2292,S,100", ONE.format(1292)),
    (f"{US} --time-of last", "100000 M 08\n52292 S 00 00\n", "100000,M,108 101146,S,000 102292,S,100",
     ONE.format(50000)), (f"{US} --time-of last", "100000 M 08\n52291 S 00 00\n", "100000,M,108", 2, ORDER),
    ("", "23:59:59.999 M 08\n0:00:00.010 S 00\n", "86399999000,M,108 86400010000,S,100", MIDNIGHT, STAYS),
    ("", "13:00:00 M 08\n1:00:00 S 00\n", "46800000000,M,108", 2, ORDER),
    ("", "13:00:00.000001 M 08\n\n#\n1:00:00 S 00\n", "46800000001,M,108 90000000000,S,100", MIDNIGHT, STAYS),
    ("", "T\n23:0:0 M 08\n1:0:0 S 00\n23:0:0 M 08\n1:0:0 S 0G\n",
     "82800000000,M,108 90000000000,S,100 169200000000,M,108", 5, WORDS),
    ("", "T\n23:0:0 M 08\n1:0:0 S 00\n23:0:0 M 08\n1:0:0 S 00\n",
     "82800000000,M,108 90000000000,S,100 169200000000,M,108 176400000000,S,100", HEADER, MIDNIGHTS.format(2), STAYS),
    ("", "23:0:0 M 08\n1:0:0 S 00\n0:59:59 M 08\n", "82800000000,M,108 90000000000,S,100", 3, ORDER),
    ("", "23:59:59.9999 M 08 08\n0:0:0 S 00\n", "86399999900,M,108 86400001046,M,008 86400002192,S,100", MIDNIGHT,
     ONE.format(2192)),
    ("--time-of last", "23:59:59.9999 M 08\n0:0:0 S 00 00\n", "86399999900,M,108 86400001046,S,000 86400002192,S,100",
     MIDNIGHT, ONE.format(2192)),
    ("--from 24:00:00", "23:59:59 M 08\n0:00:01 S 00\n", "86401000000,S,100", MIDNIGHT, left_out(1, 0), STAYS),
    ("", "2026-11-29 23:00:00 M 08\n2026-11-29 1:00:00 S 00\n", "1795993200000000,M,108", 2, ORDER),
    ("", "29.11.2026 14:28:00 M 08\n2026-11-29T14:28:01 S 00\n", "1795962480000000,M,108 1795962481000000,S,100"),
    ("", "2026-10-25T02:59:59+02:00 M 08\n2026-10-25T02:00:00+01:00 S 00\n",
     "1792889999000000,M,108 1792890000000000,S,100"),
    (US, "1 M 08\n0:0:2 S 00\n", "1,M,108", 2, OTHER.format("a time of day")),
    ("", "0:0:1 M 08\n2 S 00\n", "1000000,M,108", 2, OTHER.format("a number")),
    ("", "0:0:1 M 08\n30.2.2026 0:0:2 X\n", "1000000,M,108", 2, OTHER.format("a date without an offset")),
    ("", "2026-11-29 14:28:00 M 08\n2026-11-29 14:28:01Z S 00\n", "1795962480000000,M,108", 2,
     OTHER.format("a date with an offset")),
    ("", "23:59:59.999 M 08\n24:00:00.010 S 00\n", "86399999000,M,108 86400010000,S,100"),
    (US, "999999999999998000 M 08\n999999999999998000 S 00\n", "999999999999998000,M,108 999999999999999146,S,100",
     ONE.format(1146)),
    (US, "999999999999998854 M 08\n999999999999998854 S 00\n", "999999999999998854,M,108", 2, LONG),
    (US, "999999999999999999 M 08\n5 S 00 00\n", "999999999999999999,M,108", 2, ORDER),
    (US, "999999 M 08\n5 S 0G\n", "999999,M,108", 2, WORDS),
    (US, "999999 M 08\n5 S 108\n", "999999,M,108", 2, MIXED),
    # Parts, by the times of the rows; the log is read and checked as a whole.
    (f"{US} --from 1146", "0 M 08 08\n0 S 00\n", "1146,M,008 2292,S,100", left_out(1, 0), ONE.format(2292)),
    (f"{US} --until 1146", "0 M 08 08\n0 S 00\n", "0,M,108 1146,M,008", left_out(0, 1), ONE.format(2292)),
    (f"{US} --from 0 --until 2292", "0 M 08 08\n0 S 00\n", "0,M,108 1146,M,008 2292,S,100", ONE.format(2292)),
    (f"{US} --from 9 --until 5", "T\n5 M 08\n9000 S 00\n", "", HEADER, left_out(1, 1), STAYS,
     IN_PART.format(5, 9000)),
    (f"{US} --from 10000", "5 M 08 09\n0 S 00\n", "", left_out(3, 0), ONE.format(2297), IN_PART.format(5, 2297)),
    (f"{US} --until 5", "5 M 08\n9000 S 0G\n", "5,M,108", 2, WORDS),
    (f"{US} --from 9000", "5 M 08\n6 X 00\n9000 S 00\n", "", 2, WHO),
    (f"{US} --from 9000", "5 M 08\n9000 S 00\n", "9000,S,100", left_out(1, 0), STAYS),
    # Comments above the header and the first message.
    (US, "; a\n \t;\n# b\n1 M 00\n; c\n", ACK, 5, TIME), (US, "; 5 M 00\n6 M 00\n", "6,M,000"),
    (US, "; a\nWhen Who\n1 M 00\n", ACK, HEADER, STAYS, ONLY_M, NO_MODE),
    (US, "; a;b\n1 M 00\n", ACK, HEADER, STAYS, ONLY_M, NO_MODE), (US, ";1;M;00\n", ACK),
    (US, "When Who\n; a\n1 M 00\n", "", 2, TIME),
    # Mode bits that are shown, or not.
    (US, "1 M 00\n2000 M 08* 08\n9000 S 00*\n12000 M 00\n",
     "1,M,000 2000,M,108 3146,M,008 9000,S,100 12000,M,000"),
    (US, "1 M 08* 08\n5000 M 0B 0B\n9000 S 00\n", "1,M,108 1147,M,008 5000,M,00B 6146,M,00B 9000,S,100"),
    (US, "1 M 08 08\n5000 M 0B* 0B\n", "1,M,108 1147,M,008", 2, MARKS),
    (US, "1 S 00\n5000 S 00*\n", "1,S,100", 2, MARKS), (US, "1 S 00*\n5000 S 00\n", "1,S,100 5000,S,000"),
    (US, "1 M 00*\n5000 M 08 08\n", "1,M,100 5000,M,008 6146,M,008"),
    (US, "1 M AA\n5000 M 08 08\n9000 M FF\n12000 M 08* 08\n", "1,M,0AA 5000,M,108 6146,M,008 9000,M,0FF", 4, MARKS),
    (US, "1 M 108\n5000 M 08*\n", "1,M,108", 2, MIXED),
    # What is told of the words.
    (US, "1 M 00\n2000 S 000\n", ACK, 2, MIXED),
    (US, "1 M 000\n2000 S 0FF\n", "1,M,000 2000,S,0FF", STAYS, NO_MODE),
    (US, "1 M 08\n", "1,M,108", STAYS, ONLY_M), (US, "1 S 000\n", "1,S,000", STAYS, ONLY_S, NO_MODE),
]
# What is shown of a refused line.
FOUND = [
    (b"1 M 0G", '"1 M 0G"'), (b'  "1" M \t0G\\ ', '"  \\"1\\" M \\x090G\\\\ "'),
    (b"1 M \xc3\xa4\x7f\x00", '"1 M \\xC3\\xA4\\x7F\\x00"'), (b"1 M " + b"x" * 44, f'"1 M {"x" * 44}"'),
    (b"1 M " + b"x" * 45, f'"1 M {"x" * 44}.."'), (b"1,M," + b"x" * 45, f'"1,M,{"x" * 44}.."'),
    (b"1 M " + b"x" * 41 + b"\ty", f'"1 M {"x" * 41}\\x09.."'),
    (b"1 M " + b"x" * 70_000, f'"1 M {"x" * 44}.."'),
]


# Lines that are refused for their words, and whether they may be decimal.
PERHAPS = [("5 M 264 8", True), ("5 M 200", True), ("5 M 511*8", False), ("5 M 200* 8", True), ("5 M 199 8", False),
          ("5 M 8 8", False), ("5 M 264 B", False), ("5 M 512 8", False), ("5 M 264 8 x", False), ("5 M 8 *8 300", True),
          ("5 M 300" + " 8" * 36, False)]


def writes(rows, lines):
    """A function that says what is wrong with a whole answer, or None."""
    out = "".join(f"{row}\n" for row in rows).encode()
    err = "".join(f"mdbimport: {line}\n" for line in lines).encode()
    wanted = (2 if rows and rows[-1] == REFUSED else 0, out, err)

    def wrong(came):
        its = (came.status, came.out, came.err)
        return None if its == wanted else f"{its}, and not {wanted}"
    return wrong


def without_moves(rows):
    """The lines of a log in which nothing was moved."""
    lines = [STAYS]
    lines += [ONLY_M] if not any(",S," in row for row in rows) else []
    lines += [ONLY_S] if not any(",M," in row for row in rows) else []
    return lines + ([NO_MODE] if not any(row[-3] == "1" for row in rows) else [])


def cases():
    """All of them: the words, the log, and what is to be said of it: a function as that of writes()."""
    def case(words, log, rows, *lines):
        words = ["messages", *(words.split() if isinstance(words, str) else words)]
        log, rows = log if isinstance(log, bytes) else log.encode(), rows.split()
        if lines and isinstance(lines[0], int):
            line = second_line(log, lines[0])
            why, hint = lines[1].removesuffix(ARE_DECIMAL), ARE_DECIMAL * lines[1].endswith(ARE_DECIMAL)
            return words, log, writes(rows + [REFUSED], [f"line {lines[0]}: {why}{found([line])}{hint}"])
        return words, log, writes(rows or [REFUSED], lines or without_moves(rows))

    for words, line, gives in LINES:
        yield case(words, line, "", 1, gives) if gives[0] in "wt" else case(words, line, gives)
    for it in LOGS:
        yield case(*it)
    for line, is_likely in PERHAPS:
        yield case(US, line, "", 1, LIKELY if is_likely else WORDS)
    for line, shown in FOUND:
        yield ["messages", *US.split()], line, writes([REFUSED], [f"line 1: {WORDS}; found {shown}"])


def second_line(log, number):
    """A line of a log as it is shown."""
    for mark, encoding in ((b"\xff\xfe", "utf-16-le"), (b"\xfe\xff", "utf-16-be")):
        log = log[2:].decode(encoding).encode() if log.startswith(mark) else log
    log = log.removeprefix(b"\xef\xbb\xbf")
    return log.replace(b"\r\n", b"\n").replace(b"\r", b"\n").split(b"\n")[number - 1]
