"""Rare corners of each format, as exports by hand: what mdbimport has to write of each, and all that it has to
tell, worked out from docs/bench/*.md. A corner is the words, the text, the rows (with blanks between them), and
the lines, of which one that begins with `record` or `line` refuses the export.
"""

import re

from second_csv import found
from second_rows import REFUSED, left_out, passed

ONLY_M = "no word of a peripheral (S): was only the controller's line recorded?"
ONLY_S = "no word of the controller (M): was only the peripherals' line recorded?"
NO_MODE = "no word has its mode bit set: was it recorded with 8 bits and not 9?"
NO_WORD = "there is no word on either line"
NO_ROW = "there is no row in the export"
IN_PART = "the part has no row: the rows have times from {} to {}"
MIDNIGHT = "midnight passed 1 time: the times after it have 24 hours more"
MIDNIGHTS = "midnight passed {} times: the times after each have 24 hours more"
HEADER = "the first record is taken for a header"
SKIP = "; --skip-damaged leaves out what is damaged"
SURVEY = "; mdbcheck survey shows what is missing"
SAME = "wanted a time after that of the row before it, and it is the same"
EARLIER = "wanted a time after that of the row before it, and it is earlier"
LONG = "wanted a time of at most 18 digits of microseconds"


def shown(text):
    """A record, which has no quotes, as the line on it shows it."""
    return found(text.encode().split(b","))


# ------------------------------------------------------------------------------------ rows

THREE = "wanted three fields: TIME, LINE and VALUE"
TIME = ("wanted a time: up to 21 digits, perhaps with decimals, or HH:MM:SS, perhaps after 2026-11-30 "
        "or 30.11.2026")
OTHER = "wanted a time in the form of the first, and this is {}"
DATE = "wanted a date that exists, from 1970 on"
UNIT = "the unit of the times isn't known: give --unit s, ms, us or ns"
LINE = "wanted M, S or B, or a name given by --controller or --peripheral"
WORD = "wanted a word in hexadecimal digits, at most 1FF"
LENGTH = "wanted the length of the break, below 1000 seconds"
IS_DECIMAL = "; are the words decimal (--decimal)?"
NO_DECIMAL = "wanted a word in decimal digits, at most 511"
COMMENTS = "wanted rows below the comments, and there are none"
GZIP = "; this is compressed by gzip: write zcat FILE | before the command"

# A time in a unit (or none, for a time of day), and the microseconds that it is, or why it is refused.
TIMES = [
    ("us", "0", 0), ("us", "000000000000000", 0), ("us", "999999999999999", 10**15 - 1),
    ("us", "999999999999999.5", 10**15), ("us", "1764500000001000", 1_764_500_000_001_000),
    ("us", "999999999999999999.499999999999999", 10**18 - 1), ("us", "999999999999999999.5", LONG),
    ("us", "1000000000000000000", LONG), ("us", "000000000000000000001", 1),
    ("us", "0000000000000000000001", TIME), ("us", "12345678901234567x", TIME), ("us", "1234567890123456x7", TIME),
    ("us", "x2345678901234567", TIME), ("us", "1.123456789012345", 1), ("us", "1.1234567890123456", TIME),
    ("us", "0.5", 1), ("us", "0.499999999999999", 0), ("us", "1.5", 2), ("us", "2.5", 3), ("us", "7.", TIME),
    ("us", ".5", TIME), ("us", "-1", TIME), ("us", "+1", TIME), ("us", "1e3", TIME), ("us", "1.2.3", TIME),
    ("us", "1..2", TIME), ("us", "", TIME), ("us", "1 2", TIME), ("us", "0x10", TIME), ("us", "1_0", TIME),
    ("us", "1A", TIME), ("us", "\xb2", TIME), ("us", "1:2", TIME), ("us", "1:2:3:4", TIME),
    ("ms", "999999999999999.9994", 10**18 - 1), ("ms", "999999999999999.9995", LONG),
    ("ms", "1000000000000000", LONG), ("ms", "999999999999999999999.999999999999999", LONG),
    ("ms", "0.0005", 1), ("ms", "0.000499999999999", 0), ("ms", "12.3456", 12346),
    ("s", "999999999999.9999994", 10**18 - 1), ("s", "999999999999.9999995", LONG), ("s", "0.0000005", 1),
    ("s", "999999999999999999999.999999999999999", LONG),
    ("s", "0.000000499999999", 0), ("s", "0.000000999999999", 1), ("s", "999999999999999", LONG),
    ("ns", "499", 0), ("ns", "500", 1), ("ns", "1499", 1), ("ns", "499.999999999999999", 0), ("ns", "1500", 2),
    ("ns", "999999999999999", 10**12), ("ns", "999999999999499.9", 999_999_999_999),
    ("ns", "1764500000001000499", 1_764_500_000_001_000), ("ns", "999999999999999999499.9", 10**18 - 1),
    ("ns", "999999999999999999500", LONG), ("ns", "1000000000000000000000", TIME),
    ("us", "0:00:00", 0), (None, "0:0:0", 0), (None, "00:00:00.0000005", 1), (None, "00:00:00.0000004", 0),
    (None, "7:5:3", 25_503_000_000), (None, "23:59:59.9999995", 86_400_000_000), (None, "24:00:00", 86_400_000_000),
    (None, "99:59:59.9999994", 359_999_999_999), (None, "99:59:59.9999999", 360_000_000_000),
    (None, "100:00:00", TIME), (None, "001:00:00", TIME), (None, "1:60:00", TIME), (None, "1:59:60", TIME),
    (None, "1:59:59", 7_199_000_000), (None, "1:060:00", TIME), (None, "1:00:60.0", TIME), (None, "1::3", TIME),
    (None, ":1:3", TIME), (None, "1:2:", TIME), (None, "1:2:3.", TIME),
    (None, "1:2:000000000000059.5", 3_779_500_000),
    (None, "1:2:000000000000000000059", 3_779_000_000), (None, "1:2:0000000000000000000059", TIME), (None, "1:2:3.1234567890123456", TIME), (None, "-1:2:3", TIME),
    (None, "1.0:2:3", TIME), (None, "1:2.5:3", TIME), (None, "1", UNIT), (None, "1.5", UNIT), ("ns", "0:0:1", 10**6),
    ("ms", "1:0:0", 3_600_000_000),
]
# A date with a time, and the microseconds since 1970 that it is, or why it is refused. Day 20,787 is 2026-11-30.
DATES = [
    *((text, 1_796_030_062_000_000) for text in (
        "2026-11-30 09:14:22", "2026-11-30T09:14:22", "2026-11-30t9:14:22", "2026-11-30   9:14:22",
        "30.11.2026 09:14:22", "30.11.2026T09:14:22", "2026-11-30,09:14:22", "30.11.2026, 9:14:22",
        "2026-11-30T09:14:22Z", "2026-11-30 09:14:22z", "30.11.2026 09:14:22Z", "2026-11-30T10:14:22+01:00",
        "2026-11-30T10:14:22+0100", "2026-11-30T10:14:22+01", "30.11.2026 10:14:22+01", "2026-11-30T03:44:22-05:30",
        "2026-11-30T09:14:22-00:00", "2026-12-01T09:13:22+23:59", "2026-11-29T09:15:22-2359",
        "2026-11-30 09:14:22.0000004", "2026-11-30 09:14:21.9999995")),
    *((text, 1_796_030_062_447_000) for text in (
        "2026-11-30 09:14:22.447", "30.11.2026 09:14:22,447", "2026-11-30T09:14:22.447Z",
        "2026-11-30T09:14:22,447000000000000+00:00", "2026-11-30T09:14:22.447+00")),
    ("1.1.1970 0:0:0", 0), ("01.1.1970 00:00:01", 1_000_000), ("1970-01-01 00:00:00.0000005", 1),
    ("1970-01-01T01:00:00+01:00", 0), ("1970-01-01T00:59:59.9999995+01:00", 0),
    ("1970-01-01T00:59:59.9999994+01:00", DATE), ("1970-01-01T00:30:00+01:00", DATE),
    ("1969-12-31T23:59:59Z", DATE), ("1969-12-31T23:59:59-01:00", DATE), ("0000-01-01 0:0:0", DATE),
    ("2000-02-29 0:0:0", 951_782_400_000_000), ("2024-02-29 0:0:0", 1_709_164_800_000_000),
    ("29.2.2024 23:59:59.9999999", 1_709_251_200_000_000), ("2026-02-29 0:0:0", DATE), ("2100-02-29 0:0:0", DATE),
    ("29.02.2026 0:0:0Z", DATE), ("2026-00-10 0:0:0", DATE), ("2026-13-01 0:0:0", DATE), ("2026-01-00 0:0:0", DATE),
    ("31.4.2026 0:0:0", DATE), ("0.1.2026 0:0:0", DATE), ("99.99.2026 0:0:0", DATE),
    ("9999-12-31T23:59:59.999999Z", 253_402_300_799_999_999), ("9999-12-31T23:59:59-23:59", 253_402_387_139_000_000),
    *((text, TIME) for text in (
        "2026-11-30", "2026-11-30T", "2026-11-30 ", "2026-11-30T09:14", "2026-11-30 5", "2026-11-30 9.14.22",
        "2026-11-30 24:00:00", "2026-11-30T09:14:60", "2026-11-30T09:60:00", "2026-11-30T100:00:00",
        "2026-11-3009:14:22", "2026-11-30_09:14:22", "2026-11-30TT09:14:22", "2026-11-30T 09:14:22",
        "2026-11-30 T09:14:22", "2026-1-30 09:14:22", "2026-11-3 09:14:22", "26-11-30 09:14:22",
        "02026-11-30 09:14:22", "2026/11/30 09:14:22", "11/30/2026 09:14:22", "30.11.26 09:14:22",
        "030.11.2026 09:14:22", "30.011.2026 09:14:22", "30.11.02026 09:14:22", "30-11-2026 09:14:22",
        "2026.11.30 09:14:22", "30. 11. 2026 09:14:22", "2o26-11-30 09:14:22", "2026-11-30T09:14:22 Z",
        "2026-11-30T09:14:22 +01:00", "2026-11-30T09:14:22+1:00", "2026-11-30T09:14:22+24:00",
        "2026-11-30T09:14:22+01:60", "2026-11-30T09:14:22+01:0", "2026-11-30T09:14:22+010",
        "2026-11-30T09:14:22+01:00:00", "2026-11-30T09:14:22+", "2026-11-30T09:14:22ZZ", "2026-11-30T09:14:22Z+01",
        "2026-11-30T09:14:22.Z", "2026-11-30T09:14:22UTC", "2026-11-30 09:14:22 AM", "+2026-11-30 09:14:22",
        "09:14:22Z", "09:14:22+01:00", "T09:14:22", "2026-11-30\xa009:14:22", "2026-W49-1T09:14:22",
        "2026-11-30T09:14:22.1234567890123456")),
]
# A value and its word, or None.
WORDS = [
    ("0", "000"), ("8", "008"), ("16", "016"), ("1FF", "1FF"), ("1ff", "1FF"), ("01fF", "1FF"), ("200", None),
    ("0200", None), ("FFF", None), ("264", None), ("1000", None), ("FFFF", None), ("00108", None), ("0x1FF", "1FF"),
    ("0X1ff", "1FF"), ("0x0001", "001"), ("0x00001", None), ("0x200", None), ("0x", None), ("0xG", None),
    ("0b1", "0B1"),
    ("1FFh", "1FF"), ("01FFH", "1FF"), ("200h", None), ("00001h", None), ("h", None), ("0x1h", None), ("x1", None),
    ("1x", None), ("", None), ("-1", None), ("+1", None), ("1.0", None), ("1_0", None), ("bh", "00B"), ("0xB", "00B"),
    ("199", "199"), ("511", None), ("512", None), ("999", None), ("000000000000511", None), ("0000000000000511", None),
    ("267h", None), ("0B*", "10B"), ("*0B", "10B"), ("*0x0b", "10B"), ("0X0B*", "10B"), ("0Bh*", "10B"), ("*bH", "10B"),
    ("*0B*", None), ("**B", None), ("B**", None), ("*", None), ("", None), ("100*", None), ("*FF", "1FF"),
    ("00FF*", "1FF"), ("0100*", None), ("0B *", None), ("* B", None), ("0B*h", None), ("0x*0B", None), ("264*", None),
    ("0xh", None), ("1hh", None), ("G", None), ("g", None), ("@", None), ("`", None), ("/", None), (":", None),
]
# A value and its word with --decimal, or None.
DECIMALS = [
    ("0", "000"), ("8", "008"), ("008", "008"), ("264", "108"), ("511", "1FF"), ("512", None), ("0264", None),
    ("999", None), ("255*", "1FF"), ("*0", "100"), ("11*", "10B"), ("256*", None), ("*8*", None), ("*", None), ("", None),
    ("B", None), ("0x8", None), ("8h", None), ("+8", None), ("-8", None), ("1_0", None), ("8.0", None),
]
# The length of a break in a unit, and the microseconds that it is, or None.
LENGTHS = [
    ("us", "0", 0), ("us", "0.4", 0), ("us", "0.5", 1), ("us", "999999999", 10**9 - 1),
    ("us", "999999999.4999", 10**9 - 1),
    ("us", "999999999.5", None), ("us", "1000000000", None), ("us", "999999999999999", None), ("us", "", None),
    ("us", "100h", None), ("us", "0x64", None), ("us", "1e5", None), ("us", "-1", None), ("us", "0:00:01", None),
    ("ms", "100.5", 100500), ("ms", "999999.9994", 10**9 - 1), ("ms", "999999.9995", None),
    ("s", "0.1000005", 100001),
    ("s", "0.1000004", 100000), ("s", "999.9999994", 10**9 - 1), ("s", "999.9999995", None), ("s", "1000", None),
    ("ns", "100000499", 100000), ("ns", "100000500", 100001), ("ns", "999999999499", 10**9 - 1),
    ("ns", "999999999500", None), ("us", "000000000000000000001", 1), ("us", "0000000000000000000001", None),
    ("us", "1.1234567890123456", None),
]
US = "rows --unit us"
ROWS = [
    # What separates fields, and what is taken off.
    (US, "1;M;108\n2\tS\t100\n3,M,8", "1,M,108 2,S,100 3,M,008", ""),
    (US, "1,5;M;108\n", "2,M,108", ONLY_M),
    (US, "1,5\tM\t108\n", "2,M,108", ONLY_M),
    (US, '"1,5",M,108\n', "", f'record 1 at 1: {THREE}; found "1,5,M,108"; go on with --from 2'),
    (US, '"1;M";108\n', "1,M,108", ONLY_M),
    (US, '"1;M;108"\n', "1,M,108", ONLY_M),
    (US, "1;M\t108\n", "", f'record 1: {THREE}; found "1;M\\x09108"'),
    (US, "1\tM\t1;08\n", "", f'record 1 at 1: {WORD}; found "1\\x09M\\x091;08"; go on with --from 2'),
    (US, "1;M;1,08\n", "", f'record 1 at 1: {WORD}; found "1;M;1,08"; go on with --from 2'),
    (US, ' " 1 " , "" M , " 108"" \n', "1,M,108", ONLY_M),
    (US, '"""1""","M ",108\n', "1,M,108", ONLY_M),
    (US, '1," M "x,108\n', "", f'record 1 at 1: {LINE}; found "1, M x,108"; go on with --from 2'),
    (US, '1,M,1"08\n', "", f'record 1 at 1: {WORD}; found "1,M,1\\"08"; go on with --from 2'),
    (US, '1,"M""x",108\n', "", f'record 1 at 1: {LINE}; found "1,M\\"x,108"; go on with --from 2'),
    (US, '1,"M"",x",108\n', "", f'record 1 at 1: {THREE}; found "1,M\\",x,108"; go on with --from 2'),
    (US, "1,M,108,\n", "", f'record 1 at 1: {THREE}; found "1,M,108,"; go on with --from 2'),
    (US, "1,M\n", "", f'record 1 at 1: {THREE}; found "1,M"; go on with --from 2'),
    (US, "1,M,108\xa0\n", "", f'record 1 at 1: {WORD}; found "1,M,108\\xC2\\xA0"; go on with --from 2'),
    (US, "1,M,108\0\n", "", f'record 1 at 1: {WORD}; found "1,M,108\\x00"; go on with --from 2'),
    (US, "1,M,108\x0b\n", "", f'record 1 at 1: {WORD}; found "1,M,108\\x0B"; go on with --from 2'),
    # Lines, blank ones, and quotes that stay open.
    (US, "1,M,108\r2,S,100\r\r\n\n3,M,8\r\n", "1,M,108 2,S,100 3,M,008", ""),
    (US, "\n\r\n1,M,108\n\n1,M,108\n", "1,M,108", f'record 2 at 1: {SAME}; found "1,M,108"; go on with --from 2'),
    (US, " \n", "", f'record 1: {THREE}; found " "'),
    (US, '""\n', "", f'record 1: {THREE}; found ""'),
    (US, '1,M,"108', "1,M,108", ONLY_M),
    (US, '1,M,108\n"\n2,S,100\n', "1,M,108", f'record 2 after 1: {TIME}; found "\\x0A2,S,100\\x0A"'),
    (US, '1,M,108\n2,"S\r\n",100\n', "1,M,108",
     f'record 2 at 2: {LINE}; found "2,S\\x0D\\x0A,100"; go on with --from 3'),
    (US, "x" * 47 + ",y\n", "", f'record 1: {THREE}; found "{"x" * 47},.."'),
    (US, "x" * 48 + "\n", "", f'record 1: {THREE}; found "{"x" * 48}"'),
    (US, "x" * 49 + "\n", "", f'record 1: {THREE}; found "{"x" * 48}.."'),
    (US, "x" * 47 + "\\z\n", "", f'record 1: {THREE}; found "{"x" * 47}\\\\.."'),
    (US, "x" * 46 + "\x7f\n", "", f'record 1: {THREE}; found "{"x" * 46}\\x7F"'),
    (US, "x" * 45 + "~\x1fz\n", "", f'record 1: {THREE}; found "{"x" * 45}~\\x1F.."'),
    (US, "1,M," + "0" * 70_000 + "\n", "", f'record 1 at 1: {WORD}; found "1,M,{"0" * 44}.."; go on with --from 2'),
    (US, '1,M,"' + " " * 70_000 + '108"\n2,S,100\n', "1,M,108 2,S,100", ""),
    # The order, and parts.
    (US, "5,M,108\n4,S,100\n", "5,M,108", f'record 2 at 4: {EARLIER}; found "4,S,100"; go on with --from 6'),
    ("rows --unit ns", "5500,M,108\n6499,S,100\n", "6,M,108",
     f'record 2 at 6: {SAME}; found "6499,S,100"; go on with --from 7'),
    (US, "999999999999999999,M,108\n4,S,100\n", "999999999999999999,M,108",
     f'record 2 at 4: {EARLIER}; found "4,S,100"'),
    (US, "999999999999999998,x,108\n", "",
     f'record 1 at 999999999999999998: {LINE}; found "999999999999999998,x,108"; go on with --from '
     "999999999999999999"),
    (US, "999999999999999999,x,108\n", "",
     f'record 1 at 999999999999999999: {LINE}; found "999999999999999999,x,108"'),
    (US, "7,M,108\nx,S,100\n", "7,M,108", f'record 2 after 7: {TIME}; found "x,S,100"'),
    (US, "0,M,108\nx,S,100\n", "0,M,108", f'record 2 after 0: {TIME}; found "x,S,100"'),
    (US, "7,M,108\n5,x,100\n", "7,M,108", f'record 2 at 5: {LINE}; found "5,x,100"; go on with --from 8'),
    (f"{US} --from 5", "1,M,108\n3,S,100\n5,M,8\n6,M,0\n", "5,M,008 6,M,000", left_out(2, 0)),
    (f"{US} --until 5", "1,M,108\n5,S,100\n6,M,8\n", "1,M,108 5,S,100", left_out(0, 1)),
    (f"{US} --from 2 --until 2", "1,M,108\n2,S,100\n3,M,8\n", "2,S,100", left_out(1, 1)),
    (f"{US} --from 4 --until 2", "1,M,108\n2,S,100\n3,M,8\n5,M,8\n", "",
     f"{left_out(3, 1)}\n{IN_PART.format(1, 5)}"),
    (f"{US} --until 5", "1,M,108\n9,S,100\n3,M,8\n", "1,M,108 3,M,008", left_out(0, 1)),
    (f"{US} --until 5", "2,M,108\n9,S,100\n2,M,8\n", "2,M,108",
     f'record 3 at 2: {SAME}; found "2,M,8"; go on with --from 3'),
    (f"{US} --until 5", "2,M,108\n9,S,100\nx,M,8\n", "2,M,108", f'record 3 after 2: {TIME}; found "x,M,8"'),
    (f"{US} --until 5", "9,S,100\nx,M,8\n", "", f'record 2: {TIME}; found "x,M,8"'),
    (f"{US} --from 5", "2,M,108\n9,x,100\n", "", f'record 2 at 9: {LINE}; found "9,x,100"; go on with --from 10'),
    (f"{US} --from 5", "2,M,108\nx,S,100\n", "", f'record 2 after 2: {TIME}; found "x,S,100"'),
    (f"{US} --from 5", "3,M,108\n2,S,100\n4,x,0\n3\n4,S,0\n5,M,8\n", "5,M,008",
     f"{left_out(2, 0)}\n{passed(3)}"),
    (f"{US} --from 5", "3,M,108\n4,S,100\n5,S,x\n", "", f'record 3 at 5: {WORD}; found "5,S,x"; go on with --from 6'),
    (f"{US} --until 5", "3,M,108\n4,S,100\n5,S,x\n", "3,M,108 4,S,100",
     f'record 3 at 5: {WORD}; found "5,S,x"; go on with --from 6'),
    (f"{US} --until 5", "3,M,108\n4,S,100\n6,S,x\n", "3,M,108 4,S,100", passed(1)),
    (f"{US} --until 5", "3,M,108\n6,S,100\n6,S,1\n7,S,1\n", "3,M,108", f"{left_out(0, 3)}"),
    (f"{US} --from 0", "3,M,108\n1,S,100\n", "3,M,108",
     f'record 2 at 1: {EARLIER}; found "1,S,100"; go on with --from 4'),
    (f"{US} --from 5", "1,M,108\n2,B,100\n9,S,0\n", "9,S,000", left_out(2, 0)),
    (f"{US} --from 9", "1,B,100\n", "", f"{left_out(1, 0)}\n{IN_PART.format(1, 1)}"),
    (f"{US} --from 2 --until 3", "1,M,108\n4,S,100\n", "", f"{left_out(1, 1)}\n{IN_PART.format(1, 4)}"),
    (f"{US} --until 0", "9,M,108\n7,S,0\n", "", f"{left_out(0, 2)}\n{IN_PART.format(7, 9)}"),
    (f"{US} --until 5", "a,c,d\n6,M\n7\n", "", f"{HEADER}\n{passed(2)}\n{NO_ROW}"),
    (f"{US} --until 5", "6,M,8\n7\n", "", f"{left_out(0, 1)}\n{passed(1)}\n{IN_PART.format(6, 6)}"),
    # Midnight: a time of day that goes back by more than 12 hours.
    ("rows", "23:59:59.990000,M,110\n23:59:59.991200,M,010\n00:00:00.000500,S,100\n",
     "86399990000,M,110 86399991200,M,010 86400000500,S,100", MIDNIGHT),
    ("rows", "12:00:00,M,108\n0:00:00,S,100\n", "43200000000,M,108",
     f'record 2 at 0: {EARLIER}; found "0:00:00,S,100"; go on with --from 43200000001'),
    ("rows", "12:00:00.000001,M,108\n0:00:00,S,100\n", "43200000001,M,108 86400000000,S,100", MIDNIGHT),
    ("rows", "12:00:00.0000005,M,108\n0:00:00,S,100\n", "43200000001,M,108 86400000000,S,100", MIDNIGHT),
    ("rows", "12:00:00.0000004,M,108\n0:00:00,S,100\n", "43200000000,M,108",
     f'record 2 at 0: {EARLIER}; found "0:00:00,S,100"; go on with --from 43200000001'),
    ("rows", "23:0:0,M,108\n1:0:0,S,0\n23:0:0,M,8\n1:0:0,S,1\n",
     "82800000000,M,108 90000000000,S,000 169200000000,M,008 176400000000,S,001", MIDNIGHTS.format(2)),
    ("rows", "Time,Line,Word\n23:0:0,M,108\n1:0:0,S,0\n0:59:59,M,8\n", "82800000000,M,108 90000000000,S,000",
     f'record 4 at 89999000000: {EARLIER}; found "0:59:59,M,8"; go on with --from 90000000001'),
    ("rows", "23:59:59,M,108\n24:00:01,S,0\n", "86399000000,M,108 86401000000,S,000", ""),
    ("rows", "30:0:0,M,108\n1:0:0,S,0\n", "108000000000,M,108",
     f'record 2 at 90000000000: {EARLIER}; found "1:0:0,S,0"; go on with --from 108000000001'),
    ("rows", "23:0:0,M,108\n1:0:0,S,x\n", "82800000000,M,108",
     f'record 2 at 90000000000: {WORD}; found "1:0:0,S,x"; go on with --from 90000000001'),
    ("rows --from 86400500000", "23:59:59,M,108\n0:0:0,x,0\n0:0:1,S,100\n", "86401000000,S,100",
     f"{MIDNIGHT}\n{left_out(1, 0)}\n{passed(1)}"),
    ("rows --until 86399500000", "23:59:59,M,108\n0:0:0\n13:0:0,S,0\n0:0:1,S,0\n", "86399000000,M,108",
     f"{MIDNIGHTS.format(2)}\n{left_out(0, 2)}\n{passed(1)}"),
    (US, "13000000000000,M,108\n1,S,0\n", "13000000000000,M,108",
     f'record 2 at 1: {EARLIER}; found "1,S,0"; go on with --from 13000000000001'),
    # Dates are days themselves. Without an offset an hour that comes twice goes back.
    ("rows", "30.11.2026 23:59:59,5;M;108\n1.12.2026 0:0:0,25;S;0\n",
     "1796083199500000,M,108 1796083200250000,S,000", ""),
    ("rows", "2026-11-30 23:00:00;M;108\n2026-11-30 01:00:00;S;0\n", "1796079600000000,M,108",
     f'record 2 at 1796000400000000: {EARLIER}; found "2026-11-30 01:00:00;S;0"; go on with --from 1796079600000001'),
    ("rows", "2026-10-25 02:59:59,M,108\n2026-10-25 02:00:00,S,0\n", "1792897199000000,M,108",
     f'record 2 at 1792893600000000: {EARLIER}; found "2026-10-25 02:00:00,S,0"; go on with --from 1792897199000001'),
    ("rows", "2026-10-25T02:59:59+02:00,M,108\n2026-10-25T02:00:00+01:00,S,0\n2026-10-25T01:00:01Z,M,8\n",
     "1792889999000000,M,108 1792890000000000,S,000 1792890001000000,M,008", ""),
    ("rows", '"2026-11-30 00:00:00.5",M,108\n30.11.2026T0:0:1,S,0\n', "1795996800500000,M,108 1795996801000000,S,000",
     ""),
    ("rows", "2026-11-30 0:0:0;B;0,1\n", "1795996800000000,B,100000", NO_WORD),
    ("rows --unit ms", "2026-11-30 0:0:0;B;100\n", "1795996800000000,B,100000", NO_WORD),
    # In one export all times have one form.
    *((words, f"{first},M,108\n{second},S,0\n", f"{micros},M,108",
       f'record 2 after {micros}: {OTHER.format(form)}{shown(f"{second},S,0")}')
      for words, first, micros, second, form in (
          (US, "1", 1, "0:0:2", "a time of day"), (US, "1", 1, "2026-11-30 0:0:2", "a date without an offset"),
          (US, "1", 1, "2026-11-30 0:0:2Z", "a date with an offset"), ("rows", "0:0:1", 10**6, "2", "a number"),
          (US, "0:0:1", 10**6, "2000000", "a number"), (US, "0:0:1", 10**6, "9999999999999999999", "a number"),
          ("rows", "0:0:1", 10**6, "30.2.2026 0:0:2", "a date without an offset"),
          ("rows", "1.1.1970 0:0:1", 10**6, "0:0:2", "a time of day"),
          ("rows", "1.1.1970 0:0:1", 10**6, "1970-01-01T0:0:2+01", "a date with an offset"),
          ("rows", "1970-01-01T00:00:01Z", 10**6, "1970-01-01 0:0:2", "a date without an offset"))),
    ("rows --from 5000000", "0:0:1,M,108\n2,S,0\n0:0:6,M,8\n", "",
     f'record 2 after 1000000: {OTHER.format("a number")}; found "2,S,0"'),
    ("rows", "2026-02-30 0:0:1,x,x\n", "", f'record 1: {DATE}; found "2026-02-30 0:0:1,x,x"'),
    ("rows", "2026-11-30 0:0:1;x;x\n", "",
     f'record 1 at 1795996801000000: {LINE}; found "2026-11-30 0:0:1;x;x"; go on with --from 1795996801000001'),
    ("rows", "2026-11-30;0:0:1;M;108\n", "", f'record 1: {THREE}; found "2026-11-30;0:0:1;M;108"'),
    # A part by times of day and by dates.
    ("rows --until 23:59:59.5", "23:59:59,M,108\n0:0:1,S,0\n", "86399000000,M,108",
     f"{MIDNIGHT}\n{left_out(0, 1)}"),
    ("rows --from 24:00:01", "23:59:59,M,108\n0:0:1,S,0\n", "86401000000,S,000", f"{MIDNIGHT}\n{left_out(1, 0)}"),
    ("rows --from 23:00:00 --until 1:00:00", "23:59:59,M,108\n0:0:1,S,0\n", "",
     f"{MIDNIGHT}\n{left_out(0, 2)}\n{IN_PART.format(86399000000, 86401000000)}"),
    ("rows --from 2026-11-30T01:00:01+01:00", "2026-11-30 0:0:0;M;108\n2026-11-30 0:0:1;S;0\n",
     "1795996801000000,S,000", left_out(1, 0)),
    ("rows --until 30.11.2026,0:0:0", "2026-11-30T00:00:00Z,M,108\n2026-11-30T00:00:01Z,S,0\n",
     "1795996800000000,M,108", left_out(0, 1)),
    ("rows --from 1795996801000000", "2026-11-30 0:0:0;M;108\n2026-11-30 0:0:1;S;0\n", "1795996801000000,S,000",
     left_out(1, 0)),
    (f"{US} --until 0:0:1", "1000000,M,108\n1000001,S,0\n", "1000000,M,108", left_out(0, 1)),
    (f"{US} --from 9", "T,L,D\n1,M,108\n9,x,0\n", "", f'record 3 at 9: {LINE}; found "9,x,0"; go on with --from 10'),
    ("rows --until 5", "1,M,108\n", "", f'record 1: {UNIT}; found "1,M,108"'),
    # The lines.
    (US, "1,m,108\n2,s,100\n3,b,5\n4,B,6\n", "1,M,108 2,S,100 3,B,5 4,B,6", ""),
    (f"{US} --controller TX", "1,TX,108\n2,M,8\n3,S,0\n", "1,M,108 2,M,008 3,S,000", ""),
    (f"{US} --controller TX", "1,tx,108\n", "", f'record 1 at 1: {LINE}; found "1,tx,108"; go on with --from 2'),
    (f"{US} --peripheral RX", "1,RX,108\n2,s,8\n3,m,0\n", "1,S,108 2,S,008 3,M,000", ""),
    (f"{US} --peripheral RX", "1,TX,108\n", "", f'record 1 at 1: {LINE}; found "1,TX,108"; go on with --from 2'),
    (f"{US} --controller 1", "1,1,1\n", "1,M,001", f"{ONLY_M}\n{NO_MODE}"),
    (US, "1,MM,108\n", "", f'record 1 at 1: {LINE}; found "1,MM,108"; go on with --from 2'),
    (US, "1,,108\n", "", f'record 1 at 1: {LINE}; found "1,,108"; go on with --from 2'),
    # Which of several things is reported.
    (US, "x,x\n", "", f'record 1: {THREE}; found "x,x"'),
    ("rows", "x1,x,x\n", "", f'record 1: {TIME}; found "x1,x,x"'),
    ("rows", "1,x,x\n", "", f'record 1: {UNIT}; found "1,x,x"'),
    (US, "9999999999999999999999,x,x\n", "", f'record 1: {TIME}; found "9999999999999999999999,x,x"'),
    ("rows --unit s", "9999999999999,x,x\n", "", f'record 1: {LONG}; found "9999999999999,x,x"'),
    (US, "2,M,108\n1,x,x\n", "2,M,108", f'record 2 at 1: {LINE}; found "1,x,x"; go on with --from 3'),
    (US, "2,M,108\n1,M,x\n", "2,M,108", f'record 2 at 1: {WORD}; found "1,M,x"; go on with --from 3'),
    (US, "2,M,108\n1,B,x\n", "2,M,108", f'record 2 at 1: {LENGTH}; found "1,B,x"; go on with --from 3'),
    # Headers.
    (US, "Time 1,Line,Value\n", "", f'record 1: {TIME}; found "Time 1,Line,Value"'),
    (US, "Time,1,Value\n", "", f'record 1: {TIME}; found "Time,1,Value"'),
    (US, "Time,1x,Value\n1,M,108\n", "1,M,108", f"{HEADER}\n{ONLY_M}"),
    (US, "Time,Line,,Value\n", "", f'record 1: {THREE}; found "Time,Line,,Value"'),
    (US, "Time,M,b,Value\n1,M,108\n", "1,M,108", f"{HEADER}\n{ONLY_M}"),
    (US, "a,b,c\n", "", f'record 1: {TIME}; found "a,b,c"'),
    (US, "a;c;d\n1;M;108\n", "1,M,108", f"{HEADER}\n{ONLY_M}"),
    (US, "a\tc\td\n1;M;108\n", "1,M,108", f"{HEADER}\n{ONLY_M}"),
    (US, "\n\na,c,d\n1,M,108\n2,M,x\n", "1,M,108", f'record 3 at 2: {WORD}; found "2,M,x"; go on with --from 3'),
    (f"{US} --peripheral c", "a,c,d\n", "", f'record 1: {TIME}; found "a,c,d"'),
    (f"{US} --peripheral c", "a,C,d\n1,M,108\n", "1,M,108", f"{HEADER}\n{ONLY_M}"),
    (US, "l,OOO,M,FF\n1,M,108\n", "1,M,108", f"{HEADER}\n{ONLY_M}"),
    (US, "1,M,108\na,c,d\n", "1,M,108", f'record 2 after 1: {TIME}; found "a,c,d"'),
    (US, "a,c\n", "", f'record 1: {THREE}; found "a,c"'),
    (US, "a,12:00:00,c,d\n", "", f'record 1: {THREE}; found "a,12:00:00,c,d"'),
    (US, "a,12.5,c,d\n", "", f'record 1: {THREE}; found "a,12.5,c,d"'),
    (US, "a,2026-11-30 12:00:00,c,d\n", "", f'record 1: {THREE}; found "a,2026-11-30 12:00:00,c,d"'),
    (US, "a,2026-02-30 12:00:00Z,c,d\n", "", f'record 1: {THREE}; found "a,2026-02-30 12:00:00Z,c,d"'),
    (US, "a,2026-11-30,c,d\n1,M,108\n", "1,M,108", f"{HEADER}\n{ONLY_M}"),
    (US, "a,12.5x,c,d\n1,M,108\n", "1,M,108", f"{HEADER}\n{ONLY_M}"),
    (US, "a,c,D0\n", "", f'record 1: {TIME}; found "a,c,D0"'),
    (US, "a,c,d\n", "", f"{HEADER}\n{NO_ROW}"), (US, "", "", NO_ROW), (US, "\n\r\n", "", NO_ROW),
    (US, "b,xxx,d\n1,B,5\n", "1,B,5", f"{HEADER}\n{NO_WORD}"),
    # The mode bit of a break's length is none.
    (US, "1,M,8\n2,S,0\n3,B,108\n4,B,256\n", "1,M,008 2,S,000 3,B,108 4,B,256", NO_MODE),
    (US, "1,M,100\n2,S,0\n", "1,M,100 2,S,000", ""),
    (US, "1,M,0FF\n2,S,0FF\n", "1,M,0FF 2,S,0FF", NO_MODE),
]


# Comments above the header, and above the first row.
ABOVE = [
    (US, "; a, b\n1,M,108\n2,S,100\n", "1,M,108 2,S,100", ""),
    (US, "# a;b;c\n;\n#\nTime,Line,Value\n1,M,108\n", "1,M,108", f"{HEADER}\n{ONLY_M}"),
    (US, "#a,c,d\n1,M,108\n", "1,M,108", ONLY_M),
    (US, '\ufeff" # a, b"\n;1,S,100\n1,M,108\n', "1,M,108", ONLY_M),
    (US, "; a;b\n1,M,108\n", "", f'record 1: {TIME}; found "; a;b"'),
    (US, ";1;M;108\n", "", f'record 1: {THREE}; found ";1;M;108"'),
    (US, "; a,b;\n1,M,108\n", "", f'record 1: {TIME}; found "; a,b;"'),
    (US, "# a\n1,M,108\n# b\n", "1,M,108", f'record 3 after 1: {THREE}; found "# b"'),
    (US, "Time,Line,Value\n# a\n1,M,108\n", "", f'record 2: {THREE}; found "# a"'),
    (US, "# a\n1,M,108\nTime,Line,Value\n", "1,M,108", f'record 3 after 1: {TIME}; found "Time,Line,Value"'),
    (US, "# a\n", "", f"record 2: {COMMENTS}"), (US, "#\n\n;b\r\n", "", f"record 3: {COMMENTS}"),
    (f"{US} --from 5", "# a\n1,x,108\n# b\n5,M,108\n", "", f'record 3: {THREE}; found "# b"'),
    (f"{US} --from 5", "# a\n1,x,108\n5,M,108\n", "5,M,108", f"{passed(1)}\n{ONLY_M}"),
    (f"{US} --decimal", "# a\nTime,Line,Value\n1,M,264\n2,M,8\n3,S,256\n", "1,M,108 2,M,008 3,S,100", HEADER),
    (f"{US} --decimal", "1,B,264\n2,M,8\n3,S,0\n", "1,B,264 2,M,008 3,S,000", NO_MODE),
    (US, "1,M,16\n2,M,264\n", "1,M,016", f'record 2 at 2: {WORD}; found "2,M,264"{IS_DECIMAL}; go on with --from 3'),
]


def utf_16(text, order="le", more=b""):
    """A text in UTF-16 with its mark, and bytes after it."""
    return f"\ufeff{text}".encode(f"utf-16-{order}") + more


ENCODED = [
    (US, b"\x1f\x8b,c,d\n1,M,108\n", "", f'record 1: {TIME}; found "\\x1F\\x8B,c,d"{GZIP}'),
    (US, b"\x1f,\x8b,d\n1,M,108\n", "1,M,108", f"{HEADER}\n{ONLY_M}"),
    (US, utf_16("; a\n1,M,108"), "1,M,108", ONLY_M),
    (US, b"\xef\xbb\xbf1,M,108\n", "1,M,108", ONLY_M),
    (US, b"\xef\xbb\xbf\xef\xbb\xbf1,M,108\n", "", f'record 1: {TIME}; found "\\xEF\\xBB\\xBF1,M,108"'),
    (US, b"\xef\xbb1,M,108\n", "", f'record 1: {TIME}; found "\\xEF\\xBB1,M,108"'),
    (US, b"1,M,108\n\xef\xbb\xbf2,S,100\n", "1,M,108", f'record 2 after 1: {TIME}; found "\\xEF\\xBB\\xBF2,S,100"'),
    (f"{US} --controller \xe9", b"1,\xc3\xa9,108\n", "1,M,108", ONLY_M),
    (f"{US} --controller \xe9", b"1,\xe9,108\n", "",
     f'record 1 at 1: {LINE}; found "1,\\xE9,108"; go on with --from 2'),
    (US, b"\xff\xfe", "", NO_ROW), (US, b"\xfe\xff", "", NO_ROW), (US, b"\xef\xbb\xbf", "", NO_ROW),
    (US, "1,M,108\n".encode("utf-16-le"), "",
     f'record 1: {TIME}; found "1\\x00,\\x00M\\x00,\\x001\\x000\\x008\\x00"'),
    *((US, utf_16("1;M;108\r\n2;S;100", order), "1,M,108 2,S,100", "") for order in ("le", "be")),
    *((f"{US} --controller \u2192 --peripheral \U0001fa99", utf_16("1,\u2192,108\n2,\U0001fa99,100", order),
       "1,M,108 2,S,100", "") for order in ("le", "be")),
    *((US, utf_16("1,M,108\n2,S,100", order, b"\n"), "1,M,108",
       f'record 2 at 2: {WORD}; found "2,S,100\\xEF\\xBF\\xBD"; go on with --from 3') for order in ("le", "be")),
    *((US, utf_16("1,M,", order, half), "",
     f'record 1 at 1: {WORD}; found "1,M,\\xED\\xA0\\xBD"; go on with --from 2')
      for order, half in (("le", b"\x3d\xd8"), ("be", b"\xd8\x3d"))),
    (US, utf_16("1,M,", "le", b"\x00\xdc"), "",
     f'record 1 at 1: {WORD}; found "1,M,\\xED\\xB0\\x80"; go on with --from 2'),
    (US, utf_16("1,M,", "be", b"\xd8\x3d\xd8\x3d\xdc\x00"), "",
     f'record 1 at 1: {WORD}; found "1,M,\\xED\\xA0\\xBD\\xF0\\x9F\\x90\\x80"; go on with --from 2'),
    (US, utf_16("1,M,\U0001fa99\u0394\xe9"), "",
     f'record 1 at 1: {WORD}; found "1,M,\\xF0\\x9F\\xAA\\x99\\xCE\\x94\\xC3\\xA9"; go on with --from 2'),
]
MANY = "".join(f"{time},M,108\n" for time in range(70_000))
LONG_ONES = [
    (f"{US} --from 69999", f"{MANY}x\n", "69999,M,108", f'record 70001 after 69999: {THREE}; found "x"'),
    (f"{US} --from 69999", MANY, "69999,M,108", f"{left_out(69_999, 0)}\n{ONLY_M}"),
    (f"{US} --until 0", MANY, "0,M,108", f"{left_out(0, 69_999)}\n{ONLY_M}"),
    (US, MANY, MANY, ONLY_M),
    (f"{US} --from 5", "0\n" * 300 + "5,M,108\n", "5,M,108", f"{passed(300)}\n{ONLY_M}"),
    (f"{US} --until 5", "5,M,108\n" + "6\n" * 300, "5,M,108", f"{passed(300)}\n{ONLY_M}"),
]


def one_time(words, time, wanted):
    """The case of a time: its microseconds, or why it is refused."""
    text = f"{time};M;108"
    if isinstance(wanted, int):
        return words, f"{text}\n", f"{wanted},M,108", ONLY_M
    return words, f"{text}\n", "", f"record 1: {wanted}{shown(text)}"


def rows():
    """Those of rows."""
    for unit, time, wanted in TIMES:
        words = "rows" if unit is None else f"rows --unit {unit}"
        yield one_time(words, time, wanted)
    for time, wanted in DATES:
        yield one_time("rows", time, wanted)
        yield one_time("rows --unit ns", time, wanted)
    for value, word in WORDS:
        digits = re.fullmatch("[0-9]{1,18}", value) and 200 <= int(value) <= 511
        told = f'record 1 at 1: {WORD}{shown(f"1,M,{value}")}{IS_DECIMAL * bool(digits)}; go on with --from 2'
        yield US, f"1,M,{value}\n", word and f"1,M,{word}" or "", told if word is None else (
            ONLY_M if word[0] == "1" else f"{ONLY_M}\n{NO_MODE}")
    for value, word in DECIMALS:
        told = f'record 1 at 1: {NO_DECIMAL}{shown(f"1,M,{value}")}; go on with --from 2'
        yield f"{US} --decimal", f"1,M,{value}\n", word and f"1,M,{word}" or "", told if word is None else (
            ONLY_M if word[0] == "1" else f"{ONLY_M}\n{NO_MODE}")
    for unit, length, wanted in LENGTHS:
        told = f'record 1 at 0: {LENGTH}{shown(f"0;B;{length}")}; go on with --from 1'
        yield f"rows --unit {unit}", f"0;B;{length}\n", "" if wanted is None else f"0,B,{wanted}", (
            told if wanted is None else NO_WORD)
    yield "rows", "0:0:1;B;0,1\n", "1000000,B,100000", NO_WORD
    yield "rows --unit ms", "0:0:1;B;0,1\n", "1000000,B,100", NO_WORD
    yield from ROWS + ABOVE + ENCODED + LONG_ONES


# ---------------------------------------------------------------------------------- saleae

SECONDS = "wanted a time in seconds: up to 21 digits, perhaps with decimals after a point"
NEGATIVE = "wanted no negative time: set the time zero to the start of the capture"
NAME = "wanted M or S as the analyser, or a name given by --controller or --peripheral"
PARITY = "wanted no parity error: set the analyser to nine bits with no parity bit"
ERROR = "wanted no error, or the error framing"
ADDRESS = "wanted true or false as the address, or nothing"
DATA = "wanted data as 0x and 1 to 4 hexadecimal digits: export them as hexadecimal"
MOST = "wanted data of at most 0x1FF, and of at most 0xFF beside a column address"
DEVICE = "wanted a stop bit: only the controller sends a break" + SKIP
NO_ZERO = "wanted a stop bit: a word that isn't 0 is no break" + SKIP
HOW_LONG = "the table doesn't tell how long the break is: give --break MICROSECONDS"
LATER = "wanted a later time than the row before it: sort the table by the start time"
FIELDS = "wanted as many fields as the header has"
# A time of a table, and the microseconds that it is, or why it is refused.
TABLE_TIMES = [
    ("0", 0), ("0.0000005", 1), ("0.0000004999999999999999999999999", 0), ("000000000000001", 10**6),
    ("000000000000000000001", 10**6), ("0000000000000000000001", SECONDS), ("999999999.9999995", 10**15),
    ("999999999999.9999994", 10**18 - 1), ("999999999999.9999995", LONG),
    ("1000000000000", LONG), ("999999999999999999999", LONG), ("2026-11-30 0:0:0", SECONDS), ("1.", SECONDS), (".5", SECONDS), ("", SECONDS),
    ("1e-05", SECONDS),
    ("9.9E-05", SECONDS), ("0:00:01", SECONDS), ("+1", SECONDS), ("1,5", FIELDS), ("-0.001", NEGATIVE),
    ("-", NEGATIVE),
    ("-x", NEGATIVE), ("1.2.3", SECONDS), ("1 2", SECONDS), ("0.00000150000000000000000000", 2),
    ("0.0000014999999", 1),
    ("12.3456785", 12345679), ("1.0000000000000000000000000000000000000000000001", 10**6), ("2026-11-29", SECONDS),
    ("0.1234567890123456", 123457), ("x", SECONDS), ("1.5s", SECONDS),
]
# Data, and their word without a column address; and beside one.
TABLE_DATA = [
    ("0x108", "108", None), ("0x1FF", "1FF", None), ("0x200", None, None), ("0x0FF", "0FF", "0FF"),
    ("0xff", "0FF", "0FF"),
    ("0x100", "100", None), ("0XfF", "0FF", "0FF"), ("0x00FF", "0FF", "0FF"), ("0x01fF", "1FF", None),
    ("0xFFFF", None, None),
    ("0x8", "008", "008"),
]
NO_DATA = ["108", "0x", "0x00108", "x108", "0x108h", "108h", "", "0x1G", "264", "0x1 0x2", "0b1", "'H'", "-0x1",
"0x-1"]
T = "name,start_time,data,error\n"
A = "name,start_time,data,error,address\n"
P = "name,start_time,data,Parity Error,Framing Error\n"
TABLES = [
    # The header.
    ("", "", "", "record 1: wanted a header with the names of the columns, and the table is empty"),
    ("", "\n\r\n", "", "record 1: wanted a header with the names of the columns, and the table is empty"),
    ("", T, "", NO_ROW),
    ("", "Value,Analyzer Name,x,Time [s],error,x\n0x108,M,9,0.001,,\n", "1000,M,108", ONLY_M),
    ("", "data,name,start_time,error\r0x108,M,0.001,\r0x100,S,0.002,\r", "1000,M,108 2000,S,100", ""),
    ("", ' "name" ,start_time," data","""error"""\nM,0.001,0x108,\n', "1000,M,108", ONLY_M),
    *(("", f"{header}\n", "", f'record 1: {wanted}{shown(header)}') for header, wanted in (
        ("name,start_time,data", "wanted a column error (or Parity Error and Framing Error)"),
        ("name,start_time,data,Error", "wanted a column error (or Parity Error and Framing Error)"),
        ("name,start_time,data,Parity Error", "wanted a column error (or Parity Error and Framing Error)"),
        ("name,start_time,data,Framing Error", "wanted a column error (or Parity Error and Framing Error)"),
        ("x", "wanted a column error (or Parity Error and Framing Error)"),
        ("error", "wanted a column start_time (or Time [s])"),
        ("Time [s],error", "wanted a column name (or Analyzer Name)"),
        ("start_time,name,error", "wanted a column data (or Value)"),
        ("Start_time,name,error", "wanted a column start_time (or Time [s])"),
        ("error,error", "wanted one column error (or Parity Error and Framing Error), and there are more"),
        ("Parity Error,Parity Error", "wanted one column Parity Error, and there are more"),
        ("Framing Error,Framing Error", "wanted one column Framing Error, and there are more"),
        ("Framing Error,Framing Error,Parity Error,Parity Error,error,error",
         "wanted one column error (or Parity Error and Framing Error), and there are more"),
        ("Framing Error,Framing Error,Parity Error,Parity Error",
         "wanted one column Parity Error, and there are more"),
        ("error,start_time,Time [s]", "wanted one column start_time (or Time [s]), and there are more"),
        ("error,start_time,name,Analyzer Name", "wanted one column name (or Analyzer Name), and there are more"),
        ("error,start_time,name,type,type", "wanted one column type, and there are more"),
        ("error,start_time,type,type", "wanted a column name (or Analyzer Name)"),
        ("error,start_time,name,data,Value", "wanted one column data (or Value), and there are more"),
        ("error,start_time,name,address,address", "wanted a column data (or Value)"),
        ("error,start_time,name,data,address,address", "wanted one column address, and there are more"),
        ("name;start_time;data;error", "wanted a column error (or Parity Error and Framing Error)"))),
    ("", "name,start_time,data,error,error \n", "",
     'record 1: wanted one column error (or Parity Error and Framing Error), '
     'and there are more; found "name,start_time,data,error,error "'),
    # Comments above the header.
    ("", "; a, b\n# c\n" + T + "M,0.001,0x108,\n", "1000,M,108", ONLY_M),
    ("", "#," + T + "1,M,0.001,0x108,\n", "1000,M,108", ONLY_M),
    ("", ";," + T + T + "M,0.001,0x108,\n", "1000,M,108", ONLY_M),
    ("", "# a\n;b\n", "", "record 3: wanted a header with the names of the columns, and the table is empty"),
    ("", "# a\nx\n", "", 'record 2: wanted a column error (or Parity Error and Framing Error); found "x"'),
    ("", "# a\nerror,error\n", "", "record 2: wanted one column error (or Parity Error and Framing Error), and there "
     'are more; found "error,error"'),
    ("", T + "# a\n", "", f'record 2: {FIELDS}; found "# a"'),
    # What a record has.
    ("", T + "M,0.001,0x108\n", "", f'record 2: {FIELDS}; found "M,0.001,0x108"'),
    ("", T + "M,0.001,0x108,,\n", "", f'record 2: {FIELDS}; found "M,0.001,0x108,,"'),
    ("", T + ' "M" , 0.001,"0x108", " " \n', "1000,M,108", ONLY_M),
    ("", "type," + T + "data,M,1,0x108,\nData,S,2,0x100,\n", "1000000,M,108",
     'record 3 at 2000000: wanted the type data, which a word has; found "Data,S,2,0x100,"'),
    ("", "type," + T + ",M,1,0x108,\n", "",
     'record 2 at 1000000: wanted the type data, which a word has; found ",M,1,0x108,"'),
    ("", T + "m,1,0x108,\ns,2,0x100,\n", "1000000,M,108 2000000,S,100", ""),
    ("--controller A", T + "A,1,0x108,\nM,2,0x100,\nS,3,0x0,\n", "1000000,M,108 2000000,M,100 3000000,S,000", ""),
    ("--peripheral A", T + "A,1,0x108,\nS,2,0x100,\nm,3,0x0,\n", "1000000,S,108 2000000,S,100 3000000,M,000", ""),
    ("--controller A", T + "a,1,0x108,\n", "", f'record 2 at 1000000: {NAME}; found "a,1,0x108,"'),
    ("", T + "B,1,0x108,\n", "", f'record 2 at 1000000: {NAME}; found "B,1,0x108,"'),
    ("", P + "M,1,0x108,x,\n", "", f'record 2 at 1000000: {PARITY}; found "M,1,0x108,x,"'),
    ("", T + "M,1,0x108,parity\n", "", f'record 2 at 1000000: {PARITY}; found "M,1,0x108,parity"'),
    ("", T + "M,1,0x108,Parity\n", "", f'record 2 at 1000000: {ERROR}; found "M,1,0x108,Parity"'),
    ("", T + "M,1,0x108,framing error\n", "", f'record 2 at 1000000: {ERROR}; found "M,1,0x108,framing error"'),
    ("", T[:-1] + ",Parity Error\nM,1,0x108,,x\n", "", f'record 2 at 1000000: {PARITY}; found "M,1,0x108,,x"'),
    ("--break 7", P + "M,1,0x0,,x\n", "1000000,B,7", NO_WORD),
    ("--break 7", P + "M,1,0x0,,0\n", "1000000,B,7", NO_WORD),
    ("--break 7", T[:-1] + ",Framing Error\nM,1,0x0,,x\nM,2,0x0,framing,\nM,3,0x0,,\n",
     "1000000,B,7 2000000,B,7 3000000,M,000",
     f"{ONLY_M}\n{NO_MODE}"),
    ("", A + "M,1,0x08,,true\nS,2,0x00,,false\nS,3,0xff,,\n", "1000000,M,108 2000000,S,000 3000000,S,0FF", ""),
    ("", A + "S,1,0xFF,,true\n", "1000000,S,1FF", ONLY_S),
    ("", A + "M,1,0x08,,True\n", "", f'record 2 at 1000000: {ADDRESS}; found "M,1,0x08,,True"'),
    ("--break 7", A + "M,1,0x00,framing,true\n", "",
     f'record 2 at 1000000: {NO_ZERO}; found "M,1,0x00,framing,true"'),
    ("--break 7", A + "M,1,0x00,framing,false\n", "1000000,B,7", NO_WORD),
    # Which of several things is reported.
    ("", A + "x,-1,x,x\n", "", f'record 2: {FIELDS}; found "x,-1,x,x"'),
    ("", "type," + A + "x,x,x,x,x,x\n", "", f'record 2: {SECONDS}; found "x,x,x,x,x,x"'),
    ("", "type," + A + "x,x,1,x,x,x\n", "",
     'record 2 at 1000000: wanted the type data, which a word has; found "x,x,1,x,x,x"'),
    ("", A + "x,1,x,parity,x\n", "", f'record 2 at 1000000: {NAME}; found "x,1,x,parity,x"'),
    ("", A + "M,1,x,parity,x\n", "", f'record 2 at 1000000: {PARITY}; found "M,1,x,parity,x"'),
    ("", A + "M,1,x,x,x\n", "", f'record 2 at 1000000: {ERROR}; found "M,1,x,x,x"'),
    ("", A + "M,1,x,,x\n", "", f'record 2 at 1000000: {ADDRESS}; found "M,1,x,,x"'),
    ("", A + "S,1,0x200,framing,\n", "", f'record 2 at 1000000: {MOST}; found "S,1,0x200,framing,"'),
    ("", T + "S,1,0x001,framing\n", "", f'record 2 at 1000000: {DEVICE}; found "S,1,0x001,framing"'),
    ("", T + "S,1,0x000,framing\n", "", f'record 2 at 1000000: {DEVICE}; found "S,1,0x000,framing"'),
    ("", T + "M,1,0x001,framing\n", "", f'record 2 at 1000000: {NO_ZERO}; found "M,1,0x001,framing"'),
    ("", T + "M,2,0x108,\nM,1,0x000,framing\n", "2000000,M,108",
     f'record 3 at 1000000: {HOW_LONG}; found "M,1,0x000,framing"'),
    ("--break 0", T + "M,2,0x108,\nM,1,0x000,framing\n", "2000000,M,108", f'record 3 at 1000000: {LATER}; found '
     '"M,1,0x000,framing"'),
    # Breaks, damaged words and the order.
    ("--break 0", T + "M,1,0x000,framing\n", "1000000,B,0", NO_WORD),
    ("--break 999999999", T + "M,1,0x000,framing\nM,1.1,0x108,\nS,1.2,0x0,\n",
     "1000000,B,999999999 1100000,M,108 1200000,S,000", ""),
    ("--break 000000000000007", T + "M,1,0x000,framing\n", "1000000,B,7", NO_WORD),
    ("", T + "M,1,0x108,\nS,1.0000004,0x100,\n", "1000000,M,108",
     f'record 3 at 1000000: {SAME}; found "S,1.0000004,0x100,"'),
    ("", T + "M,1,0x108,\nS,1.0000005,0x100,\n", "1000000,M,108 1000001,S,100", ""),
    ("", T + "M,1,0x108,\n\nS,0.5,0x100,\n", "1000000,M,108", f'record 3 at 500000: {LATER}; found "S,0.5,0x100,"'),
    ("--until 600000", T + "M,1,0x108,\nS,0.5,0x100,\n", "", f'record 3 at 500000: {LATER}; found "S,0.5,0x100,"'),
    ("--from 600000", T + "M,0.5,0x108,\nS,0.4,0x100,\n", "", f'record 3 at 400000: {LATER}; found "S,0.4,0x100,"'),
    ("--from 600000", T + "M,0.5,0x108,\nx,0.4,0x100,\n", "", f'record 3 at 400000: {NAME}; found "x,0.4,0x100,"'),
    ("--from 2000000 --until 2000000", T + "M,1,0x108,\nM,2,0x8,\nS,3,0x100,\n", "2000000,M,008", left_out(1, 1)),
    ("--skip-damaged", T + "M,5,0x108,\nS,1,0x055,framing\nS,1,0x055,framing\nS,5.1,0x0,\n",
     "5000000,M,108 5100000,S,000",
     f"left out 2 damaged words, at 1000000 on S, 1000000 on S{SURVEY}"),
    ("--skip-damaged", T + "S,9,0x055,framing\nM,1,0x001,framing\nS,1,0x000,framing\nM,2,0x108,\n", "2000000,M,108",
     f"left out 3 damaged words, at 1000000 on M, 1000000 on S, 9000000 on S{SURVEY}\n{ONLY_M}"),
    ("--skip-damaged", T + "".join(f"S,{at},0x055,framing\n" for at in (6, 5, 4, 3, 2, 1)), "",
     "left out 6 damaged words, the first at 1000000 on S, 2000000 on S, 3000000 on S, 4000000 on S, 5000000 on S"
     f"{SURVEY}\n{NO_ROW}"),
    ("--skip-damaged", T + "".join(f"S,{at},0x055,framing\n" for at in range(300, 0, -1)), "",
     "left out 300 damaged words, the first at 1000000 on S, 2000000 on S, 3000000 on S, 4000000 on S, 5000000 on S"
     f"{SURVEY}\n{NO_ROW}"),
    ("--skip-damaged --until 1", T + "S,9,0x155,framing\nM,2,0x8,\n", "",
     f"{left_out(0, 1)}\nleft out 1 damaged word, at 9000000 on S{SURVEY}\n{IN_PART.format(2000000, 2000000)}"),
    ("--skip-damaged", T + "S,9,0x200,framing\n", "", f'record 2 at 9000000: {MOST}; found "S,9,0x200,framing"'),
    ("--skip-damaged", T + "M,9,0x000,framing\n", "", f'record 2 at 9000000: {HOW_LONG}; found "M,9,0x000,framing"'),
    ("--skip-damaged --break 5", T + "M,9,0x000,framing\n", "9000000,B,5", NO_WORD),
    ("", T + "M,1,0x108,\nS,2,0x1" + "0" * 70_000 + ",\n", "1000000,M,108",
     f'record 3 at 2000000: {DATA}; found "S,2,0x1{"0" * 41}.."'),
]


def tables():
    """Those of an analyser's tables."""
    for time, wanted in TABLE_TIMES:
        record = f"M,{time},0x108,"
        if isinstance(wanted, int):
            yield "", f"{T}{record}\n", f"{wanted},M,108", ONLY_M
        else:
            yield "", f"{T}{record}\n", "", f"record 2: {wanted}{shown(record)}"
    for header, more, place in ((T, "", 0), (A, ",false", 1)):
        for data, *words in TABLE_DATA:
            record, word = f"M,1,{data},{more}", words[place]
            told = f"record 2 at 1000000: {MOST}{shown(record)}"
            if word is not None:
                told = ONLY_M if word[0] == "1" else f"{ONLY_M}\n{NO_MODE}"
            yield "", f"{header}{record}\n", f"1000000,M,{word}" if word else "", told
        for data in NO_DATA:
            record = f"M,1,{data},{more}"
            yield "", f"{header}{record}\n", "", f"record 2 at 1000000: {DATA}{shown(record)}"
    yield from TABLES


# What each command is told of an input that another one reads: it stands at the end of the line.
LOOKS = {
    "gzip": GZIP,
    "vcd": "; this looks like a value change dump: mdbimport vcd reads it",
    "sigrok": "; this looks like a trace of sigrok-cli: mdbimport sigrok reads it",
    "saleae": "; this looks like a table of Logic 2's analyser: mdbimport saleae reads it",
    "edges": "; this looks like a table of edges: mdbimport edges reads it",
    "rows": "; this looks like rows: mdbimport rows reads it",
    "messages": "; this looks like the log of a sniffer: mdbimport messages reads it",
    "": "",
}
COMMANDS = ("rows", "messages", "saleae", "edges", "vcd", "sigrok")
# An input, what it looks like, and the commands that take it, or refuse it only later.
INPUTS = [
    (b"\x1f\x8b\x08\x00,a,b\nc\n", "gzip", ""), (b"\x1f\x8b", "gzip", ""), (b"\x1f\x8a", "", "messages"),
    (b"\xef\xbb\xbf\x1f\x8bx", "gzip", ""),
    (b"$timescale 1 us $end\n", "vcd", "vcd"), (b" \r\n\t$date\nx\n$end\n", "vcd", "vcd"),
    (b"$1\n", "", "vcd"), (b'{"traceEvents": [\n{"ph": 1\n', "sigrok", "sigrok"), (b'{"traceEvents":[\n', "", "messages"),
    (b"name,type,start_time,duration,data,error\nM,data,0.001,0.001,0x108,\n", "saleae", "saleae"),
    (b"Time [s],Value,Parity Error,Framing Error\n0.001,0x108,,\n", "saleae", ""),
    (b"Time [s],Channel 0,Channel 1\n0.0,1,1\n0.5,0,1\n", "edges", ""),
    (b"; CSV, a\n; b\nTime(s),0,1\n0.000,1,1\n", "edges", ""), (b"# a\n\n\"t,x\",y\n\"0,5\",1\n", "", ""),
    (b't;x;y\n0;1;1\n', "", ""), (b"t,x,y,z\n0,1,1,x\n", "", ""), (b"0.5,x,y\n0.5,1,1\n", "", ""),
    (b"0.5,x,y\n0.5,1x,1\n", "rows", ""), (b"1,,8\n", "", ""), (b"1;M;1,08\n", "", ""), (b"1,M,108,\n", "", ""),
    (b"1,TX,264\n", "", ""), (b"1,TX,08,08\n", "messages", ""), (b"1,TX,8,08\n", "", ""), (b"1,TX,08 08\n", "messages", ""),
    (b"1 TX 08,\n", "messages", ""), (b"1 TX\t08\n", "", ""), (b"1 TX ,08\n", "", ""),
    (b"Time [ms];Channel;Value\n1,0;TX;0x108\n", "rows", ""), (b"1.5,TX,0B*\n", "rows", ""),
    (b"x\n1.5,TX,108\n", "rows", ""), (b"x\ny\n1.5,TX,108\n", "", ""), (b"1.5,b,7000\n", "rows", ""),
    (b"1.5,X,7000\n", "", ""), (b"1.5,TX,108,1\n", "", ""), (b'"1.5","TX","108"\n', "rows", ""),
    (b"[14:28:00.447] VMC -> 08 08\n", "messages", ""), (b"# a\n\n09:14:22.447 VMC: 08* 08\n", "messages", ""),
    (b"log\nVMC 1000 08 0x0B\n", "messages", ""), (b"VMC 1000 8\n", "", ""), (b"1000 08\n", "", ""),
    (b"1000 1001 08\n", "", ""), (b"VMC 1000 *08*\n", "", ""), (b"VMC 1000 *108\n", "messages", ""),
    (b"a" * 500 + b" 1000 08 08 08\n", "", ""), (b"a" * 490 + b" 1000 08 08 08", "messages", ""),
]


def looks():
    """The command, the input, and how the line on it ends."""
    for text, kind, takers in INPUTS:
        for command in COMMANDS:
            if command not in takers.split():
                told = "" if kind == command or (command, kind) == ("messages", "rows") else LOOKS[kind]
                yield command, text, told


def ends(told):
    """Whether a whole answer refuses an export, in a line that ends so: a function as that of writes()."""
    def wrong(came):
        line = came.err.decode()
        is_so = (came.status, came.out.decode(), line.count("\n")) == (2, f"{REFUSED}\n", 1)
        if is_so and line.endswith(f"{told}\n") and (told or "this looks" not in line and "gzip" not in line):
            return None
        return f"status {came.status}, {came.out!r} and {line!r}, and not an end {told!r}"
    return wrong


def writes(rows, told):
    """Whether a whole answer has these rows and lines: a function that says what is wrong, or None."""
    refused = re.match(r"(record|line) \d", told) is not None or not rows
    out = "".join(f"{row}\n" for row in rows.split()) + (f"{REFUSED}\n" if refused else "")
    err = "".join(f"mdbimport: {line}\n" for line in told.split("\n") if line)

    def wrong(came):
        if (came.status, came.out.decode(), came.err.decode()) == (2 if refused else 0, out, err):
            return None
        return f"status {came.status}, {came.out!r} and {came.err!r}, and not {out!r} and {err!r}"
    return wrong


def cases():
    """All of them: the words, the text, and what is to be said of it: a function as that of writes()."""
    for words, text, written, told in rows():
        yield words.split(), text if isinstance(text, bytes) else text.encode(), writes(written, told)
    for words, text, written, told in tables():
        yield ["saleae", *words.split()], text.encode(), writes(written, told)
    for command, text, told in looks():
        yield [command], text, ends(told)
