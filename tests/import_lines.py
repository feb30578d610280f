"""Command lines of mdbimport, and what is told of each."""

import subprocess

from second_rows import REFUSED

# The usage lines of mdbimport, and its list of commands (docs/bench/importing.md, *Options*).
USAGE = {
    "rows": "rows [--unit s|ms|us|ns] [--controller N] [--peripheral N] [--decimal] [--from T] [--until T] [FILE]",
    "sigrok": "sigrok [--swap] [--skip-damaged] [--from T] [--until T] [FILE]",
    "saleae": "saleae [--controller N] [--peripheral N] [--break T] [--skip-damaged] [--from|until T] [FILE]",
    "edges": "edges [--unit U] [--controller|--peripheral N] [--invert[-line N]] [--skip-damaged] "
             "[--from|until T] [FILE]",
    "vcd": "vcd [--controller N] [--peripheral N] [--invert[-line N]] [--skip-damaged] [--from T] [--until T] [FILE]",
    "messages": "messages [--unit U] [--controller N] [--peripheral N] [--time-of last] [--decimal] "
                "[--from|until T] [FILE]",
}
COMMANDS = ("rows (CSV), sigrok (trace), saleae (table), edges (CSV), vcd (dump), messages (log); "
            "all: mdbimport manual")

# Command lines, and what the line on standard error says of each that is refused, or None; where no
# usage line comes after that, it ends with a line feed.
UNIT = "isn't s, ms, us or ns"
NAME = "can't name a line"
ONE_NAME = "--controller and --peripheral have one name"
PART = "isn't a time or a date"
BREAK = "isn't microseconds below 1000000000"
TIME_OF = "isn't first or last"
NO_FILE = "can't be opened: No such file or directory (os error 2)\n"
LINES = [
    ("", "no command"),
    ("help", f"commands: {COMMANDS}\n"),
    ("--help", f"commands: {COMMANDS}\n"),
    ("rows --help", f"usage: mdbimport {USAGE['rows']}; all: mdbimport manual rows\n"),
    ("help edges", f"usage: mdbimport {USAGE['edges']}; all: mdbimport manual edges\n"),
    ("--version", "mdbimport 0.14.0\n"),
    ("file", 'unknown command "file"'),
    ("row", 'unknown command "row" (rows?)'),
    ("--unit s rows", 'unknown option "--unit" (rows --unit?)'),
    ("-- rows", "-- stands before the command"),
    ("rows more", f'"more" {NO_FILE}'),
    ("rows my,file", f'"my,file" {NO_FILE}'),
    ("rows decimal", f'"decimal" {NO_FILE.strip()} (--decimal?)\n'),
    ("rows export.csv --unit min", f'--unit "min" {UNIT}'),
    ("rows --swap", "rows has no --swap: sigrok has it"),
    ("rows -u ms", 'unknown option "-u"'),
    ("rows -unit ms", 'unknown option "-unit" (--unit?)'),
    ("rows --units ms", 'unknown option "--units" (--unit?)'),
    ("rows --unit", "--unit has no value"),
    ("rows --unit --from 1", "--unit has no value"),
    ("rows --unit min", f'--unit "min" {UNIT}'),
    ("rows --unit MS", f'--unit "MS" {UNIT}'),
    ("rows --unit=", f'--unit "" {UNIT}'),
    ("rows --unit s --unit s", "--unit stands twice"),
    ("rows --unit=s --unit ms", "--unit stands twice"),
    ("rows --controller M", f'--controller "M" {NAME}'),
    ("rows --unit us --controller s", f'--controller "s" {NAME}'),
    ("rows --controller=", f'--controller "" {NAME}'),
    ("rows --peripheral b", f'--peripheral "b" {NAME}'),
    ("rows --controller A --peripheral A", ONE_NAME),
    ("rows --controller A --controller B", "--controller stands twice"),
    ("rows --from -1", 'unknown option "-1"'),
    ("rows --from=-1", f'--from "-1" {PART}'),
    ("rows --from 1e3", f'--from "1e3" {PART}'),
    ("rows --until 1000000000000000000", '--until "1000000000000000000" has more than 18 digits'),
    ("rows --until 1.5", f'--until "1.5" {PART}'),
    ("rows --from 1:2", f'--from "1:2" {PART}'),
    ("rows --from 2026-02-30T00:00:00", f'--from "2026-02-30T00:00:00" {PART}'),
    ("rows --from 1969-12-31T00:00:00 --until x", f'--from "1969-12-31T00:00:00" {PART}'),
    ("rows --until 1 --until 1", "--until stands twice"),
    ("rows -- --unit", f'"--unit" {NO_FILE}'),
    ("rows export.csv -- --unit", 'one word too many: "--unit"'),
    ("sigrok --unit s", "sigrok has no --unit: rows has it"),
    ("sigrok --swap=1", '--swap takes no value: "1"'),
    ("sigrok --from x", f'--from "x" {PART}'),
    ("sigrok trace.json", f'"trace.json" {NO_FILE}'),
    ("saleae --unit s", "saleae has no --unit: rows has it"),
    ("saleae --break 1000000000", f'--break "1000000000" {BREAK}'),
    ("saleae --break=", f'--break "" {BREAK}'),
    ("saleae --break 1 --break 1", "--break stands twice"),
    ("saleae --controller M", f'--controller "M" {NAME}'),
    ("saleae --break 5 --controller S", f'--controller "S" {NAME}'),
    ("saleae", "record 1: wanted a header"),
    ("edges --swap", "edges has no --swap: sigrok has it"),
    ("edges --break 1", "edges has no --break: saleae has it"),
    ("edges --invert=1", '--invert takes no value: "1"'),
    ("edges --unit min", f'--unit "min" {UNIT}'),
    ("edges --controller A --peripheral A", ONE_NAME),
    ("edges --until x", f'--until "x" {PART}'),
    ("edges --invert --invert", "record 1: wanted a header"),
    ("edges --skip-damaged --invert --skip-damaged", "record 1: wanted a header"),
    ("edges --skip-damaged=1", '--skip-damaged takes no value: "1"'),
    ("saleae --skip-damaged --skip-damaged", "record 1: wanted a header"),
    ("sigrok --skip-damaged --swap --skip-damaged", "record 0: wanted a trace"),
    ("rows --skip-damaged", "rows has no --skip-damaged: sigrok has it"),
    ("sigrok --skip", 'unknown option "--skip" (--skip-damaged?)'),
    ("vcd", "line 1: wanted more of the dump: it is cut"),
    ("vcd --skip-damaged --invert --skip-damaged", "line 1: wanted more of the dump"),
    ("vcd --unit s", "vcd has no --unit: rows has it"),
    ("vcd --swap", "vcd has no --swap: sigrok has it"),
    ("vcd --break 1", "vcd has no --break: saleae has it"),
    ("vcd --controller A --peripheral A", ONE_NAME),
    ("vcd --controller m", f'--controller "m" {NAME}'),
    ("vcd --from x", f'--from "x" {PART}'),
    ("vcd bus.vcd", f'"bus.vcd" {NO_FILE}'),
    ("messages --unit min", f'--unit "min" {UNIT}'),
    ("messages --time-of firs", f'--time-of "firs" {TIME_OF}'),
    ("messages --time-of=", f'--time-of "" {TIME_OF}'),
    ("messages --time-of last --time-of last", "--time-of stands twice"),
    ("messages --time-of", "--time-of has no value"),
    ("messages --skip-damaged", "messages has no --skip-damaged: sigrok has it"),
    ("messages --controller A --peripheral A", ONE_NAME),
    ("messages sniffer.log", f'"sniffer.log" {NO_FILE}'),
    ("rows --time-of last", "rows has no --time-of: messages has it"),
    ("saleae --decimal", "saleae has no --decimal: rows has it"),
    ("rows --decimal=1", '--decimal takes no value: "1"'),
    ("rows --decimal --unit us --decimal", None),
    ("rows --invert-line M", "rows has no --invert-line: edges has it"),
    ("edges --invert-line", "--invert-line has no value"),
    ("edges --invert-line=", '--invert-line "" names no line'),
    ("edges --invert-line B", '--invert-line "B" names no line'),
    ("edges --controller TX --invert-line tx", '--invert-line "tx" names no line'),
    ("edges --controller TX --peripheral RX --invert-line RX", "record 1: wanted a header"),
    ("edges --invert-line s --controller TX", "record 1: wanted a header"),
    ("vcd --invert-line TX", '--invert-line "TX" names no line'),
    ("vcd --invert --invert-line M", "line 1: wanted more of the dump"),
    ("vcd --invert-line M --invert-line S", "--invert-line stands twice"),
    ("rows", None),
    ("rows --unit=s --controller -- --from=0", "--controller has no value"),
    ("rows --unit=s --controller=-- --from=0 --until=999999999999999999 --", None),
    ("vcd --from 0:0:1 --until 2026-11-30T09:14:22.447+01:00", "line 1: wanted more of the dump"),
    ("rows --from 99:59:59,5 --until 30.11.2026,9:14:22Z", None),
    ("rows --controller A --peripheral a", None),
]

# Those that ask for help or for the version: they write nothing on standard output.
ASKING = ("help", "--help", "rows --help", "help edges", "--version")


def whole_line(line, wanted):
    """The whole line on a command line that is refused, or its front for an export."""
    if wanted.startswith(("record ", "line ")):
        return wanted
    if wanted.endswith("\n"):
        return wanted
    command = line.split()[:1]
    if command and command[0] in USAGE:
        return f"{wanted}; usage: mdbimport {USAGE[command[0]]}\n"
    return f"{wanted}; commands: {COMMANDS}\n"


def lines_wrong(program):
    """What is wrong with how a command line is taken, on an export of no bytes, or None."""
    for line, wanted in LINES:
        ran = subprocess.run([str(program), *line.split()], input=b"", capture_output=True)
        told = ran.stderr.decode()
        leaves = line not in ASKING
        if ran.stdout.decode() != (f"{REFUSED}\n" if leaves else "") or told.count("\n") != 1:
            return f"{line!r}: it writes {ran.stdout!r} and {told!r}"
        begins = "there is no row in the export" if wanted is None else whole_line(line, wanted)
        if ran.returncode != 2:
            return f"{line!r}: status {ran.returncode}"
        if not told.removeprefix("mdbimport: ").startswith(begins):
            return f"{line!r}: {told!r}, and not {begins!r}"
    return None
