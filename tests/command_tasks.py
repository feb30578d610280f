"""What the tasks of `mdbcheck` and `mdbimport` have to give, for tests/command-lines: inputs on which a command,
its options and their values show, and what comes of them by the second readers, which were written from docs/
alone (second_replay.py, second_survey.py, second_rows.py and its kin).

`Checks` and `Imports` answer for a Task of second_words.py

    inputs(task)                 the inputs that it is run on
    wanted(task, text)           what it has to give on one
    seen(task, text, status, out)  what it gave: the same, if it did that task
"""

import functools
import json
import re

import import_cases
import second_edges
import second_import
import second_rows
import second_saleae
import second_survey
import second_messages
import second_vcd
from programs import TOP, load
from second_words import DEVICES, GOALS

replayed = load("replayed")
second_replay = replayed.second

#: The first bytes of the commands to each device: to a reader it is that of a RESET.
ADDRESSES = {"changer": 0x08, "bill": 0x30, "cashless": 0x10, "cashless-2": 0x60}


# ------------------------------------------------------------------------------------ recordings


def rows_of(talk):
    """The rows of what is said: `> BYTES` a block of the controller and `< BYTES` a data block of a device, each
    without its sum; `a` the ACK of a device, `A` that of the controller."""
    rows, time = [], 1000
    for said in talk:
        kind, *digits = said.split()
        content = [int(byte, 16) for byte in digits]
        content.append(sum(content) % 256)
        if kind == ">":
            time += 20_000
            words = [("M", byte + 256 * (at == 0)) for at, byte in enumerate(content)]
        elif kind == "<":
            words = [("S", byte + 256 * (at == len(content) - 1)) for at, byte in enumerate(content)]
        else:
            words = [("S", 0x100) if kind == "a" else ("M", 0)]
        for at, (line, value) in enumerate(words):
            time += 1200 if at else 2000
            rows.append(f"{time},{line},{value:03X}\n")
    return "".join(rows)


def start_of(device):
    """A device is switched on, set up, and enabled."""
    if device == "changer":
        return ["> 08", "a", "> 0B", "< 0B", "A", "> 09", "< 02 00 01 05 02 00 07 01 02 05", "A",
                "> 0C FF FF FF FF", "a"]
    if device == "bill":
        return ["> 30", "a", "> 33", "< 06", "A", "> 31", "< 02 00 01 00 0A 02 00 32 00 00 FF 01 05", "A",
                "> 34 FF FF 00 00", "a"]
    to = reader(device)
    return [to(0), "a", to(2), "< 00", "A", to(1, "00 01 10 02 01"), "< 01 01 00 01 03 02 05 00", "A",
            to(4, "01"), "a"]


def reader(device):
    """Writes a command to a reader: the lower half of its first byte, and what stands after it."""
    return lambda command, more="": f"> {ADDRESSES[device] + command:02X} {more}"


def sale_of(device, price, *end):
    """A session up to the approval, and what comes after it."""
    to = reader(device)
    return [to(2), "< 03 00 64", "A", to(3, f"00 00 {price} 00 05"), "a", to(2), f"< 05 00 {price}", "A", *end]


def sold(device):
    """The approved sale is made, and the session ends."""
    to = reader(device)
    return [to(3, "02 00 05"), "a", to(3, "04"), "< 07", "A"]


def money_of(device):
    """A device takes money, or sells."""
    if device == "changer":
        return ["> 0B", "< 52 03", "A", "> 0B", "a"]
    if device == "bill":
        return ["> 33", "< 81", "A", "> 33", "a"]
    return sale_of(device, "0A" if device == "cashless" else "0C", *sold(device))


def levels_of(device):
    """A reader of a running machine says what each of its levels and options reads otherwise: 0B FF, a sale
    without a session, 0B 04, and at last a message that is too short."""
    to = reader(device)
    return [to(3, "04"), "< 07", "A", to(2), "< 0B FF", "A", to(3, "00 00 0A 00 05"), "a",
            to(2), "< 05 00 0A", "A", *sold(device), to(2), "< 0B 04", "A", to(2), "< 05 00", "A"]


def each(part, devices=DEVICES):
    return [said for device in devices for said in part(device)]


def profile_of(device):
    """A device says what no profile follows."""
    return [f"> {ADDRESSES[device] + (3 if device in ('changer', 'bill') else 2):02X}",
            "< 1B" if device in ("changer", "bill") else "< 0C", "A"]


def to_leave_out(devices):
    """First these devices, and then the others say what isn't followed: where one of them isn't left out, or another
    one is, the answer is another."""
    return rows_of(each(profile_of, [*devices, *(one for one in DEVICES if one not in devices)]))


#: From power-on: all devices, a recycler, and acts that each account and each side may have once or twice.
MONEY = rows_of(each(lambda device: start_of(device) + money_of(device)))
RECYCLER = rows_of([*start_of("bill"), "> 33", "< B1", "A", "> 33", "a"])
TWICE = rows_of([
    *start_of("changer"), *2 * ["> 0B", "< 52 03", "A"], *2 * ["> 0B", "< 90 05", "A"], *2 * ["> 0D 21", "a"],
    "> 0B", "a",
    *start_of("bill"), *2 * ["> 33", "< 81", "A"],
    *start_of("cashless"), *sale_of("cashless", "0A", "> 13 02 00 05", "< 00", "A"),
    *start_of("cashless-2"), *sale_of("cashless-2", "0C", "> 63 02 00 05", "< 00", "A"),
])
#: Of a running machine.
RUNNING = rows_of([
    "> 0B", "< 52 03", "A", "> 33", "< 81", "A", "> 12", "< 05 00 0A", "A", "> 13 02 00 05", "a",
    "> 62", "< 05 00 0C", "A", "> 63 02 00 05", "a",
])
LEVELS = [rows_of(levels_of(device)) for device in ("cashless", "cashless-2")]
#: A reader denies a sale, and the controller reports it as sold: a no that isn't judged where the level isn't known.
DENIED = [rows_of([reader(device)(3, "00 00 0A 00 05"), "a", reader(device)(2), "< 06", "A",
                   reader(device)(3, "02 00 05"), "a"]) for device in ("cashless", "cashless-2")]
#: An acknowledgement of the controller that was lost.
LOST = (TOP / "examples" / "coin-told-twice.csv").read_text()
EXPLANATION = "35,L,-\n" + LOST


# ------------------------------------------------------------------------------------ mdbcheck


def ranges_in(report):
    """The least and the greatest of each side of each account."""
    found = re.findall(r"^(\S+) device (\S+)\.\.(\S+) controller (\S+)\.\.(\S+) difference (\S+)\.\.(\S+)$",
                       report, re.M)
    return {(account, side, bound): int(ends[2 * s + b])
            for account, *ends in found
            for s, side in enumerate(GOALS["SIDE"]) for b, bound in enumerate(GOALS["BOUND"])}


def by_device(name, value):
    return f"{name} " + " ".join(f"{device} {value(device)}" for device in DEVICES)


def text_of_report(report, is_extended):
    """The text that says what an object of JSON says (docs/programs/json.md)."""
    if report["version"] not in ((3, 5) if is_extended else (1, 4)):
        return f"version {report['version']}"
    if report["verdict"] == "no":
        return "verdict no\n" + "".join(f"{name} {report[name]}\n" for name in ("row", "rule", "blame"))
    devices, lines = report["devices"], ["verdict yes", f"rows {report['rows']}"]
    none = {None: "-"}
    lines.append(by_device("decimals",
                           lambda one: none.get(devices[one]["decimals"], devices[one]["decimals"])))
    for account in GOALS["ACCOUNT"]:
        sides = next(one["accounts"][account] for one in devices.values() if account in one["accounts"])
        lines.append(" ".join([account] + [f"{side} {sides[side]['least']}..{sides[side]['greatest']}"
                                           for side in GOALS["SIDE"]]))
    lines.append(by_device("silences", lambda one: devices[one]["silences"]))
    if is_extended:
        counts = report["untimely"]
        lines.append(by_device(f"untimely controller {counts['controller']}", counts.get))
    if report["joined"]:
        lines.append(by_device("unvalued", lambda one: devices[one]["unvalued"]))
    for name in ("setup", "without"):
        if any(one[name] for one in devices.values()):
            lines.append(" ".join([name] + [device for device in DEVICES if devices[device][name]]))
    return "\n".join(lines) + "\n"


def text_of_act(act):
    """The line of `show` that says what an object of JSON says (docs/programs/show-json.md)."""
    if act["act"] == "fault":
        return f"fault {act['row']} {act['rule']} {act['blame']}\n"
    rest = [act[name] for name in ("device", "bytes", "length") if name in act]
    return " ".join([f"{act['first']}-{act['last']}", act["act"], *map(str, rest)]) + "\n"


def objects_in(out):
    """The objects of lines of JSON in their one form, or None where a line isn't that."""
    try:
        lines = [json.loads(line) for line in out.splitlines()]
    except ValueError:
        return None
    form = "".join(json.dumps(line, sort_keys=True, separators=(",", ":")) + "\n" for line in lines)
    return lines if lines and form == out else None


def acts_in(text):
    """The lines of `show`, as the second reader can say them: without foreign words, and without first rows."""
    lines = [line for line in text.splitlines() if not line.endswith((" foreign", " cut"))]
    return [re.sub(r"^\d+-", "", line) for line in lines]


class Checks:
    """`mdbcheck`."""

    name = "mdbcheck"

    def __init__(self, runs):
        self.run = runs.run
        self.known = {}

    def inputs(self, task):
        options = task.options
        left_out = [to_leave_out(options["--without"])] if "--without" in options else []
        if task.command == "manual":
            return [""]
        if task.command == "explain":
            return [TWICE, RECYCLER, *left_out]
        if task.command == "replay":
            return [EXPLANATION, RECYCLER, *left_out]
        if "--joined" in options:
            is_told_of_second = any(value.startswith("cashless-2") for value in options.get("--setup", ()))
            levels = LEVELS if "--extended" in options else DENIED if task.command == "check" else []
            return [RUNNING, *levels[is_told_of_second:][:1], *left_out]
        return [MONEY, RECYCLER, *left_out]

    def wanted(self, task, text):
        form = "JSON" if "--json" in task.options else "text"
        key = (text, *(word for word in task.words() if word != "--json" or task.command == "survey"))
        if key not in self.known:
            self.known[key] = self.worked_out(task, text)
        status, out = self.known[key][:2]
        if task.command not in ("check", "show", "replay"):
            return self.known[key]
        return form if out or task.command == "show" else "nothing", status, out

    def worked_out(self, task, text):
        if task.command == "manual":
            return manual_of(self.run, self.name, *task.goal)
        options = task.options
        given = (frozenset(options.get("--without", ())), "--extended" in options)
        setups = options.get("--setup", []) if "--joined" in options else None
        if task.command == "explain":
            return explanation_of(text, *given, task.goal)
        if task.command == "replay":
            return second_replay.replay(text.encode(), *given)[:2]
        if task.command == "check":
            return second_replay.check(text.encode(), *given, setups)[:2]
        if task.command == "show":
            acts = [replayed.line_of_act(*one) for one in second_replay.said(text.encode(), *given, setups)]
            return int(any(act.startswith("fault") for act in acts)), acts
        words = second_survey.options_of(task.words()[1:])
        return second_survey.survey(text.encode(), words, self.run)[:2]

    def seen(self, task, text, status, out):
        if task.command == "manual":
            return status, out
        if task.command == "survey":
            return status, out
        if task.command == "explain":
            marks, rows = re.fullmatch(r"((?:\d+,[LRC],-\n)*)(.*)", out, re.S).groups()
            if rows != text:
                return status, out
            without, is_extended = frozenset(task.options.get("--without", ())), "--extended" in task.options
            return status, marks.count("\n"), bounds_of(out, without, is_extended).get(task.goal)
        form, objects = "text" if out else "nothing", objects_in(out)
        if objects is not None:
            form = "JSON"
            try:
                parts = [text_of_act(one) for one in objects] if task.command == "show" else [
                    text_of_report(one, "--extended" in task.options) for one in objects]
                out = "".join(parts)
            except (KeyError, TypeError, StopIteration):
                form = "another JSON"
        return form, status, acts_in(out) if task.command == "show" else out


@functools.cache
def bounds_of(explanation, without, is_extended):
    """The bounds that the second reader replays; none where it can't."""
    status, report, _ = second_replay.replay(explanation.encode(), without, is_extended)
    return {} if status else ranges_in(report)


def explanation_of(text, without, is_extended, goal):
    """Of a yes how many marks lead to a bound at least, and the bound; or the answer of `check`. In the recordings
    here one mark leads to each bound that isn't that of no mark."""
    status, report, _ = second_replay.check(text.encode(), without, is_extended)
    if status:
        return status, report
    wanted = ranges_in(report)[goal]
    return 0, int(bounds_of(text, without, is_extended)[goal] != wanted), wanted


def manual_of(run, name, command=None):
    """The manual, which tests/manual compares with the man page, or its part on one command."""
    manual = run("", "manual")[1]
    if command is None:
        return 0, manual if manual.startswith(f"NAME\n    {name} - ") else None
    return 0, re.search(rf"^{command.upper()}\n(?:(?: .*)?\n)*", manual, re.M)[0]


# ------------------------------------------------------------------------------------ mdbimport

#: The rows that tables of rows and of Saleae have.
BUS = [(1000, "M", "108"), (2200, "M", "008"), (4200, "S", "100"), (24_200, "M", "10B"), (25_400, "M", "00B"),
       (27_400, "S", "00B"), (28_600, "S", "10B"), (30_600, "M", "000")]
BREAK = (200_000, "B", 100_500)
LAST = (999_999_999_999_999, "M", "110")
WAVE = "1000M=108 3000S=100 6000M=10B 8000M=00B 10000S=00B 12000M=000"
DAMAGED = WAVE + " 14000S=003-100 16000M=110"

#: Of each unit: how many digits of microseconds stand after its point, or what stands after them.
UNITS = {"s": (6, ""), "ms": (3, ""), "us": (0, ""), "ns": (0, "000")}


def number_in(unit, micros):
    """Microseconds as a number of a unit."""
    digits, zeros = UNITS[unit]
    text = f"{micros:0{digits + 1}}"
    return f"{text[:-digits]}.{text[-digits:]}" if digits else text + zeros


def names_of(options):
    """What an export calls the two lines."""
    return {"M": options.get("--controller", "M"), "S": options.get("--peripheral", "S"), "B": "B"}


def rows_export(options):
    """Rows in the unit that is given, or else with times of day."""
    unit, names, lines = options.get("--unit"), names_of(options), ["Time,Line,Value\n"]
    for time, line, value in [*BUS, BREAK, *([LAST] if unit in ("s", "ms", "us") else [])]:
        at = number_in(unit, time) if unit else f"0:00:{number_in('s', time)}"
        lines.append(f"{at},{names[line]},{number_in(unit or 's', value) if line == 'B' else value}\n")
    return "".join(lines).encode()


def saleae_export(options):
    """A table with a break and a damaged word; the break stands after it if no length is given."""
    names, lines = names_of(options), ["name,type,start_time,duration,data,error\n"]
    damaged = (250_000 if "--break" in options else 150_000, "S", "003")
    for time, line, value in sorted([*BUS, (160_000, "M", "110"), damaged, BREAK, LAST]):
        word, error = ("000", "framing") if line == "B" else (value, "framing" if value == "003" else "")
        lines.append(f"{names['M' if line == 'B' else line]},data,{number_in('s', time)},0.001,0x{word},{error}\n")
    return "".join(lines).encode()


def trace_of(wave):
    """A trace of sigrok-cli of the words of a wave."""
    records = []
    for time, line, value, low in re.findall(r"(\d+)([MS])=([0-9A-F]{3})(-\d+)?", wave):
        time, tid = int(time), {"M": "TX", "S": "RX"}[line]
        pairs = [(time, time + 104, tid, "Start bit"), (time + 104, time + 1042, tid, value)]
        if low:
            pairs.append((time + 1042, time + 1146, f"{tid} warnings", "Frame error"))
        for start, end, *rest in pairs:
            for kind, at in (("B", start), ("E", end)):
                record = '{"ph": "%s", "ts": %d.000000, "pid": "uart-1", "tid": "%s", "name": "%s"}'
                records.append(record % (kind, at, *rest))
    return ('{"traceEvents": [\n' + ",\n".join(records) + "\n]}\n").encode()


def high_of(options):
    """What a high level of each line is in an export."""
    turned = options.get("--invert-line", "").upper()
    return {line: int("--invert" not in options and line != turned) for line in "MS"}


def edges_export(options, wave):
    """A table of edges."""
    unit, names, high = options.get("--unit", "s"), names_of(options), high_of(options)
    changes, levels = import_cases.changes_of(wave), {"M": 1, "S": 1}
    lines = [f"Time,{names['M']},{names['S']}\n"]
    for time in sorted({0, *changes}):
        levels.update(changes.get(time, {}))
        shown = [int(bool(levels[line]) == high[line]) for line in "MS"]
        lines.append(f"{number_in(unit, time)},{shown[0]},{shown[1]}\n")
    return "".join(lines).encode()


def vcd_export(options, wave):
    """A value change dump."""
    names, text = names_of(options), import_cases.dump(import_cases.changes_of(wave))
    text = text.replace(" ! M ", f" ! {names['M']} ").replace(' " S ', f' " {names["S"]} ')
    for line, code in zip("MS", "!\""):
        if not high_of(options)[line]:
            text = re.sub(rf"^[01](?={code}$)", lambda level: "10"[int(level[0])], text, flags=re.M)
    return text.encode()


def log_of(options):
    """The log of a sniffer, in the unit that is given, or else with times of day."""
    unit, names = options.get("--unit"), names_of(options)
    lines = []
    for time, line, words in ((1_000, "M", "08 08"), (4_200, "S", "00"), (24_200, "M", "0B 0B"),
                              (27_400, "S", "02 05 07"), (31_600, "M", "00")):
        at = number_in(unit, time) if unit else f"0:00:{number_in('s', time)}"
        lines.append(f"{at} {names[line]}: {words}\n")
    return "".join(lines).encode()


class Imports:
    """`mdbimport`."""

    name = "mdbimport"

    def __init__(self, runs):
        self.run = runs.run
        self.known = {}

    def inputs(self, task):
        """One export, or several: without damage, and with it; with a line upside down, and with none."""
        passed = ("--from", "--until", "--swap")
        options = {name: value for name, value in task.options.items() if name not in passed}
        key = (task.command, *options.items())
        if key not in self.known:
            waves = [DAMAGED] if "--skip-damaged" in options else [WAVE, DAMAGED]
            upright = {name: value for name, value in options.items() if name != "--invert-line"}
            both = [options] if upright == options else [options, upright]
            self.known[key] = {
                "manual": lambda: [b""],
                "rows": lambda: [rows_export(options)],
                "saleae": lambda: [saleae_export(options)],
                "sigrok": lambda: [trace_of(wave) for wave in waves],
                "edges": lambda: [edges_export(one, wave) for wave in waves for one in both],
                "vcd": lambda: [vcd_export(one, wave) for wave in waves for one in both],
                "messages": lambda: [log_of(options)],
            }[task.command]()
        return self.known[key]

    def wanted(self, task, text):
        key = (text, *task.words())
        if key not in self.known:
            self.known[key] = self.worked_out(task, text)
        return self.known[key]

    def worked_out(self, task, text):
        if task.command == "manual":
            return manual_of(self.run, self.name, *task.goal)
        value = task.options.get
        names, part = (value("--controller"), value("--peripheral")), (value("--from"), value("--until"))
        skip, invert = value("--skip-damaged", False), value("--invert", False)
        if task.command == "rows":
            answer = second_rows.read(text, value("--unit"), *names, *part, value("--decimal", False))
        elif task.command == "saleae":
            answer = second_saleae.read(text, *names, value("--break"), *part, skip)
        elif task.command == "edges":
            answer = second_edges.read(text, *names, value("--unit", "s"), invert, value("--invert-line"), *part, skip)
        elif task.command == "vcd":
            answer = second_vcd.read(text, *names, invert, value("--invert-line"), *part, skip)
        elif task.command == "messages":
            answer = second_messages.read(text, value("--unit"), *names, value("--time-of"), *part, value("--decimal", False))
        else:
            came = second_import.read(text, value("--swap", False), skip)
            if isinstance(came, second_import.Refusal):
                return 2, second_rows.REFUSED + "\n"
            answer = second_edges.answer_of(*came, *part)
        is_refused = second_rows.is_refused(answer)
        rows = [*answer.rows, second_rows.REFUSED] if is_refused else answer.rows
        return 2 * is_refused, "".join(row + "\n" for row in rows)

    def seen(self, task, text, status, out):
        return status, out
