"""The worked cases of tests/cases, as Python reads them: for all scripts of tests/.

The page beside the cases (README) says how a case is written. There is no other reader of them.
"""

import json
import pathlib
import re

FOLDER = pathlib.Path(__file__).resolve().parent / "cases"
ESCAPES = {"n": "\n", "r": "\r", "m": "\xef\xbb\xbf", "x": "\xff", "\\": "\\"}
# A value of --setup: a line of `show`, perhaps without its rows, perhaps without `reply` or `ask` too. Or a reader's level.
SETUP = re.compile(r"(?:(?:\d+-\d+ )?(?:reply|ask) )?(\S+) (.+)")
# What a value tells of a reader that begins with these bytes. Others are answers to SETUP.
ASKED = {"cashless": {0x11: "config", 0x17: "options"}, "cashless-2": {0x61: "config", 0x67: "options"}}


class BadCase(Exception):
    """A line that the page beside the cases doesn't know."""


def words_of(text):
    """The words of a command line: what stands between two ' is one."""
    words, parts = [], text.split("'")
    for i, part in enumerate(parts):
        words += [part] if i % 2 else part.split()
    return words


def told_in(words):
    """What each --setup among the words of a command tells: its value, the device, the field of the page that it belongs to
    (setup, level, config or options), and the bytes, or the level."""
    for i, word in enumerate(words):
        if word == "--setup" or word.startswith("--setup="):
            value = word.partition("=")[2] or words[i + 1]
            device, rest = SETUP.fullmatch(value).groups()
            if rest.startswith("level "):
                yield value, device, "level", int(rest.partition(" ")[2])
            else:
                data = bytes.fromhex(rest)
                yield value, device, ASKED.get(device, {}).get(data[0], "setup"), data


def setups_in(words):
    """The value of each --setup that tells an answer to SETUP, with its device and its bytes."""
    return ((value, device, data) for value, device, field, data in told_in(words) if field == "setup")


def readers_in(words):
    """What is told of the readers: the device, the field, and the bytes, or the level."""
    return [(device, field, data) for _, device, field, data in told_in(words) if device in ASKED]


def is_way_of_page(words):
    """Whether the page can take a recording as these words of `check` or `show` say."""
    known = re.compile(r"--joined|--extended|--without(=.*)?|--setup(=.*)?")
    pairs = zip(["", *words], words)
    return all(known.fullmatch(word) or before in ("--without", "--setup") for before, word in pairs)


def text_of(escaped):
    """A text without its escapes."""
    out, characters = [], iter(escaped)
    for character in characters:
        out.append(ESCAPES[next(characters)] if character == "\\" else character)
    return "".join(out)


def lines_of(path):
    """The lines of a file that say something. Each character stands for one byte."""
    for line in path.read_bytes().decode("latin-1").split("\n"):
        if line and not line.startswith("#"):
            yield line


class Rows:
    """A named transcript, as far as its lines were read: a front, or the rows of a case."""

    def __init__(self, name):
        # Each part is a word (rows, again or text), how many times it is said, and what is said.
        self.name, self.parts = name, []

    def add(self, line, known):
        """Takes a further line. What stands in front of others is found in `known`, by its name."""
        word, _, rest = line.partition(" ")
        if word == "rows":
            self.parts.append(("rows", 1, rest.split(" ")))
        elif word == "again":
            count, *rows = rest.split(" ")
            self.parts.append(("again", int(count), rows))
        elif word == "text":
            self.parts.append(("text", 1, [text_of(rest)]))
        elif word == "after" and rest in known:
            self.parts += known[rest].parts
        else:
            raise BadCase(f"{self.name}: {line}")

    def input(self):
        """The transcript, whole."""
        out, time = [], 0
        for word, count, pieces in self.parts:
            for piece in pieces * count:
                first, _, rest = piece.partition(",")
                if word == "again":
                    time += int(first)
                    piece = f"{time},{rest}"
                elif word == "rows" and first.isdigit():
                    time = int(first)
                out.append(piece if word == "text" else piece + "\n")
        return "".join(out)


class Case(Rows):
    """A worked case, as far as its lines were read."""

    def __init__(self, name, file):
        super().__init__(name)
        self.file, self.why, self.words, self.status = file, "", ["check"], None
        # How the program is known to answer otherwise; empty where it answers as wanted.
        self.wrong = ""
        # The parts of a survey: the line in front, the lines that stand unless the case says
        # otherwise, and those that it says. Other output is one part.
        self.printed, self.errors = [("", [], [])], ""

    def add(self, line, known):
        word, _, rest = line.partition(" ")
        if word == "why":
            self.why = rest
        elif word == "wrong":
            self.wrong = rest
        elif word == "words":
            self.words = words_of(rest)
        elif word == "status":
            self.status = int(rest)
        elif word == "yes":
            self.status = 0
            self.printed = [("", report(self.words), [f"rows {rest}"])]
        elif word == "no":
            row, rule, blame = rest.split(" ")
            self.status = 1
            self.printed[-1][2].extend(["verdict no", f"row {row}", f"rule {rule}", f"blame {blame}"])
        elif word == "stretch":
            number, rows = rest.split(" ")
            lines = report([*self.words, "--joined"], "verdict", "rows")
            self.printed.append((f"stretch {number} rows {rows}", lines, []))
        elif word == "fault":
            self.printed.append((line, [], []))
        elif word == "total":
            self.printed.append(("total", report([*self.words, "--joined"], "verdict", "rows", "decimals"), []))
        elif word == "faults":
            self.status = 0 if rest.startswith("0 ") else 1
            self.printed.append((line, [], []))
        elif word == "out":
            self.printed[-1][2].append(rest)
        elif word == "err":
            self.errors += rest + "\n"
        else:
            super().add(line, known)

    def output(self):
        """Standard output, whole."""
        return "".join(line + "\n" for part in self.printed for line in part_lines(*part))

    def no(self):
        """The line that `survey` has of a no of `check`, of its row, rule and blame; None where the case
        is none, or is known to come out wrong."""
        if self.wrong or self.status != 1 or self.words[0] != "check":
            return None
        out = self.output()
        if "--json" in self.words:
            no = json.loads(out)
            fault = {name: no[name] for name in ("blame", "row", "rule")}
            version = {4: 1, 5: 3}[no["version"]]
            return json.dumps({"fault": fault, "version": version}, separators=(",", ":"))
        return "fault " + " ".join(line.partition(" ")[2] for line in out.splitlines()[1:])


def part_lines(front, defaults, lines):
    """The lines of a part of the output: each line that is said in place of the default of its first
    word, and the others after the report."""
    out, said = [], list(lines)
    for line in defaults:
        is_said = said and said[0].partition(" ")[0] == line.partition(" ")[0]
        out.append(said.pop(0) if is_said else line)
    if front == "total":
        return [f"total {line}" for line in out + said]
    return [front] * bool(front) + out + said


def report(words, *but):
    """The lines of a report at their defaults, of a command line with these words, but those with
    one of these first words."""
    kinds = ["out", *(kind for kind in ("extended", "joined") if f"--{kind}" in words)]
    parted = (line.partition(" ") for line in lines_of(FOLDER / "report"))
    return [rest for kind, _, rest in parted if kind in kinds and rest.partition(" ")[0] not in but]


def fronts():
    """The rows that stand in front of those of many cases, by their names."""
    known, front = {}, None
    for line in lines_of(FOLDER / "fronts"):
        if line.startswith("front "):
            front = Rows(line.removeprefix("front "))
        else:
            front.add(line, known)
        known[front.name] = front
    return known


def all_cases():
    """The cases that the program answers as wanted, in the order of the files' names."""
    return (case for case in every_case() if not case.wrong)


def every_case():
    """The same, and those that are known to come out wrong."""
    shared = fronts()
    for path in sorted(FOLDER.glob("*.cases")):
        known, read, case = dict(shared), [], None
        for line in lines_of(path):
            if line.startswith("case "):
                case = Case(line.removeprefix("case "), path.name)
                read.append(case)
            else:
                case.add(line, known)
            known[case.name] = case
        yield from read
