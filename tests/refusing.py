"""What tests/refused-memory and tests/failing-streams share.

A case is a call of a program, with its input and the answer that it gives when nothing is refused.
`refuse_each` runs it with the first call of a kind refused (an allocation, a read or a write), then with
the second, and so on, up to the run that has none left to refuse. tests/refuse_nth.c refuses the calls:
it is compiled here, and loaded before the program. No shell takes part.
"""

import os
import pathlib
import re
import shutil
import signal
import subprocess
import sys
from typing import NamedTuple

from programs import TOP, Runs
from unjudged import aside

SKIPPED = 77  # the status of a script that can't be run here
MOST_CALLS = 100_000
MOST_SECONDS = 60  # for a run
SHOWN = 1_000  # bytes of a text that are shown

EXAMPLES = TOP / "examples"
IN_MILLISECONDS = ("rows", "--unit", "ms", "--controller", "TX", "--peripheral", "RX")
OF_SALEAE = ("saleae", "--controller", "MDB master", "--peripheral", "MDB slave")
OF_EDGES = ("edges", "--controller", "Channel 0", "--peripheral", "Channel 1")
OF_SNIFFER = ("messages", "--controller", "VMC", "--peripheral", "PER")
REFUSAL = b"mdbimport refused this export\n"


class Wrong(Exception):
    """A run did what it may not do."""


class Answer(NamedTuple):
    """What a run answered, and how many of its calls were refused."""

    status: int
    out: bytes
    err: bytes
    refused: int = 0

    def __str__(self):
        texts = (text if len(text) <= SHOWN else text[:SHOWN] + b".." for text in (self.out, self.err))
        return "status {}, standard output {!r}, standard error {!r}".format(self.status, *texts)


class Refusing(Runs):
    """Runs of a program, with calls refused. Their streams are files in memory, or those that are given."""

    def __init__(self, program, library):
        if not os.access(program, os.X_OK):
            raise Wrong(f"there is no {program}: build it by tests/run, or name another with MDBCHECK or MDBIMPORT")
        super().__init__(program)
        self.library, self.refused = library, os.memfd_create("refused")

    def answer(self, words, given=b"", kind=None, nth=0, streams={}, ignored=()):
        """The answer of a run on an input, where these signals are ignored."""
        files = {0: self.rows, 1: self.out, 2: self.err, 3: self.refused}
        for file in files.values():
            os.ftruncate(file, 0)
            os.lseek(file, 0, os.SEEK_SET)
        os.pwrite(self.rows, given, 0)
        environment = {"LD_PRELOAD": str(self.library), "REFUSE": kind, "REFUSE_NTH": str(nth)} if kind else {}
        child = os.posix_spawn(
            self.program, [str(self.program), *words], environment,
            file_actions=[(os.POSIX_SPAWN_DUP2, file, n) for n, file in (files | streams).items()],
            setsigdef={signal.SIGPIPE, signal.SIGXFSZ} - set(ignored))  # (Python itself ignores them)
        if (ended := wait_for(child)) is None:
            told = f"{self.program.name} {' '.join(words)}, {kind or 'nothing'} {nth} refused"
            raise Wrong(f"{told}: no end in {MOST_SECONDS} s")
        status = os.waitstatus_to_exitcode(ended)
        return Answer(status, contents(self.out), contents(self.err), len(contents(self.refused)))


def wait_for(child):
    """The status of a child that has ended, or None if it had to be ended."""
    def too_long(*_):
        raise TimeoutError

    signal.signal(signal.SIGALRM, too_long)
    signal.setitimer(signal.ITIMER_REAL, MOST_SECONDS)
    try:
        return os.waitpid(child, 0)[1]
    except TimeoutError:
        os.kill(child, signal.SIGKILL)
        os.waitpid(child, 0)
        return None
    finally:
        signal.setitimer(signal.ITIMER_REAL, 0)


def contents(file):
    return os.pread(file, os.fstat(file).st_size, 0)


def build_library(folder):
    """Compiles tests/refuse_nth.c: by the C compiler that CC names, else by the system's, else by the
    toolchain's own. Without one, the script is skipped."""
    source, library = TOP / "tests" / "refuse_nth.c", pathlib.Path(folder) / "refuse.so"
    flags = "-O1", "-fPIC", "-ffreestanding"
    for compiler in os.environ.get("CC", "cc gcc clang").split():
        if shutil.which(compiler):
            subprocess.run([compiler, *flags, "-shared", "-nostdlib", source, "-o", library], check=True)
            return library
    if not os.environ.get("CC") and shutil.which("rt"):
        manual = subprocess.run(["rt", "doc"], check=True, stdout=subprocess.PIPE, text=True).stdout.strip()
        tools = pathlib.Path(manual).parent / "toolchain" / "bin"
        subprocess.run([tools / "clang", *flags, "-c", source, "-o", f"{library}.o"], check=True)
        subprocess.run([tools / "ld.lld", "-shared", f"{library}.o", "-o", library], check=True)
        return library
    print("skipped: there is no C compiler")
    sys.exit(SKIPPED)


# ---- Cases


class Case(NamedTuple):
    """A call of a program, with its input and what it answers when nothing is refused."""

    name: str
    runs: Refusing
    words: tuple
    given: bytes
    wanted: Answer

    def is_right(self, answer):
        return answer[:3] == self.wanted[:3]


def refuse_each(kind, case, is_told, may_go_on):
    """Refuses each call of a kind in turn. A run with a refusal has to tell of it, or may go on and answer
    what is wanted. The last run has none, and must answer that. Counts the refusals, and those told. Whether
    one is told is asked with the case, the answer, and the number of the call."""
    told = 0
    for nth in range(1, MOST_CALLS):
        answer = case.runs.answer(case.words, case.given, kind, nth)
        may_be_right = may_go_on or not answer.refused
        if may_be_right and case.is_right(answer):
            pass
        elif answer.refused and is_told(case, answer, nth):
            told += 1
        else:
            which = f"{kind} {nth} refused" if answer.refused else f"no {kind} refused"
            raise Wrong(f"{case.name}, {which}: {answer}")
        if not answer.refused:
            return nth - 1, told
    raise Wrong(f"{case.name}: there is always one {kind} more")


def of_text(text, line=b""):
    """The answer whose standard output is a text, and standard error a line: the status is 1 if the text reports
    an impossible row."""
    is_no = re.search(rb'^(?:verdict no$|fault )|"verdict":"no"|^\{"(?:act":"fault"|fault":)', text, re.M)
    return Answer(1 if is_no else 0, text, line)


def on_example(runs, name, *words, wanted=None):
    """A command on a recording of examples/. What is wanted stands in the file beside it that has this
    suffix. Without a suffix it is what the program writes when nothing is refused."""
    given = (EXAMPLES / f"{name}.csv").read_bytes()
    text = (EXAMPLES / f"{name}.{wanted}").read_bytes() if wanted else runs.answer(words, given).out
    if not text:
        raise Wrong(f"{' '.join(words)} {name}: nothing is wanted")
    return Case(f"{' '.join(words)} {name}", runs, words, given, of_text(text, aside(given, words, text.decode()).encode()))


def on_examples(runs):
    """The commands that both scripts run."""
    for name in ("changer-reset-and-poll", "coin-not-told-again", "bill-stacked-without-an-order", "sale-of-one-item",
                 "coins-beside-a-recycler"):
        for word in ("check", "show"):
            yield on_example(runs, name, word, wanted=word)
    # (tests/json and tests/show-json, outside the gate, compare the JSON with the text)
    for name in ("coin-not-told-again", "sale-of-one-item"):
        for word in ("check", "show"):
            yield on_example(runs, name, word, "--json")
    yield on_example(runs, "a-days-recording", "survey", wanted="survey")
    yield on_example(runs, "a-days-recording", "survey", "--json")
    yield on_example(runs, "coin-in-mid-session", "check", "--joined", wanted="check-joined")
    for name, word in (("sale-of-one-item", "check"), ("sale-of-one-item", "show"), ("a-days-recording", "survey")):
        quoted = quoting((EXAMPLES / f"{name}.csv").read_bytes())
        wanted = of_text((EXAMPLES / f"{name}.{word}").read_bytes())
        yield Case(f"{word} {name}, with quotes", runs, (word,), quoted, wanted)
    for name, goal in (("coin-told-twice", "coins-in,device,least"),
                       ("sale-answered-by-a-reset-message", "sold,device,least")):
        recording = (EXAMPLES / f"{name}.csv").read_bytes()
        explanation = (EXAMPLES / f"{name}.explain-{goal}").read_bytes() + recording
        words = "explain", *goal.split(",")
        yield Case(f"{' '.join(words)} {name}", runs, words, recording, of_text(explanation))
        report = (EXAMPLES / f"{name}.replay-{goal}").read_bytes()
        yield Case(f"replay {name}.explain-{goal}", runs, ("replay",), explanation, of_text(report))


def quoting(rows):
    """The same rows with a quoted number in each line, and CR LF at its end: csv alone reads these."""
    return b"".join(b'"%b",%b\r\n' % tuple(row.split(b",", 1)) for row in rows.splitlines())


def of_export(runs, name, given, *words):
    """An import: what is wanted is what the program answers when nothing is refused."""
    return Case(f"mdbimport {' '.join(words)} {name}", runs, words, given, runs.answer(words, given))


def export(name):
    """An export of examples/exports/."""
    return (EXAMPLES / "exports" / name).read_bytes()


def in_wide_characters(text):
    """The same text in UTF-16, with its mark."""
    return b"\xff\xfe" + text.decode().encode("utf-16le")


# ---- What may stand on standard output


def is_empty(out, _):
    return not out


def is_front(out, whole):
    return whole.startswith(out)


def is_front_of_lines(out, whole):
    return whole.startswith(out) and out[-1:] in (b"", b"\n")


def is_front_and_refusal(out, whole):
    """A front of the rows, and then the line that ends what is written of a refused export."""
    return out.endswith(REFUSAL) and is_front(out.removesuffix(REFUSAL), whole.removesuffix(REFUSAL))
