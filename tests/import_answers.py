"""What the second readers say of an export: the whole answer, as a program has to give it."""

from typing import NamedTuple

import second_edges
import second_import
import second_looks
import second_messages
import second_rows
import second_saleae
import second_vcd
from export_parts import options_of
from second_rows import REFUSED, is_refused


class Whole(NamedTuple):
    """A whole answer."""

    status: int
    out: bytes  # standard output
    err: bytes  # standard error


def rows_answer(text, options, flags):
    words = ("--unit", "--controller", "--peripheral", "--from", "--until")
    return second_rows.read(text, *map(options.get, words), "--decimal" in flags)


def saleae_answer(text, options, flags):
    words = ("--controller", "--peripheral", "--break", "--from", "--until")
    return second_saleae.read(text, *map(options.get, words), "--skip-damaged" in flags)


def sigrok_answer(text, options, flags):
    came = second_import.read(text, "--swap" in flags, "--skip-damaged" in flags)
    if isinstance(came, second_import.Refusal):
        found = second_looks.looks(text, "sigrok") if came.record == 0 else ""
        return second_edges.Answer([], came.record, f"wanted {came.why}", came.time, came.line, 0, 0, set(), False, found=found)
    return second_edges.answer_of(*came, options.get("--from"), options.get("--until"))


def edges_answer(text, options, flags):
    return second_edges.read(
        text, options.get("--controller"), options.get("--peripheral"), options.get("--unit", "s"),
        "--invert" in flags, options.get("--invert-line"), options.get("--from"), options.get("--until"),
        "--skip-damaged" in flags)


def vcd_answer(text, options, flags):
    return second_vcd.read(
        text, options.get("--controller"), options.get("--peripheral"), "--invert" in flags, options.get("--invert-line"),
        options.get("--from"), options.get("--until"), "--skip-damaged" in flags)


def messages_answer(text, options, flags):
    words = ("--unit", "--controller", "--peripheral", "--time-of", "--from", "--until")
    return second_messages.read(text, *map(options.get, words), "--decimal" in flags)


ANSWERS = {"rows": rows_answer, "saleae": saleae_answer, "sigrok": sigrok_answer, "edges": edges_answer,
           "vcd": vcd_answer, "messages": messages_answer}
TOLD = {"rows": second_rows.told, "saleae": second_saleae.told, "edges": second_edges.told,
        "messages": second_messages.told,
        "sigrok": lambda answer: second_edges.told(answer, on=""),
        "vcd": lambda answer: second_edges.told(answer, "line")}


def answer_of(words, text):
    """What the second reader of a format says of a text, with the words of a command line."""
    return ANSWERS[words[0]](text, *options_of(words))


def whole(words, answer):
    """All that has to be written of it."""
    rows = answer.rows + ([REFUSED] if is_refused(answer) else [])
    lines = "".join(f"mdbimport: {line}\n" for line in TOLD[words[0]](answer))
    return Whole(2 if is_refused(answer) else 0, "".join(row + "\n" for row in rows).encode(), lines.encode())
