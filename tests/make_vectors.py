#!/usr/bin/env python3
"""make_vectors.py FILE: writes the worked cases of tests/cases as JSON Lines.

Each line is one case that the program answers as wanted, an object with these members, in this order:

    name      the case's name; no two cases have one
    why       why this is wanted, or ""
    words     the words after the program's name, a list of strings
    input     standard input
    status    the exit status, a number
    output    standard output
    errors    standard error

In input, output and errors each character stands for one byte, the one of its number (Latin-1): the
texts are ASCII, but for a byte order mark and some bytes that are no text. What is wanted was worked
out from the rules in docs/, and never taken from the program. The same cases give the same file.
"""

import json
import pathlib
import sys

sys.dont_write_bytecode = True

from cases import BadCase, all_cases  # noqa: E402


def vector(case):
    """A case as it stands in the file."""
    if case.status is None:
        raise BadCase(f"{case.name}: it has no status")
    return {
        "name": case.name,
        "why": case.why,
        "words": case.words,
        "input": case.input(),
        "status": case.status,
        "output": case.output(),
        "errors": case.errors,
    }


def vectors():
    """The cases that the program answers as wanted, as they stand in the file."""
    return map(vector, all_cases())


def main():
    path = pathlib.Path(sys.argv[1])
    path.parent.mkdir(parents=True, exist_ok=True)
    count = 0
    with path.open("w", encoding="ascii") as file:
        for case in vectors():
            file.write(json.dumps(case) + "\n")
            count += 1
    print(f"{path}: {count} vectors, {path.stat().st_size:,} bytes")


if __name__ == "__main__":
    main()
