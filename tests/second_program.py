"""The second readers in place of the program, for scripts of tests/ that play what they know the truth of.

Second().run(text, *words) answers status, standard output and standard error, as Runs of tests/programs.py does: of
`check` and `replay` by tests/second_replay.py, and of `survey --extended` by tests/second_survey.py. It raises Unread
at a command or an option that is none of theirs.
"""

import contextlib
import io

import second_replay
import second_survey
from programs import Runs


class Unread(Exception):
    """Words that no second reader takes."""


def values_of(words, name):
    """The values of an option that may come several times."""
    pairs = zip(words, [*words[1:], ""])
    return [value for word, value in pairs if word == name] + [
        word.partition("=")[2] for word in words if word.startswith(name + "=")
    ]


def options_of(words):
    """The options of a command line, with nothing said of a bad one."""
    silence = io.StringIO()
    try:
        with contextlib.redirect_stderr(silence), contextlib.redirect_stdout(silence):
            return second_survey.options_of(list(words))
    except SystemExit:
        raise Unread(words)


class Second:
    def run(self, text, *words):
        command, *rest = words
        text = text if isinstance(text, bytes) else text.encode()
        options = options_of(rest)
        if command == "survey" and options.is_extended:
            return second_survey.survey(text, options, no_program)
        if options.is_json or command not in ("check", "replay"):
            raise Unread(words)
        setups = values_of(rest, "--setup")
        if setups and not options.is_joined:
            return 2, "", "mdbcheck: --setup needs --joined\n"
        given = set(options.left_out), options.is_extended
        if command == "replay":
            return second_replay.replay(text, *given)
        return second_replay.check(text, *given, setups if options.is_joined else None)


def no_program(*_):
    """By the extended profile a survey asks the program only what it says of a row that isn't one."""
    return 2, "", "mdbcheck: row 1: no row\n"


def runs_of(program):
    """The runs of a program, or of the second readers if that is its name."""
    return Second() if str(program) == "second" else Runs(program)
