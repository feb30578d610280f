"""The programs under test and their runs, for the scripts of tests/ that are Python.

MDBCHECK and MDBIMPORT of the environment name them, and MDBPAGE the page. Else they are those that
were built last in crates/ and out/ (by tests/run, or by rt run in crates/mdbcheck and
crates/mdbimport, and by page/build), and where none was built, those of release/. tests/programs.sh
says the same for scripts of the shell.
"""

import importlib.machinery
import importlib.util
import multiprocessing
import os
import pathlib

TOP = pathlib.Path(__file__).resolve().parent.parent

# Where a script leaves what failed.
LEFT = pathlib.Path(os.environ.get("LEFT", TOP / "out"))


def program(name):
    """The path of a program."""
    given = os.environ.get(name.upper())
    if given:
        return pathlib.Path(given).resolve()
    built = TOP / "crates" / name / "out" / name
    return built if os.access(built, os.X_OK) else TOP / "release" / name


def page():
    """The path of the page."""
    built = TOP / "out" / "mdbcheck.html"
    return pathlib.Path(os.environ.get("MDBPAGE") or (built if built.exists() else TOP / "release" / built.name)).resolve()


MDBCHECK, MDBIMPORT, PAGE = program("mdbcheck"), program("mdbimport"), page()


def load(name):
    """A script of tests/ as a module: not each has a name that Python could import."""
    loader = importlib.machinery.SourceFileLoader(name, str(TOP / "tests" / name))
    module = importlib.util.module_from_spec(importlib.util.spec_from_loader(name, loader))
    loader.exec_module(module)
    return module


class Alone:
    """A pool of one process: this one. It needs no /dev/shm, which a bare chroot lacks."""

    def __init__(self, begin, words):
        begin(*words)

    def __enter__(self):
        return self

    def __exit__(self, *_):
        pass

    def imap(self, function, jobs, chunksize=1):
        return map(function, jobs)

    imap_unordered = imap


def pool(processes, begin, *words):
    """A pool of so many processes, each of which begins with begin(*words)."""
    return multiprocessing.Pool(processes, begin, words) if processes > 1 else Alone(begin, words)


class Runs:
    """Runs of the program, whose streams are files in memory."""

    def __init__(self, program):
        self.program = program
        self.rows, self.out, self.err = (os.memfd_create(name) for name in ("rows", "out", "err"))
        self.streams = [
            (os.POSIX_SPAWN_DUP2, self.rows, 0),
            (os.POSIX_SPAWN_DUP2, self.out, 1),
            (os.POSIX_SPAWN_DUP2, self.err, 2),
        ]

    def run(self, text, *words):
        """The status, standard output and standard error of a run on a text, or on its bytes."""
        for stream in (self.rows, self.out, self.err):
            os.ftruncate(stream, 0)
        os.pwrite(self.rows, text if isinstance(text, bytes) else text.encode(), 0)
        for stream in (self.rows, self.out, self.err):
            os.lseek(stream, 0, os.SEEK_SET)
        child = os.posix_spawn(self.program, ["mdbcheck", *words], {}, file_actions=self.streams)
        status = os.waitstatus_to_exitcode(os.waitpid(child, 0)[1])
        return status, *(os.pread(s, os.fstat(s).st_size, 0).decode() for s in (self.out, self.err))
