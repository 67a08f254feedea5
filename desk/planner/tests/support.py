"""What the tests share: the examples, a folder for what they write, and commands run in this process."""

import io
import os
import subprocess
import sys
import tempfile
import unittest
from dataclasses import dataclass
from functools import cache
from pathlib import Path

from planner.front import main
from planner.program import Program

ROOT = Path(__file__).resolve().parents[3]
EXAMPLES = ROOT / "examples"


@dataclass(frozen=True)
class Done:
    """What a command did: its status, and what it printed on standard output and on standard error."""

    status: int
    out: str
    err: str

    @property
    def lines(self):
        return self.out.splitlines()


def stream(data=b""):
    return io.TextIOWrapper(io.BytesIO(data), encoding="utf-8", errors="surrogateescape", newline="\n")


def planner(*words, given=""):
    """Runs a command with these words and this standard input."""
    kept = sys.stdin, sys.stdout, sys.stderr
    sys.stdin, sys.stdout, sys.stderr = stream(given.encode("utf-8", "surrogateescape")), stream(), stream()
    try:
        status = main([str(word) for word in words])
    finally:
        told = []
        for it in (sys.stdout, sys.stderr):
            it.flush()
            told.append(it.buffer.getvalue().decode("utf-8", "surrogateescape"))
        sys.stdin, sys.stdout, sys.stderr = kept
    return Done(status, *told)


def shown_calls(err):
    """The calls that were shown on standard error, where other things may be told too."""
    return [line.removeprefix("$ ") for line in err.splitlines() if line.startswith("$ ")]


def repeated(shown):
    """The status and the answer of a call, or of the last one that was shown, made once more by the shell."""
    call = (shown_calls(shown) or [shown])[-1]
    done = subprocess.run(call, shell=True, stdout=subprocess.PIPE, text=True, check=False, env=os.environ | {"STNU_QUIET": "1"})
    return done.returncode, done.stdout


@cache
def program():
    """The program that the tests ask, without its launcher."""
    return Program.found().quick()


class Case(unittest.TestCase):
    """A test with a folder of its own, which is the working folder while it runs."""

    def setUp(self):
        folder = tempfile.TemporaryDirectory()
        self.addCleanup(folder.cleanup)
        self.addCleanup(os.chdir, os.getcwd())
        os.chdir(folder.name)
        self.folder = Path(folder.name)

    def write(self, name, text):
        """Writes a file into the folder of the test, and returns its path."""
        path = self.folder / name
        path.write_text(text, encoding="utf-8")
        return path
