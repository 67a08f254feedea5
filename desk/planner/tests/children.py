"""Commands that ask the program without its launcher: in this process, over pipes, at a terminal, ended at any moment."""

import os
import pty
import select
import subprocess
import time

from planner.tests.support import ROOT, planner, program

LAUNCHER = ROOT / "planner"
# So long an answer is waited for before a test fails (seconds).
PATIENCE = 60


def quick():
    """The words by which a command asks the program without its launcher."""
    return ["--program", str(ROOT / program().path)]


def quickly(*words, given=""):
    """Runs a command with these words and this standard input, in this process."""
    return planner(*words, *quick(), given=given)


def words_of(words):
    return [LAUNCHER, *map(str, words), *quick()]


def run(*words, given="", **more):
    """Runs a command to its end."""
    return subprocess.run(words_of(words), input=given, capture_output=True, text=True, check=False, timeout=PATIENCE, **more)


def started(*words, **more):
    """A command that goes on, to be told lines and read from."""
    return subprocess.Popen(words_of(words), stdin=subprocess.PIPE, stdout=subprocess.PIPE, stderr=subprocess.PIPE, text=True, **more)


class Terminal:
    """A command at a terminal, as somebody types to it."""

    def __init__(self, *words):
        self.ours, theirs = pty.openpty()
        self.child = subprocess.Popen(words_of(words), stdin=theirs, stdout=theirs, stderr=theirs, env={**os.environ, "TERM": "dumb"})
        os.close(theirs)
        self.shown = ""

    def until(self, wanted):
        """What is shown up to these words."""
        end = time.monotonic() + PATIENCE
        while wanted not in self.shown:
            if not select.select([self.ours], [], [], max(0, end - time.monotonic()))[0]:
                raise AssertionError(f"{wanted!r} is not shown, but {self.shown!r}")
            try:
                data = os.read(self.ours, 4096)
            except OSError:
                data = b""
            if not data:
                raise AssertionError(f"{wanted!r} is not shown before the end, but {self.shown!r}")
            self.shown += data.decode().replace("\r\n", "\n")
        before, _, self.shown = self.shown.partition(wanted)
        return before + wanted

    def type(self, line, wanted):
        """Types a line, and returns what is shown up to these words."""
        os.write(self.ours, f"{line}\n".encode())
        if line:
            # What is typed is shown first; what the tabulator completes is shown otherwise.
            self.until(line.rstrip("\t"))
        return self.until(wanted)

    def leave(self):
        """Types the line that leaves, and returns the status."""
        os.write(self.ours, b"end\n")
        status = self.child.wait(PATIENCE)
        os.close(self.ours)
        return status

    def __enter__(self):
        return self

    def __exit__(self, *_):
        if self.child.poll() is None:
            self.child.kill()
            self.child.wait()
