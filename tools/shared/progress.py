"""How far a long work is, told on standard error.

On a terminal that is one line that moves, else a line every ten seconds; nothing if STNU_QUIET is
1. It says what is done, of how much, and how long the whole took when it was done last.
"""

import os
import sys
import threading
import time
from pathlib import Path

from shared.making import BEFORE_SAYING, read, write

# So often a line is told, in seconds: where it moves, and where it does not.
MOVES, STANDS = 0.5, 10


def is_quiet():
    return os.environ.get("STNU_QUIET") == "1"


class Progress:
    """A work of several steps, which is told of from `with` on until that ends."""

    def __init__(self, what, note, usual, steps="steps"):
        """`what` is done, in `steps`; the file `note` keeps how many seconds that took last, and
        `usual` says how long it takes where there is none."""
        self.what, self.note, self.steps = what, Path(note), steps
        last = read(note).strip()
        self.expected = f"the last took {last} s" if last.isdecimal() else usual
        self.done, self.whole, self.step = 0, 1, ""
        self.moves = sys.stderr.isatty()
        self.ended = threading.Event()
        self.width = 0

    def __enter__(self):
        self.began = time.monotonic()
        self.teller = threading.Thread(target=self.tell_until_end, daemon=True)
        if not is_quiet():
            BEFORE_SAYING.append(self.clear)
            self.teller.start()
        return self

    def __exit__(self, *_):
        self.ended.set()
        if not is_quiet():
            self.teller.join()
            BEFORE_SAYING.remove(self.clear)
            self.clear()

    def seconds(self):
        return time.monotonic() - self.began

    def at(self, done, whole, step):
        """Notes that so much of the whole is done, and what is under way."""
        self.done, self.whole, self.step = done, whole, step

    def keep(self):
        """Notes how long the whole took, for the next time."""
        self.note.parent.mkdir(parents=True, exist_ok=True)
        write(self.note, f"{self.seconds():.0f}\n")

    def line(self):
        under_way = f", {self.step}" if self.step else ""
        done = f"{self.done} of {self.whole} {self.steps} done"
        return f"stnu: {self.what}, {self.seconds():.0f} s ({self.expected}): {done}{under_way}"

    def tell_until_end(self):
        while not self.ended.wait(MOVES if self.moves else STANDS):
            text = self.line()
            if self.moves:
                text = text[: max(20, columns() - 1)]
                sys.stderr.write("\r" + text.ljust(self.width))
                self.width = len(text)
            else:
                sys.stderr.write(text + "\n")
            sys.stderr.flush()

    def clear(self):
        """Takes the line away that moves, so that another one can stand there."""
        if self.width:
            sys.stderr.write("\r" + " " * self.width + "\r")
            sys.stderr.flush()
            self.width = 0


def columns():
    try:
        return os.get_terminal_size(sys.stderr.fileno()).columns or 80
    except OSError:
        return 80
