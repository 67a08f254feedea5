"""Lines that were refused, and whether they were mended: told again as they were meant, before anything else was told."""

import difflib
import re
from collections import Counter

from planner.reader import WHOLE
from planner.slips import short

# Two words that are so much alike may be one, and a slip of it.
ALIKE = 0.6
DIGITS = re.compile("[0-9]+")


class Refused:
    """The lines that were refused and not mended. Questions, and lines that are taken back, may stand between such a line and the one that
    mends it."""

    def __init__(self, names):
        """With a function that gives the names that are none's slips."""
        self.names = names
        # Those since the last line that was taken, and those before it.
        self.open, self.lost = [], []

    def __bool__(self):
        return bool(self.open or self.lost)

    def refuse(self, line):
        self.open.append(line)

    def take(self, line, is_question=False):
        """Notes that a line was taken, by which those are mended that were meant so."""
        names = frozenset(self.names()) if self.open else ()
        self.open = [it for it in self.open if not mends(line, it, names)]
        self.lost = [it for it in self.lost if it.split() != line.split()]
        if not is_question:
            self.lost += self.open
            self.open = []


def mends(line, slip, names=()):
    """Whether a line is what was meant by another: with words more or one less, with a number or a word that is alike in the place of one
    that is no name, or with other names at the same moment."""
    new, old = line.split(), slip.split()
    added, removed = (list((Counter(one) - Counter(other)).elements()) for one, other in ((new, old), (old, new)))
    if not removed or (not added and len(removed) == 1):
        return True
    if event(new) and event(new) == event(old):
        return True
    return len(removed) == 1 and len(added) <= 2 and any(is_alike(word, removed[0], names) for word in added)


def is_alike(word, slip, names):
    """Whether a word may be what was meant by another."""
    if WHOLE.fullmatch(word):
        return slip[:1] in "+-0123456789" or not slip.isascii()
    if slip in names:
        # (a bound of a line `between`, of which the name alone was told)
        return word.startswith(f"{slip}.")
    if DIGITS.sub("", word) == DIGITS.sub("", slip) and short(word) != short(slip):
        # (two things that are numbered)
        return False
    return difflib.SequenceMatcher(None, word.lower(), slip.lower()).ratio() >= ALIKE


def event(words):
    """The words of an event up to its moment, with the name of its vehicle where there is one; none of another line."""
    place = words.index("at") + 2 if "at" in words[:2] else 0
    return words[:place] if place and len(words) >= place else []
