"""Tells the CPU minutes of a gate by kind and by crate, while another command runs it.

It watches the processes below PID until it is told to end (SIGTERM or SIGINT), or PID is gone, and
then prints how much processor time went into proofs, tests, wrong bodies, programs and the rest,
and which crates took most. The kinds are told by the words of the kit's prover: what is built is a
proof, with `--test` it is the tests of a crate, and what is only checked is a wrong body, or the
check with which these begin. It looks twice a second, so what a process takes after the last look
is missing: some seconds in a hundred.
"""

import os
import signal
import sys
import time
from collections import Counter, namedtuple
from pathlib import Path

EVERY = 0.5
TICKS = os.sysconf("SC_CLK_TCK")
KINDS = ("proofs", "tests", "wrong bodies", "programs", "the rest")
COMPILERS = ("clang", "ld.lld", "rattle-x64", "rattle-link")
MOST_CRATES = 12

Process = namedtuple("Process", "parent begun seconds words")


def process(number):
    """A process as it is, or None if it is gone."""
    folder = Path("/proc", number)
    try:
        fields = (folder / "stat").read_text().rpartition(")")[2].split()
        words = (folder / "cmdline").read_bytes().decode(errors="replace").split("\0")
    except OSError:
        return None
    # From the state on: the parent is the 2nd of these, its own ticks the 12th and 13th, its begin the 20th.
    seconds = (int(fields[11]) + int(fields[12])) / TICKS
    return Process(fields[1], fields[19], seconds, words)


def kind_of(words):
    """The kind of work of a process, and the crate that it is for if that is known."""
    name = os.path.basename(words[0])
    if name in COMPILERS:
        return "programs", None
    if name != "rattle" or "--crate-name" not in words:
        return "the rest", None
    crate = words[words.index("--crate-name") + 1]
    if "--test" in words:
        return "tests", crate
    if words[1] == "build" or "src/main.rt" in words and "-o" in words:
        return ("programs" if "--crate-checked" in words else "proofs"), crate
    return "wrong bodies", crate


class Watch:
    """What the processes below one took so far."""

    def __init__(self, root):
        self.root, self.took = root, {}

    def look(self):
        """Takes in what each process below the root has taken by now. False if the root is gone."""
        found = {it: process(it) for it in os.listdir("/proc") if it.isdigit()}
        found = {number: it for number, it in found.items() if it}
        for number, it in found.items():
            if number != str(os.getpid()) and self.is_below(number, found):
                self.took[number, it.begun] = (self.kind(number, it), it.seconds)
        return self.root in found

    def kind(self, number, it):
        """The kind and the crate of a process. One that is ending has no words left, and keeps what it was."""
        known = self.took.get((number, it.begun))
        return known[0] if known and not any(it.words) else kind_of(it.words)

    def is_below(self, number, found):
        while number in found and number != self.root:
            number = found[number].parent
        return number == self.root

    def told(self):
        """The lines that tell it."""
        kinds, crates = Counter(), Counter()
        for (kind, crate), seconds in self.took.values():
            kinds[kind] += seconds
            if crate:
                crates[crate, kind] += seconds
        yield f"gate: {sum(kinds.values()) / 60:.1f} CPU minutes: " + ", ".join(f"{kind} {kinds[kind] / 60:.1f}" for kind in KINDS)
        sums = Counter()
        for (crate, _), seconds in crates.items():
            sums[crate] += seconds
        for crate, _ in sums.most_common(MOST_CRATES):
            parts = ", ".join(f"{kind} {crates[crate, kind]:.0f}" for kind in KINDS if crates[crate, kind])
            yield f"gate: {crate}: {sums[crate]:.0f} CPU seconds: {parts}"


def words(parser):
    parser.add_argument("pid", metavar="PID", help="the process below which the gate runs, such as $$ of a shell")


def main(given):
    watch, ended = Watch(given.pid), []
    for number in (signal.SIGTERM, signal.SIGINT):
        signal.signal(number, lambda *_: ended.append(True))
    while watch.look() and not ended:
        time.sleep(EVERY)
    for line in watch.told():
        print(line)
    sys.stdout.flush()
