"""A journal: the lines of a day or of a session in a file of their own, each on the disk before it is answered for.

Lines are only added, each whole and by one write, so that a process that is ended at any moment leaves all of them but perhaps the one at
which it was: of that the beginning may stand, without its line end, and it is left out when the journal is opened again. A lock of the
system, which ends with the process, keeps a second process out.
"""

import fcntl
import hashlib
import os
import re
from dataclasses import dataclass
from pathlib import Path

from planner.faults import Fault, Status, say, told_by_system
from planner.output import ENCODING

# The word that takes the last kept line back: it stands in the journal, since nothing in there is ever written over.
UNDO = "undo"
HEAD = re.compile(r"# planner (?P<kind>\w+) 1(, plan (?P<plan>[0-9a-f]{64}))?(, delay (?P<delay>\d+))?")


def sum_of(text):
    """A sum by which a plan is known again."""
    return hashlib.sha256(text.encode(**ENCODING)).hexdigest()


@dataclass(frozen=True)
class Head:
    """What a journal is kept for: the command, the sum of its plan if it has one, and the delay of the call if there is one."""

    kind: str
    plan: str | None = None
    delay: int | None = None

    def __str__(self):
        delay = "" if self.delay is None else f", delay {self.delay}"
        plan = "" if self.plan is None else f", plan {self.plan}"
        return f"# planner {self.kind} 1{plan}{delay}"

    @classmethod
    def of(cls, line):
        """The head that a line is; None where it is none."""
        found = HEAD.fullmatch(line)
        return cls(found["kind"], found["plan"], None if found["delay"] is None else int(found["delay"])) if found else None


def kept(lines):
    """The lines that stand after each `undo` has taken one back; without those that are passed over."""
    standing = []
    for line in lines:
        words = line.split()
        if words == [UNDO]:
            del standing[-1:]
        elif words and not words[0].startswith("#"):
            standing.append(line)
    return standing


class Journal:
    """A journal that this process writes, and no other."""

    def __init__(self, path, head):
        self.path, self.head = Path(path), head
        try:
            self.file = os.open(self.path, os.O_RDWR | os.O_CREAT | os.O_APPEND | os.O_CLOEXEC, 0o666)
        except OSError as why:
            raise Fault(told_by_system(why), Status.WRITE) from why
        self.lock()
        self.size = 0
        self.lines = self.opened()

    def lock(self):
        try:
            fcntl.flock(self.file, fcntl.LOCK_EX | fcntl.LOCK_NB)
        except BlockingIOError as why:
            os.close(self.file)
            raise Fault(f"{self.path} is open in another planner: end that one, or name another file by --lines") from why

    def opened(self):
        """The lines after the head; begins the journal where it is empty."""
        with open(self.path, "rb") as file:
            data = file.read()
        whole = data[: data.rfind(b"\n") + 1]
        first, *lines = whole.decode(**ENCODING).split("\n")[:-1] or [""]
        found = Head.of(first)
        if data and not (found and found.kind == self.head.kind) and not str(self.head).encode().startswith(data):
            os.close(self.file)
            raise Fault(f"{self.path} is no journal of 'planner {self.head.kind}', and nothing is written to it: name another by --lines")
        self.cut(len(whole))
        if whole and data[len(whole) :]:
            say(f"{self.path}: its last line was not whole, and is left out: {data[len(whole):].decode(**ENCODING)!r}")
        if not whole:
            self.begin()
        else:
            self.head = found
        return lines

    def begin(self):
        self.append(str(self.head))
        folder = os.open(self.path.parent, os.O_RDONLY | os.O_DIRECTORY)
        try:
            # So that the file itself is there after the machine has stopped.
            os.fsync(folder)
        finally:
            os.close(folder)

    def cut(self, size):
        """Leaves out what stands after so many bytes."""
        if os.fstat(self.file).st_size > size:
            os.ftruncate(self.file, size)
        self.size = size

    def append(self, *lines):
        """Writes lines, which are on the disk when this returns; if they cannot be written all stands as before, and why is raised."""
        data = "".join(f"{line}\n" for line in lines).encode(**ENCODING)
        try:
            done = 0
            while done < len(data):
                done += os.write(self.file, data[done:])
            os.fsync(self.file)
        except OSError as why:
            self.cut(self.size)
            why.filename = str(self.path)
            raise
        self.size += len(data)

    def keep(self, *lines):
        """Keeps lines, all or none."""
        self.append(*lines)
        self.lines += lines

    def kept(self):
        """The lines that stand."""
        return kept(self.lines)

    def close(self):
        os.close(self.file)


def beside(plan, ending):
    """The path of a file beside that of a plan, with another ending than the plan's own."""
    path = Path(plan)
    return path.with_name(path.stem + ending)
