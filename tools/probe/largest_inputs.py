"""Hands the program the largest inputs that it takes, and those one beyond, and tells what each
costs.

Each is handed to the program once, from a file: the first line of the answer, how many lines it has
where that is known, and the status must be those that stand there. Prints them with the size of the
input in MB, wall and user seconds and the peak of memory in MiB (not below that of the process that
starts it, about 14). An input that is a plan and a certificate of it comes after the one by which
that was printed, whose name must stand among the names, too. The status is 1 where an answer is
another one. (No part of the gate; it wants 2 GB on the disk, and 3 GB of memory for itself.)
"""

import json
import os
import subprocess
import sys
import tempfile
from dataclasses import dataclass
from typing import Callable

from inputs.days import text as plan_text
from inputs.plans import visits
from shared import front

POINTS = 2000
# How many bounds begin in each point, so that there are 20,000.
BOUNDS_EACH = 10
LONGEST_LINE = 65_536
MOST_INPUT = 1_073_741_824
MOST_DOCUMENT = 67_108_864
# Runs a program once, and tells its wall and user seconds and its own peak of memory.
CHILD = """
import resource, subprocess, sys, time
began = time.monotonic()
done = subprocess.run(sys.argv[1:])
seconds, used = time.monotonic() - began, resource.getrusage(resource.RUSAGE_CHILDREN)
print(seconds, used.ru_utime, used.ru_maxrss, done.returncode, file=sys.stderr)
"""


def text(lines):
    return "".join(f"{line}\n" for line in lines).encode()


def widest(further=()):
    """A plan of as many points and bounds as may be: from each point to the ten after it, in a
    ring. Then further lines."""
    yield "stnu 1"
    yield from (f"point p{i}" for i in range(POINTS))
    yield from (f"bound b{i}.{k} p{i} p{(i + k) % POINTS} 5" for i in range(POINTS) for k in range(1, BOUNDS_EACH + 1))
    yield from further
    yield "end"


def full():
    """A plan whose closure has an edge from each point to each: each point comes after the one
    before, and the last soon after each."""
    last = POINTS - 1
    yield "stnu 1"
    yield from (f"point p{i}" for i in range(POINTS))
    yield from (f"bound after{i} p{i} p{i - 1} -1" for i in range(1, POINTS))
    yield from (f"bound soon{i} p{i} p{last} 5000" for i in range(POINTS))
    yield "end"


def refutation(lines):
    """A plan with a loop, and its refutation of so many lines, of which one would do."""
    begin = text(["stnu 1", "point A", "bound b A A -1", "end", "certificate 1", "refutation"])
    return begin + b"bound b A A -1\n" * (lines - 1) + b"walk 1\nend\n"


def document(bytes_in_all):
    """A plan of the greatest size as a document, with blank lines up to so many bytes, line ends
    left out, those of `end` included."""
    pairs = [(i, k) for i in range(POINTS) for k in range(1, BOUNDS_EACH + 1)]
    ends = {f"b{i}.{k}": (f"p{i}", f"p{(i + k) % POINTS}") for i, k in pairs}
    bounds = [{"name": name, "from": begin, "to": end, "most": 5} for name, (begin, end) in ends.items()]
    value = {"stnu": 1, "points": [f"p{i}" for i in range(POINTS)], "bounds": bounds}
    lines = json.dumps(value, indent=1).encode() + b"\n"
    left = bytes_in_all - len(b"end") - (len(lines) - lines.count(b"\n"))
    blanks = (b" " * LONGEST_LINE + b"\n") * (left // LONGEST_LINE) + b" " * (left % LONGEST_LINE) + b"\n"
    return lines + blanks + b"end\n"


def long_line(size):
    return text(["stnu 1", "#" * size, "end"])


def blank_lines(bytes_in_all):
    """A plan without parts, and blank lines before its end, so many bytes in all."""
    begin, end = b"stnu 1\n", b"end\n"
    return begin + b"\n" * (bytes_in_all - len(begin) - len(end)) + end


@dataclass
class Input:
    """A call: its words, what makes its input, the first line of the answer, where `{lines}` is the
    number of the last line, the status, and how many lines the answer has, None where that is not
    known beforehand. With `after` the input is the plan of the input of that name, and the
    certificate that was answered to it."""

    name: str
    words: list
    made: Callable
    first: str
    status: int
    lines: int = 1
    after: str = ""


def visited():
    return plan_text(visits(POINTS, True))


def broken():
    return plan_text(visits(POINTS, False))


KEPT, NOT_KEPT = "controllable", "not controllable"
DAY = "2,000 points and 800 links"
INPUTS = [
    Input("2,000 points and 20,000 bounds", ["check"], lambda: text(widest()), KEPT, 0),
    Input(
        "the same, and one bound more", ["check"], lambda: text(widest(["bound more p0 p1 5"])),
        "error limit 22002 bounds", 4,
    ),
    Input("a full closure", ["check"], lambda: text(full()), KEPT, 0),
    # Three lines before the order of the points and the edges between them all, and `end`.
    Input(
        "proof of a full closure", ["check", "--proof"], lambda: text(full()), KEPT, 0,
        3 + POINTS + POINTS * POINTS + 1,
    ),
    Input(
        "the proof judged", ["judge"], lambda: text(full()), "accepted controllable", 0,
        after="proof of a full closure",
    ),
    Input(DAY, ["check"], visited, KEPT, 0),
    Input(f"proof of {DAY}", ["check", "--proof"], visited, KEPT, 0, None),
    Input("that proof judged", ["judge"], visited, "accepted controllable", 0, after=f"proof of {DAY}"),
    Input(f"{DAY} that cannot be kept", ["check"], broken, NOT_KEPT, 1, None),
    Input(
        "the refutation judged", ["judge"], broken, "accepted not controllable", 0,
        after=f"{DAY} that cannot be kept",
    ),
    Input(f"strong of {DAY}", ["strong"], visited, "not strongly controllable", 1, None),
    Input(
        "a refutation of 2,000,000 lines", ["judge"], lambda: refutation(2_000_000),
        "accepted not controllable", 0,
    ),
    Input("a document of the greatest size", ["check", "--json"], lambda: document(MOST_DOCUMENT), KEPT, 0),
    Input(
        "a document of one byte more", ["check", "--json"], lambda: document(MOST_DOCUMENT + 1),
        "error limit {lines} json", 4,
    ),
    Input("a line of the greatest length", ["check"], lambda: long_line(LONGEST_LINE), KEPT, 0),
    Input("a line of one byte more", ["check"], lambda: long_line(LONGEST_LINE + 1), "error limit 2 line", 4),
    Input("blank lines up to the greatest input", ["check"], lambda: blank_lines(MOST_INPUT), KEPT, 0),
    Input("one blank line more", ["check"], lambda: blank_lines(MOST_INPUT + 1), "error limit {lines} total", 4),
]


@dataclass
class Cost:
    status: int
    seconds: float
    user: float
    mebibytes: float


def handed(program, words, given, answer):
    """Runs the program over a file, with its answer in another, and tells what that cost."""
    with open(given, "rb") as taken, open(answer, "wb") as put:
        call = [sys.executable, "-c", CHILD, program, *words]
        done = subprocess.run(call, stdin=taken, stdout=put, stderr=subprocess.PIPE, check=True)
    seconds, user, size, status = done.stderr.split()
    return Cost(int(status), float(seconds), float(user), int(size) / 1024)


def write_input(wanted, given, answers):
    """Writes an input to a file, and answers how many lines it has."""
    data = wanted.made()
    if wanted.after:
        with open(answers[wanted.after], "rb") as kept:
            kept.readline()
            data += kept.read()
    with open(given, "wb") as file:
        file.write(data)
    return data.count(b"\n")


def tried(program, folder, wanted, answers):
    """Tries an input; the answers are the files of those to inputs before it, by their names, of
    which that of this one becomes one."""
    given, answer = os.path.join(folder, "given"), os.path.join(folder, f"answer{len(answers)}")
    lines = write_input(wanted, given, answers)
    cost = handed(program, wanted.words, given, answer)
    answers[wanted.name] = answer
    with open(answer, "rb") as file:
        first = file.readline().decode().rstrip("\n")
        count = 1 + sum(1 for _ in file)
    right = (first, cost.status) == (wanted.first.format(lines=lines), wanted.status)
    right = right and wanted.lines in (None, count)
    print(
        f"{'' if right else 'WRONG: '}{wanted.name}: {os.path.getsize(given) / 1e6:.1f} MB in; "
        f"{first}, status {cost.status}; {count} lines, {os.path.getsize(answer) / 1e6:.1f} MB out; "
        f"{cost.seconds:.1f} s, user {cost.user:.1f} s, {cost.mebibytes:.0f} MiB",
        flush=True,
    )
    return right


def words(parser):
    front.program(parser)
    front.names(parser, INPUTS)


def main(given):
    answers = {}
    with tempfile.TemporaryDirectory() as folder:
        wanted = front.chosen(INPUTS, given.names)
        right = [tried(given.program, folder, each, answers) for each in wanted]
    return 0 if all(right) else 1
