"""Counts the threads that the program starts, and sees that they are as many as `--workers` or
`--feeders` says.

Each call is made without a number of workers and with each of WORKERS. Whenever workers share work,
the rows of a round, the test of a closed table or a sweep over shared cells, one thread less than
workers is started; and one less than feeders at each line of events that names a contingent point.
The plans of a fleet are decided by one thread each, whose tables no further thread tests. How often
a call shares work stands beside it, and among how many at most: a worker tests 64 rows at least.
The program is traced (ptrace), and each start of a thread stops it, so none is missed,
however short it lives. Prints what each call started; the status is 1 where that is another number
than it must be, where a call ends with another status than it must, or where an answer is another
one than without a number, and 2 where the program cannot be started or traced. (`examples/run-all`
calls it; for Linux.)
"""

import ctypes
import os
import signal
import sys
import tempfile
from dataclasses import dataclass

from shared import front

TRACE_ME, GO_ON, SET_OPTIONS = 0, 7, 0x4200
TELL_THREADS, END_WITH_TRACER = 0x8, 0x100000
THREAD_STARTED = 3
OF_ANY_KIND = 0x40000000
# The status where the program cannot be traced.
UNTRACED = 2

# The most workers that there may be, and some numbers of them.
MOST = 64
WORKERS = [1, 2, 3, 7, MOST]
POINTS = 460
# Among how many workers the test of the closed table of such a plan is shared.
TESTERS = POINTS // 64


def plan(*further):
    """A plan whose first point comes before all others, of which the first round adds nothing, and
    then further lines."""
    yield "stnu 1"
    yield "point first"
    yield from (f"point p{i}" for i in range(1, POINTS))
    yield from (f"bound after{i} p{i} first -1" for i in range(1, POINTS))
    yield from further
    yield "end"


# A plan of so few points that one worker tests its table; one sweep over shared cells closes it.
FEW = ["stnu 1", "point a", "point b", "point c", "bound ab b a -1", "bound bc c b -1", "end"]

# With this bound the plan cannot be kept, which shows after the first round.
BROKEN = "bound broken first p1 0"

# How many chains of four points the plan below has. A round of so many rows over so many points is
# shared, since the number of rows times that of points is above 20,000 (LITTLE of parallel_rounds);
# and so many are more rows than there can be workers.
CHAINS = 100


def chains():
    """A plan of chains of four points. In the first round edges fall into the second point of each,
    and so the second has a row of each first."""
    yield "stnu 1"
    for i in range(CHAINS):
        yield from (f"point {place}{i}" for place in ["a", "b", "c", "d"])
        yield f"bound ab{i} b{i} a{i} -1"
        yield f"bound bc{i} c{i} b{i} -1"
        yield f"bound cd{i} d{i} c{i} 0"
    yield "end"


# How many links the plan below has. Its table has two rows for the points of each link, and one for its label.
LINKS = 130


def links():
    """A plan of links, each between two points of its own, of which no more is closed than the base."""
    yield "stnu 1"
    for i in range(LINKS):
        yield from [f"point a{i}", f"point c{i}"]
    yield from (f"link a{i} 1 9 c{i}" for i in range(LINKS))
    yield "end"


# How many plans a fleet has.
PLANS = 5


def fleet():
    """A fleet of such plans, each of which is decided alone."""
    yield "fleet 1"
    for i in range(PLANS):
        yield f"plan f{i}"
        yield from plan()
    yield from ["go", "end"]


@dataclass
class Call:
    """The words of a call, the lines of its input, its status, how often work is shared, and among
    how many workers at most; how often it is shared among as many as are asked for, besides; and the
    option that says how many, or the number that there is without one."""

    name: str
    words: list
    lines: list
    status: int
    shared: int
    most: int
    further: int = 0
    option: str = "--workers"
    always: int = 1


# A plan of two links, and lines of a day of it, of which two name points.
TWO_LINKS = ["stnu 1", "point a", "point b", "point c", "link a 1 9 b", "link a 1 9 c", "end"]
TWO_LINKS += ["at 0", "at 1", "at 2 c", "at 3", "at 4 b", "done"]

EDITS = ["set bound after1 -2", "set bound after2 -3"]

CALLS = [
    Call("check", ["check"], [*plan()], 0, 1, TESTERS),
    # The closure is not made, whose table would be tested once more.
    Call("check of links", ["check"], [*links()], 0, 1, 3 * LINKS // 64),
    Call("check --proof", ["check", "--proof"], [*plan()], 0, 1, TESTERS),
    Call("check of a plan that cannot be kept", ["check"], [*plan(BROKEN)], 1, 1, MOST),
    Call("check --engine cells", ["check", "--engine", "cells"], FEW, 0, 1, MOST),
    # A sweep, and the test of its table.
    Call("check --engine cells of many points", ["check", "--engine", "cells"], [*plan()], 0, 1, TESTERS, 1),
    Call("check --engine rounds", ["check", "--engine", "rounds"], FEW, 0, 0, MOST),
    Call("run", ["run"], [*plan(), "done"], 0, 1, TESTERS),
    Call("run of a plan that cannot be kept", ["run"], [*plan(BROKEN)], 1, 1, MOST),
    Call("play", ["play", "longest"], [*plan()], 0, 1, TESTERS),
    # A table of the plan is closed forward, and one with the one number that is tried, which will
    # do; then the closure with that number, which proves it.
    Call("deadline", ["deadline", "p1", "first"], [*plan()], 0, 3, TESTERS),
    # Of the plan with the least number too; and the number below it is refuted by a round.
    Call("deadline and refutation", ["deadline", "first", "p1"], [*plan()], 0, 3, TESTERS, 1),
    Call("deadline of a plan that cannot be kept", ["deadline", "first", "p1"], [*plan(BROKEN)], 1, 1, MOST),
    # The test of the table of which the verdict is told. For the report a round when a session is
    # opened, and one after each edit.
    Call("session", ["session"], [*plan(), *EDITS, "verdict", "report", "end"], 0, 1, TESTERS, 3),
    # Two rounds when it is opened for the report, and one with all rows after the edit.
    Call("session of chains", ["session"], [*chains(), "set bound ab0 -2", "report", "end"], 0, 3, MOST),
    # Of so small a network the rounds after the first are one worker's.
    Call("forge", ["forge", "7", "9"], [], 0, 1, MOST),
    Call("run --feeders", ["run"], TWO_LINKS, 0, 2, MOST, option="--feeders"),
    Call("fleet", ["fleet"], [*fleet()], 0, 1, MOST, option="", always=PLANS),
]


def traced(request, thread, data=0):
    libc = ctypes.CDLL(None, use_errno=True)
    libc.ptrace.argtypes = [ctypes.c_long, ctypes.c_long, ctypes.c_void_p, ctypes.c_void_p]
    libc.ptrace.restype = ctypes.c_long
    if libc.ptrace(request, thread, None, data) < 0:
        raise OSError(ctypes.get_errno(), f"ptrace {request}: {os.strerror(ctypes.get_errno())}")


def begun(words, given, put):
    """The number of a process that runs words over a file and puts into another, and that is
    stopped before its first step."""
    process = os.fork()
    if process == 0:
        try:
            os.dup2(given.fileno(), 0)
            os.dup2(put.fileno(), 1)
            traced(TRACE_ME, 0)
            os.execv(words[0], words)
        finally:
            os._exit(1)
    if not os.WIFSTOPPED(os.waitpid(process, 0)[1]):
        print(f"threads: {words[0]} cannot be started, or not be traced", file=sys.stderr)
        sys.exit(UNTRACED)
    return process


def threads(words, lines):
    """How many threads words start over lines, and with which status and answer they end."""
    with tempfile.TemporaryFile() as given, tempfile.TemporaryFile() as put:
        given.write("".join(f"{line}\n" for line in lines).encode())
        given.seek(0)
        process = begun(words, given, put)
        traced(SET_OPTIONS, process, TELL_THREADS | END_WITH_TRACER)
        traced(GO_ON, process)
        started = 0
        while True:
            thread, status = os.waitpid(-1, OF_ANY_KIND)
            if os.WIFSTOPPED(status):
                started += status >> 16 == THREAD_STARTED
                stop = os.WSTOPSIG(status)
                traced(GO_ON, thread, 0 if stop in (signal.SIGSTOP, signal.SIGTRAP) else stop)
            elif thread == process:
                put.seek(0)
                return started, os.waitstatus_to_exitcode(status), put.read()


def must_start(call, count):
    count = count or call.always
    return (min(count, call.most) - 1) * call.shared + (count - 1) * call.further


def is_right(program, call):
    """Makes a call without a number and with each number of workers; answers whether all is as it
    must be."""
    words = [program, *call.words]
    counts = {None: []} | {count: [call.option, str(count)] for count in WORKERS if call.option}
    found = {count: threads([*words, *option], call.lines) for count, option in counts.items()}
    wrong = [
        count
        for count, (started, status, answer) in found.items()
        if (started, status, answer) != (must_start(call, count), call.status, found[None][2])
    ]
    told = ", ".join(f"{started} by {count or 'no number'}" for count, (started, *_) in found.items())
    must = ", ".join(f"{count or 'no number'}" for count in wrong)
    end = f"; WRONG: {must}" if wrong else ""
    print(f"{call.name}: status {found[None][1]}; threads started: {told}{end}", flush=True)
    return not wrong


def words(parser):
    front.program(parser)
    front.names(parser, CALLS)


def main(given):
    right = [is_right(given.program, call) for call in front.chosen(CALLS, given.names)]
    return 0 if all(right) else 1
