"""Measures `fleet`: how long `go` takes with 1 and with 4 processors, lines of events a second
beside `run`, and memory.

A fleet of so many PLANS of so many POINTS each has days as tools/inputs/days.py makes them; several
pairs may be given. Prints the seconds from the start to the answer of `go`, with one processor and
with four where there are as many, of RUNS the least; then, where a plan has at most MOST_EXECUTED
points, lines of events a second over all plans, sent at once and line by line, beside one `run` of
one of these plans, measured in turn; and the MiB of the program.
"""

import os
import resource
import time

from inputs.days import day, finer, text
from shared import front
from shared.talk import Talk

RUNS = 3
MOST_EXECUTED = 500
LINES = 20_000
ANSWERED = (b"due", b"idle", b"complete")


def answered(talk, count, ends):
    """Reads answers until so many are over: their last lines have one of these words."""
    while count:
        line = talk.words()
        count -= any(word in line for word in ends)


def opened(program, data, plans, processors):
    """Seconds to the answer of `go`, and the most MiB of the program, on so many processors."""
    cpus = sorted(os.sched_getaffinity(0))[:processors]
    talk = Talk([program, "fleet"], preexec_fn=lambda: os.sched_setaffinity(0, cpus))
    sender = talk.sending(data)
    answered(talk, plans, (b"due", b"not"))
    seconds = talk.seconds()
    sender.join()
    most = talk.mebibytes("VmHWM")
    talk.kill()
    return seconds, most


def rate(command, head, answers, lines, piecewise):
    """Lines a second of one run."""
    talk = Talk(command)
    sender = talk.sending(head)
    answered(talk, answers, (b"due",))
    sender.join()
    began = time.perf_counter()
    if piecewise:
        for line in lines:
            talk.send(line)
            answered(talk, 1, ANSWERED)
    else:
        sender = talk.sending(b"".join(lines))
        answered(talk, len(lines), ANSWERED)
        sender.join()
    seconds = time.perf_counter() - began
    talk.kill()
    return len(lines) / seconds


def executed(command, head, answers, lines):
    """Lines a second, at once and line by line: of RUNS the most."""
    return [max(rate(command, head, answers, lines, piecewise) for _ in range(RUNS)) for piecewise in (False, True)]


def measured(program, plans, points):
    # A unit so fine that the first task is not over before the last line.
    is_executed = points <= MOST_EXECUTED
    plan = text(finer(day(points, True), 4 * LINES if is_executed else 1))
    fleet = b"".join(b"plan v%d\n%s" % (number, plan) for number in range(plans))
    head, told = b"fleet 1\n" + fleet + b"go\n", []
    for processors in (1, 4):
        if len(os.sched_getaffinity(0)) >= processors:
            tries = RUNS if is_executed else 1
            seconds, most = min(opened(program, head, plans, processors) for _ in range(tries))
            told.append(f"{processors} processors {seconds:.3f} s, {most:.0f} MiB")
    print(f"{plans} plans of {points} points, `go`: {'; '.join(told)}", flush=True)
    if is_executed:
        moments = range(LINES // plans)
        lines = [b"v%d at %d\n" % (number, moment) for moment in moments for number in range(plans)]
        once, each = executed([program, "fleet"], head, plans, lines)
        lines = [b"at %d\n" % moment for moment in range(len(lines))]
        once_alone, each_alone = executed([program, "run"], plan, 1, lines)
        at_once = f"at once {once:,.0f}, of `run` alone {once_alone:,.0f}"
        print(f"  lines a second: {at_once}; line by line {each:,.0f} and {each_alone:,.0f}", flush=True)


def words(parser):
    front.program(parser)
    about = "how many plans, and how many points each has (64 of 60)"
    parser.add_argument("pairs", type=int, nargs="*", default=[64, 60], metavar="PLANS POINTS", help=about)


def main(given):
    for plans, points in zip(given.pairs[::2], given.pairs[1::2]):
        measured(given.program, plans, points)
    own = resource.getrusage(resource.RUSAGE_SELF).ru_maxrss / 1024
    print(f"  (of the tool itself {own:.0f} MiB)")
