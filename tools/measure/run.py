"""Measures `run` over pipes, on days of growing size, beside `cat`.

A day of each number of POINTS (20, 100 and 200) has tasks one after another, of which nature
decides every second duration; a clock tells each moment of it, about EVENTS in all. The day is run
in two ways: line by line, where each event is sent when the answer to the one before has come, and
with all events sent at once after the plan was answered. `cat` is given the same lines over the
same kind of pipes in the same run. Prints the time from the start to the first answer (of `cat`, to
the plan's end) and events a second in each way, each beside `cat`; of RUNS the least time.

With --feeders it measures `run --feeders COUNT`, for each COUNT (1, 4 and 64), beside `run` without
feeders: lines a second, all sent at once, of days of which each line names none, 1, 8 or 64 points.
(A thread is started for each feeder but one at each line that names a point.)
"""

import random
import sys
import time
from dataclasses import dataclass

from inputs.days import day, finer, text
from shared import front
from shared.talk import Talk

EVENTS = 5_000
RUNS = 5
PATIENCE = 30
# How many completions a day has at which feeders are measured, and how many each of its lines
# names.
LINES = 384
NAMES = [0, 1, 8, 64]


class Child(Talk):
    """A program that answers a plan, and then each event, by lines of which the last begins with
    one of `lasts`."""

    def __init__(self, command, lasts):
        super().__init__(command)
        self.lasts = lasts

    def answer(self, lasts=None):
        """The lines of an answer, each as its words."""
        lines = []
        while not lines or lines[-1][0] not in (lasts or self.lasts):
            lines.append(self.words())
        return lines


class Nature:
    """The completions of a day, each at its moment."""

    def __init__(self, plan):
        self.draw, self.coming = random.Random(1), {}
        self.links = [line.split()[1:] for line in plan.splitlines() if line.startswith(b"link")]

    def comes(self, point, moment):
        for begin, low, high, end in self.links:
            if begin == point:
                self.coming[end] = moment + self.draw.randint(int(low), int(high))

    def completed(self, moment):
        points = [point for point, when in self.coming.items() if when == moment]
        for point in points:
            del self.coming[point]
            self.comes(point, moment)
        return points


@dataclass
class Measured:
    first: float
    line_by_line: float
    at_once: float

    def beside(self, other, events):
        """In words, each number beside that of another program."""
        each = lambda mine, its: f"{events / mine:,.0f} events a second ({mine / its:.2f} times as long as cat)"
        return (
            f"first answer after {self.first:.4f} s ({self.first / other.first:.2f} times as long as cat); "
            f"line by line {each(self.line_by_line, other.line_by_line)}; at once {each(self.at_once, other.at_once)}"
        )


def events_of(start, plan):
    """The events of a day whose every moment is told."""
    child, nature, events, moment, due = start(), Nature(plan), [], 0, b""
    child.send(plan)
    if child.answer((b"due", b"not"))[0] != [b"controllable"]:
        sys.exit("the day can't be kept")
    while due != b"none" or nature.coming:
        events.append(b" ".join([b"at", b"%d" % moment, *nature.completed(moment)]) + b"\n")
        child.send(events[-1])
        *acts, (_, due) = child.answer()
        for _, when, point in acts:
            nature.comes(point, int(when))
        moment += 1
    child.send(b"done\n")
    child.close()
    return [*events, b"done\n"]


def begun(start, plan):
    """A child that has answered a plan, and the seconds until then."""
    child = start()
    child.send(plan)
    child.answer()
    return child, child.seconds()


def line_by_line(start, plan, events):
    """Seconds to the first answer, and from there to the end."""
    child, first = begun(start, plan)
    for event in events:
        child.send(event)
        child.answer()
    seconds = child.seconds() - first
    child.close()
    return first, seconds


def at_once(start, plan, events):
    """The same."""
    child, first = begun(start, plan)
    sender = child.sending(b"".join(events))
    for _ in events:
        child.answer()
    seconds = child.seconds() - first
    sender.join()
    child.close()
    return first, seconds


def measured(start, plan, events):
    """The least of RUNS, or of fewer where these take longer than PATIENCE seconds."""
    began, runs = time.perf_counter(), []
    while not runs or (len(runs) < RUNS and time.perf_counter() - began < PATIENCE):
        runs.append((line_by_line(start, plan, events), at_once(start, plan, events)))
    return Measured(
        first=min(first for run in runs for first, _ in run),
        line_by_line=min(seconds for (_, seconds), _ in runs),
        at_once=min(seconds for _, (_, seconds) in runs),
    )


def parallel(names):
    """A plan of so many chains of links side by side, each link two moments long at most three, and
    lines of which each ends one of each."""
    width = max(1, names)
    rounds = LINES // width if names else 1
    points = [f"{kind}{i}.{k}" for k in range(rounds) for i in range(width) for kind in "bc"]
    bounds = [f"bound n{i}.{k} b{i}.{k} c{i}.{k - 1} 0" for k in range(1, rounds) for i in range(width)]
    links = [f"link b{i}.{k} 1 3 c{i}.{k}" for k in range(rounds) for i in range(width)]
    plan = "\n".join(["stnu 1", *[f"point {name}" for name in points], *bounds, *links, "end", ""]).replace(".", "-")
    ended = [" ".join(f"c{i}-{k}" for i in reversed(range(width))) for k in range(rounds)]
    if not names:
        return plan.replace(" 1 3 ", f" 1 {2 * LINES} "), [f"at {moment}\n" for moment in range(LINES)]
    return plan, ["at 0\n", *[f"at {2 * k + 2} {line}\n" for k, line in enumerate(ended)]]


def feeders(program, counts):
    """Lines a second by each number of feeders."""
    for names in NAMES:
        plan, lines = parallel(names)
        events = [line.encode() for line in lines]

        def best(*further):
            start = lambda: Child([program, "run", *further], (b"due", b"complete"))
            return min(at_once(start, plan.encode(), events)[1] for _ in range(RUNS))

        without = best()
        said = [f"without {len(events) / without:,.0f}"]
        for count in counts:
            mine = best("--feeders", str(count))
            said.append(f"{count} feeders {len(events) / mine:,.0f} ({mine / without:.2f} times as long)")
        print(f"{len(events)} lines of {names} names, lines a second: {'; '.join(said)}", flush=True)


def words(parser):
    parser.add_argument("--feeders", action="store_true", help="of feeders")
    front.program(parser)
    about = "how many points the days have; with --feeders how many feeders there are"
    parser.add_argument("numbers", type=int, nargs="*", metavar="POINTS|COUNT", help=about)


def main(given):
    if given.feeders:
        feeders(given.program, given.numbers or [1, 4, 64])
        return
    program = lambda: Child([given.program, "run"], (b"due", b"complete"))
    cat = lambda: Child(["cat"], (b"end", b"at", b"done"))
    for points in given.numbers or [20, 100, 200]:
        plan = text(finer(day(points, True), max(1, EVENTS // (9 * points))))
        events = events_of(program, plan)
        mine, its = measured(program, plan, events), measured(cat, plan, events)
        print(f"{points} points, {len(events)} events: {mine.beside(its, len(events))}", flush=True)
