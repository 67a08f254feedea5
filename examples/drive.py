#!/usr/bin/env python3
"""Drives a simulated day by `stnu run`.

Nature's durations are drawn from a seed. Prints what comes at which moment. Status: 0 where every bound and every link of the plan is kept
in the end, 1 where not or where the plan cannot be kept, 2 for wrong words or a file that cannot be read, else the program's own.
"""

import argparse
import random
import sys
from pathlib import Path

# This file is read by older versions of Python too, so that they can say what is wanted.
if sys.version_info < (3, 10):
    sys.exit("drive.py: Python 3.10 or later is needed, and this is %d.%d" % sys.version_info[:2])
sys.path.insert(0, str(Path(__file__).resolve().parent.parent / "desk"))
from planner.explain import refusal  # noqa: E402 (the path comes first)
from planner.faults import Fault, ended  # noqa: E402 (the path comes first)
from planner.plan import Plan, load  # noqa: E402 (the path comes first)
from planner.program import Program, Talk  # noqa: E402 (the path comes first)


class Dispatcher(Talk):
    """A run of the program, over two pipes."""

    def answer(self):
        """The acts of the answer to what was sent, and the moment that is due, or None."""
        acts = []
        while True:
            words = self.line().split()
            if words[:1] == ["act"]:
                acts.append((int(words[1]), words[2]))
            elif words in (["due", "none"], ["complete"]):
                return acts, None
            elif words[:1] == ["due"]:
                return acts, int(words[1])
            elif words != ["controllable"]:
                # An event is refused, or the program has ended: from here on nothing is promised, and somebody has to decide.
                raise Fault(f"the program says: {' '.join(words) or 'nothing'}", self.close())

    def tell(self, moment, completed):
        """Tells that it is this moment, and what completes at it."""
        self.send(" ".join(["at", str(moment), *completed]))
        return self.answer()


class Day:
    """What has come at which moment, and what nature will let come at which: that is what no driver knows."""

    def __init__(self, plan, seed):
        self.plan, self.draw = plan, random.Random(seed)
        self.schedule, self.coming = {}, {}

    def comes(self, moment, point):
        """A point is executed, or completes. Each link that begins in it has begun; that it has ended is shown by the plan's delay later."""
        print(f"{moment:6} {point}", flush=True)
        self.schedule[point] = moment
        for end, link in self.plan.links.items():
            if link.start == point:
                self.coming[end] = moment + self.draw.randint(link.low, link.high) + self.plan.delay

    def broken(self):
        """The points that have not come; else the bounds and links that are not kept."""
        came, plan = self.schedule, self.plan
        bounds = [(name, it.start, it.end, -sys.maxsize, it.most) for name, it in plan.bounds.items()]
        links = [(end, it.start, end, it.low, it.high) for end, it in plan.links.items()]
        missing = [point for point in plan.points if point not in came]
        return missing or [name for name, start, end, low, high in bounds + links if not low <= came[end] - came[start] <= high]


def drive(dispatcher, day):
    _, due = dispatcher.answer()
    while due is not None or day.coming:
        # What is next: the moment at which the program executes a point if nothing is shown before, or a completion that is. A
        # driver in the world sleeps until the moment that is due, and wakes up when something completes. It tells the moment in both
        # cases, since the acts of a moment come when it is told; and all completions of it in one line, since it is told once.
        moment = min([*day.coming.values(), *([] if due is None else [due])])
        completed = [point for point, when in day.coming.items() if when == moment]
        acts, due = dispatcher.tell(moment, completed)
        for point in completed:
            del day.coming[point]
            day.comes(moment - day.plan.delay, point)
        for when, point in acts:
            # Here a driver in the world starts what the point stands for.
            day.comes(when, point)
    dispatcher.send("done")


def main():
    parser = argparse.ArgumentParser(description=__doc__, formatter_class=argparse.RawDescriptionHelpFormatter)
    parser.add_argument("stnu", help="the program, such as ./stnu")
    parser.add_argument("plan", help="the file of a plan, a plan text or a JSON document")
    parser.add_argument("--delay", type=int, metavar="N", help="how late completions are seen, whatever the plan says")
    parser.add_argument("seed", nargs="?", type=int, default=1, help="from which nature's durations are drawn (1)")
    words = parser.parse_intermixed_args()
    source, program = load(words.plan, words.delay), Program(words.stnu)
    checked = program.call(["check"], source)
    if checked.is_refused:
        raise refusal(source, checked, words.plan)
    if not checked.is_kept:
        print("the plan cannot be kept; 'planner why' says why")
        return 1
    day = Day(Plan.of(source), words.seed)
    with Dispatcher(program, "run", source) as dispatcher:
        drive(dispatcher, day)
    broken = day.broken()
    print(f"not kept: {' '.join(broken)}" if broken else "every bound and link is kept")
    return 1 if broken else 0


if __name__ == "__main__":
    sys.exit(ended(main))
