"""Tells what the front for planners costs beside the calls that it spares, in processor time of
each and of what it starts.

The first repair of a plan of 1,000 points beside `check` of it, and `many` on 200 plans beside 200
launches. Each pair is made in turn, three times, and the median of the quotients is told. It wants
the program that `./stnu` runs to be made.
"""

import re
import statistics
import subprocess
import tempfile
from pathlib import Path

from shared.costs import used
from shared.places import ROOT

ROUNDS = 3


def seconds(*call, given=None):
    """The processor seconds of a call and of what it starts."""
    before = used()[1]
    how = {"stdout": subprocess.DEVNULL, "stderr": subprocess.DEVNULL, "check": False}
    subprocess.run(call, stdin=given or subprocess.DEVNULL, **how)
    return used()[1] - before


def checked(plan):
    with open(plan, encoding="utf-8") as text:
        return seconds(ROOT / "stnu", "check", given=text)


def first_repair():
    """Of a plan of 1,000 points: the first repair, and `check`."""
    plan = ROOT / "examples/large/broken.stnu"
    return seconds(ROOT / "planner", "repair", "--first", plan), checked(plan)


def many():
    """Of 200 plans: `many`, and a launch for each."""
    text = (ROOT / "examples/rover/plan.stnu").read_text(encoding="utf-8")
    with tempfile.TemporaryDirectory() as folder:
        plans = [Path(folder) / f"plan-{number:03}.stnu" for number in range(200)]
        for number, plan in enumerate(plans):
            plan.write_text(re.sub("(bound still-warm .*) 60", rf"\1 {45 + number % 20}", text), encoding="utf-8")
        return seconds(ROOT / "planner", "many", folder), sum(map(checked, plans))


PAIRS = {
    "the first repair, beside check": first_repair,
    "many on 200 plans, beside 200 launches": many,
}


def main(_given):
    for what, pair in PAIRS.items():
        told = [pair() for _ in range(ROUNDS)]
        quotient = statistics.median(one / other for one, other in told)
        each = ", ".join(f"{one:.2f} and {other:.2f} s" for one, other in told)
        print(f"{what}: {quotient:.2f} times ({each})")
