"""Measures the figures that docs/PERFORMANCE.md begins with, but for `run`, which `measure run`
measures.

Prints of each call the first line of the answer, wall and user seconds and MiB (not below those of
the process that starts it, about 14), of TRIES the run of fewest user seconds, and of one that
takes more than ten seconds the only one. The plans are those of examples/large, those of
tools/inputs/plans.py of 2,000 points and 800 links, and a forged one of 333 tasks. The load of the
machine comes first.
"""

from inputs.days import text
from inputs.plans import forged, visits
from shared import front
from shared.costs import load, run
from shared.places import EXAMPLES

LARGE = EXAMPLES / "large"
POINTS = 2000


def told(program, what, call, given):
    ran = run([program, *call], given)
    print(f"{' '.join(call)} of {what}: {ran.verdict()}, {ran}", flush=True)
    return ran.answer.partition(b"\n")[2]


def judged(program, what, call, plan):
    """The call, and the judgement of the certificate that it puts."""
    certificate = told(program, what, call, plan)
    lines = certificate.count(b"\n")
    told(program, f"{what}, its certificate of {lines:,} lines", ["judge"], plan + certificate)


def words(parser):
    front.program(parser)


def main(given):
    program = given.program
    print(load())
    for name in ("day", "kept"):
        told(program, f"large/{name}.stnu", ["check"], (LARGE / f"{name}.stnu").read_bytes())
    judged(program, "large/broken.stnu", ["check"], (LARGE / "broken.stnu").read_bytes())
    told(program, "a forged plan of 333 tasks", ["play", "longest"], text(forged(9, 333, 0)))
    kept, broken = (text(visits(POINTS, is_kept)) for is_kept in (True, False))
    what = f"{POINTS:,} points and 800 links"
    told(program, what, ["check"], kept)
    told(program, what, ["strong"], kept)
    judged(program, what, ["check", "--proof"], kept)
    judged(program, f"{what} that cannot be kept", ["check"], broken)
