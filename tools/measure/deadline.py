"""Measures `deadline` beside `check` on plans of one size.

Of each kind of plan (lanes, dense and chain of tools/inputs/plans.py) a plan of N points that can
be kept is asked for the deadline from its first point to its last, and between as many more PAIRS
of points as are drawn. Printed are user seconds of one run each: of `check` of the plan, which
closes a table of it forward once; of `deadline`; of `check --proof` of the plan with the bound at
the least number and of `check` of it at one less, which make its two certificates; and what is left
of `deadline` without these, which is the verdict and each number that was tried, with how many
times `check` that is. The answers must agree: the proof with `check --proof` of the plan with the bound,
and the refutation with `check` of it. The load of the machine comes first.
"""

import random
import subprocess

from inputs.days import text
from inputs.plans import KINDS
from shared import front
from shared.costs import load, used

WANTED = ["lanes", "dense", "chain"]
MOST = 1_000_000_000


def run(command, plan):
    """What a program answers, and in how many user seconds."""
    before = used()[0]
    done = subprocess.run(command, input=plan, stdout=subprocess.PIPE, check=False)
    return done.stdout, used()[0] - before


def with_goal(plan, begin, end, most):
    return plan[: plan.rindex(b"end\n")] + f"bound goal {begin} {end} {most}\nend\n".encode()


def numbers_of(said):
    """The number that was proved and the one that was refuted, where there are such."""
    words = said.split(b"\n", 2)[1].split()
    if words[3] == b"none":
        return None, MOST
    if words[3] == b"at-most":
        return -MOST, None
    return int(words[3]), int(words[3]) - 1


def certificate(program, call, plan):
    """What a call puts after the verdict, and its user seconds."""
    said, seconds = run([program, *call], plan)
    return said.split(b"\n", 1)[1], seconds


def measured(program, head, plan, begin, end, once):
    said, whole = run([program, "deadline", begin, end], plan)
    proved, refuted = numbers_of(said)
    wanted, certifying = b"", 0.0
    for call, number in ([["check", "--proof"], proved], [["check"], refuted]):
        if number is not None:
            cert, seconds = certificate(program, call, with_goal(plan, begin, end, number))
            wanted, certifying = wanted + cert, certifying + seconds
    left = max(whole - certifying, 0.0)
    _, told, certificates = said.split(b"\n", 2)
    parts = f"deadline {whole:.2f} s, its certificates {certifying:.2f} s, the rest {left:.2f} s"
    print(f"{head}: {told.decode()}: {parts}, {left / max(once, 0.01):.1f} times check ({once:.2f} s)", flush=True)
    if certificates != wanted:
        print(f"{head}: THE CERTIFICATES DIFFER")


def words(parser):
    parser.add_argument("--kind", choices=KINDS, help="plans of this kind alone")
    parser.add_argument("--points", type=int, default=500, metavar="N", help="how many points they have (500)")
    parser.add_argument("--pairs", type=int, default=2, metavar="N", help="how many pairs are drawn (2)")
    parser.add_argument("--seed", type=int, default=1, metavar="N", help="what they are drawn from (1)")
    front.program(parser)


def main(given):
    print(load())
    draw = random.Random(given.seed)
    for kind in [given.kind] if given.kind else WANTED:
        lines = KINDS[kind](given.points, True)
        plan, names = text(lines), [line.split()[1] for line in lines if line.startswith("point ")]
        once = min(run([given.program, "check"], plan)[1] for _ in range(3))
        for begin, end in [(names[0], names[-1])] + [draw.sample(names, 2) for _ in range(given.pairs)]:
            measured(given.program, f"{kind:7} {len(names)} points", plan, begin, end, once)
