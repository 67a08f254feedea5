"""Measures `check` on plans of growing size, beside plain programs of the same definitions.

The kinds of plans (tools/inputs/plans.py) are measured in one run, each at every number of POINTS:
a chain of bounds without links (chain), drawn days of tasks (tasks), lanes of tasks with links and
bounds across (lanes), plans with many bounds (dense), plans whose entries fall in as many rounds as
there are points (falling), links whose completions must lie close to one another (crossing), links
round one contingent point whose loop goes round others (loops), and a day of tasks of which nature
decides every second duration (day). Of each kind there is one plan that can be kept and one that
cannot.

The plain programs stand in tools/plain, in Rust, and are built by `cargo build --release`: `told`
makes the same rounds by rows that are told what fell, and tells their number and that of the nodes;
`blocks` makes them over dense words, by blocks; `letter` makes the rounds by the letter of their
definition. Three come to the verdict alone: `closing` closes the table without rounds, `forward`
makes a forward closed table, and `morris` is the algorithm of Morris 2014. Of the program and of each plain one it prints
wall and user seconds and the peak of memory (not below that of the process that starts it), of
TRIES the one of fewest user seconds, and how many times the user seconds and the memory of a plain
one the program took; the answers must agree. Then, within this run, how the time grows from the
first number of points to the last. The load of the machine comes first.

With --beside each plan is checked by the program and by an OTHER one, in turn and nine times each,
and by no plain program; it prints of each the least user seconds, and how many times those of the
other one the program took. With --engine each plan is checked by that engine, by 1, 2 and 4
workers, beside the default, and no plain program is run; the answers must agree, or that of the
engine be that it has more keys than shared cells hold.
"""

import sys

from inputs.days import text
from inputs.plans import KINDS
from shared import front
from shared.costs import in_turn, load, run, times
from shared.places import PLAIN, built_plain

IN_TURN = 9


def beside(ran, plain):
    """How the program stands to a plain one."""
    return f"{plain}: {times(ran, plain):.2f} times the user seconds, {ran.size / plain.size:.2f} as large"


def measured(kind, kept, points, given):
    """Measures the program on one plan, and prints it; gives its user seconds."""
    plan = text(KINDS[kind](points, kept))
    ran = run([given.program, "check"], plan)
    head = f"{kind:9} {points:4} points"
    print(f"{head}: {ran.verdict()}, {ran}")
    for way in ("told", "blocks"):
        plain = run([PLAIN, way], plan)
        print(f"{head}: {way} {plain.told}; {beside(ran, plain)}")
        if plain.answer != ran.answer:
            print(f"{head}: THE ANSWERS DIFFER")
    for way in ("closing", "forward", "morris") if given.verdicts else ():
        alone = run([PLAIN, way], plan)
        print(f"{head}: {way} {beside(ran, alone)}")
        if alone.verdict() != ran.verdict():
            print(f"{head}: THE VERDICTS DIFFER")
    if points <= given.letter:
        print(f"{head}: letter {beside(ran, run([PLAIN, 'letter'], plan, 1))}")
    if given.workers:
        many = run([given.program, "check", f"--workers={given.workers}"], plan)
        quicker = f"{ran.seconds / many.seconds:.2f} times as quick as one by the wall"
        print(f"{head}: {given.workers} workers {many}, {quicker}")
    sys.stdout.flush()
    return max(ran.user, 0.01)


def compared(kind, kept, points, given):
    """Checks one plan by both programs in turn, and prints the least user seconds of each."""
    plan = text(KINDS[kind](points, kept))
    ran, other = in_turn([[given.program, "check"], [given.beside, "check"]], plan, IN_TURN)
    head = f"{kind:9} {points:4} points"
    told = f"{ran.verdict()}, {ran}; the other {other}; {times(ran, other):.2f} times the user seconds"
    print(f"{head}: {told}", flush=True)
    if ran.answer != other.answer:
        print(f"{head}: THE ANSWERS DIFFER")


def by_engine(kind, kept, points, given):
    """Measures an engine by some numbers of workers beside the default on one plan, and prints it;
    gives the default's user seconds."""
    plan = text(KINDS[kind](points, kept))
    ran = run([given.program, "check"], plan)
    head = f"{kind:9} {points:4} points"
    print(f"{head}: {ran.verdict()}, {ran}")
    for workers in (1, 2, 4):
        words_of_engine = ["--engine", given.engine, "--workers", str(workers)]
        other = run([given.program, "check", *words_of_engine], plan)
        said = "" if other.answer == ran.answer else f", {other.verdict()}"
        told = f"{given.engine} by {workers} {other}, {times(other, ran):.2f} times the user seconds{said}"
        print(f"{head}: {told}", flush=True)
        if said and not other.verdict().startswith("error limit"):
            print(f"{head}: THE ANSWERS DIFFER")
    return max(ran.user, 0.01)


def words(parser):
    parser.add_argument("--kind", choices=KINDS, help="plans of this kind alone")
    about = "check each plan by one worker and by N workers in turn, too"
    parser.add_argument("--workers", type=int, metavar="N", help=about)
    about = "run the plain program `letter` too, on plans of at most so many points"
    parser.add_argument("--letter", type=int, default=0, metavar="POINTS", help=about)
    about = "run the plain programs too that come to the verdict alone"
    parser.add_argument("--verdicts", action="store_true", help=about)
    about = "another program, such as that of an earlier commit, in place of the plain ones"
    parser.add_argument("--beside", metavar="OTHER", type=front.command, help=about)
    parser.add_argument("--engine", help="this engine beside the default, in place of the plain ones")
    front.program(parser)
    front.numbers(parser, "POINTS", [100, 200], "how many points the plans have")


def main(given):
    if not given.beside and not given.engine:
        built_plain()
    print(load())
    for kind in [given.kind] if given.kind else KINDS:
        for kept in (True, False):
            if given.beside:
                for points in given.points:
                    compared(kind, kept, points, given)
                continue
            way = by_engine if given.engine else measured
            took = [way(kind, kept, points, given) for points in given.points]
            sizes = f"from {given.points[0]} to {given.points[-1]} points"
            print(f"{kind:9} {sizes}: {took[-1] / took[0]:.1f} times as long")
