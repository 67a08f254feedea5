"""Has the program edit and execute for long, compares what it answers, and sees that its memory
stays.

First a session of a day of 60 points gets LINES edits and questions: numbers are set near to what
they were at first, and points, bounds and links are added and dropped again some edits later. Every
COMPARED edits its plan is handed to a new `check --proof`, whose answer must be the session's
verdict and proof. Then a session in which bounds are added and none is dropped, of which the growth
is told. Last, a `run` is told ten times LINES moments, one after another, with the completions of
its links at moments that are drawn; each act must come when its cause does. Memory is what the
process holds (VmRSS) when half is done and at the end, and where what is added is dropped the two
must be less than a tenth apart. The status is 1 where something is not as it must be. (No part of
the gate.)
"""

import random
import subprocess
import sys

from inputs.days import day, text
from shared import front
from shared.talk import Talk

POINTS = 60
COMPARED = 1_000
LATER = 20
ADDED = 2_000
LINKS = 30
HELD = "VmRSS"


class Edits:
    """Edits of a plan, of which each that adds is followed by one that drops the same."""

    def __init__(self, lines, draw):
        self.draw = draw
        words = [line.split() for line in lines]
        self.points = [each[1] for each in words if each[0] == "point"]
        self.bounds = [(each[1], int(each[4])) for each in words if each[0] == "bound"]
        self.links = [(each[4], int(each[2]), int(each[3])) for each in words if each[0] == "link"]
        self.to_drop = []
        self.number = 0

    def next(self):
        """The next edit. The later an added thing was added, the sooner it is dropped, so that
        nothing is dropped that is still used."""
        if len(self.to_drop) > LATER or (self.to_drop and self.draw.random() < 0.3):
            return self.to_drop.pop()
        edits = [self.set_bound, self.set_bound, self.set_link, self.add_bound, self.add_point]
        return self.draw.choice(edits)()

    def set_bound(self):
        name, most = self.draw.choice(self.bounds)
        return f"set bound {name} {most + self.draw.randint(-2, 2)}"

    def set_link(self):
        end, low, high = self.draw.choice(self.links)
        return f"set link {end} {low} {max(low, high + self.draw.randint(-3, 3))}"

    def add_bound(self):
        self.number += 1
        first, other = self.draw.sample(self.points, 2)
        self.to_drop.append(f"drop bound x{self.number}")
        return f"add bound x{self.number} {first} {other} {self.draw.randint(0, 2000)}"

    def add_point(self):
        """A point, and in the next edits a link to it or a bound of it."""
        self.number += 1
        name = f"y{self.number}"
        self.to_drop.append(f"drop point {name}")
        if self.draw.random() < 0.5:
            link = f"{self.draw.choice(self.points)} 2 {self.draw.randint(2, 9)} {name}"
            self.to_drop += [f"drop link {name}", f"add link {link}"]
        else:
            bound = f"z{self.number} {name} {self.draw.choice(self.points)} {self.draw.randint(-9, 9)}"
            self.to_drop += [f"drop bound z{self.number}", f"add bound {bound}"]
        return f"add point {name}"


QUESTIONS = {
    "verdict": (),
    "report": (),
    "plan": ("end",),
    "proof": ("end",),
    "table": ("table end", "not controllable"),
}


def opened(program, plan):
    """A session of a plan, that is ready."""
    session = Talk([program, "session"], text(plan))
    session.line()
    return session


def ended(session):
    """Ends a session. Gives its status."""
    session.tell("end")
    return session.close()[0]


def asked(session, question):
    session.tell(question)
    return session.lines_to(*QUESTIONS[question]) if QUESTIONS[question] else [session.line()]


def compared(program, session):
    """Whether a new `check --proof` of the session's plan answers as the session does."""
    plan = "\n".join(asked(session, "plan")) + "\n"
    done = subprocess.run([program, "check", "--proof"], input=plan.encode(), stdout=subprocess.PIPE, check=False)
    return done.stdout.decode() == "\n".join(asked(session, "verdict") + asked(session, "proof")) + "\n"


def is_near(first, other):
    return abs(first - other) < max(first, other) / 10


def edit_long(program, lines, seed):
    draw = random.Random(seed)
    plan = day(POINTS, True)
    edits, session = Edits(plan, draw), opened(program, plan)
    counts, right, half = {}, True, None
    made = 0
    for number in range(1, lines + 1):
        if draw.random() < 0.7:
            made += 1
            answer = session.ask(edits.next())
        else:
            question = draw.choice(list(QUESTIONS))
            answer = f"{question}: {asked(session, question)[0].split()[0]}"
        kind = " ".join(answer.split()[:2])
        counts[kind] = counts.get(kind, 0) + 1
        is_edit = answer.startswith(("ok", "refused"))
        if made % COMPARED == 0 and is_edit and not compared(program, session):
            right = False
            print(f"WRONG after {made} edits: a new check answers otherwise")
        if number == lines // 2:
            half = session.mebibytes(HELD)
    whole = session.mebibytes(HELD)
    status = ended(session)
    near = is_near(half, whole)
    print(
        f"session: {made} edits and {lines - made} questions, {made // COMPARED} comparisons, {session.seconds():.0f} s; "
        f"{half:.1f} MiB at half, {whole:.1f} MiB at the end{'' if near else ', WRONG'}; status {status}"
    )
    print("  answers: " + ", ".join(f"{kind} {count}" for kind, count in sorted(counts.items())))
    return right and near and status == 0


def add_long(program, seed):
    """A session in which nothing is dropped: bounds between drawn points, each lower than all
    before, and none so low that the day cannot be kept."""
    draw = random.Random(seed)
    plan = day(POINTS, True)
    edits, session = Edits(plan, draw), opened(program, plan)
    told = [session.mebibytes(HELD)]
    for number in range(1, ADDED + 1):
        first, other = draw.sample(edits.points, 2)
        if session.ask(f"add bound x{number} {first} {other} {3 * ADDED - number}") != "ok":
            sys.exit("a bound was refused")
        if number % (ADDED // 4) == 0:
            told.append(session.mebibytes(HELD))
    report, verdict = asked(session, "report")[0], asked(session, "verdict")[0]
    status = ended(session)
    sizes = " ".join(f"{size:.1f}" for size in told)
    print(
        f"session, {ADDED} bounds added and none dropped: {session.seconds():.0f} s; "
        f"MiB at first and after each quarter {sizes}; {report}, {verdict}"
    )
    return status == 0 and verdict == "controllable"


def long_day(shortest, longest):
    """Links one after another, each begun within 100 moments after the one before."""
    lines = [f"point {kind}{i}" for i in range(LINKS) for kind in ("begin", "done")]
    lines += [f"link begin{i} {shortest} {longest} done{i}" for i in range(LINKS)]
    for i in range(LINKS - 1):
        lines += [f"bound after{i} begin{i + 1} done{i} 0", f"bound soon{i} done{i} begin{i + 1} 100"]
    return lines


def run_long(program, moments, seed):
    draw = random.Random(seed)
    durations = moments // 50, moments * 3 // 100
    run = Talk([program, "run"], text(long_day(*durations)))
    first = run.lines_to("due")
    right = first == ["controllable", "due 0"]
    completes, half = {}, None
    for moment in range(moments):
        done = completes.pop(moment, None)
        run.tell(f"at {moment}" if done is None else f"at {moment} done{done}")
        acts = run.lines_to("due")[:-1]
        begun = 0 if moment == 0 else None if done is None or done + 1 == LINKS else done + 1
        right = right and acts == ([] if begun is None else [f"act {moment} begin{begun}"])
        if begun is not None:
            completes[moment + draw.randint(*durations)] = begun
        if moment == moments // 2:
            half = run.mebibytes(HELD)
    whole = run.mebibytes(HELD)
    right = right and not completes and run.ask("done") == "complete" and is_near(half, whole)
    status, _ = run.close()
    print(
        f"run: {moments} events, {run.seconds():.0f} s; {half:.1f} MiB at half, {whole:.1f} MiB at the end; "
        f"status {status}{'' if right else ', WRONG'}"
    )
    return right and status == 0


def words(parser):
    front.program(parser)
    about = "how many edits and questions there are (100,000)"
    parser.add_argument("lines", type=int, nargs="?", default=100_000, metavar="LINES", help=about)
    parser.add_argument("seed", type=int, nargs="?", default=1, metavar="SEED", help="what they are drawn from (1)")


def main(given):
    edited = edit_long(given.program, given.lines, given.seed)
    added = add_long(given.program, given.seed)
    ran = run_long(given.program, 10 * given.lines, given.seed)
    return 0 if edited and added and ran else 1
