"""Measures edits of an open session, over pipes, beside opening anew.

A day of each number of POINTS has tasks one after another, of which nature decides every second
duration. In a session of it EDITS random bounds and links are set to other numbers, one edit a
line, and after each the verdict is asked; the same network is given to a new session, and to
`check`, which makes no rounds for a yes. Prints the median milliseconds of an edit with its
verdict, of a new session and of `check`, each beside the first, and then what EDITS_KEPT edits of a
session with 100 points (set, add and drop) leave: nodes at the start, at most and at the end, by
`report`, and MiB of the program.

With --delay the same edits are made in turn in a session with that delay and in one without, of
days with as much more time as completions are seen late; it prints the median and the mean
milliseconds of an edit with its verdict in each, and no more. With --beside the same edits are made
in turn in a session of PROGRAM and in one of an OTHER program, of days that cannot be kept; of the
edits after which the verdict is a no it prints the median milliseconds of an edit with its verdict
in each, the user seconds of all of them, and how many times those of the other one the program
took; and last the user seconds of both sessions.
"""

import random
import statistics
import subprocess
import sys
import time

from inputs.days import day, text
from shared import front
from shared.talk import Talk

EDITS = 40
EDITS_KEPT = 10_000


class Session(Talk):
    def __init__(self, program, plan, further=()):
        super().__init__([program, "session", *further], plan)
        self.line()
        self.opened = self.seconds()

    def end(self):
        """Ends the session. Gives the user seconds that it took."""
        self.tell("end")
        return self.close()[1]


class Plan:
    """The bounds and links of a plan, of which numbers are changed."""

    def __init__(self, lines, draw):
        self.lines, self.draw = [line.split() for line in lines], draw
        self.places = [place for place, words in enumerate(self.lines) if words[0] in ("bound", "link")]

    def text(self):
        return text(" ".join(words) for words in self.lines)

    def edit(self):
        """Sets a bound or a link that is drawn to another number, near to its own."""
        words = self.lines[self.draw.choice(self.places)]
        if words[0] == "bound":
            words[4] = str(int(words[4]) + self.draw.choice([-1, 1]))
            return f"set bound {words[1]} {words[4]}"
        words[3] = str(max(int(words[2]), int(words[3]) + self.draw.choice([-1, 1])))
        return f"set link {words[4]} {words[2]} {words[3]}"


def new_session(program, plan):
    session = Session(program, plan)
    session.end()
    return session.opened


def checked(program, plan):
    began = time.perf_counter()
    subprocess.run([program, "check"], input=plan, stdout=subprocess.DEVNULL, check=False)
    return time.perf_counter() - began


def decided(session, line):
    """Seconds of an edit and its verdict, and the verdict."""
    began = time.perf_counter()
    session.ask(line)
    verdict = session.ask("verdict")
    return time.perf_counter() - began, verdict


def decided_in_user_seconds(session, line):
    """The same, with the user seconds that it took."""
    before = session.user()
    seconds, verdict = decided(session, line)
    return seconds, verdict, session.user() - before


def edited(program, points):
    """A session beside new ones and `check`, of the same networks."""
    plan = Plan(day(points, True), random.Random(points))
    session, edits, anew, checks = Session(program, plan.text()), [], [], []
    for number in range(EDITS):
        edits.append(decided(session, plan.edit())[0])
        if number % 4 == 0:
            anew.append(new_session(program, plan.text()))
            checks.append(checked(program, plan.text()))
    session.end()
    edit, new, check = (statistics.median(times) for times in (edits, anew, checks))
    others = f"a new session {new / edit:.2f} times as long, `check` {check / edit:.2f} times"
    print(f"{points} points: an edit and its verdict {1000 * edit:.1f} ms; {others}", flush=True)


def delayed(program, points, delay):
    """A session with a delay beside one without, of the same plan and edits."""
    plan = Plan(day(points, True, delay), random.Random(points))
    sessions = [Session(program, plan.text(), further) for further in ([], ["--delay", str(delay)])]
    lines = [plan.edit() for _ in range(EDITS)]
    runs = [[decided(session, line) for session in sessions] for line in lines]
    without, late = ([seconds for seconds, _ in run] for run in zip(*runs))
    kept = [sum(verdict == "controllable" for _, verdict in run) for run in zip(*runs)]
    told = lambda times: f"{1000 * statistics.median(times):.1f} ms, in the mean {1000 * statistics.mean(times):.1f}"
    print(
        f"{points} points, {EDITS} edits: without a delay an edit and its verdict {told(without)}, {kept[0]} verdicts a yes; "
        f"with a delay of {delay} {told(late)}, {kept[1]} a yes",
        flush=True,
    )
    for session in sessions:
        session.end()


def beside(program, other, points):
    """A session beside one of another program, of the same edits of a day that cannot be kept."""
    plan = Plan(day(points, False), random.Random(points))
    sessions = [Session(it, plan.text()) for it in (program, other)]
    lines = [plan.edit() for _ in range(EDITS)]
    runs = [[decided_in_user_seconds(session, line) for session in sessions] for line in lines]
    if any(one[1] != other[1] for one, other in runs):
        sys.exit("the verdicts differ")
    refused = [run for run in runs if run[0][1] != "controllable"]
    ours, theirs = (1000 * statistics.median(seconds for seconds, _, _ in edits) for edits in zip(*refused))
    user, user_of_other = (sum(user for _, _, user in edits) for edits in zip(*refused))
    used, used_by_other = (session.end() for session in sessions)
    print(
        f"{points} points, {len(refused)} of {EDITS} edits with a no after them: an edit and its verdict {ours:.1f} ms, "
        f"{ours / theirs:.2f} times the other program's {theirs:.1f} ms; "
        f"user seconds of these edits {user:.2f} and {user_of_other:.2f}, {user / user_of_other:.2f} times; "
        f"of the sessions {used:.2f} and {used_by_other:.2f}",
        flush=True,
    )


def nodes(session):
    """How many nodes the last edit kept and withdrew."""
    words = session.ask("report").split()
    return int(words[1]) + int(words[2])


def keep(program):
    draw = random.Random(1)
    plan = Plan(day(100, True), draw)
    session, counts, added = Session(program, plan.text()), [], []
    began = time.perf_counter()
    for number in range(EDITS_KEPT):
        kind = number % 4
        if kind == 1:
            added.append(f"more{number}")
            first, second = sorted(draw.sample(range(49), 2))
            session.ask(f"add bound {added[-1]} begin{first} begin{second} {draw.randint(500, 2000)}")
        elif kind == 3:
            session.ask(f"drop bound {added.pop()}")
        else:
            session.ask(plan.edit())
        counts.append(nodes(session))
    seconds = time.perf_counter() - began
    print(
        f"{EDITS_KEPT} edits of 100 points in {seconds:.1f} s: {counts[0]} nodes before the first, {max(counts)} at most, "
        f"{counts[-1]} before the last, {session.mebibytes('VmHWM'):.1f} MiB at most"
    )
    session.end()


def words(parser):
    either = parser.add_mutually_exclusive_group()
    either.add_argument("--delay", type=int, metavar="N", help="in sessions with this delay, too")
    about = "in sessions of another program, such as that of an earlier commit, too"
    either.add_argument("--beside", metavar="OTHER", type=front.command, help=about)
    front.program(parser)
    front.numbers(parser, "POINTS", [50, 100, 200, 500], "how many points the days have")


def main(given):
    for points in given.points:
        if given.beside is not None:
            beside(given.program, given.beside, points)
        elif given.delay is None:
            edited(given.program, points)
        else:
            delayed(given.program, points, given.delay)
    if given.delay is None and given.beside is None:
        keep(given.program)
