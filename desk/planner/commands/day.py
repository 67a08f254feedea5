"""Executes a plan at a terminal, or by lines of standard input: what is to be done when, told as the day goes.

Each line is on the disk, in a file beside the plan, before it is answered: whatever happens, the same call goes on where the day stood.
A line that is refused is told why, and leaves the day as it stood.

  the day   at MOMENT NAME ..  these points are seen to have come then
            done               no more will come
  besides   undo               takes the last line back
            status             where the day stands
            help, end          the day goes on with the next call

After each line the points to be executed are told, the next moment that is to be told, and which links may end from when until when.
"""

import argparse
from dataclasses import asdict

from planner.drawing.scale import scale_of
from planner.execution import EVENTS, Execution, as_typed, in_numbers, slip_of_event
from planner.faults import Fault, Status, say, told_by_system
from planner.journal import UNDO
from planner.kept import add_words as add_shared
from planner.kept import journal_of, plan_of
from planner.mended import Refused
from planner.options import add_clock
from planner.output import hand_on, tell
from planner.rest import came_before
from planner.slips import slip_of_word
from planner.typed import complete_by, is_terminal, typed

EXAMPLE = """
  planner day examples/rover/plan.stnu --lines today.day
  planner day examples/rover/plan.stnu --lines today.day --json < examples/rover/day.events"""

ENDING = ".day"
WORDS = (*EVENTS, UNDO, "status", "help", "end")


def add_words(parser):
    add_shared(parser, ENDING)
    add_clock(parser)


def words_of_call(args, plan):
    """The words of a call for the day of a plan, with what is common to all commands."""
    common = {name: getattr(args, name) for name in ("program", "delay", "json", "show_calls", "clock")}
    return argparse.Namespace(**common, plan=plan, lines=None, plan_changed=False)


def run(args):
    source = plan_of(args)
    answer = args.program.call(["check"], source)
    if not answer.is_kept:
        said = f"the plan cannot be kept: 'planner why {args.plan}' says why, 'planner repair {args.plan}' what can be done"
        raise Fault(said, Status.NOT_KEPT)
    journal = journal_of(args, "day", ENDING, source)
    day = Day(args, Execution(args.program, source), journal)
    day.play_again()
    complete_by(lambda: [*WORDS, *(link.end for link in day.execution.running())])
    for line in typed():
        day.take(line)
    return day.end()


class Day:
    """A day whose lines are taken as they are told."""

    def __init__(self, args, execution, journal):
        self.args, self.execution, self.journal = args, execution, journal
        self.scale, self.refused = scale_of(args.clock), Refused(lambda: execution.plan.points)

    def play_again(self):
        """Tells again what is kept of the day, and where it stands."""
        lines = self.journal.kept()
        if lines:
            say(f"{self.journal.path}: {len(lines)} line{'' if len(lines) == 1 else 's'} told again")
        if refused := self.execution.play(lines):
            line, told = refused
            slip = slip_of_event(line, told, self.execution, self.scale)
            why = f"'{as_typed(line, self.scale)}' is refused now; the program says: {told.said}; {slip}"
            raise Fault(f"{self.journal.path}: {why}. Is it the day of another plan? --lines FILE begins anew", Status.EVENT)
        self.answer(lines[-1] if lines else "", self.execution.told)

    def take(self, line):
        words = line.split()
        match words:
            case []:
                return
            case [first, *_] if first.startswith("#"):
                self.keep(line)
            case [word] if word.lower() == UNDO:
                self.undo()
            case [word] if word.lower() == "status":
                self.refused.take(line, is_question=True)
                self.answer(line, self.execution.told)
            case [word] if word.lower() == "help":
                for said in __doc__.split("\n\n")[2].split("\n"):
                    tell(said)
            case [word, *rest] if word.lower() in EVENTS:
                self.event(" ".join([word.lower(), *rest]))
            case [word, *_]:
                self.refuse(line, slip_of_word(word, WORDS))

    def event(self, typed):
        """Tells a line as it was typed, in the moments of the plan."""
        line = " ".join(in_numbers(typed.split(), self.scale))
        if self.execution.is_complete:
            self.refuse(typed, "the day is over; 'undo' takes its last line back, 'end' leaves")
            return
        told = self.execution.take(line)
        if told.refused:
            slip = slip_of_event(line, told, self.execution, self.scale)
            self.refuse(typed, f"the program says: {told.said}" + (f"; {slip}" if slip else "") + self.what_then(typed, told))
        elif self.keep(line):
            self.refused.take(typed)
            self.answer(line, told)
        else:
            self.execution.play(self.execution.lines[:-1])

    def what_then(self, line, told):
        """What can be done where the day went another way than its plan."""
        if not told.is_of_another_day:
            return ""
        now, name = line.split()[1], told.why[1]
        clock = f" --clock {self.args.clock}" if self.args.clock else ""
        call = f"planner rest {self.args.plan} {self.journal.path} --now {now} --link {name} LOW HIGH{clock}"
        return f". If the day went so, what is left of it is a new plan: {call}"

    def undo(self):
        lines = self.journal.kept()
        if not lines:
            self.refuse(UNDO, "there is no line to take back")
        elif self.keep(UNDO):
            self.execution.play(lines[:-1])
            self.refused.take(UNDO, is_question=True)
            self.answer(UNDO, self.execution.told, f"taken back: {as_typed(lines[-1], self.scale)}")

    def keep(self, line):
        """Keeps a line in the journal; whether it is on the disk."""
        try:
            self.journal.keep(line)
        except OSError as why:
            self.refuse(line, f"it could not be kept, {told_by_system(why)}; all stands as before")
            return False
        return True

    def answer(self, line, told, note=""):
        if self.args.json:
            hand_on(self.described(line, told))
            return
        if note:
            tell(note)
        before = came_before(self.execution.plan)
        for moment, point in [] if note else told.acts:
            tell(f"at {self.scale.text(moment)}: {point}" + (", as it came before" if point in before else ""))
        tell(self.next(told))

    def next(self, told):
        """What comes next, in a sentence."""
        if told.is_complete:
            return "the day is over: all has come"
        coming = [f"{end} may be seen {window.text(self.scale)}" for end, window in self.execution.coming().items()]
        if told.due is None:
            due = "nothing is due" if coming else "nothing is due any more: 'done' ends the day"
        else:
            due = f"next: at {self.scale.text(told.due)}"
        return "; ".join([due, *coming])

    def described(self, line, told):
        """An answer as a value for programs."""
        return {
            "line": line,
            "taken": True,
            "acts": [{"moment": moment, "point": point} for moment, point in told.acts],
            "due": told.due,
            "coming": {end: asdict(window) for end, window in self.execution.coming().items()},
            "complete": told.is_complete,
        }

    def refuse(self, line, why):
        self.refused.refuse(line)
        if self.args.json:
            hand_on({"line": line, "taken": False, "why": why})
        else:
            say(f"'{line}' is not taken: {why}")

    def end(self):
        if not self.execution.is_complete:
            say(f"the day is not over: its lines are in {self.journal.path}, and the same call goes on with it")
        self.execution.channel.talk.show()
        self.execution.close()
        self.journal.close()
        return Status.EVENT if self.refused and not is_terminal() else Status.KEPT
