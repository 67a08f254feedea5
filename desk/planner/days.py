"""Days of a plan with the moment of each point: as `play` prints them, drawn at random, or as they were printed before."""

import math
import random
from dataclasses import dataclass, replace

from planner.explain import refusal
from planner.faults import Fault, Status
from planner.program import Talk
from planner.reader import nearest

WORDS = ("shortest", "longest")
# The greatest number of a day that `play` takes.
LARGEST_NUMBER = 2**64 - 1


@dataclass(frozen=True)
class Day:
    """A day with its title, the moments of its points by name, the call that gave them, and the words by which it is drawn again."""

    title: str
    moments: dict[str, int]
    call: str | None = None
    again: str = ""


def day_word(word):
    """A word that names a day to `play`."""
    if word in WORDS or (word.isascii() and word.isdigit() and int(word) <= LARGEST_NUMBER and str(int(word)) == word):
        return word
    near = nearest(word, WORDS)
    meant = f"; was '{near}' meant?" if near else ""
    raise Fault(f"'{word}' is no day: a day is shortest, longest or a number up to {LARGEST_NUMBER}, or drawn by --random{meant}")


def count_of(plan):
    """How many days a plan has: each link may last so long as its interval allows, whatever the others do."""
    return math.prod(link.high - link.low + 1 for link in plan.links.values())


def number_of(plan, durations):
    """The number by which `play` knows the day on which links last so: each link counts in as many ones as those before it have days."""
    number, unit = 0, 1
    for end, link in plan.links.items():
        number += unit * (durations[end] - link.low)
        unit *= link.high - link.low + 1
    return number


def drawn(plan, seed, how_many):
    """The durations of the links on so many days, each day as likely as any other; the same for the same seed."""
    source = random.Random(seed)
    for _ in range(how_many):
        yield {end: source.randint(link.low, link.high) for end, link in plan.links.items()}


def unkept():
    return Fault("the plan cannot be kept, so it has no days; 'planner why' tells why", Status.NOT_KEPT)


def moments_of(plan, lines):
    """The moments in what `play` prints of a plan."""
    words = [line.split() for line in lines]
    moments = {name: int(moment) for first, name, moment in (it for it in words if len(it) == 3) if first == "time"}
    if list(moments) != list(plan.points):
        raise Fault("what was played has other points than the plan")
    return moments


def played(program, plan, which, path):
    """The day that this word names, as `play` prints it."""
    answer = program.call(["play", which], plan.source)
    if answer.is_refused:
        raise refusal(plan.source, answer, path)
    if not answer.is_kept:
        raise unkept()
    return Day(f"day {which}" if which.isdigit() else which, moments_of(plan, answer.lines), answer.call, which)


def at_random(program, plan, seed, how_many, path):
    """Days drawn at random."""
    for place, durations in enumerate(drawn(plan, seed, how_many), 1):
        day = day_of(program, plan, durations, f"random {place}, seed {seed}", path)
        yield day if day.again else replace(day, again=f"--random {place} --seed {seed}")


def day_of(program, plan, durations, title, path):
    """The day on which links last so: by its number, or if that is beyond those that `play` takes, executed by `run`."""
    number = number_of(plan, durations)
    if number <= LARGEST_NUMBER:
        return played(program, plan, str(number), path)
    return executed(program, plan, durations, title, path)


def given(plan, text):
    """The days of what `play` printed of this plan, one after another."""
    lines = text.splitlines()
    starts = [place for place, line in enumerate(lines) if line == "controllable"]
    if starts[:1] != [0]:
        raise Fault(f"what was played begins with {lines[0]!r}" if lines else "nothing was played", Status.PLAN)
    for number, (start, stop) in enumerate(zip(starts, [*starts[1:], len(lines)]), 1):
        yield Day("a day" if len(starts) == 1 else f"day {number}", moments_of(plan, lines[start:stop]))


def executed(program, plan, durations, title, path):
    """The day on which links last so, as `run` executes it."""
    with Talk(program, "run", plan.source) as talk:
        said = talk.line()
        if said == "not controllable":
            raise unkept()
        if said != "controllable":
            raise Fault(f"{path}: the program says: {said or 'nothing'}", talk.close() or Status.DEFECT)
        moments = Execution(talk, plan, durations).moments()
        talk.show()
        call = talk.shell()
    return Day(title, {name: moments[name] for name in plan.points}, call)


class Execution:
    """A day that `run` executes, where nature lets the links last as it was drawn."""

    def __init__(self, talk, plan, durations):
        self.talk, self.plan = talk, plan
        self.begun = {}
        for end, link in plan.links.items():
            self.begun.setdefault(link.start, []).append((end, durations[end]))
        # When each link that has begun is seen to be over.
        self.seen = {}
        self.found = {}

    def moments(self):
        """The moments of all points, once the day is over."""
        due = self.answer()
        while due is not None or self.seen:
            moment = min([*self.seen.values(), *([] if due is None else [due])])
            over = [end for end, when in self.seen.items() if when == moment]
            for end in over:
                del self.seen[end]
                self.comes(end, moment - self.plan.delay)
            self.talk.send(" ".join(["at", str(moment), *over]))
            due = self.answer()
        self.talk.send("done")
        self.answer()
        return self.found

    def comes(self, name, moment):
        self.found[name] = moment
        for end, duration in self.begun.get(name, ()):
            self.seen[end] = moment + duration + self.plan.delay

    def answer(self):
        """Takes the acts of an answer, and returns the moment that is due, None where there is none."""
        while True:
            match self.talk.line().split():
                case ["act", moment, name]:
                    self.comes(name, int(moment))
                case ["due", "none"] | ["complete"]:
                    return None
                case ["due", moment]:
                    return int(moment)
                case words:
                    raise Fault(f"the program says: {' '.join(words) or 'nothing'}", self.talk.close() or Status.DEFECT)
