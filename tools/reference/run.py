"""`run` once more, by the rules of docs/FORMAT.md and docs/DEFINITIONS.md.

It takes a plan and events, and answers each line before it reads the next. `run_in_order` is `run`
with feeders, of whatever number: what it feeds is what a line names, in the order of the numbers of
its points. Time runs as it is defined, moment by moment; only where more than STEPPED moments lie
ahead are those passed over at which nothing is due.
"""

import sys

from reference.check import rounds_of
from reference.lines import Fault, Refused, Answer, delay_word, name_of, put_lines, talk, values_of
from reference.plan_text import read_plan

STEPPED = 10_000


class Execution:
    """The execution of a network by its lower bounds and waits. Points and links go by their
    numbers."""

    def __init__(self, rounds):
        plan = rounds.plan
        self.points, self.links, self.link_to = plan.points, plan.links, rounds.link_to
        self.numbers = {name: number for number, name in enumerate(plan.points)}
        self.moments = [None] * len(plan.points)
        self.last = None
        self.lower_bounds = [[] for _ in plan.points]
        self.waits = [[] for _ in plan.points]
        for target, source, label in rounds.newest:
            weight = rounds.weight((target, source, label))
            if weight < 0 and source not in self.link_to:
                conditions, other = (self.lower_bounds, target) if label < 0 else (self.waits, label)
                conditions[source].append((other, -weight))

    def next_moment(self):
        return 0 if self.last is None else self.last + 1

    def has_gone_by(self, moments, point, at):
        return self.moments[point] is not None and self.moments[point] + moments <= at

    def is_met(self, wait, at):
        link, moments = wait
        activation, _, _, contingent = self.links[link]
        if self.moments[activation] is None:
            return False
        return self.moments[contingent] is not None or self.has_gone_by(moments, activation, at)

    def is_due(self, point, at):
        if point in self.link_to or self.moments[point] is not None:
            return False
        bounds, waits = self.lower_bounds[point], self.waits[point]
        return all(self.has_gone_by(n, other, at) for other, n in bounds) and all(self.is_met(wait, at) for wait in waits)

    def act(self, at):
        """The acts of a moment, by the number of the point."""
        due = [point for point in range(len(self.points)) if self.is_due(point, at)]
        for point in due:
            self.moments[point] = at
        return [(at, point) for point in due]

    def asked(self, point):
        """The first moment that meets what a point waits for if nothing completes before, or None
        where none is known yet."""
        moments = [0]
        for other, n in self.lower_bounds[point]:
            if self.moments[other] is None:
                return None
            moments.append(self.moments[other] + n)
        for link, n in self.waits[point]:
            activation, _, _, contingent = self.links[link]
            if self.moments[activation] is None:
                return None
            over = self.moments[activation] + n
            moments.append(over if self.moments[contingent] is None else min(over, self.moments[contingent]))
        return max(moments)

    def next_due(self):
        open_points = [p for p in range(len(self.points)) if p not in self.link_to and self.moments[p] is None]
        return min((self.asked(p) for p in open_points if self.asked(p) is not None), default=None)

    def run_until(self, moment):
        """The acts from the next moment to the one before this, while nothing completes."""
        acts, at = [], self.next_moment()
        while at < moment:
            if moment - at > STEPPED:
                due = self.next_due()
                at = moment if due is None else min(max(at, due), moment)
            if at < moment:
                acts += self.act(at)
                at += 1
        return acts

    def take(self, point, moment):
        """One completion of a moment, or why it is refused."""
        name = self.points[point]
        if point not in self.link_to:
            raise Refused("not-contingent", name)
        if self.moments[point] is not None:
            raise Refused("twice", name, self.moments[point])
        activation, low, high, _ = self.links[self.link_to[point]]
        began = self.moments[activation]
        if began is None or began >= moment:
            raise Refused("not-active", name)
        if moment < began + low:
            raise Refused("too-soon", name, began + low)
        if moment > began + high:
            raise Refused("overdue", name, began + high)
        self.moments[point] = moment

    def feed(self, moment, listed):
        """The acts up to a moment with its completions, or why the feed is refused."""
        if self.last is not None and moment <= self.last:
            raise Refused("not-later", self.last)
        acts = self.run_until(moment)
        for point in listed:
            self.take(point, moment)
        for point in sorted(self.link_to):
            activation, _, high, _ = self.links[self.link_to[point]]
            began = self.moments[activation]
            if self.moments[point] is None and began is not None and began + high <= moment:
                raise Refused("overdue", self.points[point], began + high)
        acts += self.act(moment)
        self.last = moment
        return acts

    def finish(self):
        """All acts that remain, or why it is not the end yet."""
        for point in sorted(self.link_to):
            if self.moments[point] is None:
                raise Refused("unfinished", self.points[point])
        acts = []
        while None in self.moments:
            acts += self.run_until(self.next_due() + 1)
            self.last = acts[-1][0]
        return acts


def point_of(word, numbers):
    name = name_of(word)
    if name not in numbers:
        raise Fault("unknown-name")
    return numbers[name]


def read_event(words, numbers):
    """A moment and the points completed at it; no moment for `done`."""
    if words[0] not in (b"at", b"done"):
        raise Fault("unknown-word")
    if (words[0] == b"at") == (len(words) == 1):
        raise Fault("word-count")
    if words[0] == b"done":
        return None, []
    (moment,) = values_of("M", words[1:2])
    return moment, [point_of(word, numbers) for word in words[2:]]


def answer_to(execution, words, line, in_order=False):
    """The lines of the answer to an event in a line, the last of which ends the run where it is
    `complete`. The points that it names are taken in the order of their numbers where that is asked
    for."""
    try:
        moment, listed = read_event(words, execution.numbers)
        if in_order:
            listed.sort()
        acts = execution.finish() if moment is None else execution.feed(moment, listed)
    except Fault as fault:
        raise fault.at(line) from None
    except Refused as why:
        raise Answer(7, "error event", line, why) from None
    told = [f"act {at} {execution.points[point]}" for at, point in acts]
    return [*told, "complete" if moment is None else due(execution)]


def due(execution):
    moment = execution.next_due()
    return "due none" if moment is None else f"due {moment}"


def begun(rounds):
    """An execution, and the answer to its plan."""
    execution = Execution(rounds)
    return execution, ["controllable", due(execution)]


def execute(rounds, lines, put, in_order=False):
    """Answers the plan of these rounds, and then the lines of events. Gives the status."""
    execution, answer = begun(rounds)
    while answer[-1] != "complete":
        put(answer)
        words = lines.wanted()
        answer = answer_to(execution, words, lines.number, in_order)
    put(answer)
    return 0


def run_in_order(stream, put, delay=None):
    return run(stream, put, delay, in_order=True)


def run(stream, put, delay=None, in_order=False):
    """Puts the answer of each line of a stream before it takes the next, and returns the status."""

    def answers(lines, put):
        read_plan(lines)
        rounds, cycle, _ = rounds_of(lines.text(), delay)
        if cycle is not None:
            put(rounds.refutation(cycle))
            return 1
        return execute(rounds, lines, put, in_order)

    return talk(answers, stream, put)


def words(parser):
    delay_word(parser)


def main(given):
    return run(sys.stdin.buffer, put_lines, given.delay)
