"""Finds what can be changed of a plan that cannot be kept, so that it can: bounds, links, or the delay, as little as is enough."""

import re
from dataclasses import dataclass
from enum import Enum

from planner.parts import LARGEST, Kind

# So end the names of bounds that tell what has come already, and that nothing comes before now.
OF_THE_PAST = re.compile(r"\.(came|from-now)(\.\d+)?(\.(min|max))?\Z")
FROM_NOW = re.compile(r"\.from-now(\.\d+)?\Z")
# Of an interval that must be narrowed at both ends so many lengths are tried.
LENGTHS = 64
# So many bounds are changed together at the most, and so many sets are told.
MOST_TOGETHER, MOST_SETS = 6, 5


class Sort(str, Enum):
    """What a repair changes."""

    BOUND = "bound"
    DELAY = "delay"
    LINK = "link"
    SET = "set"


@dataclass(frozen=True)
class Change:
    """A bound, a link or the delay with its old and its new number, or interval."""

    name: str
    line: int | None
    old: int | tuple[int, int]
    new: int | tuple[int, int]


@dataclass(frozen=True)
class Repair:
    """Changes that are enough together, and the numbers of the plan with them."""

    sort: Sort
    changes: tuple[Change, ...]
    numbers: object


class Permits:
    """Which bounds, links and delay of a plan may be changed, and how far bounds may be loosened."""

    def __init__(self, plan, fixed=(), among=()):
        self.plan = plan
        self.fixed = frozenset(fixed) | plan.held
        self.among = list(among)

    def limit(self, name):
        """Up to which number a bound may be loosened: a lower bound stays one, so that no order is reversed."""
        bound = self.plan.bounds[name]
        if self.is_fixed(name) or OF_THE_PAST.search(name) or bound.start == bound.end:
            return bound.most
        return 0 if bound.most <= 0 else LARGEST

    def is_loosenable(self, name):
        is_meant = not self.among or name in self.among or self.plan.name_on_line(name) in self.among
        return is_meant and self.limit(name) > self.plan.bounds[name].most

    def is_fixed(self, name):
        return name in self.fixed or self.plan.name_on_line(name) in self.fixed

    def reason(self, name):
        """Why a bound is not loosened, or not far enough."""
        most = self.plan.bounds[name].most
        if self.is_fixed(name):
            return "fixed"
        if OF_THE_PAST.search(name):
            return "the past"
        if not self.is_loosenable(name):
            return "an order" if most == 0 else "not among"
        return "not beyond 0: an order" if most < 0 else "not enough"

    def may_narrow(self, end):
        return not self.among and end not in self.fixed

    def may_see_sooner(self):
        return self.plan.delay > 0 and not self.among and "delay" not in self.fixed

    def place(self, name):
        """The place of a bound in the order in which bounds are changed together: that of the call, else that of the plan."""
        called = (place for place, given in enumerate(self.among) if given in (name, self.plan.name_on_line(name)))
        return next(called, len(self.among)), self.plan.line(name)


class Repairs:
    """The repairs of a plan, one after another as they are found."""

    def __init__(self, trials, permits, progress):
        self.trials, self.permits, self.progress = trials, permits, progress
        self.plan, self.base = trials.plan, trials.base

    def all(self):
        """All repairs: single bounds, the delay, sets of bounds if no bound alone is enough, and links."""
        singles = 0
        for repair in self.bounds():
            singles += 1
            yield repair
        yield from self.delay()
        if not singles:
            yield from self.sets()
        yield from self.links()

    def loosenable(self, refutation):
        """The bounds of a refutation that may be loosened."""
        return frozenset(filter(self.permits.is_loosenable, refutation.bounds))

    def likeliest(self, refutation):
        """The bounds of a refutation that may be loosened: upper ones first, and those that count most in it."""
        uses = refutation.uses(self.base)
        return sorted(self.loosenable(refutation), key=lambda name: (self.base.most[name] <= 0, -uses.get(name, 0), self.plan.line(name)))

    def bounds(self):
        """Each bound that alone is enough, with the least number."""
        names = self.likeliest(self.trials.refutations[0])
        for tried, name in enumerate(names):
            self.progress.doing = f"{tried} of {len(names)} bounds tried"
            number = self.trials.loosened(name, self.permits.limit(name))
            if number is not None:
                yield self.repair(Sort.BOUND, {name: number})

    def delay(self):
        """The greatest delay with which the plan can be kept."""
        if self.permits.may_see_sooner():
            self.progress.doing = "smaller delays are tried"
            delay = self.base.delay
            less = self.trials.least(lambda amount: self.base.other(delay=delay - amount), delay)
            if less is not None:
                given = "--delay" in self.plan.source.words
                line = None if given else next(it.line for it in self.plan.statements if it.kind == Kind.DELAY)
                change = Change("delay", line, delay, delay - less)
                yield Repair(Sort.DELAY, (change,), self.base.other(delay=delay - less))

    def links(self):
        """Each link that alone is enough, with an interval to which it must be narrowed, which cannot be widened then."""
        ends = [end for end in self.trials.refutations[0].links if self.permits.may_narrow(end)]
        for tried, end in enumerate(ends):
            self.progress.doing = f"{tried} of {len(ends)} links tried"
            for span in self.narrowed(end):
                change = Change(end, self.plan.line(end), self.base.spans[end], span)
                yield Repair(Sort.LINK, (change,), self.base.other(spans={end: span}))

    def narrowed(self, end):
        """The intervals of a link with its shortest duration as it is, and with its longest; if neither is enough, one with two others."""
        low, high = self.base.spans[end]
        less = self.least_span(lambda amount: (low, high - amount), end, high - low)
        more = self.least_span(lambda amount: (low + amount, high), end, high - low)
        if less or more:
            return [(low, high - (less or 0)), (low + (more or 0), high)][not less : 1 + bool(more)]
        for length in range(low + 1, high, max(1, -(-(high - low) // LENGTHS))):
            if self.trials.keeps(self.base.other(spans={end: (length, length)})):
                top = high - self.least_span(lambda amount, length=length: (length, high - amount), end, high - length)
                return [(low + self.least_span(lambda amount, top=top: (low + amount, top), end, length - low), top)]
        return []

    def least_span(self, interval, end, limit):
        return self.trials.least(lambda amount: self.base.other(spans={end: interval(amount)}), limit)

    def sets(self):
        """Smallest sets of bounds that are enough together, each with an amount of its own: in the order of the permits each bound is
        loosened as little as is enough while those after it are as loose as they may be."""
        told = 0
        for names in self.smallest_sets():
            numbers = self.tightened(sorted(names, key=self.permits.place))
            yield self.repair(Sort.SET, {name: numbers.most[name] for name in names})
            told += 1
            if told == MOST_SETS:
                return

    def loose(self, names):
        """The numbers with which these bounds are as loose as they may be."""
        return self.base.other({name: self.permits.limit(name) for name in names})

    def tightened(self, names):
        """Numbers with which a set of bounds is enough, each as little loosened as can be after those before it."""
        numbers = self.loose(names)
        for place, name in enumerate(names):
            self.progress.doing = f"{place} of {len(names)} bounds of a set tried"
            first = numbers.other({name: self.base.most[name]})
            least = None if self.trials.keeps(first) else self.trials.loosened(name, self.permits.limit(name), first)
            numbers = first if least is None else numbers.other({name: least})
        return numbers

    def smallest_sets(self):
        """The sets of as few bounds as can be that are enough together, if each is as loose as it may be."""
        conflicts = [self.loosenable(refutation) for refutation in self.trials.refutations if refutation.stands(self.base)]
        for size in range(1, MOST_TOGETHER + 1):
            self.progress.doing = f"sets of {size} bounds are tried"
            found = set()
            while names := next((it for it in hitting(conflicts, size, self.rank) if it not in found), None):
                numbers = self.loose(names)
                if self.trials.keeps(numbers):
                    found.add(names)
                    yield names
                else:
                    refutation = next(it for it in reversed(self.trials.refutations) if it.stands(numbers))
                    conflicts.append(self.loosenable(refutation) - names)
            # Where one conflict has no bound that may be loosened, or loosened further, no set is enough.
            if found or not all(conflicts):
                return

    def rank(self, name):
        """Upper bounds are loosened rather than lower ones; else the order of the call or of the plan decides."""
        return self.base.most[name] <= 0, *self.permits.place(name)

    def repair(self, sort, most):
        """A repair of bounds with these numbers."""
        names = sorted(most, key=self.permits.place)
        changes = tuple(Change(name, self.plan.line(name), self.base.most[name], most[name]) for name in names)
        return Repair(sort, changes, self.base.other(most))


def hitting(conflicts, size, rank):
    """The sets of at most so many members of which each conflict has one, each once; members of a low rank come first."""
    seen, left = set(), [frozenset()]
    while left:
        names = left.pop()
        open_ones = [conflict for conflict in conflicts if names.isdisjoint(conflict)]
        if not open_ones:
            if names not in seen:
                seen.add(names)
                yield names
        elif len(names) < size:
            left += [names | {name} for name in sorted(min(open_ones, key=len), key=rank, reverse=True)]


def overdue(plan):
    """The links that are over already by what a plan of the rest of a day says: each with the moment at which it began, that by which
    it is over, and that before which nothing comes any more."""
    began = {it.end: it.most for it in plan.bounds.values() if it.name.endswith(".max") and OF_THE_PAST.search(it.name)}
    now = max((-it.most for it in plan.bounds.values() if it.most < 0 and FROM_NOW.search(it.name)), default=0)
    for end, link in plan.links.items():
        if link.start in began and end not in began and began[link.start] + link.high + plan.delay <= now:
            yield end, began[link.start], began[link.start] + link.high + plan.delay, now
