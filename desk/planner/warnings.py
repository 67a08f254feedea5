"""Finds what the program takes in a plan and what is mostly a slip of its writer."""

from collections import defaultdict
from dataclasses import dataclass

from planner.parts import Finding, Kind


def warnings_of(plan, is_whole=True):
    """The warnings of a plan, by their lines. Of one that is not whole, since it has faults, those are left out that its missing parts may
    cause: what looks unbound may be bound by a line at fault."""
    found = [*empty_intervals(plan), *to_themselves(plan), *Order(plan, is_whole).suspects()]
    if is_whole:
        found += [*unbound(plan), *held_by_no_name(plan)]
    return sorted(found, key=lambda finding: finding.line)


def unbound(plan):
    """Points that nothing binds, and links that nothing waits for."""
    bound = {point for it in plan.bounds.values() if it.start != it.end for point in (it.start, it.end)}
    begins = {link.start for link in plan.links.values()}
    for name, point in plan.points.items():
        if name in bound or name in begins:
            continue
        if name in plan.links:
            message = "nothing waits for the end of this link, and nothing bounds it"
            yield Finding(plan.links[name].line, message, token=name, slip="unbound")
        else:
            yield Finding(point.line, "nothing binds this point: no bound and no link names it", token=name, slip="unbound")


def empty_intervals(plan):
    """Lines `between` whose LOW is above their HIGH."""
    low, high = map(plan.spelling.place, ("LOW", "HIGH"))
    for it in plan.statements:
        if it.kind == Kind.BETWEEN and it.is_whole() and it.number("LOW") > it.number("HIGH"):
            token = f"{it['LOW']} {it['HIGH']}"
            message = f"{low} is above {high}, so this cannot be kept: are the two exchanged?"
            yield Finding(it.line, message, token=token, slip="low-above-high")


def to_themselves(plan):
    """Bounds from a point to itself."""
    for it in plan.bounds.values():
        if it.start == it.end:
            says = "this cannot be kept" if it.most < 0 else "this says nothing"
            yield Finding(it.line, f"a bound from a point to itself: {says}", token=it.name, slip="to-itself")


def held_by_no_name(plan):
    """Names in remarks `# fixed` that the plan does not have."""
    for name, line in plan.unknown_held.items():
        yield Finding(line, "this remark holds a bound or a link that the plan does not have", token=name, slip="holds-nothing")


@dataclass(frozen=True)
class Step:
    """`end` comes at least so much later than `start`, as a line says."""

    start: str
    end: str
    least: int
    line: int


class Order:
    """Which points come no later than which others, by the links and by the bounds of 0 and less."""

    def __init__(self, plan, is_whole=True):
        self.plan, self.is_whole = plan, is_whole
        self.place = {name: place for place, name in enumerate(plan.points)}
        self.steps = [Step(link.start, link.end, link.low, link.line) for link in plan.links.values()]
        lower = [bound for bound in plan.bounds.values() if bound.most <= 0 and bound.start != bound.end]
        self.steps += [Step(bound.end, bound.start, -bound.most, bound.line) for bound in lower]
        # From each point to those that come no sooner, each with the line that says so; and lines that look wrong themselves.
        self.later = defaultdict(list)
        for step in self.steps:
            self.later[step.start].append((step.end, step.line))
        self.doubted = set()

    def suspects(self):
        """Bounds whose ends look exchanged, or whose sign looks forgotten."""
        bounds = [bound for bound in self.plan.bounds.values() if bound.start != bound.end]
        exchanged = [finding for bound in bounds if bound.most < 0 for finding in self.against_order(bound)]
        self.doubted = {finding.line for finding in exchanged}
        yield from exchanged
        moments = self.earliest() if self.is_whole else {}
        for bound in bounds:
            if bound.most > 0 and bound.statement.kind == Kind.BOUND:
                yield from self.without_effect(bound, moments)

    @property
    def exchanged(self):
        """The question whether the ends of a bound are exchanged."""
        first, second = map(self.plan.spelling.place, ("FROM", "TO"))
        return f"are {first} and {second} exchanged?"

    def against_order(self, bound):
        """A lower bound on two points declared in the other order, which others contradict, or which puts a point before the first."""
        if self.place[bound.start] > self.place[bound.end]:
            return
        if lines := self.way(bound.start, bound.end, bound.line):
            but = f"by {told_lines(lines)} it comes after"
        elif self.place[bound.start] == 0 and self.is_beginning(bound.start, bound.line):
            but = f"{bound.start} is the first point of the plan, from which others are counted"
        else:
            return
        message = f"this says that {bound.end} comes at least {-bound.most} before {bound.start}, but {but}: {self.exchanged}"
        yield Finding(bound.line, message, token=bound.statement["NAME"], slip="exchanged")

    def is_beginning(self, point, without):
        """Whether other bounds than those of a line count from a point, and nothing says that another comes before it."""
        others = [bound for bound in self.plan.bounds.values() if bound.line != without and bound.start != bound.end]
        before = [bound for bound in others if point == (bound.start if bound.most <= 0 else bound.end)]
        after = [bound for bound in others if point == (bound.end if bound.most <= 0 else bound.start)]
        return bool(after) and not before and point not in self.plan.links

    def earliest(self):
        """The least moment of each point by the links and the lower bounds, if the points are declared in the order in which they come; else
        none, since then the order of their lines says nothing."""
        steps = sorted((step for step in self.steps if step.line not in self.doubted), key=lambda step: self.place[step.start])
        if any(self.place[step.start] > self.place[step.end] for step in steps):
            return {}
        moments = dict.fromkeys(self.place, 0)
        for step in steps:
            moments[step.end] = max(moments[step.end], moments[step.start] + step.least)
        return moments

    def without_effect(self, bound, moments):
        """An upper bound on how much later a point comes that comes before anyway, or is declared so, and is not known to come after."""
        says = f"this says that {bound.end} comes at most {bound.most} after {bound.start}"
        if lines := self.way(bound.end, bound.start, bound.line):
            message = f"{says}, but by {told_lines(lines)} it comes before anyway: is a '-' missing, or {self.exchanged}"
        elif moments and self.place[bound.end] < self.place[bound.start] and moments[bound.end] < moments[bound.start]:
            message = f"{says}, which is declared below it: was 'at least {bound.most} before' meant, {-bound.most}?"
        else:
            return
        yield Finding(bound.line, message, token=bound.name, slip="sign")

    def way(self, start, end, without):
        """The lines, without this one, by which a point comes no later than another; none where they don't say so."""
        came, left = {start: None}, [start]
        while left:
            point = left.pop()
            for after, line in self.later[point]:
                if line != without and line not in self.doubted and after not in came:
                    came[after] = (point, line)
                    left.append(after)
        if end not in came:
            return []
        lines, point = [], end
        while came[point] is not None:
            point, line = came[point]
            lines.append(line)
        return sorted(lines)


def told_lines(lines):
    """Some line numbers in words."""
    if len(lines) == 1:
        return f"line {lines[0]}"
    if len(lines) > 6:
        return f"{len(lines)} other lines"
    return f"lines {', '.join(map(str, lines[:-1]))} and {lines[-1]}"
