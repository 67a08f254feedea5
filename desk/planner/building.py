"""Builds the parts of a plan out of its statements, and finds each fault of them, in the order in which the program tries it."""

from dataclasses import dataclass, field

from planner.parts import MOST_BOUNDS, MOST_LINKS, MOST_POINTS, Bound, Finding, Kind, Link, Point
from planner.reader import nearest


@dataclass
class Built:
    """The parts of a plan that can stand in it, and what was found of the others."""

    points: dict[str, Point] = field(default_factory=dict)
    bounds: dict[str, Bound] = field(default_factory=dict)
    links: dict[str, Link] = field(default_factory=dict)
    delay: int = 0
    findings: list[Finding] = field(default_factory=list)


class Builder:
    """Builds parts one after another."""

    def __init__(self, reading):
        self.statements, self.spelling = reading.statements, reading.spelling
        self.built = Built()
        # Where each point is declared, be it later.
        self.declared = {}
        for it in self.statements:
            if it.kind == Kind.POINT and it.is_whole():
                self.declared.setdefault(it["NAME"], it.line)

    def build(self):
        for statement in self.statements:
            if not statement.is_whole():
                self.are_known(statement)
                continue
            match statement.kind:
                case Kind.POINT:
                    self.point(statement)
                case Kind.BOUND | Kind.BETWEEN:
                    self.bounds(statement)
                case Kind.LINK:
                    self.link(statement)
                case Kind.DELAY:
                    self.built.delay = statement.number("N")
        return self.built

    def point(self, statement):
        name = statement["NAME"]
        if name in self.built.points:
            self.duplicate(statement, "point", name, self.built.points[name].line)
        elif self.has_room(statement, "points", self.built.points, MOST_POINTS):
            self.built.points[name] = Point(name, statement.line)

    def bounds(self, statement):
        known = None
        for bound in bounds_of(statement):
            if first := self.built.bounds.get(bound.name):
                self.duplicate(statement, "bound", bound.name, first.line)
                continue
            if known is None:
                known = self.are_known(statement)
            if known and self.has_room(statement, "bounds", self.built.bounds, MOST_BOUNDS):
                self.built.bounds[bound.name] = bound

    def link(self, statement):
        start, end = statement["FROM"], statement["TO"]
        link = Link(start, statement.number("LOW"), statement.number("HIGH"), end, statement)
        if not self.are_known(statement):
            return
        if start == end:
            self.fault(statement, "link-to-itself", "a link from a point to itself: give it another end", end)
        elif end in self.built.links:
            line = self.built.links[end].line
            message = f"a link ends in this point already, on line {line}: give each an end of its own"
            self.fault(statement, "two-links-on-point", message, end)
        elif not 1 <= link.low <= link.high:
            self.fault(statement, "bad-interval", about_interval(link), f"{link.low} {link.high}")
        elif self.has_room(statement, "links", self.built.links, MOST_LINKS):
            self.built.links[end] = link

    def are_known(self, statement):
        """Whether both points of a statement stand above it; each that does not is found."""
        return all([self.is_known(statement, place) for place in ("FROM", "TO") if place in statement.words])

    def is_known(self, statement, place):
        name = statement[place]
        if name in self.built.points:
            return True
        if name in self.declared:
            message = f"this point is declared below, on line {self.declared[name]}, and must be declared above"
        elif near := nearest(name, self.declared):
            message = f"no point of this name is declared; the nearest is '{near}' (line {self.declared[near]})"
        else:
            message = "no point of this name is declared"
        self.fault(statement, "unknown-name", message, name)
        return False

    def has_room(self, statement, which, parts, most):
        if len(parts) < most:
            return True
        told = f"error limit {statement.place} {which}"
        self.built.findings.append(Finding(statement.line, f"a plan has at most {most:,} {which}", told))
        return False

    def duplicate(self, statement, what, name, line):
        self.fault(statement, "duplicate-name", f"a {what} of this name stands on line {line}: rename one of the two", name)

    def fault(self, statement, word, message, token):
        told = f"error plan {statement.place} {word}"
        self.built.findings.append(Finding(statement.line, message, told, token, self.spelling.form(statement.kind)))


def bounds_of(statement):
    """The bounds that a statement declares: one, or two of a line `between`."""
    if statement.kind == Kind.BOUND:
        return [Bound(statement["NAME"], statement["FROM"], statement["TO"], statement.number("MOST"), statement)]
    name, start, end = statement["NAME"], statement["FROM"], statement["TO"]
    return [
        Bound(f"{name}.max", start, end, statement.number("HIGH"), statement),
        Bound(f"{name}.min", end, start, -statement.number("LOW"), statement),
    ]


def about_interval(link):
    if link.low > link.high:
        return "the shortest duration of a link is above its longest: exchange the two numbers"
    return "the shortest duration of a link is at least 1: choose a finer unit of time, or a bound in its place"
