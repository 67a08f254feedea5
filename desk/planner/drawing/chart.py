"""What a picture of days shows: for each point a row, and on each day in it a bar or a mark, and the limits that the plan sets it."""

from collections import Counter
from dataclasses import dataclass
from enum import Enum

from planner.drawing.scale import Numbers, Window

# Limits beyond the last moment lengthen the picture by at most this part of it.
LONGER_BY = 1


class Shape(Enum):
    """What a row has, with what that means, for the legend."""

    LINK = "a link: nature decides how long it lasts"
    TAIL = "over, and not seen yet"
    CHOSEN = "a duration that you choose"
    POINT = "a point that is executed"
    LIMIT = "a limit of the day"
    RELATIVE = "a limit after another point"


@dataclass(frozen=True)
class Limit:
    """A moment at which a point may come at the latest, or at the soonest, by a bound of this name.

    One that is not `is_of_day` is counted from a point that itself comes now sooner and now later.
    """

    moment: int
    bound: str
    is_latest: bool = True
    is_of_day: bool = True

    @property
    def shape(self):
        return Shape.LIMIT if self.is_of_day else Shape.RELATIVE


@dataclass(frozen=True)
class Mark:
    """A point on a day: when it comes, when what ends in it began, when it is seen where that is later, and its limits."""

    shape: Shape
    moment: int
    begin: int
    seen: int
    limits: tuple[Limit, ...]


def beginning(plan, days):
    """The point from which the day is counted: of those that come at moment 0 that which most bounds name; None where there is none."""
    at_zero = [name for name in plan.points if name not in plan.links and all(day.moments[name] == 0 for day in days)]
    named = Counter(name for bound in plan.bounds.values() for name in (bound.start, bound.end))
    return max(at_zero, key=named.__getitem__, default=None)


class Distances:
    """How far apart the bounds of a plan let two points be: the strictest bound of each pair, by where it begins and by where it ends."""

    def __init__(self, plan):
        self.from_start, self.to_end = {}, {}
        for bound in plan.bounds.values():
            kept = self.from_start.setdefault(bound.start, {}).get(bound.end)
            if bound.start != bound.end and (kept is None or bound.most < kept.most):
                self.from_start[bound.start][bound.end] = bound
                self.to_end.setdefault(bound.end, {})[bound.start] = bound

    def both_ways(self, start):
        """The bounds from a point to each that another one ties back to it, with the other one."""
        back = self.to_end.get(start, {})
        return [(bound, back[end]) for end, bound in self.from_start.get(start, {}).items() if end in back]

    def fixed(self, origin):
        """The points that come at the same moment on each day, counted from the beginning of the day, with that moment."""
        found = {} if origin is None else {origin: 0}
        left = list(found)
        while left:
            start = left.pop()
            for bound, back in self.both_ways(start):
                if bound.most == -back.most and bound.end not in found:
                    found[bound.end] = found[start] + bound.most
                    left.append(bound.end)
        return found

    def chosen(self, plan, origin):
        """Where a duration that somebody chooses ends, and where it begins: the tightest, where several end there."""
        found = {}
        for start in plan.points:
            for bound, back in self.both_ways(start) if start != origin else ():
                kept = found.get(bound.end)
                if back.most < 0 and bound.end not in plan.links and (kept is None or bound.most < kept.most):
                    found[bound.end] = bound
        return {end: bound.start for end, bound in found.items()}

    def limits(self, name, moments, fixed):
        """The limits of a point on a day: the strictest of each kind."""
        into, out_of = self.to_end.get(name, {}), self.from_start.get(name, {})
        latest = [Limit(fixed[start] + bound.most, bound.name) for start, bound in into.items() if start in fixed]
        soonest = [Limit(fixed[end] - bound.most, bound.name, is_latest=False) for end, bound in out_of.items() if end in fixed]
        relative = [
            Limit(moments[start] + bound.most, bound.name, is_of_day=False)
            for start, bound in into.items()
            if start not in fixed and bound.most > 0
        ]
        strictest = [
            max(soonest, key=lambda it: it.moment, default=None),
            min(latest, key=lambda it: it.moment, default=None),
            min(relative, key=lambda it: it.moment, default=None),
        ]
        # (that a point comes at 0 at the soonest is no limit)
        return tuple(it for it in strictest if it is not None and it.moment > 0)


@dataclass(frozen=True)
class Row:
    """A point, and its mark on each day."""

    name: str
    marks: tuple[Mark, ...]


@dataclass(frozen=True)
class Chart:
    """Days side by side: their titles, rows, the part of them that is drawn, and how its moments are written."""

    title: str
    days: tuple[str, ...]
    rows: tuple[Row, ...]
    window: Window
    scale: object = Numbers()
    step: int | None = None

    def limits(self, mark):
        """The limits of a mark that are within the window."""
        return [it for it in mark.limits if self.window.first <= it.moment <= self.window.last]

    def shows(self, mark):
        return self.window.shows(mark.begin, mark.seen)

    def shapes(self):
        """What there is in the picture, in the order of the legend."""
        marks = [mark for row in self.rows for mark in row.marks]
        found = {mark.shape for mark in marks if self.shows(mark)}
        found |= {Shape.TAIL for mark in marks if self.shows(mark) and mark.seen > mark.moment}
        found |= {limit.shape for mark in marks for limit in self.limits(mark)}
        return [shape for shape in Shape if shape in found]

    def texts(self):
        """The moments of each row as they are written."""
        return {row.name: [self.scale.text(mark.moment) for mark in row.marks] for row in self.rows}


def rows_of(plan, days):
    """A row for each point of the plan."""
    origin, distances = beginning(plan, days), Distances(plan)
    fixed, chosen = distances.fixed(origin), distances.chosen(plan, origin)
    for name in plan.points:
        yield Row(name, tuple(mark_of(plan, name, day.moments, chosen, distances.limits(name, day.moments, fixed)) for day in days))


def mark_of(plan, name, moments, chosen, limits):
    moment = moments[name]
    if name in plan.links:
        return Mark(Shape.LINK, moment, moments[plan.links[name].start], moment + plan.delay, limits)
    if name in chosen:
        return Mark(Shape.CHOSEN, moment, moments[chosen[name]], moment, limits)
    return Mark(Shape.POINT, moment, moment, moment, limits)


def whole(rows):
    """The last moment to be drawn, where none is asked for: the last that is seen, or a limit of the day not too long after."""
    marks = [mark for row in rows for mark in row.marks]
    last = max((mark.seen for mark in marks), default=0)
    limits = [it.moment for mark in marks for it in mark.limits if it.is_of_day and it.is_latest]
    return max([last, *(moment for moment in limits if moment <= last * (1 + LONGER_BY))])


def chart_of(plan, days, title, scale, first=0, last=None, by_time=False, step=None):
    """The picture of these days; of a part of them the rows that have something in it."""
    rows = list(rows_of(plan, days))
    window = Window(first, max(first, whole(rows) if last is None else last))
    shown = [row for row in rows if any(window.shows(mark.begin, mark.seen) for mark in row.marks)]
    if by_time:
        # A bar stands after the point that begins it.
        shown.sort(key=lambda row: (row.marks[0].begin, row.marks[0].shape is not Shape.POINT))
    return Chart(title, tuple(day.title for day in days), tuple(shown), window, scale, step)
