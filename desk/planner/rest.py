"""What is left of a day as a new plan: the text of the plan, in which what has come stays where it came."""

import re
from dataclasses import dataclass, field

from planner.desk_session import sent
from planner.draft import ENDINGS, Draft
from planner.execution import NUMBERS, Execution
from planner.faults import Fault
from planner.parts import Kind
from planner.plan import Plan
from planner.program import Session, Source
from planner.slips import link_meant, unknown

# The endings of the names of what this adds, and the remarks above it.
CAME, FROM_NOW = "came", "from-now"
OWN = re.compile(rf".*\.({CAME}|{FROM_NOW})(\.[0-9]+)?(\.max|\.min)?")
HEAD = "# What is left of a day at"
ADDED = "# What has come stays where it came, and what is still to come does so no sooner than now."


def is_of_rest(text):
    """Whether a text may be the plan of a rest, which another one may replace; a document has no remark that says so, but its names."""
    return text.startswith(HEAD) or re.search(rf'"[^"]*\.({CAME}|{FROM_NOW})(\.[0-9]+)?"', text) is not None or not text.strip()


@dataclass(frozen=True)
class Amendments:
    """What somebody knows of a day that its lines do not tell."""

    now: int | None = None
    spans: dict[str, tuple[int, int]] = field(default_factory=dict)
    came: dict[str, int] = field(default_factory=dict)
    not_yet: tuple[str, ...] = ()


class Unsaid(Fault):
    """Links are overdue of which nobody has said how long they now may last."""


def fresh(name, names):
    """The first of NAME, NAME.1, NAME.2 and so on that is none of these."""
    return next(it for it in (f"{name}.{number}" if number else name for number in range(len(names) + 1)) if it not in names)


def listed(names):
    return ", ".join(names)


def untold(program, source, lines, now):
    """What the program would have executed after these lines of a day, up to a moment: no line tells whether it was."""
    execution, acts = Execution(program, source), []
    execution.play(lines)
    while (due := execution.told.due) is not None and due <= now:
        told = execution.take(f"at {due}")
        if told.refused:
            break
        acts += told.acts
    if acts:
        execution.channel.talk.show()
    execution.close()
    return acts


def came_before(plan):
    """The points that had come already at the moment of which a plan is the rest."""
    return {bound.end for name, bound in plan.bounds.items() if (own := OWN.fullmatch(name)) and own[1] == CAME and name.endswith(".max")}


class Rest:
    """What is left of a day that stands at a moment."""

    def __init__(self, source, moments, last, amendments, scale=NUMBERS):
        self.plan, self.draft = Plan.of(source), Draft.of(source)
        self.amendments, self.scale = amendments, scale
        self.fit(last)
        self.now = last if amendments.now is None else amendments.now
        self.moments = {point: it for point, it in (moments | amendments.came).items() if point not in amendments.not_yet}
        self.fit_moments()
        # The point at which the day began: one that came at 0, else a new one.
        self.begin = next((point for point in self.plan.points if self.moments.get(point) == 0), None)
        bounds = [name for name in self.plan.bounds if not OWN.fullmatch(name)]
        self.names = {*bounds, *(name.removesuffix(ending) for name in bounds for ending in ENDINGS)}

    def fit(self, last):
        """Sees that what somebody says can be so, by the plan."""
        told, links = self.amendments, self.plan.links
        if missing := [name for name in [*told.came, *told.not_yet] if name not in self.plan.points]:
            raise Fault(unknown(missing, self.plan.points))
        if missing := [name for name in told.spans if name not in links]:
            raise Fault("; ".join(f"no link ends in '{name}'{link_meant(name, self.plan.starts())}" for name in missing))
        if told.now is not None and told.now < last:
            raise Fault(f"the lines of the day go on until {self.scale.text(last)}, so that it cannot be {self.scale.text(told.now)} now")
        for end, (low, high) in told.spans.items():
            if not 1 <= low <= high:
                raise Fault(f"{end}: LOW is at least 1 and at most HIGH, and they are {low} and {high}")

    def fit_moments(self):
        """Sees that nothing has come that is still to come."""
        for point, moment in self.amendments.came.items():
            if moment > self.now:
                raise Fault(f"{point} cannot have come at {self.scale.text(moment)}, since it is {self.scale.text(self.now)} now")
        for end in self.amendments.spans:
            if end in self.moments:
                came = self.scale.text(self.moments[end])
                raise Fault(f"{end} has come at {came}, so that its link lasts no longer: --not-yet {end} takes that back")

    def missing(self, program, lines):
        """A sentence for each point that was to be executed by now after these lines of the day, and of which nothing is said."""
        for moment, point in untold(program, self.plan.source, lines, self.now):
            if point not in self.moments and point not in self.amendments.not_yet:
                when = self.scale.text(moment)
                yield f"{point} was to be executed at {when}, and no line tells that it was: if so, say it by --came {point} {when}"

    def changed(self):
        """A sentence for each link whose durations somebody has said, so that a wrong one is seen."""
        for end, (low, high) in self.amendments.spans.items():
            link = self.plan.links[end]
            began = self.moments.get(link.start)
            since = "which has not begun" if began is None else f"which began at {self.scale.text(began)}"
            yield f"the link {end}, {since}, may last {low} to {high} now, and {link.low} to {link.high} by the plan before"

    def text(self, program):
        """The text of the plan of the rest."""
        overdue = [f"--link {end} {low} HIGH" for end, low in self.links()]
        if overdue:
            raise Unsaid(f"overdue at {self.scale.text(self.now)}; say how long each may last now, from where it began: {listed(overdue)}")
        self.leave_out_own()
        self.bounds(program)
        self.head()
        self.draft.add("", ADDED, *self.came())
        return self.draft.source().text

    def head(self):
        """The first lines: what this is, the version, the delay, and a point for the beginning of the day where none came at 0."""
        place = self.draft.write_delay(self.plan.delay)
        if self.begin is None:
            self.begin = fresh("began", self.plan.points)
            self.draft.insert(place, f"point {self.begin}")
        self.draft.insert(0, f"{HEAD} {self.now}.")

    def name(self, point, ending):
        """A name for a bound that no other has."""
        found = fresh(f"{point[:16]}.{ending}", self.names)
        self.names.add(found)
        return found

    def came(self):
        """The lines by which what has come stays where it came, and what is still to come does not do so before now."""
        order = list(self.plan.points)
        for point, moment in sorted(self.moments.items(), key=lambda it: (it[1], order.index(it[0]))):
            if point != self.begin:
                yield f"between {self.name(point, CAME)} {self.begin} {moment} {moment} {point}"
        for point in self.plan.points:
            if point not in self.moments and point not in self.plan.links:
                yield f"bound {self.name(point, FROM_NOW)} {point} {self.begin} {-self.now}"

    def links(self):
        """Gives the links that still run the durations that are left, and leaves out those that are over. Yields those overdue."""
        for end, link in self.plan.links.items():
            line = self.draft.find("link", 4, end)
            if end in self.moments:
                line.text = f"# over: {line.text.strip()}"
                continue
            low, high = self.amendments.spans.get(end, (link.low, link.high))
            if link.start in self.moments:
                # What is seen at this moment or before was told.
                lasted = self.now - self.plan.delay - self.moments[link.start]
                if end in self.amendments.spans and high <= lasted:
                    raise Fault(f"{end} has lasted {lasted} already; HIGH is at least {lasted + 1}, and not {high}")
                low = max(low, lasted + 1)
            if low > high:
                yield end, low
            else:
                line.replace(3, high)
                line.replace(2, low)

    def leave_out_own(self):
        """Leaves out what an earlier rest of the same day has added."""
        added = next((place for place, line in enumerate(self.draft.lines) if line.text == ADDED), None)
        if added is not None and not self.draft.lines[added - 1].text:
            del self.draft.lines[added - 1]
        own = [it for it in self.draft.lines if it.text == ADDED or it.text.startswith(HEAD)]
        own += [it for it in self.draft.lines if it.words[:1] in (["bound"], ["between"]) and OWN.fullmatch(it.words[1])]
        self.draft.lines = [it for it in self.draft.lines if it not in own]

    def bounds(self, program):
        """Leaves out the bounds between points that have come; a remark tells what the program says of each, whether it was kept."""
        bounds = [it for it in self.plan.statements if it.kind in (Kind.BOUND, Kind.BETWEEN)]
        over = [it for it in bounds if {it["FROM"], it["TO"]} <= self.moments.keys()]
        with Session(program, self.past()) as session:
            for it in over:
                if line := self.line(it):
                    line.text = f"# {'kept' if is_kept(session, line.words) else 'not kept'}: {line.text.strip()}"
            session.show()

    def line(self, statement):
        return self.draft.find(statement.kind.value, 1, statement["NAME"])

    def past(self):
        """A plan of what has come alone, each point at its moment."""
        begin = fresh("began", self.plan.points)
        points = [f"point {name}" for name in [begin, *self.moments]]
        came = [f"between at{number} {begin} {moment} {moment} {name}" for number, (name, moment) in enumerate(self.moments.items())]
        return Source("\n".join(["stnu 2", *points, *came, "end", ""]))


def is_kept(session, words):
    """Whether the points of a statement with these words came as it says."""
    kind, _, *rest = words
    for line in sent(["add", kind, "tried", *rest]):
        session.edit(line)
    kept = session.is_kept()
    for line in sent(["drop", kind, "tried"]):
        session.edit(line)
    return kept
