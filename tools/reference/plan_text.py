"""Plan texts, by the rules of docs/FORMAT.md: their lines, their parts, and what of a part is
refused."""

from dataclasses import dataclass

from reference.lines import Answer, values_of

# What stands after the first word of a line, by the kinds of lines.py.
PLAN_WORDS = {b"point": "N", b"bound": "NNNV", b"link": "NVVN", b"end": ""}
SECOND_WORDS = {**PLAN_WORDS, b"between": "SNVVN"}
FIRST_WORDS = {**SECOND_WORDS, b"delay": "D"}
MOST = {"points": 2_000, "bounds": 20_000, "links": 800}


@dataclass
class Plan:
    points: set
    bounds: dict
    links: dict
    delay: int = 0

    def add(self, line, word, values):
        """Adds a part that a line declares."""

        def refuse(why):
            return Answer(3, "error plan", line, why)

        def within(items, which):
            if len(items) >= MOST[which]:
                raise Answer(4, "error limit", line, which)

        if word == b"point":
            (name,) = values
            if name in self.points:
                raise refuse("duplicate-name")
            within(self.points, "points")
            self.points.add(name)
        elif word == b"bound":
            name, start, end, most = values
            if name in self.bounds:
                raise refuse("duplicate-name")
            if not {start, end} <= self.points:
                raise refuse("unknown-name")
            within(self.bounds, "bounds")
            self.bounds[name] = (start, end, most)
        elif word == b"between":
            for piece in bounds_of(*values):
                self.add(line, b"bound", piece)
        else:
            start, low, high, end = values
            if not {start, end} <= self.points:
                raise refuse("unknown-name")
            if start == end:
                raise refuse("link-to-itself")
            if end in self.links:
                raise refuse("two-links-on-point")
            if not 1 <= low <= high:
                raise refuse("bad-interval")
            within(self.links, "links")
            self.links[end] = (start, low, high)

    def shown(self, delay=None):
        """The plan as it is shown: the end of a link comes the delay later, the plan's own where
        none is given. The plan becomes that."""
        delay = self.delay if delay is None else delay
        lag = {point: delay if point in self.links else 0 for point in self.points}
        self.bounds = {name: (a, b, most + lag[b] - lag[a]) for name, (a, b, most) in self.bounds.items()}
        self.links = {
            end: (start, low + delay - lag[start], high + delay - lag[start])
            for end, (start, low, high) in self.links.items()
        }


def bounds_of(name, start, low, high, end):
    """The values of the two bounds of a `between`."""
    return [f"{name}.max", start, end, high], [f"{name}.min", end, start, -low]


def read_parts(lines):
    """A plan without its parts, and these, each with its line, its word and its values."""
    words = lines.header(b"stnu 1", b"stnu 2")
    known, further = (PLAN_WORDS, PLAN_WORDS) if words[1] == b"1" else (FIRST_WORDS, SECOND_WORDS)
    plan, parts = Plan(set(), {}, {}), []
    while True:
        words = lines.wanted()
        if words[0] not in known:
            raise lines.fault("unknown-word")
        with lines.read():
            values = values_of(known[words[0]], words[1:])
        known = further
        if words[0] == b"end":
            return plan, parts
        if words[0] == b"delay":
            (plan.delay,) = values
        else:
            parts.append((lines.number, words[0], values))


def read_plan(lines):
    plan, parts = read_parts(lines)
    for part in parts:
        plan.add(*part)
    return plan
