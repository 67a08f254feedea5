"""`session` once more, by the rules of docs/FORMAT.md and docs/DEFINITIONS.md.

It takes a plan, edits and questions, and answers each line before it reads the next.
"""

import sys

from reference.check import Plan, Rounds, rounds_of
from reference.lines import Fault, Refused, delay_word, put_lines, talk, values_of
from reference.plan_text import MOST, read_plan
from reference.run import Execution, execute

# What stands after the two words of an edit, by the kinds of lines.py.
EDITS = {
    ("add", "point"): "N", ("drop", "point"): "N",
    ("add", "bound"): "NNNV", ("drop", "bound"): "N", ("set", "bound"): "NV",
    ("add", "link"): "NVVN", ("drop", "link"): "N", ("set", "link"): "NVV",
}
QUESTIONS = ["verdict", "proof", "table", "plan", "report", "go", "end"]

class Network:
    """The three lists by names. A link goes by the point in which it ends."""

    def __init__(self, points, bounds, links):
        self.points, self.bounds, self.links = points, bounds, links

    @staticmethod
    def of(plan):
        name = plan.points
        bounds = {item: (name[start], name[end], most) for item, start, end, most in plan.bounds}
        links = {name[end]: (name[start], low, high) for start, low, high, end in plan.links}
        return Network(dict.fromkeys(name), bounds, links)

    def lines(self, delay):
        """The plan text of the network with a delay."""
        lines = [f"delay {delay}"] if delay else []
        lines += [f"point {name}" for name in self.points]
        lines += [f"bound {name} {start} {end} {most}" for name, (start, end, most) in self.bounds.items()]
        lines += [f"link {start} {low} {high} {end}" for end, (start, low, high) in self.links.items()]
        return ["stnu 2", *lines, "end"]

    def user_of(self, point):
        """The first bound that names a point, else the first link, or None."""
        for name, (start, end, _) in self.bounds.items():
            if point in (start, end):
                return f"bound {name}"
        for end, (start, _, _) in self.links.items():
            if point in (start, end):
                return f"link {end}"
        return None

    def points_named(self, *names):
        if any(name not in self.points for name in names):
            raise Refused("unknown-name")

    def edited(self, action, item, values):
        """The network after an edit; this one stays as it is."""
        points, bounds, links = dict(self.points), dict(self.bounds), dict(self.links)
        items = {"point": points, "bound": bounds, "link": links}[item]
        name = values[-1] if (action, item) == ("add", "link") else values[0]
        if action == "add":
            if item != "link" and name in items:
                raise Refused("duplicate-name")
            if item == "bound":
                self.points_named(*values[1:3])
                items[name] = tuple(values[1:])
            elif item == "link":
                self.points_named(values[0], name)
                if values[0] == name:
                    raise Refused("link-to-itself")
                if name in links:
                    raise Refused("two-links-on-point")
                check_interval(*values[1:3])
                items[name] = tuple(values[:3])
            else:
                items[name] = None
            if len(items) > MOST[f"{item}s"]:
                raise Refused(f"limit {item}s")
            return Network(points, bounds, links)
        if name not in items:
            raise Refused("unknown-name")
        if action == "drop":
            user = self.user_of(name) if item == "point" else None
            if user is not None:
                raise Refused(f"still-used {user}")
            del items[name]
        elif item == "bound":
            items[name] = (*items[name][:2], values[1])
        else:
            check_interval(*values[1:])
            items[name] = (items[name][0], *values[1:])
        return Network(points, bounds, links)


def check_interval(low, high):
    if not 1 <= low <= high:
        raise Refused("bad-interval")


def numbers_of(plan):
    """The numbers of the bounds and links, by word and name."""
    numbers = {("bound", name): (most,) for name, _, _, most in plan.bounds}
    return numbers | {("link", plan.points[end]): (low, high) for _, low, high, end in plan.links}


def followed(rounds, network, taken, delay):
    """The rounds of an edited network before any is made: the nodes that rest on nothing taken
    away, and then the base nodes of what is new. A number that is shown otherwise than before is
    taken away too. Also how many nodes were kept, and how many not."""
    old, new = rounds.plan, Plan("\n".join(network.lines(delay))).shown()
    was, now = numbers_of(old), numbers_of(new)
    taken = taken | {item for item in was if item in now and was[item] != now[item]}
    after = Rounds(new)
    number = {name: place for place, name in enumerate(new.points)}
    kept = {}
    for place, (rule, premises, source, target, label, weight) in enumerate(rounds.nodes):
        uses = ("link" if rule[0] in ("link", "low", "cross") else rule[0], *rule[1:])
        if uses in taken or any(premise not in kept for premise in premises):
            continue
        kept[place] = len(after.nodes)
        ends = [number[old.points[point]] for point in (source, target)]
        label = -1 if label < 0 else after.link_to[number[old.points[old.links[label][3]]]]
        after.add(rule, tuple(kept[premise] for premise in premises), *ends, label, weight)
    after.add_base(lambda word, name: (word, name) in taken or (word, name) not in was)
    return after, len(kept), len(rounds.nodes) - len(kept)


class Session:
    def __init__(self, text, delay=None):
        plan = Plan(text)
        self.delay = plan.delay if delay is None else delay
        self.rounds, self.cycle, _ = rounds_of(text, self.delay)
        self.network, self.report = Network.of(plan), "none"

    def edit(self, action, item, values):
        try:
            network = self.network.edited(action, item, values)
        except Refused as why:
            return [f"refused {why}"]
        taken = {(item, values[0])} if action in ("drop", "set") and item != "point" else set()
        self.rounds, kept, withdrawn = followed(self.rounds, network, taken, self.delay)
        self.cycle, made = self.rounds.make_all()
        self.network, self.report = network, f"{kept} {withdrawn} {made}"
        return ["ok"]

    def verdict(self):
        return ["controllable" if self.cycle is None else "not controllable"]

    def proof(self):
        """The table proof, or a refutation of the rounds of the network itself."""
        if self.cycle is None:
            return self.rounds.table_proof()[1:]
        rounds, cycle, _ = rounds_of("\n".join(self.network.lines(self.delay)))
        return rounds.refutation(cycle)[1:]

    def table(self):
        if self.cycle is not None:
            return self.verdict()
        execution, points, lines = Execution(self.rounds), self.rounds.plan.points, []
        for point, name in enumerate(points):
            lines += [f"after {name} {points[other]} {n}" for other, n in sorted(execution.lower_bounds[point])]
            lines += [f"wait {name} {points[execution.links[link][3]]} {n}" for link, n in sorted(execution.waits[point])]
        return [*lines, "table end"]

    def answer(self, question):
        if question == "plan":
            return self.network.lines(self.delay)
        if question == "report":
            return [f"report {self.report}"]
        return {"verdict": self.verdict, "proof": self.proof, "table": self.table}[question]()


def read_step(words):
    """A question alone, or an action, the kind of its item, and its values."""
    first, *others = [word.decode("latin-1") for word in words[:2]]
    if first in QUESTIONS:
        if len(words) > 1:
            raise Fault("word-count")
        return first, None, None
    if first not in ("add", "drop", "set"):
        raise Fault("unknown-word")
    if not others:
        raise Fault("word-count")
    if (first, *others) not in EDITS:
        raise Fault("unknown-word")
    return first, others[0], values_of(EDITS[(first, *others)], words[2:])


def run(stream, put, delay=None):
    """Puts the answer of each line of a stream before it takes the next, and returns the status."""

    def answers(lines, put):
        read_plan(lines)
        session = Session(lines.text(), delay)
        put(["ready"])
        while True:
            words = lines.wanted()
            with lines.read():
                action, item, values = read_step(words)
            if action == "end":
                return 0
            if item is not None:
                put(session.edit(action, item, values))
            elif action != "go":
                put(session.answer(action))
            elif session.cycle is None:
                return execute(session.rounds, lines, put)
            else:
                put(session.verdict())

    return talk(answers, stream, put)


def words(parser):
    delay_word(parser)


def main(given):
    return run(sys.stdin.buffer, put_lines, given.delay)
