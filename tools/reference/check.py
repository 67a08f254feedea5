"""`check` once more, by the definitions of rows and rounds in closure_model/specs, without a line
of the program.

`check(text)` takes a plan without faults, and returns what `check` prints of it, with `proof` what
`check --proof` does, how many rounds were made and how many nodes the derivation list has in the
end; `rounds_of(text)` gives the rounds themselves, of which run.py takes the closed table. Both
take a delay too: they go by the plan as it is shown. It is slow: every row looks through all its
keys for the least.
"""


class Plan:
    def __init__(self, text):
        self.points, self.bounds, self.links, self.delay = [], [], [], 0
        place = {}
        for line in text.splitlines():
            words = line.split()
            if not words or words[0].startswith("#"):
                continue
            if words[0] == "end":
                break
            if words[0] == "point":
                place[words[1]] = len(self.points)
                self.points.append(words[1])
            elif words[0] == "bound":
                self.bounds.append((words[1], place[words[2]], place[words[3]], int(words[4])))
            elif words[0] == "between":
                start, end = place[words[2]], place[words[5]]
                self.bounds += [(f"{words[1]}.max", start, end, int(words[4])), (f"{words[1]}.min", end, start, -int(words[3]))]
            elif words[0] == "delay":
                self.delay = int(words[1])
            elif words[0] == "link":
                self.links.append((place[words[1]], int(words[2]), int(words[3]), place[words[4]]))

    def shown(self, delay=None):
        """The plan as it is shown: the end of a link comes the delay later, the plan's own where
        none is given. The plan becomes that."""
        delay = self.delay if delay is None else delay
        ends = {end for _, _, _, end in self.links}
        lag = lambda point: delay if point in ends else 0
        gain = lambda point: delay - lag(point)
        self.bounds = [(name, start, end, most + lag(end) - lag(start)) for name, start, end, most in self.bounds]
        self.links = [(start, low + gain(start), high + gain(start), end) for start, low, high, end in self.links]
        return self


class Rounds:
    """Nodes are (rule words, premises, source, target, label, weight); a key is (target, source,
    label), label -1 for none."""

    def __init__(self, plan):
        """No node yet; `add_base` adds those of the bounds and links."""
        self.plan = plan
        self.nodes, self.newest = [], {}
        self.link_to = {link[3]: number for number, link in enumerate(plan.links)}

    def add_base(self, is_new=lambda word, name: True):
        """The base nodes of the bounds, and then of the links, that are new by their word and
        name."""
        points = self.plan.points
        for name, source, target, most in self.plan.bounds:
            if is_new("bound", name):
                self.add(("bound", name), (), source, target, -1, most)
        for number, (source, _, high, target) in enumerate(self.plan.links):
            if is_new("link", points[target]):
                self.add(("link", points[target]), (), target, source, number, -high)
        return self

    def weight(self, key):
        return self.nodes[self.newest[key]][5] if key in self.newest else None

    def add(self, rule, premises, source, target, label, weight):
        self.nodes.append((rule, premises, source, target, label, weight))
        key = (target, source, label)
        if self.weight(key) is None or weight < self.weight(key):
            self.newest[key] = len(self.nodes) - 1

    def negative(self, source, target):
        weight = self.weight((target, source, -1))
        return weight is not None and weight < 0

    def placed(self):
        """The points in their order as far as they can be placed, and those that are left."""
        placed, left = [], set(range(len(self.plan.points)))
        while True:
            free = [x for x in sorted(left) if not any(self.negative(x, y) for y in left)]
            if not free:
                return placed, left
            placed.append(free[0])
            left.remove(free[0])

    def cycle(self):
        """The cycle of negative ordinary edges, or None where the points have an order."""
        left = self.placed()[1]
        if not left:
            return None
        path = [min(left)]
        while True:
            following = min(y for y in left if self.negative(path[-1], y))
            if following in path:
                return path[path.index(following) :]
            path.append(following)

    def row(self, target):
        """The edges that fell in the row of a target, in the order of settling."""
        count, links = len(self.plan.points), self.plan.links
        labels = [-1] + [number for number, link in enumerate(links) if link[0] == target]
        slots = {(s, label): self.weight((target, s, label)) for s in range(count) for label in labels}
        why, settled, fell = {}, set(), []
        enter = {}
        for (t, s, label), number in self.newest.items():
            if label < 0:
                enter.setdefault(t, []).append((s, self.nodes[number][5]))

        def offer(slot, weight, reason):
            if slots[slot] is None or weight < slots[slot]:
                assert slot not in settled
                slots[slot], why[slot] = weight, reason

        while True:
            open_slots = [(w, s, label) for (s, label), w in slots.items() if w is not None and (s, label) not in settled]
            if not open_slots:
                return fell
            weight, source, label = min(open_slots)
            settled.add((source, label))
            if (source, label) in why:
                fell.append((source, label, weight, why[(source, label)]))
            if label >= 0:
                offer((source, -1), max(weight, -links[label][1]), ("drop", (source, label)))
            if weight >= 0:
                continue
            own = self.link_to.get(source)
            if own is not None and own != label:
                word = "low" if label < 0 else "cross"
                offer((links[own][0], label), links[own][1] + weight, (word, own, (source, label)))
            for begin, first in sorted(enter.get(source, [])):
                word = "no" if label < 0 else "up"
                offer((begin, label), max(first, 0) + weight, (word, (source, begin, -1), (source, label)))

    def round(self):
        before = dict(self.newest)
        rows = [self.row(target) for target in range(len(self.plan.points))]
        for target, fell in enumerate(rows):
            for source, label, weight, why in fell:
                last = self.newest[(target, *why[-1])]
                if why[0] == "drop":
                    rule, premises = ("drop",), (last,)
                elif why[0] in ("low", "cross"):
                    rule, premises = (why[0], self.plan.points[self.plan.links[why[1]][3]]), (last,)
                else:
                    rule, premises = (why[0],), (before[why[1]], last)
                self.add(rule, premises, source, target, label, weight)
        return any(rows)

    def refutation(self, cycle):
        points, links = self.plan.points, self.plan.links
        steps = [self.newest[(y, x, -1)] for x, y in zip(cycle, cycle[1:] + cycle[:1])]
        used, todo = set(), list(steps)
        while todo:
            node = todo.pop()
            if node not in used:
                used.add(node)
                todo += self.nodes[node][1]
        number = {node: place for place, node in enumerate(sorted(used), 1)}
        lines = []
        for node in sorted(used):
            rule, premises, source, target, label, weight = self.nodes[node]
            words = [*rule, *(str(number[p]) for p in premises), points[source], points[target]]
            if rule[0] in ("up", "cross"):
                words.append(points[links[label][3]])
            lines.append(" ".join([*words, str(weight)]))
        walk = [f"walk {number[step]}" for step in steps]
        return ["not controllable", "certificate 1", "refutation", *lines, *walk, "end"]

    def table_proof(self):
        """What `check --proof` prints of a closed table."""
        points, links = self.plan.points, self.plan.links
        lines = [f"order {points[point]}" for point in self.placed()[0]]
        for target, source, label in sorted(self.newest):
            words = ["edge", points[source], points[target]] if label < 0 else ["upper", points[source], points[links[label][3]]]
            lines.append(" ".join([*words, str(self.weight((target, source, label)))]))
        return ["controllable", "certificate 1", "table", *lines, "end"]

    def make_all(self):
        """Makes rounds until the table is closed or has a cycle: the cycle, or None where it is
        closed, and how many were made."""
        made = 0
        while True:
            cycle = self.cycle()
            if cycle is not None:
                return cycle, made
            made += 1
            if not self.round():
                return None, made


def rounds_of(text, delay=None):
    """The rounds of a plan as they end, the cycle in which they end or None where the table is
    closed, and how many were made."""
    rounds = Rounds(Plan(text).shown(delay)).add_base()
    cycle, made = rounds.make_all()
    return rounds, cycle, made


def check(text, proof=False, delay=None):
    rounds, cycle, made = rounds_of(text, delay)
    if cycle is not None:
        lines = rounds.refutation(cycle)
    else:
        lines = rounds.table_proof() if proof else ["controllable"]
    return "\n".join(lines) + "\n", made, len(rounds.nodes)
