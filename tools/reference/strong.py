"""Strong schedules by all situations, slowly; strong certificates by what their lines say; and the
judgement of any, test by test."""

from itertools import product


def read(text):
    """The points, the bounds and the links of a plan text of either version, by their names; the
    delay plays no part."""
    points, bounds, links = [], [], []
    for line in text.splitlines():
        words = line.split()
        if words[0] == "point":
            points.append(words[1])
        elif words[0] == "bound":
            bounds.append((words[1], words[2], words[3], int(words[4])))
        elif words[0] == "between":
            _, name, begin, low, high, end = words
            bounds += [(f"{name}.max", begin, end, int(high)), (f"{name}.min", end, begin, -int(low))]
        elif words[0] == "link":
            links.append((words[1], int(words[2]), int(words[3]), words[4]))
    return points, bounds, links


def ring(links):
    """Whether links go round: then there is a point from which as many steps back as there are
    links end in no point without a link."""
    into = {to: begin for begin, _, _, to in links}
    for point in into:
        for _ in into:
            point = into.get(point)
        if point in into:
            return True
    return False


def moments_after(point, links, durations):
    """The executable point by which a point comes, and how long after it."""
    into = {to: (begin, duration) for (begin, _, _, to), duration in zip(links, durations)}
    after = 0
    while point in into:
        point, duration = into[point]
        after += duration
    return point, after


def asked_of(bounds, links):
    """What the bounds ask of two executable points each, in any of all situations: the least of `to
    - from <= most`."""
    asked = {}
    for durations in product(*(range(low, high + 1) for _, low, high, _ in links)):
        for _, begin, end, most in bounds:
            from_root, from_after = moments_after(begin, links, durations)
            to_root, to_after = moments_after(end, links, durations)
            key, weight = (from_root, to_root), most + from_after - to_after
            asked[key] = min(weight, asked.get(key, weight))
    return asked


def strong(text):
    """The least strong schedule of a plan, as a list of pairs, or None."""
    points, bounds, links = read(text)
    if ring(links):
        return None
    asked = asked_of(bounds, links)
    contingent = {to for _, _, _, to in links}
    times = {point: 0 for point in points if point not in contingent}
    for _ in range(len(points) + 1):
        changed = False
        for (begin, end), weight in asked.items():
            if times[end] - times[begin] > weight:
                times[begin] = times[end] - weight
                changed = True
        if not changed:
            return list(times.items())
    return None


def refutes(text, lines):
    """Whether the lines of a strong certificate show that a plan has no strong schedule, from the
    lowest point on, without a point twice, and by a ring where its links have one."""
    points, bounds, links = read(text)
    if not lines or lines[0] != "strong 1" or lines[-1] != "end":
        return False
    words = [line.split() for line in lines[1:-1]]
    if ring(links):
        walked = [line[1] for line in words if line[0] == "ring"]
        pairs = zip([*walked[-1:], *walked[:-1]], walked)
        joined = all((before, point) in {(begin, to) for begin, _, _, to in links} for before, point in pairs)
    else:
        walked = [line[2] for line in words if line[0] == "by"]
        joined = holds(words, bounds, links)
    numbers = [points.index(point) for point in walked]
    whole = bool(walked) and len(walked) == len(words)
    return whole and joined and len(set(walked)) == len(walked) and numbers[0] == min(numbers)


def holds(words, bounds, links):
    """Whether each line is what its bound asks in some situation, and the lines are a closed walk
    of negative total."""
    of_name = {bound[0]: bound for bound in bounds}
    for _, name, begin, end, weight in words:
        if asked_of([of_name[name]], links) != {(begin, end): int(weight)}:
            return False
    ends = [line[3] for line in words]
    begins = [line[2] for line in words]
    return ends == [*begins[1:], *begins[:1]] and sum(int(line[4]) for line in words) < 0


MOST_WEIGHT = 10**12


class Chains:
    """The chain of each point, as the links up to its root, None where it comes to a ring."""

    def __init__(self, text):
        self.points, bounds, links = read(text)
        self.bounds = {name: (begin, end, most) for name, begin, end, most in bounds}
        self.into = {link[3]: link for link in links}

    def of(self, point):
        chain = []
        while point in self.into:
            if self.into[point] in chain:
                return None
            chain.append(self.into[point])
            point = chain[-1][0]
        return chain

    def root(self, point):
        return self.of(point)[-1][0] if self.of(point) else point

    def reduced(self, name):
        """The ends and the weight of the reduced edge of a bound, None where one of its points has
        no root."""
        begin, end, most = self.bounds[name]
        first, second = self.of(begin), self.of(end)
        if first is None or second is None:
            return None
        most -= sum(high for _, _, high, _ in (link for link in second if link not in first))
        most += sum(low for _, low, _, _ in (link for link in first if link not in second))
        return self.root(begin), self.root(end), most


def refusal(chains, line):
    """By what a line is refused alone, or None."""
    if line[0] == "ring":
        return None if line[1] in chains.into else "unknown-item"
    _, name, begin, end, weight = line
    if name not in chains.bounds or begin not in chains.points or end not in chains.points:
        return "unknown-item"
    if abs(int(weight)) > MOST_WEIGHT:
        return "weight-range"
    edge = chains.reduced(name)
    if edge is None or edge[:2] != (begin, end):
        return "ends"
    return None if int(weight) >= edge[2] else f"too-low {weight} {edge[2]}"


def judged(text, lines):
    """What is said of a strong certificate of these lines, all of one kind."""
    chains, words = Chains(text), [line.split() for line in lines]
    for number, line in enumerate(words, 1):
        if refusal(chains, line):
            return f"refused {number} {refusal(chains, line)}"
    if not words:
        return "refused 1 walk-broken"
    if words[0][0] == "ring":
        for number, (before, line) in enumerate(zip([words[-1], *words], words), 1):
            if chains.into[line[1]][0] != before[1]:
                return f"refused {number} walk-broken"
        return "accepted not strongly controllable"
    for number, (before, line) in enumerate(zip(words, words[1:]), 2):
        if line[2] != before[3]:
            return f"refused {number} walk-broken"
    if words[-1][3] != words[0][2]:
        return f"refused {len(words)} walk-broken"
    total = sum(int(line[4]) for line in words)
    return f"refused {len(words)} walk-not-negative {total}" if total >= 0 else "accepted not strongly controllable"
