"""Compares `strong` and `judge --strong` with tools/reference, which goes through all situations,
and judges test by test.

Random plans of two to six points and up to four links, of at most four durations each, of both
versions, some with a delay, which plays no part; so a plan has at most 256 situations. A schedule
must be the least one; a certificate must be one that the plan's situations bear out, by a ring
where the links have one, without a point twice, from its lowest point, and `judge --strong` must
accept it, and refuse it where one of its weights is less by one. To each plan a certificate is
drawn, too, most often one of lines that follow on one another, of which some say something else,
and judged by both. Prints each plan whose answer differs, how often each judgement of drawn
certificates came, and last how many plans there were, how many answers differ, and how many of the
plans have a strong schedule.
"""

import random

from inputs.random_plans import between_line, random_header
from reference.strong import MOST_WEIGHT, Chains, judged, refutes, strong
from shared import front
from shared.answers import Differences, given_at_once, words_alone


def drawn_plan(draw):
    count = draw.randint(2, 6)
    header = random_header(draw)
    lines = header + [f"point p{i}" for i in range(count)]
    ends = draw.sample(range(count), draw.randint(0, count // 2 + 1))
    for end in ends:
        begin = draw.choice([i for i in range(count) if i != end])
        low = draw.randint(1, 4)
        lines.append(f"link p{begin} {low} {low + draw.randint(0, 3)} p{end}")
    for number in range(draw.randint(1, 2 * count)):
        begin, end = draw.randrange(count), draw.randrange(count)
        lines.append(f"bound b{number} p{begin} p{end} {draw.randint(-6, 12)}")
    if draw.random() < 0.4:
        begin, end = draw.randrange(count), draw.randrange(count)
        lines.append(between_line(draw, header, 0, f"p{begin}", f"p{end}"))
    return "\n".join([*lines, "end"]) + "\n"


def run(command, text):
    return given_at_once(command, text.encode())


def lowered(certificate):
    """A certificate of bounds with the weight of its first line less by one."""
    words = certificate[1].split()
    return [certificate[0], " ".join([*words[:-1], str(int(words[-1]) - 1)]), *certificate[2:]]


def is_judged(program, plan, certificate):
    """Whether the certificate is accepted, and refused with a lower weight."""
    judge = [program, "judge", "--strong"]
    text = plan + "\n".join(certificate) + "\n"
    if run(judge, text) != ("accepted not strongly controllable\n", 0):
        return False
    if certificate[1].startswith("ring"):
        return True
    said, status = run(judge, plan + "\n".join(lowered(certificate)) + "\n")
    return said.startswith("refused 1 too-low ") and status == 1


def is_right(program, plan):
    said, status = run([program, "strong"], plan)
    times = strong(plan)
    if times is not None:
        wanted = ["strongly controllable", *(f"time {name} {moment}" for name, moment in times)]
        return (said, status) == ("\n".join(wanted) + "\n", 0)
    first, *lines = said.splitlines()
    is_no = (first, status) == ("not strongly controllable", 1)
    return is_no and refutes(plan, lines) and is_judged(program, plan, lines)


def drawn_weight(draw, weight):
    if draw.random() < 0.02:
        return draw.choice([MOST_WEIGHT, MOST_WEIGHT + 1, -MOST_WEIGHT - 1])
    return weight + draw.choice([0, 0, 0, 0, 0, 0, 1, 3, -1])


def drawn_lines(draw, chains, count):
    """Lines of bounds, most of which begin where the one before ended."""
    lines, at = [], None
    edges = {name: chains.reduced(name) or (*chains.bounds[name][:2], 0) for name in chains.bounds}
    while len(lines) < count:
        name = draw.choice([name for name in edges if edges[name][0] == at] or list(edges))
        begin, at, weight = edges[name]
        words = ["by", name, begin, at, str(drawn_weight(draw, weight))]
        if draw.random() < 0.04:
            words[draw.randint(1, 3)] = draw.choice([*chains.points, "b0", "x"])
        lines.append(" ".join(words))
    return lines


def drawn_ring(draw, chains, count):
    """Lines of points of a ring, most of which follow on one another."""
    lines, point = [], draw.choice(chains.points)
    while len(lines) < count:
        lines.append(f"ring {point}")
        onward = [end for end, link in chains.into.items() if link[0] == point]
        point = draw.choice(onward if onward and draw.random() < 0.9 else chains.points)
    return lines


def drawn_certificate(draw, plan):
    chains = Chains(plan)
    # Where links have a ring, a ring is most often drawn.
    rings = any(chains.of(point) is None for point in chains.points)
    drawn = drawn_ring if draw.random() < (0.7 if rings else 0.05) else drawn_lines
    return drawn(draw, chains, draw.choice([0, 1, 1, 2, 2, 2, 3, 3, 4, 5]))


def words(parser):
    front.program(parser)
    front.drawn(parser, 500, "plans")


def main(given):
    draw, seen, kept = random.Random(given.seed), Differences(), 0
    for _ in range(given.count):
        plan = drawn_plan(draw)
        kept += strong(plan) is not None
        if not is_right(given.program, plan):
            seen.count += 1
            print(plan)
        lines = drawn_certificate(draw, plan)
        wanted = judged(plan, lines)
        seen.kinds[words_alone(wanted)] += 1
        text = plan + "\n".join(["strong 1", *lines, "end"]) + "\n"
        said = run([given.program, "judge", "--strong"], text)
        if said != (f"{wanted}\n", 0 if wanted.startswith("accepted") else 1):
            seen.count += 1
            print(plan, *lines, f"{said} and not {wanted}", sep="\n")
    return seen.end(f"{given.count} plans, {seen.count} answers differ, {kept} plans have a strong schedule")
