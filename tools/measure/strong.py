"""Measures `strong`, beside `check` of the same plan, and `judge --strong` of the certificate.

The plans are dense ones (tools/inputs/plans.py) of 1,000 points and 20,000 bounds; days of 2,000
points and 800 links, of which each begins after the one before, with bounds across up to 20,000;
and 100, 200, 400 and 800 links one after another, each of which begins where the one before ends,
with bounds between all their points, of which so many are drawn that there are at most 20,000. Of
each there is one plan that has a strong schedule, and one that lacks it by one moment. Prints of
each the verdict, wall and user seconds and MiB, of TRIES the run of fewest user seconds. Where
there is a schedule `check` runs in turn with it, and how many times its user seconds `strong` took
is printed too; where there is none, the certificate is judged. The load of the machine comes first.
"""

import random

from inputs.days import text
from inputs.plans import dense
from shared import front
from shared.costs import TRIES, in_turn, load, run

MOST_BOUNDS = 20_000


def filled(lines, more):
    """The same with further bounds, up to as many as a plan may have."""
    left = MOST_BOUNDS - sum(line.startswith("bound ") for line in lines)
    return lines + [f"bound more{number} {bound}" for number, bound in zip(range(left), more)]


def packed(points, kept):
    return filled(dense(points, kept, 16), (f"p0 p{i} 1000000" for i in range(1, points)))


def spread(points, kept):
    """Two links for each five points, one after another, and a note after every second."""
    draw, count = random.Random(points), points * 2 // 5
    names, lines, least = [], [], 0
    for i in range(count):
        low = draw.randint(5, 30)
        high = low + draw.randint(0, 30)
        least += high
        names += [f"begin{i}", f"done{i}"]
        lines.append(f"link begin{i} {low} {high} done{i}")
        if i % 2:
            names.append(f"note{i}")
            lines.append(f"bound early{i} note{i} done{i} 0")
        if i:
            lines.append(f"bound after{i} begin{i} done{i - 1} 0")
    lines.append(f"bound whole begin0 done{count - 1} {least - (0 if kept else 1)}")
    pairs = (sorted(draw.sample(range(count), 2)) for _ in range(MOST_BOUNDS))
    return [f"point {name}" for name in names] + filled(lines, (f"begin{j} done{i} 0" for i, j in pairs))


def in_a_row(links, kept):
    """Links one after another, and bounds between all their points: each as far from each as the
    links may take, or at least must."""
    draw = random.Random(links)
    sums, lines = [(0, 0)], [f"point p{i}" for i in range(links + 1)]
    for i in range(links):
        low = draw.randint(1, 10)
        high = low + draw.randint(0, 10)
        sums.append((sums[-1][0] + low, sums[-1][1] + high))
        lines.append(f"link p{i} {low} {high} p{i + 1}")
    pairs = [(i, j) for i in range(links + 1) for j in range(i)]
    draw.shuffle(pairs)
    for i, j in pairs[: MOST_BOUNDS // 2 - 1]:
        lines.append(f"bound most{i}.{j} p{j} p{i} {sums[i][1] - sums[j][1]}")
        lines.append(f"bound least{i}.{j} p{i} p{j} {sums[j][0] - sums[i][0]}")
    return lines + [f"bound whole p0 p{links} {sums[-1][1] - (0 if kept else 1)}"]


PLANS = [("dense", packed, 1000), ("spread", spread, 2000)]
PLANS += [("in a row", in_a_row, links) for links in (100, 200, 400, 800)]


def count(lines, word):
    return sum(line.startswith(word) for line in lines)


def measured(program, name, lines, kept):
    plan = text(lines)
    counts = ", ".join(f"{count(lines, word + ' ')} {word}s" for word in ("point", "link", "bound"))
    head = f"{name}, {counts}"
    if kept:
        strong, check = in_turn([[program, "strong"], [program, "check"]], plan, TRIES)
        both = f"{strong.verdict()}, {strong}; check: {check.verdict()}, {check}"
        print(f"{head}: {both}; {strong.user / max(check.user, 0.01):.2f} times the user seconds of check", flush=True)
        return
    strong = run([program, "strong"], plan)
    certificate = strong.answer.partition(b"\n")[2]
    judged = run([program, "judge", "--strong"], plan + certificate)
    its = f"its {certificate.count(b'by ')} lines: {judged.verdict()}, {judged}"
    print(f"{head}: {strong.verdict()}, {strong}; {its}", flush=True)


def words(parser):
    front.program(parser)


def main(given):
    print(load())
    for name, made, size in PLANS:
        for kept in (True, False):
            measured(given.program, name, made(size, kept), kept)
