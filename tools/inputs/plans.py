"""Plans of any number of points, to measure with: each by its points and whether it can be kept."""

import random

from inputs.days import day


def chain(points, kept):
    """A chain of bounds, each step 5 to 10 moments long, of which the whole is held to a length."""
    lines = [f"point p{i}" for i in range(points)]
    for i in range(points - 1):
        lines += [f"bound most{i} p{i} p{i + 1} 10", f"bound least{i} p{i + 1} p{i} -5"]
    lines.append(f"bound whole p0 p{points - 1} {5 * (points - 1) - (0 if kept else 1)}")
    return lines


def crossing(points, kept):
    """Links side by side, each of whose completions must not come long after the next one's."""
    count = points // 2
    each = range(count)
    lines = [f"point {kind}{i}" for i in each for kind in ("begin", "done")]
    lines += [f"link begin{i} 1 10 done{i}" for i in each]
    lines += [f"bound close{i} done{i} done{i + 1} {9 if kept else 8}" for i in range(count - 1)]
    lines += [f"bound again{i} done{i + 1} done{i} {9 if kept else 8}" for i in range(count - 1)]
    return lines


class Draws:
    """The draws of a start: whole numbers below a limit, by a linear congruence."""

    def __init__(self, start):
        self.state = start

    def below(self, limit):
        self.state = (1103515245 * self.state + 12345) % 2147483648
        return self.state // 65536 % limit


def forged(start, tasks, cut=None):
    """What `stnu forge START TASKS` forges, with its parts in the same order: each task is a link,
    a watch near its end, and a gap to the next one."""
    draws = Draws(start)
    drawn = []
    for _ in range(tasks):
        low = 1 + draws.below(20)
        drawn.append((low, low + draws.below(20), draws.below(10), draws.below(20), draws.below(5)))
    cut = draws.below(2) if cut is None else cut
    lines = [f"point {kind}{i}" for i in range(1, tasks + 1) for kind in "sew"]
    for i, (low, high, _, early, late) in enumerate(drawn, 1):
        lines += [f"link s{i} {low} {high} e{i}", f"bound v{i} w{i} e{i} {early}", f"bound u{i} e{i} w{i} {late}"]
    for i, (_, _, slack, _, _) in enumerate(drawn[:-1], 1):
        lines += [f"bound g{i} s{i + 1} e{i} 0", f"bound h{i} e{i} s{i + 1} {slack}"]
    lines.append(f"bound dl s1 e{tasks} {sum(high for _, high, _, _, _ in drawn) - cut}")
    return lines


def tasks(points, kept):
    """A drawn day of as many tasks of three points as there are points for."""
    return forged(9, max(1, points // 3), 0 if kept else 1)


def visits(points, kept):
    """Visits one after another, two for each five points: nature decides how long each takes, every
    second one is followed by a note within a window, and the whole has an end, which is one moment
    too soon where the plan cannot be kept."""
    draws, count = Draws(1), points * 2 // 5
    names, lines, least = [], [], 0
    for i in range(1, count + 1):
        low = 5 + draws.below(26)
        high = low + draws.below(31)
        least += high
        names += [f"begin{i}", f"done{i}"]
        lines.append(f"link begin{i} {low} {high} done{i}")
        if i % 2 == 0:
            names.append(f"note{i}")
            lines += [f"bound early{i} note{i} done{i} {draws.below(20)}", f"bound late{i} done{i} note{i} {5 + draws.below(11)}"]
        if i < count:
            lines += [f"bound after{i} begin{i + 1} done{i} 0", f"bound soon{i} done{i} begin{i + 1} {draws.below(16)}"]
    lines.append(f"bound whole begin1 done{count} {least - (0 if kept else 1)}")
    return [f"point {name}" for name in names] + lines


def last_moments(points, after):
    """The least moment of each point, where each comes so long after those before it in the
    list."""
    moments = {}
    for point in points:
        moments[point] = max((moments[first] + least for first, least in after[point]), default=0)
    return moments


def lanes(points, kept):
    """Ten lanes of tasks, of which nature decides each second one, with bounds across: a task waits
    for tasks of other lanes, and the whole has an end."""
    draw, width = random.Random(points), 10
    rows = max(1, (points - 2) // (2 * width))
    names, after, lines = ["start"], {"start": []}, []
    for row in range(rows):
        for lane in range(width):
            begin, done = f"b{row}x{lane}", f"d{row}x{lane}"
            low = draw.randint(1, 10)
            high = low + draw.randint(1, 20)
            waits = [(f"d{row - 1}x{lane}" if row else "start", draw.randint(0, 5))]
            waits += [(f"d{row - 1}x{draw.randrange(width)}", draw.randint(0, 9)) for _ in range(2 if row else 0)]
            after[begin], after[done] = waits, [(begin, high)]
            names += [begin, done]
            lines += [f"bound w{row}x{lane}n{i} {begin} {first} {-least}" for i, (first, least) in enumerate(waits)]
            if lane % 2:
                lines.append(f"link {begin} {low} {high} {done}")
            else:
                lines += [f"bound m{row}x{lane} {begin} {done} {high + 5}", f"bound l{row}x{lane} {done} {begin} {-high}"]
    after["whole"] = [(f"d{rows - 1}x{lane}", 0) for lane in range(width)]
    names.append("whole")
    lines += [f"bound e{lane} whole d{rows - 1}x{lane} 0" for lane in range(width)]
    lines.append(f"bound end start whole {last_moments(names, after)['whole'] - (0 if kept else 1)}")
    return [f"point {name}" for name in names] + lines


def dense(points, kept, many=10):
    """Points of which each comes after ten drawn ones before it, or so many, and not too long after
    half as many; nature decides each fifth."""
    draw = random.Random(points)
    names, after, lines = ["p0"], {"p0": []}, []
    for i in range(1, points - 1):
        name = f"p{i}"
        if i % 5 == 4:
            low = draw.randint(1, 10)
            high = low + draw.randint(1, 20)
            after[name] = [(f"p{i - 1}", high)]
            lines.append(f"link p{i - 1} {low} {high} {name}")
        else:
            firsts = {0} | {draw.randrange(i) for _ in range(many)}
            after[name] = [(f"p{first}", draw.randint(0, 30)) for first in sorted(firsts)]
            lines += [f"bound a{i}n{first} {name} {first} {-least}" for first, least in after[name]]
        names.append(name)
    last = f"p{points - 1}"
    after[last] = [(name, 1) for name in names]
    lines += [f"bound z{name} {last} {name} -1" for name in names]
    names.append(last)
    moments = last_moments(names, after)
    for i in range(1, points - 1):
        if i % 5 != 4:
            for first in sorted({draw.randrange(i) for _ in range(many // 2)}):
                if first % 5 != 4 or first == 0:
                    lines.append(f"bound m{i}n{first} p{first} p{i} {moments[f'p{i}'] - moments[f'p{first}'] + draw.randint(0, 20)}")
    lines.append(f"bound end p0 {last} {moments[last] - (0 if kept else 1)}")
    return [f"point {name}" for name in names] + lines


def falling(points, kept):
    """A chain in which each point comes after the one before it, with ten points that it follows
    from far: their edges into the chain fall by one moment in each round."""
    far = min(10, points // 2)
    steps = points - far
    lines = [f"point p{i}" for i in range(steps)] + [f"point q{i}" for i in range(far)]
    lines += [f"bound s{i} p{i + 1} p{i} -1" for i in range(steps - 1)]
    lines += [f"bound f{i} q{i} p{steps - 1} {2 * points + i}" for i in range(far)]
    if not kept:
        lines.append(f"bound whole p0 p{steps - 1} {steps - 2}")
    return lines


def loops(points, kept):
    """Links round one contingent point, one for each two points: its loop, unrolled, is twice as
    long with each link more, and its refutation has `2 * n * n + 5 * n` lines for `n` links."""
    count = points // 2
    lines = ["point X"] + [f"point {kind}{j}" for j in range(1, count + 1) for kind in "AC"]
    lines += [f"link A{j} 1 {count + 3 if j == 1 else j + 2} C{j}" for j in range(1, count + 1)]
    for j in range(2, count + 1):
        lines += [f"bound out{j} C1 C{j} 1", f"bound back{j} C{j} C1 {count + 2 * j - 1}"]
    lines += [f"bound before C1 X {-count}", f"bound after X C1 {3 * count + (1 if kept else 0)}"]
    return lines


KINDS = {
    "chain": chain,
    "tasks": tasks,
    "visits": visits,
    "lanes": lanes,
    "dense": dense,
    "falling": falling,
    "crossing": crossing,
    "loops": loops,
    "day": day,
}
