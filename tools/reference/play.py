"""`play` and `forge` once more, by the definitions in situation_player/specs, without a line of the
program.

`play(text, which)` takes a plan without faults, the word that names a situation and a delay, and
returns what `play` prints of it; `forge(number, tasks)` returns what `forge` prints. The moments
are those that the negative edges of the closed table ask for, point by point; there is no
execution.
"""

from inputs.days import text
from inputs.plans import forged
from reference.check import Plan, check, rounds_of


def situation(which, links):
    """How long each link lasts."""
    if which == "longest":
        return [high for _, _, high, _ in links]
    left, durations = 0 if which == "shortest" else int(which), []
    for _, low, high, _ in links:
        left, more = divmod(left, high - low + 1)
        durations.append(low + more)
    return durations


def earliest(rounds, durations):
    """The earliest schedule by a closed table: a link's end comes by its duration, any other point
    when all its negative edges allow it."""
    links, moments = rounds.plan.links, {}
    leaving = {}
    for target, source, label in rounds.newest:
        weight = rounds.weight((target, source, label))
        if weight < 0:
            leaving.setdefault(source, []).append((target, label, -weight))

    def asked(target, label, least):
        after = moment(target) + least
        return after if label < 0 else min(moment(links[label][3]), after)

    def moment(point):
        if point not in moments:
            link = rounds.link_to.get(point)
            if link is None:
                moments[point] = max([0, *(asked(*edge) for edge in leaving.get(point, []))])
            else:
                moments[point] = moment(links[link][0]) + durations[link]
        return moments[point]

    return [moment(point) for point in range(len(rounds.plan.points))]


def play(text, which, delay=None):
    rounds, cycle, _ = rounds_of(text, delay)
    if cycle is not None:
        return check(text, delay=delay)[0]
    plan, ends = Plan(text), rounds.link_to
    delay = plan.delay if delay is None else delay
    durations = situation(which, plan.links)
    shown = [duration if start in ends else duration + delay for duration, (start, _, _, _) in zip(durations, plan.links)]
    schedule = [moment - delay if point in ends else moment for point, moment in enumerate(earliest(rounds, shown))]
    return "".join(["controllable\n", *(f"time {name} {moment}\n" for name, moment in zip(plan.points, schedule))])


def forge(number, tasks):
    plan = text(forged(number, tasks)).decode()
    rounds, cycle, _ = rounds_of(plan)
    made = rounds.plan
    lines = [f"points {len(made.points)}", f"links {len(made.links)}", f"bounds {len(made.bounds)}"]
    if cycle is None:
        last = max(earliest(rounds, situation("longest", made.links)))
        lines += ["controllable", f"entries {len(rounds.newest)}", f"last {last}"]
    else:
        rules = [line for line in rounds.refutation(cycle)[3:-1] if not line.startswith("walk ")]
        lines += ["not controllable", f"lines {len(rules)}"]
    return "\n".join([*lines, "accepted"]) + "\n"
