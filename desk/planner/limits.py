"""How far a number of a plan may go: found by halving, and both sides of it checked by the program at last."""

from bisect import bisect_left

from planner.certificate import Numbers
from planner.parts import LARGEST, LARGEST_DELAY
from planner.trials import Trials


def furthest(keeps, start, limit):
    """The number furthest from the start, up to the limit, with which a plan can be kept, as it can with the start."""
    sign = 1 if limit >= start else -1
    near, step, room = 0, 1, abs(limit - start)
    while near < room and keeps(start + sign * min(near + step, room)):
        near, step = min(near + step, room), 2 * step
    beyond = range(near + 1, min(near + step, room) if near < room else near + 1)
    return start + sign * (near + bisect_left(beyond, True, key=lambda amount: not keeps(start + sign * amount)))


def shown_both(trials, found, changed, limit):
    """Has the program check a number that was found, and the next one, where there is one."""
    program, sign = trials.program, 1 if limit >= found else -1
    for number in [found] if found == limit else [found, found + sign]:
        program.call(["check"], trials.source_with(changed(number)))
    return found


def interval_of(program, plan, end):
    """The least and the greatest duration of a link with which the plan can be kept, each where the other is as in the plan; None where
    there is none."""
    low, high = Numbers.of(plan).spans[end]
    with Trials(program, plan, [], 0.0) as trials:
        base = trials.base

        def up_to(number):
            return base.other(spans={end: (low, number)})

        def from_on(number):
            return base.other(spans={end: (number, high)})

        def keeps(change):
            return lambda number: trials.keeps(change(number))

        if trials.keeps(base):
            longest = furthest(keeps(up_to), high, LARGEST)
            shortest = shown_both(trials, furthest(keeps(from_on), low, 1), from_on, 1)
        elif trials.keeps(up_to(low)):
            longest, shortest = furthest(keeps(up_to), low, high), None
        else:
            return None, None
        return shortest, shown_both(trials, longest, up_to, LARGEST)


def greatest_delay(program, plan):
    """The greatest delay with which a plan can be kept; None where there is none."""
    with Trials(program, plan, [], 0.0) as trials:

        def with_delay(number):
            return trials.base.other(delay=number)

        if not trials.keeps(with_delay(0)):
            return None
        found = furthest(lambda number: trials.keeps(with_delay(number)), 0, LARGEST_DELAY)
        return shown_both(trials, found, with_delay, LARGEST_DELAY)
