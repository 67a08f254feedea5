"""`deadline` once more, by a slow search with check.py, without a line of the program.

`deadline(text, begin, end)` takes a plan without faults and the names of two of its points, and
returns what `deadline` prints of it. Where the plan's own numbers come to little, it tries each
number from the least to the greatest that they can come to, and sees that none below the deadline
will do and each above it does; else it halves what is between. `with_goal(text, begin, end, most)`
is the plan with the bound of the goal at a number.
"""

from itertools import count

from reference.check import Plan, check

MOST = 1_000_000_000
FAR = 1_000


def goal_name(plan):
    """The first of `goal`, `goal.1`, `goal.2` and so on that no bound has."""
    taken = {bound[0] for bound in plan.bounds}
    return next(name for name in ("goal" if number == 0 else f"goal.{number}" for number in count()) if name not in taken)


def with_goal(text, begin, end, most):
    """The plan with one bound more, before its last line."""
    lines = text.splitlines()
    last = lines.index("end")
    bound = f"bound {goal_name(Plan(text))} {begin} {end} {most}"
    return "\n".join([*lines[:last], bound, *lines[last:]]) + "\n"


def reach(plan):
    """More than the numbers of the plan come to, as it is stated or shown."""
    numbers = [abs(bound[3]) for bound in plan.bounds] + [link[2] for link in plan.links]
    return sum(numbers) + (len(numbers) + 2) * plan.delay + 1


def certificate(text, proof):
    """What `check`, or `check --proof`, prints after the verdict, which must be so."""
    said = check(text, proof)[0]
    first, _, rest = said.partition("\n")
    assert first == ("controllable" if proof else "not controllable")
    return rest


def least(is_kept, far):
    """The least number that will do, of which -`far` is none and `far` is one, or, where that is
    too far, the least and the greatest of a plan."""
    if far <= FAR:
        kept = [most for most in range(-far, far + 1) if is_kept(most)]
        assert kept and kept == list(range(kept[0], far + 1)) and kept[0] > -far
        return kept[0]
    below, above = -MOST, MOST
    while above - below > 1:
        middle = (below + above) // 2
        below, above = (below, middle) if is_kept(middle) else (middle, above)
    return above


def deadline(text, begin, end):
    said = check(text)[0]
    if not said.startswith("controllable\n"):
        return said

    def at(most):
        return with_goal(text, begin, end, most)

    def is_kept(most):
        return check(at(most))[0] == "controllable\n"

    head = f"controllable\ndeadline {begin} {end} "
    if not is_kept(MOST):
        return f"{head}none\n{certificate(at(MOST), False)}"
    if is_kept(-MOST):
        return f"{head}at-most {-MOST}\n{certificate(at(-MOST), True)}"
    most = least(is_kept, reach(Plan(text)))
    return f"{head}{most}\n{certificate(at(most), True)}{certificate(at(most - 1), False)}"
