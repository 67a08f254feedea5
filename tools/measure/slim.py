"""Tells how many lower bounds and waits a dispatchable network has, and how many of them no others
imply.

The plans are by default those of the examples that some strategy controls, and after them days of
20, 100, 200, 500 and 1,000 points and drawn days of 200, 500 and 1,000, as `measure run` and
`measure check` have them. The lists are those that `table` of a session prints; what others imply
is found here once more, by the rules of dispatch_net/specs/Slim. Prints a line for each plan.
"""

import subprocess
from pathlib import Path

from inputs.days import day, text
from inputs.plans import tasks
from shared import front
from shared.places import EXAMPLES


class Lists:
    """The lower bounds of each point, by the point, and its waits, by the contingent point; and the
    links, by theirs."""

    def __init__(self, plan, lines):
        self.bounds, self.waits, self.links = {}, {}, {}
        for word, *rest in (line.split() for line in plan.splitlines() if line.strip()):
            if word == "point":
                self.bounds[rest[0]], self.waits[rest[0]] = {}, {}
            elif word == "link":
                self.links[rest[3]] = (rest[0], int(rest[1]))
        for word, *rest in (line.split() for line in lines):
            if word in ("after", "wait"):
                point, other, moments = rest
                (self.bounds if word == "after" else self.waits)[point][other] = int(moments)

    def implies_bound(self, other, moments, bound):
        point, asked = bound
        activation, low = self.links.get(other, (None, 0))
        by_link = activation == point and asked <= moments + low
        return by_link or asked <= moments + self.bounds[other].get(point, float("-inf"))

    def implies_wait(self, other, moments, wait):
        completion, asked = wait
        if other == completion or (other == self.links[completion][0] and asked <= moments):
            return True
        return asked <= moments + self.waits[other].get(completion, float("-inf"))

    def kept(self, point):
        """How many of its lower bounds and of its waits no others imply."""
        others = list(self.bounds[point].items())[::-1]

        def left(implies, items):
            return sum(not any(implies(*other, item) for other in others) for item in items)

        bounds, waits = self.bounds[point].items(), self.waits[point].items()
        return left(self.implies_bound, bounds), left(self.implies_wait, waits)


def lists(program, plan):
    """The lists of a plan, or None where no strategy controls it."""
    done = subprocess.run([program, "session"], input=plan + "table\nend\n", capture_output=True, text=True, check=True)
    lines = done.stdout.splitlines()
    return Lists(plan, lines[1:-1]) if lines[-1] == "table end" else None


def told(name, all_lists):
    count = lambda by_point: sum(len(items) for items in by_point.values())
    kept = [all_lists.kept(point) for point in all_lists.bounds]
    before, after = count(all_lists.bounds) + count(all_lists.waits), sum(sum(pair) for pair in kept)
    share = f"{1 - after / before:.1%}" if before else "none"
    return (
        f"{name}: {count(all_lists.bounds)} lower bounds and {count(all_lists.waits)} waits, of which "
        f"{sum(bounds for bounds, _ in kept)} and {sum(waits for _, waits in kept)} are kept; {share} are left out"
    )


def plans(names):
    """Each plan by a name."""
    for name in names or sorted(EXAMPLES.glob("*/*.stnu")):
        yield str(name), Path(name).read_text()
    if not names:
        for points in (20, 100, 200, 500, 1000):
            yield f"a day of {points} points", text(day(points, True)).decode()
        for points in (200, 500, 1000):
            yield f"a drawn day of {points} points", text(tasks(points, True)).decode()


def words(parser):
    front.program(parser)
    parser.add_argument("plans", nargs="*", metavar="PLAN", help="the file of a plan")


def main(given):
    for name, plan in plans(given.plans):
        found = lists(given.program, plan)
        if found:
            print(told(name, found), flush=True)
