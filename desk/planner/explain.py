"""Tells what is the matter with a plan that the program refuses: each fault with its line, its word and the form that was wanted."""

from planner.faults import Fault, Status
from planner.plan import STANDARD_INPUT, read, told

# So many faults are told where a plan is refused: of a file that is none there are as many as lines.
MOST_TOLD = 10


def said_by(answer):
    """The line with which the program refused its input."""
    return answer.lines[-1] if answer.lines else "nothing"


def refusal(source, answer, path):
    """The fault with which a command ends if the program has refused its plan: what it said, and each fault that is found in it."""
    said = said_by(answer)
    lines = [f"the program says: {said}"]
    if answer.status in (Status.PLAN, Status.LIMIT):
        faults = [it for it in read(source)[2] if it.is_fault]
        # What planner finds stands beside what the program says only where both find the same first.
        if faults and faults[0].told == said:
            lines += [told(path, it) for it in faults[:MOST_TOLD]]
            more = len(faults) - MOST_TOLD
            call = "planner lint" if path == STANDARD_INPUT else f"planner lint {path}"
            lines += [f"and {more} more, which '{call}' tells"] if more > 0 else []
    return Fault("\n".join(lines), answer.status)
