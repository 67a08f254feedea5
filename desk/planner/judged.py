"""Certificates that the program has made and judged."""

from planner.explain import refusal
from planner.faults import Fault, Status
from planner.program import Source


def refuted(program, source, path):
    """What `check` answers to a plan, and the lines of its refutation, which `judge` has accepted; no lines for a plan that can be kept."""
    answer = program.call(["check"], source)
    if answer.is_refused:
        raise refusal(source, answer, path)
    if answer.is_kept:
        return answer, []
    lines = answer.certificate()
    certificate = Source("".join(f"{line}\n" for line in lines), origin=f"{answer.call} | sed 1d")
    judged = program.call(["judge"], source, certificate)
    if judged.lines != ["accepted not controllable"]:
        raise Fault(f"the program's own judge does not accept its refutation: {' '.join(judged.lines)}", Status.DEFECT)
    return answer, lines
