"""Finds one schedule for every day: a moment for each point that is executed, right whatever the links take.

Nobody needs to watch then, so a delay says nothing here. If there is none, it tells which bounds ask too much of one schedule; the
certificate is judged first. The plan may still be kept by somebody who watches, which 'planner check' says.
"""

import textwrap

from planner.drawing.scale import scale_of
from planner.explain import refusal
from planner.faults import Fault, Status
from planner.options import add_clock, add_plan
from planner.output import hand_on, tell, width
from planner.plan import Plan, load
from planner.program import Source

EXAMPLE = """
  planner fixed examples/rover/plan.stnu"""


def add_words(parser):
    add_plan(parser)
    add_clock(parser)


def run(args):
    scale, source = scale_of(args.clock), load(args.plan)
    answer = args.program.call(["strong"], source)
    if answer.is_refused:
        raise refusal(source, answer, args.plan)
    if answer.is_kept:
        moments = [line.split()[1:] for line in answer.lines[1:]]
        report_schedule(args, moments, scale)
    else:
        certificate = answer.certificate()
        judge(args.program, source, answer, certificate)
        report_refusal(args, answer, Plan.of(source), certificate)
    return Status(answer.status)


def judge(program, source, answer, certificate):
    """Has the program judge its own strong certificate."""
    lines = Source("".join(f"{line}\n" for line in certificate), origin=f"{answer.call} | sed 1d")
    judged = program.call(["judge", "--strong"], source, lines)
    if judged.lines != ["accepted not strongly controllable"]:
        raise Fault(f"the program's own judge does not accept its certificate: {' '.join(judged.lines)}", Status.DEFECT)


def report_schedule(args, moments, scale):
    if args.json:
        hand_on({"plan": args.plan, "answer": "strongly controllable", "moments": {name: int(moment) for name, moment in moments}})
        return
    tell("one schedule is right on every day:")
    ordered = sorted(moments, key=lambda it: int(it[1]))
    times = [scale.text(int(moment)) for _, moment in ordered]
    widest = max(map(len, times), default=0)
    for (name, _), time in zip(ordered, times):
        tell(f"  {time:>{widest}}  {name}")


def report_refusal(args, answer, plan, certificate):
    if args.json:
        hand_on({"plan": args.plan, "answer": answer.first, "certificate": certificate})
        return
    tell("no one schedule is right on every day:")
    for number, line in enumerate(certificate[1:-1], 1):
        text = sentence(plan, line.split())
        tell(textwrap.fill(text, width(), initial_indent=f"{number:>6}  ", subsequent_indent=" " * 8, break_on_hyphens=False))
    tell(ending(certificate))
    tell("somebody who watches may still keep the plan: 'planner check' says whether")


def sentence(plan, words):
    """A line of a strong certificate as a sentence."""
    match words:
        case ["by", name, start, end, weight]:
            number = int(weight)
            way = f"{end} comes at most {number} after {start}" if number >= 0 else f"{start} comes at least {-number} after {end}"
            return f"{way}: so {name} wants it in the worst case (line {plan.line(name)}: {plan.bounds[name].line_text()})."
        case ["ring", point]:
            return f"{point} waits for the link from {plan.links[point].start} (line {plan.line(point)})."
    raise ValueError(f"no line of a strong certificate: {' '.join(words)}")


def ending(certificate):
    """What the lines of a strong certificate come to."""
    weights = [int(line.split()[-1]) for line in certificate if line.startswith("by ")]
    if not weights:
        return "        So each of these waits for another, and none comes."
    return f"        These cannot be together: {-sum(weights)} {'is' if sum(weights) == -1 else 'are'} wanting."
