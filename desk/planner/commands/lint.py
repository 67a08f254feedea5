"""Lists all faults of plans, and what the program takes but is mostly a slip.

Each line tells the file and the line in it, the word at fault and what is the matter with it; then comes what the program itself says
of the plan. Warned of are text after the line 'end', points that nothing binds, links that nothing waits for, bounds whose ends look
exchanged or whose sign looks forgotten, a LOW above the HIGH of a 'between', and remarks '# fixed' that hold nothing. As long as a plan has
a fault, it is not warned of what the lines at fault may bind or order.
"""

from collections import defaultdict

from planner.explain import said_by
from planner.faults import Status, say
from planner.output import hand_on, tell
from planner.plan import STANDARD_INPUT, Plan, called, lines_after_end, read, source_of, text_of, told
from planner.warnings import warnings_of

EXAMPLE = """
  planner lint examples/rover/plan.stnu"""

# So many warnings of one kind are told one by one.
OFTEN = 5


def add_words(parser):
    parser.add_argument("plans", nargs="*", default=[STANDARD_INPUT], metavar="PLAN", help="files with plans (standard input)")


def run(args):
    return max(looked_at(args, path) for path in args.plans)


def looked_at(args, path):
    """Tells what is found in a plan, and returns the status of what the program says of it."""
    text = text_of(path)
    source = source_of(text, path)
    answer = args.program.call(["show"], source)
    findings = findings_of(source, answer, text)
    if args.json:
        said = "taken" if answer.is_kept else said_by(answer)
        hand_on({"plan": path, "program": said, "findings": [described(it) for it in findings]})
    else:
        for line in lines_told(path, findings):
            tell(line)
        tell(summary(path, findings, answer))
    return Status(answer.status)


def findings_of(source, answer, text):
    """What is found in a plan: faults, where the program has refused it too, and warnings."""
    reading, built, findings = read(source)
    faults = [it for it in findings if it.is_fault]
    slips = lines_after_end(text, source)
    if (faults[0].told if faults else "") == ("" if answer.is_kept else said_by(answer)):
        slips += warnings_of(Plan.of_parts(source, reading, built), is_whole=not faults)
    else:
        say(f"planner reads this plan otherwise than the program, which says: {said_by(answer)}")
        faults = []
    return sorted([*faults, *slips], key=lambda finding: finding.line)


def lines_told(path, findings):
    """The findings as lines; where one kind of warning comes often, which may be the way of the plan, the first few."""
    by_slip = defaultdict(list)
    for finding in findings:
        by_slip[finding.slip].append(finding)
    for finding in findings:
        if finding.is_fault or finding in by_slip[finding.slip][:OFTEN]:
            yield told(path, finding)
    for slip, alike in by_slip.items():
        if slip and len(alike) > OFTEN:
            rest, line = len(alike) - OFTEN, alike[OFTEN].line
            yield f"{called(path)}: {rest} more warnings of this kind ({slip}), the next on line {line}; --json lists all"


def described(finding):
    """A finding as a value for programs."""
    return {
        "line": finding.line,
        "kind": "fault" if finding.is_fault else "warning",
        "slip": finding.slip,
        "word": finding.token,
        "message": finding.message,
        "wanted": finding.wanted,
        "program": finding.told or None,
    }


def counted(count, what):
    return f"{count} {what}{'' if count == 1 else 's'}"


def summary(path, findings, answer):
    faults = sum(it.is_fault for it in findings)
    counts = f"{counted(faults, 'fault')}, {counted(len(findings) - faults, 'warning')}"
    said = "the program takes this plan" if answer.is_kept else f"the program says: {said_by(answer)}"
    return f"{called(path)}: {counts}; {said}"
