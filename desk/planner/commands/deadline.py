"""Says by when a point can be promised, how tight a bound can be, how long a link may take, or how late completions may be seen.

'planner deadline PLAN FROM TO' tells the least number of moments within which TO comes after FROM on every day, as the program's command
'deadline' certifies it; --certificate prints its whole answer. In place of FROM and TO may stand --bound NAME: the least number of a bound
of the plan; --link END: the interval that a link may take, each side alone; --seen: the greatest delay. All else stays as the plan has it.
"""

from pathlib import Path

from planner.certificate import Numbers
from planner.explain import refusal, said_by
from planner.faults import Fault, Status
from planner.limits import greatest_delay, interval_of
from planner.output import hand_on, tell
from planner.parts import LARGEST, LARGEST_DELAY
from planner.plan import ENDINGS, STANDARD_INPUT, Plan, load, read, written_out
from planner.reader import is_name, nearest
from planner.slips import link_meant, meant

EXAMPLE = """
  planner deadline examples/rover/plan.stnu sunrise images
  planner deadline examples/rover/plan.stnu --bound still-warm
  planner deadline examples/rover/plan.stnu --link arrive"""


def add_words(parser):
    parser.add_argument("words", nargs="*", metavar="[PLAN] [FROM TO]", help="a file with a plan (standard input), and two of its points")
    parser.add_argument("--bound", metavar="NAME", help="the least number of this bound")
    parser.add_argument("--link", metavar="END", help="how long, and how short, the link that ends in this point may be")
    parser.add_argument("--seen", action="store_true", help="how late completions may be seen")
    parser.add_argument("--certificate", action="store_true", help="print the program's whole answer, with its certificates")


def run(args):
    asked = [args.bound is not None, args.link is not None, args.seen]
    match args.words:
        case [] | [_] if sum(asked) == 1 and not args.certificate:
            path = args.words[0] if args.words else STANDARD_INPUT
        case [path, start] if not any(asked) and is_file(path):
            raise Fault(f"TO is missing: wanted are a plan, FROM and TO, and '{path}' is the plan, '{start}' FROM")
        case [path] if not any(asked) and is_file(path):
            raise Fault(f"FROM and TO are missing, or one of --bound NAME, --link END and --seen, of the plan {path}")
        case [start, end] if not any(asked):
            return promised(args, STANDARD_INPUT, start, end)
        case [path, start, end] if not any(asked):
            return promised(args, path, start, end)
        case _:
            raise Fault("wanted: a plan and FROM and TO, or a plan and one of --bound NAME, --link END and --seen")
    plan = taken(args.program, load(path, args.delay), path)
    if args.bound is not None:
        return tightest(args, plan, args.bound)
    return longest(args, plan, args.link) if args.link is not None else latest_seen(args, plan)


def is_file(word):
    """Whether a word of the call is meant as the plan's file: it is there, or looks like one, or is no name of a point."""
    return Path(word).exists() or Path(word).suffix in ENDINGS or word == STANDARD_INPUT or not is_name(word)


def taken(program, source, path):
    """The plan of a source, in which the program finds no fault."""
    shown = program.call(["show"], source.with_delay(None), is_shown=False)
    if shown.is_refused:
        raise refusal(source, shown, path)
    return Plan.of(source)


def promised(args, path, start, end):
    """Tells within how many moments a point can be promised after another."""
    source = load(path, args.delay)
    source = written_out(args.program, source)
    answer = args.program.call(["deadline", start, end], source)
    if answer.is_refused:
        raise unknown_point(source, answer, (start, end)) or refusal(source, answer, path)
    number = answer.lines[1].split()[3:] if answer.is_kept else []
    if args.certificate:
        tell("\n".join(answer.lines))
    elif args.json:
        hand_on({"plan": path, "from": start, "to": end, "answer": answer.first, "deadline": value_of(number)})
    else:
        tell(sentence(start, end, number))
    return Status(answer.status)


def unknown_point(source, answer, points):
    """The fault of a call that names a point that the plan does not have; None where that is not the matter."""
    _, built, findings = read(source)
    for point in points:
        if not any(it.is_fault for it in findings) and point not in built.points:
            near = nearest(point, built.points)
            where = f"; the nearest is '{near}' (line {built.points[near].line})" if near else ""
            return Fault(f"the program says: {said_by(answer)}\nthe plan has no point '{point}'{where}")
    return None


def value_of(number):
    """The number of a deadline as a value for programs; none where no number can be promised, or any."""
    return int(number[0]) if len(number) == 1 and number[0] != "none" else None


def sentence(start, end, number):
    """What a deadline says, in a sentence."""
    match number:
        case []:
            return "the plan cannot be kept"
        case ["none"]:
            return f"{end} cannot be promised within {LARGEST:,} after {start}, nor within less"
        case ["at-most", _]:
            return f"nothing keeps {end} from coming {LARGEST:,} before {start}: no bound ties the two this way"
    least = int(number[0])
    if least < 0:
        return f"{end} comes at least {-least} before {start} on every day (deadline {start} {end} {least}); more cannot be promised"
    return f"{end} comes at most {least} after {start} on every day (deadline {start} {end} {least}); less cannot be promised"


def tightest(args, plan, name):
    """Tells the least number of a bound of the plan: the deadline of its two points where the bound itself says nothing."""
    bound = plan.bounds.get(name) or next((it for it in plan.bounds.values() if plan.name_on_line(it.name) == name), None)
    if bound is None:
        raise Fault(f"the plan has no bound '{name}'{meant(name, plan.bounds)}")
    source = written_out(args.program, plan.with_numbers({bound.name: LARGEST}))
    answer = args.program.call(["deadline", bound.start, bound.end], source)
    if answer.is_refused:
        raise Fault(f"the program says: {said_by(answer)}", answer.status)
    least = None if not answer.is_kept else -LARGEST if "at-most" in answer.lines[1] else int(answer.lines[1].split()[3])
    if args.json:
        hand_on({"bound": bound.name, "line": bound.line, "most": bound.most, "least": least})
    elif least is None:
        tell(f"no number of {bound.name} is enough for the plan to be kept")
    else:
        tell(f"{bound.text(least)} (in the plan {bound.most}, line {bound.line})")
    return Status(answer.status)


def longest(args, plan, end):
    """Tells how long and how short a link may be."""
    if end not in plan.links:
        raise Fault(f"the plan has no link '{end}'{link_meant(end, plan.starts())}")
    link, (low, high) = plan.links[end], interval_of(args.program, plan, end)
    if args.json:
        hand_on({"link": end, "line": link.line, "interval": [link.low, link.high], "shortest": low, "longest": high})
        return Status.NOT_KEPT if high is None else Status.KEPT
    if high is None:
        tell(f"{link.text()} (line {link.line}): the plan cannot be kept, however little the link may exceed {link.low}")
        return Status.NOT_KEPT
    if high == LARGEST:
        tell(f"{end} may take as long as it likes after {link.start} (in the plan up to {link.high}, line {link.line})")
    else:
        tell(f"{end} may come up to {high} after {link.start} (in the plan up to {link.high}, line {link.line})")
    if low is not None:
        tell(f"{end} may come as soon as {low} after {link.start} (in the plan from {link.low} on)")
    return Status.KEPT


def latest_seen(args, plan):
    """Tells the greatest delay with which the plan can be kept."""
    delay = greatest_delay(args.program, plan)
    if args.json:
        hand_on({"delay": Numbers.of(plan).delay, "greatest": delay})
    elif delay is None:
        tell("the plan cannot be kept, however soon completions are seen")
    else:
        limit = ", the greatest delay that a plan may have" if delay == LARGEST_DELAY else ""
        tell(f"completions may be seen up to {delay} late{limit} (in the plan {plan.delay})")
    return Status.NOT_KEPT if delay is None else Status.KEPT
