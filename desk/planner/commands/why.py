"""Tells why a plan cannot be kept, in sentences.

The refutation that 'check' prints is first judged by 'judge'. Each sentence bears in front the line of the certificate that it tells,
counted as the judge counts; what it rests on is told by the bounds and links of the plan, or by earlier lines. How much is wanting at
last is what this reason comes to on the days that it speaks of. A number of the plan may have to be changed by more, or by less: 'planner
repair' finds by how much.
"""

import textwrap

from planner.certificate import Refutation
from planner.faults import Status, say
from planner.judged import refuted
from planner.options import add_plan
from planner.output import hand_on, tell, width
from planner.plan import STANDARD_INPUT, Plan, called, load
from planner.why import Telling

EXAMPLE = """
  planner why examples/rover/variant.stnu"""


# Of long lists so many lines are shown at both ends.
SHOWN = 15


def add_words(parser):
    add_plan(parser)
    parser.add_argument("--all", action="store_true", help="tell all sentences of a long refutation too")


def run(args):
    source = load(args.plan, args.delay)
    answer, lines = refuted(args.program, source, args.plan)
    if answer.is_kept:
        report_kept(args)
        return Status.KEPT
    plan = Plan.of(source)
    refutation = Refutation(plan, lines)
    sentences = Telling(refutation).sentences()
    if args.json:
        told = [{"line": it.line, "sentence": it.text, "within": list(it.within)} for it in sentences]
        hand_on({"plan": args.plan, "answer": answer.first, "bounds": refutation.bounds, "links": refutation.links, "sentences": told})
    else:
        report(args, plan, refutation, sentences)
    return Status.NOT_KEPT


def report_kept(args):
    if args.json:
        hand_on({"plan": args.plan, "answer": "controllable"})
    else:
        tell("the plan can be kept")


def report(args, plan, refutation, sentences):
    tell("the plan cannot be kept; these lines of it cannot be kept together:")
    parts = [plan.bounds[name] for name in refutation.bounds] + [plan.links[end] for end in refutation.links]
    for line in shortened([f"  {called(args.plan)}:{it.line}  {shown(it)}" for it in sorted(parts, key=lambda it: it.line)], args.all):
        tell(line)
    delay = f", and the end of a link is seen {plan.delay} after it comes" if plan.delay else ""
    tell(f"this is why; a number in front is the line of the certificate, which the program's judge accepts{delay}:")
    for line in shortened([wrapped(it) for it in sentences], args.all):
        tell(line)
    call = "planner repair" if args.plan == STANDARD_INPUT else f"planner repair {args.plan}"
    say(f"what is wanting is counted by this one reason, on its days: '{call}' finds how far each number must go, be it more or less")


def shown(part):
    """The line of a bound or a link; of a line `between` also which of its bounds is meant."""
    line = part.line_text()
    return line if line == part.text() else f"{line}  ({part.name})"


def wrapped(sentence):
    """A sentence in lines of the terminal's width, its line of the certificate in front."""
    return textwrap.fill(sentence.text, width(), initial_indent=f"{sentence.line:>6}  ", subsequent_indent=" " * 8, break_on_hyphens=False)


def shortened(lines, is_all):
    """Lines, of which the middle ones are left out if they are very many."""
    if is_all or len(lines) <= 2 * SHOWN:
        return lines
    return [*lines[:SHOWN], f"  .. {len(lines) - 2 * SHOWN} more, which --all tells ..", *lines[-SHOWN:]]
