"""Finds what can be changed of a plan that cannot be kept, so that it can be.

It prints each bound that alone, loosened as little as is enough, repairs the plan; the delay that does; if no bound alone is enough,
smallest sets of bounds that do together, with an amount each; and each link that does, if nature can be held to a shorter interval.
Each repair is checked by the program before it is printed.

Never loosened is a bound beyond 0, so that no two points change their order; a bound of what has come already, by its name, as 'rest'
writes it (NAME.came, NAME.from-now); and what is held fast: by --fixed, by a remark '# fixed' on the line above it, or by a remark
'# fixed NAME ..' anywhere in the plan. A line 'between NAME' is held by its NAME, or one side of it by NAME.min or NAME.max.
"""

import time

from planner.certificate import Refutation
from planner.explain import refusal
from planner.faults import Fault, Status
from planner.options import add_plan
from planner.output import hand_on, tell
from planner.plan import Plan, called, load
from planner.repair import Permits, Repairs, Sort, overdue
from planner.slips import link_meant, meant
from planner.trials import Progress, Trials

EXAMPLE = """
  planner repair examples/rover/variant.stnu
  planner repair --fixed warm --fixed arrive examples/rover/variant.stnu"""

HEADS = {
    Sort.BOUND: "one of these bounds, loosened, is enough:",
    Sort.DELAY: "a smaller delay is enough:",
    Sort.LINK: "one of these links is enough, if nature can be held to it:",
    Sort.SET: "these bounds, loosened together, are enough:",
}


def names(word):
    """The names in a word of the call, which stand between commas."""
    return word.split(",")


def add_words(parser):
    add_plan(parser)
    parser.add_argument("--first", action="store_true", help="end with the first repair that is found")
    lists = {"type": names, "action": "extend", "default": [], "metavar": "NAME"}
    parser.add_argument("--fixed", **lists, help="a bound, a link or 'delay' that nobody may change")
    parser.add_argument("--among", **lists, help="a bound that may be loosened, and no others; those given first the least")


def run(args):
    source = load(args.plan, args.delay)
    began = time.monotonic()
    answer = args.program.call(["check"], source)
    took = time.monotonic() - began
    if answer.is_refused:
        raise refusal(source, answer, args.plan)
    plan = Plan.of(source)
    permits = Permits(plan, known(plan, args.fixed), known(plan, args.among))
    if answer.is_kept:
        report_kept(args)
        return Status.KEPT
    if over := next(overdue(plan), None):
        raise Fault(told_overdue(plan, *over), Status.PLAN)
    report = Report(args, plan)
    report.begin()
    refutation = Refutation(plan, answer.certificate())
    with Progress() as progress, Trials(args.program, plan, [refutation], took) as trials:
        repairs = Repairs(trials, permits, progress)
        for repair in repairs.all():
            trials.checked(repair.numbers)
            report.add(repair, trials.source_with(repair.numbers))
            if args.first:
                return Status.NOT_KEPT
    report.end([it for it in trials.refutations if it.stands(trials.base)], permits)
    return Status.NOT_KEPT


def known(plan, names):
    """These names, each of which is one of the plan's bounds, of its lines `between` or links, or `delay`."""
    all_names = {"delay", *plan.bounds, *plan.links, *map(plan.name_on_line, plan.bounds)}
    for name in names:
        if name not in all_names:
            how = link_meant(name, plan.starts()) if name in plan.points else meant(name, all_names)
            raise Fault(f"the plan has no bound and no link '{name}'{how}")
    return names


def told_overdue(plan, end, began, last, now):
    """What is the matter with a plan of the rest of a day in which a link is over already: whatever else is changed, that stays wrong."""
    least = now + 1 - began - plan.delay
    return (
        f"{end} began at {began}, and by its line {plan.line(end)} it is over by {last} at the latest; but it is {now} now: "
        f"say how long it may take, at least {least} (planner rest .. --link {end} {least} HIGH)"
    )


def report_kept(args):
    if args.json:
        hand_on({"plan": args.plan, "answer": "controllable"})
    else:
        tell("the plan can be kept")


class Report:
    """Prints repairs, each as it is found, below a head for each sort."""

    def __init__(self, args, plan):
        self.args, self.plan = args, plan
        self.sorts = []

    def begin(self):
        if not self.args.json:
            tell("the plan cannot be kept")

    def add(self, repair, source):
        is_next = repair.sort not in self.sorts or repair.sort == Sort.SET
        before = "or " if self.sorts else ""
        self.sorts.append(repair.sort)
        if self.args.json:
            changes = [{"name": it.name, "line": it.line, "from": it.old, "to": it.new} for it in repair.changes]
            hand_on({"repair": repair.sort.value, "changes": changes, "answer": "controllable"})
            return
        if is_next:
            tell(before + HEADS[repair.sort])
        for change in repair.changes:
            tell(f"  {change.name} {shown(change.old)} -> {shown(change.new)}{self.line(repair.sort, change, source)}")

    def line(self, sort, change, source):
        """The line of the plan that a change writes."""
        if change.line is None:
            return ""
        place = f"{called(self.args.plan)}:{change.line}"
        if "--json" in source.words:
            return f"  ({place})"
        # (a delay is tried by a word of the call)
        line = f"delay {change.new}" if sort == Sort.DELAY else source.text.split("\n")[change.line - 1]
        return f"  ({place}: {' '.join(line.split())})"

    def end(self, refutations, permits):
        """Says what was left as it is: of the first refutation all, of further ones what is held fast, and all if no more is in one."""
        first, *others = refutations
        names = list(first.bounds)
        for it in others:
            is_closed = not any(map(permits.is_loosenable, it.bounds))
            names += [name for name in it.bounds if is_closed or permits.is_fixed(name)]
        left = {name: permits.reason(name) for name in names if not permits.is_loosenable(name)}
        if self.args.json:
            if not self.sorts:
                hand_on({"repair": None, "left": left})
            return
        if not self.sorts:
            tell("nothing that may be changed is enough")
        if left:
            shown_names = ", ".join(f"{name} ({why})" for name, why in list(left.items())[:20])
            more = f", and {len(left) - 20} more" if len(left) > 20 else ""
            tell(f"left as they are, of the bounds that a refutation names: {shown_names}{more}")


def shown(number):
    """A number, or an interval, as people read it."""
    return f"{number[0]}..{number[1]}" if isinstance(number, tuple) else str(number)
