"""Draws days of a plan, side by side: on the terminal, as an SVG picture, or as one HTML page.

Each point has a row with its name and its moment. A bar is what lasts: a link, of which nature decides how long it is, or a duration that
you choose. Behind a link stands how long nobody has seen yet that it is over, if completions are seen late. Limits are lines: those of
the day, and those that are counted from another point on that day. All moments are those that the program gave. What is executed comes as
early as is safe: if that is too early, bound it.

DAY is 'shortest' or 'longest', on which each link lasts its shortest or its longest (longest, if no day is asked for), or the number of a
day: the first link counts in ones, so small numbers leave later links at their shortest. --random draws numbers of all days alike, and
tells them on standard error.
"""

import sys
from random import SystemRandom

from planner import days as daily
from planner.drawing import dot, page, svg
from planner.drawing.chart import chart_of
from planner.drawing.scale import scale_of
from planner.drawing.text import Terminal
from planner.explain import refusal
from planner.faults import Fault, Status, say, told_by_system
from planner.kept import spare, write_whole
from planner.options import add_clock, add_plan, whole_number
from planner.output import hand_on, tell, width
from planner.plan import STANDARD_INPUT, Plan, load, text_of

EXAMPLE = """
  planner draw examples/rover/plan.stnu shortest longest
  planner draw examples/rover/plan.stnu --random 2 --clock 7:30 --html rover.html
  planner draw examples/rover/plan.stnu --dot - | dot -Tsvg > rover-graph.svg
  ./stnu play longest < examples/rover/plan.stnu | planner draw examples/rover/plan.stnu --played -"""

MOST_DAYS = 8
# Words of the call that a shell may complete.
COMPLETED = {"days": daily.WORDS}


def add_words(parser):
    add_plan(parser)
    number, few = whole_number(1, 10**9), whole_number(1, MOST_DAYS)
    parser.add_argument("days", nargs="*", metavar="DAY", help="shortest, longest or a number (longest)")
    parser.add_argument("--random", nargs="?", type=few, const=1, metavar="N", help="a day drawn at random, or N of them")
    parser.add_argument("--seed", type=number, metavar="N", help="with --random: each time the same days for the same N")
    parser.add_argument("--played", metavar="FILE", help="draw what 'stnu play' printed of the plan, once or more often")
    output = parser.add_argument_group("what is drawn, and how")
    output.add_argument("--svg", metavar="FILE", help="write a picture to this file")
    output.add_argument("--html", metavar="FILE", help="write a page to this file: picture, moments, plan and calls")
    output.add_argument("--dot", metavar="FILE", help="write the plan itself as a graph for Graphviz to this file, and draw no day")
    output.add_argument("--title", metavar="TEXT", help="a line above all (of pictures and pages the name of the plan)")
    add_clock(output)
    output.add_argument("--from", dest="first", default="0", metavar="MOMENT", help="the first moment that is drawn (0)")
    output.add_argument("--to", dest="last", metavar="MOMENT", help="the last moment that is drawn (of the days, or a near limit)")
    output.add_argument("--step", type=number, metavar="N", help="how far apart the moments of the axis are")
    output.add_argument("--by-time", action="store_true", help="rows in the order in which they begin on the first day")
    output.add_argument("--width", type=whole_number(20, 10_000), metavar="N", help="how many columns the terminal has")


def run(args):
    source = load(args.plan, args.delay)
    for path in filter(None, (args.svg, args.html, args.dot)):
        spare(path, args.plan, *filter(None, [args.played]))
    words = [daily.day_word(word) for word in args.days]
    scale = scale_of(args.clock)
    first, last = scale.read(args.first), None if args.last is None else scale.read(args.last)
    answer = args.program.call(["show"], source.with_delay(None), is_shown=False)
    if answer.is_refused:
        raise refusal(source, answer, args.plan)
    plan = Plan.of(source)
    if args.dot is not None:
        write(args.dot, dot.lines(plan, args.title or name_of(args)))
        return Status.KEPT
    days = list(days_of(args, plan, words))
    if args.json:
        for day in days:
            hand_on({"plan": args.plan, "day": day.title, "moments": day.moments, "call": day.call})
        return Status.KEPT
    chart = chart_of(plan, days, title_of(args, days), scale, first, last, args.by_time, args.step)
    if args.svg is not None:
        write(args.svg, svg.Picture(chart).lines())
    if args.html is not None:
        write(args.html, page.lines(chart, source.text, [day.call for day in days if day.call]))
    if args.svg is None and args.html is None:
        for line in Terminal(chart, width() if args.width is None else args.width).lines():
            tell(line)
    return Status.KEPT


def days_of(args, plan, words):
    """The days that the words of the call ask for."""
    if args.played is not None:
        if words or args.random:
            raise Fault("--played has its days already: leave out DAY and --random")
        if args.played == args.plan == STANDARD_INPUT:
            raise Fault("standard input is either the plan or what was played: name a file for one of them")
        yield from daily.given(plan, text_of(args.played))
        return
    for word in words if words or args.random else ["longest"]:
        yield daily.played(args.program, plan, word, args.plan)
    if args.random:
        seed = SystemRandom().randint(1, 10**9) if args.seed is None else args.seed
        for day in daily.at_random(args.program, plan, seed, args.random, args.plan):
            say(f"drawn at random: {day.title}; 'planner draw {args.plan} {day.again}' draws it again")
            yield day


def title_of(args, days):
    """The line above all: of a terminal none, where none is asked for; else the name of the plan, with that of a day that is alone."""
    if args.title is not None or (args.svg is None and args.html is None):
        return args.title
    return f"{name_of(args)}: {days[0].title}" if len(days) == 1 else name_of(args)


def name_of(args):
    return "a plan" if args.plan == STANDARD_INPUT else args.plan


def write(path, lines):
    """Writes a file; '-' is standard output."""
    if path == STANDARD_INPUT:
        sys.stdout.writelines(f"{line}\n" for line in lines)
        return
    try:
        write_whole(path, "".join(f"{line}\n" for line in lines))
    except OSError as why:
        raise Fault(told_by_system(why), Status.WRITE) from why
