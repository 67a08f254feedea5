"""Writes the plan of what is left of a day, from its plan and the lines of the day so far.

The lines are events as 'run' takes them, those of 'planner day', or those of a session, with edits and 'go'. The program is asked what was
executed at which moment; the last line may be one that it refuses since a link took longer or less than the plan says, and tells what
moment it is. In the plan that is written, with the remarks and names of the old one,

  - each point that has come is bound to its moment, by one line 'between' to the point at which the day began;
  - each link that is over is a remark, and one that still runs has the durations that are left, or those of --link;
  - no point that is still to come does so before now;
  - a bound between two points that have come is a remark, which tells whether it was kept.

Standard error says whether the rest can be kept. Execute it by 'planner day', and tell it first the moment that it is: it answers what came
before once more.
"""

import argparse
import re
from pathlib import Path

from planner.commands import day, edit
from planner.desk_session import Desk
from planner.draft import Draft
from planner.drawing.scale import scale_of
from planner.execution import Execution, slip_of_event
from planner.faults import Fault, Status, say
from planner.journal import Head, kept
from planner.kept import is_same_file, write_whole
from planner.options import add_clock
from planner.output import hand_on
from planner.parts import LARGEST
from planner.plan import STANDARD_INPUT, called, load, text_of
from planner.program import Source
from planner.rest import Amendments, Rest, Unsaid, is_of_rest
from planner.reader import quoted
from planner.room import Room
from planner.slips import EDITS, meant

# So begin the lines of days, and of sessions.
LINES = {*day.WORDS, *edit.WORDS}

EXAMPLE = """
  planner rest examples/rover/plan.stnu examples/rover/late.events --link arrive 115 140 --not-yet warm-up > rest.stnu"""


def add_words(parser):
    parser.add_argument("plan", metavar="PLAN", help="the file of the day's plan, a plan text or a JSON document")
    parser.add_argument("lines", nargs="?", default=STANDARD_INPUT, metavar="LINES", help="the lines of the day so far (standard input)")
    parser.add_argument("--vehicle", metavar="NAME", help="take the lines of this plan out of those of a fleet or a room, without the name")
    out_help = "write the plan to this file, as a JSON document if its name ends in .json (standard output)"
    parser.add_argument("--out", metavar="FILE", help=out_help)
    add_clock(parser)
    add_amendments(parser)


def add_amendments(parser):
    """Adds the words for what the lines of a day do not tell."""
    parser.add_argument("--now", metavar="MOMENT", help="what moment it is (that of the last line)")
    link_help = "how long a link may last now, from where it began"
    parser.add_argument("--link", nargs=3, action=Interval, metavar=("END", "LOW", "HIGH"), help=link_help)
    came_help = "a point that came at another moment"
    parser.add_argument("--came", nargs=2, action="append", default=[], metavar=("POINT", "MOMENT"), help=came_help)
    not_yet_help = "a point that has come by the lines, and is still to come"
    parser.add_argument("--not-yet", action="append", default=[], metavar="POINT", help=not_yet_help)


class Interval(argparse.Action):
    """Notes the two numbers after a name, by the name."""

    def __call__(self, parser, namespace, values, option_string=None):
        name, *numbers = values
        if not all(re.fullmatch(r"0|[1-9][0-9]{0,9}", number) for number in numbers):
            parser.error(f"argument {option_string}: {' '.join(numbers)}: whole numbers are wanted after the name")
        noted = dict(getattr(namespace, self.dest) or {})
        setattr(namespace, self.dest, noted | {name: tuple(map(int, numbers))})


def amendments_of(args, scale):
    """What the words of a call tell, whose moments may be times of day."""
    now = None if args.now is None else moment_of(args.now, scale)
    came = {name: moment_of(word, scale) for name, word in args.came}
    return Amendments(now, args.link or {}, came, tuple(args.not_yet))


def moment_of(word, scale):
    moment = scale.read(word)
    if moment > LARGEST:
        raise Fault(f"a moment is at most {LARGEST:,}, and not {word}")
    return moment


def run(args):
    if args.plan == args.lines == STANDARD_INPUT:
        raise Fault("the plan and the lines of the day cannot both be read from standard input")
    if args.out and any(is_same_file(args.out, path) for path in (args.plan, args.lines)):
        raise Fault(f"{args.out} is the plan or the lines of the day, which are never written: name another file by --out")
    if args.out and Path(args.out).is_file() and not is_of_rest(text_of(args.out)):
        raise Fault(f"{args.out} is there, and was not written by 'planner rest': name another file by --out")
    scale = scale_of(args.clock)
    source, lines = load(args.plan, args.delay), lines_of(args)
    if none := next((line for line in lines if line.split()[0] not in LINES), None):
        why = "begins no line of a day, nor one of a session over its plan"
        raise Fault(f"{called(args.lines)}: {quoted(none.split()[0])} {why}", Status.EVENT)
    source, execution, last = played(args.program, source, lines)
    execution.channel.talk.show()
    execution.close()
    try:
        rest = Rest(source, execution.moments(), last, amendments_of(args, scale), scale)
        text = rest.text(args.program)
    except Unsaid as why:
        say(why)
        return Status.NOT_KEPT
    for sentence in [*rest.changed(), *rest.missing(args.program, execution.lines)]:
        say(sentence)
    return told(args, text)


def lines_of(args):
    """The lines of the day; those of one vehicle without its name."""
    lines = text_of(args.lines).split("\n")
    if args.vehicle is None:
        return kept(lines)
    if (head := Head.of(lines[0])) and head.kind == Room.KIND:
        return lines_of_room(lines, args.vehicle)
    mine = [line.split(maxsplit=1) for line in lines]
    return [words[1] for words in mine if words[:1] == [args.vehicle] and words[1:]]


def lines_of_room(lines, name):
    """The lines of a vehicle in the journal of a room, without those that were taken back."""
    room = Room(None)
    # (of the last line only the beginning may stand there)
    room.remember(line for line in lines[:-1] if not line.startswith("#"))
    if name not in room.vehicles:
        raise Fault(f"the room has no vehicle '{name}'{meant(name, room.vehicles)}")
    if len(room.vehicles[name].days) > 1:
        raise Fault(f"{name} goes on by the plan of a rest, which only the room has: tell the room 'rest {name} ..'")
    return room.vehicles[name].lines


def played(program, source, lines):
    """The plan as the edits among these lines leave it, its execution by the events among them, and the last moment that they tell."""
    events = [line for line in lines if line.split()[0] == "at"]
    if edits := [line for line in lines if line.split()[0] in EDITS]:
        desk = Desk(program, source)
        for line, said in desk.play(edits):
            say(f"'{line}' is refused, as it was then: {said.last}")
        source = desk.draft.source()
        desk.close()
    answer = program.call(["check"], source, is_shown=False)
    if not answer.is_kept:
        raise Fault(f"the plan of that day cannot be executed; the program says: {answer.first}", answer.status)
    execution = Execution(program, source)
    refused = execution.play(events)
    if refused is None:
        return source, execution, execution.last or 0
    line, why = refused
    if line != events[-1] or not why.is_of_another_day:
        raise Fault(f"'{line}' is refused; the program says: {why.said}; {slip_of_event(line, why, execution)}", Status.EVENT)
    return source, execution, int(line.split()[1])


def told(args, text):
    """Writes the plan of the rest, and says what the program says of it."""
    answer = args.program.call(["check"], Source(text))
    if answer.is_refused:
        raise Fault(f"the program does not take the plan of the rest: {answer.first}", Status.DEFECT)
    if args.out:
        write_whole(args.out, Draft.of(Source(text)).written(args.out))
    if args.json:
        hand_on({"kept": answer.is_kept, "file": args.out, "text": text})
    elif not args.out:
        print(text, end="", flush=True)
    say("the rest can be kept" if answer.is_kept else "the rest cannot be kept: 'planner repair' finds what can be done")
    return Status(answer.status)
