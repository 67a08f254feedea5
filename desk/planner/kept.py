"""What `edit` and `day` share: a plan and the lines after it, the journal beside it, and files that are written whole or not at all."""

import os
import sys
from pathlib import Path

from planner.explain import refusal
from planner.faults import Fault, say
from planner.journal import Head, Journal, beside, sum_of
from planner.output import ENCODING
from planner.plan import END_LINE, ENDINGS, STANDARD_INPUT, load, source_of
from planner.typed import is_agreed

WROTE = "# wrote"


def add_words(parser, ending):
    """Adds the words for a plan and its journal."""
    plan_help = "a file with a plan text or a JSON document; - is standard input up to its line 'end'"
    parser.add_argument("plan", metavar="PLAN", help=plan_help)
    lines_help = f"the file in which the lines are kept (beside the plan, with the ending {ending})"
    parser.add_argument("--lines", metavar="FILE", help=lines_help)
    parser.add_argument("--plan-changed", action="store_true", help="play the kept lines again though the plan was changed since")


def plan_of(args):
    """The plan of the call, which the program takes. Of standard input the lines after the plan are left to be read."""
    if args.plan == STANDARD_INPUT:
        source = source_of("".join(lines_up_to_end()), STANDARD_INPUT).with_delay(args.delay)
    else:
        source = load(args.plan, args.delay)
    answer = args.program.call(["show"], source.with_delay(None), is_shown=False)
    if answer.is_refused:
        args.program.show(answer.call)
        raise refusal(source, answer, args.plan)
    return source


def is_same_file(path, other):
    """Whether two paths, of which `-` is standard input, lead to one file."""
    return STANDARD_INPUT not in (path, other) and all(map(os.path.exists, (path, other))) and os.path.samefile(path, other)


def lines_up_to_end():
    while line := sys.stdin.readline():
        yield line
        if END_LINE.match(line):
            return


def journal_of(args, kind, ending, source):
    """The journal of the call, which belongs to this plan, or to one that somebody has said it may be played over."""
    if args.lines is None and args.plan == STANDARD_INPUT:
        raise Fault("a plan of standard input has no file beside it: name the file for its lines by --lines")
    path = Path(args.lines or beside(args.plan, ending))
    if is_same_file(path, args.plan):
        raise Fault(f"{path} is the plan itself, which is never written: name another file by --lines")
    head = Head(kind, sum_of(source.text), args.delay)
    journal = Journal(path, head)
    try:
        fit(journal, head, args)
    except Fault:
        journal.close()
        raise
    return journal


def fit(journal, head, args):
    """Sees that the lines of a journal belong to the plan of the call."""
    if journal.head.delay != head.delay:
        delay = "without --delay" if journal.head.delay is None else f"with --delay {journal.head.delay}"
        raise Fault(f"the lines of {journal.path} were told {delay}: call it so, or name another file by --lines")
    if journal.head == head:
        return
    changed = f"{args.plan} is not as it was when the lines of {journal.path} were told"
    if journal.kept() and not args.plan_changed and not is_agreed(f"{changed}. Play them again all the same?"):
        raise Fault(f"{changed}: --plan-changed plays them again all the same, --lines FILE begins anew")
    journal.append(str(head))
    journal.head = head


def spare(path, *read):
    """Sees that a certificate or a picture takes the place of no file that the call reads, and of none that is a plan by its name."""
    if any(is_same_file(path, it) for it in read):
        raise Fault(f"{path} is read by this call, and is never written: name another file")
    if Path(path).suffix in ENDINGS and Path(path).exists():
        raise Fault(f"{path} is there, and is a plan by its name, which is never written over: name another file")


def write_whole(path, text):
    """Writes a file so that its old state or its new one is there at any moment. What is no file of a disk stays what it is."""
    given = Path(path)
    if given.exists() and not given.is_file():
        with open(given, "w", newline="\n", **ENCODING) as device:
            device.write(text)
        return
    # (a link stays one too)
    path = given.resolve()
    near = path.with_name(f".{path.name}.{os.getpid()}")
    try:
        with open(near, "w", newline="\n", **ENCODING) as file:
            file.write(text)
            file.flush()
            os.fsync(file.fileno())
        os.replace(near, path)
    except OSError as why:
        near.unlink(missing_ok=True)
        why.filename = str(given)
        raise


def write_own(path, text, journal, plan):
    """Writes a file that this journal has written before, or that is not there; never one that somebody else wrote."""
    path = Path(path)
    if path.exists():
        if is_same_file(path, plan):
            raise Fault(f"{path} is the plan itself, which is never written: name another file")
        own = {line.rpartition(" ")[2] for line in journal.lines if line.startswith(f"{WROTE} ")}
        if not path.is_file() or sum_of(read(path)) not in own:
            raise Fault(f"{path} was not written by planner as it stands, and is left alone: name another file")
    journal.keep(f"{WROTE} {path.name} {sum_of(text)}")
    write_whole(path, text)
    say(f"{path} is written")


def read(path):
    with open(path, newline="", **ENCODING) as file:
        return file.read()
