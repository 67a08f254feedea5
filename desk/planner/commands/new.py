"""Prints a plan to begin with: one for each kind of day, short, with remarks that say what to change.

Without a word the kinds are listed. Each is a whole plan that can be kept. Change its names and numbers, and have 'planner lint' and
'planner check' look at it as you go; 'planner draw' shows its days. With --json, or in a file whose name ends in .json, it is a JSON
document, which has no remarks.
"""

from pathlib import Path

from planner.draft import Draft, is_document_file
from planner.faults import Fault, Status, told_by_system
from planner.output import ENCODING, hand_on, tell
from planner.plan import load
from planner.reader import nearest

EXAMPLE = """
  planner new
  planner new theatre --output tuesday.stnu"""

PLANS = Path(__file__).resolve().parents[1] / "plans"


def kinds():
    """The file of each kind of day, by its name."""
    return {path.stem: path for path in sorted(PLANS.glob("*.stnu"))}


# Words of the call that a shell may complete.
COMPLETED = {"kind": tuple(kinds())}


def about(path):
    """What a plan is about: the first remark in it."""
    lines = path.read_text(encoding="utf-8").splitlines()
    return next(line.removeprefix("#").strip() for line in lines if line.startswith("#"))


def add_words(parser):
    parser.add_argument("kind", nargs="?", metavar="KIND", help="the kind of day; without it the kinds are listed")
    parser.add_argument("--output", metavar="FILE", help="write the plan to this file, which is not there yet")


def run(args):
    found = kinds()
    if args.kind is None:
        if args.output is not None:
            raise Fault(f"say which kind of day is to be written: {', '.join(found)}")
        list_kinds(found, args.json)
        return Status.KEPT
    if args.kind not in found:
        near = nearest(args.kind, found)
        raise Fault(f"there is no plan for '{args.kind}'; " + (f"was '{near}' meant?" if near else f"the kinds are {', '.join(found)}"))
    path = found[args.kind]
    is_document = args.json or (args.output is not None and is_document_file(args.output))
    text = document_of(path) if is_document else path.read_text(encoding="utf-8")
    if args.output is None:
        tell(text.removesuffix("\n"))
    else:
        write_new(args.output, text)
    return Status.KEPT


def list_kinds(found, is_for_programs):
    widest = max(map(len, found))
    for name, path in found.items():
        if is_for_programs:
            hand_on({"kind": name, "about": about(path)})
        else:
            tell(f"{name:{widest}}  {about(path)}")


def document_of(path):
    """The plan as a JSON document."""
    return Draft.of(load(str(path))).document()


def write_new(path, text):
    """Writes a file that is not there yet: nobody's plan is written over."""
    try:
        with open(path, "x", **ENCODING) as file:
            file.write(text)
    except FileExistsError as why:
        raise Fault(f"{path} is there already, and is left as it is: name another file") from why
    except OSError as why:
        raise Fault(told_by_system(why), Status.WRITE) from why
