#!/usr/bin/env python3
"""Makes each call that a page shows after `$ `, in the folder of the repository, and compares what is printed with the lines below it.

A line `..` stands for any lines. Where a call reads from the terminal (`cat PLAN - | ..`), the lines of its block that are events, edits or
questions are typed, and what is printed after the last line of the block is not compared. Status: 0 where all is
printed as it stands on the pages, and no file is left behind; else 1, with the differences on standard error.

    examples/printed.py README.md
"""

import argparse
import re
import shutil
import subprocess
import sys
from dataclasses import dataclass, field
from pathlib import Path

ROOT = Path(__file__).resolve().parent.parent
# This file is read by older versions of Python too, so that they can say what is wanted.
if sys.version_info < (3, 10):
    sys.exit("printed.py: Python 3.10 or later is needed, and this is %d.%d" % sys.version_info[:2])
sys.path.insert(0, str(ROOT / "desk"))
from planner.faults import ended  # noqa: E402 (the path comes first)

# What a call may want that is not there everywhere, and whether it is.
WANTED = {"jq ": shutil.which("jq"), "out/library": (ROOT / "out" / "library").is_dir()}
INDENT = " " * 4
TYPED = re.compile(r"at \d+( .*)?|(add|drop|set) (point|bound|link) .*|done|verdict|proof|plan|report|go")


@dataclass
class Call:
    """A call as a page shows it, with the lines below it."""

    words: str
    lines: list[str] = field(default_factory=list)

    def is_typed_to(self):
        """Whether it reads what is typed."""
        return " - |" in self.words

    def typed(self):
        return [line for line in self.lines if self.is_typed_to() and TYPED.fullmatch(line)]

    def wanted(self):
        return [line for line in self.lines if not (self.is_typed_to() and TYPED.fullmatch(line))]


def calls_of(page):
    """The calls of a page, in order. A line that is no part of a block ends the one before."""
    found, is_inside = [], False
    for line in page.splitlines():
        if line.startswith(f"{INDENT}$ "):
            found.append(Call(line[len(INDENT) + 2 :]))
            is_inside = True
        elif not line.startswith(INDENT):
            is_inside = False
        elif is_inside:
            found[-1].lines.append(line[len(INDENT) :])
    return found


def fits(wanted, given, is_front):
    """Whether these lines are those wanted, or where that is enough a front of them is."""
    if not wanted:
        return is_front or not given
    if wanted[0] == "..":
        return any(fits(wanted[1:], given[place:], is_front) for place in range(len(given) + 1))
    return given[:1] == wanted[:1] and fits(wanted[1:], given[1:], is_front)


def files():
    """The files at the top, and those of the pages and the examples."""
    below = [path for folder in ("docs", "examples") for path in (ROOT / folder).rglob("*")]
    return {*ROOT.iterdir(), *(path for path in below if "__pycache__" not in path.parts)}


def is_as_printed(page, call):
    typed = "".join(line + "\n" for line in call.typed())
    done = subprocess.run(["sh", "-c", call.words], cwd=ROOT, input=typed, stdout=subprocess.PIPE, encoding="utf-8", check=False)
    given = done.stdout.splitlines()
    if fits(call.wanted(), given, call.is_typed_to()):
        return True
    print(f"{page}: $ {call.words}", *given, "and not:", *call.wanted(), sep="\n", file=sys.stderr)
    return False


def main():
    parser = argparse.ArgumentParser(description=__doc__, formatter_class=argparse.RawDescriptionHelpFormatter)
    parser.add_argument("page", nargs="+", help="a page, such as README.md")
    before, right = files(), True
    for page in parser.parse_args().page:
        missing = [what for what, is_there in WANTED.items() if not is_there]
        calls = [call for call in calls_of(Path(page).read_text(encoding="utf-8")) if not any(what in call.words for what in missing)]
        count = sum(is_as_printed(page, call) for call in calls)
        print(f"{page}: {count} of {len(calls)} calls print what stands below them")
        right = right and count == len(calls)
    left = files() - before
    if left:
        print("left behind:", *sorted(left), sep="\n", file=sys.stderr)
    return 0 if right and not left else 1


if __name__ == "__main__":
    sys.exit(ended(main))
