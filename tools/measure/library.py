"""Measures the library beside the program: processor time of both sides for the same questions, and
the memory of a run.

PROGRAM is of the same kind as the library in DIR. The figures of C come from
library/tests/figures.c; after them the same questions are asked by the Python module, and of the
program in a process each.
"""

import os
import resource
import subprocess
import sys
import tempfile
from pathlib import Path

from shared import front
from shared.costs import used
from shared.places import ROOT

CHECKS = 2000
FEEDS = 20_000
PLAN = "stnu 1\npoint A\npoint C\npoint D\nbound b1 D C 4\nlink A 3 8 C\nend\n"


def spent():
    """The processor time of this process and of those that it waited for."""
    return used()[1] + used(resource.RUSAGE_SELF)[1]


def tell(what, way, count, began):
    print(f"{what:32} {way:22} {(spent() - began) / count * 1e6:8.2f} us", flush=True)


def in_c(program, library):
    with tempfile.TemporaryDirectory(prefix="stnu-measure-") as work:
        made = Path(work) / "figures"
        parts = [ROOT / "library/tests/figures.c", library / "lib/libstnu.a"]
        given = ["-O2", f"-I{library / 'include'}", *parts, "-pthread", "-o", made]
        subprocess.run([os.environ.get("CC", "cc"), *map(str, given)], check=True)
        subprocess.run([made, program], check=True)


def in_python(program):
    import stnu

    began = spent()
    for _ in range(CHECKS):
        assert stnu.check(PLAN)
    tell("check of a small plan", "in Python", CHECKS, began)
    began = spent()
    for _ in range(CHECKS // 4):
        subprocess.run([program, "check"], input=PLAN, capture_output=True, text=True, check=True)
    tell("check of a small plan", "in Python, a process", CHECKS // 4, began)
    began = spent()
    with stnu.Execution(PLAN) as day:
        for moment in range(FEEDS):
            day.at(moment, *["C"] * (moment == 8))
        day.done()
    tell("line of an execution", "in Python", FEEDS, began)


def words(parser):
    about = "what `python3 tools/library make` made (out/library)"
    parser.add_argument("--library", type=Path, default=ROOT / "out" / "library", metavar="DIR", help=about)
    front.program(parser)


def main(given):
    library = given.library.resolve()
    sys.path.insert(0, str(library / "python"))
    in_c(given.program, library)
    in_python(given.program)
