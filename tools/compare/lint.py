"""Compares the first fault that `planner` finds in a plan with what the program says of it.

COUNT plan texts and as many documents: random plans, those of examples/, and the plans that files
ROWS have in their lines (` | ` stands for a line end there), each spoiled in up to three places. Of
each the answer of `show` is compared: that the plan is taken, or its fault, with line and word.
Prints each plan that differs, and last how many there were, how many differ, and how many are
taken.
"""

import random
import subprocess
import sys
from pathlib import Path

from inputs.random_documents import given as drawn_input
from inputs.random_plans import random_plan, with_a_line_changed, with_a_word_changed
from shared import front
from shared.places import DESK, EXAMPLES

sys.path.insert(0, str(DESK))
from planner.plan import read, source_of  # noqa: E402 (the path comes first)

BYTES = ["\ufeff", "\u00a0", "\u2028", "\x0b", "\x0c", "\x1c", "\x85", "\r", "\t", " ", "\n", "#", "\0", "\u2212", "é", "\udcff"]
LINES = """\
stnu 1|stnu 2|stnu 3|delay 5|delay -1|delay 1000001|delay 5 5|end|end x|# fixed|#fixed a b|between w p0 9 1 p1|point p0|poinnt p7
Point p7|// note|link p0 1 2 p0|link p0 0 2 p1|link p0 3 2 p1|link q 1 2 p1|bound b0 p0 p1 1000000001|bound b0 p0 p1|0|-|+
bound w0.max p0 p1 3|bound w0.min p0 q 3|between wwwwwwwwwwwwwwwwwwwwwwwwwwwww p0 1 2 p1""".replace("\n", "|").split("|")
LINES += ["#" + "x" * 65_535, "#" + "x" * 65_536]


def with_a_byte_changed(draw, lines):
    """With a character more or less, or cut off."""
    text = "\n".join(lines)
    place = draw.randrange(len(text) + 1)
    change = draw.randrange(4)
    if change == 0:
        return (text[:place] + text[place + 1 :]).split("\n")
    if change == 1 and draw.random() < 0.3:
        return text[:place].split("\n")
    return (text[:place] + draw.choice(BYTES) + text[place:]).split("\n")


def with_a_line_more(draw, lines):
    place = draw.choice([0, 1, draw.randrange(len(lines) + 1)])
    return [*lines[:place], draw.choice(LINES), *lines[place:]]


SPOILS = [with_a_word_changed, with_a_line_changed, with_a_byte_changed, with_a_line_more]


def plans(rows):
    """The plans that are spoiled beside the random ones: lists of lines."""
    small = [path for path in sorted(EXAMPLES.glob("*/*.stnu")) if path.stat().st_size < 5000]
    found = [path.read_text().removesuffix("\n").split("\n") for path in small]
    for path in rows:
        for line in Path(path).read_text().splitlines():
            at = line.find("stnu ")
            if at >= 0:
                found.append(line[at:].split(" | "))
    return found


def texts(draw, rows):
    """Spoiled plan texts and documents, without end."""
    whole = plans(rows)
    while True:
        lines = draw.choice(whole) if draw.random() < 0.4 else random_plan(draw, 1)
        for _ in range(draw.randint(0, 3)):
            lines = draw.choice(SPOILS)(draw, lines or [""])
        yield "\n".join(lines) + draw.choice(["\n", "\n", ""])
        yield drawn_input(draw).decode("utf-8", "surrogateescape")


def program_says(program, source):
    given = source.text.encode("utf-8", "surrogateescape")
    done = subprocess.run([program, "show", *source.words], input=given, stdout=subprocess.PIPE, check=False)
    return "" if done.returncode == 0 else done.stdout.decode().strip()


def words(parser):
    front.program(parser)
    front.drawn(parser, 1000, "plan texts, and documents")
    parser.add_argument("rows", nargs="*", metavar="ROWS", help="a file with plans in its lines")


def main(given):
    draw = random.Random(given.seed)
    differ = taken = 0
    for _, text in zip(range(2 * given.count), texts(draw, given.rows)):
        source = source_of(text, "-")
        faults = [it for it in read(source)[2] if it.is_fault]
        found, said = faults[0].told if faults else "", program_says(given.program, source)
        taken += not said
        if found != said:
            differ += 1
            told = f"the program: {said or 'taken'}", f"planner: {found or 'taken'}"
            print(repr(source.text[:3000]), *told, sep="\n")
    print(f"{2 * given.count} plans, of which {differ} differ; {taken} are taken")
    return 1 if differ else 0
