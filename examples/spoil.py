#!/usr/bin/env python3
"""Spoils the proof of a plan that can be kept, and shows that `judge` refuses it then.

The proof that `check --proof` prints of the plan is judged as it is, and then after each of COUNT (3) changes of each kind, drawn from a fixed
seed: an entry is dropped, the weight of an entry is raised by one, and the order lines of the two ends of a negative edge are exchanged.
Prints one line for each kind, with the answers of `judge`. Status: 0 where the proof is accepted and every spoiled one is refused, 1 where
not or where the plan cannot be kept, 2 for wrong words or a file that cannot be read.
"""

import argparse
import random
import sys
from pathlib import Path

# This file is read by older versions of Python too, so that they can say what is wanted.
if sys.version_info < (3, 10):
    sys.exit("spoil.py: Python 3.10 or later is needed, and this is %d.%d" % sys.version_info[:2])
sys.path.insert(0, str(Path(__file__).resolve().parent.parent / "desk"))
from planner.explain import refusal  # noqa: E402 (the path comes first)
from planner.faults import ended  # noqa: E402 (the path comes first)
from planner.plan import load  # noqa: E402 (the path comes first)
from planner.program import Program, Source  # noqa: E402 (the path comes first)


def dropped(lines, place):
    return lines[:place] + lines[place + 1 :]


def raised(lines, place):
    *words, weight = lines[place].split()
    return [*lines[:place], " ".join([*words, str(int(weight) + 1)]), *lines[place + 1 :]]


def exchanged(lines, place):
    _, start, end, _ = lines[place].split()
    other = {f"order {start}": f"order {end}", f"order {end}": f"order {start}"}
    return [other.get(line, line) for line in lines]


def changes(proof):
    """The kinds of change: what it is called, how it is made, and of which lines."""
    entries = [place for place, line in enumerate(proof) if line.startswith(("edge ", "upper "))]
    falling = [place for place in entries if proof[place].startswith("edge ") and int(proof[place].split()[-1]) < 0]
    return [
        ("an entry dropped", dropped, entries),
        ("a weight raised by one", raised, entries),
        ("two order lines exchanged", exchanged, falling),
    ]


def main():
    parser = argparse.ArgumentParser(description=__doc__, formatter_class=argparse.RawDescriptionHelpFormatter)
    parser.add_argument("stnu", help="the program, such as ./stnu")
    parser.add_argument("plan", help="the file of a plan, a plan text or a JSON document")
    parser.add_argument("--delay", type=int, metavar="N", help="how late completions are seen, whatever the plan says")
    parser.add_argument("count", nargs="?", type=int, default=3, help="how many changes of each kind are made (3)")
    words = parser.parse_intermixed_args()
    source, draw, program = load(words.plan, words.delay), random.Random(1), Program(words.stnu)

    def judged(lines):
        return program.call(["judge"], source, Source("\n".join([*lines, ""]))).first

    checked = program.call(["check", "--proof"], source)
    if checked.is_refused:
        raise refusal(source, checked, words.plan)
    if not checked.is_kept:
        print(f"{words.plan} cannot be kept")
        return 1
    proof = checked.certificate()
    kinds = changes(proof)
    said = judged(proof)
    print(f"{words.plan}: {len(kinds[0][2])} entries: {said}")
    right = said == "accepted controllable"
    for kind, spoil, places in kinds:
        answers = [judged(spoil(proof, place)) for place in draw.sample(places, min(words.count, len(places)))]
        right = right and all(said.startswith("refused ") for said in answers)
        print(f"{kind}: {'; '.join(answers) or 'there is none'}")
    return 0 if right else 1


if __name__ == "__main__":
    sys.exit(ended(main))
