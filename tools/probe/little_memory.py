"""Starts the program under falling limits of memory, and sees that want of memory is never taken
for other words.

It is called as `judge` over an empty input, with a program's name of 120,000 bytes, so that the
words alone want memory. With enough memory it answers `error format 1 no-header`, status 3. With
--document it is called as `show --json` over a JSON document of 4,000 bounds, which wants several
megabytes, and puts the plan text, status 0. Under a limit it must answer just that, or nothing with
status 8, or not be loaded at all (a signal, or the loader's own status 127). Prints how many starts
ended in each of these ways; the status is 1 where one ended otherwise, or where none ended with 8.
"""

import collections
import json
import resource
import subprocess
import sys
from dataclasses import dataclass

from shared import front

STEP = 4096
STARTS = 2000
NAME = "p" * 120_000
BOUNDS = 4000
STARVED = (8, b"")


@dataclass
class Call:
    """The words and the input of a call, and what is answered with enough memory."""

    words: list
    input: bytes
    whole: tuple


def of_words():
    return Call([NAME, "judge"], b"", (3, b"error format 1 no-header\n"))


def of_document():
    bounds = [{"name": f"b{number}", "from": "A", "to": "B", "most": number} for number in range(BOUNDS)]
    document = json.dumps({"stnu": 1, "points": ["A", "B"], "bounds": bounds}) + "\nend\n"
    text = "".join(f"bound b{number} A B {number}\n" for number in range(BOUNDS))
    return Call(["stnu", "show", "--json"], document.encode(), (0, f"stnu 2\npoint A\npoint B\n{text}end\n".encode()))


def started(program, call, limit):
    def limited():
        resource.setrlimit(resource.RLIMIT_AS, (limit, limit))

    how = {"executable": program, "preexec_fn": limited, "capture_output": True, "check": False}
    try:
        done = subprocess.run(call.words, input=call.input, **how)
    except (OSError, subprocess.SubprocessError):
        return None
    if done.returncode < 0 or done.returncode == 127:
        return None
    return done.returncode, done.stdout


def least_whole(program, call):
    """The least limit, to within a step, under which the whole answer comes."""
    low, high = 0, 1 << 32
    while high - low > STEP:
        middle = (low + high) // 2 // STEP * STEP
        if middle == low:
            break
        if started(program, call, middle) == call.whole:
            high = middle
        else:
            low = middle
    return high


def kind_of(answer, call):
    if answer is None:
        return "not loaded"
    return "whole" if answer == call.whole else "starved" if answer == STARVED else f"{answer}"


def words(parser):
    parser.add_argument("--document", action="store_true", help="over a JSON document")
    front.program(parser)


def main(given):
    call = of_document() if given.document else of_words()
    if started(given.program, call, 1 << 32) != call.whole:
        sys.exit("with enough memory the answer is another one")
    top = least_whole(given.program, call) + 8 * STEP
    seen = collections.Counter()
    for limit in range(top, max(0, top - STARTS * STEP), -STEP):
        seen[kind_of(started(given.program, call, limit), call)] += 1
        if seen["not loaded"] > 50:
            break
    for ending, count in seen.items():
        print(f"{ending}: {count}")
    wrong = set(seen) - {"not loaded", "whole", "starved"}
    return 1 if wrong or not seen["starved"] else 0
