"""Lets each growth of memory in a test fail in turn, and sees that the test still passes.

The program is a built test program, such as crates/example_sessions/out/example_sessions_tests (`rt
test` makes it), and TEST the name of one of its tests, such as
refusals::refused_growths_break_sessions. The test itself says what must hold after a growth is
refused. Only what it does before may end it, by the error of want of memory. Prints in how many
runs it passed and in how many it ended so; the status is 1 where a run ended otherwise, or none
passed with a growth refused. (No part of the gate.)
"""

import tempfile

from shared import front
from shared.refused_call import compiled, each, spans


def words(parser):
    parser.add_argument("program", type=front.command, metavar="PROGRAM", help="the test program")
    parser.add_argument("test", metavar="TEST", help="the name of a test of it")


def main(given):
    call = [given.program, given.test]
    passed, before, wrong = [], [], 0
    with tempfile.TemporaryDirectory() as folder:
        for number, ending in each(compiled(folder), call, b"", "REFUSE_GROWTH"):
            if ending.status == 0 and b"test result: ok" in ending.put:
                passed.append(number)
            elif ending.status and b"error: AllocError" in ending.errors or b"error: OutOfMemory" in ending.errors:
                before.append(number)
            else:
                wrong += 1
                print(f"  WRONG: growth {number}: {ending.told()}")
    early = f"ended by want of memory before: {len(before)} ({spans(before)})"
    print(f"passed with a growth refused: {len(passed)} ({spans(passed)}); {early}; wrong: {wrong}")
    return 0 if passed and not wrong else 1
