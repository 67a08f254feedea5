"""Lets each growth of memory, each take and each put of the program fail in turn, and sees how it
ends.

The program is started with a small library loaded before its own (tools/shared/refused_call.c,
compiled with cc), which refuses the first call, then in a new run the second, and so on, until a
run makes no such call. Each call of the program is tried so with its growths, with its takes and
its puts, and once more with takes and puts of one byte.

What must come is read off runs over the first lines of the input alone: the answers to so many
whole lines. After a refused growth the status is 8 and such answers were put, none of an execution
and, but for `session`, none at all; or the whole answer comes, and the program did without. After a
failed take the answers to the whole lines taken were put and then `error read`, status 5. After a
failed put its front was put, status 6. Prints how many calls failed and how the runs ended; the
status is 1 where one ended otherwise. (No part of the gate.)
"""

import subprocess
import tempfile
from dataclasses import dataclass

from shared import front
from shared.places import EXAMPLES
from shared.refused_call import compiled, each, run, spans


@dataclass
class Call:
    """The words of a call, the files of its input, and, for a session, the line that begins its
    execution."""

    name: str
    words: list
    files: list
    begins: bytes = b""


CALLS = [
    Call("judge", ["judge"], ["rover/variant.stnu", "rover/refutation.cert"]),
    Call("judge of a table proof", ["judge"], ["rover/plan.stnu", "="]),
    Call("check", ["check"], ["rover/plan.stnu"]),
    Call("check of a plan that cannot be kept", ["check"], ["rover/variant.stnu"]),
    Call("check --proof", ["check", "--proof"], ["rover/plan.stnu"]),
    Call(
        "check --engine cells", ["check", "--engine", "cells", "--workers", "2", "--proof"], ["rover/plan.stnu"]
    ),
    Call(
        "check --engine cells of a plan that cannot be kept", ["check", "--engine", "cells", "--workers", "2"],
        ["rover/variant.stnu"],
    ),
    Call("check --json", ["check", "--json"], ["rover/plan.json", "end"]),
    Call("session", ["session"], ["rover/plan.stnu", "rover/desk.edits"], b"go\n"),
    Call("run", ["run"], ["rover/plan.stnu", "rover/day.events"]),
    Call("run --feeders", ["run", "--feeders", "4"], ["laboratory/plan.stnu", "laboratory/day.events"]),
    Call("fleet", ["fleet"], ["fleet/plans.fleet", "fleet/day.lines"]),
    Call("show --print-json", ["show", "--print-json"], ["rover/plan.stnu"]),
    Call("play", ["play", "longest"], ["rover/plan.stnu"]),
    Call("deadline", ["deadline", "sunrise", "images"], ["rover/plan.stnu"]),
    Call("deadline of a plan that cannot be kept", ["deadline", "sunrise", "images"], ["rover/variant.stnu"]),
    Call("deadline of a name that is no point", ["deadline", "sunrise", "pictures"], ["rover/plan.stnu"]),
    Call("forge", ["forge", "9", "3"], []),
    Call("strong", ["strong"], ["laboratory/plan.stnu"]),
    Call("strong of a plan without such a schedule", ["strong"], ["rover/plan.stnu"]),
    Call("judge --strong", ["judge", "--strong"], ["rover/plan.stnu", "rover/strong.cert"]),
    Call("check --delay", ["check", "--delay", "12"], ["rover/plan.stnu"]),
    Call("check of a plan that cannot be kept with a delay", ["check", "--delay", "16"], ["rover/plan.stnu"]),
    Call("judge --delay", ["judge", "--delay", "16"], ["rover/plan.stnu", "rover/unseen.cert"]),
    Call("session --delay", ["session", "--delay", "12"], ["rover/plan.stnu", "rover/desk.edits"], b"go\n"),
    Call("run --delay", ["run", "--delay", "12"], ["rover/plan.stnu", "rover/ground.events"]),
    Call("play --delay", ["play", "longest", "--delay", "12"], ["rover/plan.stnu"]),
]


def proof_of(program, plan):
    """The table proof that the program prints of a plan."""
    done = subprocess.run([program, "check", "--proof"], input=plan, stdout=subprocess.PIPE, check=True)
    return done.stdout.split(b"\n", 1)[1]


def input_of(program, call):
    """The input of a call; the file `=` is the table proof of what stands before it."""
    data = b""
    for file in call.files:
        data += proof_of(program, data) if file == "=" else (EXAMPLES / file).read_bytes()
    return data


class Trial:
    """A call, what it answers to the first lines of its input, by their number, and how many runs
    ended otherwise than they must."""

    def __init__(self, library, program, call):
        self.library, self.words, self.data = library, [program, *call.words], input_of(program, call)
        whole = run(library, self.words, self.data, {})
        self.status, self.whole = whole.status, whole.put
        lines = self.data.splitlines(keepends=True)
        # A call without an input has put nothing before its one answer.
        self.fronts = [self.front(b"".join(lines[:count])) for count in range(len(lines))] or [b""]
        self.fronts.append(self.whole)
        self.without_memory = set(self.fronts[: lines.index(call.begins) + 1]) if call.begins else {b""}
        self.did_without = []
        self.wrong = 0

    def front(self, data):
        """What is put for lines after which more are wanted: all but the refusal of their end."""
        put = run(self.library, self.words, data, {}).put
        lines = put.splitlines(keepends=True)
        return b"".join(lines[:-1]) if lines and lines[-1].startswith(b"error ") else put

    def fail(self, kind, is_right, cut=False):
        """Lets one call after the other fail; answers how many did."""
        count = 0
        for number, ending in each(self.library, self.words, self.data, kind, cut):
            count += 1
            if not is_right(number, ending):
                self.wrong += 1
                print(f"  WRONG: {kind} {number}{', one byte each' if cut else ''}: {ending.told()}")
        return count

    def after_growth(self, number, ending):
        if (ending.status, ending.put) == (self.status, self.whole):
            self.did_without.append(number)
            return True
        return ending.status == 8 and ending.put in self.without_memory

    def after_take(self, _number, ending):
        return ending.status == 5 and ending.put in [front + b"error read\n" for front in self.fronts]

    def after_cut_take(self, number, ending):
        lines = self.data[: number - 1].count(b"\n")
        return (ending.status, ending.put) == (5, self.fronts[lines] + b"error read\n")

    def after_put(self, _number, ending):
        return ending.status == 6 and ending.put in self.fronts and ending.put != self.whole

    def after_cut_put(self, number, ending):
        return (ending.status, ending.put) == (6, self.whole[: number - 1])


def tried(library, program, call):
    """Tries a call; answers whether each run ended as it must."""
    trial = Trial(library, program, call)
    if trial.status == 2:
        print(f"{call.name}: the program has no such command")
        return True
    growths = trial.fail("REFUSE_GROWTH", trial.after_growth)
    takes = trial.fail("REFUSE_TAKE", trial.after_take), trial.fail("REFUSE_TAKE", trial.after_cut_take, True)
    puts = trial.fail("REFUSE_PUT", trial.after_put), trial.fail("REFUSE_PUT", trial.after_cut_put, True)
    print(
        f"{call.name}: {len(trial.data)} bytes in, {len(trial.whole)} out, status {trial.status}; "
        f"growths failed {growths}, of which it did without {spans(trial.did_without)}; "
        f"takes {takes[0]}, of one byte {takes[1]}; puts {puts[0]}, of one byte {puts[1]}; wrong {trial.wrong}",
        flush=True,
    )
    return trial.wrong == 0 and growths > 0


def words(parser):
    front.program(parser)
    front.names(parser, CALLS)


def main(given):
    with tempfile.TemporaryDirectory() as folder:
        library = compiled(folder)
        right = [tried(library, given.program, call) for call in front.chosen(CALLS, given.names)]
    return 0 if all(right) else 1
