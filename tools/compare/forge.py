"""Compares what `forge` answers with tools/reference, byte by byte.

Random numbers and counts of tasks, one to eight; each is forged by a number of workers that is
drawn too. Prints each call that differs, and last how many there were, of how many, and how many of
the networks are controllable.
"""

import random
import subprocess

from reference.play import forge
from shared import front


def words(parser):
    front.program(parser)
    front.drawn(parser, 200, "networks")


def main(given):
    draw = random.Random(given.seed)
    differ = kept = 0
    for _ in range(given.count):
        number, tasks = draw.randrange(2147483648), draw.randint(1, 8)
        call = [str(number), str(tasks), "--workers", str(draw.choice([1, 2, 3, 7, 64]))]
        done = subprocess.run([given.program, "forge", *call], stdin=subprocess.DEVNULL, capture_output=True, check=False)
        wanted = forge(number, tasks)
        controllable = "\ncontrollable\n" in wanted
        kept += controllable
        if done.stdout.decode() != wanted or done.returncode != (0 if controllable else 1):
            differ += 1
            print(*call, done.returncode, done.stdout.decode(), "and not", wanted, sep="\n")
    print(f"{given.count} networks, of which {differ} differ; {kept} are controllable")
    return 1 if differ else 0
