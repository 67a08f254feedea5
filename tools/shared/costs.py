"""What a run of a program costs: what the tools share that measure."""

import os
import resource
import subprocess
import sys
from dataclasses import dataclass

TRIES = 3

# Runs a program once, and tells its wall and user seconds and its own peak of memory.
CHILD = """
import resource, subprocess, sys, time
plan = sys.stdin.buffer.read()
began = time.monotonic()
done = subprocess.run(sys.argv[1:], input=plan, capture_output=True)
seconds = time.monotonic() - began
sys.stdout.buffer.write(done.stdout)
sys.stderr.buffer.write(done.stderr)
used = resource.getrusage(resource.RUSAGE_CHILDREN)
print(seconds, used.ru_utime, used.ru_maxrss, file=sys.stderr)
"""


@dataclass
class Ran:
    """What a program answered, in how many wall and user seconds and MiB, and what it told
    beside."""

    answer: bytes
    seconds: float
    user: float
    size: float
    told: str

    def __str__(self):
        return f"{self.seconds:.3f} s, user {self.user:.3f} s, {self.size:.0f} MiB"

    def verdict(self):
        return self.answer.decode().splitlines()[0]


def once(command, given):
    done = subprocess.run([sys.executable, "-c", CHILD, *command], input=given, capture_output=True, check=False)
    told, _, last = done.stderr.decode().strip().rpartition("\n")
    seconds, user, size = last.split()
    return Ran(done.stdout, float(seconds), float(user), int(size) / 1024, told)


def in_turn(commands, given, tries):
    """Of each command the run of fewest user seconds; they run in turn, so many times each."""
    runs = [[once(command, given) for command in commands] for _ in range(tries)]
    return [min(ran, key=lambda each: each.user) for ran in zip(*runs)]


def run(command, given, tries=TRIES):
    """Of so many runs that of fewest user seconds; a run of more than ten seconds is made once."""
    runs = [once(command, given)]
    while len(runs) < tries and runs[-1].seconds <= 10:
        runs.append(once(command, given))
    return min(runs, key=lambda each: each.user)


def times(one, other):
    """How many times the user seconds of another run a run took, of which less than a hundredth
    counts as one."""
    return max(one.user, 0.01) / max(other.user, 0.01)


def used(who=resource.RUSAGE_CHILDREN):
    """The user seconds, and all processor seconds, of the processes that were waited for."""
    told = resource.getrusage(who)
    return told.ru_utime, told.ru_utime + told.ru_stime


def load():
    """The load of the machine, and its processors."""
    return f"load {os.getloadavg()[0]:.1f}, {len(os.sched_getaffinity(0))} processors"
