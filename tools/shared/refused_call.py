"""Runs a program in which one growth of memory, one take or one put is refused, by the library
refused_call.c."""

import os
import pathlib
import subprocess
from concurrent.futures import ThreadPoolExecutor
from dataclasses import dataclass

SOURCE = pathlib.Path(__file__).resolve().parent / "refused_call.c"
PATIENCE = 60
AT_ONCE = 32


@dataclass
class Ending:
    """How a run ended: its status, None where it did not end; what it put; what it wrote to
    standard error; and whether a call was refused."""

    status: int
    put: bytes
    errors: bytes
    refused: bool

    def told(self):
        return f"status {self.status}, {self.put[-200:]!r} {self.errors[-200:]!r}"


def compiled(folder):
    """The library, compiled into a folder."""
    library = os.path.join(folder, "refused_call.so")
    subprocess.run(["cc", "-O2", "-shared", "-fPIC", "-o", library, SOURCE], check=True)
    return library


def run(library, words, data, refusal):
    """Runs words over an input, where the calls are refused that the refusal names:
    `{"REFUSE_GROWTH": 3}` is the third growth."""
    told, telling = os.pipe()
    loaded = {**os.environ, "LD_PRELOAD": library, "REFUSE_TOLD": str(telling)}
    loaded |= {name: str(value) for name, value in refusal.items()}
    try:
        how = {"capture_output": True, "timeout": PATIENCE, "check": False}
        done = subprocess.run(words, input=data, env=loaded, pass_fds=[telling], **how)
        ended = (done.returncode, done.stdout, done.stderr)
    except subprocess.TimeoutExpired as expired:
        ended = (None, expired.stdout or b"", expired.stderr or b"")
    os.close(telling)
    refused = os.read(told, 1) == b"!"
    os.close(told)
    return Ending(*ended, refused)


def each(library, words, data, kind, cut=False):
    """A run for each call of a kind that is refused, by its number, until a run makes no such
    call."""
    first = 1
    further = {"REFUSE_CUT": 1} if cut else {}
    with ThreadPoolExecutor() as pool:
        while True:
            numbers = range(first, first + AT_ONCE)
            ended = list(pool.map(lambda number: run(library, words, data, {kind: number, **further}), numbers))
            refused = [(number, ending) for number, ending in zip(numbers, ended) if ending.refused]
            yield from refused
            if len(refused) < AT_ONCE:
                return
            first += AT_ONCE


def spans(numbers):
    """Numbers as spans: `1-3 7`."""
    found = []
    for number in sorted(numbers):
        if found and found[-1][1] == number - 1:
            found[-1][1] = number
        else:
            found.append([number, number])
    return " ".join(f"{first}" if first == last else f"{first}-{last}" for first, last in found) or "none"
