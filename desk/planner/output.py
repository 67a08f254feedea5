"""What a command prints: lines for people, each as soon as it is known, or one JSON object a line for programs."""

import json
import shutil
import sys

from planner.faults import Fault, Status

# Names are ASCII; remarks may have any bytes, which are handed on as they are.
ENCODING = {"encoding": "utf-8", "errors": "surrogateescape"}


def prepare():
    """Standard input and output take any bytes, with line ends as they are."""
    if sys.stdout is None:
        raise Fault("standard output is closed", Status.WRITE)
    for stream in filter(None, (sys.stdin, sys.stdout)):
        stream.reconfigure(newline="\n", **ENCODING)


def tell(text=""):
    """Prints a line at once: what comes next may take long."""
    print(text, flush=True)


def hand_on(value):
    """Prints a value as a JSON object in one line, for programs."""
    print(json.dumps(value, ensure_ascii=True), flush=True)


def width(most=100):
    """How many characters a line of the terminal has, but at most so many; 80 where standard output is no terminal."""
    return min(shutil.get_terminal_size().columns, most) if sys.stdout.isatty() else 80
