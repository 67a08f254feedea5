"""The words that commands share."""

import argparse

from planner.parts import LARGEST_DELAY


def whole_number(low, high):
    """Reads a whole number within these limits out of a word of the call."""

    def read(word):
        if not word.removeprefix("-").isascii() or not word.removeprefix("-").isdigit() or not low <= int(word) <= high:
            raise argparse.ArgumentTypeError(f"'{word}' is no whole number from {low:,} to {high:,}")
        return int(word)

    return read


def add_common(parser):
    """Adds what each command takes."""
    group = parser.add_argument_group("common to all commands")
    delay = whole_number(0, LARGEST_DELAY)
    calls = "show on standard error, as lines of the shell, the calls that gave what is printed"
    group.add_argument("--program", metavar="PATH", help="the program stnu (the one beside planner, else that of the search path)")
    group.add_argument("--delay", type=delay, metavar="N", help="completions are seen N moments late, whatever the plan says")
    group.add_argument("--json", action="store_true", help="print one JSON object a line, for programs")
    group.add_argument("--show-calls", action="store_true", help=calls)


def add_clock(parser, of=""):
    """Adds the word for the time of day at moment 0."""
    clock_help = f"{of}the time at moment 0: 7:30 for moments of a minute, 7:30:00 of a second"
    parser.add_argument("--clock", metavar="TIME", help=clock_help)


def add_plan(parser):
    """Adds the word for a plan: a file, or standard input."""
    parser.add_argument("plan", nargs="?", default="-", metavar="PLAN", help="a file with a plan text or a JSON document (standard input)")
