"""Lines that somebody types at a terminal, or that come over standard input, and questions with a yes or a no."""

import sys

from planner.reader import BLANKS

try:
    import readline
except ImportError:
    # Then lines are typed without a history, and names in full.
    readline = None

LEAVE = ("end", "quit", "exit", "bye")


def is_terminal():
    return sys.stdin.isatty()


def prompted(prompt):
    """The next line of a terminal, which can be edited while it is typed; None at the end of the input."""
    try:
        return input(prompt)
    except EOFError:
        print(flush=True)
        return None


def complete_by(names):
    """Has the tabulator complete words at the terminal to those that a function gives."""
    if readline is None or not is_terminal():
        return

    def fitting(word, number):
        found = [f"{name} " for name in dict.fromkeys(names()) if name.startswith(word)]
        return found[number] if number < len(found) else None

    readline.set_completer_delims(BLANKS)
    readline.set_completer(fitting)
    readline.parse_and_bind("tab: complete")


def typed(prompt="> "):
    """The lines that are typed or that come, up to one that leaves or to the end of the input."""
    while True:
        line = prompted(prompt) if is_terminal() else sys.stdin.readline()
        if not line and (line is None or not is_terminal()):
            return
        line = line.removesuffix("\n")
        if line.strip().lower() in LEAVE:
            return
        yield line


def is_agreed(question):
    """Whether somebody at the terminal answers a question by yes; where nobody is there it is a no."""
    if not is_terminal():
        return False
    answer = prompted(f"{question} [y/N] ")
    return (answer or "").strip().lower() in ("y", "yes")
