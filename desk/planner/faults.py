"""How a command ends: its statuses in one table, and one line on standard error where it cannot go on."""

import os
import sys
import traceback
from enum import IntEnum
from pathlib import Path


class Status(IntEnum):
    """The exit statuses of all commands. Those from 3 to 8 are the program's own."""

    KEPT = 0
    NOT_KEPT = 1
    WORDS = 2
    PLAN = 3
    LIMIT = 4
    READ = 5
    WRITE = 6
    EVENT = 7
    MEMORY = 8
    DEFECT = 70
    NO_PROGRAM = 125
    INTERRUPTED = 128 + 2
    READER_GONE = 128 + 13


MEANINGS = {
    Status.KEPT: "it can be kept; done",
    Status.NOT_KEPT: "it cannot be kept; a certificate is refused",
    Status.WORDS: "the words of the call are wrong, or a file is not there",
    Status.PLAN: "the plan is at fault, or a file in the place of a certificate",
    Status.LIMIT: "the plan passes a limit",
    Status.READ: "reading failed",
    Status.WRITE: "writing failed",
    Status.EVENT: "an event is refused; of edit, day and room a line that is not told again as it was meant (0 at a terminal)",
    Status.MEMORY: "there was no memory",
    Status.DEFECT: "a defect of planner itself",
    Status.NO_PROGRAM: "there is no program to ask",
    Status.INTERRUPTED: "interrupted from the keyboard",
    Status.READER_GONE: "whoever read the output went away",
}


class Fault(Exception):
    """What keeps a command from going on, in words for its user, and the status with which the command ends."""

    def __init__(self, message, status=Status.WORDS):
        super().__init__(message)
        self.status = int(status)


def table():
    """The statuses as a text for the help."""
    return "statuses:\n" + "\n".join(f"  {int(status):<4}{meaning}" for status, meaning in MEANINGS.items())


def say(message):
    """Tells the user something that is no result, on standard error."""
    to_standard_error(f"planner: {message}")


def to_standard_error(line):
    """Prints a line on standard error, if there is somebody to tell."""
    if sys.stderr is None:
        return
    try:
        print(line, file=sys.stderr, flush=True)
    except OSError:
        pass


def hint(message):
    """Tells somebody at a terminal what may be of use next."""
    if sys.stderr is not None and sys.stderr.isatty():
        say(message)


def told_by_system(why):
    """What the system says of a file, without its number."""
    place = f"{why.filename}: " if why.filename else ""
    return f"{place}{(why.strerror or str(why)).lower()}"


def no_more_output():
    """What is left in the buffer of standard output is written nowhere."""
    os.dup2(os.open(os.devnull, os.O_WRONLY), sys.stdout.fileno())


def defect(why):
    """A line for whoever mends planner; the whole traceback where the environment asks for it."""
    if os.environ.get("PLANNER_TRACEBACK") == "1":
        traceback.print_exc()
    last = traceback.extract_tb(why.__traceback__)[-1]
    place = f"{Path(last.filename).name}, line {last.lineno}"
    say(f"a defect of planner itself: {type(why).__name__}: {why} ({place}); PLANNER_TRACEBACK=1 shows more")
    return Status.DEFECT


def ended(action):
    """Runs an action that returns a status. Whatever goes wrong is one line on standard error and a status."""
    try:
        status = action()
        sys.stdout.flush()
    except Fault as fault:
        say(fault)
        status = fault.status
    except SystemExit as end:
        # So the help ends.
        status = end.code or Status.KEPT
    except BrokenPipeError:
        no_more_output()
        status = Status.READER_GONE
    except KeyboardInterrupt:
        say("interrupted")
        status = Status.INTERRUPTED
    except OSError as why:
        say(told_by_system(why))
        no_more_output()
        status = Status.WRITE
    except MemoryError:
        say("there is not enough memory")
        status = Status.MEMORY
    except Exception as why:
        status = defect(why)
    return int(status)
