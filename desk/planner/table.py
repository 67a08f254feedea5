"""The table of a room: a line for each vehicle, with what is due next, what may come until when, and who is late."""

import sys

from planner.output import width

HEADS = ("vehicle", "", "told", "due", "may still come")
# How each state is told in a narrow column.
STATES = {"goes on": "", "late": "LATE", "over": "over"}


def moment(number, scale):
    return "" if number is None else scale.text(number)


def coming(row, scale):
    """What may come of a vehicle, and until when."""
    return ", ".join(f"{end} {told(window, scale)}" for end, window in row.coming.items())


def told(window, scale):
    last = scale.text(window.last)
    return f"by {last}" if window.first is None else f"{scale.text(window.first)} to {last}"


def cells(row, scale):
    if row.state not in STATES:
        return (row.name, "-", "", "", f"{row.state}: {row.why}")
    return (row.name, STATES[row.state], moment(row.last, scale), moment(row.due, scale), coming(row, scale))


def lines(rows, now, scale):
    """The lines of the table."""
    table = [HEADS, *(cells(row, scale) for row in rows)]
    widths = [max(len(line[column]) for line in table) for column in range(len(HEADS) - 1)]
    yield f"now {scale.text(now)}"
    for line in table:
        front = "  ".join(f"{cell:<{wide}}" for cell, wide in zip(line, widths))
        yield cut(f"{front}  {line[-1]}".rstrip())


def cut(line):
    """A line that fits into the terminal, if there is one."""
    most = width(160)
    return line if len(line) <= most or not sys.stdout.isatty() else line[: most - 2] + ".."
