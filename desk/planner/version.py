"""Which version of planner this is, and which program it asks."""

import contextlib
import json
import subprocess
from pathlib import Path

from planner.faults import Fault
from planner.program import Program

# The folder in which the launcher stands; where that was installed, with a note.
TOP = Path(__file__).resolve().parents[2]
NOTE = TOP / "version.json"


def told():
    """The lines that `planner --version` prints."""
    commit, program = noted()
    yield f"planner of Celeryadze, {commit}"
    try:
        path = Program.found().path
    except Fault as why:
        yield str(why)
        return
    yield f"stnu: {path}" + (f", {program}" if program else "")


def noted():
    """The commit, and how the program beside the package was made, as far as is known."""
    with contextlib.suppress(OSError, ValueError, KeyError):
        note = json.loads(NOTE.read_text(encoding="utf-8"))
        return f"commit {note['commit']}", note["program"]
    with contextlib.suppress(OSError, subprocess.CalledProcessError):
        words = ["git", "-C", TOP, "log", "-1", "--format=commit %h of %cs"]
        return subprocess.run(words, capture_output=True, text=True, check=True).stdout.strip(), None
    return "of an unknown commit", None
