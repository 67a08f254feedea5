"""Where things stand in the repository, and the plain program, built."""

import subprocess
from pathlib import Path

TOOLS = Path(__file__).resolve().parent.parent
ROOT = TOOLS.parent
EXAMPLES = ROOT / "examples"
DESK = ROOT / "desk"
PLAIN = TOOLS / "plain" / "target" / "release" / "plain"


def built_plain():
    """The plain program of tools/plain, which is built where it must be."""
    subprocess.run(["cargo", "build", "--release", "--quiet"], cwd=TOOLS / "plain", check=True)
    return PLAIN
