"""Runs a command of this family of tools."""

import os
import sys

HERE = os.path.dirname(os.path.realpath(__file__))
sys.path[0] = os.path.dirname(HERE)
sys.dont_write_bytecode = True
from shared import front  # noqa: E402 (the path comes first)

sys.exit(front.main(os.path.basename(HERE), sys.argv[1:]))
