"""Runs the front as `python3 -m planner`."""

import sys

from planner.front import main

sys.exit(main(sys.argv[1:]))
