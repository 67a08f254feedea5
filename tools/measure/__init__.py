"""Measures what calls cost: processor time, wall time and memory. No part of the gate."""

COMMANDS = "check deadline figures fleet gate json judge library planner run session slim strong".split()
