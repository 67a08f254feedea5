"""Sees that the program does as it must where memory ends, calls fail, inputs are largest, and
talks are long."""

COMMANDS = "failed-calls failed-growths largest-inputs little-memory long-runs threads".split()
