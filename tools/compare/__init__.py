"""Compares the program, byte by byte, with a second reading of the pages that describe it, or with
another way to ask it. What differs is printed, and last how much was compared; the status is 0
where nothing differs.
"""

COMMANDS = "check deadline fleet forge json judge library lint run session strong".split()
