"""The library of the program: docs/LIBRARY.md says what it is."""

COMMANDS = ["make"]
