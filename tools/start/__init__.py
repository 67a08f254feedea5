"""Makes the program that `./stnu` runs, and says which one that is."""

COMMANDS = "compile prove which".split()
