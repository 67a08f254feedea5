"""Lists what stands in the crates."""

COMMANDS = "calls lemmas".split()
