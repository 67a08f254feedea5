"""The front for planners: commands that ask the program `stnu`, and tell what it answers in their words."""
