"""Makes pages of the sources, and looks at the pages."""

COMMANDS = "crates links".split()
