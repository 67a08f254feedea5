"""The program once more, by its pages and without a line of it: what `tools/compare` compares it
with.

Those that answer an input of their own are commands, over standard input and output. They are slow,
and nothing of them is proved.
"""

COMMANDS = "fleet judge run session".split()
