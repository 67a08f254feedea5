"""The commands: each is a module of this package, with `EXAMPLE`, `add_words(parser)` and `run(args)`, which returns the status."""

# Each command by its name, and what it is for.
COMMANDS = {
    "new": "a plan to begin with, one for each kind of day",
    "draw": "days of a plan as a picture",
    "check": "whether a plan can be kept, with a proof or a refutation",
    "lint": "all faults of a plan, and what is mostly a slip",
    "why": "why a plan cannot be kept, in sentences",
    "repair": "what can be changed of a plan, so that it can be kept",
    "deadline": "by when a point can be promised, and how far a number may go",
    "fixed": "one schedule for every day",
    "many": "many plans at once, a line for each",
    "edit": "edit a plan at a terminal, with nothing lost by a slip",
    "day": "execute a plan at a terminal, with nothing lost by a slip",
    "rest": "the plan of what is left of a day that went another way",
    "room": "several vehicles in one room, with a table and a page for the wall",
}
