"""The front of a family of tools: `python3 tools/FAMILY COMMAND ..`.

A family is a package with a list COMMANDS, of which each is a module. Its docstring is its help,
and the first line of that what it does in short; `words(parser)` adds the words that it takes,
where it takes some, and `main(given)` is given them and returns the status, or None for 0.
"""

import argparse
import importlib
import os
import shutil


def main(family, words):
    package = importlib.import_module(family)
    how = {"formatter_class": argparse.RawDescriptionHelpFormatter}
    if words and words[0] in package.COMMANDS:
        module = module_of(family, words[0])
        about = {"prog": f"python3 tools/{family} {words[0]}", "description": module.__doc__}
        parser = argparse.ArgumentParser(**about, **how)
        getattr(module, "words", lambda _: None)(parser)
        # (an option may stand between words, too)
        return module.main(parser.parse_intermixed_args(words[1:])) or 0
    parser = argparse.ArgumentParser(prog=f"python3 tools/{family}", description=package.__doc__, **how)
    commands = parser.add_subparsers(metavar="COMMAND", required=True)
    for name in package.COMMANDS:
        commands.add_parser(name, help=short(module_of(family, name)))
    parser.parse_args(words)


def module_of(family, name):
    return importlib.import_module(f"{family}.{name.replace('-', '_')}")


def short(module):
    """What a command does, in short."""
    return " ".join(module.__doc__.partition("\n\n")[0].split()).rstrip(".")


def program(parser):
    """Adds the word that says which program is meant."""
    about = "the built program, such as crates/stnu_cli/out/stnu_cli"
    parser.add_argument("program", type=command, metavar="PROGRAM", help=about)


def command(word):
    """The place of a command, which may stand on the search path."""
    found = shutil.which(word) or shutil.which(os.path.abspath(word))
    if not found:
        raise argparse.ArgumentTypeError(f"there is no program {word}")
    return os.path.abspath(found)


def drawn(parser, count, what):
    """Adds the words that say how many inputs are drawn, and from what."""
    parser.add_argument("count", type=int, nargs="?", default=count, metavar="COUNT", help=f"how many {what} ({count:,})")
    parser.add_argument("seed", type=int, nargs="?", default=1, metavar="SEED", help="what they are drawn from (1)")


def numbers(parser, name, default, about):
    """Adds a word that is a list of numbers."""
    told = " ".join(f"{number:,}" for number in default)
    parser.add_argument(name.lower(), type=int, nargs="*", default=default, metavar=name, help=f"{about} ({told})")


def names(parser, calls):
    """Adds the names of some of the things that a command tries, all by default."""
    about = f"of these alone: {'; '.join(call.name for call in calls)}"
    parser.add_argument("names", nargs="*", metavar="NAME", help=about.replace("%", "%%"))


def chosen(calls, named):
    """Those that are named, or all."""
    return [call for call in calls if not named or call.name in named]
