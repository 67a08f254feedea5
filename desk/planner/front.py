"""The front: finds the command that is meant, reads its words, and runs it."""

import argparse
import importlib
import re
import textwrap

from planner import faults, options, output, version
from planner.commands import COMMANDS
from planner.program import Program
from planner.reader import nearest


# The commands whose calls are of one command of the program.
CALL_ONE = ("check", "lint")


class Parser(argparse.ArgumentParser):
    """A parser whose complaints are one line, and which knows the nearest option."""

    def error(self, message):
        raise faults.Fault(f"{message}{self.meant(message)}\nplanner: '{self.prog} --help' has the words and an example")

    def meant(self, message):
        """What was most likely meant by an option that is none, as the end of a complaint."""
        options = re.findall(r"--[a-z-]+", self.format_usage())
        word = next((word for word in message.split() if word.startswith("--")), None)
        near = nearest(word, options) if word and message.startswith("unrecognized") else None
        return f"; was '{near}' meant?" if near else ""


def module_of(name):
    """The module of a command."""
    return importlib.import_module(f"planner.commands.{name}")


def parser_of(name):
    """The parser of a command, with all its words."""
    module = module_of(name)
    parser = Parser(
        prog=f"planner {name}",
        description=wrapped(module.__doc__),
        epilog=f"example:\n{module.EXAMPLE.strip(chr(10))}\n\n{faults.table()}",
        formatter_class=argparse.RawDescriptionHelpFormatter,
        allow_abbrev=False,
    )
    module.add_words(parser)
    options.add_common(parser)
    return parser


def wrapped(text):
    """The paragraphs of a text in lines of the terminal's width; those that are indented stay as they are."""
    paragraphs = text.strip().split("\n\n")
    return "\n\n".join(it if it.startswith(" ") else textwrap.fill(" ".join(it.split()), output.width()) for it in paragraphs)


def overview():
    """The help of the front itself."""
    widest = max(map(len, COMMANDS))
    lines = ["usage: planner COMMAND WORDS ..", "", "commands:"]
    lines += [f"  {name:<{widest}}  {summary}" for name, summary in COMMANDS.items()]
    lines += ["", "'planner COMMAND --help' tells the words of a command, with an example, and 'planner --version' which version this is."]
    lines += ["", faults.table()]
    return "\n".join(lines)


def run(words):
    """Runs the command that these words call, and returns its status."""
    output.prepare()
    match words:
        case [] | [("-h" | "--help" | "help")]:
            output.tell(overview())
            return faults.Status.KEPT if words else faults.Status.WORDS
        case ["--version"]:
            for line in version.told():
                output.tell(line)
            return faults.Status.KEPT
        case ["help", name]:
            return run([name, "--help"])
    name, *rest = words
    if name not in COMMANDS:
        near = nearest(name, COMMANDS)
        meant = f"; was '{near}' meant?" if near else ""
        raise faults.Fault(f"there is no command '{name}'{meant}\nplanner: 'planner --help' lists the commands")
    # (options may stand between the words)
    args = parser_of(name).parse_intermixed_args(rest)
    args.program = Program.found(args.program, args.show_calls, calls_one=name in CALL_ONE)
    return module_of(name).run(args)


def main(words):
    """Runs a command. Whatever goes wrong is told in a line and by a status."""
    return faults.ended(lambda: run(words))
