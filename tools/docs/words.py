"""The commands and words of `stnu` and of `planner`, for manual pages and completions: those of
`stnu` are read out of the pages that tell them, those of `planner` out of its parsers."""

import argparse
import re
import sys
from dataclasses import dataclass, field

from shared.places import DESK, ROOT

sys.path.insert(0, str(DESK))
from planner import front  # noqa: E402 (the path comes first)
from planner.commands import COMMANDS  # noqa: E402

# Words of a call that stand for files.
FILES = {"FILE", "PLAN", "PATH", "DIR", "SOURCE", "FLEET"}
HELP = ("-h", "--help")


@dataclass(frozen=True)
class Option:
    """An option: how it is written, what it is for, and the word for its value where it has one."""

    names: tuple[str, ...]
    about: str
    value: str | None = None

    @property
    def takes_file(self):
        return self.value in FILES


@dataclass(frozen=True)
class Command:
    """A command: what it is for, its options, the words that may stand after it, where those are
    few, and whether files may."""

    name: str
    about: str
    options: list[Option] = field(default_factory=list)
    words: tuple[str, ...] = ()
    takes_files: bool = False


@dataclass(frozen=True)
class Tool:
    """A program with its commands, and the options that it has without one."""

    name: str
    about: str
    commands: list[Command]
    options: list[Option] = field(default_factory=list)


def section(page, heading):
    """The lines of a section of a page, without its heading."""
    lines = (ROOT / page).read_text(encoding="utf-8").splitlines()
    start = lines.index(f"## {heading}") + 1
    return lines[start : next((place for place in range(start, len(lines)) if lines[place].startswith("## ")), len(lines))]


def blocks(lines):
    """Lines as paragraphs, items of lists and tables, each as one text: what is indented belongs to
    the item above."""
    found = [[]]
    for line in lines:
        if not line.strip():
            found.append([])
        elif line.startswith("- ") and found[-1]:
            found.append([line])
        else:
            found[-1].append(line.strip())
    return ["\n".join(it) if it[0].startswith("|") else " ".join(it) for it in found if it]


def items(lines):
    """The items of lists among lines, without their marks."""
    return [it.removeprefix("- ") for it in blocks(lines) if it.startswith("- ")]


def stnu():
    """The program, by the pages that tell its calls."""
    calls = [re.match(r"`(\w+)", item)[1] for item in items(section("docs/ANSWERS.md", "The calls"))]
    asked = {call.strip("`").split()[0]: plain(what) for call, what in rows("README.md", "The commands")}
    of_call = {call: [] for call in calls}
    for option, of, about in rows("docs/ANSWERS.md", "The calls"):
        name, *value = option.strip("`").split()
        named = re.findall(r"`(\w+)`", of)
        for call in [it for it in calls if it not in named] if of.startswith("all but") else named:
            of_call[call].append(Option((name,), plain(about), *value))
    words = {"play": ("shortest", "longest")}
    commands = [Command(call, asked[call], of_call[call], words.get(call, ())) for call in calls]
    return Tool("stnu", "decides, certifies, judges and executes plans in which nature decides some durations", commands)


def rows(page, heading):
    """The rows of the tables of a section, without their heads."""
    for block in blocks(section(page, heading)):
        if block.startswith("|"):
            for line in block.split("\n")[2:]:
                yield [cell.strip() for cell in line.strip("|").split(" | ")]


def plain(text):
    """A text of a page without its marks."""
    return re.sub(r"\[([^\]]*)\]\([^)]*\)", r"\1", text).replace("`", "").replace("**", "")


def planner():
    """The front for planners, by its parsers."""
    commands = []
    for name, about in COMMANDS.items():
        parser = front.parser_of(name)
        completed = getattr(front.module_of(name), "COMPLETED", {})
        words = tuple(word for action in positionals(parser) for word in completed.get(action.dest, ()))
        takes_files = any(not FILES.isdisjoint(re.findall(r"\w+", str(action.metavar))) for action in positionals(parser))
        commands.append(Command(name, about, [option_of(action) for action in optionals(parser)], words, takes_files))
    about = "a front for people over stnu, which plans days in which nature decides some durations"
    return Tool("planner", about, commands, [Option(HELP, "show the help"), Option(("--version",), "show which version this is")])


def optionals(parser):
    return [action for action in parser._actions if action.option_strings]


def positionals(parser):
    return [action for action in parser._actions if not action.option_strings]


def option_of(action):
    named = action.metavar or action.dest.upper()
    value = None if action.nargs == 0 else " ".join(named) if isinstance(named, tuple) else named
    return Option(tuple(action.option_strings), "" if action.help is argparse.SUPPRESS else action.help or "", value)
