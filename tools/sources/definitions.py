"""Files of definitions (`.antt`): each definition with its remark and its lines."""

import re
import textwrap
from dataclasses import dataclass, field

START = re.compile(
    r"(?:(?:abbrev|unfoldable) )?pub (?:(?P<kind>record|data) )?(?P<name>[^\s:({]+)"
)
USE = re.compile(r"^ *(?:pub )?use (\S+?)\.\{([^}]*)\}", re.MULTILINE)
MODULES = re.compile(r"^pub mod (\w+)", re.MULTILINE)


@dataclass
class Definition:
    """A definition: its remark, the line of the module whose parameters it has, and its lines."""

    name: str
    kind: str
    remark: str
    lines: list[str]
    module: str | None = None

    def signature(self):
        """How many lines say its type: all of a record, else those up to the first equation."""
        if self.kind in ("record", "data"):
            return len(self.lines)
        indent = len(self.lines[0]) - len(self.lines[0].lstrip())
        later = range(1, len(self.lines))
        starts = (at for at in later if not self.lines[at].startswith(" " * (indent + 1)))
        return next(starts, len(self.lines))


@dataclass
class Definitions:
    """What is read of a file: its head, its definitions, and where names of other files stand."""

    head: str
    items: list[Definition] = field(default_factory=list)
    uses: dict[str, str] = field(default_factory=dict)


def module_names(text):
    """The modules that a file Lib lists, in its order."""
    return MODULES.findall(text)


def read_definitions(text):
    lines = text.split("\n")
    read = Definitions(head=remark_of(lines, first_other(lines)))
    for path, names in USE.findall(text):
        read.uses.update((name.strip(), path) for name in names.split(","))
    containers = []
    at = 0
    while at < len(lines):
        at = read_line(lines, at, containers, read)
    return read


def first_other(lines):
    """The first line that is no remark."""
    return next((at for at, line in enumerate(lines) if not line.startswith("--")), len(lines))


def words_of(lines):
    """The words of some lines, without their remarks, each once, in their order."""
    text = "\n".join(line.split("--")[0] for line in lines)
    return list(dict.fromkeys(re.findall(r"[^\s(){}.,;:]+", text)))


def indent_of(line):
    return len(line) - len(line.lstrip())


def read_line(lines, at, containers, read):
    """Reads what begins in a line. Gives the line after it. A container is a line that begins a
    module or definitions that name each other, with its column."""
    line = lines[at]
    if not line.strip():
        return at + 1
    while containers and indent_of(line) <= containers[-1][0]:
        containers.pop()
    words = line.strip()
    if words.startswith("module ") or words == "abbrev mutual":
        containers.append((indent_of(line), words))
        return at + 1
    inside = containers[-1][0] + 2 if containers else 0
    told = START.match(words)
    if not told or indent_of(line) != inside or words.startswith(("pub mod ", "pub use ")):
        return at + 1
    end = end_of(lines, at)
    definition = Definition(told["name"], told["kind"] or "", remark_of(lines, at), lines[at:end])
    modules = [words for _, words in containers if words.startswith("module _")]
    definition.module = modules[-1] if modules else None
    read.items.append(definition)
    return end


def end_of(lines, start):
    """The line after the definition that begins in a line."""
    indent = indent_of(lines[start])
    for at in range(start + 1, len(lines)):
        line = lines[at]
        if not line.strip() or indent_of(line) < indent:
            return at
        begins = line.strip().startswith("--") or START.match(line.strip())
        if indent_of(line) == indent and begins:
            return at
    return len(lines)


def remark_of(lines, at):
    """The remark that stands right before a line, as one line."""
    found = []
    while at and lines[at - 1].strip().startswith("--") and not heads(lines[at - 1]):
        at -= 1
        found.insert(0, lines[at].strip().lstrip("-").strip())
    return " ".join(found)


def heads(line):
    """Whether a remark is the head of what follows, and no remark of one definition."""
    return line.strip().startswith("-- --")


def shown_lines(definition, most):
    """The lines of a definition, of its equations those that are no more than so many; and how many
    lines are left out."""
    count = definition.signature()
    body = len(definition.lines) - count
    kept = definition.lines if body <= most else definition.lines[:count]
    shown = textwrap.dedent("\n".join(kept)).split("\n")
    if definition.module:
        shown = [definition.module, *("  " + line for line in shown)]
    return shown, 0 if body <= most else body
