"""A plan as data, out of a file or standard input. Its numbers can be changed where they stand, so that all else of its text is kept."""

import re
import shlex
import sys
from dataclasses import dataclass

from planner.building import Builder
from planner.document import DocumentReader
from planner.faults import Fault, Status, hint, say, told_by_system
from planner.output import ENCODING
from planner.parts import Bound, Finding, Kind, Link, Point, Spelling, Statement
from planner.program import Source
from planner.reader import BLANKS, TextReader, quoted

STANDARD_INPUT = "-"
# So end the names of files with plans: plan texts, and JSON documents.
TEXT, DOCUMENT = ENDINGS = (".stnu", ".json")
# The line that ends a plan, and all that stands after the JSON document of one.
END_LINE = re.compile(r"^[ \t\r]*end[ \t\r]*(?:\n|\Z)", re.MULTILINE)
# So many characters are read of a plan, and of the lines of a day; and of a certificate, as the program does.
LONGEST_TEXT, LONGEST_CERTIFICATE = 67_108_864, 1_073_741_824
# What the system says of a path that is no file to be read.
NO_FILE = (FileNotFoundError, IsADirectoryError, NotADirectoryError, PermissionError)


def text_of(path, most=LONGEST_TEXT):
    """The text of a file, or of standard input, which may have an end or none, as a device has."""
    if path == STANDARD_INPUT and sys.stdin is None:
        raise Fault("standard input is closed", Status.READ)
    try:
        if path == STANDARD_INPUT:
            if sys.stdin.isatty():
                hint("this is read from standard input, up to its end; a file is named in the call")
            return limited(sys.stdin, path, most)
        with open(path, newline="\n", **ENCODING) as file:
            return limited(file, path, most)
    except NO_FILE as why:
        raise Fault(told_by_system(why), Status.WORDS) from why
    except OSError as why:
        raise Fault(told_by_system(why), Status.READ) from why


def limited(file, path, most):
    """What is left to be read of a file, if it is not too long."""
    text = file.read(most + 1)
    if len(text) > most:
        raise Fault(f"{called(path)} has more than {most:,} characters, and is read no further", Status.LIMIT)
    return text


def load(path=STANDARD_INPUT, delay=None):
    """The plan of a file or of standard input, as the program is given it: a plan text up to its line `end`, or a JSON document.

    Whoever has written more after the line `end` is told that it is not read.
    """
    text = text_of(path)
    source = source_of(text, path)
    after_end = lines_after_end(text, source)
    if after_end:
        more = f" (and {len(after_end) - 1} more)" if len(after_end) > 1 else ""
        say(told(path, after_end[0]) + more)
    return source.with_delay(delay)


def lines_after_end(text, source):
    """The warnings of what stands in a plan text or a document after its line `end`, which its source leaves out."""
    end = END_LINE.search(text)
    if end is None:
        return []
    message = "this stands after the line 'end' and is not read: move 'end' below it"
    first = text.count("\n", 0, end.start()) + 2
    lines = [(number, line.strip(BLANKS)) for number, line in enumerate(text[end.end() :].split("\n"), first)]
    return [Finding(number, message, token=line, slip="after-end") for number, line in lines if line and not line.startswith("#")]


def source_of(text, path):
    """A text that was read from a file or from standard input, as the program is given it."""
    return (document_source if is_document(text) else text_source)(text, None if path == STANDARD_INPUT else path)


def called(path):
    """A path as people are told it."""
    return "standard input" if path == STANDARD_INPUT else path


def told(path, finding):
    """A finding as a line for people."""
    place = f"{called(path)}:{finding.line}"
    kind = "" if finding.is_fault else "warning: "
    token = f"{quoted(finding.token)}: " if finding.token is not None else ""
    wanted = f"; wanted: {finding.wanted}" if finding.wanted else ""
    return f"{place}: {kind}{token}{finding.message}{wanted}"


def is_document(text):
    return text.lstrip(" \t\r\n\ufeff")[:1] in ("{", "[")


def text_source(text, file):
    """A plan text up to its line `end`: what stands after it is read by no command that answers once."""
    end = END_LINE.search(text)
    stop = end.end() if end else len(text)
    if file is None or stop == len(text):
        return Source(text[:stop], file=file)
    return Source(text[:stop], origin=heading(text[:stop], file))


def document_source(text, file):
    """A JSON document, with the line `end` that the program wants after it."""
    end = END_LINE.search(text)
    body = text[: end.start()] if end else text if text.endswith("\n") else text + "\n"
    printed = None
    if file is not None:
        whole = f"cat {shlex.quote(file)}" + ("" if text == body else "; echo")
        printed = f"{heading(body, file) if end else whole}; echo end"
    return Source(body + "end\n", ("--json",), origin=printed)


def heading(text, file):
    """A command of the shell that prints the first lines of a file, which are this text."""
    return f"head -n {text.count(chr(10)) + (not text.endswith(chr(10)))} {shlex.quote(file)}"


def read(source):
    """The statements of a source, the parts that they declare, and all that is found in them: what the program finds first comes first."""
    if "--json" in source.words:
        reading = DocumentReader(source.text.removesuffix("end\n")).read()
    else:
        reading = TextReader(source.text).read()
    built = Builder(reading).build()
    return reading, built, reading.findings + built.findings


def written_out(program, source):
    """A source whose delay stands in its text, as commands want it that take none in their words: the plan as a session prints it."""
    if "--delay" not in source.words:
        return source
    answer = program.call(["session"], source, Source("plan\nend\n"), is_shown=False)
    text = "".join(f"{line}\n" for line in answer.lines[1:])
    # Of a plan that is refused the fault is told by its own lines.
    return Source(text, origin=f"{answer.call} | sed 1d") if answer.is_kept else source.with_delay(None)


@dataclass(frozen=True)
class Plan:
    """A plan in which there is no fault: its points, bounds and links, in order, its delay, and what may not be changed of it."""

    source: Source
    statements: list[Statement]
    points: dict[str, Point]
    bounds: dict[str, Bound]
    links: dict[str, Link]
    delay: int
    held: frozenset[str]
    # Names in remarks `# fixed` that stand for nothing in the plan, with their lines.
    unknown_held: dict[str, int]
    spelling: Spelling = Spelling()

    @classmethod
    def of(cls, source):
        """The plan of a source that the program takes."""
        reading, built, findings = read(source)
        fault = next((it for it in findings if it.is_fault), None)
        if fault:
            raise Fault(f"the program took a plan that planner reads as: {fault.told}", Status.DEFECT)
        return cls.of_parts(source, reading, built)

    @classmethod
    def of_parts(cls, source, reading, built):
        """The plan of the parts of a source in which there is no fault."""
        delay = int(source.words[source.words.index("--delay") + 1]) if "--delay" in source.words else built.delay
        held, unknown = held_of(reading, built)
        return cls(source, reading.statements, built.points, built.bounds, built.links, delay, held, unknown, reading.spelling)

    def with_numbers(self, most=None, spans=None, delay=None):
        """This plan as a source with other numbers of bounds, by name, intervals of links, by end, or another delay.

        Only the numbers change: remarks, lines `between`, order and names stay.
        """
        edits = []
        for name, number in (most or {}).items():
            bound = self.bounds[name]
            edits.append((bound.statement.words[bound.place], bound.written(number)))
        for end, interval in (spans or {}).items():
            words = self.links[end].statement.words
            edits += [(words[place], str(number)) for place, number in zip(("LOW", "HIGH"), interval)]
        source = self.source.changed(replaced(self.source.text, edits))
        return source if delay is None else source.with_delay(delay)

    def line(self, name):
        """The line on which a bound, a link or a point of this name stands."""
        found = self.bounds.get(name) or self.links.get(name) or self.points.get(name)
        return found.line if found else None

    def starts(self):
        """The point in which each link starts, by that in which it ends."""
        return {end: link.start for end, link in self.links.items()}

    def name_on_line(self, name):
        """The name that stands on the line of a bound: `cut` of a line `between cut`, whose bounds are `cut.max` and `cut.min`."""
        bound = self.bounds.get(name)
        return bound.statement["NAME"] if bound else name


def held_of(reading, built):
    """The names of bounds and links, and `delay`, that remarks `# fixed` hold; and names there that stand for nothing."""
    names = {name: names_of(name, part) for part in (built.bounds, built.links) for name, part in part.items()}
    lines = {name: part.line for part in (built.bounds, built.links) for name, part in part.items()}
    names["delay"], lines["delay"] = {"delay"}, next((it.line for it in reading.statements if it.kind == Kind.DELAY), None)
    held = {name for name, called in names.items() if lines[name] in reading.held_lines or not called.isdisjoint(reading.held_names)}
    known = set().union(*names.values())
    return frozenset(held), {name: line for name, line in reading.held_names.items() if name not in known}


def names_of(name, part):
    """The names by which a part may be called: a bound of a line `between` by that of its line too."""
    return {name, part.statement["NAME"]} if isinstance(part, Bound) else {name}


def replaced(text, edits):
    """A text in which words have other spellings."""
    pieces, at = [], 0
    for word, spelling in sorted(edits, key=lambda edit: edit[0].start):
        pieces += [text[at : word.start], spelling]
        at = word.end
    return "".join([*pieces, text[at:]])
