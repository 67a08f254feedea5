"""A plan text that is edited where it stands: remarks, lines `between`, order and names come back in what is written."""

import json
import re
from dataclasses import dataclass
from pathlib import Path

from planner.document import LISTS, NAMES
from planner.parts import FORMS, Kind
from planner.plan import DOCUMENT, Plan
from planner.program import Source
from planner.reader import words_of

# What a line `between` adds to its name for the two bounds that it stands for.
ENDINGS = (".max", ".min")


@dataclass
class Line:
    """A line of a plan text. It has words where it is a statement, a header or the end, and none where it is passed over."""

    text: str

    @property
    def words(self):
        words = [word.text for word in words_of(self.text)]
        return [] if words and words[0].startswith("#") else words

    def replace(self, place, word):
        """Puts another word into this place."""
        old = words_of(self.text)[place]
        self.text = self.text[: old.start] + str(word) + self.text[old.end :]


def document_lines(plan):
    """The lines of a plan text that says what a plan says which came as a document."""
    yield "stnu 2"
    if plan.delay:
        yield f"delay {plan.delay}"
    for it in plan.statements:
        if it.kind != Kind.DELAY:
            yield " ".join([it.kind.value, *(it[place] for place in FORMS[it.kind])])
    yield "end"


def is_document_file(path):
    return Path(path).suffix == DOCUMENT


def item(words, kind, members):
    """The words of a statement as an item of a document."""
    place = dict(zip(FORMS[kind], words[1:]))
    return {member: place[name] if member in NAMES else int(place[name]) for member, name in members.items()}


def listed(value):
    """A member of a document as it is written, with a line for each item of a list."""
    if not isinstance(value, list) or not value:
        return json.dumps(value)
    return "[\n" + ",\n".join(f"    {json.dumps(it)}" for it in value) + "\n  ]"


class Draft:
    """The lines of a plan, and edits of them by the words of a session."""

    def __init__(self, lines, words=()):
        self.lines = [Line(text) for text in lines]
        self.words_of_call = words

    @classmethod
    def of(cls, source):
        """The draft of a plan that the program has taken."""
        if "--json" in source.words:
            return cls(document_lines(Plan.of(source)))
        text = re.sub(r"\r?\n\Z", "", source.text)
        return cls(text.split("\n"), source.words)

    def source(self):
        """The draft as the program is given it."""
        return Source("".join(f"{line.text}\n" for line in self.lines), self.words_of_call)

    def document(self):
        """The draft as a JSON document, which has no remarks, and each kind of statement in a list of its own."""
        lists = {"points": [line.words[1] for line in self.lines if line.words[:1] == [Kind.POINT.value]]}
        for name, (kind, members) in LISTS.items():
            lists[name] = [item(line.words, kind, members) for line in self.lines if line.words[:1] == [kind.value]]
        delay = next((int(line.words[1]) for line in self.lines if line.words[:1] == [Kind.DELAY.value]), 0)
        members = {"stnu": 2, "delay": delay} | {name: items for name, items in lists.items() if items or name != "between"}
        return "{\n" + ",\n".join(f'  "{name}": {listed(value)}' for name, value in members.items()) + "\n}\n"

    def written(self, path):
        """The text of the draft for a file: a document if the file's name ends as those of documents do."""
        return self.document() if is_document_file(path) else self.source().text

    def header(self):
        return next(line for line in self.lines if line.words)

    def write_delay(self, delay):
        """Writes the delay with which the plan is read into its text, which is one of version 2 then. Returns the place after it."""
        header = self.header()
        header.text = "stnu 2"
        place = self.lines.index(header) + 1
        self.lines = [line for line in self.lines if line.words[:1] != ["delay"]]
        self.words_of_call = ()
        self.insert(place, *([f"delay {delay}"] if delay else []))
        return place + bool(delay)

    def find(self, kind, place, name):
        """The first statement of this kind that has the name in this place; None where there is none."""
        return next((line for line in self.lines if line.words[:1] == [kind] and line.words[place] == name), None)

    def between_of(self, name):
        """The line `between` of which a bound is, and the ending of the bound; (None, "") where it is of none."""
        ending = name[-4:]
        return (self.find("between", 1, name[:-4]), ending) if ending in ENDINGS else (None, "")

    def add(self, *texts):
        """Adds lines before the line `end`."""
        self.insert(next(place for place, line in enumerate(self.lines) if line.words == ["end"]), *texts)

    def insert(self, place, *texts):
        """Inserts lines before the one of this place."""
        self.lines[place:place] = map(Line, texts)

    def edit(self, words):
        """Edits the text as the program has edited its plan; a line `between` of an edit is one here too."""
        match words:
            case ["add", *rest]:
                if rest[0] == "between":
                    self.header().replace(1, "2")
                self.add(" ".join(rest))
            case ["set", "bound", name, most]:
                self.set_bound(name, int(most))
            case ["set", "between", name, low, high]:
                self.set_bound(f"{name}.max", int(high))
                self.set_bound(f"{name}.min", -int(low))
            case ["set", "link", name, low, high]:
                line = self.find("link", 4, name)
                line.replace(3, high)
                line.replace(2, low)
            case ["drop", "bound", name]:
                self.drop_bound(name)
            case ["drop", "between", name]:
                for ending in ENDINGS:
                    self.drop_bound(name + ending)
            case ["drop", kind, name]:
                self.lines.remove(self.find(kind, 4 if kind == "link" else 1, name))

    def set_bound(self, name, most):
        if line := self.find("bound", 1, name):
            line.replace(4, most)
            return
        line, ending = self.between_of(name)
        if ending == ".max":
            line.replace(4, most)
        else:
            line.replace(3, -most)

    def drop_bound(self, name):
        """Drops a bound; of one of a line `between` the other stays, as a bound."""
        if line := self.find("bound", 1, name):
            self.lines.remove(line)
            return
        line, ending = self.between_of(name)
        _, between, start, low, high, end = line.words
        line.text = f"bound {between}.max {start} {end} {high}" if ending == ".min" else f"bound {between}.min {end} {start} {-int(low)}"

    def lone_bound(self, name):
        """The bound that somebody means who calls it as a line `between` is called, or a side of one; None where there is none."""
        bound = name[:-4] if name[-4:] in ENDINGS else name
        return bound if self.find("bound", 1, bound) else None

    def has_between(self, name):
        """Whether both bounds of a line `between` of this name are there."""
        return self.find("between", 1, name) is not None or all(self.find("bound", 1, name + ending) for ending in ENDINGS)

    def names(self, kind, place):
        """The names in a place of all statements of a kind."""
        return [line.words[place] for line in self.lines if line.words[:1] == [kind]]

    def starts(self):
        """The point in which each link starts, by that in which it ends."""
        return dict(zip(self.names("link", 4), self.names("link", 1)))

    def bounds(self):
        """The names of all bounds, those of lines `between` too."""
        return [*self.names("bound", 1), *(name + ending for name in self.names("between", 1) for ending in ENDINGS)]

    def all_names(self):
        """All names by which an edit may call something."""
        return [*self.names("point", 1), *self.names("between", 1), *self.bounds()]
