"""What plans are made of: statements, as a text or a document has them, and the parts that these declare."""

from dataclasses import dataclass, field
from enum import Enum

# The greatest number of a bound or of a link, in both directions; the greatest delay.
LARGEST = 1_000_000_000
LARGEST_DELAY = 1_000_000
MOST_POINTS, MOST_BOUNDS, MOST_LINKS = 2_000, 20_000, 800
LONGEST_NAME, LONGEST_BETWEEN = 32, 28


class Kind(str, Enum):
    """What a statement declares, by its first word."""

    POINT = "point"
    BOUND = "bound"
    BETWEEN = "between"
    LINK = "link"
    DELAY = "delay"


# The places of each statement after its first word.
FORMS = {
    Kind.POINT: ("NAME",),
    Kind.BOUND: ("NAME", "FROM", "TO", "MOST"),
    Kind.BETWEEN: ("NAME", "FROM", "LOW", "HIGH", "TO"),
    Kind.LINK: ("FROM", "LOW", "HIGH", "TO"),
    Kind.DELAY: ("N",),
}
NUMBERS = ("MOST", "LOW", "HIGH", "N")


def form(kind):
    """The form of a statement, as its writer is shown it."""
    return " ".join([kind.value, *FORMS[kind]])


@dataclass(frozen=True)
class Spelling:
    """How a plan is told to its writer: a text by its words, a document by its members."""

    is_document: bool = False

    def form(self, kind):
        """The form of a statement, as its writer is shown it."""
        if not self.is_document:
            return form(kind)
        members = ", ".join(place.lower() for place in FORMS[kind])
        return {Kind.POINT: "a name in quotes", Kind.DELAY: "a whole number"}.get(kind, f"an object with {members}")

    def place(self, name):
        """A place of a statement, as its writer calls it."""
        return f"'{name.lower()}'" if self.is_document else name


@dataclass(frozen=True)
class Word:
    """A word of a text, or what a member of a document says, and where it stands in the text: from `start` up to `end`."""

    text: str
    start: int
    end: int


@dataclass(frozen=True)
class Statement:
    """A statement with the words of its places; its line, and the number that the program tells of it, which of a document is a part's.

    Words that are not as their place wants them are left out: then the statement is not whole, and declares nothing.
    """

    kind: Kind
    line: int
    place: int
    words: dict[str, Word]

    def __getitem__(self, place):
        return self.words[place].text

    def number(self, place):
        return int(self.words[place].text)

    def is_whole(self):
        return len(self.words) == len(FORMS[self.kind])


@dataclass(frozen=True)
class Point:
    name: str
    line: int


@dataclass(frozen=True)
class Bound:
    """`end` comes at most `most` after `start`. One of a line `between` has its name with `.max` or `.min`."""

    name: str
    start: str
    end: str
    most: int
    statement: Statement

    @property
    def line(self):
        return self.statement.line

    @property
    def place(self):
        """The place of its number in its statement."""
        if self.statement.kind == Kind.BOUND:
            return "MOST"
        return "HIGH" if self.name.endswith(".max") else "LOW"

    def written(self, most):
        """A number of this bound as its statement has it."""
        return str(-most if self.place == "LOW" else most)

    def text(self, most=None):
        """The bound as a line of a plan, with its own number or another."""
        return f"bound {self.name} {self.start} {self.end} {self.most if most is None else most}"

    def line_text(self):
        """The line of the plan on which the bound stands: that of a line `between` has two."""
        if self.statement.kind == Kind.BOUND:
            return self.text()
        words = " ".join(self.statement[place] for place in FORMS[Kind.BETWEEN])
        return f"{Kind.BETWEEN.value} {words}"


@dataclass(frozen=True)
class Link:
    """Nature picks how long after `start` the point `end` comes: from `low` to `high`. The link goes by the name of `end`."""

    start: str
    low: int
    high: int
    end: str
    statement: Statement

    @property
    def line(self):
        return self.statement.line

    def text(self, low=None, high=None):
        """The link as a line of a plan, with its own numbers or others."""
        return f"link {self.start} {self.low if low is None else low} {self.high if high is None else high} {self.end}"

    def line_text(self):
        """The line of the plan that declares the link."""
        return self.text()


@dataclass(frozen=True)
class Finding:
    """A fault of a plan, or a warning: the line, the word at fault, and what is the matter with it.

    Of a fault `told` is the line that the program answers where this one is the first; of a warning `slip` is what kind it is of.
    """

    line: int
    message: str
    told: str = ""
    token: str | None = None
    wanted: str | None = None
    slip: str | None = None

    @property
    def is_fault(self):
        return bool(self.told)


@dataclass
class Reading:
    """A plan as it was read: its statements, what was found in its form, and what remarks hold fast."""

    statements: list[Statement] = field(default_factory=list)
    findings: list[Finding] = field(default_factory=list)
    # Names that a remark `# fixed` holds, with its line, and lines of statements that one above them holds.
    held_names: dict[str, int] = field(default_factory=dict)
    held_lines: set[int] = field(default_factory=set)
    spelling: Spelling = Spelling()
