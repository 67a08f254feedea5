"""A plan as data, as a text, and as a document."""

import json
import os
from dataclasses import dataclass, replace
from pathlib import Path

from ._library import Status, run
from .faults import fault_of

def word(text: str) -> str:
    """A name as one word of a line; whether it is a name is for the workbench to say."""
    if not isinstance(text, str) or text.split() != [text]:
        raise ValueError(f"a name is one word, and {text!r} is none")
    return text


def whole(number: int) -> str:
    """A whole number as a word of a line."""
    if not isinstance(number, int) or isinstance(number, bool):
        raise TypeError(f"a number is whole, and {number!r} is none")
    return str(int(number))


@dataclass(frozen=True)
class Bound:
    """`end` comes at most `most` after `start`; with a negative number, at least so much before it."""

    name: str
    start: str
    end: str
    most: int

    def line(self) -> str:
        return f"bound {word(self.name)} {word(self.start)} {word(self.end)} {whole(self.most)}"


@dataclass(frozen=True)
class Link:
    """Nature picks how long after `start` the point `end` comes, from `low` to `high`; it is seen when it comes."""

    start: str
    low: int
    high: int
    end: str

    def line(self) -> str:
        return f"link {word(self.start)} {whole(self.low)} {whole(self.high)} {word(self.end)}"


def between(name: str, start: str, low: int, high: int, end: str) -> tuple[Bound, Bound]:
    """The two bounds that say that `end` comes `low` to `high` after `start`: `name.max` and `name.min`."""
    return Bound(f"{name}.max", start, end, high), Bound(f"{name}.min", end, start, -low)


@dataclass(frozen=True)
class Plan:
    """Points, bounds and links, each in order, and how late completions are seen.

    >>> Plan(["leave", "arrive"], [Bound("soon", "leave", "arrive", 90)], [Link("leave", 40, 90, "arrive")])
    """

    points: tuple[str, ...] = ()
    bounds: tuple[Bound, ...] = ()
    links: tuple[Link, ...] = ()
    delay: int = 0

    def __post_init__(self):
        for part in ("points", "bounds", "links"):
            object.__setattr__(self, part, tuple(getattr(self, part)))

    @classmethod
    def parse(cls, text: "PlanLike") -> "Plan":
        """The plan of a text or of a JSON document, as the workbench reads it. Raises `InputFault` or `LimitPassed`."""
        source = Source.of(text)
        answer = run(["show", "--print-json", *source.words], source.text)
        if answer.status is not Status.YES:
            raise fault_of(answer.status, answer.text, source.line)
        told, _ = json.JSONDecoder().raw_decode(answer.text)
        bounds = [Bound(it["name"], it["from"], it["to"], it["most"]) for it in told.get("bounds", [])]
        links = [Link(it["from"], it["low"], it["high"], it["to"]) for it in told.get("links", [])]
        return cls(told["points"], bounds, links, told.get("delay", 0))

    @classmethod
    def read(cls, path: str | os.PathLike) -> "Plan":
        """The plan of a file."""
        return cls.parse(Path(path))

    def __str__(self) -> str:
        """The plan as a text of version 2."""
        lines = ["stnu 2", *[f"delay {whole(self.delay)}"] * bool(self.delay), *(f"point {word(name)}" for name in self.points)]
        lines += [it.line() for it in (*self.bounds, *self.links)]
        return "".join(f"{line}\n" for line in [*lines, "end"])

    def with_bound(self, name: str, most: int) -> "Plan":
        """The same plan, where the bound of this name has this number."""
        if name not in (it.name for it in self.bounds):
            raise KeyError(name)
        return replace(self, bounds=[replace(it, most=most) if it.name == name else it for it in self.bounds])

    def with_link(self, end: str, low: int, high: int) -> "Plan":
        """The same plan, where the link that ends in this point has this interval."""
        if end not in (it.end for it in self.links):
            raise KeyError(end)
        return replace(self, links=[replace(it, low=low, high=high) if it.end == end else it for it in self.links])


# What a function takes for a plan: a `Plan`, a text of it, a JSON document of it, or the path of a file with one of these.
PlanLike = Plan | str | bytes | os.PathLike


@dataclass(frozen=True)
class Source:
    """A plan as it is fed, up to its line `end`, and the words with which it is read."""

    text: bytes
    words: tuple[str, ...]

    @classmethod
    def of(cls, plan: PlanLike) -> "Source":
        if isinstance(plan, Plan):
            plan = str(plan)
        text = Path(plan).read_bytes() if isinstance(plan, os.PathLike) else plan
        if isinstance(text, str):
            text = text.encode("utf-8", "surrogateescape")
        if text.lstrip()[:1] == b"{":
            return cls(text.rstrip() + b"\nend\n", ("--json",))
        return cls(text if text.endswith(b"\n") or not text else text + b"\n", ())

    def alone(self) -> bytes:
        """The text without what stands after its line `end`, which belongs to no plan."""
        lines = self.text.split(b"\n")
        ends = next((place for place, line in enumerate(lines) if line.split() == [b"end"]), len(lines) - 2)
        return b"".join(line + b"\n" for line in lines[: ends + 1])

    def line(self, number: int) -> str | None:
        """The text of a line, by its number from 1, but of a document, of which a number counts parts."""
        lines = self.text.split(b"\n")
        if self.words or not 1 <= number <= len(lines):
            return None
        return lines[number - 1].decode("utf-8", "replace").strip() or None
