"""What the workbench refuses, as exceptions: each holds the line, the word, and what is known of it."""

from ._library import Status

# What each word says. docs/ANSWERS.md tells them at length.
MEANINGS = {
    # of a line
    "unknown-word": "the first word of the line is none that may stand there",
    "word-count": "the line has too few words or too many",
    "bad-name": "a name is 1 to 32 letters, digits, '_', '-' and '.', of which the first is a letter (of a `between` at most 28)",
    "bad-number": "a number is whole, as 0, 7 or -7, without a '+' or a zero in front; a moment has no '-'",
    "no-header": "the text does not begin with its header, as `stnu 1` or `stnu 2`",
    "no-end": "the input ended before the line `end`, or before `done`",
    "duplicate-name": "the name was declared before",
    "unknown-name": "no line before declares this name, or the plan has no such point",
    "two-links-on-point": "a link ends in this point already",
    "link-to-itself": "a link goes from a point to itself",
    "bad-interval": "a link's shortest duration is below 1, or above its longest",
    "duplicate-plan": "a plan of this name stands before",
    "still-used": "something still names the point: drop that first",
    # of limits
    "points": "a plan has at most 2,000 points",
    "links": "a plan has at most 800 links",
    "bounds": "a plan has at most 20,000 bounds",
    "number": "a number is beyond its limit",
    "moment": "a moment is at most 4,000,000,000,000",
    "cells": "the plan has more keys than shared cells hold",
    "plans": "a fleet has at most 64 plans",
    "line": "a line has at most 65,536 bytes",
    "total": "an input has at most 1,073,741,824 bytes",
    "json": "a document has at most 67,108,864 bytes",
    # of a document
    "not-json": "the text is no JSON",
    "shape": "a member is missing, is one too many, or is of another kind",
    # of an event
    "not-later": "the moment is not after the last one that was told",
    "not-contingent": "no link ends in this point: it is executed, and does not complete",
    "twice": "the point has completed before, or stands in the line twice",
    "not-active": "the link has not begun before this moment",
    "too-soon": "the link cannot be over before this moment",
    "overdue": "the link is over by this moment at the latest",
    "unfinished": "the point has not completed",
    "idle": "the plan is not executed: it is complete, over, cannot be kept, or was refused",
    # of a certificate
    "unknown-item": "the plan does not have what this line names",
    "weight-range": "a weight is beyond its limit",
    "premise": "the line rests on no earlier line",
    "label": "an edge has a label where it may have none, has none where it must, or has another",
    "rule-condition": "the rule may not be used here",
    "ends": "the line does not go between the points that its rule gives",
    "too-low": "the rule gives no such low weight",
    "walk-broken": "the walk does not go on where it was, or does not end where it began",
    "walk-not-negative": "the weights of the walk do not add up to less than 0",
    "missing-base": "nothing stands for a bound or a link of the plan",
    "order-broken": "the order of the points is not one, or an entry goes against it",
    "not-closed": "something that follows from the entries does not stand among them",
}
# The words of the line that begins `error ..`, after which the WORD stands.
_LINE_KINDS = ("format", "plan", "event")


def meaning_of(word: str) -> str:
    """What is known of a word, in a sentence without an end."""
    return MEANINGS.get(word, "")


class Fault(Exception):
    """What was asked is refused.

    status: how the run ended; `Status.RUNNING` where it goes on.
    kind: what is at fault: `words`, `format`, `plan`, `json`, `limit`, `event`, `edit`, `read` or `write`.
    line: the number of the line at fault, from 1, or None; of a plan in a document, of the part.
    word: what is wrong, as "unknown-name".
    details: the words after it, as the name and the moment of an event.
    source: the text of that line, where it is known.
    meaning: what the word says.
    """

    def __init__(self, status, kind, word="", line=None, details=(), source=None):
        self.status, self.kind, self.word, self.line = status, kind, word, line
        self.details, self.source = tuple(details), source
        self.meaning = meaning_of(word)
        super().__init__(self.told())

    def told(self) -> str:
        """The fault in a line."""
        place = "" if self.line is None else f"line {self.line}"
        place += "" if self.source is None else f" `{self.source}`"
        what = " ".join([self.word or self.kind, *self.details])
        return ": ".join(filter(None, [place.strip(), what, self.meaning]))


class InputFault(Fault):
    """A line of the input, or a part of the plan, is at fault."""


class LimitPassed(Fault):
    """A limit is passed."""


class EventRefused(Fault):
    """An event is refused, and the execution is over. `name` and `moment` are those that the refusal names, where it does."""

    @property
    def name(self) -> str | None:
        return next((word for word in self.details if not word.isdigit()), None)

    @property
    def moment(self) -> int | None:
        return next((int(word) for word in self.details if word.isdigit()), None)


class EditRefused(Fault):
    """An edit cannot be made: the plan stands as before, and the session goes on."""


class WordsRefused(Fault):
    """The words are those of no command."""


class Stopped(Exception):
    """The run was stopped."""


class NotControllable(Exception):
    """The plan cannot be kept, whatever is done. `certificate` shows why, where there is one; `stnu.why` reads it."""

    def __init__(self, certificate: str = ""):
        self.certificate = certificate
        super().__init__("no way of working keeps every bound of the plan, whatever nature does")


def _number(word):
    return int(word) if word.isdigit() else None


def fault_of(status, text, source_of=lambda line: None):
    """The exception that tells a line which begins with `error`, or a status without one. `source_of` gives the text of a line."""
    words = text.split()
    match words:
        case ["error", kind, line, word, *details] if kind in _LINE_KINDS and line.isdigit():
            number = int(line)
            raised = EventRefused if kind == "event" else InputFault
            return raised(status, kind, word, number, details, source_of(number) if number else None)
        case ["error", "limit", place, *details, word]:
            number = _number(place)
            place = [] if number is not None else [place]
            return LimitPassed(status, "limit", word, number, [*place, *details], source_of(number) if number else None)
        case ["error", "json", word, *details]:
            return InputFault(status, "json", word, None, details)
        case ["error", "words"]:
            return WordsRefused(status, "words")
        case _ if status == Status.MEMORY:
            return MemoryError("there was no memory")
        case _:
            return Fault(status, "read" if status == Status.READ else "write")
