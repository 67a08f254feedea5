"""Why a certificate is refused, for whoever handed it over: its line, and what is the matter with it."""

from dataclasses import dataclass

from planner.plan import LONGEST_CERTIFICATE, Plan, called, is_document, text_of
from planner.program import Source, joined
from planner.reader import quoted, words_of

VERDICTS = ("controllable", "not controllable")
# What is the matter with a line by the word with which it is refused, and the words after that.
CAUSES = {
    "unknown-item": "the plan has no such bound, link or point: is this a certificate of another plan, or of an older state of it?",
    "weight-range": "a weight is at most 1,000,000,000,000 in size",
    "premise": "a number in it is not that of an earlier rule line; blank lines and remarks are not counted",
    "label": "its label is missing, or there is one too many, or it is another one than the rule gives",
    "rule-condition": "this step may not be taken: it wants a premise below 0, and another link than that of the label",
    "ends": "it goes between other points than the rule gives: are the two premises exchanged?",
    "too-low": "it states {0}, and its rule gives no less than {1}: the plan has a looser number there, or the sum is wrong",
    "walk-broken": "the walk is empty, does not go on where it was, or does not end where it began",
    "walk-not-negative": "the walk adds up to {0}, which is not below 0, so it shows nothing",
    "missing-base": "no entry states the {0} {1} with its number or less: an entry was left out, or the plan was tightened",
    "order-broken": "the order of the points is not whole, or this entry goes against it",
    "not-closed": "by a rule this entry gives an edge that does not stand in the table: an entry was left out, or its weight was raised",
}
# So a certificate is refused that was made with another delay.
OF_NUMBERS = ("too-low", "walk-not-negative", "missing-base", "not-closed")
# What a text is that is no certificate, by its first word.
OTHERS = {
    "stnu": "this is a plan, and no certificate: 'planner check PLAN --proof FILE' writes one",
    "fleet": "this is the text of a fleet, and no certificate",
    "strong": "this is a strong certificate, which 'stnu judge --strong' judges",
}


@dataclass(frozen=True)
class Certificate:
    """A certificate of a file, without the verdict that `check` prints above it."""

    path: str
    source: Source
    # How many lines of the file stand above it.
    above: int

    @classmethod
    def of(cls, path):
        text = text_of(path, LONGEST_CERTIFICATE)
        file = None if path == "-" else path
        first, _, rest = text.partition("\n")
        if first.strip() in VERDICTS:
            return cls(path, Source(rest, file=file).cut(1), 1)
        return cls(path, Source(text, file=file), 0)

    def lines(self):
        return self.source.text.split("\n")

    def counted(self, number):
        """The place of the line that the judge counts as this one: it counts from the third on, without blank lines and remarks."""
        lines = [[word.text for word in words_of(line)] for line in self.lines()]
        places = [place for place, words in enumerate(lines) if words and not words[0].startswith("#")]
        return places[number + 1] if 0 < number < len(places) - 1 else None


@dataclass(frozen=True)
class Refusal:
    """Why a certificate is refused: the line of its file, if it is one line's matter, and a sentence about it."""

    path: str
    line: int | None
    text: str
    why: str

    def __str__(self):
        place = called(self.path) + (f":{self.line}" if self.line else "")
        return f"{place}: " + (f"{quoted(self.text)}: " if self.text else "") + self.why


def refusal_of(said, source, certificate):
    """Why the judge refuses a certificate of this plan with this line."""
    match said.split():
        case ["refused", number, word, *more]:
            return at(certificate, certificate.counted(int(number)), cause(word, more, source))
        case ["error", _, number, word, *_]:
            place = int(number) - joined([source, Source("")]).count("\n") - 1
            words = words_of(certificate.lines()[place]) if 0 <= place < len(certificate.lines()) else []
            return at(certificate, place if words else None, about_format(word, words[0].text if words else "", certificate))
    return at(certificate, None, "is it a certificate, whole, with its line 'end'?")


def at(certificate, place, why):
    """A refusal whose line stands at this place of the certificate; of all of it where that is None."""
    if place is None:
        return Refusal(certificate.path, None, "", why)
    return Refusal(certificate.path, place + certificate.above + 1, certificate.lines()[place].strip(), why)


def cause(word, more, source):
    """What is the matter with a line that is refused with these words."""
    why = CAUSES.get(word, "it shows nothing").format(*more, *([""] * 2))
    if word not in OF_NUMBERS:
        return why
    delay = Plan.of(source).delay
    return f"{why}. The plan is read here with a delay of {delay}: was the certificate made with another? --delay N says which"


def about_format(word, first, certificate):
    """What is the matter with a text that is no certificate from a line on that begins so."""
    if not certificate.source.text.split():
        return "there is no certificate in it"
    if is_document(certificate.source.text):
        return OTHERS["stnu"]
    if word == "no-end":
        return "it ends without a line 'end': was it cut off?"
    return OTHERS.get(first, "this is no line of a certificate")
