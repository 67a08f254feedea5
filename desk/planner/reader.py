"""Reads a plan text into statements, by the rules of docs/FORMAT.md, and finds each fault of its lines."""

import difflib
import re

from planner.parts import (
    FORMS,
    LARGEST,
    LARGEST_DELAY,
    LONGEST_BETWEEN,
    LONGEST_NAME,
    NUMBERS,
    Finding,
    Kind,
    Reading,
    Statement,
    Word,
    form,
)

BLANKS = " \t\r"
WORD = re.compile(f"[^{BLANKS}]+")
NAME = re.compile(r"[A-Za-z][A-Za-z0-9_.-]*")
WHOLE = re.compile(r"0|-?[1-9][0-9]*")
LONGEST_LINE = 65_536
OF_VERSION_2 = (Kind.DELAY, Kind.BETWEEN)


def words_of(line, start=0):
    """The words of a line that begins at this place of its text."""
    return [Word(it.group(), start + it.start(), start + it.end()) for it in WORD.finditer(line)]


def is_name(text):
    return len(text) <= LONGEST_NAME and bool(NAME.fullmatch(text))


def nearest(word, names):
    """The name that is most like a word; None where none is much like it."""
    lower = {name.lower(): name for name in reversed(list(names))}
    found = difflib.get_close_matches(word.lower(), lower, n=1, cutoff=0.6)
    return lower[found[0]] if found else None


def quoted(word):
    """A word as it is shown to its writer, with no byte that a terminal takes for another thing."""
    shown = word if len(word) <= 40 else word[:37] + ".."
    printable = (it if it.isprintable() else f"\\x{it.encode('utf-8', 'surrogateescape').hex()}" for it in shown)
    return f"'{''.join(printable)}'"


class TextReader:
    """Reads the lines of a plan text, one after another."""

    def __init__(self, text):
        self.text = text
        self.reading = Reading()
        self.version = None
        self.is_first = True
        self.is_over = False
        self.holds_next = False

    def read(self):
        """The statements of the text, and what was found in it."""
        start, number = 0, 0
        while start < len(self.text) and not self.is_over:
            stop = self.text.find("\n", start)
            stop = len(self.text) if stop < 0 else stop
            number += 1
            self.line(number, self.text[start:stop], start)
            start = stop + 1
        if self.version is None:
            self.no_header(number + 1, "the plan does not begin with a line 'stnu 1' or 'stnu 2'")
        elif not self.is_over:
            self.fault(number + 1, "no-end", "the text ends without a line 'end': add it, or look where the text was cut off")
        return self.reading

    def line(self, number, line, start):
        size = len(line.encode("utf-8", "surrogateescape"))
        if size > LONGEST_LINE:
            told = f"error limit {number} line"
            self.reading.findings.append(Finding(number, f"this line has {size} bytes, and may have {LONGEST_LINE}", told))
            return
        words = words_of(line, start)
        if not words:
            return
        if words[0].text.startswith("#"):
            self.remark(number, [word.text for word in words])
        elif self.version is None:
            self.header(number, words)
        else:
            self.statement(number, words)
            self.is_first = False

    def remark(self, number, words):
        """A remark `# fixed` holds the statement below it, `# fixed NAME ..` those of these names."""
        held = held_by(words)
        if held is not None:
            self.reading.held_names |= {word.strip(","): number for word in held}
            self.holds_next = self.holds_next or not held

    def header(self, number, words):
        match [word.text for word in words]:
            case ["stnu", ("1" | "2") as version]:
                self.version = int(version)
                return
            case ["stnu", *_]:
                why = "the first line is 'stnu 1' or 'stnu 2', with nothing after it"
            case [first, *_] if first.lstrip("\ufeff") != first:
                why = "the text begins with a byte order mark, which some editors write and do not show: save it without one"
            case _:
                why = "the plan begins with a line 'stnu 1' or 'stnu 2'"
        self.no_header(number, why, words[0].text)
        # What comes next is looked at as if the header were there.
        self.version = 2
        if words[0].text in FORMS_BY_WORD:
            self.statement(number, words)

    def statement(self, number, words):
        first = words[0].text
        if first == "end":
            if len(words) == 1:
                self.is_over = True
            else:
                self.fault(number, "word-count", f"{len(words) - 1} words too many", words[1].text, "end")
            return
        kind = self.kind(number, first)
        if kind is not None:
            self.places(number, kind, words)

    def kind(self, number, first):
        """What the first word of a line declares, or was most likely meant to declare, which is a fault; None where there is no telling."""
        kind = FORMS_BY_WORD.get(first)
        if kind is None:
            kind = FORMS_BY_WORD.get(nearest(first, FORMS_BY_WORD) or "")
            self.fault(number, "unknown-word", self.about_word(first, kind), first, form(kind) if kind else None)
        elif kind in OF_VERSION_2 and self.version == 1:
            self.fault(number, "unknown-word", f"lines {kind.value} are of version 2: write 'stnu 2' in the first line", first)
        elif kind == Kind.DELAY and not self.is_first:
            self.fault(number, "unknown-word", "a line delay stands right after the line 'stnu 2', before all others", first, form(kind))
        return kind

    @staticmethod
    def about_word(first, kind):
        if first == "stnu":
            return "a second header: a file holds one plan"
        if first.startswith("//") or first.startswith("--"):
            return "this begins no line of a plan; a remark begins with #"
        if nearest(first, ["end"]) == "end":
            return "this begins no line of a plan; was 'end' meant?"
        meant = f"; was '{kind.value}' meant?" if kind else "; lines begin with " + ", ".join(FORMS_BY_WORD) + " or end"
        return f"this begins no line of a plan{meant}"

    def places(self, number, kind, words):
        """Takes the words of a line of this kind that are as its form wants them."""
        names, given = FORMS[kind], words[1:]
        if len(given) != len(names):
            self.fault(number, "word-count", count_of_words(kind, [word.text for word in given]), extra_word(names, given), form(kind))
            return
        words = {name: word for name, word in zip(names, given) if self.word(number, kind, name, word.text)}
        if self.holds_next:
            self.reading.held_lines.add(number)
            self.holds_next = False
        self.reading.statements.append(Statement(kind, number, number, words))

    def word(self, number, kind, name, text):
        """Whether a word may stand in this place."""
        if name not in NUMBERS:
            longest = LONGEST_BETWEEN if (kind, name) == (Kind.BETWEEN, "NAME") else LONGEST_NAME
            if is_name(text) and len(text) <= longest:
                return True
            self.fault(number, "bad-name", about_name(text, longest), text, form(kind))
        elif not WHOLE.fullmatch(text) or (name == "N" and text.startswith("-")):
            self.fault(number, "bad-number", about_number(text, name), text, form(kind))
        elif abs(int(text[:20])) > (largest := LARGEST_DELAY if name == "N" else LARGEST):
            message = f"{name} is beyond {largest:,}: choose a coarser unit of time"
            self.reading.findings.append(Finding(number, message, f"error limit {number} number", text, form(kind)))
        else:
            return True
        return False

    def no_header(self, number, why, token=None):
        self.fault(number, "no-header", why, token, "stnu 2")

    def fault(self, number, word, message, token=None, wanted=None):
        self.reading.findings.append(Finding(number, message, f"error format {number} {word}", token, wanted))


FORMS_BY_WORD = {kind.value: kind for kind in FORMS}


def held_by(words):
    """The names after `# fixed` in the words of a remark; None where it is another remark."""
    words = words[1:] if words[0] == "#" else words
    return words[1:] if words and words[0].lstrip("#").rstrip(":").lower() == "fixed" else None


def count_of_words(kind, given):
    """What is the matter with a line that has more or fewer words than its form."""
    wanted = len(FORMS[kind])
    remark = next((place for place, word in enumerate(given) if word.startswith("#")), None)
    if len(given) > wanted and remark is not None:
        is_held = held_by(given[remark:]) is not None
        return "a remark stands on a line of its own" + (": '# fixed' stands on a line above the one that it holds" if is_held else "")
    said = f"{wanted} word{'s' if wanted > 1 else ''} wanted after '{kind.value}', and {len(given)} stand there"
    if kind in (Kind.BOUND, Kind.BETWEEN) and len(given) == wanted - 1:
        return f"{said}: has it a name?"
    return said


def extra_word(names, given):
    return given[len(names)].text if len(given) > len(names) else None


def about_name(text, longest):
    """What is the matter with a word in the place of a name."""
    if NAME.fullmatch(text):
        return f"a name of {len(text)} characters; at most {longest} may be here"
    if WHOLE.fullmatch(text):
        return "a number in the place of a name: are words exchanged?"
    return "no name: a name begins with a letter, and has letters of ASCII, digits, '_', '-' and '.'"


def about_number(text, name):
    """What is the matter with a word in the place of a number."""
    if re.fullmatch(r"\d{1,2}:\d\d", text):
        return "a time of day is no number: count in one unit from the beginning of the day"
    if re.fullmatch(r"-?\d+[.,]\d+", text):
        return "no whole number: choose a finer unit of time"
    if re.fullmatch(r"[-+]?[0-9]{1,20}", text) and name != "N":
        return f"a number is written without '+' and without a 0 in front: {int(text)}"
    if text[:1] in "\u2212\u2013\u2014":
        return "this sign is not the minus of the keyboard, '-'"
    if is_name(text):
        return f"a name in the place of the number {name}: are words exchanged, or is one missing?"
    return f"no whole number in the place of {name}"
