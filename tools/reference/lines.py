"""Lines, words, names, numbers and answers, by the rules of docs/FORMAT.md and docs/ANSWERS.md."""

import re
import sys
from contextlib import contextmanager

NAME = re.compile(rb"[A-Za-z][A-Za-z0-9_.-]{0,31}\Z")
NUMBER = re.compile(rb"(0|-?[1-9][0-9]*)\Z")

LONGEST_LINE = 65_536
MOST_INPUT = 1_073_741_824
MOST_OF_A_PLAN = 1_000_000_000
MOST_DELAY = 1_000_000
SHORT_NAME = 28
MOST_WEIGHT = 999_999_999_999_999_999
MOST_LINE_NUMBER = 18_446_744_073_709_551_615
MOST_MOMENT = 4_000_000_000_000
# What is printed of a number that is beyond one of these.
BEYOND = ("number", "moment")


class Answer(Exception):
    """The line that is printed, and the status."""

    def __init__(self, status, *words):
        super().__init__(" ".join(str(word) for word in words))
        self.status = status


class Fault(Exception):
    """Why a line is no line of its text."""

    def at(self, number):
        """The answer to an input that has it in this line."""
        if str(self) in BEYOND:
            return Answer(4, "error limit", number, self)
        return Answer(3, "error format", number, self)


class Refused(Exception):
    """Why an edit or an event is refused, in words."""

    def __init__(self, *words):
        super().__init__(" ".join(str(word) for word in words))


def refused(number, *why):
    """The answer to a certificate that is refused in this line."""
    return Answer(1, "refused", number, *why)


def name_of(word, longest=None):
    if not NAME.match(word) or (longest and len(word) > longest):
        raise Fault("bad-name")
    return word.decode()


def number_of(word, most, is_signed=True, beyond="number"):
    if not NUMBER.match(word) or (not is_signed and word.startswith(b"-")):
        raise Fault("bad-number")
    if abs(int(word)) > most:
        raise Fault(beyond)
    return int(word)


# What a word of a line is: N a name, S a short one, V a number of a plan, D a delay, W a weight, I
# the number of a line, M a moment.
KINDS = {
    "N": name_of,
    "S": lambda word: name_of(word, SHORT_NAME),
    "V": lambda word: number_of(word, MOST_OF_A_PLAN),
    "D": lambda word: number_of(word, MOST_DELAY, False),
    "W": lambda word: number_of(word, MOST_WEIGHT),
    "I": lambda word: number_of(word, MOST_LINE_NUMBER, False),
    "M": lambda word: number_of(word, MOST_MOMENT, False, "moment"),
}


def values_of(kinds, words):
    """The values of words, each of which is of a kind."""
    if len(words) != len(kinds):
        raise Fault("word-count")
    return [KINDS[kind](word) for kind, word in zip(kinds, words)]


class Lines:
    """The lines of an input that are not passed over, each as its words."""

    def __init__(self, data):
        self.data, self.position, self.number = data, 0, 0

    def next(self):
        """The words of the next line, or None where the input has ended."""
        while self.position < len(self.data):
            self.number += 1
            end = self.data.find(b"\n", self.position)
            closed = end >= 0
            end = end if closed else len(self.data)
            if end - self.position > LONGEST_LINE and self.position + LONGEST_LINE <= MOST_INPUT:
                raise Answer(4, "error limit", self.number, "line")
            if end > MOST_INPUT or (closed and end + 1 > MOST_INPUT):
                raise Answer(4, "error limit", self.number, "total")
            words = [word for word in re.split(rb"[ \t\r]+", self.data[self.position : end]) if word]
            self.position = end + 1
            if words and not words[0].startswith(b"#"):
                return words
        return None

    def wanted(self, missing="no-end"):
        """The words of the next line, which must be there."""
        words = self.next()
        if words is None:
            raise Fault(missing).at(self.number + 1)
        return words

    def header(self, *headers):
        """The words of the first line of a text, which must be one of these."""
        words = self.wanted("no-header")
        if b" ".join(words) not in headers:
            raise self.fault("no-header")
        return words

    def fault(self, word):
        """The answer to a fault in the last line."""
        return Fault(word).at(self.number)

    @contextmanager
    def read(self):
        """While the last line is read: a fault of it is the answer."""
        try:
            yield
        except Fault as fault:
            raise fault.at(self.number) from None


class StreamLines(Lines):
    """The lines of a stream that are not passed over, each taken when it is asked for."""

    def __init__(self, stream):
        super().__init__(b"")
        self.stream, self.taken, self.kept = stream, 0, []

    def next(self):
        while True:
            line = self.stream.readline(LONGEST_LINE + 1)
            if not line:
                return None
            self.number += 1
            is_long = len(line) > LONGEST_LINE and line[-1:] != b"\n"
            if is_long and self.taken + LONGEST_LINE <= MOST_INPUT:
                raise Answer(4, "error limit", self.number, "line")
            self.taken += len(line)
            if self.taken > MOST_INPUT:
                raise Answer(4, "error limit", self.number, "total")
            words = line.replace(b"\t", b" ").replace(b"\r", b" ").rstrip(b"\n").split(b" ")
            words = [word for word in words if word]
            if words and not words[0].startswith(b"#"):
                self.kept.append(words)
                return words

    def text(self):
        """The lines that were taken and kept, as a text."""
        return b"\n".join(b" ".join(words) for words in self.kept).decode()


def talk(answer, stream, put):
    """Puts what answers the lines of a stream, or their fault, and returns the status."""
    try:
        return answer(StreamLines(stream), put)
    except Answer as fault:
        put([str(fault)])
        return fault.status


def put_lines(lines):
    sys.stdout.write("".join(f"{line}\n" for line in lines))
    sys.stdout.flush()


def delay_word(parser):
    """Adds the word of a delay that is given with the call."""
    parser.add_argument("delay", type=int, nargs="?", metavar="DELAY", help="as `--delay` gives it (that of the plan)")
