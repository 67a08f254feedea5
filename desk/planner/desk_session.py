"""A session of the program over a plan, of which no slip of the keyboard loses an edit, and the plan's text as it stands with them."""

from dataclasses import dataclass, field

from planner.draft import ENDINGS, Draft
from planner.parts import LARGEST_DELAY
from planner.program import Session
from planner.reader import WHOLE

# The lines with which the answers to these questions end; of the others they have one line.
ENDS = {"proof": ("end", ""), "table": ("table end", "not controllable", "")}
QUESTIONS = ("verdict", "proof", "table", "report")


@dataclass(frozen=True)
class Said:
    """What the program answers to a line; whether an edit is made; and whether the session has to be begun anew for the rest."""

    lines: list[str] = field(default_factory=list)
    is_made: bool = False
    is_spoiled: bool = False

    @property
    def last(self):
        return self.lines[-1] if self.lines else ""


def negated(word):
    """A number with the other sign, where the word is one."""
    return word if word == "0" else word.removeprefix("-") if word.startswith("-") else f"-{word}"


def sent(words):
    """The lines of a session for which an edit stands: of a line `between` one for each of its bounds."""
    match words:
        case ["add", "between", name, start, low, high, end]:
            return [f"add bound {name}.max {start} {end} {high}", f"add bound {name}.min {end} {start} {negated(low)}"]
        case ["set", "between", name, low, high]:
            return [f"set bound {name}.max {high}", f"set bound {name}.min {negated(low)}"]
        case ["drop", "between", name]:
            return [f"drop bound {name}{ending}" for ending in ENDINGS]
    return [" ".join(words)]


def delay_of(words):
    """The delay that an edit sets; None where it sets none."""
    match words:
        case ["set", "delay", number] if WHOLE.fullmatch(number) and 0 <= int(number[:20]) <= LARGEST_DELAY:
            return int(number)
    return None


def parts_of(lines):
    """The lines of a plan but for its delay: the bounds, whose order says nothing, and the others in their order."""
    bounds = sorted(line for line in lines if line.startswith("bound "))
    return bounds, [line for line in lines if not line.startswith(("bound ", "delay "))]


class Desk:
    """A session over a plan. What ends it, or spoils it, is undone by a new one, in which the lines that stand are played again."""

    def __init__(self, program, source):
        self.program, self.source = program, source
        self.talk, self.lines = None, []
        self.begin()

    def begin(self, lines=()):
        """Begins anew, with the delay that these lines set last: a session has no edit of that."""
        if self.talk is not None:
            self.talk.close()
        delays = [delay for line in lines if (delay := delay_of(line.split())) is not None]
        source = self.source.with_delay(delays[-1]) if delays else self.source
        self.talk, self.draft = Session(self.program, source), Draft.of(self.source)

    def is_begun_anew(self):
        """Whether the last edit was one of the delay: the session has been begun anew for it, and knows of none."""
        return bool(self.lines) and delay_of(self.lines[-1].split()) is not None

    def play(self, lines):
        """Begins anew with these lines. Returns those that are refused, which are left out, each with what is said to it."""
        standing, refused, place = list(lines), [], 0
        self.begin(standing)
        while place < len(standing):
            said = self.tried(standing[place].split())
            if said.is_made:
                place += 1
                continue
            refused.append((standing.pop(place), said))
            if said.is_spoiled:
                self.begin(standing)
                place = 0
        self.lines = standing
        return refused

    def take(self, line):
        """Makes an edit, or returns why the program does not; all stands as before then."""
        if delay_of(line.split()) is not None:
            self.play([*self.lines, line])
            return Said(["ok"], is_made=True)
        said = self.tried(line.split())
        if said.is_made:
            self.lines.append(line)
        elif said.is_spoiled:
            self.play(self.lines)
        return said

    def tried(self, words):
        if (delay := delay_of(words)) is not None:
            self.draft.write_delay(delay)
            return Said(["ok"], is_made=True)
        for place, line in enumerate(sent(words)):
            self.talk.send(line)
            answer = self.talk.line()
            if answer != "ok":
                return Said([answer], is_spoiled=place > 0 or not answer.startswith("refused "))
        self.draft.edit(words)
        return Said(["ok"], is_made=True)

    def ask(self, line):
        """Asks the session a question, and returns the lines of the answer."""
        self.talk.send(line)
        answer = self.talk.lines(lambda said: said in ENDS.get(line, (said,)) or said.startswith("error "))
        if not answer[-1] or answer[-1].startswith("error "):
            self.play(self.lines)
        return answer

    @property
    def is_document(self):
        """Whether the plan came as a JSON document."""
        return "--json" in self.source.words

    def is_as_the_session_has_it(self, source):
        """Whether the program reads a source as the plan that its session has, but for the delay of the call and the order of bounds."""
        self.talk.send("plan")
        held = self.talk.lines(lambda line: line == "end")
        shown = self.program.call(["show"], source, is_shown=False)
        return shown.is_kept and parts_of(shown.lines) == parts_of(held)

    def close(self):
        self.talk.send("end")
        self.talk.close()
