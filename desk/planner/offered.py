"""Plans that are offered to a room, out of files or out of the text of a fleet, and what the program says of each."""

import shlex
from dataclasses import dataclass
from pathlib import Path

from planner.draft import Draft
from planner.explain import refusal
from planner.faults import Status, say
from planner.plan import Plan, source_of, text_of
from planner.program import Source
from planner.reader import is_name, words_of


@dataclass(frozen=True)
class Offered:
    """A plan with its name in the room; and why it cannot be in it, in a sentence for the one who brings it, which is empty if it can."""

    name: str
    path: str
    source: Source | None
    why: str = ""
    status: Status = Status.KEPT

    @property
    def reason(self):
        """Why it cannot be in the room, in a few words for the table."""
        return "it cannot be kept" if self.status == Status.NOT_KEPT else self.why.split("\n")[0]


def words(line):
    """The words of a line; none where it is passed over."""
    found = [word.text for word in words_of(line)]
    return [] if found and found[0].startswith("#") else found


def offered(word, delay):
    """The plans that a word of the call names: FILE, or NAME=FILE."""
    name, _, path = word.rpartition("=") if "=" in word and not Path(word).exists() else ("", "", word)
    text = text_of(path)
    lines = text.split("\n")
    if next(filter(None, map(words, lines)), []) == ["fleet", "1"]:
        return [Offered(each, path, source.with_delay(delay)) for each, source in fleet_plans(lines, path)]
    return [Offered(name or Path(path).stem, path, source_of(text, path).with_delay(delay))]


def fleet_plans(lines, path):
    """The plans of a fleet with their names. Empty lines before each text let its lines keep their numbers."""
    name, start, is_over = None, 0, False
    for place, line in enumerate(lines):
        match words(line):
            case ["plan", other] | [("go") as other]:
                if name is not None:
                    yield name, source_from(path, lines, start, place)
                if other == "go":
                    return
                name, start, is_over = other, place + 1, False
            case ["end"] if name is not None:
                yield name, source_from(path, lines, start, place + 1)
                name, is_over = None, True
            case [_, *_] if is_over:
                say(f"{path}:{place + 1}: this stands between two plans and is not read: {line.strip()}")
    if name is not None:
        yield name, source_from(path, lines, start, len(lines))


def source_from(path, lines, start, stop):
    """The plan on these lines of a file, as the shell takes it out of there."""
    text = "\n" * start + "".join(f"{line}\n" for line in lines[start:stop])
    return Source(text, origin=f"sed -e '1,{start}s/.*//' -e {stop}q {shlex.quote(path)}")


def looked_at(program, plan, taken):
    """What is offered, as the program finds it: with a text for a fleet where it can be kept, else with the reason why it is left out."""
    if not is_name(plan.name):
        return Offered(plan.name, plan.path, None, f"'{plan.name}' is no name: NAME=FILE gives it one", Status.WORDS)
    if plan.name in taken:
        return Offered(plan.name, plan.path, None, "a plan of this name is in the room", Status.WORDS)
    answer = program.call(["check"], plan.source)
    if answer.is_refused:
        why = refusal(plan.source, answer, plan.path)
        return Offered(plan.name, plan.path, None, str(why), Status(answer.status))
    if not answer.is_kept:
        why = f"the program says: {answer.first}; why, and what can be done: {piped(plan.source, 'why')}; {piped(plan.source, 'repair')}"
        return Offered(plan.name, plan.path, None, why, Status.NOT_KEPT)
    return Offered(plan.name, plan.path, fleet_source(plan.source))


def piped(source, command):
    """A call of planner about this plan."""
    return f"planner {command} {source.file}" if source.file else f"{source.printed()} | planner {command}"


def fleet_source(source):
    """A plan that the program takes, as a text that is read without words of a call."""
    if not source.words:
        text = source.text.lstrip("\n")
        return Source(text if text.endswith("\n") else text + "\n")
    draft = Draft.of(source)
    draft.write_delay(Plan.of(source).delay)
    return draft.source()


