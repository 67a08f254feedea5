"""Runs that are talked to line by line: an execution, a session, a fleet."""

from collections.abc import Iterable, Mapping
from dataclasses import dataclass
from typing import NamedTuple

from ._library import Closed, Run, Status
from .faults import EditRefused, EventRefused, LimitPassed, NotControllable, Stopped, fault_of
from .plans import Plan, PlanLike, Source, whole, word
from .questions import options


class Act(NamedTuple):
    """A point that is executed at a moment."""

    moment: int
    point: str


class Talk:
    """A run, with the number of lines that were told to it. Used as a context manager it is closed at the end."""

    def __init__(self, *words: str):
        self._run = Run(*words)
        self._lines = 0
        self._is_stopped = False

    def tell(self, text: str | bytes) -> list[str]:
        """Tells whole lines, and gives those of the answer. Raises what the run ended by, where that is a fault."""
        if self._run.status is not Status.RUNNING:
            raise Closed("the run has ended")
        before = self._lines
        given = text if isinstance(text, bytes) else text.encode("utf-8", "surrogateescape")
        self._lines += given.count(b"\n")
        answer = self._run.feed(given)
        lines = answer.text.splitlines()
        if answer.status in (Status.RUNNING, Status.YES, Status.NO):
            return lines
        if self._is_stopped and answer.status is Status.MEMORY:
            raise Stopped("the run was stopped")
        told = given.decode("utf-8", "replace").split("\n")
        said = lines[-1] if lines else ""
        raise fault_of(answer.status, said, lambda line: told[line - before - 1].strip() or None if line > before else None)

    @property
    def status(self) -> Status:
        """How the run stands."""
        return self._run.status

    def stop(self) -> None:
        """Called in another thread than the one that waits for an answer: the run ends soon, and that one raises `Stopped`."""
        self._is_stopped = True
        self._run.stop()

    def close(self) -> None:
        """Ends the run, where it has not ended, and gives back what it held."""
        self._run.close()

    def __enter__(self):
        return self

    def __exit__(self, *_):
        self.close()


def told_day(lines):
    """The acts in an answer; the moment that is due, or None; and whether the day is over."""
    acts, due, is_over = [], None, False
    for line in lines:
        match line.split():
            case ["act", moment, point]:
                acts.append(Act(int(moment), point))
            case ["due", moment] if moment.isdigit():
                due = int(moment)
            case ["complete"]:
                is_over = True
    return acts, due, is_over


def at_line(moment, completed):
    """The line that tells what completes at a moment."""
    return " ".join(["at", whole(moment), *map(word, completed)])


class Execution:
    """A plan that is executed as the day goes on. Raises `NotControllable` where it cannot be kept.

    due: the moment at which something is executed if nothing completes before, or None.
    is_over: whether the day came to its end.

    >>> with Execution(plan) as day:
    ...     day.at(0)
    ...     day.at(128, "arrive")
    ...     day.done()
    """

    due: int | None
    is_over: bool

    def __init__(
        self, plan: PlanLike, *, delay: int | None = None, workers: int | None = None, feeders: int | None = None
    ):
        source = Source.of(plan)
        talk = Talk("run", *options(delay=delay, workers=workers, feeders=feeders), *source.words)
        self._begin(talk, talk.tell(source.alone()))

    @classmethod
    def _of(cls, talk, lines):
        """The execution that a session goes on as."""
        it = cls.__new__(cls)
        it._begin(talk, lines)
        return it

    def _begin(self, talk, lines):
        self._talk = talk
        if lines[:1] == ["not controllable"]:
            talk.close()
            raise NotControllable("".join(f"{line}\n" for line in lines[1:]))
        self._take(lines)

    def _take(self, lines):
        acts, self.due, self.is_over = told_day(lines)
        return acts

    def at(self, moment: int, *completed: str) -> list[Act]:
        """Tells that it is this moment, and all that completes at it. Gives what is executed.

        Raises `EventRefused` where the event is none of a day that the plan describes: the day is over then.
        """
        return self._take(self._talk.tell(at_line(moment, completed) + "\n"))

    def done(self) -> list[Act]:
        """Tells that no more will complete. Gives what is still executed, each at its moment."""
        return self._take(self._talk.tell("done\n"))

    def stop(self) -> None:
        """Called in another thread: the execution ends soon."""
        self._talk.stop()

    def close(self) -> None:
        """Ends the execution, and gives back what it held."""
        self._talk.close()

    def __enter__(self):
        return self

    def __exit__(self, *_):
        self.close()


class After(NamedTuple):
    """`point` comes no sooner than `moments` after `earlier`."""

    point: str
    earlier: str
    moments: int


class Wait(NamedTuple):
    """`point` comes not before `contingent` is over, or `moments` are gone since its link began, whichever is sooner."""

    point: str
    contingent: str
    moments: int


@dataclass(frozen=True)
class Report:
    """What the last accepted edit cost: how many derivations were kept, how many withdrawn, and how many rounds were made."""

    kept: int
    withdrawn: int
    rounds: int


class Session(Talk):
    """A plan that is edited and asked about, and executed in the end.

    An edit that is refused raises `EditRefused`, or `LimitPassed`, and the session goes on.

    >>> with Session(plan) as session:
    ...     session.set_bound("still-warm", 50)
    ...     session.verdict()
    ...     day = session.go()
    """

    def __init__(self, plan: PlanLike, *, delay: int | None = None, workers: int | None = None):
        source = Source.of(plan)
        super().__init__("session", *options(delay=delay, workers=workers), *source.words)
        self.tell(source.alone())

    def _edit(self, *words):
        line = " ".join(words)
        said = self.tell(line + "\n")
        match said[0].split():
            case ["refused", "limit", which]:
                raise LimitPassed(Status.RUNNING, "limit", which, None, (), line)
            case ["refused", reason, *details]:
                raise EditRefused(Status.RUNNING, "edit", reason, None, details, line)

    def add_point(self, name: str) -> None:
        """A point more."""
        self._edit("add", "point", word(name))

    def add_bound(self, name: str, start: str, end: str, most: int) -> None:
        """A bound more: `end` comes at most `most` after `start`."""
        self._edit("add", "bound", word(name), word(start), word(end), whole(most))

    def add_link(self, start: str, low: int, high: int, end: str) -> None:
        """A link more: nature picks from `low` to `high` how long after `start` the point `end` comes."""
        self._edit("add", "link", word(start), whole(low), whole(high), word(end))

    def drop_point(self, name: str) -> None:
        """The point goes, where nothing uses it."""
        self._edit("drop", "point", word(name))

    def drop_bound(self, name: str) -> None:
        """The bound goes."""
        self._edit("drop", "bound", word(name))

    def drop_link(self, end: str) -> None:
        """The link that ends in this point goes."""
        self._edit("drop", "link", word(end))

    def set_bound(self, name: str, most: int) -> None:
        """The bound gets this number."""
        self._edit("set", "bound", word(name), whole(most))

    def set_link(self, end: str, low: int, high: int) -> None:
        """The link that ends in this point gets this interval."""
        self._edit("set", "link", word(end), whole(low), whole(high))

    def verdict(self) -> bool:
        """Whether the plan as it stands can be kept."""
        return self.tell("verdict\n") == ["controllable"]

    def proof(self) -> str:
        """The certificate of the plan as it stands: why it can be kept, or why it cannot."""
        return "".join(f"{line}\n" for line in self.tell("proof\n"))

    def table(self) -> list[After | Wait] | None:
        """By what each point is executed, or None where the plan cannot be kept."""
        lines = [line.split() for line in self.tell("table\n")]
        if lines == [["not", "controllable"]]:
            return None
        kinds = {"after": After, "wait": Wait}
        return [kinds[words[0]](words[1], words[2], int(words[3])) for words in lines if words[0] in kinds]

    def plan(self) -> Plan:
        """The plan as it stands."""
        return Plan.parse("".join(f"{line}\n" for line in self.tell("plan\n")))

    def report(self) -> Report | None:
        """What the last accepted edit cost, or None before any."""
        numbers = self.tell("report\n")[0].split()[1:]
        return None if numbers == ["none"] else Report(*map(int, numbers))

    def go(self) -> Execution:
        """The plan as it stands is executed from now on, and the session is edited no more. Raises `NotControllable`: then it goes on."""
        lines = self.tell("go\n")
        if lines == ["not controllable"]:
            raise NotControllable(self.proof())
        return Execution._of(self, lines)

    def end(self) -> None:
        """Ends the session."""
        self.tell("end\n")


class Fleet(Talk):
    """Plans that are executed side by side, each by its name. An event that is refused ends its own plan and no other.

    due: of each plan that is executed, the moment at which something is executed if nothing completes before, or None.
    why_not: of each plan that is not executed from the start, why: "not controllable", or "refused .." with the words of the refusal.

    >>> with Fleet({"van": van, "tram": tram}) as fleet:
    ...     fleet.at("van", 0)
    """

    def __init__(self, plans: Mapping[str, PlanLike] | Iterable[tuple[str, PlanLike]]):
        super().__init__("fleet")
        self.due: dict[str, int | None] = {}
        self.why_not: dict[str, str] = {}
        text = b"fleet 1\n"
        for name, plan in dict(plans).items():
            source = Source.of(plan)
            if source.words:
                source = Source.of(Plan.parse(plan))
            text += f"plan {word(name)}\n".encode() + source.alone()
        for line in self.tell(text + b"go\n"):
            match line.split():
                case [name, "due", moment]:
                    self.due[name] = int(moment) if moment.isdigit() else None
                case [name, ("not" | "refused"), *_]:
                    self.why_not[name] = line.partition(" ")[2]

    def _event(self, name, event):
        """Tells an event of a plan."""
        if name not in self.due and name not in self.why_not:
            raise KeyError(name)
        lines = [line.partition(" ")[2] for line in self.tell(f"{word(name)} {event}\n")]
        if lines[-1].startswith("error "):
            self.due.pop(name, None)
            self.why_not[name] = lines[-1]
            raise fault_of(Status.RUNNING, lines[-1], lambda line: event)
        if lines[-1] == "idle":
            raise EventRefused(Status.RUNNING, "event", "idle", None, (), event)
        acts, due, is_over = told_day(lines)
        self.due[name] = due
        if is_over:
            del self.due[name]
            self.why_not[name] = "complete"
        return acts

    def at(self, name: str, moment: int, *completed: str) -> list[Act]:
        """Tells that it is this moment for a plan, and all of it that completes at it. Gives what is executed."""
        return self._event(name, at_line(moment, completed))

    def done(self, name: str) -> list[Act]:
        """Tells that no more of this plan will complete. Gives what is still executed."""
        return self._event(name, "done")

    def end(self) -> None:
        """Ends the fleet."""
        self.tell("end\n")
