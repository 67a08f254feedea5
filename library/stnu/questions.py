"""Questions about a plan that are answered once."""

from dataclasses import dataclass

from ._library import Status, run
from .faults import NotControllable, fault_of, meaning_of
from .plans import PlanLike, Source, whole, word


def options(**given):
    """The words of options that are not None, as `--delay 3`; one that is True is a flag."""
    words = []
    for name, value in given.items():
        match value:
            case None | False:
                pass
            case True:
                words.append(f"--{name}")
            case int():
                words += [f"--{name}", whole(value)]
            case _:
                words += [f"--{name}", word(value)]
    return words


def ask(command, source, further=b"", wanted=(Status.YES, Status.NO)):
    """The answer of a command to a plan and what stands after it. Raises what it is refused by."""
    answer = run([*command, *source.words], source.alone() + further)
    if answer.status not in wanted:
        raise fault_of(answer.status, answer.text, source.line)
    return answer


def certificates(text):
    """The certificates in an answer, each up to its line `end`."""
    return [f"certificate 1\n{rest}" for rest in text.split("certificate 1\n")[1:]]


@dataclass(frozen=True)
class Verdict:
    """Whether a plan can be kept, and the certificate of that, where it was asked for or the plan cannot be kept. True where it can."""

    controllable: bool
    certificate: str

    def __bool__(self):
        return self.controllable


@dataclass(frozen=True)
class Refutation:
    """Why a plan cannot be kept: these bounds and links, by name (of a link that of its end), cannot be kept together.

    To keep the plan one of them has to be loosened. `text` is the certificate, which `judge` accepts.
    """

    text: str
    bounds: tuple[str, ...]
    links: tuple[str, ...]

    @classmethod
    def of(cls, text: str) -> "Refutation":
        """The refutation in a certificate."""
        lines = [line.split() for line in text.splitlines()]
        bounds = dict.fromkeys(words[1] for words in lines if words[:1] == ["bound"])
        links = dict.fromkeys(words[1] for words in lines if words[:1] in (["link"], ["low"], ["cross"]))
        return cls(text, tuple(bounds), tuple(links))

    def __str__(self):
        parts = [f"the bounds {', '.join(self.bounds)}"] if self.bounds else []
        parts += [f"the links that end in {', '.join(self.links)}"] if self.links else []
        return f"{' and '.join(parts)} cannot be kept together"


@dataclass(frozen=True)
class Judgement:
    """What a certificate shows of a plan. True where it is accepted.

    claim: what it shows, as "controllable" or "not controllable"; None where it is refused.
    line: the line of the certificate that does not pass, or 0 where it lacks something as a whole.
    word, details, meaning: what is wrong, the words after that, and what it says.
    """

    accepted: bool
    claim: str | None = None
    line: int | None = None
    word: str = ""
    details: tuple[str, ...] = ()

    def __bool__(self):
        return self.accepted

    @property
    def meaning(self) -> str:
        return meaning_of(self.word)


@dataclass(frozen=True)
class Deadline:
    """The least number of moments after `start` within which `end` can be promised, and the certificates of both sides.

    moments: that number; None where there is none up to 1,000,000,000.
    is_free: whether nothing holds `end` back, so that -1,000,000,000 would do.
    proof: the certificate that the plan can be kept with that number; empty where there is none.
    refutation: the certificate that it cannot with one moment less, or with 1,000,000,000; empty where nothing holds `end` back.
    """

    moments: int | None
    is_free: bool
    proof: str
    refutation: str


def check(
    plan: PlanLike, *, proof: bool = False, delay: int | None = None, workers: int | None = None, engine: str | None = None
) -> Verdict:
    """Whether the plan can be kept, whatever nature does. With `proof` a yes has its certificate too; a no always has one."""
    answer = ask(["check", *options(proof=proof, delay=delay, workers=workers, engine=engine)], Source.of(plan))
    return Verdict(answer.status is Status.YES, answer.text.partition("\n")[2])


def why(plan: PlanLike, *, delay: int | None = None, workers: int | None = None) -> Refutation | None:
    """Why the plan cannot be kept, or None where it can."""
    verdict = check(plan, delay=delay, workers=workers)
    return None if verdict else Refutation.of(verdict.certificate)


def judge(plan: PlanLike, certificate: str | Refutation, *, strong: bool = False, delay: int | None = None) -> Judgement:
    """Whether a certificate is right about the plan, whoever made it."""
    text = certificate.text if isinstance(certificate, Refutation) else certificate
    source = Source.of(plan)
    further = text.encode("utf-8", "surrogateescape")
    answer = ask(["judge", *options(strong=strong, delay=delay)], source, further)
    match answer.text.split():
        case ["accepted", *claim]:
            return Judgement(True, " ".join(claim))
        case ["refused", line, reason, *details]:
            return Judgement(False, None, int(line), reason, tuple(details))
    raise fault_of(answer.status, answer.text)


def moments_of(text):
    """The moments in lines `time NAME MOMENT`."""
    lines = [line.split() for line in text.splitlines()]
    return {words[1]: int(words[2]) for words in lines if words[:1] == ["time"]}


def play(plan: PlanLike, which: str | int = "longest", *, delay: int | None = None, workers: int | None = None) -> dict[str, int]:
    """The moments of all points on the `longest` or the `shortest` day, or on that of a number. Raises `NotControllable`."""
    day = whole(which) if isinstance(which, int) else word(which)
    answer = ask(["play", day, *options(delay=delay, workers=workers)], Source.of(plan))
    if answer.status is Status.NO:
        raise NotControllable(answer.text.partition("\n")[2])
    return moments_of(answer.text)


def strong(plan: PlanLike) -> tuple[dict[str, int] | None, str]:
    """One schedule for every day, the least, and no certificate; or None, and the certificate that there is none."""
    answer = ask(["strong"], Source.of(plan))
    if answer.status is Status.YES:
        return moments_of(answer.text), ""
    return None, answer.text.partition("\n")[2]


def deadline(plan: PlanLike, start: str, end: str, *, workers: int | None = None) -> Deadline:
    """By when after `start` the point `end` can be promised. Raises `NotControllable`."""
    answer = ask(["deadline", word(start), word(end), *options(workers=workers)], Source.of(plan))
    if answer.status is Status.NO:
        raise NotControllable(answer.text.partition("\n")[2])
    told = answer.text.splitlines()[1].split()[3:]
    shown = certificates(answer.text)
    match told:
        case ["none"]:
            return Deadline(None, False, "", shown[0])
        case ["at-most", least]:
            return Deadline(int(least), True, shown[0], "")
        case [moments]:
            return Deadline(int(moments), False, *shown)
    raise fault_of(answer.status, answer.text)
