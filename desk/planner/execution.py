"""An execution of a plan by the program, which no refused line ends: it is begun anew, and the lines that stand are told again."""

from dataclasses import dataclass, field

from planner.drawing.scale import TIME, Clock, Numbers
from planner.faults import Fault, Status
from planner.plan import Plan
from planner.reader import quoted
from planner.slips import meant, unknown, without_line

# The latest moment that can be told.
LAST_MOMENT = 4_000_000_000_000
EVENTS = ("at", "done")
NUMBERS = Numbers()
# The words with which an answer to an event is over.
OVER = ("due", "complete", "error", "idle", "refused", "not")


@dataclass(frozen=True)
class Told:
    """What the program answers to a line of a day: what is executed at which moment, and what it is to be told next."""

    acts: list[tuple[int, str]] = field(default_factory=list)
    due: int | None = None
    is_complete: bool = False
    # The line by which it refuses, or an empty text.
    refused: str = ""

    @classmethod
    def of(cls, lines):
        """What lines of an answer say, the first of which may be that the plan can be kept."""
        acts = []
        for line in lines:
            match line.split():
                case ["controllable"]:
                    pass
                case ["act", moment, point]:
                    acts.append((int(moment), point))
                case ["due", due]:
                    return cls(acts, None if due == "none" else int(due))
                case ["complete"]:
                    return cls(acts, is_complete=True)
                case _:
                    return cls(acts, refused=line or "nothing")
        return cls(acts, refused="nothing")

    @property
    def why(self):
        """The word of a refused event and what stands after it."""
        return self.refused.split()[3:]

    @property
    def said(self):
        """What the program says of a refused event, without the number of its line."""
        return without_line(self.refused)

    @property
    def is_of_another_day(self):
        """Whether an event is refused since a link took less or longer than the plan says."""
        return self.why[:1] in (["too-soon"], ["overdue"])


@dataclass(frozen=True)
class Window:
    """From when until when the end of a link may be seen, by what the program refuses; from now on if `first` is None."""

    first: int | None
    last: int

    def text(self, scale):
        return f"from {'now on' if self.first is None else scale.text(self.first)} until {scale.text(self.last)}"


class Channel:
    """A talk of which the lines of one plan begin with its name, in a fleet, or are its lines alone, in a run."""

    def __init__(self, talk, name=""):
        self.talk, self.before = talk, f"{name} " if name else ""

    def send(self, line):
        self.talk.send(self.before + line)

    def answer(self):
        """The lines that answer, without the name before them."""
        lines = self.talk.lines(lambda line: line.removeprefix(self.before).split()[:1] in [[word] for word in OVER])
        return [line.removeprefix(self.before) for line in lines]


class Execution:
    """A plan that can be kept as it is executed, and what has come of it so far."""

    def __init__(self, program, source, channel=None, opening=None):
        self.program, self.source, self.plan = program, source, Plan.of(source)
        self.lines, self.channel = [], channel
        if channel is None:
            self.begin()
        else:
            self.forget(Told.of(opening))

    def begin(self):
        """Begins anew, by a run of the program of its own."""
        if self.channel is not None and not self.channel.before:
            self.channel.talk.close()
        self.channel = Channel(self.program.talk("run", self.source))
        self.forget(Told.of(self.channel.answer()))

    def forget(self, told):
        """Nothing has come yet."""
        if told.refused:
            raise Fault(f"the program says: {told.refused}", Status.DEFECT)
        self.last, self.told, self.acts, self.seen, self.windows = None, told, {}, {}, {}

    def play(self, lines):
        """Begins anew with these lines. Returns the first that is refused, with what is said to it; None where none is."""
        self.lines = []
        self.begin()
        return self.tell_again(lines)

    def tell_again(self, lines):
        """Tells lines that were told before."""
        for line in lines:
            told = self.tried(line)
            if told.refused:
                return line, told
            self.lines.append(line)
        return None

    def take(self, line):
        """Tells a line, or returns why the program refuses it; all stands as before then."""
        told = self.tried(line)
        if told.refused:
            self.play(self.lines)
        else:
            self.lines.append(line)
        return told

    def tried(self, line):
        self.channel.send(line)
        told = Told.of(self.channel.answer())
        if told.refused:
            return told
        self.told = told
        self.acts |= {point: moment for moment, point in told.acts}
        match line.split():
            case ["at", moment, *names]:
                self.last = int(moment)
                self.seen |= dict.fromkeys(names, self.last)
        return told

    @property
    def is_complete(self):
        return self.told.is_complete

    def running(self):
        """The links that have begun and are not seen to be over."""
        came = self.acts.keys() | self.seen.keys()
        return [link for end, link in self.plan.links.items() if link.start in came and end not in self.seen]

    def coming(self):
        """From when until when the program takes the end of each link that is running."""
        windows = {link.end: self.window(link.end) for link in self.running()}
        return {end: window for end, window in windows.items() if window is not None}

    def window(self, end):
        """From when until when the program takes the end of a link; None where no moment is left at which it could be told."""
        if end not in self.windows:
            early = self.refusal(f"at {(-1 if self.last is None else self.last) + 1} {end}")
            late = self.refusal(f"at {LAST_MOMENT} {end}")
            first = int(early[2]) if early[:2] == ["too-soon", end] else None
            self.windows[end] = Window(first, int(late[2])) if late[:2] == ["overdue", end] else None
        return self.windows[end]

    def refusal(self, line):
        """The words by which a line would be refused now; none where it would not."""
        with self.program.talk("run", self.source) as talk:
            channel = Channel(talk)
            channel.answer()
            for told in [*self.lines, line]:
                channel.send(told)
                answer = channel.answer()
            self.program.show(talk.shell())
        return Told.of(answer).why

    def moments(self):
        """What has come at which moment, as it happened: before it was seen, if the plan has a delay."""
        return self.acts | {name: moment - self.plan.delay for name, moment in self.seen.items()}

    def close(self):
        if not self.channel.before:
            self.channel.talk.close()


def in_numbers(words, scale):
    """The words of an event, in which a time of day is a moment as the plan counts it, if there is a clock."""
    match words:
        case ["at", time, *names] if isinstance(scale, Clock) and TIME.fullmatch(time):
            return ["at", str(scale.read(time)), *names]
    return words


def as_typed(line, scale):
    """A line of a day as it is typed: with a time of day in the place of its moment, if there is a clock."""
    match line.split():
        case ["at", moment, *names]:
            return " ".join(["at", scale.text(int(moment)), *names])
    return line


def slip_of_event(line, told, execution, scale=NUMBERS):
    """What is the matter with an event that was refused, in a sentence for whoever told it."""
    words, plan = line.split(), execution.plan
    match told.why:
        case ["unknown-word"]:
            return f"a line of a day is 'at MOMENT NAME ..' or 'done'{meant(words[0], EVENTS)}"
        case ["word-count"]:
            return "wanted: at MOMENT NAME .., or done alone"
        case ["bad-number"]:
            return f"{quoted(words[1])} is no moment: a whole number in the unit of the plan, or with --clock a time of day"
        case ["unknown-name"] | ["bad-name"]:
            return unknown(words[2:], plan.points)
        case ["not-later", last]:
            once = "a moment is told once, with all that is seen at it; 'undo' takes the last line back"
            return f"{scale.text(int(last))} was told already, and {once}"
        case ["not-contingent", name]:
            return f"no link ends in {name}: it is executed at the moment that the program tells, and not told"
        case ["twice", name, moment]:
            return f"{name} was told at {scale.text(int(moment))}"
        case ["not-active", name]:
            return f"{name} cannot come yet: {plan.links[name].start}, with which it begins, has not come before this moment"
        case ["too-soon", name, earliest]:
            return f"{name} cannot be seen before {scale.text(int(earliest))}"
        case ["overdue", name, latest]:
            return f"{name} was to be seen by {scale.text(int(latest))} at the latest"
        case ["unfinished", name]:
            return f"{name} is still to come: tell it first"
        case ["moment"]:
            return f"the greatest moment is {LAST_MOMENT:,}"
    return ""
