"""A refutation that the program prints: its steps, and whether it still stands where the plan has other numbers."""

from dataclasses import dataclass
from enum import Enum


class Rule(str, Enum):
    """The rules of the lines of a refutation."""

    BOUND = "bound"
    LINK = "link"
    NO = "no"
    UP = "up"
    LOW = "low"
    CROSS = "cross"
    DROP = "drop"


SUMS = (Rule.NO, Rule.UP)
OVER_LINK = (Rule.LOW, Rule.CROSS)


@dataclass(frozen=True)
class Step:
    """A line of a refutation: `end` comes at most `weight` after `start`; with a label where the link of that name takes its longest."""

    number: int
    rule: Rule
    start: str
    end: str
    weight: int
    label: str | None
    # The bound or link of the line, and the lines on which it rests.
    name: str | None = None
    premises: tuple[int, ...] = ()


@dataclass(frozen=True)
class Numbers:
    """The numbers of a plan that may change: those of bounds, by name, intervals of links, by end, and the delay."""

    most: dict[str, int]
    spans: dict[str, tuple[int, int]]
    delay: int

    @classmethod
    def of(cls, plan):
        spans = {end: (link.low, link.high) for end, link in plan.links.items()}
        return cls({name: bound.most for name, bound in plan.bounds.items()}, spans, plan.delay)

    def other(self, most=None, spans=None, delay=None):
        """These numbers with some others."""
        return Numbers(self.most | (most or {}), self.spans | (spans or {}), self.delay if delay is None else delay)


def step_of(number, words):
    """The step that the words of a line state."""
    match words:
        case ["bound", name, start, end, weight]:
            return Step(number, Rule.BOUND, start, end, int(weight), None, name)
        case ["link", name, start, end, weight]:
            return Step(number, Rule.LINK, start, end, int(weight), name, name)
        case ["no", one, two, start, end, weight]:
            return Step(number, Rule.NO, start, end, int(weight), None, None, (int(one), int(two)))
        case ["up", one, two, start, end, label, weight]:
            return Step(number, Rule.UP, start, end, int(weight), label, None, (int(one), int(two)))
        case ["low", name, two, start, end, weight]:
            return Step(number, Rule.LOW, start, end, int(weight), None, name, (int(two),))
        case ["cross", name, two, start, end, label, weight]:
            return Step(number, Rule.CROSS, start, end, int(weight), label, name, (int(two),))
        case ["drop", one, start, end, weight]:
            return Step(number, Rule.DROP, start, end, int(weight), None, None, (int(one),))
    raise ValueError(f"no line of a refutation: {' '.join(words)}")


class Refutation:
    """The steps of a refutation of a plan, and the walk that they make."""

    def __init__(self, plan, lines):
        self.plan = plan
        self.walk = [int(line.split()[1]) for line in lines if line.startswith("walk ")]
        rules = [line.split() for line in lines[2:-1] if not line.startswith("walk ")]
        self.steps = [step_of(number, words) for number, words in enumerate(rules, 1)]
        self.bounds = list(dict.fromkeys(step.name for step in self.steps if step.rule == Rule.BOUND))
        self.links = list(dict.fromkeys(link for step in self.steps if (link := self.link_of(step))))
        # Whether the shown number of a bound is more by the delay (1), less (-1), or the same; and so of a link.
        self.bound_shift = {name: (it.end in plan.links) - (it.start in plan.links) for name, it in plan.bounds.items()}
        self.link_shift = {end: int(link.start not in plan.links) for end, link in plan.links.items()}

    def step(self, number):
        return self.steps[number - 1]

    def link_of(self, step):
        """The link whose interval a step asks for, if any."""
        return self.step(step.premises[0]).label if step.rule == Rule.DROP else None if step.rule == Rule.BOUND else step.name

    def weights(self, numbers):
        """The least weight of each step by these numbers, after a 0; None where a rule does not apply."""
        found = [0]
        for step in self.steps:
            weight = self.weight(step, numbers, found)
            if weight is None:
                return None
            found.append(weight)
        return found

    def weight(self, step, numbers, found):
        link = self.link_of(step)
        shift = self.link_shift[link] * numbers.delay if link else 0
        match step.rule:
            case Rule.BOUND:
                return numbers.most[step.name] + self.bound_shift[step.name] * numbers.delay
            case Rule.LINK:
                return -numbers.spans[link][1] - shift
            case Rule.NO | Rule.UP:
                return found[step.premises[0]] + found[step.premises[1]]
            case Rule.DROP:
                return max(found[step.premises[0]], -numbers.spans[link][0] - shift)
        return numbers.spans[link][0] + shift + found[step.premises[0]] if found[step.premises[0]] < 0 else None

    def total(self, numbers):
        """What the weights of the walk add up to by these numbers; None where a rule does not apply."""
        weights = self.weights(numbers)
        return None if weights is None else sum(weights[number] for number in self.walk)

    def stands(self, numbers):
        """Whether this refutes a plan with these numbers too. If it does not, another may."""
        total = self.total(numbers)
        return total is not None and total < 0

    def uses(self, numbers):
        """How often the number of each bound counts in the total of the walk, as long as no rule turns."""
        weights, counts = self.weights(numbers), [0] * (len(self.steps) + 1)
        for number in self.walk:
            counts[number] += 1
        found = {}
        for step in reversed(self.steps):
            count = counts[step.number]
            if step.rule == Rule.BOUND:
                found[step.name] = found.get(step.name, 0) + count
            elif step.rule != Rule.DROP or weights[step.number] == weights[step.premises[0]]:
                for premise in step.premises:
                    counts[premise] += count
        return found
