"""Tells a refutation in sentences for planners. Each sentence bears the line of the certificate that it tells."""

from dataclasses import dataclass

from planner.certificate import SUMS, Rule

# So many reasons are told one by one in a sentence.
MANY = 6


@dataclass(frozen=True)
class Sentence:
    """A sentence, the line of the certificate whose statement it tells, and the lines that are told within it."""

    line: int
    text: str
    within: tuple[int, ...] = ()


class Telling:
    """Tells the steps of a refutation. Bounds and links are told where they are used, and a sum that one other sum uses within that one."""

    def __init__(self, refutation):
        self.refutation = refutation
        self.plan = refutation.plan
        self.users = {step.number: [] for step in refutation.steps}
        for step in refutation.steps:
            for premise in step.premises:
                self.users[premise].append(step)

    def sentences(self):
        """The sentences of the steps, and last that of the walk."""
        last = self.refutation.step(self.refutation.walk[0])
        # What the walk is told by needs no sentence of its own.
        ends_so = len(self.refutation.walk) == 1 and last.start == last.end
        steps = [step for step in self.refutation.steps if not self.is_told_within(step) and not (ends_so and step is last)]
        told = [self.sentence(step) for step in steps]
        return [*told, self.clash(last) if ends_so else self.walk()]

    def is_told_within(self, step):
        """Whether the sentence of another step tells this one."""
        users = self.users[step.number]
        if step.rule in (Rule.BOUND, Rule.LINK):
            return True
        is_used_once = len(users) == 1 and step.number not in self.refutation.walk
        return step.rule in SUMS and is_used_once and users[0].rule in SUMS and users[0].start != users[0].end

    def reasons(self, step):
        """The steps on which a sum rests, in the order of their points, where those that are told within it are told by theirs."""
        for number in step.premises:
            premise = self.refutation.step(number)
            if premise.rule in SUMS and self.is_told_within(premise):
                yield from self.reasons(premise)
            else:
                yield premise

    def within(self, step):
        """The lines of the sums that are told within a sum."""
        for number in step.premises:
            premise = self.refutation.step(number)
            if premise.rule in SUMS and self.is_told_within(premise):
                yield from self.within(premise)
                yield number

    def sentence(self, step):
        match step.rule:
            case Rule.NO | Rule.UP if step.start == step.end and step.weight < 0:
                return self.clash(step)
            case Rule.NO | Rule.UP:
                text = f"{self.condition(step)}{self.claim(step)}, since {self.told_reasons(list(self.reasons(step)))}."
                return Sentence(step.number, text, tuple(self.within(step)))
            case Rule.LOW | Rule.CROSS:
                return Sentence(step.number, f"{self.condition(step)}{self.claim(step)}: {self.early(step)}.")
            case Rule.DROP:
                return Sentence(step.number, self.on_every_day(step))

    def told_reasons(self, reasons):
        told = [f"{self.fact(reason)} ({self.source(reason)})" for reason in reasons]
        if len(told) > MANY:
            told = [*told[: MANY // 2], f"so on by {len(told) - MANY} more lines", *told[-MANY // 2 :]]
        return ", and ".join(told) if len(told) < 3 else ", ".join(told[:-1]) + ", and " + told[-1]

    def early(self, step):
        """Why a step goes from the end of a link over the link: it may be over soon."""
        link, (premise,) = self.plan.links[step.name], (self.refutation.step(number) for number in step.premises)
        seen = f", and is seen {self.shown_low(link)} after it then" if self.plan.delay else ""
        return f"{step.name} may come {link.low} after {link.start} already{seen}, and {self.fact(premise)} ({self.source(premise)})"

    def on_every_day(self, step):
        """The sentence of a step from what holds on the longest days to what holds on all."""
        premise = self.refutation.step(step.premises[0])
        link = self.plan.links[premise.label]
        if step.weight == premise.weight:
            why = f"Nobody knows by then that {premise.label} won't take {link.high}"
        else:
            soonest = f"{premise.label} comes no sooner than {link.low} after {link.start}"
            why = f"{soonest}, and nobody knows before that it won't take {link.high}"
        return f"{why} (line {premise.number}), so on every day {self.claim(step)}."

    def clash(self, step):
        """The sentence of a step by which a point must come before itself."""
        wanting = f"{-step.weight} {'is' if step.weight == -1 else 'are'} wanting"
        match step.rule:
            case Rule.DROP:
                label = self.refutation.step(step.premises[0]).label
                high, line = self.plan.links[label].high, step.premises[0]
                text = f"Nobody knows beforehand that {label} won't take {high}, so no way of working avoids that clash (line {line})."
            case Rule.LOW | Rule.CROSS:
                text = f"{self.condition(step)}{self.early(step)}: {wanting}."
            case _:
                one, two = (self.refutation.step(number) for number in step.premises)
                text = f"{self.condition(step)}{self.between(one, two)}: {wanting}."
        return Sentence(step.number, text)

    def between(self, one, two):
        """Two steps that go to and fro between two points, as what cannot be together."""
        sources = f"({self.source(two)})", f"({self.source(one)})"
        point, other, least, most = one.end, one.start, -two.weight, one.weight
        if least <= 0:
            point, other, least, most, sources = other, point, -most, -least, sources[::-1]
        verb = "is seen" if self.plan.delay and point in self.plan.links else "comes"
        other = f"{other} is seen" if self.plan.delay and other in self.plan.links else other
        if most >= 0:
            return f"{point} {verb} at least {least} after {other} {sources[0]}, but at most {most} after it {sources[1]}"
        return f"{point} {verb} at least {least} after {other} {sources[0]}, but also at least {-most} before it {sources[1]}"

    def walk(self):
        """The sentence of a walk of several steps."""
        steps = [self.refutation.step(number) for number in self.refutation.walk]
        total = -sum(step.weight for step in steps)
        labels = list(dict.fromkeys(step.label for step in steps if step.label))
        given = f"If {' and '.join(labels)} take{'' if len(labels) > 1 else 's'} the longest, these" if labels else "These"
        text = f"{given} cannot be together: {self.told_reasons(steps)}; {total} {'is' if total == 1 else 'are'} wanting."
        # The lines of the walk come after all others; the last is that of the sum.
        first = len(self.refutation.steps) + 1
        last = first + len(steps) - 1
        return Sentence(last, text, tuple(range(first, last)))

    def condition(self, step):
        """Under which condition a step with a label says what it says."""
        return f"If {step.label} takes its longest, {self.plan.links[step.label].high}, " if step.label else ""

    def claim(self, step):
        """What a step says, as something that must be."""
        return self.related(step, "must come", "must be seen")

    def fact(self, step):
        """What a step says, as something that is."""
        if step.rule == Rule.LINK:
            link = self.plan.links[step.name]
            seen = f", and is seen {-step.weight} after it then" if self.plan.delay else ""
            return f"{step.name} may come as late as {link.high} after {link.start}{seen}"
        return self.related(step, "comes", "is seen")

    def related(self, step, comes, is_seen):
        """How the two points of a step lie."""
        later, earlier = (step.start, step.end) if step.weight <= 0 else (step.end, step.start)
        verb = is_seen if self.plan.delay and later in self.plan.links else comes
        other = f"{earlier} is seen" if self.plan.delay and earlier in self.plan.links else earlier
        if step.start == step.end:
            return f"{later} {verb} at most {step.weight} after itself"
        if step.weight == 0:
            return f"{later} {verb} no sooner than {other}"
        return f"{later} {verb} at {'least' if step.weight < 0 else 'most'} {abs(step.weight)} after {other}"

    def source(self, step):
        """By what a step is known: a bound or link of the plan, or a line of the certificate."""
        match step.rule:
            case Rule.BOUND:
                return step.name
            case Rule.LINK:
                return f"link {step.name}"
        return f"line {step.number}"

    def shown_low(self, link):
        return link.low + self.refutation.link_shift[link.end] * self.plan.delay
