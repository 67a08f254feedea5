"""Asks the program whether a plan can be kept with other numbers, as seldom as it must be asked."""

import threading
import time
from bisect import bisect_left

from planner.certificate import Numbers, Refutation
from planner.faults import Fault, Status, say
from planner.parts import LARGEST
from planner.program import Session

# If a session answers sooner than this, it is asked (seconds).
SOON = 0.05
# A session is opened over a plan that `check` answers sooner than this (seconds), and over one of so few points.
SHORT = 0.5
FEW = 200
# How often it is told what is being tried (seconds).
EACH = 5
# For so long the number of one bound is sought, and after so many answers by no, before `deadline` is asked (seconds).
PATIENCE = 1.0
NOES = 2


class Progress(threading.Thread):
    """Tells on standard error what is being done, from the first second on."""

    def __init__(self):
        super().__init__(daemon=True)
        self.doing, self.over = "", threading.Event()

    def run(self):
        told, wait = "", 1
        while not self.over.wait(wait):
            wait = EACH
            if self.doing != told:
                told = self.doing
                say(told)

    def __enter__(self):
        self.start()
        return self

    def __exit__(self, *_):
        self.over.set()


class Trials:
    """Whether a plan can be kept with other numbers. Refutations that were seen answer for all numbers with which they still stand."""

    def __init__(self, program, plan, refutations, took):
        self.program, self.plan = program, plan
        self.base = Numbers.of(plan)
        self.refutations = refutations
        # How long a question took lately, by each way of asking it; 0 where it was not tried. To open a session takes longer than `check`.
        is_small = took < SHORT or len(plan.points) <= FEW
        self.took = {self.ask_anew: took, self.ask_session: 0.0 if is_small else took}
        self.session, self.now = None, self.base
        # The last answer of `check` by yes, and its numbers.
        self.kept = (None, None)

    def __enter__(self):
        return self

    def __exit__(self, *_):
        if self.session:
            self.session.__exit__()

    def stands(self, numbers):
        """Whether a refutation that was seen stands with these numbers."""
        return any(refutation.stands(numbers) for refutation in reversed(self.refutations))

    def keeps(self, numbers):
        """Whether the plan can be kept with these numbers."""
        if self.stands(numbers):
            return False
        way = self.ask_session if self.took[self.ask_session] < SOON else min(self.took, key=self.took.get)
        if numbers.delay != self.base.delay:
            way = self.ask_anew
        began = time.monotonic()
        certificate = way(numbers)
        self.took[way] = (self.took[way] + time.monotonic() - began) / (2 if self.took[way] else 1)
        if certificate:
            self.refutations.append(Refutation(self.plan, certificate))
        return not certificate

    def source_with(self, numbers):
        """The plan with these numbers, as a source; only what differs is written anew."""
        most = {name: number for name, number in numbers.most.items() if number != self.base.most[name]}
        spans = {end: span for end, span in numbers.spans.items() if span != self.base.spans[end]}
        return self.plan.with_numbers(most, spans, numbers.delay if numbers.delay != self.base.delay else None)

    def ask_anew(self, numbers):
        """The refutation that `check` prints of the plan with these numbers; none if it can be kept."""
        answer = self.program.call(["check"], self.source_with(numbers), is_shown=False)
        if answer.is_refused:
            raise Fault(f"the program says of a changed plan: {answer.first}", Status.DEFECT)
        if answer.is_kept:
            self.kept = (numbers, answer)
            return []
        return answer.certificate()

    def ask_session(self, numbers):
        """What a session answers once the numbers of its plan are these."""
        if self.session is None:
            self.session = Session(self.program, self.plan.source)
        for name, number in numbers.most.items():
            if number != self.now.most[name]:
                self.session.edit(f"set bound {name} {number}")
        for end, (low, high) in numbers.spans.items():
            if (low, high) != self.now.spans[end]:
                self.session.edit(f"set link {end} {low} {high}")
        self.now = numbers
        return [] if self.session.is_kept() else self.session.certificate()

    def checked(self, numbers):
        """What `check` answers to the plan with these numbers, which can be kept with them."""
        known, answer = self.kept
        if known != numbers:
            answer = self.program.call(["check"], self.source_with(numbers), is_shown=False)
        if not answer.is_kept:
            raise Fault(f"the program keeps a plan in a session, and not by check: {answer.first}", Status.DEFECT)
        self.program.show(answer.call)
        return answer

    def sought(self, change, low, high, is_patient=True):
        """Two amounts with the least between them with which a change is enough: of the lower it is not, of the higher it is, or was
        taken to be. They are neighbours, unless that takes longer than is patient."""
        began, noes, top = time.monotonic(), 0, high
        while True:
            low = self.refuted_up_to(change, low, high)
            is_long = noes >= NOES and time.monotonic() - began > PATIENCE
            if low + 1 >= high or (is_long and not is_patient):
                return low, high
            # At first the least amount that no refutation so far forbids; where that is not enough, more and more; at last halving.
            tried = min(low + 2**noes, high - 1) if high == top else (low + high) // 2
            if self.keeps(change(tried)):
                high = tried
            else:
                low, noes = tried, noes + 1

    def refuted_up_to(self, change, low, high):
        """The greatest amount below the higher for which a refutation so far still stands, from the lower on."""
        for refutation in self.refutations:
            step = 1
            while low + step < high and refutation.stands(change(low + step)):
                low, step = low + step, 2 * step
            beyond = range(low + 1, min(low + step, high))
            low += bisect_left(beyond, True, key=lambda amount, it=refutation: not it.stands(change(amount)))
        return low

    def least(self, change, limit):
        """The least amount from 1 to the limit with which a change is enough for the plan to be kept; None where none is."""
        low, high = self.sought(change, 0, limit + 1)
        return high if high <= limit else None

    def loosened(self, name, limit, numbers=None):
        """The least number up to the limit with which a bound is loose enough, all else being as in these numbers; None where none is."""
        numbers = numbers or self.base
        most = numbers.most[name]

        def change(amount):
            return numbers.other({name: most + amount})

        room = limit - most
        low, high = self.sought(change, 0, room + 1, is_patient=False)
        if low + 1 < high:
            low, high = self.by_deadline(name, room, numbers) or self.sought(change, low, high)
        return most + high if high <= room else None

    def by_deadline(self, name, room, numbers):
        """What the command `deadline` says of a bound that says nothing itself, as `sought` does; None where it does not tell."""
        if numbers.delay != self.base.delay or "--delay" in self.plan.source.words:
            return None
        bound, most = self.plan.bounds[name], numbers.most[name]
        source = self.source_with(numbers.other({name: LARGEST}))
        answer = self.program.call(["deadline", bound.start, bound.end], source, is_shown=False)
        match [line.split() for line in answer.lines[:2]]:
            case [["controllable"], ["deadline", _, _, number]] if number != "none":
                amount = max(1, int(number) - most)
                return (amount - 1, amount) if amount <= room else (room, room + 1)
            case [["controllable"], ["deadline", _, _, "none"]] | [["not", "controllable"], *_]:
                return room, room + 1
        return None
