"""How moments are written and marked on an axis: as numbers, or as times of day."""

import itertools
import re
from dataclasses import dataclass

from planner.faults import Fault

TIME = re.compile(r"(\d{1,2}):([0-5]\d)(?::([0-5]\d))?")
# The steps of an axis of times of day, in the unit of the plan and the next coarser ones; then whole days.
STEPS_OF_AN_HOUR = (1, 2, 5, 10, 15, 30)
HOURS = (1, 2, 3, 6, 12)


def scale_of(clock):
    """How moments are written by the word of a call: as times of day if it tells the one at moment 0."""
    return Numbers() if clock is None else Clock.of(clock)


class Numbers:
    """Moments as the plan counts them."""

    def text(self, moment):
        return str(moment)

    def read(self, word):
        if not word.isascii() or not word.isdigit():
            raise Fault(f"'{word}' is no moment: a moment is a whole number, or with --clock a time of day")
        return int(word)

    def steps(self):
        return (factor * 10**power for power in itertools.count() for factor in (1, 2, 5))

    def first_tick(self, first, step):
        """The first moment of the axis that is not before this one."""
        return -(-first // step) * step


@dataclass(frozen=True)
class Clock:
    """Moments as times of day: moment 0 is `start`, and a moment is the `unit`-th part of an hour."""

    start: int
    unit: int

    @classmethod
    def of(cls, word):
        """The clock that shows this time at moment 0: of minutes, or of seconds where the time has seconds."""
        found = TIME.fullmatch(word)
        if not found or int(found[1]) > 23:
            raise Fault(f"'{word}' is no time of day: write 7:30 if a moment is a minute, 7:30:00 if it is a second")
        hours, minutes = int(found[1]), int(found[2])
        return cls(hours * 60 + minutes, 60) if found[3] is None else cls((hours * 60 + minutes) * 60 + int(found[3]), 3600)

    @property
    def day(self):
        return 24 * self.unit

    def text(self, moment):
        """The time of day; after the day on which moment 0 is, with the count of midnights between."""
        later, moment = divmod(self.start + moment, self.day)
        hours, rest = divmod(moment, self.unit)
        minutes = f"{rest:02}" if self.unit == 60 else f"{rest // 60:02}:{rest % 60:02}"
        return f"{hours}:{minutes}" + (f"+{later}" if later else "")

    def read(self, word):
        """A moment as a number, or as a time of day: the first such time that is not before moment 0."""
        if TIME.fullmatch(word):
            other = Clock.of(word)
            return (other.start * self.unit // other.unit - self.start) % self.day
        return Numbers().read(word)

    def steps(self):
        minutes = STEPS_OF_AN_HOUR if self.unit == 60 else (*STEPS_OF_AN_HOUR, *(step * 60 for step in STEPS_OF_AN_HOUR))
        hours = [hour * self.unit for hour in HOURS]
        return itertools.chain(minutes, hours, (factor * 10**power * self.day for power in itertools.count() for factor in (1, 2, 5)))

    def first_tick(self, first, step):
        return -(-(first + self.start) // step) * step - self.start


@dataclass(frozen=True)
class Window:
    """The part of the days that is drawn, both ends included."""

    first: int
    last: int

    def shows(self, first, last):
        """Whether anything of what lasts so is within it."""
        return first <= self.last and last >= self.first

    def place(self, moment, width):
        """The place of a moment among so many, from 0; of one outside, that of the nearest end."""
        inside = min(max(moment, self.first), self.last)
        return (inside - self.first) * (width - 1) // max(self.last - self.first, 1)

    def ticks(self, scale, most, step=None):
        """The moments of the axis, at most so many, or by this step."""
        if step is None:
            step = next(step for step in scale.steps() if (self.last - self.first) // step < max(most, 1))
        return range(scale.first_tick(self.first, step), self.last + 1, step)
