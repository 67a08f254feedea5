"""A room of vehicles, each with a plan that is executed: some in one fleet of the program, others in runs of their own."""

import json
from dataclasses import dataclass, field, replace
from enum import Enum

from planner.execution import Channel, Execution, Window
from planner.faults import Fault, Status
from planner.program import Source

# So many plans a fleet of the program has at most.
MOST = 64


class Mark(str, Enum):
    """How the lines of a journal begin that are no vehicle's: no name begins so."""

    PLAN = "+plan"
    TAKEN_BACK = "+undo"
    NOW = "+now"


@dataclass
class Vehicle:
    """A vehicle: the plan by which it goes on, its lines since it does, and what it went by before."""

    name: str
    # Texts of plans, each with its lines: a later one is the rest of the day before.
    days: list[tuple[str, list[str]]] = field(default_factory=list)
    execution: Execution | None = None

    @property
    def text(self):
        return self.days[-1][0]

    @property
    def lines(self):
        return self.days[-1][1]

    def can_take_back(self):
        return bool(self.lines) or len(self.days) > 1

    def take_back(self):
        """Takes back what was told last, and returns it: a line, or the plan of a rest with the line that began it."""
        line = self.lines.pop() if self.lines else ""
        if self.lines or len(self.days) == 1:
            return line
        self.days.pop()
        return "the plan of the rest"


@dataclass(frozen=True)
class Row:
    """Where a vehicle stands, for the table and the page: what is due next, what may come until when, and whether it is late."""

    name: str
    state: str
    last: int | None = None
    due: int | None = None
    coming: dict[str, Window] = field(default_factory=dict)
    # What has come, and is seen, at which moment; when the links that run began; from when until when the others lasted.
    came: dict[str, int] = field(default_factory=dict)
    begun: dict[str, int] = field(default_factory=dict)
    over: list[tuple[int, int]] = field(default_factory=list)
    why: str = ""

    @property
    def next(self):
        """The moment by which something is to be told of it; None where nothing is."""
        moments = [window.last for window in self.coming.values()] + ([] if self.due is None else [self.due])
        return min(moments, default=None)


def entry(line):
    """A line of a journal: its mark, or None of a vehicle's line; the vehicle; and the rest of the line."""
    first, _, rest = line.partition(" ")
    if first not in set(Mark):
        return None, first, rest
    name, _, rest = rest.partition(" ")
    return Mark(first), name, rest


def marked(mark, *words):
    """A line of a journal that is no vehicle's."""
    return " ".join([mark.value, *words])


def plan_entry(name, text):
    return marked(Mark.PLAN, name, json.dumps(text))


class Room:
    """The vehicles of a room, and what moment it is: the latest that was told of any and not taken back, or a later one that was said."""

    # So its journal is called.
    KIND = "room"

    def __init__(self, program):
        self.program = program
        self.vehicles, self.said = {}, 0
        self.left_out = {}

    @property
    def told(self):
        """The latest moment that was told of any vehicle."""
        return max((it.execution.last or 0 for it in self.vehicles.values()), default=0)

    @property
    def now(self):
        return max(self.said, self.told)

    def remember(self, lines):
        """Takes the vehicles and their lines out of a journal."""
        for line in lines:
            try:
                self.remember_line(line)
            except (KeyError, IndexError, ValueError) as why:
                raise Fault(f"this line of the journal is none of a room: {line}") from why

    def remember_line(self, line):
        mark, name, rest = entry(line)
        match mark:
            case Mark.PLAN:
                self.vehicles.setdefault(name, Vehicle(name)).days.append((json.loads(rest), []))
            case Mark.TAKEN_BACK:
                self.vehicles[name].take_back()
            case Mark.NOW:
                self.said = int(name)
            case _:
                self.vehicles[name].lines.append(rest)

    def add(self, name, text):
        """A vehicle more, which does not go yet."""
        self.vehicles[name] = Vehicle(name, [(text, [])])

    def start(self):
        """Has all vehicles go that do not go yet, by as few fleets as they need, and tells their lines again."""
        waiting = [it for it in self.vehicles.values() if it.execution is None]
        for place in range(0, len(waiting), MOST):
            self.start_fleet(waiting[place : place + MOST])
        for vehicle in waiting:
            if refused := vehicle.execution.tell_again(vehicle.lines):
                line, told = refused
                raise Fault(f"{vehicle.name} {line}: the program refuses it now: {told.said}", Status.EVENT)

    def start_fleet(self, vehicles):
        text = "".join(f"plan {it.name}\n{it.text}" for it in vehicles)
        talk = self.program.talk("fleet", Source(f"fleet 1\n{text}"))
        talk.send("go")
        for vehicle in vehicles:
            channel = Channel(talk, vehicle.name)
            vehicle.execution = Execution(self.program, Source(vehicle.text), channel, channel.answer())

    def take(self, name, line):
        """Tells a line of a vehicle, or returns why the program refuses it; all stands as before then."""
        vehicle = self.vehicles[name]
        told = vehicle.execution.take(line)
        if not told.refused:
            vehicle.lines.append(line)
        return told

    def forget_last(self, name):
        """Has a vehicle go again as it went before its last line."""
        vehicle = self.vehicles[name]
        taken = vehicle.take_back()
        self.renew(vehicle)
        return taken

    def go_on(self, name, text):
        """Has a vehicle go on by another plan, that of what is left of its day."""
        vehicle = self.vehicles[name]
        vehicle.days.append((text, []))
        self.renew(vehicle)

    def renew(self, vehicle):
        vehicle.execution.close()
        vehicle.execution = Execution(self.program, Source(vehicle.text))
        vehicle.execution.play(vehicle.lines)

    def rows(self):
        """Where each vehicle stands: late ones first, then by what is next; last those that are over or never went."""
        now = self.now
        going = [self.row(it, now) for it in self.vehicles.values()]
        order = {"late": 0, "goes on": 1, "over": 2}
        going.sort(key=lambda row: (order[row.state], row.next is None, row.next or 0))
        return going + [Row(name, "left out", why=why) for name, why in self.left_out.items()]

    def row(self, vehicle, now):
        execution = vehicle.execution
        came, links = execution.acts | execution.seen, execution.plan.links.values()
        coming = execution.coming()
        begun = {end: came[execution.plan.links[end].start] for end in coming}
        over = [(came[link.start], came[link.end]) for link in links if link.end in came and link.start in came]
        row = Row(vehicle.name, "goes on", execution.last, execution.told.due, coming, came, begun, over)
        if execution.is_complete:
            return replace(row, state="over")
        return replace(row, state="late") if row.next is not None and row.next < now else row

    def talks(self):
        """The talks that go on, each once."""
        return list({id(it.execution.channel.talk): it.execution.channel.talk for it in self.vehicles.values()}.values())

    def close(self):
        for talk in self.talks():
            talk.show()
            talk.send("end")
            talk.close()


