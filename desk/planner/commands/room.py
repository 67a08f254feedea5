"""Executes the plans of several vehicles in one room, by lines from a terminal, from standard input or from several sources.

A plan is a file of its own, whose vehicle has the file's name without its ending, or NAME=FILE; the text of a fleet has several. Each is
looked at before any is begun: one that is refused, or cannot be kept, is told and left out. Each line is on the disk, in a file beside the
first plan, before it is answered: whatever happens, the same call goes on where the room stood, by the plans as they were.

  vehicles   NAME at MOMENT POINT ..   these points are seen to have come then
             NAME done                 no more will come of it
             undo NAME                 takes its last line back
  plans      add FILE, add NAME=FILE   a plan more
             add NAME                  one that was left out, and is mended
             rest NAME --link END LOW HIGH ..
                                       what is left of its day takes its place,
                                       by the words of 'planner rest'
  the room   table, or an empty line   where all vehicles stand
             now MOMENT                what moment it is
             help, end

The table tells of each vehicle the last moment told, the next one that is due, and which links may end from when until when. A vehicle is
late if such a moment is before that of the room, which is the latest told of any and not taken back, or a later one that 'now' says.
"""

import shlex
import time
from pathlib import Path

from planner.commands import rest as rest_command
from planner.drawing.scale import scale_of
from planner.execution import EVENTS, as_typed, in_numbers, slip_of_event
from planner.faults import Fault, Status, say, told_by_system
from planner.feeds import Feeds
from planner.front import Parser
from planner.journal import Head, Journal, beside
from planner.kept import write_whole
from planner.mended import Refused
from planner.offered import looked_at, offered
from planner.options import add_clock
from planner.output import hand_on, tell
from planner.page import page
from planner.plan import STANDARD_INPUT
from planner.program import Source
from planner.rest import Rest
from planner.room import Mark, Room, marked, plan_entry
from planner.slips import alike, meant
from planner.table import coming, lines
from planner.typed import is_terminal

EXAMPLE = """
  planner room examples/fleet/plans.fleet --lines today.room < examples/fleet/day.lines
  planner room v01.stnu v02.stnu relief=v03.json --lines today.room --page wall"""

ENDING = ".room"
WORDS = ("table", "now", "undo", "add", "rest", "help", "end")
LEAVE = ("end", "quit", "exit")
# The page is written once in so many seconds at most.
PAGE_EACH = 1


def add_words(parser):
    plans_help = "FILE or NAME=FILE: a plan text, a JSON document, or the text of a fleet"
    parser.add_argument("plans", nargs="+", metavar="PLAN", help=plans_help)
    lines_help = f"the file in which the room is kept (beside the first plan, with the ending {ENDING})"
    parser.add_argument("--lines", metavar="FILE", help=lines_help)
    sources_help = "a file, a pipe or a device with lines"
    parser.add_argument("--from", dest="sources", action="append", default=[], metavar="SOURCE", help=sources_help)
    add_clock(parser)
    page_help = "keep a page for a screen on the wall in this folder, index.html, which loads itself anew"
    parser.add_argument("--page", metavar="DIR", help=page_help)
    parser.add_argument("--all-or-none", action="store_true", help="begin only if each plan can be kept")


def run(args):
    if STANDARD_INPUT in args.plans:
        raise Fault("the plans of a room are files: standard input is for its lines")
    desk = RoomDesk(args)
    feeds = Feeds(args.sources, is_typed=is_terminal() or not args.sources)
    desk.begin()
    with feeds:
        for line in feeds.lines(desk.put_page):
            if line.strip().lower() in LEAVE:
                break
            desk.take(line)
            desk.put_page()
    return desk.end()


def path_of(args):
    """The file in which the room is kept."""
    if args.lines is not None:
        return Path(args.lines)
    _, _, first = args.plans[0].rpartition("=")
    return beside(first, ENDING) if len(args.plans) == 1 else Path(first).with_name(f"fleet{ENDING}")


class RoomDesk:
    """A room whose lines are taken as they come."""

    def __init__(self, args):
        self.args, self.room = args, Room(args.program)
        self.path, self.scale = path_of(args), scale_of(args.clock)
        # The statuses of the plans that are left out, by their names, and the lines that are refused.
        self.left_out, self.refused = {}, Refused(self.names)
        # The word of the call that brought each plan, by the plan's name.
        self.brought = {}
        # A line whose vehicle nobody knows, as it was most likely meant: it waits for a yes.
        self.asked, self.is_page_old, self.page_written = None, True, -PAGE_EACH
        # The lines that were taken since the table was printed.
        self.since_table = 0

    def begin(self):
        """Has the room stand as it stood; looks at the plans of the call, and has those go that can be kept."""
        head = Head(Room.KIND, None, self.args.delay)
        self.journal = Journal(self.path, head)
        try:
            if self.journal.head != head:
                raise Fault(f"the lines of {self.path} were told with another --delay: call it so, or name another file by --lines")
            self.room.remember(line for line in self.journal.lines if not line.startswith("#"))
            if self.room.vehicles:
                say(f"{self.path}: {len(self.room.vehicles)} vehicles and their lines are there again")
            self.take_plans()
        except Fault:
            self.journal.close()
            raise
        self.room.start()
        self.put_table()
        self.put_page()

    def take_plans(self):
        """Takes the plans of the call into the room, and keeps them in the journal."""
        plans = [plan for word in self.args.plans for plan in self.offered(word)]
        fit = {}
        for plan in filter(self.is_new, plans):
            found = self.looked_at(plan, {*self.room.vehicles, *fit})
            if not found.why:
                fit[found.name] = found.source.text
        if self.args.all_or_none and self.left_out:
            raise Fault(f"none is begun, since not each plan can be: {', '.join(self.room.left_out)}", self.status())
        if not fit and not self.room.vehicles:
            raise Fault("there is no plan that can be executed", self.status())
        for name, text in fit.items():
            self.journal.keep(plan_entry(name, text))
            self.room.add(name, text)

    def offered(self, word):
        """The plans that a word brings: a file's, or one that was left out by its name, from where it came."""
        if word in self.brought and not Path(word).exists():
            return [plan for plan in offered(self.brought[word], self.args.delay) if plan.name == word]
        plans = offered(word, self.args.delay)
        self.brought |= {plan.name: word for plan in plans}
        return plans

    def is_new(self, plan):
        """Whether a plan of the call is not in the room yet; one that is goes on as it was."""
        vehicle = self.room.vehicles.get(plan.name)
        if vehicle is None:
            return True
        found = looked_at(self.args.program, plan, ())
        if found.source is None or found.source.text != vehicle.days[0][0]:
            say(f"{plan.name}: {plan.path} is another plan now; the room goes on with the one that it has")
        return False

    def looked_at(self, plan, taken):
        """A plan as the program finds it, and as its name is free; why one cannot be in the room is told."""
        found = looked_at(self.args.program, plan, taken)
        if found.why:
            say(f"{found.name} is left out: {found.why}")
            if found.name not in taken:
                self.room.left_out[found.name] = found.reason
            self.left_out[found.name] = found.status
        else:
            self.room.left_out.pop(found.name, None)
            self.left_out.pop(found.name, None)
        return found

    def names(self):
        """The names of vehicles and of their points, which are no slips of each other."""
        return [*self.room.vehicles, *(point for it in self.room.vehicles.values() for point in it.execution.plan.points)]

    def status(self):
        """The worst of the plans that were left out and not mended since, and of the lines that were refused and not mended."""
        return max([Status.EVENT if self.refused else Status.KEPT, *self.left_out.values()])

    def take(self, line):
        words = line.split()
        asked, self.asked = self.asked, None
        match words:
            case []:
                self.put_table()
            case [first, *_] if first.startswith("#"):
                self.keep(line, line, is_change=False)
            case [yes] if asked and yes.lower() in ("y", "yes"):
                self.take(asked)
            case [name] if name in self.room.vehicles:
                self.put_table([name])
            case [name, word] if name in self.room.vehicles and word.lower() == "undo":
                self.undo(name)
            case [name, word, *rest] if name in self.room.vehicles:
                self.event(name, " ".join([word.lower(), *rest]))
            case [name, word, *_] if word.lower() in EVENTS:
                self.ask_again(line, name)
            case [word, *rest]:
                self.order(line, word.lower(), rest)

    def order(self, line, word, rest):
        """Takes a line that is no vehicle's."""
        match word, rest:
            case "table", []:
                self.refused.take(line, is_question=True)
                self.put_table()
            case "help", []:
                tell(__doc__.split("\n\n", 2)[2].rstrip())
            case "now", [moment]:
                self.set_now(line, moment)
            case "undo", [name] if name in self.room.vehicles:
                self.undo(name)
            case "add", [_, *_]:
                self.add(line)
            case "rest", [name, *_] if name in self.room.vehicles:
                self.rest(line, name)
            case ("undo" | "rest"), [name, *_]:
                self.refuse(line, f"there is no vehicle '{name}'{meant(name, self.room.vehicles)}")
            case _, _ if word in WORDS:
                self.refuse(line, f"'help' tells what stands after '{word}'")
            case _:
                self.ask_again(line, line.split()[0])

    def ask_again(self, line, name):
        """Asks again who was meant by a name that no vehicle has; nothing is sent."""
        if name in self.room.left_out:
            self.refuse(line, f"{name} is left out: {self.room.left_out[name]}")
            return
        near = alike(name, [*self.room.vehicles, *WORDS])
        again = " ".join([near[0], *line.split()[1:]]) if len(near) == 1 else ""
        self.asked = again if again and is_terminal() else None
        which = " or ".join(f"'{it}'" for it in ([again] if again else near))
        how = (f"; was {which} meant?" if which else "; type it again") + (" 'yes' sends that" if self.asked else "")
        self.refuse(line, f"there is no vehicle '{name}', and nothing is sent{how}")

    def event(self, name, typed):
        """Tells a line of a vehicle, as it was typed, in the moments of its plan."""
        line = " ".join(in_numbers(typed.split(), self.scale))
        execution = self.room.vehicles[name].execution
        if execution.is_complete:
            self.refuse(f"{name} {typed}", f"its day is over; 'undo {name}' takes its last line back")
            return
        told = self.room.take(name, line)
        if told.refused:
            slip = slip_of_event(line, told, execution, self.scale)
            why = f"the program says: {told.said}" + (f"; {slip}" if slip else "")
            self.refuse(f"{name} {typed}", why + self.what_then(name, typed, told))
        elif self.keep(f"{name} {typed}", f"{name} {line}"):
            self.answer(name, line, told.acts)
        else:
            self.room.forget_last(name)

    @staticmethod
    def what_then(name, line, told):
        """What can be done where the day went another way than its plan."""
        if not told.is_of_another_day:
            return ""
        return f". If the day went so: rest {name} --now {line.split()[1]} --link {told.why[1]} LOW HIGH"

    def undo(self, name):
        if not self.room.vehicles[name].can_take_back():
            self.refuse(f"undo {name}", "there is no line to take back")
        elif self.keep(f"undo {name}", marked(Mark.TAKEN_BACK, name), is_change=False):
            taken = self.room.forget_last(name)
            self.answer(name, "undo", [], f"taken back: {as_typed(taken, self.scale)}")

    def set_now(self, line, word):
        try:
            moment = self.scale.read(word)
        except Fault as why:
            self.refuse(line, str(why))
            return
        if moment < self.room.told:
            self.refuse(line, f"{self.scale.text(self.room.told)} was told already, and that is later")
        elif self.keep(line, marked(Mark.NOW, str(moment))):
            self.room.said = moment
            self.put_table()

    def add(self, line):
        """Takes plans into the room while others go."""
        try:
            for word in shlex.split(line)[1:]:
                for plan in self.offered(word):
                    self.add_one(line, self.looked_at(plan, self.room.vehicles))
        except (Fault, ValueError) as why:
            self.refuse(line, str(why))

    def add_one(self, line, plan):
        if plan.why:
            self.is_page_old = True
            if self.args.json:
                hand_on({"line": line, "taken": False, "why": f"{plan.name} is left out: {plan.why}"})
        elif self.keep(line, plan_entry(plan.name, plan.source.text)):
            self.room.add(plan.name, plan.source.text)
            self.room.start()
            self.answer(plan.name, line, [])

    def rest(self, line, name):
        """Has what is left of the day of a vehicle take its place."""
        parser = Parser(prog="rest NAME", add_help=False, allow_abbrev=False)
        rest_command.add_amendments(parser)
        vehicle = self.room.vehicles[name]
        before = vehicle.execution.moments()
        try:
            told = rest_command.amendments_of(parser.parse_args(shlex.split(line)[2:]), self.scale)
            rest = Rest(vehicle.execution.source, before, vehicle.execution.last or 0, told, self.scale)
            text = rest.text(self.args.program)
        except (Fault, ValueError) as why:
            self.refuse(line, str(why).split("\n")[0])
            return
        said = [*rest.changed(), *rest.missing(self.args.program, vehicle.lines)]
        if not self.args.program.call(["check"], Source(text)).is_kept:
            more = "'planner rest' writes its plan, and 'planner repair' finds what can be done"
            self.refuse(line, "; ".join(["the program says that what is left cannot be kept", *said, more]))
        else:
            self.go_on(line, name, text, f"at {rest.now}", before, said)

    def go_on(self, line, name, text, now, before, said):
        """Has a vehicle go on by a plan of the rest, and tells it what moment it is, to which it answers what came before once more. Tells
        also what there is to be said of the rest."""
        self.room.go_on(name, text)
        told = self.room.take(name, now)
        if told.refused:
            self.room.forget_last(name)
            self.refuse(line, f"the program says: {told.said} (to {now})")
        elif self.keep(line, plan_entry(name, text), f"{name} {now}"):
            self.answer(name, now, [(moment, point) for moment, point in told.acts if point not in before], "; ".join(said))
        else:
            self.room.forget_last(name)

    def keep(self, told, *lines, is_change=True):
        """Keeps lines in the journal, for one that was told; whether they are on the disk."""
        self.is_page_old = True
        self.since_table += 1
        try:
            self.journal.keep(*lines)
        except OSError as why:
            self.refuse(told, f"it could not be kept, {told_by_system(why)}; all stands as before")
            return False
        self.refused.take(told, is_question=not is_change)
        return True

    def answer(self, name, line, acts, note=""):
        """Tells what a vehicle does now, and what is to be told of it next."""
        execution = self.room.vehicles[name].execution
        if self.args.json:
            acts = [{"moment": moment, "point": point} for moment, point in acts]
            said = {"vehicle": name, "line": line, "taken": True, "note": note, "acts": acts}
            hand_on({**said, "due": execution.told.due, "complete": execution.is_complete})
            return
        for moment, point in acts:
            tell(f"{name} at {self.scale.text(moment)}: {point}")
        due = "nothing is due" if execution.told.due is None else f"next at {self.scale.text(execution.told.due)}"
        due = "its day is over" if execution.is_complete else due
        may = coming(self.room.row(self.room.vehicles[name], self.room.now), self.scale) if is_terminal() else ""
        tell(f"{name}: " + "; ".join(filter(None, [note, due, may and f"may still come: {may}"])))

    def refuse(self, line, why):
        self.refused.refuse(line)
        if self.args.json:
            hand_on({"line": line, "taken": False, "why": why})
        else:
            say(f"'{line}' is not taken: {why}")

    def put_table(self, names=None):
        self.since_table = 0
        rows = [row for row in self.room.rows() if names is None or row.name in names]
        if self.args.json:
            hand_on({"now": self.room.now, "rows": [described(row) for row in rows]})
        else:
            for line in lines(rows, self.room.now, self.scale):
                tell(line)

    def put_page(self, is_last=False):
        """Writes the page, if it is not as the room stands, and not too often."""
        if self.args.page is None or not self.is_page_old or (time.monotonic() - self.page_written < PAGE_EACH and not is_last):
            return
        folder = Path(self.args.page)
        try:
            folder.mkdir(parents=True, exist_ok=True)
            text = page(self.room.rows(), self.room.now, self.path.stem, time.strftime("%H:%M:%S"), self.scale)
            write_whole(folder / "index.html", text)
        except OSError as why:
            say(f"the page could not be written: {told_by_system(why)}")
        self.is_page_old, self.page_written = False, time.monotonic()

    def end(self):
        if self.since_table:
            self.put_table()
        self.put_page(is_last=True)
        self.room.close()
        self.journal.close()
        return Status.KEPT if is_terminal() else self.status()


def described(row):
    """A line of the table as a value for programs."""
    windows = {end: {"first": it.first, "last": it.last} for end, it in row.coming.items()}
    return {"vehicle": row.name, "state": row.state, "why": row.why, "told": row.last, "due": row.due, "coming": windows}
