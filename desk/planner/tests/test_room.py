"""A room of vehicles: which plans go, who is meant, what comes in during the day, and the page for the wall."""

import json
import os
import re
import threading
import xml.etree.ElementTree as xml

from planner.drawing.scale import Clock, Numbers
from planner.execution import Window
from planner.faults import Status
from planner.page import Axis, page
from planner.room import Row
from planner.tests.children import Terminal, quickly
from planner.tests.support import EXAMPLES, Case

FLEET = (EXAMPLES / "fleet" / "plans.fleet").read_text()
LEG = """\
stnu 2
point go
point there
point leave
link go 20 40 there
between stop there 0 5 leave
bound shift go leave 50
end
"""


class RoomCase(Case):
    def told(self, *words, given):
        """A room that is told these lines by a file."""
        self.write("given.lines", given)
        return quickly("room", *words, "--from", "given.lines")


class Rooms(RoomCase):
    def setUp(self):
        super().setUp()
        for name in ("v01", "v02", "v03"):
            self.write(f"{name}.stnu", LEG)
        self.write("v08.stnu", LEG.replace("point there", "poinnt there"))
        self.write("v05.stnu", LEG.replace("leave 50", "leave 30"))

    def room(self, *lines, words=("v01.stnu", "v02.stnu", "v03.stnu")):
        return self.told(*words, "--lines", "day.room", given="".join(f"{line}\n" for line in lines))

    def row(self, done, name):
        """The last line of the table on this vehicle."""
        return next(line for line in reversed(done.lines) if line.startswith(f"{name} ")).split()[1:]

    def test_faulty_plans_are_named_and_the_others_go(self):
        done = self.room("v01 at 0", words=("v01.stnu", "v05.stnu", "v08.stnu"))
        self.assertEqual(done.status, Status.PLAN)
        self.assertIn("v01 at 0: go", done.lines)
        self.assertEqual(" ".join(self.row(done, "v05")), "- left out: it cannot be kept")
        self.assertEqual(" ".join(self.row(done, "v08")), "- left out: the program says: error format 3 unknown-word")
        self.assertIn("v08.stnu:3: 'poinnt': this begins no line of a plan; was 'point' meant?", done.err)
        self.assertIn("'v08 at 0' is not taken: v08 is left out", self.room("v08 at 0", words=("v01.stnu", "v08.stnu")).err)

    def test_all_or_none_begins_none(self):
        done = self.room("v01 at 0", words=("v01.stnu", "v05.stnu", "--all-or-none"))
        self.assertEqual((done.status, done.out), (Status.NOT_KEPT, ""))
        self.assertIn("none is begun, since not each plan can be: v05", done.err)
        self.assertEqual(self.room("v01 at 0", words=("v01.stnu", "v02.stnu", "--all-or-none")).status, 0)

    def test_a_name_that_no_vehicle_has_is_never_sent(self):
        done = self.room("v1 at 0", "v01 at 0", "v at 5", "xyz at 5", "v01 at 1")
        self.assertEqual(done.status, Status.EVENT)
        self.assertIn("there is no vehicle 'v1', and nothing is sent; was 'v01 at 0' meant?", done.err)
        self.assertIn("nothing is sent; type it again", done.err)
        self.assertEqual(self.row(done, "v01"), ["1", "40", "there", "20", "to", "40"])

    def test_a_refused_line_leaves_its_vehicle_and_the_others_as_they_were(self):
        slips = ["v01 at 10 there", "v01 at 10 their", "v01 9"]
        done = self.room("v01 at 0", "v02 at 0", *slips, "v01 at 22 there", "v02 at 25 there", "v01 done", "v01 at 99")
        self.assertEqual(done.err.count("is not taken"), 4)
        for wanted in ("there cannot be seen before 20", "was 'there' meant?", "a line of a day is", "its day is over"):
            self.assertIn(wanted, done.err)
        self.assertEqual(self.row(done, "v01"), ["over", "22"])
        self.assertEqual(self.row(done, "v02"), ["25"])

    def test_it_goes_on_by_the_plans_as_they_were(self):
        self.room("v01 at 0", "v01 at 22 there", "v02 at 0", "undo v02")
        self.write("v01.stnu", LEG.replace("40", "41"))
        done = self.room("v02 at 3")
        self.assertIn("v01: v01.stnu is another plan now; the room goes on with the one that it has", done.err)
        self.assertEqual(self.row(done, "v01"), ["22"])
        self.assertEqual(self.row(done, "v02"), ["3", "40", "there", "20", "to", "40"])

    def test_a_vehicle_is_late_if_something_of_it_is_before_now(self):
        done = self.room("v01 at 0", "v02 at 0", "v01 at 39", "v02 at 30 there", "now 41")
        self.assertEqual(done.lines[-5].split(), ["now", "41"])
        self.assertEqual([line.split()[:2] for line in done.lines[-3:]], [["v03", "LATE"], ["v01", "LATE"], ["v02", "30"]])

    def test_the_moment_of_a_line_that_is_taken_back_is_no_more_that_of_the_room(self):
        """A slip of an hour makes nobody late once it is taken back; a moment that was said, and none told, may be said anew."""
        done = self.room("v01 at 0", "v02 at 0", "v02 at 20 there", "v02 at 3000", "undo v02", "table", "now 2000", "now 10", "now 25")
        self.assertEqual([line for line in done.lines if line.startswith("now ")], ["now 0", "now 20", "now 2000", "now 25"])
        self.assertIn("'now 10' is not taken: 20 was told already, and that is later", done.err)
        self.assertEqual(self.room().lines[0], "now 25")

    def test_a_plan_more_and_one_that_was_mended_come_in_during_the_day(self):
        link = {"from": "a", "low": 3, "high": 9, "to": "b"}
        self.write("late.json", json.dumps({"stnu": 2, "delay": 2, "points": ["a", "b"], "links": [link]}))
        os.mkfifo("pipe")

        def tell():
            with open("pipe", "w") as pipe:
                pipe.write("v01 at 0\nadd relief=late.json\nadd v08\n")
                pipe.flush()
                self.write("v08.stnu", LEG)
                pipe.write("add v08\nrelief at 4\nv08 at 5\nadd v09.stnu\nadd relief=late.json\n")

        teller = threading.Thread(target=tell)
        teller.start()
        done = quickly("room", "v01.stnu", "v08.stnu", "--lines", "day.room", "--from", "pipe")
        teller.join()
        self.assertEqual(self.row(done, "relief"), ["4", "b", "by", "11"])
        self.assertIn("v08 at 0: go", done.lines)
        self.assertIn("v09.stnu: no such file", done.err)
        self.assertIn("a plan of this name is in the room", done.err)

    def test_the_rest_of_a_day_comes_into_the_same_room(self):
        rests = ["rest v01 --now 45", "rest v01 --now 45 --link there 46 48"]
        done = self.room("v01 at 0", "v02 at 0", "v01 at 45", *rests, "v02 at 30 there", "v01 at 47 there")
        self.assertIn("If the day went so: rest v01 --now 45 --link there LOW HIGH", done.err)
        self.assertIn("say how long each may last now, from where it began: --link there 46 HIGH", done.err)
        self.assertIn("v01 at 47: leave", done.lines)
        # It goes on by the rest, and the rest can be taken back.
        self.assertEqual(self.row(self.room(), "v01"), ["47"])
        done = self.room("undo v01", "undo v01", "v01 at 40 there")
        self.assertIn("v01: taken back: the plan of the rest", "\n".join(done.lines))
        self.assertEqual(done.status, 0)

    def test_a_slip_that_is_mended_makes_no_status(self):
        mended = [("v1 at 0", "v01 at 0"), ("tabel", "table")]
        mended += [("v01 at 0", slip, "table", "v01 at 30 there") for slip in ("v01 at 30 thre", "v01 30 there")]
        for lines in mended:
            with self.subTest(lines):
                done = self.room(*lines)
                self.assertEqual((done.status, done.err.count("is not taken")), (0, 1), done.err)
                self.assertNotRegex(done.err, r"error \w+ \d+")
                (self.folder / "day.room").unlink()
        # Each vehicle has slips of its own.
        done = self.room("v01 at 0", "v02 at 0", "v02 at 10 there", "v01 at 30 there")
        self.assertEqual(done.status, Status.EVENT)

    def test_a_plan_that_was_left_out_and_is_mended_makes_no_status(self):
        os.mkfifo("pipe")

        def tell():
            with open("pipe", "w") as pipe:
                pipe.write("v01 at 0\n")
                pipe.flush()
                self.write("v08.stnu", LEG)
                pipe.write("add v08\n")

        teller = threading.Thread(target=tell)
        teller.start()
        done = quickly("room", "v01.stnu", "v08.stnu", "--lines", "day.room", "--from", "pipe")
        teller.join()
        self.assertIn("v08 is left out", done.err)
        self.assertEqual(done.status, 0)

    def test_the_plan_of_a_rest_can_be_written_out_of_the_journal_of_a_room(self):
        self.room("v01 at 0", "v02 at 0", "v01 at 12", "undo v01", "v01 at 22 there")
        done = quickly("rest", "v01.stnu", "day.room", "--vehicle", "v01")
        self.assertEqual(done.status, 0)
        self.assertIn("between there.came go 22 22 there", done.lines)
        self.assertIn("was 'v01' meant?", quickly("rest", "v01.stnu", "day.room", "--vehicle", "v001").err)
        self.room("rest v02 --now 10 --link there 20 44")
        done = quickly("rest", "v02.stnu", "day.room", "--vehicle", "v02")
        self.assertEqual((done.status, done.out), (Status.WORDS, ""))
        self.assertIn("v02 goes on by the plan of a rest, which only the room has: tell the room 'rest v02 ..'", done.err)

    def test_a_rest_tells_which_durations_it_changes(self):
        self.write("v01.stnu", LEG.replace("link go", "point back\nlink leave 5 9 back\nlink go"))
        done = self.room("v01 at 0", "rest v01 --now 10 --link back 7 12")
        self.assertIn("the link back, which has not begun, may last 7 to 12 now, and 5 to 9 by the plan before", "\n".join(done.lines))
        done = self.room("rest v01 --now 12 --link there 20 44")
        self.assertIn("the link there, which began at 0, may last 20 to 44 now, and 20 to 40 by the plan before", "\n".join(done.lines))
        done = self.room("rest v01 --now 13 --link back 70 120")
        self.assertEqual(done.status, 0)
        done = self.room("rest v01 --now 14 --link there 70 120")
        self.assertIn("what is left cannot be kept; the link there, which began at 0, may last 70 to 120 now", done.err)

    def test_a_room_has_more_vehicles_than_a_fleet(self):
        words = [f"w{number}=v01.stnu" for number in range(70)]
        done = self.room("w69 at 0", "w3 at 0", words=words)
        self.assertEqual((done.status, self.row(done, "w69")), (0, ["0", "40", "there", "20", "to", "40"]))

    def test_a_name_is_taken_once_and_is_one(self):
        self.write("1st.stnu", LEG)
        done = self.room(words=("v01.stnu", "v01=v02.stnu", "1st.stnu", "first=1st.stnu"))
        self.assertIn("v01 is left out: a plan of this name is in the room", done.err)
        self.assertIn("'1st' is no name: NAME=FILE gives it one", done.err)
        self.assertIn("first", done.out)

    def test_json_lines_tell_of_a_plan_that_is_left_out_too(self):
        done = self.room("add v05.stnu", "add v02=v03.stnu", words=("v01.stnu", "v02.stnu", "--json"))
        told = [json.loads(line) for line in done.lines]
        self.assertEqual([it["taken"] for it in told if "taken" in it], [False, False])
        self.assertIn("v05 is left out: the program says: not controllable", told[1]["why"])
        self.assertIn("v02 is left out: a plan of this name is in the room", told[2]["why"])

    def test_json_lines_tell_each_line_and_the_table(self):
        said = [json.loads(line) for line in self.room("v01 at 0", "v1 at 0", words=("v01.stnu", "--json")).lines]
        self.assertEqual((said[1]["vehicle"], said[1]["acts"], said[2]["taken"]), ("v01", [{"moment": 0, "point": "go"}], False))
        self.assertEqual(said[3]["rows"][0]["coming"], {"there": {"first": 20, "last": 40}})

    def test_sources_are_read_side_by_side_and_missing_ones_keep_it_from_beginning(self):
        self.write("a.lines", "v01 at 0\nv01 at 22 there")
        self.write("b.lines", "v02 at 0\n# a remark\nv02 at 23 there\n")
        done = quickly("room", "v01.stnu", "v02.stnu", "--from", "a.lines", "--from", "b.lines")
        self.assertEqual((done.status, self.row(done, "v01")[0], self.row(done, "v02")[0]), (0, "22", "23"))
        done = quickly("room", "v01.stnu", "--lines", "other.room", "--from", "nowhere.lines")
        self.assertEqual((done.status, (self.folder / "other.room").exists()), (Status.WORDS, False))


class Fleets(RoomCase):
    def test_the_text_of_a_fleet_with_what_program_and_room_make_of_it(self):
        self.write("plans.fleet", FLEET)
        done = self.told("plans.fleet", given=(EXAMPLES / "fleet" / "day.lines").read_text())
        acts = [line for line in done.lines if re.match(r"\w+ at \d+: ", line)]
        answers = (EXAMPLES / "fleet" / "day.answers").read_text().split("\n")
        wanted = [f"{words[0]} at {words[2]}: {words[3]}" for words in map(str.split, answers) if words[1:2] == ["act"]]
        self.assertEqual(acts, wanted)
        self.assertIn("plans.fleet:48: 'yard': a point of this name stands on line 47", done.err)

    def test_a_fault_anywhere_in_the_text_leaves_out_one_plan(self):
        lines = FLEET.split("\n")
        for place in (5, 6, 11, 15, 17, 21, 22, 23, 31, 32):
            self.write("plans.fleet", "\n".join([*lines[:place], f"x{lines[place]}", *lines[place + 1 :]]))
            done = self.told("plans.fleet", "--lines", f"{place}.room", given="")
            with self.subTest(lines[place]):
                table = [line for line in done.lines[-4:] if line.startswith(("van", "tram"))]
                self.assertEqual(sum("left out" not in line for line in table), 1)


class Pages(RoomCase):
    WINDOWS = {"there": Window(50, 60), "back": Window(None, 70)}
    ROWS = [
        Row("v<1>", "late", 30, 42, WINDOWS, {"go": 10, "a": 30}, {"there": 10, "back": 30}, [(0, 10)]),
        Row("v2", "over", 22, came={"go": 0, "there": 22}, over=[(0, 22)]),
        Row("v5", "left out", why="it cannot be kept & more"),
    ]

    TEXT = page(ROWS, 55, "room", "12:00:00", Numbers())

    def tree(self):
        return xml.fromstring(re.sub(r"<meta[^>]*>|<!DOCTYPE html>", "", self.TEXT))

    def test_it_is_well_formed_and_loads_itself_anew(self):
        text = self.TEXT
        self.assertEqual(len(self.tree().findall(".//tbody/tr")), 3)
        self.assertIn('<meta http-equiv="refresh"', text)
        self.assertIn("prefers-color-scheme: dark", text)
        self.assertNotIn("http:", text)
        self.assertIn("late: v&lt;1&gt;", text)

    def test_no_dot_and_no_name_of_a_link_hides_the_other(self):
        strip = self.tree().find(".//tbody/tr/td[@class='strip']/svg")
        self.assertEqual([it.text for it in strip.findall("text")], ["there", "back"])
        tags = [it.tag for it in strip]
        self.assertGreater(tags.index("text"), max(place for place, tag in enumerate(tags) if tag == "circle"))
        bar = min(float(it.get("y")) for it in strip.findall("rect"))
        self.assertTrue(all(float(it.get("cy")) < bar for it in strip.findall("circle")))

    def test_ticks_are_few_and_marks_lie_on_the_strip(self):
        for first, last in ((0, 1), (0, 7), (0, 88), (13, 4_000_000_000), (0, 1000)):
            for scale in (Numbers(), Clock.of("7:30")):
                axis = Axis.of([Row("a", "goes on", came={"x": first})], last, scale)
                self.assertLessEqual(len(axis.ticks()), 9)
                for moment in (first, last):
                    self.assertTrue(0 <= float(axis.at(moment)[:-1]) <= 100)

    def test_it_is_written_whole_and_again_as_the_room_stands(self):
        self.write("plans.fleet", FLEET)
        self.told("plans.fleet", "--page", "wall", given="van at 0\nvan at 12 loaded\n")
        text = (self.folder / "wall" / "index.html").read_text()
        self.assertIn("now <b>12</b>", text)
        self.assertIn("there 42 to 57", text)
        self.assertEqual(os.listdir(self.folder / "wall"), ["index.html"])

    def test_with_a_clock_times_are_told_and_read(self):
        self.write("plans.fleet", FLEET)
        given = "van at 8:00\nvan at 8:12 loaded\nnow 8:20\nvan at 9:30\n"
        done = self.told("plans.fleet", "--page", "wall", "--clock", "8:00", given=given)
        self.assertIn("van at 8:12: leave", done.lines)
        self.assertIn("now 8:20", done.lines)
        self.assertIn("there was to be seen by 8:57 at the latest", done.err)
        self.assertIn("van at 12 loaded\n", (self.folder / "plans.room").read_text())
        self.assertIn("there 8:42 to 8:57", (self.folder / "wall" / "index.html").read_text())

    def test_a_page_that_cannot_be_written_ends_nothing(self):
        self.write("plans.fleet", FLEET)
        self.write("wall", "a file")
        done = self.told("plans.fleet", "--page", "wall", given="van at 0\n")
        self.assertIn("the page could not be written", done.err)
        self.assertIn("van at 0: load", done.lines)


class AtATerminal(Case):
    def test_a_name_is_asked_again(self):
        for name in ("v01", "v02", "v03"):
            self.write(f"{name}.stnu", LEG)
        with Terminal("room", "v01.stnu", "v02.stnu", "v03.stnu") as terminal:
            terminal.until("> ")
            terminal.type("v1 at 0", "was 'v01 at 0' meant? 'yes' sends that")
            terminal.type("yes", "v01 at 0: go")
            terminal.type("v2 at 0", "was 'v02 at 0' meant?")
            terminal.type("no", "nothing is sent")
            terminal.type("yes", "nothing is sent")
            terminal.type("", "vehicle")
            terminal.type("v02", "v02              0")
            self.assertEqual(terminal.leave(), 0)
        lines = (self.folder / "fleet.room").read_text().split("\n")
        self.assertEqual([line for line in lines if " at " in line and not line.startswith("+")], ["v01 at 0"])
