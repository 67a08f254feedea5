"""What is left of a day: its plan, and what nobody can say of it."""

import json

from planner.faults import Status
from planner.tests.children import quickly
from planner.tests.support import EXAMPLES, Case

ROVER = EXAMPLES / "rover"
# An operation that began at 22 and was to be over by 152.
THEATRE = """\
stnu 2
# The first operation.
point begin
point asleep
point cut
point closed
point cleaned
link begin 15 22 asleep
between cut-1 asleep 0 0 cut
link cut 75 130 closed
between clean closed 0 30 cleaned
bound shift begin cleaned 300
end
"""
LINES = "at 0\nat 22 asleep\nat 152\n"


class Theatre(Case):
    def setUp(self):
        super().setUp()
        self.write("theatre.stnu", THEATRE)
        self.write("lines", LINES)

    def rest(self, *words):
        return quickly("rest", "theatre.stnu", "lines", *words)

    def test_a_link_overdue_wants_to_be_said_how_long_it_lasts(self):
        done = self.rest()
        self.assertEqual((done.status, done.out), (Status.NOT_KEPT, ""))
        self.assertIn("overdue at 152; say how long each may last now, from where it began: --link closed 131 HIGH", done.err)

    def test_an_interval_that_lies_in_the_past_is_refused_with_the_number(self):
        done = self.rest("--link", "closed", "100", "120")
        self.assertEqual((done.status, done.out), (Status.WORDS, ""))
        self.assertIn("closed has lasted 130 already; HIGH is at least 131, and not 120", done.err)
        self.assertIn("178 already; HIGH is at least 179", self.rest("--link", "closed", "140", "150", "--now", "200").err)
        self.assertEqual(self.rest("--link", "closed", "100", "131").status, 0)

    def test_exchanged_numbers_and_what_is_none_are_refused(self):
        refused = {
            ("--link", "closed", "170", "140"): "LOW is at least 1 and at most HIGH, and they are 170 and 140",
            ("--link", "clsoed", "140", "170"): "no link ends in 'clsoed'; was 'closed' meant?",
            ("--link", "cut", "140", "170"): "no link ends in 'cut'; a link goes by the point in which it ends: 'closed' from 'cut'",
            ("--link", "closed", "140", "x"): "whole numbers are wanted",
            ("--link", "asleep", "40", "60"): "asleep has come at 22",
            ("--came", "cutt", "20"): "the plan has no 'cutt'; was 'cut' meant?",
            ("--came", "cut", "200"): "cut cannot have come at 200, since it is 152 now",
            ("--now", "100"): "the lines of the day go on until 152",
            ("--not-yet", "leave"): "the plan has no 'leave'",
        }
        for words, wanted in refused.items():
            with self.subTest(words):
                done = self.rest(*words)
                self.assertEqual((done.status, done.out), (Status.WORDS, ""))
                self.assertIn(wanted, done.err)

    def test_the_plan_of_the_rest_keeps_the_text_of_the_plan(self):
        done = self.rest("--link", "closed", "140", "250")
        self.assertEqual(done.status, 0)
        wanted = """\
# What is left of a day at 152.
stnu 2
# The first operation.
point begin
point asleep
point cut
point closed
point cleaned
# over: link begin 15 22 asleep
# kept: between cut-1 asleep 0 0 cut
link cut 140 250 closed
between clean closed 0 30 cleaned
bound shift begin cleaned 300

# What has come stays where it came, and what is still to come does so no sooner than now.
between asleep.came begin 22 22 asleep
between cut.came begin 22 22 cut
bound cleaned.from-now cleaned begin -152
end
"""
        self.assertEqual(done.out, wanted)

    def test_a_bound_that_was_not_kept_is_told_by_the_program(self):
        done = self.rest("--link", "closed", "140", "250", "--came", "cut", "30", "--show-calls")
        self.assertIn("# not kept: between cut-1 asleep 0 0 cut", done.lines)
        self.assertIn("'add bound tried.max asleep cut 0' 'add bound tried.min cut asleep 0' verdict", done.err)

    def test_a_link_whose_durations_are_changed_is_told(self):
        done = self.rest("--link", "closed", "140", "250")
        self.assertIn("the link closed, which began at 22, may last 140 to 250 now, and 75 to 130 by the plan before", done.err)

    def test_what_was_to_be_executed_and_is_not_told_is_said(self):
        self.write("lines", "at 0\nat 22 asleep\nat 100 closed\n")
        self.write("theatre.stnu", THEATRE.replace("clean closed 0 30", "clean closed 10 30"))
        done = self.rest("--now", "120")
        self.assertIn("cleaned was to be executed at 110, and no line tells that it was: if so, say it by --came cleaned 110", done.err)
        done = self.rest("--now", "120", "--came", "cleaned", "112", "--show-calls")
        self.assertNotIn("was to be executed", done.err)
        self.assertIn("between cleaned.came begin 112 112 cleaned", done.lines)
        self.assertNotIn("was to be executed", self.rest("--now", "105").err)

    def test_with_a_clock_moments_are_times_of_day(self):
        words = ["--clock", "7:30", "--now", "10:10", "--link", "closed", "140", "250", "--came", "cut", "7:54"]
        done = self.rest(*words)
        self.assertIn("bound cleaned.from-now cleaned begin -160", done.lines)
        self.assertIn("between cut.came begin 24 24 cut", done.lines)
        self.assertIn("the link closed, which began at 7:54, may last", done.err)
        self.assertEqual(done.out, self.rest("--now", "160", "--link", "closed", "140", "250", "--came", "cut", "24").out)
        done = self.rest("--clock", "7:30", "--now", "9:00")
        self.assertIn("the lines of the day go on until 10:02, so that it cannot be 9:00 now", done.err)
        for words in (["--now", "1e3"], ["--now", "4000000000"], ["--came", "cut", "x"]):
            self.assertEqual(self.rest(*words).status, Status.WORDS)

    def test_a_rest_that_cannot_be_kept_says_so(self):
        done = self.rest("--link", "closed", "140", "290")
        self.assertEqual(done.status, Status.NOT_KEPT)
        self.assertIn("the rest cannot be kept", done.err)

    def test_the_rest_of_a_rest_has_no_line_of_the_first(self):
        self.rest("--link", "closed", "140", "250", "--out", "rest.stnu")
        self.write("more", "at 152\nat 180\n")
        done = quickly("rest", "rest.stnu", "more", "--link", "closed", "160", "240")
        self.assertEqual(done.status, 0)
        self.assertEqual(sum("asleep.came" in line for line in done.lines), 1)
        self.assertIn("bound cleaned.from-now cleaned begin -180", done.lines)

    def test_the_plan_and_the_lines_are_never_written(self):
        for path in ("theatre.stnu", "./lines"):
            done = self.rest("--link", "closed", "140", "250", "--out", path)
            self.assertEqual((done.status, done.out), (Status.WORDS, ""))
        self.assertEqual((self.folder / "theatre.stnu").read_text(), THEATRE)
        self.assertEqual((self.folder / "lines").read_text(), LINES)

    def test_the_day_of_a_rest_tells_what_came_before(self):
        self.rest("--link", "closed", "140", "250", "--out", "rest.stnu")
        done = quickly("day", "rest.stnu", given="at 152\nat 170 closed\n")
        wanted = ["at 0: begin", "at 22: asleep, as it came before", "at 22: cut, as it came before"]
        self.assertEqual((done.status, done.lines[1:4], done.lines[-2]), (0, wanted, "at 170: cleaned"))

    def test_the_lines_of_one_vehicle_are_taken_out_of_a_fleet(self):
        self.write("lines", "other at 5\nv9 at 0\nv9 at 22 asleep\nother at 7\nv9 at 152\n")
        done = self.rest("--vehicle", "v9", "--link", "closed", "140", "250")
        self.assertIn("between asleep.came begin 22 22 asleep", done.lines)

    def test_a_day_that_planner_kept_with_what_it_took_back(self):
        quickly("day", "theatre.stnu", "--lines", "lines.day", given="at 0\nat 20\nundo\nat 21 asleep\n")
        done = quickly("rest", "theatre.stnu", "lines.day")
        self.assertIn("between asleep.came begin 21 21 asleep", done.lines)

    def test_only_the_plan_of_a_rest_is_written_over(self):
        other = self.write("other.stnu", THEATRE)
        done = self.rest("--link", "closed", "140", "250", "--out", "other.stnu")
        self.assertEqual((done.status, done.out, other.read_text()), (Status.WORDS, "", THEATRE))
        self.assertIn("other.stnu is there, and was not written by 'planner rest': name another file by --out", done.err)
        for name in ("left.stnu", "left.json"):
            for high in ("250", "255"):
                self.assertEqual(self.rest("--link", "closed", "140", high, "--out", name).status, 0)
            self.assertIn("255", (self.folder / name).read_text())

    def test_a_line_that_is_none_of_a_day_is_told_and_nothing_written(self):
        """So are a file that is none, and the plan in its place: a line that is left out would be a day that never was."""
        for given, word in (("at 0\natt 22 asleep\n", "'att'"), (THEATRE, "'stnu'"), ("at 0\nact 0 begin\n", "'act'")):
            self.write("lines", given)
            done = self.rest("--out", "left.stnu")
            self.assertEqual((done.status, done.out, (self.folder / "left.stnu").exists()), (Status.EVENT, "", False))
            self.assertIn(f"lines: {word} begins no line of a day, nor one of a session over its plan", done.err)

    def test_lines_that_the_program_refuses_are_told(self):
        self.write("lines", "at 0\nat 22 aslep\nat 30\n")
        done = self.rest()
        self.assertEqual((done.status, done.out), (Status.EVENT, ""))
        self.assertIn("was 'asleep' meant?", done.err)


class Rover(Case):
    def test_the_broken_day(self):
        words = ["rest", ROVER / "plan.stnu", ROVER / "late.events", "--link", "arrive", "115", "140", "--not-yet", "warm-up"]
        done = quickly(*words)
        self.assertEqual((done.status, done.out), (0, (ROVER / "left.stnu").read_text()))

    def test_edits_of_a_session_are_made_before_the_day(self):
        self.write("lines", "set between ready 1 2\nset bound warm -15\nverdict\ngo\nat 0\nat 60\n")
        done = quickly("rest", ROVER / "plan.stnu", "lines")
        self.assertIn("bound warm images warm-up -15", done.lines)
        self.assertIn("'set between ready 1 2' is refused, as it was then: refused unknown-name", done.err)

    def test_a_file_of_a_document_has_one(self):
        self.write("lines", "at 0\n")
        done = quickly("rest", ROVER / "plan.stnu", "lines", "--out", "rest.json")
        self.assertEqual(done.status, 0)
        self.assertEqual(json.loads((self.folder / "rest.json").read_text())["points"][0], "sunrise")
        self.assertEqual(quickly("check", "rest.json").out, "the plan can be kept\n")

    def test_a_document_gives_a_text(self):
        self.write("lines", "at 0\n")
        done = quickly("rest", ROVER / "plan.json", "lines", "--delay", "3")
        self.assertEqual((done.status, done.lines[:3]), (0, ["# What is left of a day at 0.", "stnu 2", "delay 3"]))
