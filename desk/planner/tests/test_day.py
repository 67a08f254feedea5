"""A day at a terminal and by lines: what is told, what is refused, and where it goes on."""

import json
import random

from planner.execution import Execution
from planner.faults import Status
from planner.plan import Plan, load
from planner.tests.children import Terminal, quickly
from planner.tests.support import EXAMPLES, Case, program

ROVER = EXAMPLES / "rover" / "plan.stnu"
# What is told after `at 60` of the rover's day.
AT_60 = ["at 60: leave", "next: at 90; arrive may be seen from 100 until 150"]


class Days(Case):
    def day(self, *lines, words=(), plan=ROVER):
        return quickly("day", plan, "--lines", "today.day", *words, given="".join(f"{line}\n" for line in lines))

    def test_a_day_tells_what_is_done_what_is_next_and_what_may_come_until_when(self):
        done = self.day("at 0", "at 60", "at 90", "at 127 arrive", "at 240", "done")
        self.assertEqual(done.status, 0)
        wanted = """\
next: at 0
at 0: sunrise
next: at 60
at 60: leave
next: at 90; arrive may be seen from 100 until 150
at 90: warm-up
next: at 150; arrive may be seen from 100 until 150
at 127: images
next: at 240
at 240: relay
nothing is due any more: 'done' ends the day
the day is over: all has come"""
        self.assertEqual(done.lines, wanted.split("\n"))

    def test_with_a_delay_it_tells_when_the_end_may_be_seen(self):
        done = self.day("at 0", "at 60", words=["--delay", "12"])
        self.assertEqual(done.lines[-1], "next: at 90; arrive may be seen from 112 until 162")
        self.assertEqual(self.day().status, Status.WORDS)
        self.assertEqual(self.day(words=["--delay", "12"]).lines, done.lines[-2:])

    def test_with_a_clock_times_are_told_and_read_and_moments_kept(self):
        done = self.day("at 6:00", "at 7:00", words=["--clock", "6:00"])
        self.assertEqual(done.lines[-2:], ["at 7:00: leave", "next: at 7:30; arrive may be seen from 7:40 until 8:30"])
        done = self.day("at 7:10 arrive", "at 7:40 arrive", words=["--clock", "6:00"])
        self.assertIn("arrive cannot be seen before 7:40", done.err)
        self.assertTrue((self.folder / "today.day").read_text().endswith("at 0\nat 60\nat 100 arrive\n"))

    def test_with_a_clock_a_refused_line_is_told_as_it_was_typed(self):
        done = self.day("at 6:00", "at 7:00", "at 6:30", "at 9:00", "at 7:20", "undo", words=["--clock", "6:00"])
        self.assertIn("'at 6:30' is not taken: the program says: not-later 60; 7:00 was told already", done.err)
        self.assertIn("taken back: at 7:20", done.lines)
        self.assertIn("'at 9:00' is not taken", done.err)
        call = done.err.split("is a new plan: ")[1].split("\n")[0]
        self.assertTrue(call.endswith("--now 9:00 --link arrive LOW HIGH --clock 6:00"), call)
        words = call.replace("LOW HIGH", "115 140").split()[1:]
        self.assertIn("which began at 7:00, may last 115 to 140 now", quickly(*words, "--not-yet", "warm-up").err)

    def test_it_goes_on_where_it_was(self):
        self.day("at 0", "at 60")
        done = self.day("at 90")
        self.assertEqual(done.lines[:3], [*AT_60, "at 90: warm-up"])
        self.assertIn("2 lines told again", done.err)

    def test_a_moment_told_without_its_name_can_be_taken_back(self):
        done = self.day("at 0", "at 60", "at 127", "at 127 arrive", "undo", "at 127 arrive")
        self.assertIn("127 was told already", done.err)
        self.assertEqual(done.lines[-5:-3], ["taken back: at 127", "next: at 90; arrive may be seen from 100 until 150"])
        self.assertEqual(done.lines[-1], "next: at 240")

    def test_a_day_that_is_over_says_so(self):
        self.day("at 0", "at 60", "at 127 arrive", "done")
        done = self.day("at 300")
        self.assertEqual((done.status, done.lines[-1]), (Status.EVENT, "the day is over: all has come"))
        self.assertIn("the day is over; 'undo' takes its last line back", done.err)
        self.assertEqual(self.day("undo", "at 240").lines[-2:], ["at 240: relay", "nothing is due any more: 'done' ends the day"])

    def test_a_day_overdue_says_in_one_line_what_to_do_then(self):
        done = self.day("at 0", "at 60", "at 160")
        line = done.err.split("\n")[0]
        wanted = "planner: 'at 160' is not taken: the program says: overdue arrive 150"
        wanted += "; arrive was to be seen by 150 at the latest"
        then = f"planner rest {ROVER} today.day --now 160 --link arrive LOW HIGH"
        self.assertEqual(line, f"{wanted}. If the day went so, what is left of it is a new plan: {then}")
        words = then.replace("LOW HIGH", "101 140").split()[1:]
        self.assertIn("the rest can", quickly(*words, "--not-yet", "warm-up").err)

    def test_slips_are_told_in_one_line_each_and_change_nothing(self):
        slips = {
            "at 100 arive": "the plan has no 'arive'; was 'arrive' meant?",
            "at 100 images": "no link ends in images: it is executed",
            "at 60": "60 was told already",
            "at 9:30": "'9:30' is no moment",
            "at": "wanted: at MOMENT NAME ..",
            "at 70 arrive": "arrive cannot be seen before 100",
            "att 70": "was 'at' meant?",
            "arrive": "'help' lists the lines",
            "done": "arrive is still to come: tell it first",
            "verdict": "begins no line here",
            "at 4000000000001": "the greatest moment is 4,000,000,000,000",
        }
        self.day("at 0", "at 60")
        for line, wanted in slips.items():
            with self.subTest(line):
                done = self.day(line, "status")
                self.assertEqual((done.status, done.lines), (Status.EVENT, AT_60 * 2))
                self.assertIn(wanted, done.err)
                self.assertEqual(done.err.count("is not taken"), 1)

    def test_a_slip_that_is_mended_makes_no_status_and_no_line_is_told_by_a_number_that_nobody_sees(self):
        mended = [
            ("at 100 arive", "status", "at 100 arrive"),
            ("at 100 images", "at 100 arrive"),
            ("att 90", "at 90"),
            ("at 9:30", "at 90"),
            ("at 70 arrive", "at 100 arrive"),
            ("done", "at 127 arrive", "at 240", "done"),
        ]
        for number, lines in enumerate(mended):
            with self.subTest(lines):
                words = ["--lines", f"{number}.day"]
                done = quickly("day", ROVER, *words, given="\n".join(["at 0", "at 60", *lines]))
                self.assertEqual((done.status, done.err.count("is not taken")), (0, 1), done.err)
                self.assertNotRegex(done.err, r"error \w+ \d+")
        self.assertEqual(self.day("at 0", "at 60", "at 100 arive", "at 110").status, Status.EVENT)

    def test_a_plan_that_cannot_be_kept_is_not_executed(self):
        done = self.day("at 0", plan=EXAMPLES / "rover" / "variant.stnu")
        self.assertEqual((done.status, done.out), (Status.NOT_KEPT, ""))
        self.assertFalse((self.folder / "today.day").exists())

    def test_a_day_of_another_plan_is_not_gone_on_with(self):
        self.day("at 0", "at 60")
        other = self.write("other.stnu", ROVER.read_text().replace("leave sunrise -60", "leave sunrise -61"))
        self.assertEqual(self.day(plan=other).status, Status.WORDS)
        other.write_text(ROVER.read_text().replace("sunrise", "dawn"))
        done = self.day("at 61", plan=other, words=["--plan-changed"])
        self.assertEqual(done.lines, [*AT_60, AT_60[1]])

    def test_a_plan_and_its_lines_may_come_in_one_input(self):
        text = ROVER.read_text() + "at 0\nat 60\n"
        done = quickly("day", "-", "--lines", "today.day", given=text)
        self.assertEqual((done.status, done.lines[-2]), (0, "at 60: leave"))
        self.assertEqual(quickly("day", "-", given=text).status, Status.WORDS)

    def test_a_json_line_answers_each_line(self):
        said = [json.loads(line) for line in self.day("at 0", "at 60", "at 60", words=["--json"]).lines]
        self.assertEqual(said[2]["acts"], [{"moment": 60, "point": "leave"}])
        self.assertEqual((said[2]["due"], said[2]["coming"]), (90, {"arrive": {"first": 100, "last": 150}}))
        self.assertEqual([it["taken"] for it in said], [True, True, True, False])


class Windows(Case):
    """What may come until when: each moment is one by which the program refuses others."""

    def test_they_are_those_of_the_links(self):
        plans = [EXAMPLES / "laboratory" / "plan.stnu", EXAMPLES / "shift" / "late.json"]
        for path in plans:
            source = load(str(path))
            plan, draw = Plan.of(source), random.Random(3)
            execution = Execution(program(), source)
            came = {}
            while not execution.is_complete and len(came) < len(plan.points):
                self.told(execution, came, plan, draw)
            execution.close()

    def told(self, execution, came, plan, draw):
        """Tells the next moment, by which a link that may be over is, perhaps."""
        for link in execution.running():
            window = execution.window(link.end)
            start = came[link.start]
            self.assertEqual(window.last, start + link.high + plan.delay)
            self.assertIn(window.first, (None, start + link.low + plan.delay))
        moment = min([it for it in [execution.told.due] if it is not None] + [execution.window(it.end).last for it in execution.running()])
        names = [it.end for it in execution.running() if execution.window(it.end).last == moment]
        told = execution.take(" ".join(["at", str(moment), *names]))
        self.assertEqual(told.refused, "")
        came |= {point: at for at, point in told.acts} | dict.fromkeys(names, moment - plan.delay)


class AtATerminal(Case):
    def test_a_day_with_slips(self):
        with Terminal("day", ROVER, "--lines", "today.day") as terminal:
            terminal.until("next: at 0\n> ")
            terminal.type("at 0", "next: at 60\n> ")
            terminal.type("at 60", "until 150\n> ")
            terminal.type("AT 127", "next: at 150")
            terminal.type("undo", "taken back: at 127\n")
            terminal.type("help", "the day   at MOMENT NAME")
            terminal.type("at 160", "planner rest")
            terminal.type("at 127 ar\t", "at 127: images")
            terminal.type("end", "the same call goes on with it")
            self.assertEqual(terminal.child.wait(20), 0)
