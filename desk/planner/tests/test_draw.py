"""Days and their pictures: each moment is one that the program gave, and what else is drawn follows from the plan."""

import json
import re
import shutil
import subprocess
import unittest
import xml.etree.ElementTree as ElementTree
from html.parser import HTMLParser

from planner import days as daily
from planner.drawing.chart import Shape, chart_of, rows_of
from planner.drawing.scale import Clock, Numbers, Window
from planner.faults import Fault, Status
from planner.plan import Plan, load
from planner.tests.support import EXAMPLES, Case, planner, program, repeated

ROVER = EXAMPLES / "rover" / "plan.stnu"
LABORATORY = EXAMPLES / "laboratory" / "plan.stnu"
LARGE = EXAMPLES / "large" / "day.stnu"
SVG = "{http://www.w3.org/2000/svg}"

# A flight is boarded; its aircraft leaves in a slot.
AIRPORT = """stnu 2
delay 3
point day
point on-block
between lands day 20 60 on-block
point off-board
link on-block 8 14 off-board
point call
bound after-them call off-board 0
point board
between calling call 10 25 board
bound patience call board 40
point boarded
link board 15 25 boarded
point off-block
bound doors off-block boarded -4
between slot day 115 140 off-block
end
"""


def plan_of(path, delay=None):
    return Plan.of(load(str(path), delay))


class Graphs(Case):
    """A plan as a graph, be it one that can be kept or not."""

    def test_each_point_link_and_bound_is_in_it_with_its_number(self):
        self.write("airport.stnu", AIRPORT)
        for path in (ROVER, EXAMPLES / "rover" / "variant.stnu", EXAMPLES / "shift" / "late.json", "airport.stnu"):
            with self.subTest(path):
                plan, done = Plan.of(load(str(path))), planner("draw", path, "--dot", "-")
                lines = [line.strip() for line in done.lines]
                self.assertEqual((done.status, lines[0][-1], lines[-1]), (Status.KEPT, "{", "}"))
                self.assertLessEqual({f'"{name}"' for name in plan.points}, {line.rstrip(";").partition(" [")[0] for line in lines})
                self.assertEqual(sum(" -> " in line for line in lines), len(plan.links) + len({it.line for it in plan.bounds.values()}))
                for link in plan.links.values():
                    self.assertIn(f'"{link.start}" -> "{link.end}" [label="{link.low} to {link.high}", style=bold];', lines)
        rover = planner("draw", ROVER, "--dot", "-").out
        for arrow in ('"sunrise" -> "leave" [label="charged: at least 60"', '"arrive" -> "images" [label="at-the-rock: not before"'):
            self.assertIn(arrow, rover)
        self.assertIn('"warm-up" -> "images" [label="still-warm: at most 60"', rover)

    @unittest.skipUnless(shutil.which("dot"), "there is no Graphviz")
    def test_graphviz_takes_it(self):
        planner("draw", ROVER, "--dot", "rover.dot", "--title", 'a "day" \\')
        done = subprocess.run(["dot", "-Tplain", "rover.dot"], capture_output=True, text=True, check=False)
        self.assertEqual((done.returncode, done.stderr), (0, ""))


class Days(Case):
    def test_a_number_names_the_day_on_which_the_links_last_so(self):
        plan = plan_of(LABORATORY)
        self.assertEqual(daily.count_of(plan), 21 * 11)
        numbers = [
            daily.number_of(plan, {"samples": samples, "reagent": reagent}) for reagent in range(45, 56) for samples in range(40, 61)
        ]
        self.assertEqual(numbers, list(range(daily.count_of(plan))))
        for number in (0, 20, 21, 117, 230):
            moments = daily.played(program(), plan, str(number), LABORATORY).moments
            self.assertEqual((moments["samples"], moments["reagent"]), (40 + number % 21, 45 + number // 21))

    def test_what_is_executed_is_what_is_played(self):
        for path, delay in ((ROVER, None), (ROVER, 12), (LABORATORY, None), (self.write("airport.stnu", AIRPORT), None)):
            plan = plan_of(path, delay)
            for durations in daily.drawn(plan, 7, 3):
                with self.subTest(path=path, delay=delay, durations=durations):
                    executed = daily.executed(program(), plan, durations, "a day", path)
                    played = daily.played(program(), plan, str(daily.number_of(plan, durations)), path)
                    self.assertEqual(executed.moments, played.moments)

    def test_the_number_of_a_random_day_is_told_and_draws_it_again(self):
        done = planner("draw", ROVER, "--random")
        number = re.search(rf"drawn at random: day (\d+); 'planner draw {ROVER} (\d+)' draws it again\n", done.err)
        self.assertEqual(number[1], number[2])
        self.assertEqual(planner("draw", ROVER, number[1]).out, done.out)
        # A day whose number is beyond those that `play` takes is known by its seed.
        done = planner("draw", LARGE, "--random", "2", "--seed", "5", "--json")
        again = re.findall(r"'planner draw \S+ (.*)' draws it again", done.err)
        self.assertEqual(again, ["--random 1 --seed 5", "--random 2 --seed 5"])
        self.assertEqual(planner("draw", LARGE, *again[1].split(), "--json").out, done.out)

    def test_random_days_are_spread_over_all_links(self):
        plan = plan_of(LARGE)
        self.assertGreater(daily.count_of(plan), daily.LARGEST_NUMBER)
        drawn = list(daily.drawn(plan, 1, 40))
        for end, link in plan.links.items():
            found = [durations[end] for durations in drawn]
            self.assertTrue(all(link.low <= it <= link.high for it in found))
            self.assertGreater(len(set(found)), min(3, link.high - link.low))

    def test_a_day_beyond_all_numbers_is_executed(self):
        done = planner("draw", LARGE, "--random", "--seed", "5", "--json", "--show-calls")
        self.assertEqual(done.status, Status.KEPT)
        day, plan = json.loads(done.out), plan_of(LARGE)
        durations = next(daily.drawn(plan, 5, 1))
        for end, link in plan.links.items():
            self.assertEqual(day["moments"][end] - day["moments"][link.start], durations[end])
        status, answer = repeated(done.err)
        acts = {line.split()[2]: int(line.split()[1]) for line in answer.splitlines() if line.startswith("act ")}
        self.assertEqual((status, acts), (0, {name: it for name, it in day["moments"].items() if name not in plan.links}))

    def test_the_last_day_with_a_number_is_played_and_the_next_is_executed(self):
        links = "".join(f"point {end}\nlink a 1 1000000000 {end}\n" for end in "bcd")
        plan = plan_of(self.write("plan.stnu", f"stnu 1\npoint a\n{links}end\n"))
        durations = {"b": 709_551_616, "c": 446_744_074, "d": 19}
        for longer, title in ((0, f"day {daily.LARGEST_NUMBER}"), (1, "executed")):
            lasting = durations | {"b": durations["b"] + longer}
            self.assertEqual(daily.number_of(plan, lasting), daily.LARGEST_NUMBER + longer)
            day = daily.day_of(program(), plan, lasting, "executed", "plan.stnu")
            self.assertEqual((day.title, day.moments), (title, {"a": 0} | lasting))

    def test_the_same_seed_draws_the_same_days(self):
        words = ["draw", ROVER, "--random", "3", "--json", "--seed"]
        first, again, other = (planner(*words, seed).lines for seed in ("4", "4", "5"))
        self.assertEqual((len(first), first), (3, again))
        self.assertNotEqual(first, other)

    def test_a_call_that_is_shown_gives_the_moments(self):
        done = planner("draw", ROVER, "9", "--json", "--show-calls", "--delay", "12")
        _, answer = repeated(done.err)
        self.assertEqual(json.loads(done.out)["moments"], {line.split()[1]: int(line.split()[2]) for line in answer.splitlines()[1:]})


class Words(Case):
    def refused(self, status, wanted, *words, given=""):
        done = planner("draw", *words, given=given)
        self.assertEqual((done.status, done.out), (status, ""))
        self.assertIn(wanted, done.err)

    def test_wrong_words_are_told(self):
        self.refused(Status.WORDS, "was 'longest' meant?", ROVER, "longst")
        self.refused(Status.WORDS, "is no day", ROVER, str(daily.LARGEST_NUMBER + 1))
        self.refused(Status.WORDS, "is no time of day", ROVER, "--clock", "24:00")
        self.refused(Status.WORDS, "is no moment", ROVER, "--from", "8:00")
        self.refused(Status.WORDS, "leave out DAY", ROVER, "longest", "--played", "-")
        self.refused(Status.WRITE, "no such file", ROVER, "--svg", "nowhere/picture.svg")

    def test_a_plan_without_days_is_told(self):
        self.refused(Status.NOT_KEPT, "cannot be kept", EXAMPLES / "rover" / "variant.stnu")
        self.refused(Status.NOT_KEPT, "cannot be kept", ROVER, "--delay", "16", "--random")
        self.refused(Status.PLAN, "plan.stnu:3: 'poinnt'", self.write("plan.stnu", "stnu 1\npoint a\npoinnt b\nend\n"))

    def test_what_was_played_is_drawn(self):
        asked = program()
        played = [asked.call(["play", which], load(str(ROVER))).lines for which in ("shortest", "longest")]
        text = "".join(f"{line}\n" for lines in played for line in lines)
        drawn = planner("draw", ROVER, "--played", "-", "--json", given=text)
        wanted = planner("draw", ROVER, "shortest", "longest", "--json")
        self.assertEqual([json.loads(it)["moments"] for it in drawn.lines], [json.loads(it)["moments"] for it in wanted.lines])
        self.refused(Status.PLAN, "begins with 'not controllable'", ROVER, "--played", "-", given="not controllable\n")
        self.refused(Status.WORDS, "other points", LABORATORY, "--played", "-", given=text)
        self.refused(Status.PLAN, "nothing was played", ROVER, "--played", "-")

    def test_words_may_stand_in_any_order(self):
        wanted = planner("draw", ROVER, "longest", "shortest", "--width", "90")
        self.assertEqual(planner("draw", ROVER, "--width", "90", "longest", "shortest"), wanted)


class Charts(Case):
    def marks(self, text, which="longest", delay=None):
        """The marks of a plan on a day, by name."""
        plan = plan_of(self.write("plan.stnu", text), delay)
        return {row.name: row.marks[0] for row in rows_of(plan, [daily.played(program(), plan, which, "plan.stnu")])}

    def test_links_and_chosen_durations_are_bars(self):
        marks = self.marks(AIRPORT)
        bars = {name: (mark.shape, mark.moment - mark.begin) for name, mark in marks.items() if mark.shape is not Shape.POINT}
        self.assertEqual(bars, {"off-board": (Shape.LINK, 14), "board": (Shape.CHOSEN, 10), "boarded": (Shape.LINK, 25)})

    def test_completions_are_seen_late(self):
        for delay in (None, 0, 2):
            marks = self.marks(AIRPORT, delay=delay)
            late = {name: mark.seen - mark.moment for name, mark in marks.items()}
            self.assertEqual(late, dict.fromkeys(marks, 0) | dict.fromkeys(("off-board", "boarded"), 3 if delay is None else delay))

    def test_limits_of_the_day_and_others(self):
        marks = self.marks(AIRPORT)
        limits = {name: [(it.moment, it.bound, it.is_latest, it.is_of_day) for it in mark.limits] for name, mark in marks.items()}
        self.assertEqual(limits["off-block"], [(115, "slot.min", False, True), (140, "slot.max", True, True)])
        self.assertEqual(limits["on-block"], [(20, "lands.min", False, True), (60, "lands.max", True, True)])
        self.assertEqual(limits["board"], [(marks["call"].moment + 25, "calling.max", True, False)])
        self.assertEqual((limits["day"], limits["boarded"]), ([], []))

    def test_a_limit_before_an_appointment_is_one_of_the_day(self):
        marks = self.marks((EXAMPLES / "spacecraft" / "plan.stnu").read_text())
        self.assertEqual([(it.moment, it.bound) for it in marks["dumped"].limits], [(88, "in-time")])

    def test_the_strictest_limit_of_each_kind_is_drawn(self):
        marks = self.marks(
            "stnu 2\npoint day\npoint train\nbetween leaves day 20 20 train\npoint a\nlink day 3 6 a\npoint b\n"
            "bound late day b 40\nbound sooner train b 15\nbound after-day b day -8\nbound after-train b train 4\n"
            "bound loose a b 35\nbound tight a b 30\nend\n"
        )
        limits = [(it.moment, it.bound, it.is_latest, it.is_of_day) for it in marks["b"].limits]
        self.assertEqual(limits, [(16, "after-train", False, True), (35, "sooner", True, True), (36, "tight", True, False)])

    def test_no_limit_is_passed(self):
        for path in (*sorted(EXAMPLES.glob("*/plan.stnu")), LARGE):
            plan = plan_of(path)
            for row in rows_of(plan, [daily.played(program(), plan, "longest", path)]):
                for limit in row.marks[0].limits:
                    passed = row.marks[0].moment - limit.moment
                    self.assertTrue(passed <= 0 if limit.is_latest else passed >= 0, (path, row.name, limit))

    def test_a_near_limit_lengthens_the_picture_and_a_far_one_does_not(self):
        for most, last in ((150, 150), (1000, 120)):
            text = f"stnu 2\npoint a\npoint b\nlink a 60 120 b\nbound whole a b {most}\nend\n"
            plan = plan_of(self.write("plan.stnu", text))
            day = daily.played(program(), plan, "longest", "plan.stnu")
            self.assertEqual(chart_of(plan, [day], "", Numbers()).window, Window(0, last))

    def test_a_plan_without_points_has_a_picture(self):
        for words in ([], ["--svg", "-"], ["--html", "-"]):
            self.assertEqual(planner("draw", EXAMPLES / "small" / "empty.stnu", *words).status, Status.KEPT)


class Scales(unittest.TestCase):
    def test_times_of_day(self):
        minutes, seconds = Clock.of("7:30"), Clock.of("23:59:30")
        self.assertEqual([minutes.text(it) for it in (0, 30, 390, 990, 2430)], ["7:30", "8:00", "14:00", "0:00+1", "0:00+2"])
        self.assertEqual([seconds.text(it) for it in (0, 29, 30)], ["23:59:30", "23:59:59", "0:00:00+1"])
        self.assertEqual([minutes.read(it) for it in ("8:00", "7:29", "45")], [30, 1439, 45])
        self.assertEqual(seconds.read("0:00"), 30)
        for word in ("7", "7:60", "24:00", "7:3", "-7:30", "7:30:"):
            self.assertRaises(Fault, Clock.of, word)

    def test_marks_of_the_axis(self):
        window = Window(0, 500)
        self.assertEqual(list(window.ticks(Numbers(), 7)), [0, 100, 200, 300, 400, 500])
        self.assertEqual(list(window.ticks(Clock.of("7:30"), 5)), [30, 150, 270, 390])
        self.assertEqual(list(window.ticks(Numbers(), 5, step=60)), list(range(0, 501, 60)))
        self.assertEqual(list(Window(0, 0).ticks(Numbers(), 5)), [0])

    def test_marks_of_an_axis_are_no_more_than_asked_for_and_on_even_times(self):
        for scale in (Numbers(), Clock.of("5:17"), Clock.of("5:17:23")):
            for last in (1, 7, 59, 1000, 86_400, 10**9):
                for most in (1, 2, 5, 12):
                    ticks = Window(3, 3 + last).ticks(scale, most)
                    self.assertLessEqual(len(ticks), most + 1)
                    if len(ticks) > 2:
                        self.assertGreaterEqual(ticks.step * (most + 1), last)


class Pictures(Case):
    def elements(self, *words):
        done = planner("draw", self.write("plan.stnu", AIRPORT), *words, "--svg", "-")
        self.assertEqual(done.status, Status.KEPT)
        return ElementTree.fromstring(done.out), done.out

    def test_what_is_in_a_picture(self):
        root, _ = self.elements("shortest", "longest", "--title", "Gate <B> & C", "--clock", "6:00")
        texts = [it.text for it in root.iter(f"{SVG}text")]
        self.assertIn("Gate <B> & C", texts)
        self.assertIn("by 8:20", texts)
        told = [it.text for it in root.iter(f"{SVG}title")]
        self.assertEqual(sum(it.startswith("boarded: ") and "seen at" in it for it in told), 2)
        self.assertEqual(sum(it.startswith("board: ") for it in told), 2)
        self.assertEqual(sum("by the bound slot.max" in it for it in told), 2)

    def test_all_is_within_the_picture(self):
        root, _ = self.elements("shortest", "longest", "7", "--clock", "6:00")
        width, height = int(root.get("width")), int(root.get("height"))
        for it in root.iter(f"{SVG}text"):
            left, size = int(it.get("x")), 8 * len(it.text)
            begin = {"start": left, "middle": left - size // 2, "end": left - size}[it.get("text-anchor")]
            self.assertTrue(0 <= begin and begin + size <= width and int(it.get("y")) <= height, it.text)

    def test_rows_of_a_terminal(self):
        points = "".join(f"point {name}\n" for name in "abcd")
        plan = self.write("plan.stnu", f"stnu 2\n{points}between w a 10 30 b\nlink b 3 5 c\nbetween e c 4 8 d\nend\n")
        lines = planner("draw", plan, "--width", "36", "--delay", "2").lines
        self.assertEqual(
            lines[:6],
            [
                "     0         10        20       30",
                "     |---------|---------|---------|",
                "a  0 o",
                "b 10          |o                   |",
                "c 15           [====]~~",
                "d 19                (---)   :",
            ],
        )
        self.assertEqual([line[:5].strip() for line in lines[6:]], ["[==]", "~~", "(--)", "o", "|", ":"])
        part = planner("draw", plan, "--width", "36", "--from", "12", "--to", "18").lines
        self.assertEqual([line.split()[0] for line in part[2:4]], ["c", "d"])
        self.assertTrue(part[2].endswith("]") and "<" in part[2] and part[3].endswith(">"), part)

    def test_a_part_of_a_day(self):
        done = planner("draw", self.write("plan.stnu", AIRPORT), "--clock", "6:00", "--from", "7:00", "--to", "7:20")
        names = [line.split()[0] for line in done.lines[2:] if not line.startswith(("[", "~", "(", "o ", "|", ":"))]
        self.assertEqual(names, ["boarded"])

    def test_a_page_stands_alone(self):
        done = planner("draw", self.write("plan.stnu", AIRPORT + "\n"), "longest", "--title", "<script>", "--html", "-")
        found = Tags()
        found.feed(done.out)
        self.assertEqual(found.open, [])
        self.assertNotIn("script", found.seen)
        self.assertFalse({"link", "img", "iframe"} & found.seen)
        self.assertIn("prefers-color-scheme: dark", done.out)
        # On a narrow screen its letters stay legible: it is not made much smaller, and can be moved.
        wide, least = (int(re.search(pattern, done.out).group(1)) for pattern in (r'<svg [^>]*width="(\d+)"', r"min-width: (\d+)px"))
        self.assertTrue(0.6 * wide < least < wide)
        self.assertIn("bound doors off-block boarded -4", done.out)
        self.assertIn("stnu play longest", done.out)

    def test_a_picture_and_a_page_at_once(self):
        done = planner("draw", ROVER, "--svg", "a.svg", "--html", "a.html")
        self.assertEqual((done.status, done.out, done.err), (Status.KEPT, "", ""))
        self.assertTrue((self.folder / "a.svg").read_text() in (self.folder / "a.html").read_text())


class Tags(HTMLParser):
    """The tags of a page, and those that are open."""

    ALONE = {"meta", "rect", "circle", "path"}

    def __init__(self):
        super().__init__()
        self.open, self.seen = [], set()

    def handle_starttag(self, tag, attrs):
        self.seen.add(tag)
        if tag not in self.ALONE:
            self.open.append(tag)

    def handle_startendtag(self, tag, attrs):
        self.seen.add(tag)

    def handle_endtag(self, tag):
        if tag not in self.ALONE:
            assert self.open.pop() == tag, tag
