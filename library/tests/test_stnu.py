"""What the Python module says of the library."""

import pathlib
import re
import threading
import unittest

import stnu
from stnu.faults import MEANINGS

ROOT = pathlib.Path(__file__).resolve().parents[2]
ROVER = ROOT / "examples" / "rover"
PLAN = "stnu 1\npoint A\npoint C\npoint D\nbound b1 D C 4\nlink A 3 8 C\nend\n"
BROKEN = "stnu 1\npoint A\npoint C\npoint D\nbound b1 D C 1\nbound b2 C D -1\nlink A 3 8 C\nend\n"


def large_plan():
    """A chain of a hundred points, which is held to a length that it cannot keep."""
    lines = ["stnu 1", *(f"point p{i}" for i in range(100))]
    lines += [f"bound most{i} p{i} p{i + 1} 10\nbound least{i} p{i + 1} p{i} -5" for i in range(99)]
    return "\n".join([*lines, "bound whole p0 p99 494", "end\n"])


class Runs(unittest.TestCase):
    def test_a_run_answers_whole_lines(self):
        with stnu.Run("run") as run:
            self.assertEqual(run.feed(PLAN[:-3]), stnu.Answer(stnu.Status.RUNNING, ""))
            self.assertEqual(run.feed(PLAN[-3:] + "at"), stnu.Answer(stnu.Status.RUNNING, "controllable\ndue 0\n"))
            self.assertEqual(run.feed(b" 0\n").text, "act 0 A\ndue 4\n")
            self.assertEqual(run.end(), stnu.Answer(stnu.Status.FORMAT, "error format 9 no-end\n"))
            self.assertEqual(run.feed("at 4\n"), stnu.Answer(stnu.Status.FORMAT, ""))

    def test_a_closed_run_says_so(self):
        run = stnu.Run("check")
        run.close()
        run.close()
        for call in (lambda: run.feed(PLAN), run.end, run.stop):
            self.assertRaises(stnu.Closed, call)

    def test_one_thread_at_a_time(self):
        refused = []
        with stnu.Run("session") as run:
            run.feed(large_plan())

            def ask():
                for _ in range(5):
                    try:
                        run.feed("set bound whole 494\nverdict\n")
                    except stnu.Closed:
                        refused.append(1)

            threads = [threading.Thread(target=ask) for _ in range(4)]
            for thread in threads:
                thread.start()
            for thread in threads:
                thread.join()
            self.assertLess(len(refused), 20)
            self.assertEqual(run.feed("verdict\n").text, "not controllable\n")

    def test_words_are_tried(self):
        self.assertEqual(stnu.run(["chek"]), stnu.Answer(stnu.Status.WORDS, "error words\n"))
        self.assertRaises(ValueError, stnu.Run, "check\0")
        self.assertRaises(stnu.WordsRefused, stnu.check, PLAN, workers=99)

    def test_runs_side_by_side(self):
        found = [None] * 16

        def work(place):
            with stnu.Execution(PLAN) as day:
                day.at(0)
                found[place] = [bool(stnu.check(PLAN if place % 2 else BROKEN)), day.at(3 + place % 5, "C")]

        threads = [threading.Thread(target=work, args=[place]) for place in range(16)]
        for thread in threads:
            thread.start()
        for thread in threads:
            thread.join()
        for place, (is_kept, acts) in enumerate(found):
            self.assertEqual(is_kept, bool(place % 2))
            self.assertEqual(acts, [stnu.Act(min(4, 3 + place % 5), "D")])

    def test_how_it_was_made(self):
        self.assertRegex(stnu.made(), r"^(proved|checked), .+, sources [0-9a-f]{16}$")
        self.assertEqual(stnu.version(), stnu.__version__)
        told = (ROOT / "library" / "rust" / "Cargo.toml").read_text(encoding="utf-8")
        self.assertIn(f'version = "{stnu.version()}.0"', told)


class Plans(unittest.TestCase):
    def test_a_plan_is_read_and_printed_as_the_program_does(self):
        for path in sorted((ROOT / "examples").glob("*/*.stnu")):
            if path.parent.name != "large":
                with self.subTest(path=path):
                    plan = stnu.Plan.read(path)
                    self.assertEqual(str(plan), stnu.run(["show"], path.read_bytes()).text)
                    self.assertEqual(stnu.Plan.parse(str(plan)), plan)

    def test_a_document_and_a_text_are_the_same_plan(self):
        self.assertEqual(stnu.Plan.read(ROVER / "plan.json"), stnu.Plan.read(ROVER / "plan.stnu"))
        self.assertTrue(stnu.check((ROVER / "plan.json").read_text(encoding="utf-8")))

    def test_a_plan_is_built(self):
        soon = stnu.between("soon", "arrive", 0, 15, "images")
        plan = stnu.Plan(["leave", "arrive", "images"], soon, [stnu.Link("leave", 40, 90, "arrive")], delay=12)
        self.assertTrue(stnu.check(plan))
        self.assertEqual(stnu.Plan.parse(str(plan)), plan)
        self.assertFalse(stnu.check(plan.with_bound("soon.max", 11)))
        self.assertTrue(stnu.check(plan.with_bound("soon.max", 3).with_link("arrive", 90, 90)))
        self.assertRaises(KeyError, plan.with_bound, "late", 3)
        self.assertRaises(KeyError, plan.with_link, "leave", 3, 4)

    def test_no_line_is_slipped_in(self):
        for name in ("A\nend", "A B", "", " A", "A\r"):
            self.assertRaises(ValueError, str, stnu.Plan([name]))
        self.assertRaises(TypeError, str, stnu.Plan(["A"], [stnu.Bound("b", "A", "A", 1.5)]))
        with stnu.Execution(PLAN) as day:
            self.assertRaises(ValueError, day.at, 0, "C\ndone")
            self.assertRaises(TypeError, day.at, "0")
            self.assertEqual(day.at(0), [stnu.Act(0, "A")])


class Questions(unittest.TestCase):
    def test_check_why_and_judge(self):
        proof = stnu.check(PLAN, proof=True)
        self.assertTrue(proof.controllable)
        self.assertEqual(stnu.judge(PLAN, proof.certificate), stnu.Judgement(True, "controllable"))
        self.assertIsNone(stnu.why(PLAN))
        why = stnu.why(BROKEN)
        self.assertEqual((why.bounds, why.links), (("b1", "b2"), ("C",)))
        self.assertEqual(stnu.judge(BROKEN, why).claim, "not controllable")
        refused = stnu.judge(PLAN, why)
        self.assertEqual((bool(refused), refused.line, refused.word), (False, 1, "too-low"))
        self.assertTrue(refused.meaning)
        self.assertEqual(str(why), "the bounds b1, b2 and the links that end in C cannot be kept together")
        self.assertTrue(stnu.judge(BROKEN + "what stands after the plan\n", why))

    def test_delays_workers_and_engines(self):
        rover = ROVER / "plan.stnu"
        self.assertTrue(stnu.check(rover, delay=12, workers=3))
        self.assertFalse(stnu.check(rover, delay=16))
        self.assertTrue(stnu.check(rover, engine="cells"))
        why = stnu.why(rover, delay=16)
        self.assertTrue(stnu.judge(rover, why, delay=16))
        self.assertFalse(stnu.judge(rover, why))

    def test_deadlines(self):
        found = stnu.deadline(ROVER / "plan.stnu", "sunrise", "images")
        self.assertEqual((found.moments, found.is_free), (150, False))
        goal = stnu.Bound("goal", "sunrise", "images", 150)
        plan = stnu.Plan.read(ROVER / "plan.stnu")
        kept = stnu.Plan(plan.points, [*plan.bounds, goal], plan.links)
        self.assertTrue(stnu.judge(kept, found.proof))
        self.assertEqual(stnu.judge(kept.with_bound("goal", 149), found.refutation).claim, "not controllable")
        self.assertTrue(stnu.deadline("stnu 1\npoint A\npoint B\nend\n", "A", "B").is_free)
        late = stnu.Plan("ABC", [stnu.Bound("b", "B", "A", -1_000_000_000), stnu.Bound("c", "C", "B", -1)])
        found = stnu.deadline(late, "A", "C")
        self.assertEqual((found.moments, found.is_free, found.proof), (None, False, ""))
        with self.assertRaises(stnu.NotControllable) as raised:
            stnu.deadline(BROKEN, "A", "D")
        self.assertTrue(stnu.judge(BROKEN, raised.exception.certificate))
        self.assertRaises(stnu.InputFault, stnu.deadline, PLAN, "A", "Q")

    def test_play_and_strong(self):
        self.assertEqual(stnu.play(PLAN, "shortest"), {"A": 0, "C": 3, "D": 3})
        self.assertEqual(stnu.play(PLAN, 5), stnu.play(PLAN))
        self.assertRaises(stnu.NotControllable, stnu.play, BROKEN)
        self.assertEqual(stnu.strong(PLAN), ({"A": 0, "D": 4}, ""))
        moments, certificate = stnu.strong(ROVER / "plan.stnu")
        self.assertIsNone(moments)
        self.assertEqual(stnu.judge(ROVER / "plan.stnu", certificate, strong=True).claim, "not strongly controllable")


class Faults(unittest.TestCase):
    def fault(self, call, *given, **how):
        with self.assertRaises(stnu.Fault) as raised:
            call(*given, **how)
        return raised.exception

    def test_a_line_at_fault(self):
        fault = self.fault(stnu.check, PLAN.replace("bound b1 D C 4", "bound b1 D X 4"))
        self.assertIsInstance(fault, stnu.InputFault)
        self.assertEqual((fault.kind, fault.line, fault.word), ("plan", 5, "unknown-name"))
        self.assertEqual(fault.source, "bound b1 D X 4")
        self.assertIn(fault.meaning, str(fault))
        fault = self.fault(stnu.Plan.parse, "stnu 1\npoint A")
        self.assertEqual((fault.kind, fault.line, fault.word, fault.source), ("format", 3, "no-end", None))

    def test_a_document_at_fault(self):
        fault = self.fault(stnu.check, '{"stnu": 1, "points": ["A", "B!"]}')
        self.assertEqual((fault.kind, fault.word, fault.details), ("json", "bad-name", ("points", "2")))
        fault = self.fault(stnu.check, '{"stnu": 2, "points": [], "delay": 1000001}')
        self.assertIsInstance(fault, stnu.LimitPassed)
        self.assertEqual((fault.word, fault.details), ("number", ("top", "0")))

    def test_a_limit(self):
        fault = self.fault(stnu.check, PLAN.replace("D C 4", "D C 4000000000"))
        self.assertIsInstance(fault, stnu.LimitPassed)
        self.assertEqual((fault.line, fault.word, fault.source), (5, "number", "bound b1 D C 4000000000"))

    def test_an_event(self):
        with stnu.Execution(PLAN) as day:
            day.at(0)
            fault = self.fault(day.at, 9, "C")
            self.assertIsInstance(fault, stnu.EventRefused)
            self.assertEqual((fault.line, fault.word, fault.name, fault.moment), (9, "overdue", "C", 8))
            self.assertEqual(fault.source, "at 9 C")
            self.assertRaises(stnu.Closed, day.at, 10)

    def test_each_word_of_the_page_has_a_meaning(self):
        page = (ROOT / "docs" / "ANSWERS.md").read_text(encoding="utf-8")
        faults = page[page.index("## Faults of the input") :].partition("For a script")[0]
        events = page[page.index("## Refusals of an event") :].partition("\n## ")[0]
        told = {word for line in re.findall(r"^- (`.*?):", faults + events, re.M) for word in re.findall(r"`([a-z-]+)", line)}
        self.assertGreater(len(told), 25)
        self.assertEqual(told - MEANINGS.keys(), set())


class Executions(unittest.TestCase):
    def test_the_rovers_day(self):
        with stnu.Execution(ROVER / "plan.stnu") as day:
            self.assertEqual((day.due, day.at(0), day.due), (0, [stnu.Act(0, "sunrise")], 60))
            day.at(90)
            self.assertEqual(day.at(128, "arrive"), [stnu.Act(128, "images")])
            self.assertEqual((day.due, day.is_over), (240, False))
            self.assertEqual(day.done(), [stnu.Act(240, "relay")])
            self.assertEqual((day.due, day.is_over), (None, True))
            self.assertRaises(stnu.Closed, day.at, 300)

    def test_a_plan_that_cannot_be_kept(self):
        with self.assertRaises(stnu.NotControllable) as raised:
            stnu.Execution(BROKEN)
        self.assertTrue(stnu.judge(BROKEN, raised.exception.certificate))

    def test_what_stands_after_the_plan_is_no_event(self):
        with stnu.Execution(PLAN + "at 0\nat 3 C\n") as day:
            self.assertEqual(day.at(0), [stnu.Act(0, "A")])
        with self.assertRaises(stnu.InputFault):
            stnu.Execution("stnu 1\npoint A\n").done()

    def test_feeders_and_delays(self):
        with stnu.Execution(ROVER / "plan.stnu", delay=12, feeders=2) as day:
            day.at(0)
            day.at(90)
            self.assertEqual(day.at(140, "arrive"), [stnu.Act(140, "images")])


class Sessions(unittest.TestCase):
    def test_edits_and_questions(self):
        with stnu.Session(ROVER / "plan.stnu") as session:
            self.assertIsNone(session.report())
            session.set_bound("still-warm", 50)
            self.assertFalse(session.verdict())
            self.assertIsNone(session.table())
            self.assertEqual(stnu.judge(session.plan(), session.proof()).claim, "not controllable")
            self.assertRaises(stnu.NotControllable, session.go)
            session.set_bound("warm", -15)
            self.assertEqual(session.report(), stnu.Report(25, 11, 2))
            self.assertIn(stnu.After("leave", "sunrise", 60), session.table())
            self.assertEqual(session.plan(), stnu.Plan.read(ROVER / "plan.stnu").with_bound("still-warm", 50).with_bound("warm", -15))
            day = session.go()
            self.assertEqual((day.due, day.at(0)), (0, [stnu.Act(0, "sunrise")]))

    def test_each_edit(self):
        with stnu.Session(PLAN) as session:
            session.add_point("E")
            session.add_point("F")
            session.add_link("E", 1, 2, "F")
            session.set_link("F", 2, 3)
            session.add_bound("b2", "E", "F", 3)
            session.drop_bound("b1")
            wanted = stnu.Plan("ACDEF", [stnu.Bound("b2", "E", "F", 3)], [stnu.Link("A", 3, 8, "C"), stnu.Link("E", 2, 3, "F")])
            self.assertEqual(session.plan(), wanted)
            session.drop_link("F")
            session.drop_bound("b2")
            session.drop_point("F")
            self.assertEqual(session.plan().points, ("A", "C", "D", "E"))
            session.end()
            self.assertEqual(session.status, stnu.Status.YES)

    def test_a_refused_edit_changes_nothing(self):
        with stnu.Session(PLAN) as session:
            with self.assertRaises(stnu.EditRefused) as raised:
                session.drop_point("C")
            self.assertEqual((raised.exception.word, raised.exception.details), ("still-used", ("bound", "b1")))
            self.assertRaises(stnu.EditRefused, session.add_point, "A")
            self.assertRaises(ValueError, session.add_point, "A B")
            self.assertEqual(session.plan(), stnu.Plan.parse(PLAN))

    def test_a_session_is_stopped_by_another_thread(self):
        session = stnu.Session(large_plan())

        def decide():
            while True:
                session.set_bound("whole", 494)
                session.verdict()

        thread = threading.Timer(0.1, session.stop)
        thread.start()
        self.assertRaises(stnu.Stopped, decide)
        thread.join()
        session.close()


class Fleets(unittest.TestCase):
    def test_each_plan_is_executed_alone(self):
        twice = PLAN.replace("point D", "point A")
        with stnu.Fleet({"van": PLAN, "rover": ROVER / "plan.json", "bus": BROKEN, "lorry": twice}) as fleet:
            self.assertEqual(fleet.due, {"van": 0, "rover": 0})
            self.assertEqual(fleet.why_not, {"bus": "not controllable", "lorry": "refused plan 3 duplicate-name"})
            self.assertEqual(fleet.at("van", 0), [stnu.Act(0, "A")])
            with self.assertRaises(stnu.EventRefused) as raised:
                fleet.at("van", 2, "C")
            self.assertEqual((raised.exception.word, raised.exception.source), ("too-soon", "at 2 C"))
            self.assertNotIn("van", fleet.due)
            self.assertRaises(stnu.EventRefused, fleet.at, "van", 3)
            self.assertRaises(stnu.EventRefused, fleet.done, "bus")
            self.assertRaises(KeyError, fleet.at, "tram", 3)
            fleet.at("rover", 0)
            fleet.at("rover", 128, "arrive")
            self.assertEqual(fleet.done("rover"), [stnu.Act(240, "relay")])
            self.assertEqual(fleet.why_not["rover"], "complete")
            fleet.end()
            self.assertEqual(fleet.status, stnu.Status.YES)


if __name__ == "__main__":
    unittest.main()
