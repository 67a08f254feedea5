"""What can be changed of a plan: the repairs that were found by hand, and what is never changed."""

import itertools
import json
import random
import re
import sys
import unittest

from planner.faults import Status
from planner.parts import LARGEST
from planner.plan import Plan, load
from planner.repair import OF_THE_PAST, hitting
from planner.tests.support import EXAMPLES, ROOT, Case, planner, program, repeated, shown_calls

sys.path.insert(0, str(ROOT / "tools"))
from inputs.random_plans import random_plan  # noqa: E402 (the path comes first)

PLANS = ROOT / "desk" / "planner" / "tests" / "plans"


def repairs(*words, given=""):
    """The repairs of a plan: of each its sort, and its changes as old and new numbers by name."""
    done = planner("repair", "--json", *words, given=given)
    found = [json.loads(line) for line in done.lines]
    return [(it["repair"], {change["name"]: (change["from"], change["to"]) for change in it["changes"]}) for it in found if it["repair"]]


def of_sort(sort, found):
    return [changes for kind, changes in found if kind == sort]


class ByHand(Case):
    """Days whose repair was found by hand: what is offered is that, and nothing that no planner can make."""

    def test_airport(self):
        found = repairs(PLANS / "airport.stnu")
        self.assertEqual(of_sort("bound", found), [{"slot.max": (60, 66)}])
        self.assertEqual(of_sort("set", found), [])

    def test_laboratory_after_a_slow_culture(self):
        found = repairs(PLANS / "laboratory-rest.stnu")
        self.assertEqual(of_sort("bound", found), [])
        self.assertEqual(of_sort("set", found), [{"gel-age": (360, 420), "cold.max": (150, 210)}])
        self.assertEqual(of_sort("link", found), [{"ripe": ([286, 420], [286, 360])}])

    def test_theatre_after_a_long_operation(self):
        found = repairs(PLANS / "theatre.stnu")
        self.assertEqual(of_sort("bound", found), [])
        self.assertEqual(of_sort("set", found)[0], {"child.max": (390, 442), "shift.max": (540, 542)})

    def test_nothing_of_the_past_is_offered(self):
        for plan in ("theatre", "laboratory-rest"):
            names = {name for _, changes in repairs(PLANS / f"{plan}.stnu") for name in changes}
            self.assertFalse([name for name in names if OF_THE_PAST.search(name)])
        self.assertFalse(OF_THE_PAST.search("cut.cameras") or OF_THE_PAST.search("came") or OF_THE_PAST.search("a.came.late"))
        for name in ("in-1.came", "in-1.came.min", "in-1.came.max", "in-1.came.2.min", "in-1.from-now", "in-1.from-now.1"):
            self.assertTrue(OF_THE_PAST.search(name), name)

    def test_theatre_where_the_operation_is_over_by_its_line(self):
        text = (PLANS / "theatre.stnu").read_text()
        for line, least in (("link cut-1 100 120 closed-1", 131), ("link cut-1 100 130 closed-1", 131)):
            done = planner("repair", given=re.sub("link cut-1 .*", line, text))
            self.assertEqual((done.status, done.out), (Status.PLAN, ""))
            self.assertIn(f"closed-1 began at 22, and by its line 37 it is over by {22 + int(line.split()[3])} at the latest", done.err)
            self.assertIn(f"--link closed-1 {least} HIGH", done.err)

    def test_laboratory_seen_too_late(self):
        text = (PLANS / "laboratory.stnu").read_text()
        self.assertEqual(planner("repair", given=text).out, "the plan can be kept\n")
        late = text.replace("between fresh ripe 20 40", "between fresh ripe 5 12")
        self.assertIn("  delay 15 -> 12  (standard input:3: delay 12)\n", planner("repair", given=late).out)
        found = repairs(given=late)
        self.assertEqual(of_sort("bound", found), [{"fresh.max": (12, 15)}])
        self.assertEqual(of_sort("delay", found), [{"delay": (15, 12)}])
        self.assertIn({"ripe": ([240, 360], [240, 247])}, of_sort("link", found))

    def test_examples(self):
        found = repairs(EXAMPLES / "spacecraft" / "variant.stnu")
        self.assertEqual(of_sort("bound", found), [{"not-alone": (10, 11)}, {"warmed-up": (-5, -4)}])
        found = repairs(EXAMPLES / "rover" / "plan.json", "--delay", 16)
        self.assertEqual(found[:2], [("bound", {"before-shadow": (15, 16)}), ("delay", {"delay": (16, 15)})])


class Held(Case):
    """What is held fast stays as it is."""

    def test_by_a_word_of_the_call(self):
        found = repairs(EXAMPLES / "rover" / "variant.stnu", "--fixed", "warm,arrive", "--fixed", "still-warm")
        self.assertEqual(found, [("bound", {"before-shadow": (15, 20)})])

    def test_by_a_remark_above_the_line_or_by_name(self):
        text = (EXAMPLES / "rover" / "variant.stnu").read_text()
        above = text.replace("bound warm ", "# fixed\nbound warm ").replace("link leave", "# fixed\n\n# A road.\nlink leave")
        self.assertEqual([set(changes) for _, changes in repairs(given=above)], [{"still-warm"}, {"before-shadow"}])
        named = text.replace("stnu 1", "stnu 1\n# fixed warm, arrive")
        self.assertEqual([set(changes) for _, changes in repairs(given=named)], [{"still-warm"}, {"before-shadow"}])

    def test_a_deadline_that_is_held(self):
        found = repairs(PLANS / "airport.stnu", "--fixed", "slot")
        self.assertEqual(of_sort("set", found), [{"opens.min": (-1, 0), "doors-board": (-3, 0), "patience.min": (-2, 0)}])

    def test_both_sides_of_a_line_between(self):
        text = (PLANS / "airport.stnu").read_text()
        self.assertEqual(of_sort("bound", repairs(given=text.replace("between slot", "# fixed\nbetween slot"))), [])
        self.assertEqual(of_sort("bound", repairs("--fixed", "slot", given=text)), [])
        self.assertEqual(of_sort("bound", repairs("--fixed", "slot.min", given=text)), [{"slot.max": (60, 66)}])

    def test_the_delay(self):
        text = (PLANS / "laboratory.stnu").read_text().replace("between fresh ripe 20 40", "between fresh ripe 5 12")
        for found in (repairs("--fixed", "delay", given=text), repairs(given=text.replace("delay 15", "# fixed\ndelay 15"))):
            self.assertEqual((of_sort("delay", found), len(of_sort("bound", found))), ([], 1))

    def test_a_name_that_is_none(self):
        done = planner("repair", PLANS / "airport.stnu", "--fixed", "slott")
        self.assertEqual((done.status, done.out), (Status.WORDS, ""))
        self.assertIn("was 'slot' meant?", done.err)
        done = planner("repair", EXAMPLES / "rover" / "variant.stnu", "--fixed", "leave")
        self.assertIn("no bound and no link 'leave'; a link goes by the point in which it ends: 'arrive' from 'leave'", done.err)

    def test_only_the_bounds_that_may_be_loosened_in_their_order(self):
        found = repairs(PLANS / "theatre.stnu", "--among", "out-1,child")
        self.assertEqual(found, [("set", {"out-1.min": (-10, -8), "child.max": (390, 440)})])
        found = repairs(PLANS / "theatre.stnu", "--among", "child.max", "--among", "out-1.min")
        self.assertEqual(found, [("set", {"child.max": (390, 432), "out-1.min": (-10, 0)})])

    def test_what_is_held_fast_in_a_second_refutation_is_told_too(self):
        bounds = "bound ab a b 5\nbound ba b a -10\nbound cd c d 3\nbound dc d c -8\n"
        text = f"stnu 1\npoint a\npoint b\npoint c\npoint d\n{bounds}end\n"
        for fixed, left in (("ab,cd", "ab (fixed), cd (fixed)"), ("ab,ba", "ab (fixed), ba (fixed)"), ("cd,dc", "cd (fixed), dc (fixed)")):
            with self.subTest(fixed):
                _, _, told = planner("repair", "--fixed", fixed, given=text).lines[-1].partition("that a refutation names: ")
                self.assertEqual(sorted(told.split(", ")), left.split(", "))

    def test_a_program_is_told_what_was_left_only_if_nothing_is_enough(self):
        told = [json.loads(line)["repair"] for line in planner("repair", "--json", PLANS / "airport.stnu").lines]
        self.assertEqual(told, ["bound", "link", "link", "link"])
        done = planner("repair", "--json", PLANS / "airport.stnu", "--fixed", "slot,patience,passengers-off,cleaned,boarded")
        self.assertEqual(json.loads(done.lines[-1])["left"]["slot.max"], "fixed")
        self.assertIsNone(json.loads(done.lines[-1])["repair"])

    def test_nothing_is_enough(self):
        done = planner("repair", PLANS / "airport.stnu", "--fixed", "slot,patience,passengers-off,cleaned,boarded")
        self.assertEqual(done.status, Status.NOT_KEPT)
        self.assertIn("nothing that may be changed is enough\n", done.out)
        self.assertIn("slot.max (fixed)", done.out)


class First(Case):
    def test_the_first_repair_alone(self):
        done = planner("repair", "--first", EXAMPLES / "rover" / "variant.stnu")
        self.assertEqual((done.status, len(done.lines)), (Status.NOT_KEPT, 3))
        done = planner("repair", "--first", EXAMPLES / "rover" / "plan.stnu")
        self.assertEqual((done.status, done.out), (Status.KEPT, "the plan can be kept\n"))


class Checked(Case):
    """Each repair is one by the program, and the least."""

    def test_the_call_of_each_repair_is_shown_and_gives_its_verdict(self):
        done = planner("repair", PLANS / "airport.stnu", "--show-calls")
        calls = shown_calls(done.err)
        self.assertEqual(len(calls), 1 + done.out.count(" -> "))
        self.assertEqual(repeated(calls[0])[0], 1)
        for call in calls[1:]:
            self.assertEqual(repeated(call), (0, "controllable\n"))

    def test_drawn_plans(self):
        draw, tried = random.Random(11), 0
        while tried < 15:
            text = "\n".join(random_plan(draw, 1)) + "\n"
            path = self.write("plan.stnu", text)
            source = load(str(path))
            if program().call(["check"], source).status != Status.NOT_KEPT:
                continue
            tried += 1
            self.try_plan(Plan.of(source), repairs(path))

    def try_plan(self, plan, found):
        for sort, changes in found:
            for name, (old, new) in changes.items():
                if sort in ("bound", "set"):
                    self.assertTrue(new > old and (old > 0 or new <= 0), (plan.source.text, name, old, new))
            self.assertTrue(self.is_kept(plan, sort, changes), (plan.source.text, changes))
            for name in changes:
                less = {**changes, name: self.less(sort, changes[name])}
                self.assertFalse(self.is_kept(plan, sort, less), (plan.source.text, changes, name))

    @staticmethod
    def less(sort, change):
        """A change that is less by one moment, on one side."""
        old, new = change
        if sort == "delay":
            return old, new + 1
        if sort != "link":
            return old, new - 1
        return old, [new[0], new[1] + 1] if new[1] < old[1] else [new[0] - 1, new[1]]

    @staticmethod
    def is_kept(plan, sort, changes):
        numbers = {name: new for name, (_, new) in changes.items()}
        match sort:
            case "delay":
                source = plan.with_numbers(delay=numbers["delay"])
            case "link":
                source = plan.with_numbers(spans=numbers)
            case _:
                source = plan.with_numbers(most=numbers)
        return program().call(["check"], source).is_kept

    def test_single_bounds_are_all_that_are_enough(self):
        """Of small plans each bound, as loose as it may be, is tried by check alone."""
        draw, tried = random.Random(5), 0
        while tried < 8:
            path = self.write("plan.stnu", "\n".join(random_plan(draw, 1)) + "\n")
            source = load(str(path))
            if program().call(["check"], source).status != Status.NOT_KEPT:
                continue
            tried += 1
            plan = Plan.of(source)
            bounds = [it for it in plan.bounds.values() if it.most]
            limits = {it.name: 0 if it.most < 0 else LARGEST for it in bounds}
            enough = {name for name in limits if program().call(["check"], plan.with_numbers({name: limits[name]})).is_kept}
            found = {name for changes in of_sort("bound", repairs(path)) for name in changes}
            self.assertEqual(found, enough, plan.source.text)


class Sets(unittest.TestCase):
    def test_hitting_sets_are_those_that_hit_all(self):
        draw = random.Random(3)
        for _ in range(200):
            names = "abcdef"
            conflicts = [frozenset(draw.sample(names, draw.randint(1, 3))) for _ in range(draw.randint(1, 4))]
            size = draw.randint(1, 3)
            found = set(hitting(conflicts, size, str))
            self.assertTrue(all(len(it) <= size and not any(it.isdisjoint(conflict) for conflict in conflicts) for it in found))
            for chosen in map(frozenset, itertools.combinations(names, size)):
                hits = not any(chosen.isdisjoint(conflict) for conflict in conflicts)
                self.assertEqual(hits, any(part <= chosen for part in found))
