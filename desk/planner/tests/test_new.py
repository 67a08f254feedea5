"""Plans to begin with: each can be kept, and lint finds nothing in it."""

import json

from planner.commands.new import kinds
from planner.faults import Status
from planner.parts import Kind
from planner.plan import Plan, document_source, load
from planner.tests.support import Case, planner, program

WANTED = {"vehicle", "shift", "laboratory", "spacecraft", "theatre", "airport"}
# A plan to begin with fits on a page or two.
LONGEST = 60


def shown(source):
    """What the program reads: the parts of a plan, of which a document has the bounds in an order of its own."""
    answer = program().call(["show", "--print-json"], source)
    plan = json.loads("\n".join(answer.lines[:-1]))
    return plan | {"bounds": sorted(plan["bounds"], key=lambda it: it["name"]), "stnu": 2}


class New(Case):
    def test_there_is_one_for_each_kind_of_day(self):
        done = planner("new")
        self.assertLessEqual(WANTED, {line.split()[0] for line in done.lines})
        self.assertEqual([line.split()[0] for line in done.lines], list(kinds()))
        self.assertEqual([json.loads(line)["kind"] for line in planner("new", "--json").lines], list(kinds()))

    def test_each_can_be_kept_and_has_no_fault_and_no_slip(self):
        for kind in kinds():
            with self.subTest(kind):
                self.assertEqual(planner("new", kind, "--output", f"{kind}.stnu").status, Status.KEPT)
                self.assertEqual(planner("check", f"{kind}.stnu").lines, ["the plan can be kept"])
                self.assertIn("0 faults, 0 warnings", planner("lint", f"{kind}.stnu").lines[-1])

    def test_each_has_what_such_plans_are_about(self):
        for kind, path in kinds().items():
            with self.subTest(kind):
                plan = Plan.of(load(str(path)))
                self.assertTrue(plan.links and plan.bounds and plan.held and not plan.unknown_held)
                self.assertLess(path.read_text().count("\n"), LONGEST)

    def test_one_number_that_nature_may_worsen_breaks_each(self):
        """None of them can be kept whatever nature does, so that a change of its numbers is felt."""
        for kind, path in kinds().items():
            plan = Plan.of(load(str(path)))
            spans = {end: (link.low, link.high * 4) for end, link in plan.links.items()}
            self.assertEqual(planner("check", given=plan.with_numbers(spans=spans).text).status, Status.NOT_KEPT, kind)

    def test_a_document_is_the_same_plan(self):
        for kind, path in kinds().items():
            document, plan = json.loads(planner("new", kind, "--json").out), Plan.of(load(str(path)))
            self.assertEqual((document["points"], len(document["links"])), (list(plan.points), len(plan.links)))
            self.assertEqual(planner("check", given=json.dumps(document)).lines, ["the plan can be kept"])
            self.assertEqual("between" in document, any(it.kind == Kind.BETWEEN for it in plan.statements))
            self.assertEqual(shown(document_source(json.dumps(document), None)), shown(load(str(path))))

    def test_a_file_of_a_document_has_one(self):
        self.assertEqual(planner("new", "theatre", "--output", "plan.json").status, Status.KEPT)
        self.assertEqual((self.folder / "plan.json").read_text(), planner("new", "theatre", "--json").out)

    def test_no_file_is_written_over(self):
        mine = self.write("mine.stnu", "my plan\n")
        done = planner("new", "theatre", "--output", mine)
        self.assertEqual((done.status, mine.read_text()), (Status.WORDS, "my plan\n"))
        self.assertIn("is there already", done.err)

    def test_a_kind_that_is_none_names_the_nearest(self):
        self.assertIn("was 'theatre' meant?", planner("new", "theater").err)
        self.assertIn("the kinds are airport, ", planner("new", "zzz").err)
        self.assertEqual(planner("new", "--output", "x.stnu").status, Status.WORDS)
