"""Plans as data: numbers that change where they stand, and all else as it was."""

import json
import random
import subprocess

from planner.plan import Plan, load, source_of
from planner.tests.support import EXAMPLES, Case, program

TEXT = """\
# A day & its remarks / with \\ signs.
stnu 2
delay  3

  # fixed
point day
point\tdone
between  window day   5 30 done\t
# fixed late
bound late day done 40
bound\tsoon done day -2\r
point over
link done 1 4 over
end
"""


class Numbers(Case):
    def plan(self, text=TEXT, name="plan.stnu"):
        return Plan.of(load(str(self.write(name, text))))

    def test_what_a_plan_holds(self):
        plan = self.plan()
        self.assertEqual(list(plan.points), ["day", "done", "over"])
        it = plan.bounds["window.min"]
        self.assertEqual((it.start, it.end, it.most, it.line), ("done", "day", -5, 8))
        self.assertEqual((plan.delay, plan.held, plan.line("over")), (3, frozenset({"late"}), 13))

    def test_only_the_numbers_change(self):
        plan = self.plan()
        source = plan.with_numbers({"window.min": -7, "window.max": 31, "soon": 0}, {"over": (2, 5)})
        wanted = TEXT.replace("5 30", "7 31").replace("day -2", "day 0").replace("1 4", "2 5")
        self.assertEqual(source.text, wanted)
        self.assertIs(plan.with_numbers(), plan.source)

    def test_a_changed_plan_is_made_by_the_shell_too(self):
        document = (EXAMPLES / "shift" / "late.json").read_text()
        for name, text in (("plan.stnu", TEXT), ("later.stnu", TEXT + "# more\n"), ("it's.json", document)):
            plan = self.plan(text, name)
            bound, end = next(iter(plan.bounds)), next(iter(plan.links))
            for given in (plan.source, Plan.of(source_of(text, "-")).source):
                source = Plan.of(given).with_numbers({bound: 17}, {end: (3, 4)})
                made = subprocess.run(source.printed(), shell=True, stdout=subprocess.PIPE, check=True, cwd=self.folder)
                self.assertEqual(made.stdout.decode(), source.text)

    def test_a_document_keeps_its_form(self):
        text = (EXAMPLES / "rover" / "plan.json").read_text()
        plan = self.plan(text, "plan.json")
        source = plan.with_numbers({"warm": -19}, {"arrive": (41, 89)})
        value = json.loads(source.text.removesuffix("end\n"))
        link = value["links"][0]
        self.assertEqual((value["bounds"][1]["most"], link["low"], link["high"]), (-19, 41, 89))
        self.assertEqual(sum(one != two for one, two in zip(text.splitlines(), source.text.splitlines())), 3)

    def test_the_program_reads_what_was_changed(self):
        draw = random.Random(2)
        for path in (*EXAMPLES.glob("*/plan.stnu"), EXAMPLES / "rover" / "plan.json", EXAMPLES / "shift" / "late.json"):
            plan = Plan.of(load(str(path)))
            most = {name: draw.randint(-50, 50) for name in plan.bounds}
            spans = {end: (low := draw.randint(1, 9), low + 1) for end in plan.links}
            again = Plan.of(source_of("\n".join(program().call(["show"], plan.with_numbers(most, spans)).lines) + "\n", "-"))
            self.assertEqual({name: it.most for name, it in again.bounds.items()}, most)
            self.assertEqual({end: (it.low, it.high) for end, it in again.links.items()}, spans)
