"""Editing at a terminal and by lines: what is understood, what is said, and what is written."""

import json

from planner.faults import Status
from planner.plan import load
from planner.tests.children import Terminal, quickly
from planner.tests.support import EXAMPLES, Case, program

PLAN = """\
# A ward. Moments are minutes.
stnu 2
point begin
point cut
point closed
# The operation.
link cut   60 90   closed
between  early begin 0 30 cut   
bound shift begin closed 140
end
"""


class Edits(Case):
    def setUp(self):
        super().setUp()
        self.plan = self.write("ward.stnu", PLAN)

    def edit(self, *lines, words=()):
        return quickly("edit", "ward.stnu", *words, given="".join(f"{line}\n" for line in lines))

    def written(self):
        return (self.folder / "ward.edited.stnu").read_text()

    def test_only_numbers_change_where_only_numbers_are_set(self):
        done = self.edit("set bound shift 120", "set between early 5 20", "set link closed 50 70", "verdict")
        self.assertEqual((done.status, done.lines), (0, ["ok", "ok", "ok", "the plan can be kept"]))
        wanted = PLAN.replace("140", "120").replace("0 30 cut   ", "5 20 cut   ").replace("60 90 ", "50 70 ")
        self.assertEqual(self.written(), wanted)
        self.assertEqual(self.plan.read_text(), PLAN)

    def test_what_is_added_stands_before_the_end_and_a_half_of_a_between_may_go(self):
        added = ["add point rest", "add between pause closed 10 20 rest"]
        done = self.edit(*added, "drop bound early.min", "drop bound shift", "add bound b rest cut -5")
        self.assertEqual((done.status, done.lines), (0, ["ok"] * 5))
        lines = self.written().split("\n")
        self.assertEqual(lines[7], "bound early.max begin cut 30")
        self.assertEqual(lines[8:], ["point rest", "between pause closed 10 20 rest", "bound b rest cut -5", "end", ""])

    def test_one_half_of_a_between_is_set_and_it_is_dropped_and_added_as_one(self):
        anew = ["drop between early", "add between early begin 1 2 cut"]
        done = self.edit("set bound early.min -7", "set bound early.max 25", "plan", *anew)
        self.assertIn("between  early begin 7 25 cut   ", done.lines)
        self.assertIn("between early begin 1 2 cut\nend\n", self.written())

    def test_half_of_an_edit_that_is_refused_changes_nothing(self):
        given = ["add bound late.min cut begin 5", "add between late begin 0 30 cut", "set between early 1 2000000000", "plan"]
        done = self.edit(*given)
        self.assertEqual((done.status, done.lines[0]), (Status.EVENT, "ok"))
        self.assertEqual(done.lines[1:], PLAN.removesuffix("end\n").split("\n")[:-1] + ["bound late.min cut begin 5", "end"])

    def test_a_bound_that_is_a_between_is_told_so(self):
        done = self.edit("set bound early 40")
        self.assertIn("set bound early.max 40 is its HIGH, set between early .. both", done.err)

    def test_slips_are_told_in_one_line_each(self):
        slips = {
            "set between shift 0 90": "shift is a bound, and no line between: set bound shift MOST",
            "set bound shift.max 90": "shift is a bound, and no line between: set bound shift MOST",
            "drop between shift": "shift is a bound, and no line between: drop bound shift",
            "set bound shfit 5": "the plan has no 'shfit'; was 'shift' meant?",
            "add bound x begin cu 5": "the plan has no 'cu'; was 'cut' meant?",
            "add bound x begin cut": "3 words stand after 'add bound'; wanted: add bound NAME FROM TO MOST",
            "set bound shift 9:30": "a time of day is no number",
            "add point cut": "the plan has a point cut already",
            "drop point cut": "the bound early.max names it: drop that first",
            "set link closed 90 60": "LOW of a link is at least 1 and at most HIGH",
            "set shift 5": "wanted: set bound, set between, set link",
            "set delay 5x": "'5x': no whole number in the place of N; wanted: set delay N",
            "set delay 1000001": "wanted: set delay N, of at most 1,000,000",
            "drop link begin": "no link ends in 'begin'",
            "set link cut 5 9": "no link ends in 'cut'; a link goes by the point in which it ends: 'closed' from 'cut'",
            "set bound shift": "1 word stands after 'set bound'; wanted: set bound NAME MOST",
            "undo": "there is no edit to take back",
        }
        for line, wanted in slips.items():
            with self.subTest(line):
                done = self.edit(line, "verdict")
                self.assertEqual((done.status, done.lines, done.err.count("\n")), (Status.EVENT, ["the plan can be kept"], 1))
                self.assertIn(wanted, done.err)

    def test_a_slip_that_is_mended_makes_no_status(self):
        mended = [
            ("verdcit", "verdict"),
            ("verdict now", "verdict"),
            ("set bound shfit 50", "verdict", "set bound shift 50"),
            ("set bound early 20", "set bound early.max 20"),
            ("set shift 50", "set bound shift 50"),
            ("set bound shift 5x", "set bound shift 50"),
            ("set link closed 70 60", "set link closed 60 70"),
            ("add bound x begin cut", "add bound x begin cut 5"),
            ("set bound shift 50", "set bound early.mx 5", "undo", "set bound early.max 5"),
            ("drop point cut", "add point other", "drop link closed", "drop between early", "drop point cut"),
        ]
        lost = [
            ("set bound shfit 50", "set bound early.max 50"),
            ("verdcit", "plan"),
        ]
        for number, lines in enumerate([*mended, *lost]):
            with self.subTest(lines):
                done = self.edit(*lines, words=["--lines", f"{number}.edits", "--out", f"{number}.stnu"])
                status = 0 if lines in mended else Status.EVENT
                self.assertEqual((done.status, done.err.count("is not taken")), (status, 1), done.err)
                self.assertNotRegex(done.err, r"error \w+ \d+")

    def test_nothing_is_reported_of_the_delay(self):
        done = self.edit("set bound shift 120", "report", "set delay 3", "report", "set bound shift 130", "report")
        self.assertRegex(done.lines[1], r"^report \d+ \d+ \d+$")
        self.assertEqual(done.lines[3], "nothing to report: 'set delay' has begun the session anew, so that all is derived again")
        self.assertRegex(done.lines[5], r"^report \d+ \d+ \d+$")
        # So too when the lines are played again.
        self.assertIn("nothing to report", self.edit("undo", "report").lines[-1])

    def test_the_delay_is_set_with_edits_before_and_after_it(self):
        self.write("rover.stnu", (EXAMPLES / "rover" / "plan.stnu").read_text())
        given = ["set bound still-warm 59", "set delay 12", "verdict", "set delay 16", "set bound warm -19", "verdict"]
        done = quickly("edit", "rover.stnu", given="\n".join([*given, "undo", "undo", "verdict"]))
        kept, not_kept = "the plan can be kept", "the plan cannot be kept: 'proof' says why"
        taken = ["taken back: set bound warm -19", "taken back: set delay 16"]
        self.assertEqual(done.lines, ["ok", "ok", kept, "ok", "ok", not_kept, *taken, kept])
        wanted = (EXAMPLES / "rover" / "plan.stnu").read_text().replace("stnu 1\n", "stnu 2\ndelay 12\n")
        wanted = wanted.replace("warm-up images 60", "warm-up images 59")
        self.assertEqual((self.folder / "rover.edited.stnu").read_text(), wanted)

    def test_capitals_are_understood(self):
        done = self.edit("Verdict", "SET Bound shift 50", "VERDICT")
        self.assertEqual(done.lines, ["the plan can be kept", "ok", "the plan cannot be kept: 'proof' says why"])

    def test_undo_takes_back_the_last_edit_and_is_kept(self):
        done = self.edit("set bound shift 50", "set bound shift 40", "undo", "plan")
        self.assertEqual(done.lines[2], "taken back: set bound shift 40")
        self.assertIn("bound shift begin closed 50", done.lines)
        self.assertIn("bound shift begin closed 50\n", self.written())
        self.assertIn("bound shift begin closed 140", self.edit("undo", "plan").lines)

    def test_an_edit_that_is_refused_after_the_plan_was_changed_is_told(self):
        self.edit("set bound shift 50", "set between early 0 20")
        self.plan.write_text(PLAN.replace("shift", "duty"))
        done = self.edit("verdict")
        self.assertEqual((done.status, done.out), (Status.WORDS, ""))
        self.assertIn("is not as it was when the lines of ward.edits were told: --plan-changed", done.err)
        done = self.edit("verdict", words=["--plan-changed"])
        self.assertEqual((done.status, done.lines), (Status.EVENT, ["the plan can be kept"]))
        self.assertIn("'set bound shift 50' is refused now, and is not in the plan: the program says: refused unknown-name", done.err)
        self.assertIn("between  early begin 0 20 cut", self.written())

    def test_the_plan_is_never_written(self):
        for words in (["--lines", "ward.stnu"], ["--out", "ward.stnu"], ["--out", "./link.stnu"]):
            (self.folder / "link.stnu").unlink(missing_ok=True)
            (self.folder / "link.stnu").symlink_to("ward.stnu")
            with self.subTest(words):
                done = self.edit("set bound shift 50", words=words)
                self.assertNotEqual(done.status, 0)
                self.assertIn("the plan itself, which is never written", done.err)
                self.assertEqual(self.plan.read_text(), PLAN)

    def test_a_file_that_somebody_changed_is_left_alone(self):
        self.edit("set bound shift 50")
        self.write("ward.edited.stnu", "mine\n")
        done = self.edit("set bound shift 40")
        self.assertEqual((done.status, self.written()), (Status.WRITE, "mine\n"))
        self.assertIn("was not written by planner as it stands, and is left alone", done.err)
        done = self.edit("set bound shift 150", "write ward.edited.stnu", "go")
        for line, how in (("write ward.edited.stnu", ""), ("go", " by --out")):
            why = "ward.edited.stnu was not written by planner as it stands, and is left alone: name another file"
            self.assertIn(f"'{line}' is not taken: {why}{how}\n", done.err)
        self.assertEqual(self.edit("write other.stnu").status, Status.WRITE)
        self.assertIn("closed 150", (self.folder / "other.stnu").read_text())

    def test_a_document_stays_one_with_its_between(self):
        document = (EXAMPLES / "shift" / "late.json").read_text()
        self.write("late.json", document)
        edits = ["set between first-visit 0 99", "add between more begin 0 300 report", "add bound b begin report 200", "set delay 2"]
        done = quickly("edit", "late.json", given="\n".join([*edits, "drop bound more.min", "write other.stnu"]))
        self.assertEqual((done.status, done.lines), (0, ["ok"] * 5))
        found, wanted = json.loads((self.folder / "late.edited.json").read_text()), json.loads(document)
        wanted["between"][0] |= {"low": 0, "high": 99}
        added = [{"name": name, "from": "begin", "to": "report", "most": most} for name, most in (("more.max", 300), ("b", 200))]
        wanted |= {"delay": 2, "bounds": [*wanted["bounds"], *added]}
        self.assertEqual(found, wanted)
        self.assertEqual(quickly("check", "late.edited.json").out, quickly("check", "other.stnu").out)
        self.assertIn("between first-visit begin 0 99 visit-1\n", (self.folder / "other.stnu").read_text())

    def test_the_day_that_it_begins_goes_by_the_clock(self):
        done = self.edit("go", "at 7:30", words=["--clock", "7:30"])
        self.assertEqual((done.status, done.lines[0]), (0, "next: at 7:30"))
        self.assertIn("closed may be seen from 8:30 until 9:00", done.lines[-1])
        self.assertEqual(self.edit("verdict", words=["--clock", "half"]).status, Status.WORDS)

    def test_a_document_goes_on_with_its_day(self):
        self.write("late.json", (EXAMPLES / "shift" / "late.json").read_text())
        done = quickly("edit", "late.json", given="go\nat 0\n")
        self.assertEqual((done.status, done.lines[0]), (0, "next: at 0"))
        self.assertTrue((self.folder / "late.edited.day").exists())

    def test_a_document_is_edited_as_a_text_with_its_between(self):
        document = (EXAMPLES / "shift" / "late.json").read_text()
        self.write("late.json", document)
        between = json.loads(document)["between"][0]
        done = quickly("edit", "late.json", "--out", "late.edited.stnu", given=f"set between {between['name']} 0 99\n")
        self.assertEqual(done.status, 0)
        text = (self.folder / "late.edited.stnu").read_text()
        self.assertIn(f"between {between['name']} {between['from']} 0 99 {between['to']}\n", text)
        self.assertIn("delay 3\n", text)

    def test_questions_are_answered_of_the_plan_as_it_stands(self):
        done = self.edit("set bound shift 110", "deadline begin closed", "play longest", "strong", "deadline begin clsed")
        self.assertIn("deadline begin closed 90", done.lines)
        self.assertIn("time closed 90", done.lines)
        self.assertIn("the program says: unknown-name; the plan has no 'clsed'; was 'closed' meant?", done.err)
        slips = {
            "play longst": "wanted: play shortest, play longest or play NUMBER; was 'longest' meant?",
            "deadline begin": "wanted: deadline FROM TO",
        }
        for line, wanted in slips.items():
            self.assertIn(wanted, self.edit(line).err)

    def test_the_calls_can_be_repeated(self):
        done = self.edit("set between early 5 20", "verdict", words=["--show-calls"])
        self.assertIn("printf '%s\\n' 'set bound early.max 20' 'set bound early.min -5' verdict", done.err)

    def test_a_json_line_answers_each_line(self):
        said = [json.loads(line) for line in self.edit("set bound shift 50", "verdcit", "verdict", words=["--json"]).lines]
        self.assertEqual([it["taken"] for it in said], [True, False, True])


class Texts(Case):
    def test_each_example_comes_back_as_the_program_reads_it(self):
        for path in [*EXAMPLES.glob("*/plan.stnu"), *EXAMPLES.glob("small/*.stnu")]:
            with self.subTest(path.parent.name):
                done = quickly("edit", path, "--lines", "e.edits", "--out", "o.stnu", given="add point more\nadd bound m more more 5\n")
                self.assertEqual(done.status, 0)
                wanted = path.read_text().rstrip("\n").removesuffix("end") + "point more\nbound m more more 5\nend\n"
                self.assertEqual((self.folder / "o.stnu").read_text(), wanted)
                for name in ("e.edits", "o.stnu"):
                    (self.folder / name).unlink()

    def test_drawn_edits_leave_the_text_that_the_session_has(self):
        # Whoever writes at the end sees that the program reads the text as the plan of its session.
        edits = ["add point p{}", "add bound b{} begin cut {}", "add between t{} begin 0 {} cut", "drop bound b{}", "set bound t{}.max {}"]
        edits += ["drop between t{}", "drop bound t{}.min", "set between t{} 3 {}", "undo", "set bound t{}.min -{}", "drop point p{}"]
        self.write("ward.stnu", PLAN)
        lines = [edits[number * 7 % len(edits)].format(number % 4, number % 30) for number in range(120)]
        done = quickly("edit", "ward.stnu", given="".join(f"{line}\n" for line in lines))
        self.assertGreater(done.lines.count("ok"), 30)
        self.assertIn("ward.edited.stnu is written", done.err)
        self.assertEqual(program().call(["show"], load("ward.edited.stnu")).status, 0)


    def test_a_plan_of_version_1_to_which_a_between_is_added_is_one_of_version_2(self):
        self.write("p.stnu", "# A remark.\n  stnu   1\npoint a\npoint b\nend\n")
        self.assertEqual(quickly("edit", "p.stnu", given="add between x a 1 2 b\n").status, 0)
        self.assertEqual((self.folder / "p.edited.stnu").read_text(), "# A remark.\n  stnu   2\npoint a\npoint b\nbetween x a 1 2 b\nend\n")


class AtATerminal(Case):
    def test_a_session_and_the_day_that_it_begins(self):
        self.write("ward.stnu", PLAN)
        with Terminal("edit", "ward.stnu") as terminal:
            terminal.until("> ")
            terminal.type("set bound shift 110", "ok\n> ")
            terminal.type("verdcit", "was 'verdict' meant?")
            terminal.type("go", "next: at 0")
            terminal.type("at 0", "closed may be seen from 60 until 90")
            self.assertEqual(terminal.leave(), 0)
        self.assertIn("at 0\n", (self.folder / "ward.edited.day").read_text())

    def test_a_plan_that_was_changed_is_asked_about(self):
        plan = self.write("ward.stnu", PLAN)
        quickly("edit", "ward.stnu", given="set bound shift 50\n")
        plan.write_text(PLAN + "# one remark more\n")
        plan.write_text(PLAN.replace("A ward", "The ward"))
        with Terminal("edit", "ward.stnu") as terminal:
            terminal.until("all the same? [y/N] ")
            terminal.type("y", "1 edit played again")
            terminal.type("verdict", "the plan cannot be kept")
            self.assertEqual(terminal.leave(), 0)
