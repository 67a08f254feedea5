"""The faults of plans and the slips in them: what is told of each, and that the first fault is the one that the program finds."""

import json
import random
import subprocess
import sys

from planner.faults import Status
from planner.plan import STANDARD_INPUT, source_of
from planner.tests.support import EXAMPLES, ROOT, Case, planner, program

ROVER = (EXAMPLES / "rover" / "plan.stnu").read_text()
DOCUMENT = (EXAMPLES / "rover" / "plan.json").read_text()

# A slip in the rover's plan: what stands there, what stands in its place, and pieces of what is told of it.
SLIPS = [
    ("point leave", "poinnt leave", ["'poinnt'", "was 'point' meant?", "wanted: point NAME"]),
    ("point leave", "Point leave", ["'Point'", "was 'point' meant?"]),
    ("end\n", "END\n", ["'END'", "was 'end' meant?"]),
    ("# The sun", "// The sun", ["'//'", "a remark begins with #"]),
    ("bound warm images warm-up -20", "between warm warm-up 20 30 images", ["'between'", "write 'stnu 2' in the first line"]),
    ("stnu 1\n", "stnu 2\npoint dawn\ndelay 5\n", ["'delay'", "right after the line 'stnu 2'"]),
    ("end\n", "", ["the text ends without a line 'end'"]),
    ("stnu 1\n", "", ["the plan begins with a line 'stnu 1' or 'stnu 2'"]),
    ("stnu 1", "stnu 3", ["the first line is 'stnu 1' or 'stnu 2'"]),
    ("# A day", "\ufeffstnu 1\n# A day", ["byte order mark"]),
    ("images 60", "images 8:30", ["'8:30'", "a time of day is no number"]),
    ("images 60", "images 12.5", ["'12.5'", "no whole number"]),
    ("images 60", "images 12,5", ["'12,5'", "no whole number"]),
    ("images 60", "images 05", ["'05'", "without a 0 in front: 5"]),
    ("images 60", "images +15", ["'+15'", "without '+'", "15"]),
    ("warm-up -20", "warm-up \u221220", ["'\u221220'", "not the minus of the keyboard"]),
    ("images 60", "images 1000000001", ["'1000000001'", "choose a coarser unit of time"]),
    ("leave 40 90 arrive", "leave 90 40 arrive", ["'90 40'", "exchange the two numbers"]),
    ("leave 40 90 arrive", "leave 0 90 arrive", ["'0 90'", "at least 1"]),
    ("leave 40 90 arrive", "leave 40 90 leave", ["'leave'", "a link from a point to itself"]),
    ("warm-up -20", "warmup -20", ["'warmup'", "the nearest is 'warm-up' (line 9)"]),
    ("point relay\n", "", ["'relay'", "no point of this name is declared"]),
    ("point leave\n", "bound early sunrise leave 9\npoint leave\n", ["'leave'", "declared below, on line 8"]),
    ("images 60", "images 60 # an hour", ["'#'", "a remark stands on a line of its own"]),
    ("images 60", "images 60 # fixed", ["'#'", "on a line of its own: '# fixed' stands on a line above the one that it holds"]),
    ("images 60", "images 60 #fixed", ["'#fixed'", "'# fixed' stands on a line above the one that it holds"]),
    ("bound warm images", "bound images", ["4 words wanted after 'bound', and 3 stand there: has it a name?"]),
    ("images 60", "images 60 70", ["4 words wanted after 'bound', and 5 stand there"]),
    ("bound still-warm", "bound warm", ["'warm'", "a bound of this name stands on line 20"]),
    ("point relay", "point leave", ["'leave'", "a point of this name stands on line 7"]),
    ("point relay", "point the relay", ["1 word wanted after 'point', and 2 stand there"]),
    ("point relay", "point größe", ["'größe'", "letters of ASCII"]),
    ("point relay", "point 2relay", ["'2relay'", "begins with a letter"]),
    ("point relay", "point " + "r" * 33, ["a name of 33 characters; at most 32"]),
    ("90 arrive\n", "90 arrive\nlink sunrise 1 2 arrive\n", ["'arrive'", "a link ends in this point already, on line 17"]),
]

# The same of what the program takes.
WARNINGS = [
    ("end\n", "end\nbound more images arrive 3\n", ["'bound more images arrive 3'", "stands after the line 'end' and is not read"]),
    ("point relay\n", "point relay\npoint spare\n", ["'spare'", "nothing binds this point"]),
    ("point relay\n", "point relay\npoint spare\nlink relay 1 2 spare\n", ["'spare'", "nothing waits for the end of this link"]),
    ("warm-up -20", "warm-up 20", ["'warm'", "was 'at least 20 before' meant, -20?"]),
    ("relay images -30", "relay images 30", ["'ready'", "was 'at least 30 before' meant, -30?"]),
    ("arrive images 15", "images arrive 15", ["'before-shadow'", "are FROM and TO exchanged?"]),
    ("leave sunrise -60", "sunrise leave -60", ["'charged'", "from which others are counted: are FROM and TO exchanged?"]),
    ("relay sunrise -240", "sunrise relay -240", ["'relay-not-sooner'", "it comes after: are FROM and TO exchanged?"]),
    ("relay images -30", "relay relay 3", ["'ready'", "a bound from a point to itself: this says nothing"]),
    ("stnu 1\n", "stnu 1\n# fixed warmth\n", ["'warmth'", "holds a bound or a link that the plan does not have"]),
]


class Slips(Case):
    def test_each_slip_is_told_with_its_word_and_line(self):
        for old, new, pieces in SLIPS:
            with self.subTest(new):
                self.assertIn(old, ROVER)
                text = ROVER.replace(old, new, 1)
                done = planner("lint", given=text)
                told = done.lines[0]
                said = program().call(["show"], source_of(text, STANDARD_INPUT))
                self.assertEqual(done.status, said.status)
                for piece in pieces:
                    self.assertIn(piece, told)
                self.assertTrue(told.startswith(f"standard input:{said.first.split()[2]}: "), told)

    def test_each_slip_that_is_taken_is_warned_of(self):
        self.assertEqual(planner("lint", given=ROVER).out, "standard input: 0 faults, 0 warnings; the program takes this plan\n")
        for old, new, pieces in WARNINGS:
            with self.subTest(new):
                done = planner("lint", given=ROVER.replace(old, new, 1))
                self.assertEqual(done.status, Status.KEPT)
                told = [line for line in done.lines if all(piece in line for piece in ["warning", *pieces])]
                self.assertEqual(len(told), 1, done.out)

    def test_low_above_high(self):
        text = ROVER.replace("stnu 1", "stnu 2").replace("bound relay-comes sunrise relay 240", "between pass sunrise 250 240 relay")
        done = planner("lint", given=text)
        self.assertIn("'250 240': LOW is above HIGH, so this cannot be kept", done.out)

    def test_faults_after_the_first_are_told_too(self):
        text = ROVER.replace("point leave", "poinnt leave").replace("images 60", "images 8:30").replace("warm-up -20", "warmup -20")
        done = planner("lint", given=text)
        self.assertEqual([line.split(":")[1] for line in done.lines[:-1]], ["7", "20", "21"])
        self.assertIn("3 faults, 0 warnings; the program says: error format 7 unknown-word", done.lines[-1])

    def test_other_commands_tell_the_faults_of_a_plan(self):
        text = ROVER.replace("link leave", "link lave")
        for command in (["check"], ["why"], ["repair"], ["fixed"], ["deadline", "sunrise", "images"], ["deadline", "-", "--bound", "warm"]):
            with self.subTest(command):
                done = planner(*command, given=text)
                self.assertEqual((done.status, done.out), (Status.PLAN, ""))
                self.assertIn("planner: the program says: error plan 17 unknown-name\n", done.err)
                self.assertIn("standard input:17: 'lave': no point of this name is declared; the nearest is 'leave' (line 7)", done.err)

    def test_of_a_file_that_is_no_plan_other_commands_tell_the_first_faults(self):
        page = self.write("page.md", "".join(f"- what stands on line {number}\n" for number in range(1, 31)))
        done = planner("check", page)
        self.assertEqual((done.status, done.out, done.err.count("\n")), (Status.PLAN, "", 12))
        wanted = f"{page}:1: '-': the plan begins with a line 'stnu 1' or 'stnu 2'; wanted: stnu 2"
        self.assertEqual(done.err.splitlines()[:2], ["planner: the program says: error format 1 no-header", wanted])
        self.assertTrue(done.err.endswith(f"and 21 more, which 'planner lint {page}' tells\n"))
        self.assertEqual(len(planner("lint", page).lines), 32)

    def test_text_after_the_end_is_told_by_other_commands(self):
        done = planner("check", given=ROVER + "bound more images arrive 3\n")
        self.assertEqual((done.status, done.out), (Status.KEPT, "the plan can be kept\n"))
        self.assertIn("standard input:32: warning: 'bound more images arrive 3'", done.err)

    def test_warnings_of_one_kind_are_not_told_without_end(self):
        spare = "".join(f"point spare{number}\n" for number in range(45))
        self.write("plan.stnu", ROVER.replace("point relay\n", f"point relay\n{spare}"))
        done = planner("lint", "plan.stnu")
        self.assertEqual(len(done.lines), 7)
        self.assertIn("plan.stnu: 40 more warnings of this kind (unbound), the next on line 17; --json lists all", done.lines)
        everything = json.loads(planner("lint", "--json", "plan.stnu").out)
        self.assertEqual(len(everything["findings"]), 45)

    def test_right_bounds_are_not_warned_of_where_the_later_point_is_declared_first(self):
        # A countdown to the first point; a train, known by the clock, that is declared above the meeting before it.
        countdown = "point takeoff\npoint fuelled\npoint boarded\nbound fuel takeoff fuelled -60\nbound seats takeoff boarded -20\n"
        countdown += "bound fuel-soon fuelled takeoff 90\nbound seats-soon boarded takeoff 40\n"
        train = "point day\npoint train\npoint meeting\nbound t1 day train 300\nbound t2 train day -300\n"
        train += "bound m1 meeting day -180\nbound near meeting train 120\n"
        for lines in (countdown, train):
            self.assertEqual(planner("lint", given=f"stnu 1\n{lines}end\n").lines[:-1], [])
        for path in (EXAMPLES / "large").glob("*.stnu"):
            self.assertIn("0 warnings", planner("lint", path).lines[-1])

    def test_a_fault_keeps_no_warning_back_that_it_does_not_cause(self):
        text = ROVER.replace("leave 40 90 arrive", "leave 40 90 arive").replace("relay sunrise -240", "sunrise relay -240")
        done = planner("lint", given=text + "bound more images arrive 3\n")
        self.assertEqual(done.status, Status.PLAN)
        self.assertIn("'arive': no point of this name", done.out)
        self.assertIn("warning: 'relay-not-sooner': this says that relay comes at least 240 before sunrise", done.out)
        self.assertIn("stands after the line 'end'", done.out)
        self.assertIn("1 fault, 2 warnings; the program says: error plan 17 unknown-name", done.lines[-1])


class Documents(Case):
    """The same of JSON documents."""

    def test_slips(self):
        slips = [
            ('"stnu": 2', '"stnu": 3', "the member 'stnu' is 1 or 2"),
            ('"stnu": 2', '"stnu": 2, "comment": "x"', "'comment': a plan has no such member"),
            ('"delay": 0', '"dely": 0', "a plan has no such member; was 'delay' meant?"),
            ('"stnu": 2', '"stnu": 1', "the member 'delay' is of version 2"),
            ('"most": 60', '"most": 60.0', "the member 'most' is a whole number"),
            ('"most": 60', '"most": "60"', "the member 'most' is a whole number"),
            ('"most": 60,', "", "the member 'most' is missing"),
            ('"low": 40', '"low": 0', "at least 1"),
            ('"to": "arrive"', '"to": "arive"', "the nearest is 'arrive'"),
            ('"points": [', '"points": [ "9",', "'9': a number in the place of a name"),
            ('"points": [', '"points": [', None),
            ('"points": [', '"points": ', "no JSON text"),
        ]
        for old, new, piece in slips:
            with self.subTest(new):
                self.assertIn(old, DOCUMENT)
                done = planner("lint", given=DOCUMENT.replace(old, new, 1))
                if piece is None:
                    self.assertEqual(done.status, Status.KEPT)
                else:
                    self.assertEqual(done.status, Status.PLAN)
                    self.assertIn(piece, done.lines[0])

    def test_they_are_told_in_the_words_of_a_document(self):
        plan = json.loads(DOCUMENT)
        early = {"name": "early", "from": "sunrise", "low": 30, "high": 20, "to": "leave"}
        back = {"name": "back", "from": "sunrise", "to": "relay", "most": -5}
        spoiled = {**plan, "bounds": [*plan["bounds"], back], "between": [early]}
        spoiled["links"] = [{**plan["links"][0], "low": 0, "from": "lave"}]
        done = planner("lint", given=json.dumps(spoiled, indent=1) + "\nend\nmore\n")
        self.assertIn("'low' is above 'high', so this cannot be kept", done.out)
        self.assertIn("are 'from' and 'to' exchanged?", done.out)
        self.assertRegex(done.out, r"'lave': no point of this name .* \(line \d+\); wanted: an object with from, low, high, to\n")
        self.assertIn("'more': this stands after the line 'end' and is not read", done.out)
        self.assertNotRegex(done.out, "FROM|HIGH|wanted: (bound|link|between)")
        done = planner("lint", given=DOCUMENT.replace('"points": [', '"points": [ "9",'))
        self.assertIn("'9': a number in the place of a name: are members exchanged?", done.out)

    def test_a_finding_as_a_value(self):
        done = planner("lint", "--json", given=DOCUMENT.replace('"low": 40', '"low": 0'))
        value = json.loads(done.out)
        self.assertEqual(value["program"], "error plan 15 bad-interval")
        self.assertEqual([(it["line"], it["kind"], it["word"]) for it in value["findings"]], [(54, "fault", "0 90")])


class Agreement(Case):
    def test_the_first_fault_is_the_one_of_the_program(self):
        """Some hundred spoiled plans; tools/compare lint draws as many as one likes."""
        seed = str(random.Random(7).randrange(1000))
        words = [sys.executable, ROOT / "tools" / "compare", "lint", program().path, "150", seed]
        done = subprocess.run(words, stdout=subprocess.PIPE, text=True, check=False, cwd=ROOT)
        self.assertEqual(done.returncode, 0, done.stdout[-3000:])
        self.assertIn("300 plans, of which 0 differ", done.stdout)

