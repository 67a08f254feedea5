"""Verdicts, refutations in sentences, deadlines, fixed schedules, and many plans at once."""

import json
import os
import random
import re
import subprocess
import sys
import unittest
from pathlib import Path

from planner.certificate import Numbers, Refutation
from planner.faults import Fault, Status
from planner.plan import Plan, limited, load
from planner.tests.children import run
from planner.tests.support import EXAMPLES, ROOT, Case, planner, program, repeated, shown_calls
from planner.why import Telling

sys.path.insert(0, str(ROOT / "tools"))
from inputs.random_plans import random_plan  # noqa: E402 (the path comes first)

CLAIM = re.compile(r"(\S+) must (?:come|be seen) (?:at (least|most) (\d+) after|no sooner than) (\S+?)(?: is seen)?[,:.]")
ROVER = EXAMPLES / "rover" / "plan.stnu"
VARIANT = EXAMPLES / "rover" / "variant.stnu"
ENDLESS = "/dev/zero has more than 50 characters, and is read no further"


def refuted_plans(case, count, seed):
    """Drawn plans that cannot be kept, each with its refutation."""
    draw = random.Random(seed)
    while count:
        path = case.write("plan.stnu", "\n".join(random_plan(draw, 1)) + "\n")
        source = load(str(path), draw.choice([None, None, 3]))
        answer = program().call(["check"], source)
        if answer.status == Status.NOT_KEPT:
            count -= 1
            plan = Plan.of(source)
            yield plan, Refutation(plan, answer.certificate())


class Check(Case):
    def test_verdicts_and_statuses(self):
        self.assertEqual((planner("check", ROVER).status, planner("check", ROVER).out), (Status.KEPT, "the plan can be kept\n"))
        self.assertEqual((planner("check", VARIANT).status, planner("check", VARIANT).out), (Status.NOT_KEPT, "the plan cannot be kept\n"))
        done = planner("check", "--json", given=ROVER.read_text())
        self.assertEqual(json.loads(done.out), {"plan": "-", "answer": "controllable", "certificate": None})

    def test_a_certificate_in_a_file_is_accepted(self):
        for plan, said in ((ROVER, "controllable"), (VARIANT, "not controllable"), (EXAMPLES / "rover" / "plan.json", "controllable")):
            planner("check", plan, "--proof", "certificate")
            source = load(str(plan))
            certificate = load("certificate")
            judged = program().call(["judge"], source, certificate)
            self.assertEqual(judged.lines, [f"accepted {said}"])

    def test_a_certificate_is_judged(self):
        for plan, status in ((ROVER, Status.KEPT), (VARIANT, Status.NOT_KEPT)):
            planner("check", plan, "--proof", "certificate")
            done = planner("check", plan, "--judge", "certificate")
            shown = "can" if status == Status.KEPT else "cannot"
            self.assertEqual((done.status, done.out), (status, f"the certificate shows that the plan {shown} be kept\n"))
            # With the verdict above it, as check prints it.
            answer = program().call(["check", "--proof"], load(str(plan)))
            self.write("answer", "\n".join(answer.lines) + "\n")
            done = planner("check", plan, "--judge", "answer", "--show-calls")
            self.assertEqual(done.status, status)
            self.assertEqual(repeated(done.err), (0, f"accepted {answer.first}\n"))

    def test_a_certificate_that_is_refused_is_told_with_its_line_and_the_reason(self):
        certificate = EXAMPLES / "spacecraft" / "mistaken.cert"
        done = planner("check", EXAMPLES / "spacecraft" / "plan.stnu", "--judge", certificate, "--show-calls")
        said, line = next((it, place) for place, it in enumerate(certificate.read_text().split("\n"), 1) if it.startswith("drop 5"))
        wanted = "the certificate shows nothing; the program says: refused 6 too-low 1 2"
        self.assertEqual((done.status, done.lines[0]), (Status.NOT_KEPT, wanted))
        self.assertIn(f"{certificate}:{line}: '{said}': it states 1, and its rule gives no less than 2", done.lines[1])
        self.assertEqual(repeated(done.err), (1, "refused 6 too-low 1 2\n"))
        value = json.loads(planner("check", ROVER, "--judge", EXAMPLES / "shift" / "refutation.cert", "--json").out)
        self.assertEqual(value["answer"], "refused 1 unknown-item")
        self.assertIn("is this a certificate of another plan", value["why"])

    def test_a_certificate_with_another_delay_says_which_delay_the_plan_has(self):
        for plan, made, read in ((ROVER, 12, 0), (ROVER, 0, 12), (ROVER, 16, 0)):
            planner("check", plan, "--proof", "certificate", "--delay", made)
            done = planner("check", plan, "--judge", "certificate", "--delay", read)
            self.assertEqual(done.status, Status.NOT_KEPT)
            self.assertIn(f"The plan is read here with a delay of {read}: was the certificate made with another?", done.out)

    def test_what_is_no_certificate_is_told_so(self):
        planner("check", VARIANT, "--proof", "certificate")
        strong = "\n".join(program().call(["strong"], load(str(ROVER))).lines[1:]) + "\n"
        others = {
            "": "there is no certificate in it",
            "controllable\n": "there is no certificate in it",
            "certificate 1\ntable\n": "it ends without a line 'end'",
            "nonsense\n": "none:1: 'nonsense': this is no line of a certificate",
            "certificate 1\nrefutation\n\nnonsense 3\nend\n": "none:4: 'nonsense 3': this is no line",
            ROVER.read_text(): "this is a plan, and no certificate: 'planner check PLAN --proof FILE' writes one",
            (EXAMPLES / "rover" / "plan.json").read_text(): "this is a plan, and no certificate",
            strong: "this is a strong certificate, which 'stnu judge --strong' judges",
        }
        for text, wanted in others.items():
            with self.subTest(text[:20]):
                self.write("none", text)
                done = planner("check", ROVER, "--judge", "none")
                self.assertEqual((done.status, done.out), (Status.PLAN, ""))
                self.assertIn(wanted, done.err)
        done = planner("check", "--judge", "-", given=ROVER.read_text())
        self.assertEqual((done.status, done.err.count("\n")), (Status.WORDS, 1))

    def test_no_file_that_is_read_is_written_over(self):
        """A plan in the place of the file for the certificate, or for a picture of it, stays what it is."""
        text = ROVER.read_text()
        plan = self.write("mine.stnu", text)
        (self.folder / "link.stnu").symlink_to(plan)
        for words in (["check", "--proof"], ["draw", "--svg"], ["draw", "--html"], ["draw", "--dot"]):
            for name in ("mine.stnu", "./link.stnu"):
                done = planner(*words, name, "mine.stnu")
                self.assertEqual((done.status, done.out, plan.read_text()), (Status.WORDS, "", text), words)
                self.assertIn(f"{name} is read by this call, and is never written: name another file", done.err)

    def test_no_other_plan_is_written_over(self):
        """As by a pattern of the shell that stands for two plans."""
        other = self.write("a.stnu", "my other plan")
        for words in (["check", "--proof"], ["draw", "--svg"], ["draw", "--html"], ["draw", "--dot"]):
            done = planner(*words, "a.stnu", ROVER)
            self.assertEqual((done.status, done.out, other.read_text()), (Status.WORDS, "", "my other plan"))
            self.assertIn("a.stnu is there, and is a plan by its name, which is never written over: name another file", done.err)

    def test_a_link_and_a_device_stay_what_they_are(self):
        aim, link = self.write("aim.cert", "old"), self.folder / "link.cert"
        link.symlink_to(aim)
        os.mkfifo("pipe")
        reader = subprocess.Popen(["cat", "pipe"], stdout=subprocess.PIPE, text=True)
        for path in (link, "pipe"):
            self.assertEqual(planner("check", VARIANT, "--proof", path).status, Status.NOT_KEPT)
        self.assertEqual(reader.communicate(timeout=60)[0], aim.read_text())
        self.assertEqual(run("check", VARIANT, "--proof", "/dev/stdout").stdout, f"{aim.read_text()}the plan cannot be kept\n")
        self.assertTrue(link.is_symlink() and Path("pipe").is_fifo() and aim.read_text().startswith("certificate 1\n"))

    def test_a_file_without_an_end_is_not_read_for_ever(self):
        with open("/dev/zero", encoding="utf-8") as endless, self.assertRaises(Fault) as refused:
            limited(endless, "/dev/zero", 50)
        self.assertEqual((refused.exception.status, str(refused.exception)), (Status.LIMIT, ENDLESS))

    def test_a_certificate_that_cannot_be_written(self):
        done = planner("check", ROVER, "--proof", "nowhere/certificate")
        self.assertEqual((done.status, done.err.count("\n")), (Status.WRITE, 1))


class Why(Case):
    def test_the_day_of_the_rover(self):
        done = planner("why", VARIANT)
        self.assertEqual(done.status, Status.NOT_KEPT)
        text = " ".join(done.out.split())
        for sentence in (
            "7 If arrive takes its longest, 90, warm-up must come at least 45 after leave, "
            "since images comes at most 45 after warm-up (still-warm), images comes no sooner than arrive (at-the-rock), "
            "and arrive may come as late as 90 after leave (link arrive).",
            "9 warm-up must come at most 35 after leave: arrive may come 40 after leave already, "
            "and arrive comes at least 5 after warm-up (line 8).",
            "10 If arrive takes its longest, 90, warm-up comes at least 45 after leave (line 7), "
            "but at most 35 after it (line 9): 10 are wanting.",
            "11 Nobody knows beforehand that arrive won't take 90, so no way of working avoids that clash (line 10).",
        ):
            self.assertIn(sentence, text)

    def test_what_is_wanting_is_tied_to_the_repair(self):
        """At the airport 1 is wanting by the refutation, and the slot must be 6 longer."""
        plan = Path(__file__).parent / "plans" / "airport.stnu"
        done = planner("why", plan)
        self.assertIn(": 1 is wanting.", done.out)
        self.assertIn("slot.max 60 -> 66", planner("repair", plan).out)
        self.assertIn(f"'planner repair {plan}' finds how far each number must go, be it more or less\n", done.err)

    def test_what_cannot_be_kept_together_is_told_by_the_lines_of_the_plan(self):
        """Of a line `between` also which of its two bounds is meant; of a document its item as such a line."""
        text = "stnu 2\npoint a\npoint b\nlink a 5 9 b\n# so\nbetween soon a 0 8 b\nend\n"
        item = {"name": "soon", "from": "a", "low": 0, "high": 8, "to": "b"}
        link = {"from": "a", "low": 5, "high": 9, "to": "b"}
        document = json.dumps({"stnu": 2, "points": ["a", "b"], "between": [item], "links": [link]})
        for given, line in ((text, 6), (document, 1)):
            self.assertIn(f"  standard input:{line}  between soon a 0 8 b  (soon.max)\n", planner("why", given=given).out)
        self.assertIn("(line 6: between soon a 0 8 b)", " ".join(planner("fixed", given=text).out.split()))

    def test_a_plan_that_can_be_kept_and_one_that_is_none(self):
        self.assertEqual((planner("why", ROVER).status, planner("why", ROVER).out), (Status.KEPT, "the plan can be kept\n"))
        self.assertEqual(planner("why", given="stnu 1\n").status, Status.PLAN)

    def test_the_refutation_is_judged_and_both_calls_can_be_repeated(self):
        done = planner("why", VARIANT, "--show-calls")
        self.assertEqual(repeated(done.err), (0, "accepted not controllable\n"))

    def test_drawn_refutations_are_told_whole(self):
        for plan, refutation in refuted_plans(self, 60, 3):
            sentences = Telling(refutation).sentences()
            told = {line for it in sentences for line in (it.line, *it.within)}
            # Bounds and links are told by their names where they are used.
            derived = {step.number for step in refutation.steps if step.premises}
            self.assertLessEqual(derived, told, plan.source.text)
            # Each sentence bears another line.
            self.assertEqual(len({it.line for it in sentences}), len(sentences), plan.source.text)
            text = " ".join(it.text for it in sentences)
            for name in (*refutation.bounds, *refutation.links):
                self.assertIn(name, text)
            for it in sentences:
                self.assert_claim(refutation, it)

    def test_the_sentence_of_a_walk_bears_the_line_of_the_walk(self):
        text = "stnu 1\npoint a\npoint b\npoint c\nbound ab a b 5\nbound bc b c 5\nbound late c a -11\nend\n"
        self.write("plan.stnu", text)
        certificate = ["certificate 1", "refutation", "bound ab a b 5", "bound bc b c 5", "bound late c a -11"]
        certificate += ["walk 1", "walk 2", "walk 3", "end"]
        plan = Plan.of(load("plan.stnu"))
        (sentence,) = Telling(Refutation(plan, certificate)).sentences()
        self.assertEqual((sentence.line, sentence.within), (6, (4, 5)))
        self.assertTrue(sentence.text.endswith("1 is wanting."))

    def assert_claim(self, refutation, sentence):
        """What a sentence says must be is what its line of the certificate states."""
        found = CLAIM.search(sentence.text)
        if found is None:
            self.assertRegex(sentence.text, r"wanting\.$|avoids that clash|^\S+ must (come|be seen) at most \d+ after itself")
            return
        self.assertLessEqual(sentence.line, len(refutation.steps), sentence.text)
        point, way, number, other = found.groups()
        step = refutation.step(sentence.line)
        said = (other, point, int(number)) if way == "most" else (point, other, -int(number or 0))
        self.assertEqual(said, (step.start, step.end, step.weight), sentence.text)


class Stands(Case):
    def test_a_refutation_stands_at_its_own_numbers_and_never_where_the_plan_can_be_kept(self):
        draw = random.Random(9)
        for plan, refutation in refuted_plans(self, 30, 5):
            numbers = Numbers.of(plan)
            weights = refutation.weights(numbers)[1:]
            self.assertTrue(all(least <= step.weight for least, step in zip(weights, refutation.steps)))
            self.assertTrue(refutation.stands(numbers))
            for _ in range(3):
                name = draw.choice(refutation.bounds) if refutation.bounds else None
                most = {name: numbers.most[name] + draw.randint(1, 12)} if name else {}
                delay = draw.choice([None, draw.randint(0, 6)])
                other = numbers.other(most, delay=delay)
                if refutation.stands(other):
                    self.assertEqual(program().call(["check"], plan.with_numbers(most, delay=delay)).status, Status.NOT_KEPT)


class Deadline(Case):
    def test_a_promise(self):
        done = planner("deadline", ROVER, "sunrise", "images")
        told = "images comes at most 150 after sunrise on every day (deadline sunrise images 150); less cannot be promised\n"
        self.assertEqual((done.status, done.out), (Status.KEPT, told))
        self.assertEqual(json.loads(planner("deadline", ROVER, "relay", "sunrise", "--json").out)["deadline"], -240)
        self.assertIn("sunrise comes at least 240 before relay", planner("deadline", "relay", "sunrise", given=ROVER.read_text()).out)

    def test_the_whole_answer(self):
        done = planner("deadline", ROVER, "sunrise", "images", "--certificate")
        self.assertEqual(done.lines, program().call(["deadline", "sunrise", "images"], load(str(ROVER))).lines)

    def test_with_another_delay(self):
        for delay in (0, 5, 15):
            done = planner("deadline", ROVER, "arrive", "images", "--delay", delay, "--json", "--show-calls")
            text = ROVER.read_text().replace("stnu 1", f"stnu 2\ndelay {delay}")
            wanted = program().call(["deadline", "arrive", "images"], load(str(self.write("late.stnu", text)))).lines[1]
            self.assertEqual(f"deadline arrive images {json.loads(done.out)['deadline']}", wanted)
            self.assertEqual(repeated(done.err)[1].splitlines()[1], wanted)
        self.assertEqual(planner("deadline", ROVER, "arrive", "images", "--delay", 16).out, "the plan cannot be kept\n")

    def test_a_point_that_is_none(self):
        done = planner("deadline", ROVER, "sunrise", "imges")
        self.assertEqual((done.status, done.out), (Status.WORDS, ""))
        self.assertIn("no point 'imges'; the nearest is 'images' (line 10)", done.err)

    def test_wrong_words(self):
        for words in ([], [ROVER], ["a", "b", "c", "d"], [ROVER, "sunrise", "images", "--seen"], [ROVER, "--seen", "--bound", "warm"]):
            self.assertEqual(planner("deadline", *words).status, Status.WORDS)

    def test_a_missing_point_is_told_as_such(self):
        self.write("plan.stnu", ROVER.read_text())
        for words in ([ROVER, "sunrise"], ["plan.stnu", "sunrise"], ["-", "sunrise"], ["not/there", "sunrise"], ["gone.json", "sunrise"]):
            done = planner("deadline", *words)
            self.assertEqual((done.status, done.out), (Status.WORDS, ""))
            self.assertIn(f"TO is missing: wanted are a plan, FROM and TO, and '{words[0]}' is the plan, 'sunrise' FROM", done.err)
        self.assertIn("FROM and TO are missing", planner("deadline", "plan.stnu").err)

    def test_the_least_number_of_each_bound(self):
        for folder in ("rover", "shift", "laboratory", "spacecraft"):
            plan = EXAMPLES / folder / "plan.stnu"
            wanted = (EXAMPLES / folder / "plan.desk").read_text().splitlines()
            for line in wanted:
                done = planner("deadline", plan, "--bound", line.split()[1])
                self.assertEqual(done.out.partition(" (")[0], line)

    def test_how_long_a_link_may_take(self):
        value = json.loads(planner("deadline", ROVER, "--link", "arrive", "--json").out)
        self.assertEqual((value["shortest"], value["longest"]), (35, 95))
        done = planner("deadline", VARIANT, "--link", "arrive", "--show-calls")
        self.assertEqual(done.out, "arrive may come up to 80 after leave (in the plan up to 90, line 17)\n")
        verdicts = [repeated(call)[0] for call in shown_calls(done.err)]
        self.assertEqual(verdicts, [0, 1])

    def test_how_late_completions_may_be_seen(self):
        done = planner("deadline", ROVER, "--seen", "--show-calls")
        self.assertEqual(done.out, "completions may be seen up to 15 late (in the plan 0)\n")
        self.assertEqual([repeated(call)[0] for call in shown_calls(done.err)], [0, 1])
        self.assertEqual(planner("deadline", VARIANT, "--seen").status, Status.NOT_KEPT)
        done = planner("deadline", "--seen", given="stnu 1\npoint a\npoint b\nlink a 1 2 b\nend\n")
        self.assertEqual(done.out, "completions may be seen up to 1000000 late, the greatest delay that a plan may have (in the plan 0)\n")

    def test_a_link_that_is_none_by_the_point_in_which_it_begins(self):
        done = planner("deadline", ROVER, "--link", "leave")
        self.assertEqual((done.status, done.out), (Status.WORDS, ""))
        self.assertIn("the plan has no link 'leave'; a link goes by the point in which it ends: 'arrive' from 'leave'\n", done.err)
        self.assertIn("no link 'arive'; was 'arrive' meant?", planner("deadline", ROVER, "--link", "arive").err)
        self.assertIn("no bound 'warmm'; was 'warm' meant?", planner("deadline", ROVER, "--bound", "warmm").err)


class Fixed(Case):
    def test_a_schedule(self):
        done = planner("fixed", EXAMPLES / "shift" / "plan.stnu")
        self.assertEqual(done.status, Status.KEPT)
        moments = [line.split() for line in done.lines[1:]]
        self.assertEqual(moments, [["0", "begin"], ["15", "visit-1"], ["70", "visit-2"], ["120", "report"]])
        done = planner("fixed", EXAMPLES / "shift" / "plan.stnu", "--clock", "22:30")
        self.assertEqual(done.lines[1:], ["   22:30  begin", "   22:45  visit-1", "   23:40  visit-2", "  0:30+1  report"])

    def test_none(self):
        done = planner("fixed", ROVER, "--show-calls")
        self.assertEqual(done.status, Status.NOT_KEPT)
        text = " ".join(done.out.split())
        self.assertIn("2 images comes at least 90 after leave: so at-the-rock wants it in the worst case", text)
        self.assertIn("35 are wanting", text)
        self.assertEqual(repeated(done.err), (0, "accepted not strongly controllable\n"))

    def test_a_ring_of_links(self):
        text = "stnu 1\npoint A\npoint B\nlink A 1 2 B\nlink B 1 2 A\nend\n"
        done = planner("fixed", given=text)
        self.assertEqual(done.status, Status.NOT_KEPT)
        self.assertIn("So each of these waits for another, and none comes.", done.out)


class Many(Case):
    def test_a_line_a_plan_and_the_worst_status(self):
        text = ROVER.read_text()
        self.write("a-kept.stnu", text)
        self.assertEqual(planner("many", ".").status, Status.KEPT)
        self.write("b-broken.stnu", VARIANT.read_text())
        self.write("c-document.json", (EXAMPLES / "rover" / "plan.json").read_text())
        done = planner("many", ".")
        self.assertEqual(done.lines, ["a-kept.stnu: controllable", "b-broken.stnu: not controllable", "c-document.json: controllable"])
        self.assertEqual((done.status, done.err), (Status.NOT_KEPT, "planner: 3 plans: 2 controllable, 1 not controllable\n"))
        self.write("d-faulty.stnu", text.replace("point leave", "poinnt leave"))
        done = planner("many", ".", "--json")
        self.assertEqual(done.status, Status.PLAN)
        last = json.loads(done.lines[-1])
        self.assertEqual((last["plan"], last["answer"], last["status"]), ("d-faulty.stnu", "error format 7 unknown-word", 3))
        self.assertIn("was 'point' meant?", last["fault"])

    def test_words(self):
        self.assertEqual(planner("many").status, Status.WORDS)
        for path in ("nowhere", "."):
            done = planner("many", path)
            self.assertEqual((done.status, done.out, done.err.count("\n")), (Status.WORDS, "", 1))

    @unittest.skipUnless(Path("/proc/self/mem").exists(), "a file that cannot be read is wanted")
    def test_a_file_that_cannot_be_read_keeps_no_other_from_being_decided(self):
        Path("a.stnu").symlink_to("/proc/self/mem")
        self.write("b.stnu", ROVER.read_text())
        done = planner("many", ".")
        self.assertEqual((done.status, done.lines[1:]), (Status.READ, ["b.stnu: controllable"]))
        self.assertTrue(done.lines[0].startswith("a.stnu: "), done.out)

    def test_two_hundred_plans(self):
        text = ROVER.read_text()
        for number in range(200):
            self.write(f"plan-{number:03}.stnu", re.sub("(bound still-warm .*) 60", rf"\1 {45 + number % 20}", text))
        done = planner("many", ".")
        self.assertEqual((len(done.lines), done.status), (200, Status.NOT_KEPT))
        self.assertEqual([line.endswith(": controllable") for line in done.lines], [number % 20 >= 10 for number in range(200)])
