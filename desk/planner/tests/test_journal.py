"""Journals: nothing that was kept is lost, whatever happens to the process or to the disk."""

import contextlib
import io
import os
import random
import resource
import signal
import subprocess
import time

from planner.faults import Fault, Status
from planner.journal import Head, Journal, kept
from planner.tests import children
from planner.tests.support import EXAMPLES, Case

HEAD = Head("day", "a" * 64)
ROVER = EXAMPLES / "rover" / "plan.stnu"
ROUNDS = 6


class Files(Case):
    def opened(self):
        return Journal("today.day", HEAD)

    def test_what_is_kept_is_there_again(self):
        journal = self.opened()
        for line in ("at 0", "# a remark", "at 5 a"):
            journal.keep(line)
        journal.close()
        again = self.opened()
        self.assertEqual(again.kept(), ["at 0", "at 5 a"])
        self.assertEqual(again.lines, ["at 0", "# a remark", "at 5 a"])
        self.assertEqual(again.head, HEAD)

    def test_a_second_process_is_kept_out_and_let_in_afterwards(self):
        journal = self.opened()
        with self.assertRaises(Fault) as caught:
            self.opened()
        self.assertIn("open in another planner", str(caught.exception))
        journal.close()
        self.opened().close()

    def test_a_line_that_is_not_whole_is_left_out(self):
        journal = self.opened()
        journal.keep("at 0")
        journal.close()
        whole = (self.folder / "today.day").read_text()
        for end in ("at 60 arr", "a", "at 60\0"):
            self.write("today.day", whole + end)
            with contextlib.redirect_stderr(io.StringIO()) as told:
                journal = self.opened()
            self.assertIn(f"its last line was not whole, and is left out: {end!r}", told.getvalue())
            self.assertEqual(journal.kept(), ["at 0"])
            journal.close()
            self.assertEqual((self.folder / "today.day").read_text(), whole)

    def test_a_head_that_is_not_whole_is_begun_anew(self):
        for size in (0, 1, 20, len(str(HEAD))):
            self.write("today.day", str(HEAD)[:size])
            journal = self.opened()
            journal.keep("at 0")
            journal.close()
            self.assertEqual((self.folder / "today.day").read_text(), f"{HEAD}\nat 0\n")

    def test_a_file_of_somebody_else_is_left_alone(self):
        for text in ("stnu 1\nend\n", "at 0\n", "a line without an end", f"{Head('edit', 'a' * 64)}\n"):
            self.write("today.day", text)
            with self.assertRaises(Fault):
                self.opened()
            self.assertEqual((self.folder / "today.day").read_text(), text)

    def test_undo_takes_back_one_line_each(self):
        self.assertEqual(kept(["at 0", "at 5", "undo", "# said", "at 6", "at 7", "undo", "undo"]), ["at 0"])
        self.assertEqual(kept(["undo", "at 0"]), ["at 0"])


class Disks(Case):
    """A disk with no more room, by a limit on the size of files."""

    def limited(self, size):
        def limit():
            resource.setrlimit(resource.RLIMIT_FSIZE, (size, size))

        return limit

    def test_a_line_for_which_there_is_no_room_is_not_answered_and_loses_nothing(self):
        lines = "at 0\nat 60\nat 90\nat 100 arrive\n"
        size = len(f"{HEAD}\nat 0\nat 60\n") + 4
        done = children.run("day", ROVER, "--lines", "today.day", given=lines, preexec_fn=self.limited(size))
        self.assertEqual(done.returncode, Status.EVENT)
        self.assertIn("'at 90' is not taken: it could not be kept, today.day: file too large; all stands as before", done.stderr)
        self.assertEqual(kept((self.folder / "today.day").read_text().split("\n")), ["at 0", "at 60"])
        # The moment 90 was not taken, so that it can be told once there is room.
        done = children.run("day", ROVER, "--lines", "today.day", given="at 90\nat 100 arrive\n")
        self.assertEqual(done.returncode, 0)
        self.assertEqual(done.stdout.splitlines()[2:4], ["at 90: warm-up", "next: at 150; arrive may be seen from 100 until 150"])

    def test_an_edit_for_which_there_is_no_room_is_not_made(self):
        size = len(f"{Head('edit', 'a' * 64)}\n") + 6
        given = "set bound still-warm 10\nverdict\n"
        done = children.run("edit", ROVER, "--lines", "e.edits", given=given, preexec_fn=self.limited(size))
        self.assertEqual(done.stdout, "the plan can be kept\n")
        self.assertIn("could not be kept", done.stderr)

    def test_a_room_for_whose_lines_there_is_none_stands_as_before(self):
        plans = (EXAMPLES / "fleet" / "plans.fleet").read_text()
        self.write("plans.fleet", plans)
        self.assertEqual(children.run("room", "plans.fleet").returncode, Status.PLAN)
        size = (self.folder / "plans.room").stat().st_size + 12
        done = children.run("room", "plans.fleet", given="van at 0\nvan at 12 loaded\n", preexec_fn=self.limited(size))
        self.assertIn("'van at 12 loaded' is not taken: it could not be kept", done.stderr)
        self.assertTrue((self.folder / "plans.room").read_text().endswith("van at 0\n"))


class Ends(Case):
    """A process that is ended at any moment, by a signal that it cannot see."""

    def killed(self, words, lines, wait):
        """What a command had answered when it was killed so long after its first line."""
        child = children.started(*words)
        try:
            child.stdin.write("".join(f"{line}\n" for line in lines))
            child.stdin.flush()
            child.stdout.readline()
            time.sleep(wait)
            child.send_signal(signal.SIGKILL)
            return child.communicate()[0].split("\n")
        finally:
            child.kill()
            child.wait()

    def test_a_day_that_is_killed_has_kept_each_line_that_it_answered(self):
        lines = [f"at {moment}" for moment in range(0, 3000)]
        plan = self.write("p.stnu", "stnu 1\npoint a\npoint b\nbound late b a -5000\nend\n")
        draw = random.Random(5)
        told = 0
        for number in range(ROUNDS):
            answered = self.killed(["day", plan, "--json"], lines[told:], draw.random() * 0.15)
            file = (self.folder / "p.day").read_text()
            *whole, _ = file.split("\n")
            stand = kept(whole)
            with self.subTest(number):
                self.assertEqual(stand, lines[: len(stand)])
                taken = sum('"taken": true' in line and '"line": "at' in line for line in answered)
                self.assertGreaterEqual(len(stand) + 1, told + taken)
                self.assertGreaterEqual(len(stand), told)
            told = len(stand)
        self.assertGreater(told, 0)

    def test_a_second_day_on_the_same_file_is_refused_while_the_first_goes_on(self):
        first = children.started("day", ROVER, "--lines", "today.day")
        first.stdout.readline()
        done = children.run("day", ROVER, "--lines", "today.day", given="at 0\n")
        self.assertEqual((done.returncode, done.stdout), (Status.WORDS, ""))
        self.assertIn("today.day is open in another planner", done.stderr)
        out, _ = first.communicate("at 0\n")
        self.assertEqual(out.splitlines()[0], "at 0: sunrise")
        # Once the first is gone, killed or not, the lock is too.
        killed = children.started("day", ROVER, "--lines", "today.day")
        killed.stdout.readline()
        killed.kill()
        killed.communicate()
        self.assertEqual(children.run("day", ROVER, "--lines", "today.day").returncode, 0)

    def test_a_room_that_is_killed_goes_on_where_it_stood(self):
        self.write("plans.fleet", (EXAMPLES / "fleet" / "plans.fleet").read_text())
        lines = ["van at 0", "tram at 0", "tram at 10 stop", "van at 12 loaded"]
        child = children.started("room", "plans.fleet", "--json")
        child.stdin.write("".join(f"{line}\n" for line in lines))
        child.stdin.flush()
        while "loaded" not in child.stdout.readline():
            pass
        child.kill()
        child.communicate()
        done = children.run("room", "plans.fleet", given="tram at 23 back\ntram done\nvan at 50 there\nvan done\n")
        self.assertIn("van at 50: unload", done.stdout)
        self.assertEqual(done.stdout.splitlines()[-3].split()[:3], ["tram", "over", "23"])


class Streams(Case):
    def test_nothing_is_written_to_the_plan(self):
        before = os.stat(ROVER).st_mtime_ns, ROVER.read_text()
        children.run("day", ROVER, "--lines", "d.day", given="at 0\n")
        children.run("edit", ROVER, "--lines", "e.edits", "--out", "o.stnu", given="set bound warm -15\n")
        self.assertEqual((os.stat(ROVER).st_mtime_ns, ROVER.read_text()), before)

    def test_a_reader_that_went_away_loses_no_line(self):
        reading, writing = os.pipe()
        os.close(reading)
        words = children.words_of(["day", ROVER, "--lines", "d.day"])
        done = subprocess.run(words, input=b"at 0\nat 60\n", stdout=writing, stderr=subprocess.PIPE, check=False)
        os.close(writing)
        self.assertEqual((done.returncode, done.stderr), (Status.READER_GONE, b""))
