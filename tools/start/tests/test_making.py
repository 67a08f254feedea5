"""What is cut of sources, which modules are split, what answers one command, and what is told of a
long work."""

import contextlib
import io
import os
import subprocess
import sys
import tempfile
import unittest
from pathlib import Path
from unittest import mock

from shared.making import Crates, Guarded, kit, locked
from shared.progress import Progress
from start import one_command, which
from start.needed import LEFT_OUT, Source, Unread, copies, read_reached, reached_in, write_reached
from start.one_command import OneCommand, sum_of_code, with_empty_laws
from start.parts import Compiling, OtherForm, run

SOURCE = """//! A list.
pub struct List(u8);

impl List {
    /// Is called.
    pub fn first(&self) -> u8
        requires held { self ≢ {-} a brace -} none }
    {
        self.second()
    }

    /// Is mentioned, and not reached.
    fn second(&self) -> u8 {
        '}' as u8
    }

    /// Is not mentioned.
    #[inline]
    pub const fn third(&self) -> u8
        ensures said { "}" }
    {
        3
    }
}

impl Clone for List {
    fn clone(&self) -> List {
        List(self.0)
    }
}
"""


class Cut(unittest.TestCase):
    def cut(self, reached):
        source = Source(SOURCE, reached)
        return source.cut(SOURCE, source.mentioned)

    def test_lines_stay(self):
        self.assertEqual(self.cut({"first"}).count("\n"), SOURCE.count("\n"))

    def test_clauses_go_and_bodies_that_are_reached_stay(self):
        text = self.cut({"first", "second", "third", "clone"})
        self.assertNotIn("requires", text)
        self.assertNotIn("ensures", text)
        self.assertNotIn(LEFT_OUT, text)
        self.assertIn("self.second()", text)

    def test_what_is_mentioned_keeps_its_head(self):
        text = self.cut({"first"})
        self.assertIn(f"fn second(&self) -> u8 {{ crate::{LEFT_OUT}() }}", text)
        self.assertIn(f"fn clone(&self) -> List {{ crate::{LEFT_OUT}() }}", text)

    def test_what_nothing_mentions_goes_with_its_comments(self):
        text = self.cut({"first"})
        self.assertNotIn("third", text)
        self.assertNotIn("Is not mentioned", text)

    def test_all_bodies_stay_of_a_library_of_which_nothing_is_known(self):
        self.assertIn("'}' as u8", self.cut(None))

    def test_a_source_of_another_form_is_refused(self):
        with self.assertRaises(Unread):
            Source("fn f() { (", set())

    def test_copies_have_what_stands_for_bodies(self):
        with tempfile.TemporaryDirectory() as room:
            root = Path(room, "list/src/lib.rt")
            root.parent.mkdir(parents=True)
            root.write_text(SOURCE, encoding="utf-8")
            made = copies(Path(room, "copies"), {"list": str(root)}, {"list": {"first"}})
            self.assertIn(f"const fn {LEFT_OUT}() -> !", made["list"].read_text(encoding="utf-8"))


class Reached(unittest.TestCase):
    def test_names_are_those_of_the_libraries(self):
        names = ["core::option::Option::map::<#12ab>", "mine::core++text++Line+FnOnce::call", "mine::own"]
        found = reached_in(names, ["core", "json"])
        self.assertLessEqual({"map", "Option", "Line", "call"}, found["core"])
        self.assertNotIn("own", found["core"])
        self.assertEqual(found["json"], set())

    def test_what_is_written_is_read(self):
        with tempfile.TemporaryDirectory() as room:
            names = {f"name{number}" for number in range(99)}
            write_reached(Path(room, "reached"), {"core": names})
            self.assertEqual(read_reached(Path(room, "reached")), {"core": names})


class Written:
    """A module in the kit's form, written bit by bit."""

    def __init__(self):
        self.made, self.rest, self.count = bytearray(b"BC\xc0\xde"), 0, 0

    def put(self, value, size):
        self.rest |= value << self.count
        self.count += size
        while self.count >= 8:
            self.made.append(self.rest & 255)
            self.rest >>= 8
            self.count -= 8

    def pieces(self, value, size):
        more = 1 << (size - 1)
        while value >= more:
            self.put(value & (more - 1) | more, size)
            value >>= size - 1
        self.put(value, size)

    def align(self):
        while self.count or len(self.made) % 4:
            self.put(0, 1)

    def record(self, code, *values):
        self.put(3, 3)
        for number in (code, len(values), *values):
            self.pieces(number, 6)

    @contextlib.contextmanager
    def block(self, kind, outer=3):
        self.put(1, outer)
        self.pieces(kind, 8)
        self.pieces(3, 4)
        self.align()
        self.made += bytes(4)
        first = len(self.made)
        yield
        self.put(0, 3)
        self.align()
        self.made[first - 4 : first] = ((len(self.made) - first) // 4).to_bytes(4, "little")


NAMES = "one_function two_functions small_function alone_function".split()


def module_in_the_form(called_type=1):
    """A module of these functions in the kit's form: the first two call the third; nobody calls the
    last."""
    written = Written()
    with written.block(13, 2):
        written.record(2, 0)
    with written.block(8, 2):
        written.record(1, 2)
        with written.block(17):
            # (two types: nothing, and functions that take and give that)
            written.record(1, 2)
            written.record(2)
            written.record(21, 0, 0)
        first = 0
        for name, linkage in zip(NAMES, (0, 0, 3, 3)):
            written.record(8, first, len(name), 1, 0, 0, linkage, 0, 0, 0, 0, 0, 0)
            first += len(name)
        # (bodies begin with a full word, as behind these constants, which are none)
        with written.block(11):
            pass
        for number in range(4):
            with written.block(12):
                written.record(1, 1)
                if number < 2:
                    # (the function whose number is by two less than that of the next value)
                    written.record(34, 0, 1 << 15, called_type, 2)
                written.record(10)
    with written.block(23, 2):
        # (an abbreviation of two parts: the number one, and bytes)
        for value, size in ((2, 3), (2, 5), (1, 1), (1, 8), (0, 1), (5, 3), (4, 3)):
            written.put(value, size)
        written.pieces(first, 6)
        written.align()
        written.made += "".join(NAMES).encode()
        written.align()
    return bytes(written.made)


class Split(unittest.TestCase):
    """Modules that are compiled in two parts."""

    def setUp(self):
        self.room = self.enterContext(tempfile.TemporaryDirectory())
        self.guarded = self.enterContext(Guarded())
        words = "--target=x86_64-unknown-linux-gnu -ffunction-sections -c -x ir module.bc -o module.o -O0".split()
        self.compiling = Compiling(self.guarded, words, Path(self.room))
        self.module = Path(self.room, "module.bc")

    def test_each_part_has_its_own_and_copies_of_what_is_small(self):
        self.module.write_bytes(module_in_the_form())
        parts, names = self.compiling.split(self.module, 2)
        self.assertEqual(names, NAMES)
        objects = self.compiling.side_by_side(parts, lambda _: None)
        # (what both had to themselves would be refused, as would be what neither has)
        made = Path(self.room, "made.so")
        run(self.guarded, [kit() / "toolchain/bin/ld.lld", "-shared", "-z", "defs", "-o", made, *objects])
        for name, count in zip(NAMES, (1, 1, 0, 0)):
            self.assertEqual(sum(name.encode() in it.read_bytes() for it in objects), count, name)

    def test_a_call_that_is_read_wrongly_is_noticed(self):
        self.module.write_bytes(module_in_the_form(called_type=0))
        with self.assertRaisesRegex(OtherForm, "without a type of functions"):
            self.compiling.split(self.module, 2)

    def test_another_form_is_refused(self):
        for data in (b"", b"ELF..", b"BC\xc0\xde" + bytes(8), module_in_the_form()[:-64]):
            self.module.write_bytes(data)
            with self.assertRaises(OtherForm):
                self.compiling.split(self.module, 2)

    def test_another_form_is_compiled_in_one_piece_which_is_said(self):
        words = [kit() / "toolchain/bin/clang", "--no-default-config", "-emit-llvm", "-c", "-x", "c", "-", "-o", self.module]
        subprocess.run(words, input=b"void one_function(void) {}", check=True)
        said = io.StringIO()
        with contextlib.redirect_stderr(said):
            objects, names = self.compiling.compiled(self.module, lambda _: None)
        self.assertEqual((objects, names), ([Path(self.room, "whole.o")], []))
        self.assertIn(b"one_function", objects[0].read_bytes())
        self.assertIn("of another form", said.getvalue())


class Smaller(unittest.TestCase):
    """The crates of a program of one command."""

    def setUp(self):
        self.room = self.enterContext(tempfile.TemporaryDirectory())

    def crates(self, command, is_alone=False):
        return OneCommand(Crates(), self.room, command, is_alone)

    def test_other_commands_go_and_each_line_stays_where_it_was(self):
        crates = self.crates("check")
        self.assertEqual(crates.libraries["stnu_run"], ["plan_port", "command_contracts", "check_command"])
        found = [Path(it.folder("stnu_run"), "src/dispatch.rt").read_text(encoding="utf-8") for it in (Crates(), crates)]
        self.assertNotIn("Judge>", found[1])
        for was, line in zip(*(it.split("\n") for it in found), strict=True):
            self.assertIn(line, (was, ""))

    def test_each_command_has_a_program(self):
        for command in "judge check run session show play strong deadline fleet forge".split():
            self.assertNotIn("clap", self.crates(command, is_alone=True).kit_below("stnu_cli"), command)

    def test_what_is_no_command_has_none(self):
        for word in ("help", "check ", "law"):
            with self.assertRaises(Unread):
                self.crates(word)

    def test_a_file_of_laws_with_something_else_is_refused(self):
        law = "pub fn law_one()\n    ensures { x }\n{\n    law_two();\n}\n"
        self.assertEqual(with_empty_laws(law), "pub fn law_one() {}\n")
        for more in ("fn two() {}\n", "pub fn law_two() -> bool\n    ensures { x }\n{\n    true\n}\n"):
            with self.assertRaises(Unread):
                with_empty_laws(law + more)

    def test_no_words_are_read_as_by_the_sources(self):
        same = sum_of_code(self.crates("check").reading()) == one_command.READS_OF
        self.assertTrue(same, "see whether no_words.rt.txt reads as command_words does; then READS_OF is that sum")

    def test_words_are_parsed_where_they_are_read_in_another_way(self):
        with mock.patch.object(one_command, "READS_OF", ""):
            self.assertEqual(self.crates("check", is_alone=True).libraries["command_words"], ["clap"])
        self.assertEqual(self.crates("check", is_alone=True).libraries["command_words"], [])

    def test_names_are_those_of_words_that_a_command_may_have(self):
        self.assertEqual([which.one_of("check", it).name for it in (True, False)], ["one-check", "one-check-words"])
        for word in (None, "", "a/b", "check-words", "--help"):
            self.assertIsNone(which.one_of(word, True))

    def test_what_compiles_other_sources_behind_is_ended(self):
        lock = Path(self.room, "lock")
        hold = "import fcntl, sys, time; lock = open(sys.argv[1], 'a'); fcntl.flock(lock, 2); print(flush=True); time.sleep(60)"
        for sum, is_ended in (("of these", False), ("of others", True)):
            holds = subprocess.Popen([sys.executable, "-c", hold, lock], stdout=subprocess.PIPE)
            holds.stdout.readline()
            lock.write_text(f"{holds.pid} {sum}\n", encoding="utf-8")
            with mock.patch.object(which, "LOCK", lock):
                which.end_behind("of these")
            if not is_ended:
                self.assertIsNone(holds.poll())
                holds.kill()
            self.assertEqual(holds.wait(10), -15 if is_ended else -9)
            holds.stdout.close()

    def test_who_has_no_lock_is_not_ended(self):
        lock = Path(self.room, "lock")
        waits = subprocess.Popen(["sleep", "60"])
        lock.write_text(f"{waits.pid} of others\n", encoding="utf-8")
        with mock.patch.object(which, "LOCK", lock):
            which.end_behind("of these")
        self.assertIsNone(waits.poll())
        waits.kill()
        waits.wait()
        os.close(locked(lock, None)[0])


class Told(unittest.TestCase):
    def test_quiet_says_nothing(self):
        said = io.StringIO()
        with mock.patch.dict(os.environ, {"STNU_QUIET": "1"}), contextlib.redirect_stderr(said):
            with Progress("it is made", os.devnull, "some time") as progress:
                progress.at(1, 3, "a step")
        self.assertEqual(said.getvalue(), "")

    def test_a_line_says_what_is_done_of_how_much(self):
        progress = Progress("it is made", os.devnull, "some time")
        with mock.patch.dict(os.environ, {"STNU_QUIET": "1"}), progress:
            progress.at(1, 3, "a step")
            self.assertEqual(progress.line(), "stnu: it is made, 0 s (some time): 1 of 3 steps done, a step")
