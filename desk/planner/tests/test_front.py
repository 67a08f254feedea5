"""The front: its words, its statuses, and that whatever goes wrong is one line."""

import ast
import contextlib
import io
import os
import signal
import subprocess
from pathlib import Path
from unittest import mock

from planner.commands import COMMANDS
from planner.faults import Fault, Status
from planner.front import parser_of
from planner.plan import STANDARD_INPUT, load, source_of
from planner.program import Program, Session
from planner.tests.children import Terminal
from planner.tests.support import EXAMPLES, ROOT, Case, planner, program, repeated

LAUNCHER = ROOT / "planner"
ROVER = EXAMPLES / "rover" / "plan.stnu"


class First(Case):
    """The first call, before which the program is compiled by the launcher's tool, which is a stand-in here."""

    def setUp(self):
        super().setUp()
        kept = mock.patch.dict(os.environ)
        kept.start()
        self.addCleanup(kept.stop)
        os.environ.pop("STNU_PROGRAM", None)
        self.write("stnu", "#!/bin/sh\necho controllable\n")
        os.chmod("stnu", 0o755)
        Path("tools/start").mkdir(parents=True)
        self.compiler("print(*sys.argv[1:], file=open('asked', 'w'))")

    def compiler(self, text):
        self.write("tools/start/__main__.py", f"import sys\n{text}\n")

    def asked(self, *words, **how):
        Path("asked").write_text("", encoding="utf-8")
        self.assertEqual(Program("./stnu", **how).call(words).first, "controllable")
        return Path("asked").read_text(encoding="utf-8").split()

    def test_one_command_is_enough_where_no_other_is_called(self):
        self.assertEqual(self.asked("check", calls_one=True), ["which", "--command", "check", "--alone"])
        self.assertEqual(self.asked("check", "--proof", calls_one=True), ["which", "--command", "check"])
        self.assertEqual(self.asked("check"), ["which"])

    def test_the_program_that_is_asked_for_is_made(self):
        os.environ["STNU_PROGRAM"] = "checked"
        self.assertEqual(self.asked("check", calls_one=True), ["which", "checked"])

    def test_what_is_compiled_is_not_asked_for(self):
        Path("out/start").mkdir(parents=True)
        self.write("out/start/one-check", "")
        self.assertEqual(self.asked("check", calls_one=True), [])
        self.assertEqual(self.asked("check", "--proof", calls_one=True), ["which", "--command", "check"])
        self.write("out/start/checked", "")
        self.assertEqual(self.asked("judge"), [])

    def test_that_there_is_no_program_is_told(self):
        self.compiler("sys.exit(1)")
        with self.assertRaisesRegex(Fault, "has no program to run"):
            Program("./stnu").call(["check"])


class Words(Case):
    def test_each_command_has_a_help_with_an_example(self):
        for name in COMMANDS:
            with self.subTest(name):
                self.assertIn(f"planner {name}", parser_of(name).epilog)

    def test_a_command_that_is_none_names_the_nearest(self):
        done = planner("chek", ROVER)
        self.assertEqual((done.status, done.out), (Status.WORDS, ""))
        self.assertIn("was 'check' meant?", done.err)

    def test_wrong_words_are_told_on_standard_error(self):
        for words in (["check", "--deley", "3"], ["check", ROVER, "--delay", "five"], ["check", ROVER, "--delay", "-1"], []):
            with self.subTest(words):
                done = planner(*words)
                self.assertEqual(done.status, Status.WORDS)

    def test_an_option_that_is_none_names_the_nearest(self):
        slips = {("check", "--deley", "3"): "--delay", ("draw", "--rnadom"): "--random", ("room", "x", "--all-or-non"): "--all-or-none"}
        for words, near in slips.items():
            self.assertIn(f"was '{near}' meant?", planner(*words).err)

    def test_a_file_that_is_not_there_or_a_folder_is_one_line(self):
        for path in ("nowhere.stnu", "."):
            done = planner("check", path)
            self.assertEqual((done.status, done.out, done.err.count("\n")), (Status.WORDS, "", 1))

    def test_somebody_at_a_terminal_is_told_that_standard_input_is_read(self):
        with Terminal("check") as terminal:
            terminal.until("this is read from standard input, up to its end; a file is named in the call")

    def test_a_program_that_is_not_there_is_one_line(self):
        done = planner("check", ROVER, "--program", "./no-such-program")
        self.assertEqual((done.status, done.out, done.err.count("\n")), (Status.NO_PROGRAM, "", 1))


class Versions(Case):
    def test_what_is_started_by_hand_tells_an_older_python_what_is_wanted(self):
        """Each of these files is one that Python 3.8 can read, and asks for the version before it reads others."""
        for path in (LAUNCHER, ROOT / "tools" / "install", *(EXAMPLES / f"{name}.py" for name in ("drive", "spoil", "printed"))):
            with self.subTest(path):
                text = path.read_text()
                ast.parse(text, feature_version=(3, 8))
                code = compile(text.replace("sys.version_info", "(3, 9, 18)"), path, "exec")
                with self.assertRaises(SystemExit), contextlib.redirect_stderr(io.StringIO()) as told:
                    try:
                        exec(code, {"__name__": "__main__", "__file__": str(path)})
                    except SystemExit as end:
                        self.assertIn("Python 3.10 or later is needed, and this is 3.9", f"{end.code}{told.getvalue()}")
                        raise


class Ends(Case):
    """What the system does to a command."""

    def run_launcher(self, *words, **streams):
        return subprocess.run([LAUNCHER, *map(str, words)], stderr=subprocess.PIPE, check=False, text=True, **streams)

    def test_a_reader_that_went_away_is_no_word(self):
        reading, writing = os.pipe()
        os.close(reading)
        done = self.run_launcher("check", ROVER, stdout=writing)
        os.close(writing)
        self.assertEqual((done.returncode, done.stderr), (Status.READER_GONE, ""))

    def test_a_full_disk_is_one_line(self):
        with open("/dev/full", "w") as full:
            done = self.run_launcher("check", ROVER, stdout=full)
        self.assertEqual((done.returncode, done.stderr.count("\n")), (Status.WRITE, 1))

    def test_closed_streams_are_one_line(self):
        for redirection, status in ((">&-", Status.WRITE), ("<&-", Status.READ)):
            done = subprocess.run(f"{LAUNCHER} check {redirection}", shell=True, input="", capture_output=True, text=True, check=False)
            self.assertEqual((done.returncode, done.stderr.count("\n")), (status, 1), done.stderr)

    def test_an_interrupt_is_one_line(self):
        # (once it has read its input, somebody waits for its answer)
        slow = self.write("slow", "#!/bin/sh\ncat >/dev/null\necho asked >&2\nexec sleep 60\n")
        slow.chmod(0o755)
        # (a shell has what it starts in the background pass over interrupts)
        heard = {"preexec_fn": lambda: signal.signal(signal.SIGINT, signal.default_int_handler)}
        words = [LAUNCHER, "check", ROVER, "--program", slow]
        with subprocess.Popen(words, stderr=subprocess.PIPE, text=True, **heard) as child:
            self.assertEqual(child.stderr.readline(), "asked\n")
            child.send_signal(signal.SIGINT)
            told = child.stderr.read()
        self.assertEqual((child.returncode, told), (Status.INTERRUPTED, "planner: interrupted\n"))


class Calls(Case):
    def test_a_call_that_is_shown_can_be_repeated(self):
        text = ROVER.read_text()
        self.write("plan.stnu", text)
        self.write("later.stnu", text + "a line after the end\n")
        self.write("no-line-end.stnu", text.removesuffix("\n"))
        document = (EXAMPLES / "rover" / "plan.json").read_text()
        self.write("plan.json", document)
        self.write("with-end.json", document + "end\n")
        self.write("bare.json", document.removesuffix("\n"))
        for name in ("plan.stnu", "later.stnu", "no-line-end.stnu", "plan.json", "with-end.json", "bare.json"):
            with self.subTest(name):
                done = planner("check", name, "--show-calls")
                self.assertEqual((done.status, done.out), (Status.KEPT, "the plan can be kept\n"))
                self.assertEqual(repeated(done.err), (0, "controllable\n"))

    def test_a_talk_that_is_shown_can_be_repeated(self):
        for source in (load(str(ROVER)), load(str(EXAMPLES / "rover" / "plan.json"), 5), source_of(ROVER.read_text(), STANDARD_INPUT)):
            with Session(program(), source) as session:
                session.edit("set bound still-warm 45")
                is_kept = session.is_kept()
                certificate = session.certificate()
                session.send("end")
                shown, status = session.shell(), session.close()
            self.assertEqual((is_kept, status), (False, Status.KEPT))
            wanted = ["ready", "ok", "not controllable", *certificate]
            self.assertEqual(repeated(shown), (0, "\n".join(wanted) + "\n"))

    def test_a_call_over_standard_input_can_be_repeated(self):
        done = planner("check", "--show-calls", given=ROVER.read_text())
        self.assertEqual(repeated(done.err), (0, "controllable\n"))
