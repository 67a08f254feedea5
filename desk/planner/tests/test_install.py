"""tools/install, tried as somebody new would: in an empty home, into a folder with a blank in its name, and through links."""

import argparse
import json
import os
import shutil
import subprocess
import sys

from planner.commands import COMMANDS
from planner.tests.support import EXAMPLES, ROOT, Case

sys.path.insert(0, str(ROOT / "tools"))
from docs import completions, manuals, words

INSTALL = ROOT / "tools" / "install"
ROVER = EXAMPLES / "rover" / "plan.stnu"


class Installed(Case):
    def setUp(self):
        super().setUp()
        self.home = self.folder / "home"
        self.prefix = self.folder / "my tools"
        self.home.mkdir()

    def called(self, *command, given="", **more):
        """A call in an empty environment; those of `tools/install` keep the search path."""
        environment = {"HOME": str(self.home), "PATH": f"{self.prefix / 'bin'}:/usr/bin:/bin", "LANG": "C.UTF-8"} | more
        return subprocess.run(
            [str(it) for it in command], cwd=self.home, env=environment, input=given, capture_output=True, text=True, check=False
        )

    def install(self, *words):
        more = {name: os.environ[name] for name in ("PATH", "STNU_PROGRAM") if name in os.environ}
        return self.called(INSTALL, "--prefix", self.prefix, *words, SHELL="/bin/zsh", **more)

    def places(self):
        return sorted(str(it.relative_to(self.prefix)) for it in self.prefix.rglob("*"))

    def test_what_is_installed_works_from_anywhere_and_goes(self):
        done = self.install()
        self.assertEqual(done.returncode, 0, done.stderr)
        self.assertRegex(done.stderr, r"stnu is (proved|compiled with checks)")
        self.its_line_is_right_for_zsh(done.stderr)
        self.it_works()
        self.it_may_be_moved()
        self.installed_again_what_is_no_more_goes()
        theirs = self.prefix / "bin" / "theirs"
        theirs.write_text("theirs")
        self.assertEqual(self.install("--uninstall").returncode, 0)
        self.assertEqual(self.places(), ["bin", "bin/theirs"])
        self.assertEqual(self.install("--uninstall").returncode, 1)

    def it_works(self):
        for name in ("stnu", "planner"):
            (self.home / f"my-{name}").symlink_to(self.prefix / "bin" / name)
        for stnu in ("stnu", self.home / "my-stnu"):
            answer = self.called(stnu, "check", given=ROVER.read_text())
            self.assertEqual((answer.returncode, answer.stdout, answer.stderr), (0, "controllable\n", ""))
        for planner in ("planner", self.home / "my-planner"):
            self.assertEqual(self.called(planner, "check", ROVER).stdout, "the plan can be kept\n")
        self.assertEqual(self.called("planner", "new", "theatre", "--output", "plan.stnu").returncode, 0)
        self.assertEqual(self.called("planner", "draw", "plan.stnu", "--svg", "plan.svg").returncode, 0)
        self.assertRegex(self.called("planner", "--version").stdout, r"commit .*\nstnu: .*/my tools/.*(proved|compiled with checks)")
        self.assertTrue(json.loads((self.prefix / "share/celeryadze/plan.schema.json").read_text()))

    def its_line_is_right_for_zsh(self, told):
        """The line that whoever uses zsh is told finds the completions, though the folder has a blank in its name."""
        functions = self.prefix / "share/zsh/site-functions"
        self.assertIn(f"before compinit: fpath+=('{functions}')\n", told)
        self.assertEqual(sorted(it.name for it in functions.iterdir()), ["_planner", "_stnu"])
        if shutil.which("zsh"):
            settings = told.partition("before compinit: ")[2].split("\n")[0]
            script = f"{settings}; autoload -Uz compinit; compinit -D -u; print $_comps[planner] $_comps[stnu]"
            self.assertEqual(self.called("zsh", "-f", "-c", script).stdout, "_planner _stnu\n")

    def it_may_be_moved(self):
        other = self.folder / "other"
        self.prefix.rename(other)
        self.assertEqual(self.called(other / "bin/planner", "check", ROVER).stdout, "the plan can be kept\n")
        other.rename(self.prefix)

    def installed_again_what_is_no_more_goes(self):
        before, old = self.places(), self.prefix / "lib/celeryadze/desk/planner/old.py"
        old.write_text("")
        listed = self.prefix / "lib/celeryadze/installed"
        told = json.loads(listed.read_text())
        told["files"].append(str(old.relative_to(self.prefix)))
        listed.write_text(json.dumps(told))
        self.assertEqual(self.install().returncode, 0)
        self.assertEqual(self.places(), before)

    def test_nothing_of_others_is_touched(self):
        theirs = self.prefix / "bin" / "stnu"
        theirs.parent.mkdir(parents=True)
        theirs.write_text("theirs")
        done = self.install()
        self.assertEqual((done.returncode, theirs.read_text(), self.places()), (1, "theirs", ["bin", "bin/stnu"]))
        self.assertIn("is there already", done.stderr)

    def test_a_folder_that_may_not_be_written_is_told(self):
        self.prefix.write_text("a file")
        done = self.install()
        self.assertEqual((done.returncode, done.stdout, done.stderr.count("\n")), (1, "", 1), done.stderr)


class Told(Case):
    """Manual pages and completions are made of the words that the programs take."""

    def test_the_pages_of_the_program_tell_its_options(self):
        operands = {"deadline": ["a", "b"], "play": ["longest"], "forge": ["3", "3"]}
        values = {"--workers": ["2"], "--delay": ["2"], "--feeders": ["2"], "--engine": ["cells"]}
        tool = words.stnu()
        options = sorted({name for it in tool.commands for option in it.options for name in option.names})
        self.assertEqual(len(tool.commands), 10)
        for it in tool.commands:
            own = {name for option in it.options for name in option.names}
            for option in options:
                call = [ROOT / "stnu", it.name, *operands.get(it.name, []), option, *values.get(option, [])]
                done = subprocess.run(call, input="", capture_output=True, text=True, check=False, env=os.environ | {"STNU_QUIET": "1"})
                self.assertEqual(done.stdout == "error words\n", option not in own, call)

    def test_options_with_a_value_with_several_and_with_none(self):
        parser = argparse.ArgumentParser()
        parser.add_argument("--link", nargs=3, metavar=("END", "LOW", "HIGH"), help="three")
        parser.add_argument("--out", metavar="FILE")
        parser.add_argument("--quick", action="store_true")
        found = {it.names[0]: (it.value, it.takes_file) for it in map(words.option_of, words.optionals(parser))}
        self.assertEqual(found, {"-h": (None, False), "--link": ("END LOW HIGH", False), "--out": ("FILE", True), "--quick": (None, False)})

    def test_each_command_and_option_is_in_the_manual(self):
        pages = dict(manuals.pages("1"))
        self.assertEqual(sorted(pages), ["planner.1", "stnu.1"])
        for tool in (words.stnu(), words.planner()):
            page = pages[f"{tool.name}.1"]
            for it in tool.commands:
                self.assertIn(f"\\fB{it.name}", page)
                for name in (name for option in it.options for name in option.names):
                    self.assertIn(manuals.escaped(name), page)
        for page in pages.values():
            self.assertNotRegex(page, r"(?m)^\.(?!TH|SH|PP|TP|nf|fi)|\]\(|`")

    def test_the_manual_is_shown(self):
        if not shutil.which("man"):
            self.skipTest("there is no man")
        for name, text in manuals.pages("1"):
            page = self.write(name, text)
            done = subprocess.run(["man", "--warnings", "-l", page], capture_output=True, text=True, check=False)
            self.assertEqual((done.returncode, done.stderr), (0, ""))

    def test_completions_are_right_for_their_shells(self):
        for place, text in completions.files():
            path = self.write(place.replace("/", "."), text)
            shell = place.partition("/")[0].partition("-")[0]
            self.assertIn("fixed" if "planner" in place else "judge", text)
            if shutil.which(shell):
                done = subprocess.run([shell, "-n", path], capture_output=True, text=True, check=False)
                self.assertEqual((done.returncode, done.stderr), (0, ""))

    def completed(self, tool, *typed):
        """What bash completes where these words are typed."""
        text = dict(completions.files())[f"bash-completion/completions/{tool}"]
        script = f'compopt() {{ :; }}\n{text}\nCOMP_WORDS=("$@"); COMP_CWORD=$(($# - 1)); _{tool}; printf "%s\\n" "${{COMPREPLY[@]}}"'
        done = subprocess.run(["bash", "-c", script, tool, tool, *typed], capture_output=True, text=True, check=False)
        return done.stdout.split()

    def test_bash_completes_words_and_files(self):
        if not shutil.which("bash"):
            self.skipTest("there is no bash")
        self.write("lab.stnu", "")
        self.assertLessEqual(set(COMMANDS), set(self.completed("planner", "")))
        self.assertEqual(self.completed("planner", "new", "th"), ["theatre"])
        self.assertEqual(self.completed("planner", "draw", "l"), ["longest", "lab.stnu"])
        self.assertEqual(self.completed("planner", "draw", "--cl"), ["--clock"])
        self.assertEqual(self.completed("planner", "draw", "--clock", ""), [])
        self.assertEqual(self.completed("stnu", "run", "--f"), ["--feeders"])
