"""Compares the library with the program: the same bytes and the same status, however the input is
cut, in several threads.

DIR (out/library) is what `python3 tools/library make` made. The rows of examples/answers and COUNT
drawn inputs, some of them spoiled, are answered by the program, each in a process of its own, and
by the library: line by line, in pieces, all at once, and over a source and a sink
(library/tests/replay.c). After that come the answers to the first lines of some inputs, misuse,
each allocation refused in turn, the same under valgrind where there is one, the tests of the Python
module and of the Rust crate, the examples, and the wheel in a fresh environment. Status: 0 where
all agrees and passes.
"""

import os
import random
import shutil
import subprocess
import sys
import tempfile
import time
from dataclasses import dataclass
from pathlib import Path

from inputs import random_plans
from shared import front
from shared.places import EXAMPLES, ROOT

TESTS = ROOT / "library" / "tests"
CC = os.environ.get("CC", "cc")
FLAGS = ["-std=gnu11", "-O1", "-g", "-Wall", "-Wextra", "-Wpedantic"]
WRAPPED = ["malloc", "calloc", "realloc", "free", "mmap"]
AT_ONCE = 2000
THREADS = 8
# Rows of more bytes are left out where it is to be short.
SHORT = 8_000


@dataclass
class Input:
    """The words of a call and its input."""

    words: list
    data: bytes

    def answer(self):
        """What the library answers, to make further inputs of it."""
        import stnu

        return stnu.run(self.words, self.data).text

    def packed(self):
        """As library/tests/replay.c reads it."""
        words = b"".join(word.encode() + b"\0" for word in self.words)
        return f"{len(self.words)} {len(self.data)}\n".encode() + words + self.data


# ---- Inputs ----


def rows(longest):
    """The rows of examples/answers whose input is not longer."""
    for line in (EXAMPLES / "answers").read_text(encoding="utf-8").splitlines():
        if line.strip() and not line.startswith("#"):
            _, words, files, _ = line.split("|", 3)
            data = b"".join((EXAMPLES / file).read_bytes() for file in files.split())
            if len(data) <= longest:
                yield Input(words.split(), data)


def plan_lines(choose):
    return random_plans.random_plan(choose, choose.choice(random_plans.UNITS))


def text(lines):
    return "".join(f"{line}\n" for line in lines).encode()


def some(choose, *words):
    """Each of these words with a chance of three in ten."""
    return [word for word in words if choose.random() < 0.3]


def check(choose):
    further = choose.choice([[], [], [], ["--workers", "3"], ["--engine", "cells"], ["--delay=2"]])
    return Input(["check", *some(choose, "--proof"), *further], text(plan_lines(choose)))


def judge(choose):
    plan = text(plan_lines(choose))
    certificate = Input(["check", "--proof"], plan).answer().partition("\n")[2].splitlines()
    if certificate and choose.random() < 0.5:
        certificate = random_plans.with_a_word_changed(choose, certificate)
    return Input(["judge"], plan + text(certificate))


def events(choose):
    moments = sorted(choose.sample(range(40), choose.randint(0, 8)))
    names = lambda: "".join(f" p{choose.randrange(6)}" for _ in range(choose.choice([0, 0, 0, 1, 1, 2])))
    last = choose.choice([["done"], ["done", "at 99"], [], ["# a remark"], ["at"]])
    return [*(f"at {moment}{names()}" for moment in moments), *last]


def execution(choose):
    further = choose.choice([[], [], [], ["--feeders", "2"], ["--delay", "1"]])
    return Input(["run", *further], text(plan_lines(choose) + events(choose)))


def step(choose):
    number, point = choose.randint(-9, 9), f"p{choose.randrange(4)}"
    end, bound = f"p{choose.randrange(9)}", f"b{choose.randrange(3)}"
    edits = [f"set bound {bound} {number}", f"drop bound {bound}"]
    edits += [f"add bound z{number} {point} {end} {number}", f"add point q{number}"]
    edits += [f"set link {point} 1 {abs(number) + 1}", f"drop link {point}", f"drop point {point}", ""]
    return choose.choice(edits + ["verdict", "proof", "table", "plan", "report"] * 2 + ["go", "at 3", "verdcit"])


def session(choose):
    steps = [step(choose) for _ in range(choose.randint(0, 12))]
    steps += choose.choice([["end"], ["go", *events(choose)], []])
    return Input(["session", *some(choose, "--workers=2")], text(plan_lines(choose) + steps))


def fleet(choose):
    count = choose.randint(0, 3)
    plans = [line for number in range(count) for line in [f"plan x{number}", *plan_lines(choose)]]
    lines = [f"x{choose.randrange(count + 1)} {event}" for event in events(choose)]
    last = choose.choice([["end"], []])
    return Input(["fleet"], text(["fleet 1", *plans, "go", *lines, *last]))


def show(choose):
    plan = text(plan_lines(choose))
    if choose.random() < 0.5:
        return Input(["show", *some(choose, "--print-json")], plan)
    return Input(["show", "--json"], Input(["show", "--print-json"], plan).answer().encode())


def other(choose):
    plan, number = text(plan_lines(choose)), str(choose.randrange(100))
    words = [["play", "longest"], ["play", number], ["strong"], ["deadline", "p0", "p1"]]
    words += [["judge", "--strong"], ["forge", number, "4"], [], ["chek"], ["check", "--workers", "0"]]
    words += [["run", "x"], ["--help"], ["check", "--delay", number]]
    return Input(choose.choice(words), plan)


KINDS = [check, check, judge, execution, execution, session, session, fleet, show, other]


def spoiled(choose, data):
    """An input cut off, or with a word, a line or a byte of it changed."""
    lines = data.decode("utf-8", "replace").splitlines() or [""]
    match choose.randrange(4):
        case 0:
            return data[: choose.randint(0, len(data))]
        case 1:
            return text(random_plans.with_a_word_changed(choose, lines))
        case 2:
            return text(random_plans.with_a_line_changed(choose, lines))
    place = choose.randint(0, len(data))
    return data[:place] + bytes([choose.randrange(256)]) + data[place + 1 :]


def drawn_input(choose):
    it = choose.choice(KINDS)(choose)
    if choose.random() < 0.3:
        it.data = spoiled(choose, it.data)
    return it


# ---- What is tried ----


class Trial:
    """The tests of a library against a program, and how many failed."""

    def __init__(self, program, library, work):
        self.program, self.library, self.work = program, library, work
        self.failed, self.is_right = [], {}

    def say(self, what, is_right, began):
        print(f"{'' if is_right else 'WRONG: '}{what}, {time.monotonic() - began:.1f} s", flush=True)
        if not is_right:
            self.failed.append(what)

    def call(self, what, *words, **how):
        """Whether a command ends with 0. What it says last is told with it; all of it where it does
        not."""
        began = time.monotonic()
        how = {"stdout": subprocess.PIPE, "stderr": subprocess.STDOUT, "text": True, "errors": "replace", **how}
        done = subprocess.run([*map(str, words)], check=False, **how)
        lines = done.stdout.strip().splitlines() or [""]
        if done.returncode:
            print(*lines[-20:], sep="\n", file=sys.stderr)
        self.say(f"{what}: {lines[-1][:100]}", done.returncode == 0, began)

    def compiled(self, source, *further, compiler=CC, flags=FLAGS):
        """A program of the tests or examples, over the static library."""
        made = self.work / source.name.replace(".", "_")
        given = [f"-I{self.library / 'include'}", source, self.library / "lib" / "libstnu.a", "-pthread", *further, "-o", made]
        subprocess.run([compiler, *flags, "-Werror", *map(str, given)], check=True)
        return made

    def replay(self, replay, inputs, what, guard=(), threads=THREADS, seed=1):
        """Replays inputs, each of which the program answers too."""
        file = self.work / "inputs"
        file.write_bytes(b"".join(it.packed() for it in inputs))
        self.call(what, *guard, replay, self.program, file, threads, seed)


def try_fronts(trial, names):
    """After each line that is fed, the answer is that of the program to the lines so far, without
    its refusal of their end."""
    import stnu

    began, wrong, count = time.monotonic(), 0, 0
    for command, *files in names:
        lines = b"".join((EXAMPLES / file).read_bytes() for file in files).splitlines(keepends=True)
        with stnu.Run(command) as run:
            said = ""
            for number, line in enumerate(lines, 1):
                said += run.feed(line).text
                given = b"".join(lines[:number])
                front = subprocess.run([trial.program, command], input=given, stdout=subprocess.PIPE, check=False)
                told = front.stdout.decode().splitlines(keepends=True)
                if run.status is stnu.Status.RUNNING and told and told[-1].startswith("error format"):
                    told.pop()
                wrong += said != "".join(told)
                count += 1
    trial.say(f"the answers to the first lines of {len(names)} inputs, {count} fronts, {wrong} wrong", not wrong, began)


FRONTS = [
    ("run", "rover/plan.stnu", "rover/day.events"),
    ("session", "rover/plan.stnu", "rover/desk.edits"),
    ("fleet", "fleet/plans.fleet", "fleet/day.lines"),
]
REFUSED = [
    (["check", "--proof"], ["rover/plan.stnu"]),
    (["check"], ["rover/variant.stnu"]),
    (["judge"], ["rover/variant.stnu", "rover/refutation.cert"]),
    (["run"], ["rover/plan.stnu", "rover/day.events"]),
    (["session"], ["rover/plan.stnu", "rover/desk.edits"]),
    (["fleet"], ["fleet/plans.fleet", "fleet/day.lines"]),
]


def try_refused(trial, refused, cases, guard=()):
    for words, files in cases:
        with tempfile.TemporaryFile() as given:
            given.write(b"".join((EXAMPLES / file).read_bytes() for file in files))
            given.seek(0)
            trial.call(f"allocations refused{' under valgrind' if guard else ''}", *guard, refused, *words, stdin=given)


def try_under_valgrind(trial, replay, misuse, refused, is_short):
    """The same over few inputs, each of which takes fifty times as long."""
    guard = ["valgrind", "-q", "--fair-sched=yes", "--error-exitcode=9"]
    guard += ["--leak-check=full", "--errors-for-leak-kinds=definite,possible"]
    count = 4 if is_short else 100
    choose = random.Random(count)
    inputs = [drawn_input(choose) for _ in range(count)]
    trial.replay(replay, inputs, "under valgrind", guard, threads=2)
    if not is_short:
        trial.call("misuse under valgrind", *guard, misuse)
        try_refused(trial, refused, REFUSED[3:4], guard)


def try_languages(trial):
    """The tests and examples of each language for which there are the tools."""
    python = {**os.environ, "PYTHONPATH": str(trial.library / "python"), "PYTHONDONTWRITEBYTECODE": "1"}
    trial.call("the Python module", sys.executable, "-W", "error", "-m", "unittest", "discover", "-s", TESTS, env=python)
    trial.call("examples/day.py", sys.executable, ROOT / "library/examples/day.py", env=python, cwd=ROOT)
    trial.call("examples/day.c", trial.compiled(ROOT / "library/examples/day.c"))
    if shutil.which("c++"):
        flags = ["-std=c++17", "-Wall", "-Wextra", "-Wpedantic"]
        trial.call("examples/day.cpp", trial.compiled(ROOT / "library/examples/day.cpp", compiler="c++", flags=flags))
    if shutil.which("cargo"):
        rust = {**os.environ, "STNU_LIB": str(trial.library / "lib"), "CARGO_TARGET_DIR": str(ROOT / "out" / "rust")}
        how = {"env": rust, "cwd": ROOT / "library" / "rust"}
        trial.call("the Rust crate", "cargo", "test", "--offline", "--locked", "-q", **how)
        trial.call("examples/day.rs", "cargo", "run", "--offline", "--locked", "-q", "--example", "day", **how)
    java = trial.library / "java"
    if (java / "stnu.jar").is_file() and shutil.which("java"):
        places = ["-cp", java / "stnu.jar", f"-Djava.library.path={java}"]
        trial.call("examples/Day.java", "java", "-Xcheck:jni", *places, ROOT / "library/examples/Day.java")


def try_wheel(trial):
    """Installs the wheel where nothing else is, without a network, and asks the module there."""
    room, wheel = trial.work / "venv", next((trial.library / "python").glob("stnu-*.whl"))
    python = room / "bin" / "python"
    trial.call("a fresh environment", sys.executable, "-m", "venv", room)
    trial.call("the wheel", python, "-m", "pip", "install", "--quiet", "--disable-pip-version-check", "--no-index", wheel)
    asked = "import stnu; print(stnu.__file__); assert stnu.check('stnu 1\\npoint A\\nend\\n')"
    trial.call("the module of the wheel", python, "-I", "-c", asked, cwd=trial.work)


def try_all(trial, given):
    replay, misuse = trial.compiled(TESTS / "replay.c"), trial.compiled(TESTS / "misuse.c")
    refused = trial.compiled(TESTS / "refused.c", *(f"-Wl,--wrap={name}" for name in WRAPPED))
    trial.replay(replay, rows(SHORT if given.short else sys.maxsize), "the rows")
    choose = random.Random(given.seed)
    for first in range(0, given.count, AT_ONCE):
        count = min(AT_ONCE, given.count - first)
        trial.replay(replay, (drawn_input(choose) for _ in range(count)), "drawn inputs", seed=given.seed + first)
    try_fronts(trial, FRONTS)
    trial.call("misuse", misuse)
    try_refused(trial, refused, REFUSED[3:4] if given.short else REFUSED)
    if shutil.which("valgrind"):
        try_under_valgrind(trial, replay, misuse, refused, given.short)
    try_languages(trial)
    if not given.short:
        try_wheel(trial)


def words(parser):
    about = "what was made (out/library)"
    parser.add_argument("--library", type=Path, default=ROOT / "out" / "library", metavar="DIR", help=about)
    about = "without large rows and the wheel, and little of it under valgrind"
    parser.add_argument("--short", action="store_true", help=about)
    front.program(parser)
    front.drawn(parser, 1000, "inputs")


def main(given):
    library = given.library.resolve()
    sys.path.insert(0, str(library / "python"))
    began = time.monotonic()
    with tempfile.TemporaryDirectory(prefix="stnu-compare-") as work:
        trial = Trial(Path(given.program).resolve(), library, Path(work))
        try_all(trial, given)
    print(f"library: {len(trial.failed)} failed, in {time.monotonic() - began:.0f} s")
    return 1 if trial.failed else 0
