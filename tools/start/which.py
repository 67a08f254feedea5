"""Says which program `./stnu` runs, `proved` or `checked`, and compiles that with checks where it
is to be.

It is the proved one where that is made of the sources as they stand, else the one that is compiled
with checks; where a word is given, that one. What it finds it notes in out/start, so that the
launcher asks again only once something changed. Several calls wait for each other, so one compiles.

With `--command` and no other word it may be a smaller program, which answers the calls of that
command alone (`one_command.py`), or with `--alone` those of them that have no more words: if no
program is compiled of the sources as they stand, that one is, and a process that stays behind
compiles the whole. It ends once that is done, or once a call finds that the sources were changed.

Status: 0, or 1 where there is no such program, which standard error tells.
"""

import contextlib
import fcntl
import os
import re
import select
import signal
import subprocess
import sys
import time

from shared.making import (
    CHECKED,
    CHECKED_OF,
    PROVED,
    START,
    Crates,
    ended_by_signals,
    is_proved,
    kit,
    locked,
    read,
    say,
    sum_of_file,
    times,
    write,
)
from shared.places import ROOT, TOOLS
from shared.progress import Progress, is_quiet
from start.compile import LAST, USUAL

# What the checked program depends on beside its sources, and how it is called.
COMPILER_FILES = ("compile.py", "needed.py", "one_command.py", "no_words.rt.txt", "parts.py", "split.c")
COMPILER = [TOOLS / "start" / it for it in COMPILER_FILES]
COMPILE = TOOLS / "compile-checked"
# What is changed within this time of another change may bear the same time (nanoseconds).
TICK = 20_000_000
# So ends the compiler where the kit's form is another than it knows.
OTHER_FORM = 3
# What the process that stays behind has for itself, and writes there: its number, and the sum of
# the sources.
LOCK = START / "lock"
# How much others come before that process, and within how many seconds it ends once it is told to.
BEHIND = 10
SOON = 5


class Compiled:
    """A program that is compiled with checks: the whole one, or that of one command."""

    def __init__(self, name, program, made_of, words=()):
        """The launcher knows it by a name; `made_of` is the file that says of what it is made, and
        these further words have it compiled."""
        self.name, self.program, self.made_of, self.words = name, program, made_of, words


WHOLE = Compiled("checked", CHECKED, CHECKED_OF)


def one_of(command, is_alone):
    """The program of one command, as the launcher calls it; None for what no command can be."""
    if not re.fullmatch("[a-z]+", command or ""):
        return None
    name = f"one-{command}" if is_alone else f"one-{command}-words"
    words = ["--command", command, *["--alone"] * is_alone]
    return Compiled(name, START / f"{name}.program", START / f"{name}.of", words)


class Ready:
    """The sources as they stood when it was asked which program is made of them."""

    def __init__(self):
        self.crates = Crates()
        # (with the folders of the crates, in which a part may appear)
        self.sources = self.settled([*self.crates.paths(), *(str(self.crates.folder(it)) for it in self.crates.all())])

    @staticmethod
    def settled(paths):
        """When each of these was changed last, once that is so long ago that any later change bears
        a later time."""
        while True:
            found = times(paths)
            age = time.time_ns() - max(it for it in found.values() if it is not None)
            if not 0 <= age < TICK:
                return found
            time.sleep(TICK / 1e9)

    def note(self, which, paths, but=()):
        """Notes that this program is made of the sources as long as none of these changes, nor a
        source, but for those with such an ending."""
        sources = {it: was for it, was in self.sources.items() if not it.endswith(tuple(but))}
        found = self.settled([*sources, *map(str, paths)])
        newest = max(it for it in found.values() if it is not None)
        is_same = all(found[it] == was for it, was in sources.items())
        if not is_same or None in found.values() or newest > time.time_ns():
            return
        part = START / f"{which}.new"
        part.write_bytes(b"".join(os.path.relpath(it, ROOT).encode() + b"\0" for it in found))
        os.utime(part, ns=(newest, newest))
        part.replace(START / which)

    def sum(self):
        """A sum of what the compiled program is made of; it is given no definition and no proof."""
        return " ".join([*map(sum_of_file, COMPILER), self.crates.sum_of(self.crates.all(), ".rt")])

    def is_compiled(self, it):
        with contextlib.suppress(OSError):
            return read(it.made_of) == f"{self.sum()}\n{sum_of_file(it.program)}\n"
        return False

    def has_one(self):
        """Whether the program of some command is compiled of the sources as they stand."""
        sum = self.sum()
        return any(read(it).startswith(f"{sum}\n") for it in START.glob("one-*.of"))

    def compile(self, it):
        """Compiles a program with checks. Gives the compiler's status."""
        kit()
        sum = self.sum()
        if not is_quiet():
            what = f"what answers {it.words[1]}" if it.words else "the program"
            say(f"{what} is compiled first, with checks and without a proof; {how_long(it)}")
        words = [COMPILE, ROOT, self.crates.program, it.program, *it.words]
        ran = subprocess.run(words, stdin=subprocess.DEVNULL, stdout=sys.stderr, check=False)
        if ran.returncode == 0:
            if self.sum() != sum:
                say("a source was changed meanwhile: call this once more")
                return 1
            write(it.made_of, f"{sum}\n{sum_of_file(it.program)}\n")
        return ran.returncode


def how_long(it):
    if not it.words:
        return "about a minute by four processors, two by two"
    share = "some two fifths" if "--alone" in it.words else "some two thirds"
    return f"{share} of the work of the whole program, which is compiled behind it"


def found_proved(ready):
    if not is_proved(ready.crates):
        return False
    ready.note("proved", [PROVED])
    return True


def made(ready, it):
    """Has this program compiled with checks, if it is not. Gives the compiler's status."""
    status = 0 if ready.is_compiled(it) else ready.compile(it)
    if status == 0:
        # (a proved program appears in a folder that is there, or is made for it)
        above = next(it for it in PROVED.parents if it.is_dir())
        paths = [it.program, *COMPILER, above, *[PROVED] * PROVED.is_file()]
        # (definitions and proofs say only whether a proved program is still that of the sources)
        ready.note(it.name, paths, but=() if PROVED.is_file() else (".antt",))
    return status


def made_checked(ready, one):
    """Has a program compiled that answers this call: the whole one, or that of one command if it
    comes first. Gives its name, and the compiler's status."""
    if one and not ready.is_compiled(WHOLE):
        is_first = not ready.has_one()
        if is_first or ready.is_compiled(one):
            for left in START.glob("one-*") if is_first else ():
                # (of other sources than these)
                left.unlink(missing_ok=True)
            status = made(ready, one)
            if status == 0 and is_first:
                compile_behind()
            if status != OTHER_FORM:
                return one.name, status
    return WHOLE.name, made(ready, WHOLE)


def compile_behind():
    """Has the whole program compiled by a process that stays behind, after all others."""
    words = [sys.executable, TOOLS / "start", "which", "checked", "--behind"]
    none = {"stdin": subprocess.DEVNULL, "stdout": subprocess.DEVNULL, "stderr": subprocess.DEVNULL}
    subprocess.Popen(words, cwd="/", start_new_session=True, **none)


def end_behind(sum):
    """Ends the process that stayed behind, if it compiles other sources than those of this sum."""
    with contextlib.suppress(OSError, ValueError), open(LOCK, encoding="utf-8") as lock:
        number = int(lock.read().partition(" ")[0])
        process = os.pidfd_open(number)
        lock.seek(0)
        # (that one has the lock, and so is the one with this number)
        said = lock.read().split()
        try:
            fcntl.flock(lock, fcntl.LOCK_SH | fcntl.LOCK_NB)
        except BlockingIOError:
            if said[:1] == [str(number)] and said[1:] != sum.split():
                signal.pidfd_send_signal(process, signal.SIGTERM)
                select.select([process], [], [], SOON)
        os.close(process)


def proved_after_all():
    """Proves the program where this kit does not let it be compiled and kept without that."""
    say("this kit does not let what it compiles with checks be kept, so the program is proved and built, which takes much longer")
    words = [TOOLS / "prove-and-build"]
    return subprocess.run(words, stdin=subprocess.DEVNULL, stdout=sys.stderr, check=False).returncode == 0


def ready_program(ready, wanted, one):
    if wanted != "checked" and found_proved(ready):
        return "proved"
    if wanted == "proved":
        say("the proved program is not there, or a source was changed since; tools/prove-and-build makes it, and so does rt ci")
        return None
    if not wanted:
        (START / "proved").unlink(missing_ok=True)
    name, status = made_checked(ready, one)
    if status == OTHER_FORM and not wanted:
        return "proved" if proved_after_all() and found_proved(Ready()) else None
    return name if status == 0 else None


def told(wanted, one, is_behind):
    START.mkdir(parents=True, exist_ok=True)
    ready = Ready()
    sum = ready.sum()
    end_behind(sum)
    why = None if is_quiet() else "another call compiles the program; this one waits for it"
    held, has_waited = locked(LOCK, why, Progress("another call compiles the program", LAST, USUAL))
    if is_behind:
        os.nice(BEHIND)
    os.truncate(held, 0)
    os.write(held, f"{os.getpid()} {sum}\n".encode() * is_behind)
    which = ready_program(Ready() if has_waited else ready, wanted, one)
    os.close(held)
    if which is None:
        return 1
    print(which)
    return 0


def words(parser):
    about = "the program that is wanted; another word is as none"
    parser.add_argument("wanted", nargs="?", default="", metavar="proved|checked", help=about)
    parser.add_argument("--command", metavar="WORD", help="the call is one of this command")
    parser.add_argument("--alone", action="store_true", help="and has no more words")
    parser.add_argument("--behind", action="store_true", help="others come before this")


def main(given):
    wanted = given.wanted if given.wanted in ("proved", "checked") else ""
    one = None if wanted else one_of(given.command, given.alone)
    return ended_by_signals(told, wanted, one, given.behind)
