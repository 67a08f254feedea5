"""Proves the crates that the program stands on and builds it, for the launcher `./stnu`.

Standard error says how far it is and how long the last took (STNU_QUIET=1 leaves that out). Each
crate is proved once, from its sources, as `rt ci` proves it, and of its proofs the library keeps
what other crates cite. Independent crates are proved side by side, as many as there are processors,
each by one job: more jobs take up to a third more processor time. What is proved is kept, and
proved again only where its sources changed, or the libraries below it. While this works no other
`rt` does in these crates; the launcher goes on. Status: 0, or 1 where a crate is not proved.
"""

import os
import resource
import subprocess
from graphlib import TopologicalSorter

from shared.making import (
    PROGRAM,
    PROVED,
    PROVED_OBJECT,
    START,
    Crates,
    Guarded,
    ended_by_signals,
    is_proved,
    kit,
    locked,
    note_proved,
    read,
    say,
    sum_of_file,
    words_of_link,
    write,
)
from shared.progress import Progress, is_quiet

LOG = "proving.log"
# How long it takes: what the last took that proved all is noted, and else so long.
LAST = START / "proving-seconds"
USUAL = "the first takes twenty to forty minutes by four processors"


class Proving:
    """The crates of the program, and how each is proved."""

    def __init__(self, guarded):
        self.crates = Crates()
        self.guarded = guarded
        self.order = self.crates.all()
        self.kit_sum = read(kit() / "KIT-ID")
        # (how many this call proves)
        self.proved = 0
        self.length = {}
        for name in reversed(self.order):
            after = (self.length[it] for it in self.length if name in self.crates.own(it))
            self.length[name] = self.size(name) + max(after, default=0)

    def size(self, name):
        """The bytes of a crate's code, by which its time is guessed: lemmas take little."""
        return sum(file.stat().st_size for file in (self.crates.folder(name) / "src").rglob("*.rt"))

    def out(self, name):
        return self.crates.folder(name) / "out"

    def library(self, name):
        """Where the library of a crate is kept, apart from that which `rt` builds for checks: it
        holds less."""
        return self.out(name) / "rlib" / "statements" / f"{name}.rlib"

    def stamp(self, name):
        """A sum of all that the proof of a crate reads: its sources, the kit, and the libraries
        below it, each by the sum that it holds."""
        below = [sum_of_file(self.library(it) / "format") for it in self.crates.below(name)]
        return repr((self.kit_sum, self.crates.sum_of([name]), below))

    def is_kept(self, name):
        try:
            return read(self.library(name).parent / "stamp") == self.stamp(name)
        except OSError:
            return False

    def words(self, name):
        """The words by which `rt ci` has a crate proved and built."""
        is_program = name == PROGRAM
        words = [kit() / "bin" / "rattle", "build", "--crate-name", name, f"src/{'main' if is_program else 'lib'}.rt"]
        for library in self.crates.of_kit(name):
            words += ["--extern", f"{library}={kit()}/rlibs/{library}.rlib"]
        words += ["-L", f"dependency={kit()}/rlibs"]
        for crate in self.crates.own(name):
            words += ["--extern", f"{crate}={self.library(crate)}"]
        for crate in self.crates.below(name):
            words += ["-L", f"dependency={self.library(crate).parent}"]
        words += ["--antt-project", kit() / "rattle/logic/antt-project.json", "--logic-built", kit() / "logic_built"]
        words += ["--jobs", 1, "--links", f"{name}="]
        if is_program:
            return [*words, "--toolchain", kit() / "toolchain", "--backend", "llvm", "-o", f"out/{name}.o"]
        return [*words, "--statements", "-o", self.library(name)]

    def start(self, name):
        """Begins to prove a crate. Gives what runs and what it was begun with."""
        kept = self.library(name).parent if name != PROGRAM else self.out(name)
        kept.mkdir(parents=True, exist_ok=True)
        (kept / "stamp").unlink(missing_ok=True)
        stamp = self.stamp(name)
        with open(self.out(name) / LOG, "w", encoding="utf-8") as said:
            how = {"cwd": self.crates.folder(name), "stdout": said, "stderr": subprocess.STDOUT}
            ran = self.guarded.start(self.words(name), **how)
        return ran, stamp

    def ended(self, name, status, stamp):
        """Whether the crate is proved whose proof ended so, and its sources are still those that it
        began with."""
        if status or self.stamp(name) != stamp:
            return False
        if name != PROGRAM:
            write(self.library(name).parent / "stamp", stamp)
        return True

    def to_prove(self, order, tell):
        """Those of the crates that can be proved now; what an earlier call proved of the same is
        passed over."""
        found = []
        while names := order.get_ready():
            for name in names:
                if self.is_kept(name):
                    order.done(name)
                    tell(under_way=())
                else:
                    found.append(name)
        return found

    def prove_all(self, processors, tell):
        """Proves all crates, those first that the longest chain of crates waits for. Gives the
        first that is not proved, or None."""
        order = TopologicalSorter({name: self.crates.own(name) for name in self.order})
        order.prepare()
        ready, under_way, failed = [], {}, None
        while order.is_active():
            ready = sorted([*ready, *self.to_prove(order, tell)], key=self.length.get, reverse=True)
            while ready and len(under_way) < processors and failed is None:
                name = ready.pop(0)
                ran, stamp = self.start(name)
                under_way[ran.pid] = ran, name, stamp
            if not under_way:
                break
            tell(under_way=[name for _, name, _ in under_way.values()], done=0)
            name, is_proved_now = self.wait(under_way)
            if is_proved_now:
                self.proved += 1
                order.done(name)
                tell(under_way=[name for _, name, _ in under_way.values()])
            else:
                failed = failed or name
        return failed

    def wait(self, under_way):
        """Waits until one of these proofs ends. Gives its crate, and whether that is proved."""
        while True:
            pid, status = os.wait()
            if pid in under_way:
                ran, name, stamp = under_way.pop(pid)
                ran.returncode = os.waitstatus_to_exitcode(status)
                return name, self.ended(name, ran.returncode, stamp)

    def link(self):
        """Whether the program is linked of what was compiled, and stands in its place."""
        linked = PROVED.with_suffix(".new")
        with open(self.out(PROGRAM) / LOG, "a", encoding="utf-8") as said:
            how = {"cwd": self.crates.folder(PROGRAM), "stdout": said, "stderr": subprocess.STDOUT}
            ran = self.guarded.start(words_of_link(linked), **how)
            if ran.wait():
                return False
        linked.replace(PROVED)
        return True


def prove_and_link(proving, progress):
    """Proves what is not proved, and links the program. Gives the crate that is not proved, or
    None."""
    count = 0

    def tell(under_way, done=1):
        nonlocal count
        count += done
        progress.at(count, len(proving.order), f"{', '.join(under_way)} under way" if under_way else "")

    failed = proving.prove_all(len(os.sched_getaffinity(0)), tell)
    return PROGRAM if failed is None and not proving.link() else failed


def build(crates, proving):
    sum = crates.sum_of(crates.all())
    if not is_quiet():
        say(f"the program is proved and built, by {len(os.sched_getaffinity(0))} processors, which takes a while")
    with Progress("the program is proved", LAST, USUAL, "crates") as progress:
        failed = prove_and_link(proving, progress)
        if failed is None and proving.proved == len(proving.order):
            progress.keep()
    if failed is not None:
        say(f"{failed} is not proved, or was changed meanwhile; what the prover said is in crates/{failed}/out/{LOG}")
        return 1
    if crates.sum_of(crates.all()) != sum:
        say("a source was changed meanwhile: call this once more")
        return 1
    note_proved(sum)
    used = resource.getrusage(resource.RUSAGE_CHILDREN)
    if not is_quiet():
        say(f"the program is proved and built, in {(used.ru_utime + used.ru_stime) / 60:.1f} minutes of processor time")
    return 0


def prove():
    crates = Crates()
    held = [locked(crates.folder(it), f"waits until no other rt works in crates/{it}") for it in sorted(crates.all())]
    if is_proved(crates) and PROVED_OBJECT.is_file():
        say("the program is proved and built already")
        return 0
    with Guarded() as guarded:
        return build(crates, Proving(guarded))


def main(_given):
    return ended_by_signals(prove, interrupted=1)
