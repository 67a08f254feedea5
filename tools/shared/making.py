"""How the program is made of its sources: the crates, the kit's words, what was read, and which
program is made of the sources as they stand. For `tools/start`, `tools/library` and
`tools/install`."""

import contextlib
import fcntl
import hashlib
import os
import re
import shutil
import signal
import subprocess
import sys
from pathlib import Path

from shared.places import ROOT, TOOLS

PROGRAM = "stnu_cli"
PROVED = ROOT / "crates" / PROGRAM / "out" / PROGRAM
# What the proved program was made of, beside it: the sum of the sources, and that of the program
# itself.
PROVED_OF = PROVED.with_suffix(".proved")
# The object file of which it was linked.
PROVED_OBJECT = PROVED.with_suffix(".o")
START = ROOT / "out" / "start"
CHECKED = START / PROGRAM
CHECKED_OF = START / "checked-of"
# What `.ci/run` touches before it has `rt ci` run.
GATE = START / "gate"
PARTS = ("src", "specs", "proofs")


class NoKit(Exception):
    """There is no Rattle kit."""


# What is called before a line is said: a line that moves makes room.
BEFORE_SAYING = []


def hand_on(text):
    """Writes what others said, on standard error."""
    for make_room in BEFORE_SAYING:
        make_room()
    sys.stderr.write(text)
    sys.stderr.flush()


def say(text):
    hand_on(f"stnu: {text}\n")


def ended_by_signals(main, *words, interrupted=130):
    """Calls this, so that a signal ends it as its `with`s want it. Gives its status; 1 where there
    is no kit."""
    signal.signal(signal.SIGTERM, lambda number, _: sys.exit(128 + number))
    try:
        return main(*words)
    except NoKit as why:
        say(why)
        return 1
    except KeyboardInterrupt:
        return interrupted


def ready_program(wanted=()):
    """Which program stands ready, `proved` or `checked`, or None where there is none; it is
    compiled where it must be."""
    words = [sys.executable, TOOLS / "start", "which", *wanted]
    done = subprocess.run(words, stdin=subprocess.DEVNULL, stdout=subprocess.PIPE, text=True, check=False)
    return done.stdout.strip() if done.returncode == 0 else None


def kit():
    """The folder of the Rattle kit, to which the command `rt` belongs."""
    found = shutil.which("rt")
    if not found:
        raise NoKit("there is no command rt, which the Rattle kit has")
    return Path(found).resolve().parent.parent


def words_of_link(to, made=PROVED_OBJECT):
    """The words by which the kit links a program of its object file, by default the proved one."""
    words = [kit() / "bin/rattle-link", "--target", "x86_64-unknown-linux-gnu", "--toolchain", kit() / "toolchain", "-o", to]
    return [*words, made, kit() / "c/libos_c.a", kit() / "c/liblibc_c.a"]


def libraries_of_kit(names):
    """For each of these libraries of the kit, and for each that they use, the libraries that it
    uses."""
    found, left = {}, list(names)
    while left:
        name = left.pop(0)
        if name not in found:
            said = (kit() / "rlibs" / f"{name}.rlib" / "format").read_text(encoding="utf-8")
            found[name] = re.findall(r"^dep (\w+)$", said, re.M)
            left += found[name]
    return found


class Crates:
    """The crates of the repository at a root, by its crates.txt, of which one is a program."""

    def __init__(self, root=ROOT, program=PROGRAM):
        self.root, self.program = Path(root), program
        lines = (self.root / "crates.txt").read_text(encoding="utf-8").splitlines()
        parts = (line.partition("#")[0].partition(":") for line in lines)
        self.libraries = {name.strip(): libraries.split() for name, colon, libraries in parts if colon}

    def folder(self, name):
        return self.root / "crates" / name

    def own(self, name):
        """The crates of the repository that this one names."""
        return [it for it in self.libraries[name] if it in self.libraries]

    def of_kit(self, name):
        """The libraries of the kit that this one names."""
        return ["std", *(it for it in self.libraries[name] if it not in self.libraries)]

    def keep_named(self, name, names):
        """Has a crate stand on those alone that are among these names."""
        self.libraries[name] = [it for it in self.libraries[name] if it in names]

    def below(self, name):
        """The crates on which this one stands, whether it names them or not, each after those on
        which it stands itself."""
        found = {}

        def find(crate):
            for need in self.own(crate):
                if need not in found:
                    find(need)
                    found[need] = None

        find(name)
        return [*found]

    def all(self):
        """The program's crate, after those on which it stands."""
        return [*self.below(self.program), self.program]

    def paths_of(self, name):
        """The folders and files of a crate that a proof or a compiler reads."""
        for part in PARTS:
            for at, folders, files in os.walk(self.folder(name) / part):
                folders.sort()
                yield at
                yield from (f"{at}/{file}" for file in sorted(files))

    def paths(self):
        """The folders and files of which the program is made."""
        yield from (str(path) for path in (self.root / "crates.txt", self.root / "HANDLES") if path.exists())
        for name in self.all():
            yield from self.paths_of(name)

    def sum_of(self, names, ending=""):
        """A sum of what the files of these crates hold whose names end so."""
        sum = hashlib.sha256()
        for name in names:
            sum.update(repr((name, self.libraries[name])).encode())
            for path in self.paths_of(name):
                if path.endswith(ending) and os.path.isfile(path):
                    sum.update(repr((os.path.relpath(path, self.root), Path(path).read_bytes())).encode())
        return sum.hexdigest()

    def kit_below(self, name):
        """The libraries of the kit that a crate and those below it stand on, each with those that
        it uses."""
        return libraries_of_kit(["std", *(it for crate in [name, *self.below(name)] for it in self.of_kit(crate))])

    def roots_below(self, name):
        """The root files of the crates below, and of the libraries of the kit, by their names."""
        roots = {crate: f"{self.folder(crate)}/src/lib.rt" for crate in self.below(name)}
        return roots | {library: f"{kit()}/rattle/{library}/src/lib.rt" for library in self.kit_below(name)}

    def sources_below(self, name, roots):
        """The words by which a compiler is given the crates below, and the libraries of the kit, as
        source with these root files."""
        words = []
        uses = {crate: dict.fromkeys(["core", *self.of_kit(crate), *self.own(crate)]) for crate in self.below(name)}
        for library, used in (uses | self.kit_below(name)).items():
            words += ["--lib", f"{library}:{','.join(used)}={roots[library]}"]
        return words


def times(paths):
    """When each of these was changed last, in nanoseconds, however it was changed; None for what is
    not there."""
    found = {}
    for path in paths:
        try:
            found[path] = os.lstat(path).st_ctime_ns
        except OSError:
            found[path] = None
    return found


def sum_of_file(path):
    return hashlib.sha256(Path(path).read_bytes()).hexdigest()


def write(path, text):
    """Writes a file whole, or not at all."""
    part = Path(f"{path}.{os.getpid()}")
    part.write_text(text, encoding="utf-8")
    part.replace(path)


def read(path):
    try:
        return Path(path).read_text(encoding="utf-8")
    except (OSError, UnicodeDecodeError):
        return ""


def note_proved(sum):
    """Notes beside the proved program of which sources it was made."""
    write(PROVED_OF, f"{sum}\n{sum_of_file(PROVED)}\n")


def rt_ci_began():
    """When the last `rt ci` of this copy of the repository began, in nanoseconds, once it has
    ended: it opened a file then, which it locks."""
    git = ROOT / ".git"
    if git.is_file():
        git = ROOT / read(git).strip().replace("gitdir: ", "", 1)
    with open(git / "rt-ci.lock", encoding="utf-8") as lock:
        fcntl.flock(lock, fcntl.LOCK_SH | fcntl.LOCK_NB)
        return os.fstat(lock.fileno()).st_mtime_ns


def gate_began():
    """When the last run of `.ci/run` began, which has `rt ci` run."""
    return os.stat(GATE).st_mtime_ns


def is_of_gate(crates):
    """Whether the proved program was made by a `rt ci` that began after the last change of its
    sources: it first puts away what was made before."""
    made = os.stat(PROVED).st_mtime_ns
    changed = max(it for it in times(crates.paths()).values() if it is not None)
    for began in (rt_ci_began, gate_began):
        # (there is no such run, or one is under way)
        with contextlib.suppress(OSError):
            if made >= began() > changed:
                return True
    return False


def is_proved(crates):
    """Whether the proved program is there and made of the sources as they stand."""
    try:
        if not os.access(PROVED, os.X_OK):
            return False
        sum = crates.sum_of(crates.all())
        if read(PROVED_OF) == f"{sum}\n{sum_of_file(PROVED)}\n":
            return True
        if not is_of_gate(crates):
            return False
        with contextlib.suppress(OSError):
            note_proved(sum)
        return True
    except OSError:
        # (`rt ci` may put it away meanwhile)
        return False


class Guarded:
    """Starts commands that end when the `with` does, or this process, however it ends: a shell that
    waits for that ends its process group."""

    def __enter__(self):
        ends, self.held = os.pipe()
        how = {"stdin": ends, "stdout": subprocess.DEVNULL, "stderr": subprocess.DEVNULL}
        # (it is a group of its own before any command joins that)
        self.shell = subprocess.Popen(["sh", "-c", "read _; kill -9 0"], preexec_fn=os.setpgrp, **how)
        os.close(ends)
        return self

    def __exit__(self, *_):
        os.close(self.held)
        self.shell.wait()

    def group(self):
        """The process group that ends."""
        return self.shell.pid

    def start(self, words, **how):
        group = self.group()
        how = {"stdin": subprocess.DEVNULL, **how}
        return subprocess.Popen([*map(str, words)], preexec_fn=lambda: os.setpgid(0, group), **how)


def locked(path, why, meanwhile=contextlib.nullcontext()):
    """Opens a file or folder for this process alone, and says why it waits where another one has
    it. Gives what holds it, and whether it waited; `meanwhile` is entered while it does."""
    held = os.open(path, os.O_RDONLY if os.path.isdir(path) else os.O_RDWR | os.O_CREAT, 0o644)
    try:
        fcntl.flock(held, fcntl.LOCK_EX | fcntl.LOCK_NB)
        return held, False
    except BlockingIOError:
        if why:
            say(why)
        with meanwhile:
            fcntl.flock(held, fcntl.LOCK_EX)
        return held, True
    except OSError:
        # (a file system without locks)
        return held, False
