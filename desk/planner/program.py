"""The program: how it is found, one call with its answer, and a talk over two pipes; each call as a line of the shell that repeats it."""

import os
import shlex
import shutil
import subprocess
import sys
from dataclasses import dataclass, field
from pathlib import Path

from planner.faults import Fault, Status, to_standard_error
from planner.output import ENCODING


@dataclass(frozen=True)
class Source:
    """A text for the program, the words by which it is read, and how the shell makes it.

    `file` is the file that has this text and nothing more, `origin` a command of the shell that prints it; where both are None the
    shell is shown the text itself.
    """

    text: str
    words: tuple[str, ...] = ()
    file: str | None = None
    origin: str | None = None

    def printed(self):
        """A command of the shell that prints the text."""
        if self.file is not None:
            return f"cat {shlex.quote(self.file)}" + ("" if self.text.endswith("\n") else "; echo")
        return self.origin if self.origin is not None else lines_printed(self.text.removesuffix("\n").split("\n"))

    def cut(self, count):
        """This source, whose text is that of its file without so many lines in front."""
        printed = None if self.file is None else f"sed 1,{count}d {shlex.quote(self.file)}"
        return Source(self.text, self.words, origin=printed)

    def changed(self, text):
        """This source with another text of as many lines, of which only some differ."""
        before, after = self.text.split("\n"), text.split("\n")
        if len(before) != len(after):
            return Source(text, self.words)
        edits = [f"{number}s/.*/{replacement(new)}/" for number, (old, new) in enumerate(zip(before, after), 1) if old != new]
        if not edits:
            return self
        script = " ".join(f"-e {shlex.quote(edit)}" for edit in edits)
        if self.file is not None:
            return Source(text, self.words, origin=f"sed {script} {shlex.quote(self.file)}")
        return Source(text, self.words, origin=f"{{ {self.printed()}; }} | sed {script}")

    def with_delay(self, delay):
        """This source read with another delay than its own; with its own where that is None."""
        words = self.words
        if "--delay" in words:
            place = words.index("--delay")
            words = words[:place] + words[place + 2 :]
        more = () if delay is None else ("--delay", str(delay))
        return Source(self.text, words + more, self.file, self.origin)


def replacement(line):
    """A line as the right side of a command `s` of sed."""
    return line.replace("\\", "\\\\").replace("/", "\\/").replace("&", "\\&")


def lines_printed(lines):
    """A command of the shell that prints these lines."""
    return "printf '%s\\n' " + " ".join(shlex.quote(line) for line in lines)


@dataclass(frozen=True)
class Answer:
    """What the program answered to one call: its status, its lines, and the call as a line of the shell."""

    status: int
    lines: list[str]
    call: str

    @property
    def first(self):
        return self.lines[0] if self.lines else ""

    @property
    def is_kept(self):
        return self.status == Status.KEPT

    @property
    def is_refused(self):
        """Whether the program took the input for none, or passed a limit, so that there is no verdict."""
        return self.status not in (Status.KEPT, Status.NOT_KEPT)

    def certificate(self):
        """The lines of the first certificate of the answer; those of `strong` too."""
        start = next(place for place, line in enumerate(self.lines) if line in ("certificate 1", "strong 1"))
        return self.lines[start : self.lines.index("end", start) + 1]


@dataclass
class Program:
    """The program at a path, each of whose calls is shown on standard error where that is asked for."""

    path: str
    shows_calls: bool = False
    # Whether all calls are of one command of the program.
    calls_one: bool = False

    @classmethod
    def found(cls, path=None, shows_calls=False, calls_one=False):
        """The program that is asked: the one named, else the one beside this package, else that of the search path."""
        if path is None:
            beside = Path(__file__).resolve().parents[2] / "stnu"
            path = relative(beside) if beside.is_file() else shutil.which("stnu")
        if path is None:
            raise Fault("there is no program stnu beside planner nor on the search path; name it by --program", Status.NO_PROGRAM)
        return cls(path, shows_calls, calls_one)

    def compile_first(self, words):
        """Has the launcher's program compiled, if none is for a call with these words; that tells how far it is, which calls do not."""
        root = Path(self.path).parent
        one = f"one-{words[0]}" + "-words" * (len(words) > 1)
        if not (root / "tools/start").is_dir() or any((root / "out/start" / it).is_file() for it in ("proved", "checked", one)):
            return
        wanted = os.environ.get("STNU_PROGRAM")
        more = [wanted] if wanted else ["--command", words[0], *["--alone"] * (len(words) == 1)] if self.calls_one else []
        nothing = {"stdin": subprocess.DEVNULL, "stdout": subprocess.DEVNULL}
        if subprocess.run([sys.executable, root / "tools/start", "which", *more], check=False, **nothing).returncode:
            self.complain(Status.NO_PROGRAM)

    def call(self, words, *sources, is_shown=True):
        """The answer to a call with these words, whose input is these texts one after another.

        With `is_shown` the call is shown, where calls are: of calls of which nothing is told the rest is spared.
        """
        command = [self.path, *words, *(word for source in sources for word in source.words)]
        text = joined(sources)
        self.compile_first(command[1:])
        try:
            done = subprocess.run(command, input=text, stdout=subprocess.PIPE, check=False, env=quiet(), **ENCODING)
        except OSError as why:
            raise self.unfit(why) from why
        self.complain(done.returncode)
        answer = Answer(done.returncode, lines_of(done.stdout), self.shell(words, *sources))
        if is_shown:
            self.show(answer.call)
        return answer

    def shell(self, words, *sources):
        """A call as a line of the shell that repeats it."""
        command = shlex.join([self.path, *words, *(word for source in sources for word in source.words)])
        match sources:
            case []:
                return command
            case [Source(file=str() as file)]:
                return f"{command} < {shlex.quote(file)}"
            case [source]:
                return f"{grouped([source.printed()])} | {command}"
        return f"{grouped([source.printed() for source in sources])} | {command}"

    def quick(self):
        """This program without the launcher in front of it, which takes longer than a small plan: for many calls one after another."""
        tool = Path(self.path).parent / "tools" / "start"
        if not tool.is_dir():
            return self
        words = [sys.executable, tool, "which", *filter(None, [os.environ.get("STNU_PROGRAM")])]
        done = subprocess.run(words, stdin=subprocess.DEVNULL, stdout=subprocess.PIPE, check=False, env=quiet(), **ENCODING)
        inner = {"proved": "crates/stnu_cli/out/stnu_cli", "checked": "out/start/stnu_cli"}.get(done.stdout.strip())
        return Program(relative(tool.parents[1].resolve() / inner), self.shows_calls) if done.returncode == 0 and inner else self

    def show(self, call):
        """Shows a call, where calls are to be shown."""
        if self.shows_calls:
            sys.stdout.flush()
            to_standard_error(f"$ {call}")

    def talk(self, command, source):
        """A talk with the program, by `run`, `session` or `fleet`, that begins with this text."""
        return Talk(self, command, source)

    def unfit(self, why):
        return Fault(f"{self.path}: {(why.strerror or str(why)).lower()}; --program names the program stnu", Status.NO_PROGRAM)

    def complain(self, status):
        """Raises what a status says that no answer of the program has."""
        if status == Status.NO_PROGRAM:
            raise Fault(f"{self.path} has no program to run", Status.NO_PROGRAM)
        if status < 0:
            raise Fault(f"the program was ended by signal {-status}", 128 - status)
        if status == Status.MEMORY:
            raise Fault("the program had not enough memory", Status.MEMORY)


def relative(path):
    """A path as it is typed from here, where that is shorter."""
    try:
        near = os.path.relpath(path)
    except ValueError:
        return str(path)
    if near.startswith(".."):
        return str(path)
    return near if os.sep in near else os.path.join(".", near)


def quiet():
    """The environment in which the launcher tells nothing of its own."""
    return {**os.environ, "STNU_QUIET": "1"}


def lines_of(text):
    return text.removesuffix("\n").split("\n") if text else []


def joined(sources):
    """Texts one after another, each of which ends with a line end."""
    *first, last = [source.text for source in sources] or [""]
    return "".join(text if text.endswith("\n") or not text else text + "\n" for text in first) + last


def grouped(commands):
    return commands[0] if len(commands) == 1 and ";" not in commands[0] else f"{{ {'; '.join(commands)}; }}"


@dataclass
class Talk:
    """The program over two pipes. It answers each line before it reads the next, so each answer is read before the next line is sent."""

    program: Program
    command: str
    source: Source
    sent: list[str] = field(default_factory=list)

    def __post_init__(self):
        pipes = {"stdin": subprocess.PIPE, "stdout": subprocess.PIPE}
        words = [self.program.path, self.command, *self.source.words]
        self.program.compile_first(words[1:])
        try:
            self.child = subprocess.Popen(words, env=quiet(), **pipes, **ENCODING)
        except OSError as why:
            raise self.program.unfit(why) from why
        self.write(joined([self.source, Source("")]))
        if not has_end(self.source.text):
            # More of the plan would be waited for.
            self.close_input()

    def write(self, text):
        try:
            self.child.stdin.write(text)
            self.child.stdin.flush()
        except (BrokenPipeError, ValueError):
            # The program has ended, or the pipe is closed: what it said last is still to be read.
            pass

    def send(self, line):
        """Sends a line."""
        self.sent.append(line)
        self.write(line + "\n")

    def line(self):
        """The next line that it says, without its line end; an empty text where it has ended."""
        return self.child.stdout.readline().removesuffix("\n")

    def lines(self, is_last):
        """The lines up to one of which this is true, or up to where it has ended; the last one is empty then."""
        lines = [self.line()]
        while lines[-1] and not is_last(lines[-1]):
            lines.append(self.line())
        return lines

    def ask(self, line, wanted):
        """Sends a line, and returns the line that answers it, which is one of these."""
        self.send(line)
        return self.expect(wanted)

    def expect(self, wanted):
        """The next line, which is one of these."""
        said = self.line()
        if said not in wanted:
            raise Fault(f"the program says: {said or 'nothing'}", self.close() or Status.DEFECT)
        return said

    def shell(self):
        """The talk so far as a line of the shell that repeats it."""
        return self.program.shell([self.command], self.source, *([Source("\n".join(self.sent) + "\n")] if self.sent else []))

    def show(self):
        """Shows the talk so far, where calls are to be shown."""
        self.program.show(self.shell())

    def close_input(self):
        try:
            self.child.stdin.close()
        except BrokenPipeError:
            pass

    def close(self):
        """Ends the talk, and returns the program's status."""
        self.close_input()
        self.child.stdout.close()
        status = self.child.wait()
        self.program.complain(status)
        return status

    def __enter__(self):
        return self

    def __exit__(self, *_):
        self.close_input()
        self.child.stdout.close()
        if self.child.poll() is None:
            self.child.terminate()
        self.child.wait()


def has_end(text):
    return text.rstrip(" \t\r\n").rpartition("\n")[2].strip(" \t\r") == "end"


class Session(Talk):
    """A session of the program over a plan, which it has taken."""

    def __init__(self, program, source):
        super().__init__(program, "session", source)
        self.expect(["ready"])

    def edit(self, line):
        """Sends an edit that the plan allows."""
        self.ask(line, ["ok"])

    def is_kept(self):
        """Whether the plan as it stands can be kept."""
        return self.ask("verdict", ["controllable", "not controllable"]) == "controllable"

    def certificate(self):
        """The lines of the certificate of the plan as it stands."""
        self.send("proof")
        return self.lines(lambda line: line == "end")
