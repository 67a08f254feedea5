"""What the slow programs answer to an input, what a program answers, and what differs."""

import io
import os
import select
import subprocess
from collections import Counter

PATIENCE = 20


class Counted(io.BytesIO):
    """An input that counts how often a line of it was asked for, its end included."""

    asked = 0

    def readline(self, most):
        self.asked += 1
        return super().readline(most)


def wanted_of(run, data, delay=None):
    """The answers of a slow program to the lines of an input, each alone, the last one to its end,
    and the status."""
    stream = Counted(data)
    answers = [""] * (len(data.splitlines()) + 1)

    def put(lines):
        answers[stream.asked - 1] += "".join(f"{line}\n" for line in lines)

    return answers, run(stream, put, delay)


def given_at_once(command, data):
    """The answers to an input and the status; None for it where the run has not ended in PATIENCE
    seconds."""
    try:
        done = subprocess.run(command, input=data, stdout=subprocess.PIPE, check=False, timeout=PATIENCE)
    except subprocess.TimeoutExpired as expired:
        return (expired.stdout or b"").decode(), None
    return done.stdout.decode(), done.returncode


def given_line_by_line(command, data, answers):
    """The same, where a line is sent when the answer to the one before has come, or has not come
    for PATIENCE seconds."""
    given = b""
    with subprocess.Popen(command, stdin=subprocess.PIPE, stdout=subprocess.PIPE, bufsize=0) as child:
        for line, answer in zip(data.splitlines(keepends=True), answers):
            try:
                child.stdin.write(line)
            except BrokenPipeError:
                break
            left = len(answer) if line.endswith(b"\n") else 0
            while left > 0:
                if not select.select([child.stdout], [], [], PATIENCE)[0]:
                    child.kill()
                    return f"{given.decode()} and then nothing to {line}", None
                piece = os.read(child.stdout.fileno(), left)
                if not piece:
                    break
                given, left = given + piece, left - len(piece)
        child.stdin.close()
        given += child.stdout.read()
    return given.decode(), child.returncode


def given_as_drawn(number, command, data, answers):
    """Each tenth input is sent line by line, and the others at once."""
    return given_at_once(command, data) if number % 10 else given_line_by_line(command, data, answers)


def asked(choose, command, words=()):
    """A call with these words, and often with a number of workers."""
    return [*command, *words, *choose.choice([[], ["--workers", "2"], ["--workers=7"]])]


class Differences:
    """What differs of many answers, and how often each kind of answer came."""

    def __init__(self):
        self.count, self.kinds = 0, Counter()

    def compare(self, given, wanted, *what):
        """Prints an answer that is not as wanted, and what it answers to; tells whether it is."""
        if given == wanted:
            return True
        self.count += 1
        print(f"differs: {given} and not {wanted} for {' and '.join(map(repr, what))}")
        return False

    def end(self, told):
        """Prints how often each kind came, and what is told at the end. Gives the status."""
        for kind, times in self.kinds.most_common():
            print(f"{times:8} {kind}")
        print(told)
        return 1 if self.count else 0


def words_alone(line):
    """A line without its numbers."""
    return " ".join(word for word in line.split() if not word.lstrip("-").isdigit())


def words_of_kind(line):
    """A line without the words that end in a digit."""
    return " ".join(word for word in line.split() if word[-1].isalpha())
