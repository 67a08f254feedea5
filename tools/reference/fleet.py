"""`fleet` once more, by the rules of docs/FORMAT.md and docs/ANSWERS.md.

It takes a fleet, and answers each line before it reads the next. Each plan is read and executed as
run.py does it, by itself; here stands only what is put around that.
"""

import sys

from reference.check import rounds_of
from reference.lines import Answer, name_of, put_lines, talk
from reference.plan_text import bounds_of, read_parts
from reference.run import answer_to, begun

MOST_PLANS = 64


class Member:
    """A plan of a fleet: its execution while it runs, and how many of its lines came."""

    def __init__(self, name, text, refused):
        self.name, self.execution, self.count = name, None, 0
        if refused:
            self.first = [refused]
            return
        rounds, cycle, _ = rounds_of(text)
        if cycle is not None:
            self.first = ["not controllable"]
            return
        self.execution, self.first = begun(rounds)

    def put(self, put, lines):
        put([f"{self.name} {line}" for line in lines])

    def take(self, put, words):
        self.count += 1
        if not words or words[0].startswith(b"#"):
            return
        if self.execution is None:
            self.put(put, ["idle"])
            return
        try:
            answer = answer_to(self.execution, words, self.count)
        except Answer as refusal:
            answer, self.execution = [str(refusal)], None
        self.put(put, answer)
        if answer[-1] == "complete":
            self.execution = None


def refusal_of(plan, parts):
    """The first part that is refused, told by its place, of which a `between` has two; None where
    there is none."""
    place = 0
    for _, word, values in parts:
        for piece in bounds_of(*values) if word == b"between" else [values]:
            place += 1
            try:
                plan.add(place, b"bound" if word == b"between" else word, piece)
            except Answer as refusal:
                return str(refusal).replace("error", "refused", 1)
    return None


def read_plans(lines):
    """The plans up to `go`, each by its name, its text and its refusal."""
    lines.header(b"fleet 1")
    plans = {}
    while True:
        words = lines.wanted()
        if words[0] not in (b"plan", b"go"):
            raise lines.fault("unknown-word")
        if len(words) != (2 if words[0] == b"plan" else 1):
            raise lines.fault("word-count")
        if words[0] == b"go":
            return plans
        with lines.read():
            name = name_of(words[1])
        if name in plans:
            raise lines.fault("duplicate-plan")
        if len(plans) >= MOST_PLANS:
            raise Answer(4, "error limit", lines.number, "plans")
        lines.kept.clear()
        plan, parts = read_parts(lines)
        plans[name] = (lines.text(), refusal_of(plan, parts))


def run(stream, put, _delay=None):
    """Puts the answer of each line of a stream before it takes the next, and returns the status."""

    def answers(lines, put):
        members = {name: Member(name, text, refused) for name, (text, refused) in read_plans(lines).items()}
        for member in members.values():
            member.put(put, member.first)
        while True:
            words = lines.wanted()
            if words == [b"end"]:
                return 0
            member = members.get(words[0].decode("latin-1"))
            if member is None:
                raise lines.fault("unknown-name")
            member.take(put, words[1:])

    return talk(answers, stream, put)


def main(_given):
    return run(sys.stdin.buffer, put_lines)
