"""Compares what `session` answers with tools/reference, byte by byte.

Random sessions: a plan of two to nine points, most often edits and questions, some of which are
refused, and often a `go` with the events of a day after it. In one session of four a word or a line
is then changed, or the input cut. Every tenth is sent line by line, each line after the answer to
the one before; the number of workers and a delay are drawn too. Prints each session that differs,
how many lines of each kind were answered how, and last how many sessions differ.
"""

import random

from inputs.random_plans import (
    as_input,
    random_delay,
    random_plan,
    random_stream,
    with_a_completion_changed,
    with_a_word_or_line_changed,
)
from reference.run import Execution
from reference.session import QUESTIONS, Session, read_step, run
from shared import front
from shared.answers import Differences, asked, given_as_drawn, wanted_of


def random_edit(choose, network):
    """An edit of a network, most often one that is accepted."""
    point = lambda: choose.choice([*network.points, f"p{choose.randrange(12)}"])
    bound = lambda: choose.choice([*network.bounds, f"b{choose.randrange(12)}"])
    end = lambda: choose.choice([*network.links, point()])
    low = choose.randint(1, 5) if choose.random() < 0.95 else choose.randint(-1, 9)
    most, high = choose.randint(-4, 9), low + choose.randint(0, 4)
    return choose.choice([
        f"add point p{choose.randrange(14)}", f"drop point {point()}",
        f"add bound b{choose.randrange(14)} {point()} {point()} {most}", f"drop bound {bound()}", f"set bound {bound()} {most}",
        f"set bound {bound()} {most}", f"add link {point()} {low} {high} {point()}",
        f"drop link {end()}", f"set link {end()} {low} {high}",
    ])


def random_lines(choose, session):
    """Lines of edits and questions, and often a `go` with the events of a day. The session goes
    with them."""
    lines = []
    for _ in range(choose.randint(0, 14)):
        if choose.random() < 0.55:
            lines.append(random_edit(choose, session.network))
            session.edit(*read_step(lines[-1].encode().split()))
        else:
            lines.append(choose.choice([*QUESTIONS[:5], "report", "verdict", "", "# a remark"]))
    if choose.random() < 0.6:
        lines.append("go")
        if session.cycle is None:
            return lines + random_stream(choose, Execution(session.rounds), 1)
    return [*lines, "end"]


def random_session(choose, delay):
    """The input of a session."""
    plan = random_plan(choose, 1)
    lines = random_lines(choose, Session("\n".join(plan), delay))
    changed = choose.random()
    if changed < 0.1:
        lines = with_a_completion_changed(choose, lines)
    elif changed < 0.2:
        lines = with_a_word_or_line_changed(choose, lines)
    elif changed < 0.23:
        plan = with_a_word_or_line_changed(choose, plan)
    elif changed < 0.26:
        lines = lines[: choose.randrange(len(lines))]
    return as_input(choose, plan + lines)


def kinds_of(data, answers):
    """The first words of each line that was answered, and of its answer."""
    for line, answer in zip(data.decode().splitlines(), answers):
        if answer:
            words = line.split()[: 2 if line.split()[0] in ("add", "drop", "set") else 1]
            said = [word for word in answer.splitlines()[0].split()[:3] if word[0].isalpha()]
            yield f"{' '.join(words)}: {' '.join(word for word in said if not word[-1].isdigit())}"


def words(parser):
    front.program(parser)
    front.drawn(parser, 500, "sessions")


def main(given):
    choose, seen = random.Random(given.seed), Differences()
    for number in range(given.count):
        delay, delay_words = random_delay(choose)
        data = random_session(choose, delay)
        answers, status = wanted_of(run, data, delay)
        command = asked(choose, [given.program, "session"], delay_words)
        said = given_as_drawn(number, command, data, answers)
        seen.compare(said, ("".join(answers), status), data)
        seen.kinds.update(kinds_of(data, answers))
    return seen.end(f"{given.count} sessions, of which {seen.count} differ")
