"""Compares what `run` answers with tools/reference, byte by byte.

Random days: a plan of two to nine points, most often one with waits, and a stream of events. Some
plans cannot be kept. The stream is one that nature and a clock make of the plan, so that it is
executed to its end; in most days a completion of it, or some of its words and lines, or seldom of
the plan, are then changed. One day of four is told in a unit so fine that most moments have to be
passed over, and every tenth is sent line by line, each line after the answer to the one before; the
number of workers and a delay are drawn too. Prints each day that differs, how many ended in what,
and last how many differ.

With --feeders each day is run by each number of FEEDERS, and the names of its lines are mixed, some
of them told twice and others put in; what must come is told by a reference that sorts them. Every
fourth day is run without feeders too, with its lines sorted, as a text: the same must come.
"""

import random

from inputs.random_plans import (
    UNITS,
    as_input,
    random_delay,
    random_plan,
    random_stream,
    with_a_completion_changed,
    with_a_word_or_line_changed,
    with_names_mixed,
)
from reference.check import rounds_of
from reference.run import Execution, run, run_in_order
from shared import front
from shared.answers import Differences, asked, given_as_drawn, wanted_of, words_of_kind

FEEDERS = [1, 2, 7]


def random_day(choose, delay, mixed):
    """The input of a day whose completions are shown so many moments late, with the names of its
    lines mixed or not."""
    unit, likely = choose.choice(UNITS), 0
    while choose.random() >= likely:
        plan = random_plan(choose, unit)
        rounds, cycle, _ = rounds_of("\n".join(plan), delay)
        execution = Execution(rounds)
        likely = 0.03 if cycle is not None else 1 if any(execution.waits) else 0.15
    stream = ["at 0", "done"] if cycle is not None else random_stream(choose, execution, unit)
    changed = choose.random()
    if changed < 0.4:
        stream = with_a_completion_changed(choose, stream)
    elif changed < 0.7:
        for _ in range(choose.randint(1, 3)):
            stream = with_a_word_or_line_changed(choose, stream)
    elif changed < 0.73:
        plan = with_a_word_or_line_changed(choose, plan)
    if mixed:
        stream = with_names_mixed(choose, stream)
    if choose.random() < 0.01:
        stream.insert(choose.randrange(len(stream) + 1), "#" + "x" * choose.choice([65_535, 65_536]))
    return as_input(choose, plan + stream)


def kind_of(answers):
    """In what a day ended."""
    lines = answers.splitlines()
    return lines[0] if lines[-1] == "end" else words_of_kind(lines[-1])


def in_order(data):
    """An input with the names of each line of events in the order of their points, where all are
    points of the plan."""
    lines = data.split(b"\n")
    named = [line.split()[1] for line in lines if line.split()[:1] == [b"point"] and len(line.split()) == 2]
    for place, line in enumerate(lines):
        words = line.split()
        if words[:1] == [b"at"] and all(word in named for word in words[2:]):
            words[2:] = sorted(words[2:], key=named.index)
            lines[place] = b" ".join(words) + (b"\r" if line.endswith(b"\r") else b"")
    return b"\n".join(lines)


def calls_of(choose, command, data, number, feeders):
    """The calls by which a day is run, each with its input."""
    if not feeders:
        return [(command, data)]
    spellings = [choose.choice([["--feeders", str(count)], [f"--feeders={count}"]]) for count in FEEDERS]
    calls = [([*command, *spelt], data) for spelt in spellings]
    return calls + [(command, in_order(data))] if number % 4 == 0 else calls


def words(parser):
    parser.add_argument("--feeders", action="store_true", help="by feeders, too")
    front.program(parser)
    front.drawn(parser, 500, "days")


def main(given):
    choose, seen, runs = random.Random(given.seed), Differences(), 0
    for number in range(given.count):
        delay, delay_words = random_delay(choose)
        data = random_day(choose, delay, given.feeders)
        answers, status = wanted_of(run_in_order if given.feeders else run, data, delay)
        wanted = ("".join(answers), status)
        command = asked(choose, [given.program, "run"], delay_words)
        for call, taken in calls_of(choose, command, data, number, given.feeders):
            runs += 1
            seen.compare(given_as_drawn(number, call, taken, answers), wanted, call, taken)
        seen.kinds[kind_of(wanted[0])] += 1
    return seen.end(f"{given.count} days in {runs} runs, of which {seen.count} differ")
