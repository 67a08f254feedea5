"""Compares `fleet` with `run` alone, plan by plan, and with tools/reference, byte by byte.

Random fleets: one to eight plans of both versions, some with a delay, some that cannot be kept and
some of which a part is refused, and a stream of events for each, most of which have faults; their
lines are merged at random, each after the name of its plan, with lines that are passed over among
them. Seldom a line of the whole is changed. Of the answers to a fleet those lines are taken that
begin with the name of a plan; they must be what the program's `run` puts for that plan and its own
lines, with the numbers of these lines counted from 1, without a refutation and the refusal of an
input that ends too soon, and with `idle` after that. Every tenth fleet is sent line by line. Prints
what differs, how many plans ended in what, and last how many fleets differ.
"""

import random

from inputs.random_plans import (
    as_input,
    random_plan,
    random_stream,
    with_a_completion_changed,
    with_a_word_or_line_changed,
)
from reference.check import rounds_of
from reference.fleet import run
from reference.run import Execution
from shared import front
from shared.answers import Differences, given_as_drawn, given_at_once, wanted_of, words_of_kind

NAMES = ["x", "y", "end", "go", "plan", "at", "done", "fleet", "x1", "v-1", "v_2", "Z.z", "n" * 32, "stnu"]
REFUSED = ["point p0", "point p0", "bound b9 p0 q 1", "link p0 1 2 p0", "between w9 p0 1 2 p0"]
BLANKS = ["", " \t", "# a remark", "#"]


def random_member(choose):
    """A plan, of which a part may be refused, and the lines of its stream."""
    plan = random_plan(choose, 1)
    rounds, cycle, _ = rounds_of("\n".join(plan))
    if cycle is not None and choose.random() < 0.7:
        return random_member(choose)
    stream = ["at 0", "done"] if cycle is not None else random_stream(choose, Execution(rounds), 1)
    if choose.random() < 0.15:
        place = choose.randrange(1, len(plan))
        place = max(place, next(k for k, line in enumerate(plan) if line.startswith("point")))
        plan.insert(place, choose.choice(REFUSED))
        if "between" in plan[place] and plan[0] == "stnu 1":
            plan[place] = "link p0 0 2 p1"
    changed = choose.random()
    if changed < 0.4:
        stream = with_a_completion_changed(choose, stream)
    elif changed < 0.7:
        for _ in range(choose.randint(1, 3)):
            stream = with_a_word_or_line_changed(choose, stream)
    stream += choose.choice([[], [], ["at 99"], ["at 99", "", "done"], ["# x", "at x"]])
    return plan, stream


def random_fleet(choose):
    """The lines of a fleet, its plans by their names, and whether it is as it was made."""
    names = choose.sample(NAMES, choose.randint(1, 8))
    members = {name: random_member(choose) for name in names}
    lines = [choose.choice(["", "# plans"])] * choose.randint(0, 1) + ["fleet 1"]
    for name, (plan, _) in members.items():
        lines += [f"plan {name}", *plan]
    lines.append("go")
    left = {name: list(stream) for name, (_, stream) in members.items() if stream}
    while left:
        name = choose.choice(list(left))
        line = left[name].pop(0)
        # A name alone ends the fleet where it is `end`; and a word that begins with `#` behind a
        # name is a remark of that plan.
        lines.append(f"{name} {line}".rstrip() if name != "end" or line.strip() else f"{name} #")
        if not left[name]:
            del left[name]
        if choose.random() < 0.1:
            lines.append(choose.choice(BLANKS))
    lines.append("end")
    changed = choose.random()
    if changed < 0.1:
        lines = with_a_word_or_line_changed(choose, lines)
    elif changed < 0.15:
        lines = lines[: choose.randrange(len(lines))]
    return lines, {name: plan for name, (plan, _) in members.items()}, changed >= 0.15


def own_lines(lines, name):
    """The lines after `go` of this name, each without it."""
    after = [line.split(None, 1) for line in lines[lines.index("go") + 1 :]]
    return [words[1] if len(words) > 1 else "" for words in after if words[:1] == [name] and words != ["end"]]


def renumbered(line, before):
    """A line of `run`, with the number of a line of events counted from the first of these; None
    for the end of an input too soon."""
    words = line.split(" ")
    if words[0] == "error" and words[1] in ("format", "limit", "event"):
        words[2] = str(int(words[2]) - before)
    return " ".join(words)


def alone(program, plan, owns):
    """What `run` alone puts for a plan and its own lines, without refutation and `no-end`, and with
    `idle` after its end."""
    text = "".join(f"{line}\n" for line in [*plan, *owns]).encode()
    answers, status = given_at_once([program, "run"], text)
    lines = answers.splitlines()
    asked = [line for line in owns if line.split() and not line.split()[0].startswith("#")]
    if status == 1:
        return ["not controllable"] + ["idle"] * len(asked)
    lines = [renumbered(line, len(plan)) for line in lines]
    last = lines[-1].split(" ") if lines else []
    if status == 3 and last == ["error", "format", str(len(owns) + 1), "no-end"]:
        return lines[:-1]
    # How many of its own lines were answered: each by one line that is no act, after the two that
    # begin it.
    ended = sum(1 for line in lines[2:] if not line.startswith("act "))
    return lines + ["idle"] * (len(asked) - ended)


def projected(answers, name):
    return [line.split(" ", 1)[1] for line in answers.splitlines() if line.split(" ", 1)[0] == name]


def words(parser):
    front.program(parser)
    front.drawn(parser, 500, "fleets")


def main(given):
    choose = random.Random(given.seed)
    seen, differing, beside = Differences(), 0, 0
    for number in range(given.count):
        lines, plans, whole = random_fleet(choose)
        data = as_input(choose, lines, ["\n", "\n", "\r\n"])
        answers, status = wanted_of(run, data)
        said = given_as_drawn(number, [given.program, "fleet"], data, answers)
        same = seen.compare(said, ("".join(answers), status), data)
        for name, plan in plans.items():
            told = projected(said[0] or "", name)
            seen.kinds[words_of_kind(told[0] if told else "nothing")] += 1
            # A plan of which a part is refused is none for `run`.
            if whole and not (told and told[0].startswith("refused")):
                beside += 1
                ran = alone(given.program, plan, own_lines(lines, name))
                if told != ran:
                    same = False
                    print(f"{name} differs: {told} and alone {ran} for {data!r}")
        differing += not same
    seen.count = differing
    return seen.end(f"{beside} plans beside run; {given.count} fleets, of which {differing} differ")
