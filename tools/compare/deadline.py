"""Compares what `deadline` answers with tools/reference, byte by byte.

Random plans of two to five points, of both versions, most without a delay, with links and with
bounds of both signs, some of which have the name of a goal. Between two points of each, now and
then the same, the deadline is asked by a drawn number of workers, of every third plan as a JSON
document; and `judge` must accept each certificate after the plan with the bound. Prints each answer
that differs, and last how many plans there were, how many answers differ, and how often each kind
of answer came.
"""

import collections
import random

from inputs.random_plans import between_line, random_header
from reference.deadline import MOST, deadline, with_goal
from shared import front
from shared.answers import given_at_once

# Names of bounds, of which some are that of a goal.
NAMES = [
    ["b0", "b1", "b2", "b3", "b4", "b5"],
    ["goal", "b1", "goal.1", "b3", "b4", "b5"],
    ["goal.1", "b1", "b2", "b3", "b4", "b5"],
]


def drawn_plan(draw):
    count = draw.randint(2, 5)
    header = random_header(draw)
    lines = header + [f"point p{i}" for i in range(count)]
    for end in draw.sample(range(count), draw.randint(0, count // 2)):
        begin = draw.choice([i for i in range(count) if i != end])
        low = draw.randint(1, 4)
        lines.append(f"link p{begin} {low} {low + draw.randint(0, 4)} p{end}")
    for name in draw.choice(NAMES)[: draw.randint(0, count + 1)]:
        begin, end = draw.sample(range(count), 2)
        lines.append(f"bound {name} p{begin} p{end} {draw.randint(-5, 12)}")
    if draw.random() < 0.3:
        begin, end = draw.sample(range(count), 2)
        lines.append(between_line(draw, header, 0, f"p{begin}", f"p{end}"))
    begin, end = draw.randrange(count), draw.randrange(count)
    if draw.random() < 0.1 and count > 2:
        # Twice as far apart as a bound can say.
        begin, middle, end = draw.sample(range(count), 3)
        lines += [f"bound far p{middle} p{begin} {-MOST}", f"bound further p{end} p{middle} {draw.randint(-9, 3)}"]
    return "\n".join([*lines, "end"]) + "\n", f"p{begin}", f"p{end}"


def run(command, text):
    return given_at_once(command, text.encode())


def certificates(said):
    """The texts of the certificates of an answer."""
    return ["certificate 1\n" + part for part in said.split("certificate 1\n")[1:]]


def is_judged(program, text, begin, end, said):
    """Whether `judge` accepts each certificate after the plan with the bound at its number."""
    words = said.splitlines()[1].split()
    if words[0] != "deadline":
        return run([program, "judge"], text + certificates(said)[0]) == ("accepted not controllable\n", 0)
    if words[3] == "none":
        wanted = [(MOST, "not controllable")]
    elif words[3] == "at-most":
        wanted = [(-MOST, "controllable")]
    else:
        wanted = [(int(words[3]), "controllable"), (int(words[3]) - 1, "not controllable")]

    def accepted(claim, most, certificate):
        judged = run([program, "judge"], with_goal(text, begin, end, most) + certificate)
        return judged == (f"accepted {claim}\n", 0)

    texts = certificates(said)
    judged = [accepted(claim, most, certificate) for (most, claim), certificate in zip(wanted, texts)]
    return len(texts) == len(wanted) and all(judged)


def kind(said):
    """What kind of answer it is."""
    first, second = said.splitlines()[:2]
    return second.split()[3].lstrip("-0123456789") or "a number" if first == "controllable" else first


def asked(program, number, draw, text, begin, end):
    """What the program answers; of every third plan a document is asked too, which must be answered
    alike."""
    words = draw.choice([[], ["--workers", str(draw.choice([1, 2, 7, 64]))]])
    given = run([program, "deadline", begin, end, *words], text)
    if number % 3:
        return given
    document = run([program, "show", "--print-json"], text)[0]
    document += "" if document.endswith("\nend\n") else "end\n"
    also = run([program, "deadline", *words, begin, "--json", end], document)
    return given if also == given else also


def words(parser):
    front.program(parser)
    front.drawn(parser, 300, "plans")


def main(given):
    draw = random.Random(given.seed)
    differ, kinds = 0, collections.Counter()
    for number in range(given.count):
        text, begin, end = drawn_plan(draw)
        wanted = deadline(text, begin, end)
        kinds[kind(wanted)] += 1
        said = asked(given.program, number, draw, text, begin, end)
        is_right = said == (wanted, 0 if wanted.startswith("controllable\n") else 1)
        if not is_right or not is_judged(given.program, text, begin, end, wanted):
            differ += 1
            print(begin, end, text, said, "and not", wanted, sep="\n")
    told = ", ".join(f"{often} {what}" for what, often in sorted(kinds.items()))
    print(f"{given.count} plans, {differ} answers differ: {told}")
    return 1 if differ else 0
