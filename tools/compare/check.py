"""Compares what `check` and `play` answer with tools/reference, byte by byte.

Random plans of two to nine points, with links and with bounds of both signs; each is checked by a
number of workers that is drawn too, and every other one with `--proof`, most without a delay; and
one day of it is played, the shortest, the longest or one of a drawn number. With --engine each plan
is checked by that engine too, by 1, 2 and 7 workers. Prints each answer that differs, and last how
many plans there were, how many answers differ, and how many of the plans can be kept.
"""

import random
import subprocess

from inputs.random_plans import between_line, random_delay, random_header
from reference.check import check
from reference.play import play
from shared import front


def drawn_plan(draw):
    count = draw.randint(2, 9)
    header = random_header(draw)
    lines = header + [f"point p{i}" for i in range(count)]
    ends = draw.sample(range(count), draw.randint(0, count // 2))
    for end in ends:
        begin = draw.choice([i for i in range(count) if i != end])
        low = draw.randint(1, 10)
        lines.append(f"link p{begin} {low} {low + draw.randint(0, 10)} p{end}")
    for number in range(draw.randint(1, 3 * count)):
        begin, end = draw.sample(range(count), 2)
        lines.append(f"bound b{number} p{begin} p{end} {draw.randint(-8, 25)}")
    if draw.random() < 0.4:
        begin, end = draw.sample(range(count), 2)
        lines.append(between_line(draw, header, 0, f"p{begin}", f"p{end}"))
    return "\n".join([*lines, "end"]) + "\n"


def workers(draw):
    """The words that give a number of workers, in one of their spellings, or none."""
    number = draw.choice([1, 2, 3, 7, 64])
    return draw.choice([[], ["--workers", str(number)], [f"--workers={number}"]])


def differs(command, text, wanted):
    """Whether the program answers otherwise to a plan; prints it then."""
    done = subprocess.run(command, input=text.encode(), capture_output=True, check=False)
    status = 0 if wanted.startswith("controllable\n") else 1
    if (done.stdout.decode(), done.returncode) == (wanted, status):
        return False
    print(*command[1:], text, done.returncode, done.stdout.decode(), "and not", wanted, sep="\n")
    return True


def words(parser):
    parser.add_argument("--engine", help="an engine by which each plan is checked too")
    front.program(parser)
    front.drawn(parser, 500, "plans")


def main(given):
    program, draw, engines = given.program, random.Random(given.seed), []
    if given.engine:
        engines = [["--engine", given.engine, "--workers", str(number)] for number in (1, 2, 7)]
    differ = kept = 0
    for number in range(given.count):
        text = drawn_plan(draw)
        proof = number % 2 == 1
        delay, delay_words = random_delay(draw)
        wanted = check(text, proof, delay)[0]
        kept += wanted.startswith("controllable\n")
        asked = [*delay_words, *(["--proof"] if proof else [])]
        differ += differs([program, "check", *workers(draw), *asked], text, wanted)
        differ += sum(differs([program, "check", *engine, *asked], text, wanted) for engine in engines)
        which = draw.choice(["longest", "shortest", str(draw.randrange(2**64))])
        differ += differs([program, "play", which, *delay_words, *workers(draw)], text, play(text, which, delay))
    print(f"{given.count} plans, {differ} answers differ; {kept} can be kept")
    return 1 if differ else 0
