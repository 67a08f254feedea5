"""Compares what `show --json` answers with tools/reference, byte by byte.

Random documents, most of them with a fault or two. A document that declares a network is further
put as JSON and read again, must give the same plan text, and must fit examples/plan.schema.json;
one that is refused for its form, for a name or for the size of a number must not fit it. Prints
each document that differs, and last how many there were, of how many, and how many of them declare
a network.
"""

import json
import random
import subprocess

from inputs.random_documents import given as drawn_input
from reference.json import document, fits, read, show, status
from shared import front
from shared.places import EXAMPLES


def run(program, words, text):
    done = subprocess.run([program, "show", *words], input=text, capture_output=True, check=False)
    return done.stdout, done.returncode


def is_misfit(schema, text, wanted):
    """Whether a document fits the schema and is refused for what one number or one name of it
    is."""
    lines, _ = document(text)
    is_of_one = "json shape" in wanted or "bad-name" in wanted or " number" in wanted
    return lines is not None and is_of_one and fits(read(lines), schema, schema)


def differs(program, schema, text, wanted, value):
    """What is wrong with what the program says of an input, or nothing."""
    said = run(program, ["--json"], text)
    if said != (wanted.encode(), status(wanted)):
        return f"{said} and not {wanted!r}"
    if value is None:
        return "a document that is refused for its form fits the schema" if is_misfit(schema, text, wanted) else ""
    if not fits(value, schema, schema):
        return "a document that is taken does not fit the schema"
    put = run(program, ["--json", "--print-json"], text)
    again = run(program, ["--json"], put[0])
    return "" if put[1] == 0 and again == said else f"{put} and then {again} and not {said}"


def words(parser):
    front.program(parser)
    front.drawn(parser, 1000, "documents")


def main(given):
    draw = random.Random(given.seed)
    schema = json.loads((EXAMPLES / "plan.schema.json").read_text(encoding="utf-8"))
    differ = declared = 0
    for _ in range(given.count):
        text = drawn_input(draw)
        wanted, value = show(text)
        declared += value is not None
        wrong = differs(given.program, schema, text, wanted, value)
        if wrong:
            differ += 1
            print(text, wrong, sep="\n")
    print(f"{given.count} documents, of which {differ} differ; {declared} declare a network")
    return 1 if differ else 0
