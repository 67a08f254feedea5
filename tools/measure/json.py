"""Measures how much a JSON document costs, beside the same plan as a text.

Plans of POINTS points with 20,000 bounds are handed to `show`, as texts and as documents. Of each
it prints the size of the input, milliseconds and the peak of memory in MiB (not below that of the
process that starts it), of TRIES the quickest, and the document's as multiples of the text's. Last,
documents of 60 MB that are no plans: how many MiB they take, and how many times their own size.
"""

import json

from shared import front
from shared.costs import TRIES, once

BOUNDS = 20000
SIZE = 60_000_000
# What such documents have in their list.
ITEMS = {
    "one text": "",
    "zeros": "0,",
    "empty lists": "[],",
    "empty texts": '"",',
    "objects of one member": '{"":0},',
}


def run(program, call, text):
    """Milliseconds and MiB, of so many runs the quickest."""
    ran = min((once([program, "show", *call], text) for _ in range(TRIES)), key=lambda ran: ran.seconds)
    return ran.seconds * 1000, ran.size


def plan(points):
    ends = [(f"p{number % points}", f"p{(number * 7 + 1) % points}") for number in range(BOUNDS)]
    bounds = [{"name": f"b{k}", "from": begin, "to": end, "most": k} for k, (begin, end) in enumerate(ends)]
    return {"stnu": 1, "points": [f"p{number}" for number in range(points)], "bounds": bounds, "links": []}


def as_text(value):
    lines = ["stnu 1", *(f"point {name}" for name in value["points"])]
    lines += [f"bound {b['name']} {b['from']} {b['to']} {b['most']}" for b in value["bounds"]]
    return "\n".join([*lines, "end", ""]).encode()


def told(what, text, cost):
    return f"{what} {len(text) / 1e6:.1f} MB, {cost[0]:.0f} ms, {cost[1]:.0f} MiB"


def words(parser):
    front.program(parser)
    front.numbers(parser, "POINTS", [100, 1000], "how many points the plans have")


def main(given):
    for points in given.points:
        value = plan(points)
        text = as_text(value)
        document = json.dumps(value).encode() + b"\nend\n"
        as_lines, as_json = run(given.program, [], text), run(given.program, ["--json"], document)
        times = f"{as_json[0] / as_lines[0]:.1f} times the time, {as_json[1] / as_lines[1]:.1f} times the memory"
        both = f"{told('text', text, as_lines)}; {told('document', document, as_json)}"
        print(f"{points} points, {BOUNDS} bounds: {both}; {times}")
    for what, item in ITEMS.items():
        list_of = b"[" + (item * (SIZE // len(item))).encode() + b"0]" if item else b'["' + b"x" * SIZE + b'"]'
        milliseconds, size = run(given.program, ["--json"], list_of + b"\nend\n")
        times = size * 1.048576e6 / len(list_of)
        print(f"60 MB of {what}: {milliseconds:.0f} ms, {size:.0f} MiB, {times:.0f} times its size")
