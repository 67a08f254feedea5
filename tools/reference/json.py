"""Plans as JSON documents once more, by the rules of docs/FORMAT.md, without a line of the program.

`show(text)` takes an input, bytes, and returns what `show --json` prints of it, and whether a
network was declared; `document(text)` gives the lines of an input up to the line `end`.
`fits(value, schema, root)` says whether a value that Python's `json` reads fits a JSON Schema; it
knows the keywords that examples/plan.schema.json has.
"""

import json
import math
import re

from reference.lines import MOST_DELAY, MOST_OF_A_PLAN, SHORT_NAME, Answer
from reference.plan_text import Plan

NAME = re.compile(r"[A-Za-z][A-Za-z0-9_.-]{0,31}")
LISTS = {
    "bounds": {"name": str, "from": str, "to": str, "most": int},
    "between": {"name": str, "from": str, "to": str, "low": int, "high": int},
    "links": {"from": str, "low": int, "high": int, "to": str},
}
MEMBERS = {1: {"stnu", "points", "bounds", "links"}, 2: {"stnu", "points", "bounds", "links", "delay", "between"}}
DEEPEST = 127


class Refused(Exception):
    """What is printed of a document that is refused, after `error`."""


def document(text):
    """The bytes of the document, and the number of its end line; or the number after the last line
    where it has none."""
    lines = text.split(b"\n")
    if lines[-1] == b"":
        lines.pop()
    for number, line in enumerate(lines):
        if re.sub(rb"[ \t\r]+", b" ", line).strip(b" ") == b"end":
            return b"\n".join(lines[:number]), None
    return None, len(lines) + 1


def integer(digits):
    """A whole number of 64 bits, signed or unsigned; any other is a float, as -0 is."""
    number = int(digits)
    if digits == "-0" or not -(2**63) <= number < 2**64:
        return floating(digits)
    return number


def floating(digits):
    value = float(digits)
    if not math.isfinite(value):
        raise ValueError(digits)
    return value


def refuse(word):
    raise ValueError(word)


def depth(value):
    """How deep lists and objects nest."""
    deepest, left = 0, [(value, 0)]
    while left:
        value, above = left.pop()
        if isinstance(value, (list, dict)):
            deepest = max(deepest, above + 1)
            left += [(item, above + 1) for item in (value.values() if isinstance(value, dict) else value)]
    return deepest


def read(text):
    """The value of a JSON text; of members of one name the last one counts."""
    try:
        decoded = text.decode()
        value = json.loads(decoded, parse_int=integer, parse_float=floating, parse_constant=refuse)
        json.dumps(value, ensure_ascii=False).encode()
    except (ValueError, RecursionError):
        raise Refused("json not-json") from None
    if depth(value) > DEEPEST:
        raise Refused("json not-json")
    return value


def is_whole(value):
    return type(value) is int and -(2**63) <= value < 2**63


def item(member, number, value, form):
    """An item of bounds, of between or of links."""
    if type(value) is not dict or set(value) != set(form):
        raise Refused(f"json shape {member} {number}")
    if not all(is_whole(value[key]) if kind is int else type(value[key]) is str for key, kind in form.items()):
        raise Refused(f"json shape {member} {number}")
    are_names = all(NAME.fullmatch(value[key]) for key, kind in form.items() if kind is str)
    if not are_names or (member == "between" and len(value["name"]) > SHORT_NAME):
        raise Refused(f"json bad-name {member} {number}")
    if any(abs(value[key]) > MOST_OF_A_PLAN for key, kind in form.items() if kind is int):
        raise Refused(f"limit {member} {number} number")
    return value


def bounds_of(pair):
    """The two bounds of an item of `between`."""
    name, start, end = pair["name"], pair["from"], pair["to"]
    return [
        {"name": f"{name}.max", "from": start, "to": end, "most": pair["high"]},
        {"name": f"{name}.min", "from": end, "to": start, "most": -pair["low"]},
    ]


def lists_of(value):
    """The delay and the three lists of a document, as they are declared."""
    top = Refused("json shape top 0")
    if type(value) is not dict or type(value.get("stnu")) is not int or value["stnu"] not in MEMBERS:
        raise top
    if not set(value) <= MEMBERS[value["stnu"]] or "points" not in value:
        raise top
    if any(type(value.get(key, [])) is not list for key in ("points", *LISTS)):
        raise top
    delay = value.get("delay", 0)
    if not is_whole(delay) or delay < 0:
        raise top
    if delay > MOST_DELAY:
        raise Refused("limit top 0 number")
    for number, name in enumerate(value["points"], 1):
        if type(name) is not str:
            raise Refused(f"json shape points {number}")
        if not NAME.fullmatch(name):
            raise Refused(f"json bad-name points {number}")
    for member, form in LISTS.items():
        for number, one in enumerate(value.get(member, []), 1):
            item(member, number, one, form)
    between = [bound for pair in value.get("between", []) for bound in bounds_of(pair)]
    return delay, value["points"], value.get("bounds", []) + between, value.get("links", [])


def build(points, bounds, links):
    """Refuses the first part that cannot stand in the plan, by its number among the parts."""
    parts = [(b"point", [name]) for name in points]
    parts += [(b"bound", [it[key] for key in LISTS["bounds"]]) for it in bounds]
    parts += [(b"link", [it[key] for key in LISTS["links"]]) for it in links]
    plan = Plan(set(), {}, {})
    for number, (word, values) in enumerate(parts, 1):
        plan.add(number, word, values)


def printed(delay, points, bounds, links):
    lines = ["stnu 2", *([f"delay {delay}"] if delay else []), *(f"point {name}" for name in points)]
    lines += [f"bound {b['name']} {b['from']} {b['to']} {b['most']}" for b in bounds]
    lines += [f"link {k['from']} {k['low']} {k['high']} {k['to']}" for k in links]
    return "\n".join([*lines, "end"]) + "\n"


def show(text):
    """What `show --json` prints of an input, and the value of its document where a network was
    declared."""
    try:
        bytes_, missing = document(text)
        if missing is not None:
            raise Refused(f"format {missing} no-end")
        value = read(bytes_)
        delay, *lists = lists_of(value)
        build(*lists)
    except Refused as fault:
        return f"error {fault}\n", None
    except Answer as fault:
        return f"{fault}\n", None
    return printed(delay, *lists), value


def status(said):
    """The exit status that goes with what is printed."""
    return 4 if said.startswith("error limit") else 3 if said.startswith("error") else 0


TYPES = {"object": dict, "array": list, "string": str, "integer": int}


def fits(value, schema, root):
    """Whether a value fits a schema, by the keywords of examples/plan.schema.json."""
    if schema is False:
        return False
    if "$ref" in schema:
        return fits(value, root["$defs"][schema["$ref"].rpartition("/")[2]], root)
    if "type" in schema and type(value) is not TYPES[schema["type"]]:
        return False
    if value != schema.get("const", value) or value not in schema.get("enum", [value]):
        return False
    if type(value) is str:
        return re.search(schema["pattern"], value) is not None
    if type(value) is int:
        return schema.get("minimum", value) <= value <= schema.get("maximum", value)
    if type(value) is list:
        return len(value) <= schema.get("maxItems", len(value)) and all(fits(one, schema["items"], root) for one in value)
    if type(value) is not dict:
        return True
    if "if" in schema and fits(value, schema["if"], root) and not fits(value, schema["then"], root):
        return False
    known = schema["properties"]
    if not set(schema.get("required", [])) <= set(value):
        return False
    if schema.get("additionalProperties") is False and not set(value) <= set(known):
        return False
    return all(fits(one, known[key], root) for key, one in value.items() if key in known)
