"""Reads a plan as a JSON document into statements, by the rules of docs/FORMAT.md, and finds each fault of its members."""

import json
import math
import re
from dataclasses import dataclass

from planner.parts import LARGEST, LARGEST_DELAY, LONGEST_BETWEEN, LONGEST_NAME, Finding, Kind, Reading, Spelling, Statement, Word
from planner.reader import about_name, is_name, nearest

DEEPEST = 127
SPACE = re.compile(r"[ \t\n\r]*")
SCALAR = re.compile(r'[^\s,:\[\]{}"]+')
# The members of the items of each list, with the places that they fill.
LISTS = {
    "bounds": (Kind.BOUND, {"name": "NAME", "from": "FROM", "to": "TO", "most": "MOST"}),
    "between": (Kind.BETWEEN, {"name": "NAME", "from": "FROM", "low": "LOW", "high": "HIGH", "to": "TO"}),
    "links": (Kind.LINK, {"from": "FROM", "low": "LOW", "high": "HIGH", "to": "TO"}),
}
NAMES = ("name", "from", "to")
MEMBERS = {1: ("stnu", "points", "bounds", "links"), 2: ("stnu", "delay", "points", "bounds", "between", "links")}


@dataclass(frozen=True)
class Node:
    """A value of a JSON text, and where it stands in it. The value of a list is a list of nodes, that of an object maps names to nodes."""

    value: object
    start: int
    end: int

    def is_whole(self):
        """Whether it is a whole number that the program can read."""
        return type(self.value) is int and -(2**63) <= self.value < 2**63


def scanned(text, start):
    """The value that stands in a valid JSON text from here on."""
    start = SPACE.match(text, start).end()
    match text[start]:
        case "{":
            return scanned_object(text, start)
        case "[":
            return scanned_list(text, start)
        case '"':
            value, end = json.decoder.scanstring(text, start + 1)
            return Node(value, start, end)
    end = SCALAR.match(text, start).end()
    return Node(json.loads(text[start:end], parse_int=whole, parse_float=float), start, end)


def scanned_object(text, start):
    members, at = {}, SPACE.match(text, start + 1).end()
    while text[at] != "}":
        name, at = json.decoder.scanstring(text, at + 1)
        members[name] = node = scanned(text, SPACE.match(text, at).end() + 1)
        at = SPACE.match(text, node.end).end()
        at = SPACE.match(text, at + (text[at] == ",")).end()
    return Node(members, start, at + 1)


def scanned_list(text, start):
    items, at = [], SPACE.match(text, start + 1).end()
    while text[at] != "]":
        items.append(node := scanned(text, at))
        at = SPACE.match(text, node.end).end()
        at = SPACE.match(text, at + (text[at] == ",")).end()
    return Node(items, start, at + 1)


def whole(digits):
    """A whole number of 64 bits, signed or unsigned; any other is no whole one for the program, as -0 is."""
    return float(digits) if digits == "-0" or len(digits) > 20 or not -(2**63) <= int(digits) < 2**64 else int(digits)


def finite(digits):
    if not math.isfinite(value := float(digits)):
        raise ValueError(f"the number {digits[:20]} is too large")
    return value


def whole_or_finite(digits):
    return finite(digits) if len(digits) > 20 else int(digits)


def no_constant(word):
    raise ValueError(f"{word} is no number of JSON")


def depth(value):
    """How deep lists and objects nest."""
    deepest, left = 0, [(value, 0)]
    while left:
        value, above = left.pop()
        if isinstance(value, (list, dict)):
            deepest = max(deepest, above + 1)
            left += [(item, above + 1) for item in (value.values() if isinstance(value, dict) else value)]
    return deepest


def flaw(text):
    """Why a text is no JSON text, and its line; None where it is one."""
    try:
        value = json.loads(text, parse_int=whole_or_finite, parse_float=finite, parse_constant=no_constant)
        json.dumps(value, ensure_ascii=False).encode()
        text.encode()
    except json.JSONDecodeError as why:
        return f"{why.msg[0].lower()}{why.msg[1:]}, at column {why.colno}", why.lineno
    except UnicodeEncodeError:
        return "a text in it is not written in UTF-8", 1
    except RecursionError:
        return f"lists and objects nest deeper than {DEEPEST}", 1
    except ValueError as why:
        return str(why), 1
    return (f"lists and objects nest deeper than {DEEPEST}", 1) if depth(value) > DEEPEST else None


def about_text(text, longest):
    """What is the matter with a text in the place of a name."""
    return about_name(text, longest).replace("are words exchanged?", "are members exchanged?")


class DocumentReader:
    """Reads the members of a document, one after another."""

    def __init__(self, text):
        self.text = text
        self.reading = Reading(spelling=Spelling(is_document=True))
        # The line of each place is found by going on from the last one.
        self.at, self.line = 0, 1
        self.place = 0

    def read(self):
        """The statements of the document, and what was found in it."""
        if found := flaw(self.text):
            message, line = found
            self.reading.findings.append(Finding(line, f"no JSON text: {message}", "error json not-json"))
            return self.reading
        root = scanned(self.text, 0)
        if type(root.value) is not dict:
            self.top(root, "a plan is one JSON object, { .. }")
        else:
            self.members(root)
        return self.reading

    def line_of(self, start):
        if start < self.at:
            self.at, self.line = 0, 1
        self.line += self.text.count("\n", self.at, start)
        self.at = start
        return self.line

    def members(self, root):
        top = root.value
        version = top["stnu"].value if "stnu" in top else None
        if type(version) is not int or version not in MEMBERS:
            self.top(top.get("stnu", root), "the member 'stnu' is 1 or 2" if "stnu" in top else "the member 'stnu' is missing: 1 or 2")
            version = 2
        for name in top:
            if name not in MEMBERS[version]:
                self.top(top[name], self.about_member(name, version), name)
        if "points" not in top:
            self.top(root, "the member 'points' is missing: a list of names")
        lists = {}
        for name in ("points", *LISTS):
            if name in top and name in MEMBERS[version]:
                if type(top[name].value) is list:
                    lists[name] = top[name].value
                else:
                    self.top(top[name], f"the member '{name}' is a list, [ .. ]", name)
        if version == 2 and "delay" in top:
            self.delay(top["delay"])
        self.points(lists.get("points", []))
        for name in LISTS:
            for number, item in enumerate(lists.get(name, []), 1):
                self.item(name, number, item)

    @staticmethod
    def about_member(name, version):
        if name in MEMBERS[2]:
            return f"the member '{name}' is of version 2: write \"stnu\": 2"
        near = nearest(name, MEMBERS[version])
        return "a plan has no such member" + (f"; was '{near}' meant?" if near else ": it has " + ", ".join(MEMBERS[version]))

    def delay(self, node):
        if not node.is_whole() or node.value < 0:
            self.top(node, "the delay is a whole number from 0 on", "delay")
        elif node.value > LARGEST_DELAY:
            message = f"the delay is beyond {LARGEST_DELAY:,}: choose a coarser unit of time"
            self.fault(node, message, "error limit top 0 number", str(node.value))
        else:
            self.reading.statements.append(Statement(Kind.DELAY, self.line_of(node.start), 0, {"N": self.word(node)}))

    def points(self, items):
        for number, node in enumerate(items, 1):
            self.place += 1
            if type(node.value) is not str:
                self.fault(node, "a point is a name in quotes", f"error json shape points {number}")
            elif not is_name(node.value):
                self.fault(node, about_text(node.value, LONGEST_NAME), f"error json bad-name points {number}", node.value)
            else:
                self.reading.statements.append(Statement(Kind.POINT, self.line_of(node.start), self.place, {"NAME": self.word(node)}))

    def item(self, name, number, node):
        kind, form = LISTS[name]
        self.place += 1
        if self.is_shaped(name, number, node, form) and self.is_sound(name, number, node):
            words = {form[member]: self.word(value) for member, value in node.value.items()}
            self.reading.statements.append(Statement(kind, self.line_of(node.start), self.place, words))
        # An item of `between` is two parts.
        self.place += kind == Kind.BETWEEN

    def is_shaped(self, name, number, node, form):
        """Whether an item has the members that it must have, of the right kinds."""
        told, wanted = f"error json shape {name} {number}", ", ".join(form)
        if type(node.value) is not dict:
            self.fault(node, f"an item of '{name}' is an object, with {wanted}", told)
            return False
        found = [f"the member '{member}' is missing" for member in form if member not in node.value]
        found += [f"there is no member '{member}' in an item of '{name}'" for member in node.value if member not in form]
        for member, value in node.value.items():
            if member in form and member in NAMES and type(value.value) is not str:
                found.append(f"the member '{member}' is a name in quotes")
            elif member in form and member not in NAMES and not value.is_whole():
                found.append(f"the member '{member}' is a whole number, without quotes, point or exponent")
        for message in found:
            self.fault(node, message, told, wanted=f"an object with {wanted}")
        return not found

    def is_sound(self, name, number, node):
        """Whether the names and numbers of an item are such."""
        is_sound = True
        for member in NAMES:
            longest = LONGEST_BETWEEN if (name, member) == ("between", "name") else LONGEST_NAME
            text = node.value[member].value if member in node.value else None
            if text is not None and not (is_name(text) and len(text) <= longest):
                self.fault(node.value[member], about_text(text, longest), f"error json bad-name {name} {number}", text)
                is_sound = False
        for member, value in node.value.items():
            if member not in NAMES and abs(value.value) > LARGEST:
                message = f"'{member}' is beyond {LARGEST:,}: choose a coarser unit of time"
                self.fault(value, message, f"error limit {name} {number} number", str(value.value))
                is_sound = False
        return is_sound

    @staticmethod
    def word(node):
        return Word(str(node.value), node.start, node.end)

    def top(self, node, message, token=None):
        self.fault(node, message, "error json shape top 0", token)

    def fault(self, node, message, told, token=None, wanted=None):
        self.reading.findings.append(Finding(self.line_of(node.start), message, told, token, wanted))
