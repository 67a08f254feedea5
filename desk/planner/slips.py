"""What was most likely meant by a line that the program refuses, in a sentence for whoever typed it."""

import difflib
import re

from planner.parts import LARGEST_DELAY
from planner.reader import WHOLE, about_number, is_name, nearest, quoted

EDIT_FORMS = {
    ("add", "point"): "NAME",
    ("add", "bound"): "NAME FROM TO MOST",
    ("add", "between"): "NAME FROM LOW HIGH TO",
    ("add", "link"): "FROM LOW HIGH TO",
    ("drop", "point"): "NAME",
    ("drop", "bound"): "NAME",
    ("drop", "between"): "NAME",
    ("drop", "link"): "TO",
    ("set", "bound"): "NAME MOST",
    ("set", "between"): "NAME LOW HIGH",
    ("set", "link"): "TO LOW HIGH",
    ("set", "delay"): "N",
}
EDITS = ("add", "drop", "set")
NUMBERS = ("MOST", "LOW", "HIGH", "N")


def meant(word, names):
    """What a word was most likely to be, as the end of a sentence."""
    near = nearest(word, names)
    return f"; was '{near}' meant?" if near else ""


def link_meant(name, starts):
    """What a name by which no link goes was most likely to be, as the end of a sentence.

    `starts` has the point in which each link starts, by that in which it ends.
    """
    ends = [f"'{end}'" for end, start in starts.items() if start == name]
    return f"; a link goes by the point in which it ends: {' or '.join(ends)} from '{name}'" if ends else meant(name, starts)


def alike(word, names, most=4):
    """The names that may have been meant: the one that differs by noughts before its numbers alone, else those most like the word."""
    same = [name for name in names if short(name) == short(word)]
    return same if len(same) == 1 else difflib.get_close_matches(word, names, n=most, cutoff=0.6)


def short(name):
    """A name in small letters, with no noughts in front of its numbers."""
    return re.sub(r"(?<![0-9])0+(?=[0-9])", "", name.lower())


def unknown(words, known):
    """A sentence for each word that is none of the names known."""
    return "; ".join(f"the plan has no {quoted(word)}{meant(word, known)}" for word in words if word not in known)


def without_line(said):
    """What the program says of a line, without its number: it counts lines that nobody else sees."""
    words = said.split()
    return " ".join(words[3:]) if words[:1] == ["error"] and len(words) > 3 else said


def slip_of_word(word, known):
    """A first word that is none."""
    return f"{quoted(word)} begins no line here{meant(word.lower(), known) or ';'} 'help' lists the lines"


def slip_of_edit(words, said, draft):
    """What is the matter with an edit that was refused with this line."""
    form = EDIT_FORMS.get(tuple(words[:2]))
    if form is None:
        kinds = [f"{edit} {kind}" for edit, kind in EDIT_FORMS if edit == words[0]]
        return f"wanted: {', '.join(kinds)}, each with more words"
    wanted = f"wanted: {' '.join(words[:2])} {form}"
    given = dict(zip(form.split(), words[2:]))
    if len(words) - 2 != len(form.split()):
        count = len(words) - 2
        return f"{count} word{' stands' if count == 1 else 's stand'} after '{' '.join(words[:2])}'; {wanted}"
    for place, word in given.items():
        if place in NUMBERS and not WHOLE.fullmatch(word):
            return f"{quoted(word)}: {about_number(word, place)}; {wanted}"
        if place not in NUMBERS and not is_name(word):
            return f"{quoted(word)} is no name; {wanted}"
    match said.split()[1:]:
        case ["format", *_]:
            # A delay that is beyond the limit is no line of the session.
            return f"{wanted}, of at most {LARGEST_DELAY:,}"
        case ["unknown-name"]:
            return unknown_in_edit(words, given, draft)
        case ["duplicate-name"]:
            return f"the plan has a {words[1]} {given['NAME']} already: 'set' changes its numbers"
        case ["two-links-on-point"]:
            return f"a link ends in {given['TO']} already: 'set link {given['TO']} LOW HIGH' changes its numbers"
        case ["bad-interval"]:
            return "LOW of a link is at least 1 and at most HIGH"
        case ["link-to-itself"]:
            return "a link has two points"
        case ["still-used", kind, name]:
            return f"the {kind} {name} names it: drop that first"
    return ""


def slip_of_call(words, said, draft):
    """What is the matter with a question about the plan that was refused with this line."""
    points = draft.names("point", 1)
    match words, said.split():
        case ["deadline", start, end], ["error", _, _, "unknown-name"]:
            return f"the program says: unknown-name; {unknown([start, end], points)}"
        case ["deadline", *names], _:
            return "wanted: deadline FROM TO" + (f"; {slip}" if (slip := unknown(names, points)) else "")
        case ["play", *days], _:
            return "wanted: play shortest, play longest or play NUMBER" + (meant(days[0], ("shortest", "longest")) if days else "")
    return f"the program says: {said}; no words stand after '{words[0]}'"


def unknown_in_edit(words, given, draft):
    """Which name of an edit the plan does not have."""
    points = draft.names("point", 1)
    match words[:3]:
        case ["set" | "drop", "bound", name] if draft.has_between(name):
            number = f" {words[3]}" if words[0] == "set" else ""
            return f"{name} is a line between: {words[0]} bound {name}.max{number} is its HIGH, {words[0]} between {name} .. both"
        case ["set" | "drop", "bound" | "between", name] if bound := draft.lone_bound(name):
            return f"{bound} is a bound, and no line between: {words[0]} bound {bound}" + (" MOST" if words[0] == "set" else "")
        case ["set" | "drop", "bound" | "between", name]:
            return unknown([name], draft.bounds() if words[1] == "bound" else draft.names("between", 1))
        case ["set" | "drop", "link", name]:
            return f"no link ends in {quoted(name)}{link_meant(name, draft.starts())}"
    return unknown([word for place, word in given.items() if place in ("FROM", "TO") or words[:2] == ["drop", "point"]], points)
