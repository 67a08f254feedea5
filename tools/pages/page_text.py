"""Pages as they are read: their anchors, links, and what stands in backquotes."""

import re
from dataclasses import dataclass, field

from pages.markdown import Anchors

HEADING = re.compile(r"#{1,6} +(.*?)(?: +#+)?$")
LINK = re.compile(r"\[(?:[^][]|\[[^]]*\])*\]\(([^()\s]*(?:\([^()]*\))?[^()\s]*)\)")
NOTE = re.compile(r"\[([^]]+)\]: +(\S+)$")
SPAN = re.compile(r"`([^`]+)`")
ANCHOR = re.compile(r'<a (?:id|name)="([^"]+)"')


@dataclass
class PageText:
    """What is read of a page. Each link, span and line of prose has the number of its line."""

    anchors: set[str] = field(default_factory=set)
    links: list[tuple[int, str]] = field(default_factory=list)
    spans: list[tuple[int, str]] = field(default_factory=list)
    prose: list[tuple[int, str]] = field(default_factory=list)


def read_page(text):
    page, anchors = PageText(), Anchors()
    for number, line in prose_lines(text):
        heading = HEADING.match(line)
        if heading:
            page.anchors.add(anchors.take(heading[1]))
        page.anchors.update(ANCHOR.findall(line))
        note = NOTE.match(line)
        if note:
            page.links.append((number, note[2]))
        page.links += [(number, target) for target in LINK.findall(SPAN.sub("", line))]
        page.prose.append((number, line))
    page.spans = list(spans_of(page.prose))
    page.links += links_over_spans(page.prose)
    return page


def prose_lines(text):
    """The lines that are no code, with their numbers."""
    fenced, last = False, ""
    for number, line in enumerate(text.split("\n"), 1):
        if line.lstrip().startswith("```"):
            fenced = not fenced
        elif not fenced and not (line.startswith("    ") and is_code_after(last)):
            yield number, line
        last = line


def is_code_after(last):
    """Whether an indented line after this one is code, and does not go on with a list."""
    return not last.strip() or last.startswith("    ")


def links_over_spans(prose):
    """Links whose words have something in backquotes."""
    for number, line in prose:
        for target in LINK.findall(SPAN.sub(lambda it: "x" * len(it[0]), line)):
            if target not in LINK.findall(SPAN.sub("", line)):
                yield number, target


def spans_of(prose):
    """What stands in backquotes, over the ends of lines too."""
    for lines in blocks(prose):
        text = "\n".join(line for _, line in lines)
        for found in SPAN.finditer(text):
            yield lines[text.count("\n", 0, found.start())][0], " ".join(found[1].split())


def blocks(prose):
    """The lines that follow each other up to an empty one."""
    block = []
    for number, line in prose:
        if line.strip() and (not block or number == block[-1][0] + 1):
            block.append((number, line))
        else:
            if block:
                yield block
            block = [(number, line)] if line.strip() else []
    if block:
        yield block
