"""Markdown: wrapped text, headings with the anchors that GitHub gives them, links, code."""

import re

WIDTH = 140
WORD = re.compile(r"(?:`[^`]*`|[^\s`]|`)+?(?=\s|$)")
BEGINS = re.compile(r"([-+#>]+|\d+[.)])(\s|$)")


def words_of(text):
    """The words of a text; what stands in backquotes is not parted."""
    return WORD.findall(text)


def wrapped(text, first="", later=""):
    """The lines of a text, none longer than WIDTH if no word is."""
    lines, line, is_empty = [], first, True
    for word in words_of(text):
        if not is_empty and len(line) + 1 + len(word) > WIDTH:
            lines.append(line)
            line, is_empty = later, True
        line += guarded(word, line) if is_empty else " " + word
        is_empty = False
    return [*lines, line] if not is_empty else lines


def guarded(word, line):
    """A word at the start of a line, so that it begins no list and no heading."""
    if line.strip() or not BEGINS.fullmatch(word):
        return word
    return f"{word[:-1]}\\{word[-1]}" if word[0].isdigit() else "\\" + word


def plain(text):
    """A remark as Markdown: what stands in backquotes stays, and nothing else is markup."""
    parts = re.split(r"(`[^`]*`)", text)
    return "".join(it if it.startswith("`") else re.sub(r"([*<])", r"\\\1", it) for it in parts)


def paragraphs(lines):
    """The paragraphs of a remark of several lines."""
    text = "\n".join(lines)
    return [plain(" ".join(it.split())) for it in re.split(r"\n\s*\n", text) if it.strip()]


def anchor(heading):
    """The anchor of a heading, but for the number that a second one of the same text has."""
    text = re.sub(r"\[([^]]*)\]\([^)]*\)", r"\1", heading).strip().lower()
    return re.sub(r"[^\w\- ]", "", text).replace(" ", "-")


class Anchors:
    """The anchors of a page: those of equal text are numbered."""

    def __init__(self):
        self.used = {}

    def take(self, heading):
        name = anchor(heading)
        number = self.used.get(name, -1) + 1
        self.used[name] = number
        if not number:
            return name
        numbered = f"{name}-{number}"
        self.used.setdefault(numbered, 0)
        return numbered


class Page:
    """A page in the making: its lines, and the anchors of its headings by keys."""

    def __init__(self, title):
        self.anchors = Anchors()
        self.keys = {}
        self.lines = []
        self.heading(1, title, None)

    def heading(self, level, text, key):
        self.gap()
        self.lines.append("#" * level + " " + text)
        self.keys[key] = self.anchors.take(text)

    def gap(self):
        if self.lines and self.lines[-1]:
            self.lines.append("")

    def text(self, text):
        self.gap()
        self.lines += wrapped(text)

    def remark(self, lines):
        for paragraph in paragraphs(lines):
            self.text(paragraph)

    def points(self, texts):
        """A list."""
        self.gap()
        for text in texts:
            self.lines += wrapped(text, "- ", "  ")

    def nested(self, texts):
        """A list of lists: texts with their depths."""
        self.gap()
        for depth, text in texts:
            self.lines += wrapped(text, "  " * depth + "- ", "  " * depth + "  ")

    def code(self, lines, language=""):
        self.gap()
        self.lines += ["```" + language, *lines, "```"]

    def whole(self):
        return "\n".join(self.lines) + "\n"
