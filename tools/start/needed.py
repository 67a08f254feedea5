"""Copies of the sources that the kit's compiler reads, without what it reads in vain: the clauses
of functions, and in the kit's libraries the bodies of functions that the program does not reach.

Which functions those are the last module tells by its names, and in a fresh clone the file
`reached` beside this one. It is a hint alone: each body that is cut calls the function `LEFT_OUT`,
which is in the module exactly if one of them is reached after all, and the program is made of the
sources as they stand then. What is cut is replaced within its lines, so that each place keeps its
line.
"""

import os
import re
import textwrap
from concurrent.futures import ProcessPoolExecutor
from pathlib import Path

from shared.making import read, write

# The function that stands for each body that is cut.
LEFT_OUT = "body_left_out"
TOKEN = re.compile(
    r"""\s+|//[^\n]*|/\*|[bc]?r(\#*)".*?"\1|[bc]?"(?:[^"\\]|\\.)*"|'(?=\\)(?:[^'\\\n]|\\[^\n])*'|"""
    r"""''|'[^\n\\]'|'[A-Za-z_]\w*'?|r\#[A-Za-z_]\w*|\w+|.""",
    re.S | re.A,
)
# A token of the language of proofs, which braces hold.
PROOF_TOKEN = re.compile(r"""{-|(?<![^ \n(){}.;,@"»])--[^\n]*|"(?:[^"\\\n]|\\[^\n])*"|[^-{}"⟦]+|.""", re.S)
NAME = re.compile(r"(?:r#)?[A-Za-z_]\w*\Z", re.A)
# What precedes the brace of a clause or of another ghost part.
BEFORE_GHOST = re.compile(
    r"(?:requires|ensures)(?: \*)?(?: \w+)?\Z|ghost(?: \w+)?(?: =| :| : \w+)?\Z|ghost(?: \w+)? : «» (?:=|by)\Z",
    re.A,
)
GHOST = "«»"
# So begin the names of functions that derived code calls.
OF_DERIVED = "derived_"
CLOSES = {"{": "}", "(": ")", "[": "]"}
class Unread(Exception):
    """A source of a form that is not read."""


def after_comment(text, at, opens, closes):
    """The place after the comment that begins here, and may hold others."""
    depth, at = 1, at + len(opens)
    while depth:
        first, last = text.find(opens, at), text.find(closes, at)
        if last == -1:
            raise Unread("a comment without an end")
        depth += 1 if first != -1 and first < last else -1
        at = (first if first != -1 and first < last else last) + 2
    return at


def after_ghost(text, at):
    """The place after the ghost part whose brace stands here."""
    depth = 0
    while at < len(text):
        found = PROOF_TOKEN.match(text, at)
        word, at = found[0], found.end()
        if word == "{-":
            at = after_comment(text, at - 2, "{-", "-}")
        elif word == "{":
            depth += 1
        elif word == "}":
            depth -= 1
            if not depth:
                return at
    raise Unread("a ghost part without an end")


def tokens_of(text):
    """The tokens of a source, each with its place and that after it. A ghost part is one token."""
    at, found, before = 0, [], []
    while at < len(text):
        match = TOKEN.match(text, at)
        word, end = match[0], match.end()
        if word == "/*":
            at = after_comment(text, at, "/*", "*/")
            continue
        if word.isspace() or word.startswith("//"):
            at = end
            continue
        if word == "{" and BEFORE_GHOST.search(" ".join(before[-6:])):
            word, end = GHOST, after_ghost(text, at)
        elif word == "use" and before and before[-1] == "ghost":
            end = text.index(";", at)
        found.append((word, at, end))
        before.append(word)
        if len(before) > 40:
            del before[:-8]
        at = end
    return found


def after_group(tokens, at):
    """The number of the token after the group that opens here."""
    open_groups = []
    while at < len(tokens):
        word = tokens[at][0]
        if word in CLOSES:
            open_groups.append(CLOSES[word])
        elif open_groups and word == open_groups[-1]:
            open_groups.pop()
            if not open_groups:
                return at + 1
        elif word in ")]}":
            break
        at += 1
    raise Unread("a group without an end")


class Body:
    """The body of a function: the function's name, where the body stands, and where the whole
    function begins if it may be taken away."""

    def __init__(self, name, whole, first, last):
        self.name, self.whole, self.first, self.last = name, whole, first, last


class Source:
    """What can be cut of a source if these functions are reached, or all for None: where clauses
    stand, and bodies; and the names that what is left mentions."""

    def __init__(self, text, reached):
        self.reached = reached
        self.tokens = tokens_of(text)
        self.clauses, self.bodies, self.mentioned = [], [], set()
        # (before this token functions belong to a trait)
        self.of_trait = 0
        at = 0
        while at < len(self.tokens):
            at = self.read(at)
        del self.tokens

    def word(self, at):
        return self.tokens[at][0] if 0 <= at < len(self.tokens) else ""

    def mention(self, first, last):
        self.mentioned.update(word for word, _, _ in self.tokens[first:last] if NAME.match(word))
        return last

    def read(self, at):
        """Reads what begins with this token. Gives the number of the token after it."""
        word, following = self.word(at), self.word(at + 1)
        if word == "macro_rules" or word == "!" and NAME.match(self.word(at - 1)) and following in CLOSES:
            # (a macro or its call, of which nothing is cut)
            first = at
            while self.word(at) not in CLOSES:
                at += 1
            return self.mention(first, after_group(self.tokens, at))
        if word == "fn" and NAME.match(following):
            return self.read_function(at + 1)
        if word in ("impl", "trait"):
            self.read_head(at)
        return self.mention(at, at + 1)

    def read_head(self, at):
        """Notes until which token the functions belong to a trait, if this is the head of one or of
        what implements one."""
        is_of_trait = self.word(at) == "trait"
        while self.word(at) not in ("{", ";", ""):
            is_of_trait |= self.word(at) == "for"
            at = after_group(self.tokens, at) if self.word(at) in CLOSES else at + 1
        if self.word(at) == "{" and is_of_trait:
            self.of_trait = max(self.of_trait, after_group(self.tokens, at))

    def start_of(self, at):
        """Where the function with this `fn` begins, with its comments and what else stands before
        it; None if an attribute may give it a meaning."""
        at -= 1
        while True:
            word = self.word(at)
            if word in ("pub", "const", "unsafe", "async", "extern") or word.startswith('"'):
                at -= 1
            elif word == ")" and self.word(at - 2) == "(" and self.word(at - 3) == "pub":
                at -= 4
            elif word == "]":
                while self.word(at) != "[":
                    at -= 1
                if self.word(at - 1) != "#" or self.word(at + 1) not in ("inline", "must_use", "doc"):
                    return None
                at -= 2
            else:
                return self.tokens[at][2] if at >= 0 else None

    def read_function(self, at):
        """Reads a function from its name on."""
        name, can_be_cut = self.word(at), self.reached is not None and self.word(at) not in self.reached
        stays = at < self.of_trait or not can_be_cut or name.startswith(OF_DERIVED)
        whole = None if stays else self.start_of(at - 1)
        at += 1
        while self.word(at) not in ("{", ";"):
            word = self.word(at)
            if word in ("requires", "ensures", "ghost"):
                start = self.tokens[at][1]
                while self.word(at) != GHOST:
                    at += 1
                self.clauses.append((start, self.tokens[at][2]))
            # (what `impl` stands for is read off the body)
            can_be_cut &= word != "impl"
            at = self.mention(at, after_group(self.tokens, at) if word in CLOSES else at + 1)
        if self.word(at) == ";":
            return at + 1
        last = after_group(self.tokens, at)
        if not can_be_cut:
            return self.mention(at, last)
        self.bodies.append(Body(name, whole, self.tokens[at][1], self.tokens[last - 1][2]))
        return last

    def cut(self, text, mentioned):
        """The source without clauses, without the bodies of functions that are not reached, and
        without those of them that nothing mentions."""
        cuts = [(first, last, "") for first, last in self.clauses]
        for body in self.bodies:
            if body.whole is not None and body.name not in mentioned:
                cuts.append((body.whole, body.last, ""))
            else:
                cuts.append((body.first, body.last, f"{{ crate::{LEFT_OUT}() }}"))
        made, at = [], 0
        for first, last, put in sorted(cuts):
            # (the clauses of a function that is cut as a whole are gone with it)
            if first >= at:
                made += [text[at:first], put, "\n" * text.count("\n", first, last)]
                at = last
        return "".join([*made, text[at:]])


def read_sources(given):
    return [(path, Source(Path(path).read_text(encoding="utf-8"), reached)) for path, reached in given]


def read_side_by_side(given):
    """Reads these sources, those of each processor in a process. Gives each by its path."""
    processors = len(os.sched_getaffinity(0))
    given.sort(key=lambda it: os.path.getsize(it[0]), reverse=True)
    shares = [given[number :: 4 * processors] for number in range(4 * processors)]
    with ProcessPoolExecutor(processors) as pool:
        return dict(it for share in pool.map(read_sources, shares) for it in share)


def copies(folder, roots, reached):
    """Writes copies of the sources of these libraries, each by its name and root file, below a
    folder. `reached` has the names of the functions that are reached of some of them; the others
    keep their bodies. Gives the root file of each copy."""
    files = {name: [*Path(root).parent.rglob("*.rt")] for name, root in roots.items()}
    read_of = read_side_by_side([(str(path), reached.get(name)) for name, of in files.items() for path in of])
    mentioned = set().union(*(it.mentioned for it in read_of.values()))
    made = {}
    for name, root in roots.items():
        below = folder / name / "src"
        made[name] = below / Path(root).name
        for path in files[name]:
            to = below / path.relative_to(Path(root).parent)
            text = read_of[str(path)].cut(path.read_text(encoding="utf-8"), mentioned)
            if to == made[name] and name in reached:
                text += f"\nconst fn {LEFT_OUT}() -> ! {{\n    loop {{}}\n}}\n"
            to.parent.mkdir(parents=True, exist_ok=True)
            to.write_text(text, encoding="utf-8")
    return made


def reached_in(names, libraries):
    """By library the names of functions that these names of a module's functions tell: those of the
    library, and in what one library makes of another's those of both."""
    found = {name: set() for name in libraries}
    for name in names:
        words = re.findall(r"[A-Za-z_]\w*", name.partition("::<")[0], re.A)
        for library in {words[0], *(words if "+" in name else ())} & found.keys() if words else ():
            found[library].update(words)
    return found


def read_reached(path):
    """The names of a file that `write_reached` wrote, by library."""
    found = {}
    for line in read(path).splitlines():
        library, colon, names = line.partition(":")
        if colon and not line.startswith("#"):
            found.setdefault(library, set()).update(names.split())
    return found


def write_reached(path, reached):
    lines = ["# The functions of the kit's libraries that the program reaches, by their names."]
    for library, names in sorted(reached.items()):
        text = " ".join(sorted(names)) or library
        lines += [f"{library}: {it}" for it in textwrap.wrap(text, 100 - len(library), break_long_words=False)]
    write(path, "\n".join(lines) + "\n")
