"""Lists the lemma files of each crate: those that crates above cite, and the long ones, with what
they say first.

The list is in the order of crates.txt; docs/reference has all lemma files with the pages of their
crates.
"""

import re
import sys
import textwrap

from shared.places import ROOT

LONG = 150
CITED = re.compile(r"use Rattle\.(\w+)\.proofs\.(\w+)")


def listed_crates():
    """The crates under each head of crates.txt, and for each the crates on which it stands."""
    heads, below = [], {}
    for line in (ROOT / "crates.txt").read_text().splitlines()[1:]:
        if line.startswith("# "):
            heads.append((line[2:], []))
        elif line:
            name, others = line.split(":")
            heads[-1][1].append(name)
            below[name] = others.split()
    return heads, below


def all_below(name, below):
    """The crates on which one stands, through others too."""
    found, open_ones = set(), [name]
    while open_ones:
        for other in below.get(open_ones.pop(), []):
            if other in below and other not in found:
                found.add(other)
                open_ones.append(other)
    return found


def cited_by(name):
    """The lemma files of other crates that a crate cites, as pairs of a crate and a file."""
    cited = set()
    for path in sorted((ROOT / "crates" / name).rglob("*")):
        if path.suffix in (".rt", ".antt") and "out" not in path.relative_to(ROOT).parts:
            cited.update(pair for pair in CITED.findall(path.read_text()) if pair[0] != name)
    return cited


def cited_files(names):
    """The lemma files that another crate cites, as pairs of a crate and a file."""
    return set().union(*(cited_by(name) for name in names))


def first_words(text):
    """The first sentence of the remark at the head of a file."""
    remark = re.match(r"(?:--.*\n)+", text)
    words = " ".join(line.lstrip("- ") for line in remark.group().splitlines()) if remark else ""
    return re.split(r"(?<=[^.])\. (?=[A-Z`])", words)[0].rstrip(".:")


def rows(name, cited):
    """The lines of the files of a crate."""
    for path in sorted((ROOT / "crates" / name / "proofs").glob("*.antt")):
        text = path.read_text()
        is_cited = (name, path.stem) in cited
        if path.stem != "Lib" and (is_cited or text.count("\n") >= LONG):
            mark = "**" if is_cited else ""
            row = f"{mark}`{path.stem}`{mark}: {first_words(text)}"
            how = {"break_long_words": False, "break_on_hyphens": False}
            yield from textwrap.wrap(row, 140, initial_indent="  - ", subsequent_indent="    ", **how)


def listing():
    heads, below = listed_crates()
    cited = cited_files(below)
    above = {name: sum(name in all_below(other, below) for other in below) for name in below}
    lines = []
    for head, names in heads:
        lines += ["", f"### Lemmas: {head[0].lower()}{head[1:]}", ""]
        for name in names:
            files = list(rows(name, cited))
            if files:
                lines += [f"- `{name}` ({above[name]} above)", *files]
    return "\n".join(lines) + "\n"


def main(_given):
    sys.stdout.write(listing())
