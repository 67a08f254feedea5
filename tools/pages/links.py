"""Looks for dead links in the pages, and for names and paths that no source has.

A link is dead if no file stands where it leads, or no heading has its anchor (as GitHub makes
them). A name is what has an underscore or an inner capital and stands in backquotes; it is unknown
if no source has it, remarks apart. A path is what has a slash and a folder or a file of the
repository or of a crate in it, or what ends like the name of a file. What is found in
docs/reference is to be mended in the sources. The status is 1 where something is found.
"""

import re
from functools import cache
from pathlib import Path

from pages.page_text import read_page
from shared.places import ROOT
from sources.names import all_files, source_names

NAME = re.compile(r"(?<![\w$.-])[A-Za-z]\w*(?![\w-])")
NAMED = re.compile(r"\w+_\w+|\w*[a-z0-9][A-Z]\w*|[A-Z]+[a-z]+[A-Z]\w*")
QUALIFIED = re.compile(r"(\w+)::(?=(\w+))")
PATH = re.compile(r"(?<![\w/.:-])(?:\w[\w.-]*/)+[\w.*-]*[\w*]/?")
FILE = re.compile(r"[\w-]+\.(?:rt|antt|py|sh|md|c|h|rs|toml|json|java|edit|stnu|txt)")
ENDS = ("", ".rt", ".antt", ".py", ".rs", ".edit")

PLACEHOLDER = re.compile(r"[A-Z]{2,}")

# Names that no source has: a variable of pkg-config, a feature of serde_json that is not used, and
# a file that a planner would have.
EXCEPTIONS = {"PKG_CONFIG_PATH", "float_roundtrip", "tomorrow.stnu"}


def words(parser):
    about = "look at these pages alone"
    parser.add_argument("pages", nargs="*", type=Path, metavar="PAGE", help=about)


def main(given):
    pages = given.pages or [path for path in all_files() if path.suffix == ".md"]
    names = source_names() | EXCEPTIONS
    found = [line for path in pages for line in faults(path.resolve(), names)]
    print("\n".join([*found, f"links: {len(pages)} pages, {len(found)} faults"]))
    return 1 if found else 0


def faults(path, names):
    """What is wrong in a page, a line for each."""
    page = read_page_at(path)
    told = [*dead_links(path, page), *unknown_names(page, names), *absent_paths(path, page)]
    shown = path.relative_to(ROOT)
    return [f"{shown}:{number}: {what}" for number, what in sorted(set(told))]


@cache
def read_page_at(path):
    return read_page(path.read_text())


def dead_links(path, page):
    for number, target in page.links:
        if re.match(r"[a-z]+:", target):
            continue
        file, _, anchor = target.partition("#")
        place = (path.parent / file).resolve() if file else path
        if not place.exists():
            yield number, f"no file for the link {target}"
        elif anchor and anchor not in anchors_of(place):
            yield number, f"no heading for the link {target}"


def anchors_of(place):
    return read_page_at(place).anchors if place.suffix == ".md" else set()


def unknown_names(page, names):
    for number, span in page.spans:
        text = PATH.sub(" ", span)
        named = [it for it in NAME.findall(text) if NAMED.fullmatch(it)]
        named += [it for pair in QUALIFIED.findall(text) for it in pair]
        for word in named:
            if word not in names:
                yield number, f"no source has the name {word}"


def absent_paths(path, page):
    for number, line in page.prose:
        for told in PATH.findall(re.sub(r"\]\([^)]*\)", "]", line)):
            if is_of_repository(told) and not is_there(path, told):
                yield number, f"there is no {told}"
    for number, span in page.spans:
        if FILE.fullmatch(span) and span not in file_names() | EXCEPTIONS:
            yield number, f"there is no file {span}"


@cache
def file_names():
    return {path.name for path in all_files()}


@cache
def crate_names():
    return {path.name for path in (ROOT / "crates").iterdir() if path.is_dir()}


def is_of_repository(told):
    """Whether a path is to be there: none that is made, or has a word that stands for others."""
    parts = told.split("/")
    if "out" in parts or any(PLACEHOLDER.fullmatch(part.partition(".")[0]) for part in parts):
        return False
    beside = {path.name for path in ROOT.iterdir()}
    below = {"specs", "src", "proofs", "must-fail"}
    return parts[0] in beside | crate_names() | below or parts[1] in below


def is_there(path, told):
    """Whether a path leads somewhere: from the top, from the page, or from any crate."""
    bases = [ROOT, path.parent, ROOT / "crates", *(ROOT / "crates" / it for it in crate_names())]
    name = told.rstrip("/")
    return any(any(base.glob(name + end)) for base in bases for end in ENDS)
