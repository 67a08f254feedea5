"""The names that stand in the sources of the repository, without their remarks, and the files."""

import re

from shared.places import ROOT

LEFT_OUT = {".git", "out", "target", "__pycache__"}
PAGES = (".md",)
REMARKS = {".rt": r"^\s*//.*$", ".antt": r"--.*$", ".rs": r"^\s*//.*$"}


def all_files():
    """All files of the repository that are not made of others."""
    for path in sorted(ROOT.rglob("*")):
        if path.is_file() and LEFT_OUT.isdisjoint(path.relative_to(ROOT).parts):
            yield path


def source_names():
    """All words of all sources, and the names of all files and folders."""
    names = set()
    for path in all_files():
        names.update(name_parts(path.relative_to(ROOT)))
        if path.suffix not in PAGES:
            names.update(re.findall(r"\w+", text_without_remarks(path)))
    return names


def name_parts(place):
    for part in place.parts:
        yield part
        yield part.partition(".")[0]


def text_without_remarks(path):
    try:
        text = path.read_text(encoding="utf-8")
    except UnicodeDecodeError:
        return ""
    remark = REMARKS.get(path.suffix)
    return re.sub(remark, "", text, flags=re.MULTILINE) if remark else text
