"""A crate as those see it who use it: what its head hands on, its definitions, and its files."""

import re
from dataclasses import dataclass, field
from pathlib import Path

from lists import lemmas
from shared.places import ROOT
from sources.code import Code, Item, read_code
from sources.definitions import Definitions, module_names, read_definitions

TYPES = ("struct", "enum", "type")


@dataclass
class Entry:
    """A public item: the name by which it is called from outside, and the file that has it."""

    name: str
    item: Item
    file: str


@dataclass
class Crate:
    """What is read of a crate. A file has its place below src or specs for its name."""

    name: str
    layer: str
    below: list[str]
    above: list[str] = field(default_factory=list)
    through: int = 0
    code: dict[str, Code] = field(default_factory=dict)
    specs: dict[str, Definitions] = field(default_factory=dict)
    surface: list[Entry] = field(default_factory=list)
    passed: dict[str, tuple[str, str]] = field(default_factory=dict)

    def folder(self):
        return ROOT / "crates" / self.name

    def root(self):
        """The file that says what the crate is."""
        return "lib" if "lib" in self.code else "main"

    def head(self):
        """The lines that say what the crate is."""
        return self.code[self.root()].head

    def is_of_tests(self):
        return self.name.startswith("example_")

    def of_kind(self, *kinds):
        return [it for it in self.surface if it.item.kind in kinds]

    def types(self):
        """The types, those with the most methods first."""
        return sorted(self.of_kind(*TYPES), key=lambda it: -len(list(self.methods(it))))

    def laws(self):
        return [it for it in self.surface if is_law(it)]

    def functions(self):
        return [it for it in self.of_kind("fn") if not is_law(it)]

    def methods(self, entry):
        """The public methods of a type, wherever in the crate they stand."""
        for file, code in self.code.items():
            for block in code.impls:
                if block.owner == entry.item.name and not block.trait:
                    for item in block.members:
                        if item.public:
                            yield Entry(f"{entry.name}::{item.name}", item, file)

    def traits_of(self, entry):
        """The traits of a type that are written out, and what the crate says of it as a model."""
        blocks = [it for code in self.code.values() for it in code.impls]
        own = [it for it in blocks if it.owner == entry.item.name and it.trait]
        model = [line for it in own if it.trait == "Model" for line in it.ghosts]
        return sorted({it.trait for it in own if it.trait != "Model"}), model

    def tests(self):
        """The tests of each file."""
        found = {file: [it for it in code.items if it.test] for file, code in self.code.items()}
        return {file: items for file, items in found.items() if items}

    def place_of(self, file, name):
        """By which name the item of a file is called from outside, or None."""
        told = (it.name for it in self.surface if it.file == file and it.item.name == name)
        return next(told, None)


def is_law(entry):
    return entry.item.kind == "fn" and entry.item.name.startswith("law_")


def all_crates():
    """All crates by their names, in the order of crates.txt."""
    heads, below = lemmas.listed_crates()
    crates = {}
    for layer, names in heads:
        for name in names:
            crates[name] = read_crate(Crate(name, layer, below[name]))
    for crate in crates.values():
        crate.above = [name for name in crates if crate.name in below[name]]
        crate.through = sum(crate.name in lemmas.all_below(name, below) for name in crates)
    return crates


def read_crate(crate):
    source = crate.folder() / "src"
    for path in sorted(source.rglob("*.rt")):
        place = path.relative_to(source).with_suffix("").as_posix()
        crate.code[place] = read_code(path.read_text())
    for path in ordered_specs(crate.folder() / "specs"):
        crate.specs[path.stem] = read_definitions(path.read_text())
    read_surface(crate)
    return crate


def ordered_specs(folder):
    """The files of definitions, in the order of the file Lib."""
    listed = folder / "Lib.antt"
    names = module_names(listed.read_text()) if listed.exists() else []
    files = [folder / f"{name}.antt" for name in names if name != "formers"]
    return [path for path in files if path.exists()]


def read_surface(crate):
    root = crate.code[crate.root()]
    for use in root.uses:
        if use.public and not use.ghost:
            hand_on(crate, use)
    everything = crate.root() == "main"
    add_items(crate, crate.root(), "", everything)
    for module in root.public_modules:
        add_module(crate, module)


def add_items(crate, file, prefix, everything=False):
    for item in crate.code[file].items:
        if (item.public or everything) and item.kind != "ghost" and not item.test:
            crate.surface.append(Entry(prefix + item.name, item, file))


def add_module(crate, module):
    add_items(crate, module, module.replace("/", "::") + "::")
    for inner in crate.code[module].public_modules:
        add_module(crate, f"{module}/{inner}")


def hand_on(crate, use):
    """What a line `pub use` hands on: items of the crate itself, or names of another one."""
    path = use.path.removeprefix("crate::")
    file = path.replace("::", "/")
    for name in use.names:
        if file in crate.code:
            item = next(it for it in crate.code[file].items if it.name == name)
            crate.surface.append(Entry(name, item, file))
        else:
            other, _, inner = path.partition("::")
            crate.passed[name] = (other, f"{inner}::{name}" if inner else name)


def first_sentence(text):
    """The first sentence of a remark, without its end."""
    return re.split(r"(?<=[^.])\. (?=[A-Z`])", text)[0].rstrip(".:")


def named_places(crate, crates, file):
    """Where the names stand that a code file uses: for each a crate and a key of its page."""
    found = {}
    for use in crate.code[file].uses:
        for name in use.names:
            place = ghost_place(use, name) if use.ghost else code_place(use, name, crate, file)
            if place and place[0] in crates:
                found.setdefault(name, place)
    for name in (it.item.name for it in crate.surface if it.file == file):
        found.setdefault(name, (crate.name, ("item", file, name)))
    return found


def ghost_place(use, name):
    return spec_place(use.path, name)


def spec_place(path, name):
    """Where a name of definitions stands: among those of a file, or among the types of the code."""
    words = path.split(".")
    if len(words) < 4 or words[0] != "Rattle" or words[2] != "specs":
        return None
    if words[3] != "declared":
        return words[1], ("definition", words[3], name)
    rest = words[4:]
    kept = rest[: rest.index("TheVariants")] if "TheVariants" in rest else rest
    return words[1], ("item", "/".join(kept[:-1]), kept[-1])


def code_place(use, name, crate, file):
    """Where a name of the code stands, as a crate and the path in it."""
    other, _, inner = use.path.partition("::")
    if other == "crate":
        return crate.name, ("item", inner.replace("::", "/"), name)
    return other, ("path", f"{inner}::{name}" if inner else name)


def item_name(crates, place):
    """The crate and the name by which the item at a place is called from outside, or None."""
    name, key = place
    crate = crates.get(name)
    if not crate:
        return None
    if key[0] == "item":
        told = crate.place_of(key[1], key[2])
        return (name, told) if told else None
    path = key[1]
    if path in crate.passed:
        other, inner = crate.passed[path]
        return item_name(crates, (other, ("path", inner)))
    return (name, path) if any(it.name == path for it in crate.surface) else None


def file_heads(folder, pattern, begin):
    """The files of a folder with the first sentences of their heads."""
    for path in sorted(folder.rglob(pattern)):
        if path.stem not in ("Lib", "Answers", "Invariants"):
            yield path, first_sentence(head_of(path, begin))


def head_of(path: Path, begin):
    lines = path.read_text().split("\n")
    told = []
    for line in lines:
        if not line.startswith(begin):
            break
        told.append(line[len(begin) :].strip())
    return " ".join(told)
