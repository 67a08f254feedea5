"""The page of one crate in docs/reference."""

import re

from lists import lemmas
from pages.markdown import Page, paragraphs, plain
from shared.places import ROOT
from sources import crate as crates_read
from sources.crate import first_sentence, item_name, named_places, spec_place
from sources.definitions import shown_lines, words_of

MOST_EQUATIONS = 4
MOST_SAID = 100
MOST_ABOVE = 10
ABOVE = "Crates above"
ENDS = {"src": (".rt", "//!"), "specs": (".antt", "--"), "proofs": (".antt", "--")}


class Writer:
    """Writes the page of a crate. The keys of all pages give its links: they are known only after
    all pages have been written once, so each is written twice."""

    def __init__(self, crate, crates, keys, cited):
        self.crate = crate
        self.crates = crates
        self.keys = keys
        self.cited = cited
        self.page = Page(crate.name)

    def write(self):
        self.beginning()
        if self.crate.is_of_tests():
            self.tests()
        else:
            self.calls_at_a_glance()
        self.types()
        self.traits()
        self.functions()
        self.constants()
        self.laws()
        self.definitions()
        self.above()
        self.files()
        return self.page

    # ---- the beginning

    def beginning(self):
        crate = self.crate
        self.page.remark(crate.head())
        own, others = [], []
        for name in crate.below:
            (own if name in self.crates else others).append(name)
        below = [crate_link(name) for name in own] + [f"`{name}` of the kit" for name in others]
        self.page.points([
            f"Layer: {layer_link(crate.layer)}",
            f"Stands on: {', '.join(below) or 'no other crate'}",
            f"On it stand: {self.above_in_short()}",
            f"Source: [crates/{crate.name}](../../crates/{crate.name});"
            " [how a contract is read](README.md#how-a-contract-is-read)",
        ])

    def above_in_short(self):
        """The crates above, or where they are many how many: then they stand further on."""
        above = self.crate.above
        more = self.crate.through - len(above)
        through = f"; {more} more through others" if more > 0 else ""
        if len(above) > MOST_ABOVE:
            return f"[{len(above)} crates](#{ABOVE.lower().replace(' ', '-')}){through}"
        return (", ".join(crate_link(name) for name in above) or "none") + through

    def above(self):
        if len(self.crate.above) > MOST_ABOVE:
            self.page.heading(2, ABOVE, "above")
            self.page.text(", ".join(crate_link(name) for name in self.crate.above) + ".")

    def calls_at_a_glance(self):
        """What is to be called, in short; laws and definitions have their own parts."""
        told = []
        for entry in self.crate.types() + self.crate.of_kind("trait") + self.crate.functions():
            told.append((0, self.in_short(entry, entry.name)))
            told += [(1, self.in_short(it, it.item.name)) for it in self.members(entry)]
        told += [(0, self.in_short_elsewhere(name)) for name in self.crate.passed]
        if told:
            self.page.heading(2, "At a glance", "glance")
            self.page.nested(told)

    def members(self, entry):
        """The methods of a type, or what a trait has."""
        if entry.item.kind == "trait":
            return [
                crates_read.Entry(f"{entry.name}::{it.name}", it, entry.file)
                for it in entry.item.members
            ]
        return list(self.crate.methods(entry)) if entry.item.kind in crates_read.TYPES else []

    def in_short(self, entry, name):
        shown = self.link(self.crate.name, ("name", entry.name), name)
        return with_remark(shown, entry.item.remark)

    def in_short_elsewhere(self, name):
        other, path = self.crate.passed[name]
        found = item_name(self.crates, (other, ("path", path)))
        shown = self.link(*self.key_of(found), name) if found else f"`{name}`"
        home = crate_link(found[0] if found else other)
        return f"{shown}: handed on from {home if found else f'`{other}`'}"

    # ---- what is called

    def types(self):
        entries = self.crate.types()
        if entries:
            self.page.heading(2, "Types", "types")
        for entry in entries:
            self.item(3, entry)
            self.model(entry)
            for method in self.members(entry):
                self.item(4, method)

    def model(self, entry):
        """What contracts see of a type, and which traits it has."""
        traits, ghosts = self.crate.traits_of(entry)
        if ghosts:
            self.page.text("Contracts see it as")
            self.page.code(ghosts, "rust")
            self.see(self.places_in(entry, words_in(ghosts)))
        if traits:
            self.page.text("It also is: " + ", ".join(f"`{it}`" for it in traits) + ".")

    def traits(self):
        entries = self.crate.of_kind("trait")
        if entries:
            self.page.heading(2, "Traits", "traits")
        for entry in entries:
            self.item(3, entry)
            for member in self.members(entry):
                self.item(4, member)

    def functions(self):
        self.part("Functions", self.crate.functions())

    def constants(self):
        self.part("Numbers", self.crate.of_kind("const"))

    def part(self, title, entries):
        if entries:
            self.page.heading(2, title, title)
        for entry in entries:
            self.item(3, entry)

    def item(self, level, entry):
        item = entry.item
        self.page.heading(level, f"`{entry.name}`", ("name", entry.name))
        self.page.remark(item.remark)
        clauses = ["    " + line if line else line for line in item.clauses]
        self.page.code(item.lines + clauses, "rust")
        self.see(self.places_in(entry, item.words()))

    # ---- laws

    def laws(self):
        entries = self.crate.laws()
        if entries:
            self.page.heading(2, "Laws", "laws")
        for entry in entries:
            self.page.heading(3, f"`{entry.name}`", ("name", entry.name))
            self.page.remark(entry.item.remark)
            said = self.proposition(entry)
            if said:
                lines = shown_lines(said[2], MOST_SAID)[0]
                self.page.code([*entry.item.clauses, "", *lines])
                places = [(said[2].name, said[:2]), *self.places_said(*said, lines)]
                self.see(places, briefly=said[2].name)
            else:
                self.page.code(entry.item.clauses)
                self.see(self.places_in(entry, entry.item.words()))

    def proposition(self, entry):
        """What the word stands for that is all that a law says: its crate, its key and its
        definition; or None."""
        words = entry.item.clauses[0].split() if len(entry.item.clauses) == 1 else []
        if len(words) != len("ensures { WORD }".split()):
            return None
        name, key = named_places(self.crate, self.crates, entry.file).get(words[2], ("", ("",)))
        definition = self.definition_at(name, key)
        return (name, key, definition) if definition else None

    def places_said(self, name, key, definition, lines):
        """Where the words of a definition of any crate stand: those of its own file, too."""
        read = self.crates[name].specs[key[1]]
        own = {it.name for it in read.items}
        for word in words_of(lines):
            if word in own and word != definition.name:
                yield word, (name, ("definition", key[1], word))
            else:
                yield from self.spec_places(read, [word])

    def definition_at(self, name, key):
        if key[0] != "definition":
            return None
        file = self.crates[name].specs.get(key[1])
        return next((it for it in file.items if it.name == key[2]), None) if file else None

    # ---- definitions

    def definitions(self):
        files = self.crate.specs
        if self.crate.is_of_tests() or not files:
            return
        self.page.heading(2, "Definitions", "definitions")
        for file, read in files.items():
            place = f"crates/{self.crate.name}/specs/{file}.antt"
            self.page.heading(3, f"specs/{file}", ("file", file))
            self.page.text(plain(read.head) + f" ([{file}.antt](../../{place}))")
            for definition in read.items:
                self.definition(file, read, definition)

    def definition(self, file, read, definition):
        key = ("definition", file, definition.name)
        self.page.heading(4, f"`{definition.name}`", key)
        if definition.remark:
            self.page.text(plain(definition.remark))
        lines, left = shown_lines(definition, MOST_EQUATIONS)
        self.page.code(lines)
        if left:
            self.page.text(f"Its equations are {left} lines of the file.")
        self.see(self.spec_places(read, words_of(lines)), in_full=False)

    def spec_places(self, read, words):
        for word in words:
            place = spec_place(read.uses[word], word) if word in read.uses else None
            if place and place[0] in self.crates:
                yield word, place

    # ---- tests and files

    def tests(self):
        tests = self.crate.tests()
        if tests:
            self.page.heading(2, "Tests", "tests")
        for file, items in tests.items():
            self.page.heading(3, f"src/{file}.rt", ("file", file))
            self.page.remark(self.crate.code[file].head)
            self.page.points(with_remark(f"`{it.name}`", self.tried(file, it)) for it in items)

    def tried(self, file, test):
        """The remark of a test, or what the functions that it calls say that they try."""
        if test.remark:
            return test.remark
        called = re.findall(r"\btry_\w+(?=\()", "\n".join(test.body))
        named = [it for it in self.crate.code[file].items if it.name in called and it.remark]
        return ["; ".join(first_sentence(paragraphs(it.remark)[0]) for it in named)]

    def files(self):
        self.page.heading(2, "Files", "files")
        for folder, (end, begin) in ENDS.items():
            below = self.crate.folder() / folder
            files = list(crates_read.file_heads(below, "*" + end, begin))
            if files:
                self.page.heading(3, folder, ("folder", folder))
                self.page.points(self.file_line(folder, path, head) for path, head in files)
        self.answers()

    def answers(self):
        """How many files have the proofs of single functions."""
        below = self.crate.folder() / "proofs"
        count = sum(1 for it in below.rglob("*.antt") if it.stem in ("Answers", "Invariants"))
        if count:
            few = "One more file has" if count == 1 else f"{count} more files have"
            self.page.text(f"{few} what the search leaves open of the proofs of single functions.")

    def file_line(self, folder, path, head):
        place = path.relative_to(ROOT).as_posix()
        shown = path.relative_to(self.crate.folder() / folder).as_posix()
        line = f"[{shown}](../../{place})" + (f": {plain(head)}" if head else "")
        by = self.cited.get((self.crate.name, path.stem)) if folder == "proofs" else None
        return line + (f" (cited by {', '.join(by)})" if by else "")

    # ---- links

    def places_in(self, entry, words):
        found = named_places(self.crate, self.crates, entry.file)
        own = self.crate.name, ("name", entry.name)
        places = [(word, found[word]) for word in words if word in found]
        return [(word, place) for word, place in places if self.key_at(place) != own]

    def see(self, places, in_full=True, briefly=""):
        """Where the words of what was shown are told: definitions with what they say first, but for
        one that was said already."""
        said, others = {}, {}
        for word, place in places:
            found = self.key_at(place)
            if found and found[1] in self.keys.get(found[0], {}):
                shown = self.link(*found, word)
                definition = self.definition_at(*found) if in_full and word != briefly else None
                if definition and definition.remark:
                    said.setdefault(f"{shown}: {first_sentence(plain(definition.remark))}")
                else:
                    others.setdefault(shown)
        if said:
            self.page.points(said)
        if others:
            self.page.text("See " + ", ".join(others) + ".")

    def key_at(self, place):
        """The key of a place, as a crate and what its page knows."""
        if place[1][0] == "definition":
            return place
        found = item_name(self.crates, place)
        return self.key_of(found) if found else None

    def key_of(self, found):
        return found[0], ("name", found[1])

    def link(self, name, key, text):
        anchor = self.keys.get(name, {}).get(key)
        if not anchor:
            return f"`{text}`"
        page = "" if name == self.crate.name else f"{name}.md"
        return f"[`{text}`]({page}#{anchor})"


def crate_link(name):
    return f"[{name}]({name}.md)"


def layer_link(layer):
    return f"[{layer}](README.md#{layer.lower().replace(' ', '-')})"


def with_remark(shown, remark):
    told = paragraphs(remark)
    return f"{shown}: {first_sentence(told[0])}" if told else shown


def words_in(lines):
    """The words of some lines of code."""
    return crates_read.Item("", "", False, [], lines).words()


def citing(crates):
    """For each lemma file that another crate cites, as a crate and a file, those that cite it."""
    found = {}
    for name in crates:
        for pair in lemmas.cited_by(name):
            found.setdefault(pair, []).append(name)
    return found
