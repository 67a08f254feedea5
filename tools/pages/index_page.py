"""The first page of docs/reference: all crates by layer, and how contracts are read."""

from pathlib import Path

from pages.markdown import Page, paragraphs
from sources.crate import first_sentence

HEAD = """What each crate hands on, made from the sources by `tools/crate-pages --write`: nothing on
these pages is written by hand but the part on how a contract is read. What must be believed, in
plain words, is [DEFINITIONS.md](../DEFINITIONS.md); what is proved, in plain words,
[CONTRACTS.md](../CONTRACTS.md); what stands where, [MAP.md](../MAP.md)."""
LAYERS = """Each head is a layer: no crate stands on one of a later line. In brackets stands how
many crates are above, through others too."""
READING = Path(__file__).resolve().parent / "reading.md"


def index_page(crates):
    page = Page("Reference")
    page.text(HEAD)
    page.lines += ["", *READING.read_text().rstrip("\n").split("\n")]
    page.heading(2, "The crates", "crates")
    page.text(LAYERS)
    for layer in dict.fromkeys(it.layer for it in crates.values()):
        page.heading(3, layer, layer)
        page.points(line_of(it) for it in crates.values() if it.layer == layer)
    return page


def line_of(crate):
    told = first_sentence(paragraphs(crate.head())[0])
    return f"[{crate.name}]({crate.name}.md) ({crate.through}): {told}"
