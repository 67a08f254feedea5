"""Makes docs/reference of the sources: a page for each crate, and the first page.

With --write the pages are written, and those of crates that are gone are removed. With --check the
status is 1 where a page differs from what would be written, and the first one that does is named.
With --show the page of one crate is printed.
"""

import sys

from pages.crate_page import Writer, citing
from pages.index_page import index_page
from shared.places import ROOT
from sources.crate import all_crates

FOLDER = ROOT / "docs" / "reference"


def words(parser):
    either = parser.add_mutually_exclusive_group(required=True)
    either.add_argument("--write", action="store_true", help="write all pages")
    either.add_argument("--check", action="store_true", help="end with 1 where a page differs")
    either.add_argument("--show", metavar="CRATE", help="print the page of a crate")


def main(given):
    pages = all_pages()
    if given.write:
        write(pages)
        return 0
    if given.check:
        return check(pages)
    if f"{given.show}.md" not in pages:
        sys.exit(f"there is no crate {given.show}")
    sys.stdout.write(pages[f"{given.show}.md"])
    return 0


def all_pages():
    """The text of each page by its name."""
    crates = all_crates()
    cited = citing(crates)
    keys = {}
    for _ in ("for the keys of each page", "with the links"):
        written = {name: Writer(it, crates, keys, cited).write() for name, it in crates.items()}
        keys = {name: page.keys for name, page in written.items()}
    pages = {f"{name}.md": page.whole() for name, page in written.items()}
    return {"README.md": index_page(crates).whole(), **pages}


def there():
    """The pages that are there, by their names."""
    return {path.name: path for path in sorted(FOLDER.glob("*.md"))}


def write(pages):
    FOLDER.mkdir(exist_ok=True)
    for name, path in there().items():
        if name not in pages:
            path.unlink()
    for name, text in pages.items():
        (FOLDER / name).write_text(text)


def check(pages):
    found = there()
    for name in [*pages, *(it for it in found if it not in pages)]:
        if name not in found or name not in pages or found[name].read_text() != pages[name]:
            print(f"docs/reference/{name} is not what `tools/crate-pages --write` writes")
            return 1
    return 0
