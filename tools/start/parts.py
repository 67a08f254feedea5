"""Compiles an LLVM module in parts, as many side by side as there are processors.

What splits it is `split.c`, which the kit's own clang compiles first. Each part has what it calls
beside it, or a copy where that is small, so that the program is as fast as one that is compiled in
one piece.
"""

import os
import subprocess

from shared.making import kit, say, words_of_link
from shared.places import TOOLS

# At most so many parts: each takes some 200 MB.
MOST = 8
SPLITTER = TOOLS / "start/split.c"


def count_of_parts():
    return max(1, min(MOST, len(os.sched_getaffinity(0))))


class Failed(Exception):
    """A compiler or linker failed, with what it said."""


class OtherForm(Exception):
    """The module is not of the form that is split."""


def run(guarded, words):
    ran = guarded.start(words, stdout=subprocess.DEVNULL, stderr=subprocess.PIPE, text=True, errors="replace")
    said = ran.communicate()[1]
    if ran.returncode:
        raise Failed(said)


def made_splitter(guarded, folder):
    """Compiles what splits modules. Gives the program."""
    made, program = folder / "split.o", folder / "split"
    toolchain = kit() / "toolchain"
    words = [toolchain / "bin/clang", "--target=x86_64-unknown-linux-gnu", f"--sysroot={toolchain}", "--no-default-config"]
    run(guarded, [*words, "-O1", "-ffreestanding", "-fPIE", "-c", SPLITTER, "-o", made])
    run(guarded, words_of_link(program, made))
    return program


class Compiling:
    """How a module is compiled in a folder: by the kit's own words for clang, but for what is
    compiled to what, optimized, and without the checks of addresses, which want another heap."""

    def __init__(self, guarded, words, folder):
        self.guarded, self.folder = guarded, folder
        words = [it for it in words if it != "-fsanitize=address"]
        self.words = ["-O1" if it == "-O0" else it for it in words]

    def words_of(self, module, made):
        """The words that have a module compiled."""
        words = [str(kit() / "toolchain/bin/clang"), *self.words]
        for place, word in enumerate(words[:-1]):
            if word == "-o":
                words[place + 1] = str(made)
            elif word == "ir":
                words[place + 1] = str(module)
        return words

    def whole(self, module):
        """Compiles the module in one piece. Gives the objects."""
        made = self.folder / "whole.o"
        run(self.guarded, self.words_of(module, made))
        return [made]

    def split(self, module, count):
        """Splits the module into so many parts. Gives their files, and the names of the functions
        that have bodies in the module."""
        try:
            run(self.guarded, [made_splitter(self.guarded, self.folder), module, self.folder, count])
        except Failed as why:
            raise OtherForm(str(why).strip()) from why
        names = (self.folder / "names").read_text(encoding="utf-8", errors="replace").splitlines()
        return [self.folder / f"part{part}.bc" for part in range(count)], names

    def side_by_side(self, parts, tell):
        """Compiles these parts. Gives the objects."""
        objects = [part.with_suffix(".o") for part in parts]
        quiet = {"stdout": subprocess.DEVNULL, "stderr": subprocess.DEVNULL}
        begun = [self.guarded.start(self.words_of(part, made), **quiet) for part, made in zip(parts, objects)]
        for ran in begun:
            tell(f"{sum(it.poll() is not None for it in begun)} of {len(parts)} parts are compiled")
            ran.wait()
        if any(ran.returncode for ran in begun):
            raise OtherForm("a part is refused")
        return objects

    def compiled(self, module, tell):
        """Compiles the module: in parts, or whole if it is of a form that is not split, which is
        said. Gives the objects, and the names of the functions where they are read."""
        names = []
        try:
            parts, names = self.split(module, count_of_parts())
            return self.side_by_side(parts, tell), names
        except OtherForm as why:
            say(f"this kit's module is of another form ({why}), so it is compiled in one piece, which takes longer")
        return self.whole(module), names
