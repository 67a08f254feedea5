"""The crates of a smaller program, which answers the calls of one command as the whole program
does, and is compiled sooner.

`stnu_run` runs this command alone there, and its laws, which do nothing when they run, are empty.
Where no word follows that of the command, `command_words` reads none (`no_words.rt.txt`), so that the
parser of words is not needed either. The crates below stay as they are; what none of them names any
more is not read.

What another word or more words would get is not what the whole program answers: the smaller one is
called with the words for which it is made alone. Where the sources have another form than is known
here, there is no smaller program.
"""

import hashlib
import re
from pathlib import Path

from shared.making import Crates
from shared.places import TOOLS
from start.needed import GHOST, NAME, Unread, tokens_of

# The crate that runs commands, with the file that finds the one of a word; and the one that reads
# words, with the file that does.
RUNS, FINDS = "stnu_run", "dispatch.rt"
WORDS, READS = "command_words", "word_reader.rt"
# What reads no words in its place, and the files of that crate that parse words.
NO_WORDS = TOOLS / "start/no_words.rt.txt"
PARSES = ("clap_matches", "command")
# A sum of the code that reads words, and of that which has it read, for which `no_words.rt.txt` stands.
READS_OF = "ee9fba4e2dc8ae157eb457b391ba8146ded8c525abba147e260305b758748227"
# How the command of a word is found: a line for each.
ARM = r'        "(\w+)" => \w+::<R, (\w+), P>\(rt, alloc, words, port\),\n'
ARMS = re.compile(rf"    match command \{{\n((?:{ARM})+)        _ => print_answer\(rt, alloc, RefusedWords, port\),\n    \}}\n")
IMPORT = re.compile(r"^use (\w+)::([^;]*);\n", re.M)
# What is named in another crate, or in a module.
PATH = re.compile(r"\b(\w+)::")
LAW = re.compile(r"^((?:pub(?:\(crate\))? )?fn law_\w+\(\))\n(?: {4}.*\n)+\{\n(?: {4}.*\n)*\}\n", re.M)
# What else a file of laws may have.
BESIDE_LAWS = re.compile(r"(?://.*\n|(?:ghost )?use [^;]*;\n|\s)*")


def emptied(found):
    """As many lines as this text has, and nothing on them."""
    return "\n" * found[0].count("\n")


def names_of(text):
    return {word for word, _, _ in tokens_of(text) if NAME.match(word)}


def with_one_arm(text, command):
    """The file that finds commands, with this one alone."""
    arms = ARMS.findall(text)
    if len(arms) != 1 or not any(word == command for word, _ in re.findall(ARM, arms[0][0])):
        raise Unread(f"no command {command}")
    text = re.sub(ARM, lambda it: it[0] if it[1] == command else "\n", text)
    left = names_of(IMPORT.sub("", text))
    return IMPORT.sub(lambda it: it[0] if names_of(it[2]) & left else emptied(it), text)


def with_empty_laws(text):
    """A file of laws, which do nothing and so name nothing."""
    if not BESIDE_LAWS.fullmatch(LAW.sub("", text)):
        raise Unread("a file of laws with something else")
    return "".join(f"{head} {{}}\n" for head in LAW.findall(text))


def has_words_read(text):
    return f"{WORDS}::read" in text or any("read" in names_of(it) for name, it in IMPORT.findall(text) if name == WORDS)


def sum_of_code(files):
    """A sum of what the compiler makes code of."""
    sum = hashlib.sha256()
    for name, text in sorted(files.items()):
        sum.update(repr((name, [word for word, _, _ in tokens_of(text) if word != GHOST])).encode())
    return sum.hexdigest()


class OneCommand(Crates):
    """The crates of the program of this command, of which those that change are copied into a
    folder. With `is_alone` no word follows that of the command."""

    def __init__(self, crates, folder, command, is_alone):
        super().__init__(crates.root, crates.program)
        self.copied = {}
        runs = self.files_of(RUNS)
        for name, text in runs.items():
            if name == FINDS:
                runs[name] = with_one_arm(text, command)
            elif name != "lib.rt":
                runs[name] = with_empty_laws(text)
        self.put(folder, RUNS, runs)
        if is_alone and sum_of_code(self.reading()) == READS_OF:
            self.put(folder, WORDS, without_parser(self.files_of(WORDS)))
        for name in self.all():
            # (proofs name crates too)
            self.keep_named(name, {it for text in self.files_of(name).values() for it in PATH.findall(text)})

    def folder(self, name):
        return self.copied.get(name) or super().folder(name)

    def files_of(self, name):
        source = self.folder(name) / "src"
        return {str(path.relative_to(source)): path.read_text(encoding="utf-8") for path in source.rglob("*.rt")}

    def reading(self):
        """The files that read words, and those that have it read."""
        found = {f"{WORDS}/{file}": text for file, text in self.files_of(WORDS).items()}
        for name in self.below(self.program):
            if name != WORDS and WORDS in self.own(name):
                found |= {f"{name}/{file}": text for file, text in self.files_of(name).items() if has_words_read(text)}
        return found

    def put(self, folder, name, files):
        """Writes the files of a crate in place of its own."""
        self.copied[name] = Path(folder, name)
        for file, text in files.items():
            to = self.copied[name] / "src" / file
            to.parent.mkdir(parents=True, exist_ok=True)
            to.write_text(text, encoding="utf-8")


def without_parser(files):
    """The files of the crate that reads words, which reads none."""
    files = {name: text for name, text in files.items() if name.removesuffix(".rt") not in PARSES}
    for name in PARSES:
        files["lib.rt"] = files["lib.rt"].replace(f"mod {name};\n", "\n")
    return {**files, READS: NO_WORDS.read_text(encoding="utf-8")}
