"""Code files (`.rt`): their items, with remarks, signatures and clauses."""

import re
import textwrap
from dataclasses import dataclass, field

ITEM = re.compile(
    r"(?P<public>pub )?(?:const )?(?P<kind>fn|struct|enum|trait|type|const|ghost)"
    r" (?!use )(?P<name>\w+)"
)
IMPL = re.compile(r"impl(?:<.*?>)? (?:(?P<trait>\S.*?) for )?(?P<owner>\w+)(?:<.*>)? \{\}?$")
USE = re.compile(
    r"(?P<public>pub )?(?P<ghost>ghost )?use (?P<path>[^;{]*?)(?:\{(?P<names>[^}]*)\})?;$"
)
CLAUSE = re.compile(r"(requires|ensures)\b")


@dataclass
class Item:
    """A function, a type, a trait, a constant, or what a trait has besides functions."""

    kind: str
    name: str
    public: bool
    remark: list[str]
    lines: list[str]
    clauses: list[str] = field(default_factory=list)
    members: list["Item"] = field(default_factory=list)
    test: bool = False
    body: list[str] = field(default_factory=list)

    def words(self):
        """The words of the declaration and of its clauses, each once, in their order."""
        text = "\n".join(it for it in self.lines + self.clauses if not it.lstrip().startswith("//"))
        return list(dict.fromkeys(re.findall(r"[\w◌]+", text)))


@dataclass
class Impl:
    """A block `impl`, of a trait or of none."""

    owner: str
    trait: str | None
    members: list[Item]
    ghosts: list[str]


@dataclass
class Use:
    """A line `use` or `ghost use`: the path, and the names that it brings."""

    path: str
    names: list[str]
    public: bool
    ghost: bool


@dataclass
class Code:
    """What is read of a code file."""

    head: list[str]
    items: list[Item] = field(default_factory=list)
    impls: list[Impl] = field(default_factory=list)
    uses: list[Use] = field(default_factory=list)
    public_modules: list[str] = field(default_factory=list)


def read_code(text):
    lines = text.split("\n")
    code = Code(head=[line[3:].strip() for line in lines if line.startswith("//!")])
    code.uses = list(read_uses(lines))
    code.public_modules = re.findall(r"^pub mod (\w+);", text, re.MULTILINE)
    for start, line in enumerate(lines):
        if IMPL.match(line):
            code.impls.append(read_impl(lines[start : end_of_block(lines, start)]))
        elif ITEM.match(line):
            code.items.append(read_item(lines, start, ""))
    return code


def read_uses(lines):
    for start, line in enumerate(lines):
        if re.match(r"\s*(pub )?(ghost )?use ", line):
            end = next(at for at in range(start, len(lines)) if lines[at].endswith(";"))
            told = USE.match(" ".join(it.strip() for it in lines[start : end + 1]))
            yield use_of(told)


def use_of(told):
    path, names = told["path"], told["names"]
    if names is None:
        path, _, names = path.rpartition("." if told["ghost"] else "::")
    brought = [name.strip() for name in names.split(",") if name.strip()]
    return Use(path.rstrip(".:"), brought, bool(told["public"]), bool(told["ghost"]))


def end_of_block(lines, start):
    """The line after the block that begins in a line, which ends in the same column."""
    if lines[start].endswith(("{}", ";")):
        return start + 1
    indent = re.match(r" *", lines[start]).group()
    closed = (indent + "}", indent + "};", indent + ");")
    return next(at for at in range(start + 1, len(lines)) if lines[at] in closed) + 1


def read_item(lines, start, indent):
    """The item that begins in a line."""
    told = ITEM.match(lines[start][len(indent) :])
    before = remark_lines(lines, start)
    remark = [line.strip()[4:] for line in before if line.strip().startswith("///")]
    item = Item(told["kind"], told["name"], bool(told["public"]), remark, [])
    item.test = any(line.strip() == "#[test]" for line in before)
    if item.kind == "fn":
        item.lines, item.clauses = read_signature(lines[start:], indent)
        item.body = lines[start : end_of_block(lines, start)] if item.test else []
    elif item.kind in ("struct", "enum", "trait"):
        block = lines[start : end_of_block(lines, start)]
        item.members = read_members(block) if item.kind == "trait" else []
        derived = [line for line in before if line.startswith("#[derive")]
        item.lines = derived + declared_lines(item.kind, block)
    else:
        item.lines = dedented(lines[start : end_of_line_item(lines, start)])
    return item


def end_of_line_item(lines, start):
    """The line after the item that begins in a line and ends with a semicolon of its own."""
    for at in range(start, len(lines)):
        if lines[at].endswith(";") and braces(lines[start : at + 1]) <= 0:
            return at + 1
    return len(lines)


def remark_lines(lines, start):
    """The remarks and attributes that stand right before a line."""
    first = start
    while first and lines[first - 1].strip().startswith(("///", "#[")):
        first -= 1
    return lines[first:start]


def read_members(block):
    """The functions of a block, and what a trait has besides."""
    indent = " " * 4
    starts = [
        at for at, line in enumerate(block)
        if re.match(r"    (pub )?(const )?(fn|type|ghost) (?!use )\w", line)
    ]
    return [read_item(block, start, indent) for start in starts]


def read_impl(block):
    told = IMPL.match(block[0])
    members = [it for it in read_members(block) if it.kind != "ghost"]
    ghosts = [it for it in read_members(block) if it.kind == "ghost"]
    return Impl(told["owner"], told["trait"], members, [line for it in ghosts for line in it.lines])


def read_signature(lines, indent):
    """The lines of a signature, and those of its clauses."""
    signature, clauses = [], []
    for line in lines:
        words = line[len(indent) :]
        if signature and (words == "{" or words.startswith(("{ ", "{}"))):
            break
        if clauses or CLAUSE.match(words.strip()) or words.strip().startswith("// "):
            clauses.append(words)
        else:
            signature.append(words)
        if words.endswith((" {", ";", "{}")) and braces(clauses) <= 0:
            break
        if words.endswith(" {") and not clauses:
            break
    if clauses:
        clauses[-1] = clauses[-1].removesuffix(";")
    return [bare(line) for line in signature], dedented(clauses)


def braces(lines):
    """How many braces are open at the end of some lines."""
    return sum(line.count("{") - line.count("}") for line in lines)


def bare(line):
    """A line without what begins the body."""
    return re.sub(r"( \{| \{\}|;)$", "", line)


def dedented(lines):
    return textwrap.dedent("\n".join(lines)).split("\n") if lines else []


def declared_lines(kind, block):
    """The lines of a type or a trait that those see who use it."""
    if kind == "enum":
        return block
    if kind == "trait":
        return [bare(block[0])]
    if len(block) == 1:
        return [block[0] if "(pub " in block[0] else re.sub(r"\(.*\)", "(..)", block[0])]
    kept = public_fields(block[1:-1])
    hidden = len(kept) < len(block) - 2
    if not kept:
        return [block[0] + " .. }"]
    return [block[0], *kept, *(["    .."] if hidden else []), block[-1]]


def public_fields(lines):
    """The public fields of a type, each with its remark."""
    kept, remark = [], []
    for line in lines:
        if line.strip().startswith("///"):
            remark.append(line)
            continue
        if line.startswith("    pub "):
            kept += [*remark, line]
        remark = []
    return kept
