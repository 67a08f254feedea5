"""Manual pages of `stnu` and of `planner`, made of the pages and the parsers that tell their
words."""

import re

from docs.words import blocks, option_of, optionals, planner, positionals, rows, section, stnu
from shared.places import ROOT
from planner import faults, front
from planner.commands import COMMANDS

LINK = re.compile(r"\[([^\]]*)\]\([^)]*\)")
MARKED = re.compile(r"`([^`]*)`|\*\*([^*]*)\*\*|\*([^*]*)\*")


def escaped(text):
    """A text that roff takes for nothing else."""
    return text.replace("\\", "\\e").replace("-", "\\-").replace("'", "\\(aq")


def lines_of(text):
    """A text as lines, none of which roff takes for a request."""
    return "\n".join("\\&" + line if line.startswith(".") else line for line in text.split("\n"))


def roff(text):
    """A paragraph of a page."""

    def marked(found):
        code, bold, leaning = found.groups()
        return f"\\fB{code or bold}\\fR" if code or bold else f"\\fI{leaning}\\fR"

    return lines_of(MARKED.sub(marked, escaped(LINK.sub(r"\1", text)))) if text else ""


def bold(text):
    return f"\\fB{escaped(text)}\\fR"


def head(name, about, version):
    yield f'.TH {name.upper()} 1 "" "{escaped(version)}" "Celeryadze"'
    yield ".SH NAME"
    yield f"{name} \\- {escaped(about)}"


def entry(term, text):
    """A term, and below it what it means."""
    yield from (".TP", term, text)


def part(of_page):
    """A part of a page, with its items and tables."""
    for block in blocks(of_page):
        if block.startswith("- "):
            call, _, rest = block.removeprefix("- ").partition(": ")
            yield from entry(roff(call), roff(rest))
        elif block.startswith("|"):
            continue
        elif not block.startswith("#"):
            yield ".PP"
            yield roff(block)


def stnu_page(version):
    """The manual page of the program."""
    tool = stnu()
    yield from head(tool.name, tool.about, version)
    yield ".SH SYNOPSIS"
    yield f"{bold('stnu')} \\fICOMMAND\\fR [\\fIWORDS\\fR] < \\fIINPUT\\fR"
    yield ".SH DESCRIPTION"
    # (the paragraph of the README below its title)
    yield roff(blocks((ROOT / "README.md").read_text(encoding="utf-8").splitlines())[1])
    yield ".PP\nThe input is read from standard input, and all answers go to standard output."
    yield ".SH COMMANDS"
    yield from part(section("docs/ANSWERS.md", "The calls"))
    yield ".SH OPTIONS"
    for option, of, about in rows("docs/ANSWERS.md", "The calls"):
        yield from entry(roff(option), roff(f"of {of}: {about}"))
    yield ".SH EXIT STATUS"
    for row in rows("README.md", "The commands"):
        if row[0][:1].isdigit():
            yield from entry(bold(row[0]), roff(row[1]))
    yield ".SH EXAMPLES"
    yield from verbatim("planner new vehicle > plan.stnu\nstnu check < plan.stnu")
    yield ".SH SEE ALSO"
    yield f"{bold('planner')}(1), which takes files, tells faults in sentences and draws days"


def planner_page(version):
    """The manual page of the front for planners, with all its commands."""
    tool = planner()
    yield from head(tool.name, tool.about, version)
    yield ".SH SYNOPSIS"
    yield f"{bold('planner')} \\fICOMMAND\\fR [\\fIWORDS\\fR]"
    yield ".SH COMMANDS"
    for command in tool.commands:
        yield from entry(bold(command.name), escaped(command.about))
    common = set.intersection(*({option.names for option in command.options} for command in tool.commands))
    for name in COMMANDS:
        yield from command_part(front.parser_of(name), common)
    yield ".SH COMMON OPTIONS"
    for option in tool.commands[0].options:
        if option.names in common:
            yield from entry(term_of(option), lines_of(escaped(option.about)))
    yield ".SH EXIT STATUS"
    for status, meaning in faults.MEANINGS.items():
        yield from entry(bold(str(int(status))), escaped(meaning))
    yield ".SH SEE ALSO"
    yield f"{bold('stnu')}(1), the program, which gives each verdict, number and moment"


def command_part(parser, common):
    """What a command does, and its words."""
    yield f".SH {escaped(parser.prog.upper())}"
    usage = " ".join(parser.format_usage().split()[1:])
    yield from (".PP", escaped(usage))
    for paragraph in parser.description.split("\n\n"):
        yield from verbatim(paragraph) if paragraph.startswith(" ") else (".PP", lines_of(escaped(paragraph)))
    for action in positionals(parser):
        yield from entry(f"\\fI{escaped(str(action.metavar or action.dest.upper()))}\\fR", lines_of(escaped(action.help or "")))
    for option in map(option_of, optionals(parser)):
        if option.names not in common:
            yield from entry(term_of(option), lines_of(escaped(option.about)))
    yield from verbatim(parser.epilog.partition("\n\n")[0])


def term_of(option):
    value = f" \\fI{escaped(option.value)}\\fR" if option.value else ""
    return ", ".join(bold(name) for name in option.names) + value


def verbatim(text):
    """Lines as they stand."""
    yield from (".PP", ".nf", lines_of(escaped(text)), ".fi")


def pages(version):
    """The text of each manual page, by its file."""
    for name, lines in (("stnu.1", stnu_page(version)), ("planner.1", planner_page(version))):
        yield name, "".join(f"{line}\n" for line in lines)
