"""Lists the public calls with the refusals that their answers name, read off the signatures in
crates/*/src.

A row is a crate, a call, the refusals, and what the signature says of memory: that the answer may
be want of memory (`may want`), that the call is handed the allocator alone, as one that makes an
empty list is (`handed`), or neither (`none`). The refusals are the variants of the error type of a
`Result`, or those of an answer that is an enum. What may want memory and what may not is compared
with CALLS: the status is 1 where a call that is to take none may answer want of memory, or where a
call is not there. A call that might want memory and wants none is told, and no fault. (No part of
the gate.)
"""

import re
import sys
from dataclasses import dataclass, field

from shared.places import ROOT

CRATES = ROOT / "crates"
WANTS = ("AllocError", "OutOfMemory")

# The calls of each crate: those that may answer want of memory, and those that may not. `next_line`
# wants none for lines of at most 65,536 bytes, and `judge` none for a refutation: their contracts
# say so.
CALLS = {
    "net_model": (
        "Name::new Network::build Network::apply Network::links_from",
        "Items::new Items::as_slice Items::into_vec Name::bytes Network::points Network::bounds Network::links Network::point"
        " Network::bound Network::activation Network::is_contingent Network::greatest",
    ),
    "strategy_model": ("play", "satisfies"),
    "plan_port": (
        "LineReader::new LineReader::next_line SteadyPort::new",
        "LineReader::text LineReader::number write_all Port::take Port::put StdPort::new MemoryPort::new MemoryPort::written"
        " SteadyPort::room SteadyPort::whole SteadyPort::written",
    ),
    "plan_format": ("read_plan_line read_plan print_plan", ""),
    "plan_json": ("from_json to_json", ""),
    "edit_script": ("read_step", ""),
    "event_stream": ("EventReader::new", "EventReader::read EventReader::completions"),
    "reduction_rules": ("", "no_case upper_case lower_case cross_case removal"),
    "labelled_graph": (
        "Table::of Table::lower_to Table::lower_all Table::row_into Table::copy",
        "Table::empty Table::weight Table::upper Table::raise_to Table::clear",
    ),
    "derivation_dag": (
        "Dag::push Dag::ancestors Dag::rests_on Supports::accept Supports::accept_row",
        "Dag::new Dag::node Dag::len Supports::table Supports::newest",
    ),
    "support_records": ("Store::of Store::follow", "Store::dag"),
    "loop_finder": ("order", ""),
    "back_propagation": ("row", ""),
    "work_board": ("Board::new", "Board::split Board::draw Board::join Board::close Seat::to_split Seat::out Seat::told"),
    "parallel_rounds": ("round work propagate", ""),
    "cert_format": ("read_cert_line read_certificate print_certificate", ""),
    "cert_checker": ("judge", ""),
    "dispatch_net": ("Dispatch::of", "Dispatch::lower_bounds Dispatch::waits Dispatch::slim"),
    "live_executor": (
        "Executor::start",
        "Executor::feed Executor::acts Executor::finish Executor::next_due Executor::moment_of",
    ),
    "plan_session": (
        "Session::open Session::apply Session::certificate Session::dispatch Session::reopen",
        "Session::verdict Session::network Session::store",
    ),
    "situation_player": ("situation longest shortest play_out forge", ""),
}

# Answers that are enums of which some variants refuse: the others tell what was asked for.
GIVES = {"Bytes", "Wrote", "Text", "End", "All", "Acts", "Complete", "Controllable", "NotControllable", "Order", "Cycle"}

# `impl Name {`, `impl<T> Name<T> {` and `pub trait Name: Bound {`; an `impl Trait for Name {` is
# none of these.
OWNER = re.compile(r"^(?:impl(?:<.*?>)? |pub trait )(\w+)(?:<.*>)?(?:: [^{]*)? \{$")
CALL = re.compile(r"^(?:    )?(?:pub )?(?:const )?fn (\w+)")


@dataclass
class Signature:
    """What is read of a call: its parameters and its answer."""

    parameters: str
    answer: str


@dataclass
class Source:
    """What is read of all crates: the calls of each, and the variants of each enum by its name."""

    calls: dict = field(default_factory=dict)
    variants: dict = field(default_factory=dict)


def signature(lines):
    """The signature that begins in the first line: up to the bracket that closes the parameters,
    and the answer after it."""
    text = " ".join(line.strip() for line in lines)
    depth = 0
    begin = text.index("(")
    for place in range(begin, len(text)):
        depth += {"(": 1, ")": -1}.get(text[place], 0)
        if depth == 0:
            rest = text[place + 1 :]
            answer = re.match(r"\s*->\s*(.*?)\s*(?:requires|ensures|where|\{|;|$)", rest)
            return Signature(text[begin : place + 1], answer.group(1) if answer else "()")
    sys.exit("a signature without an end: " + text[:80])


def is_public(line, in_trait):
    return line.lstrip().startswith("pub ") or in_trait


def read_file(source, crate, path):
    owner = None
    in_trait = False
    lines = path.read_text().split("\n")
    for place, line in enumerate(lines):
        if line and not line[0].isspace():
            head = OWNER.match(line)
            owner = head.group(1) if head else None
            in_trait = line.startswith("pub trait ")
        call = CALL.match(line)
        if call and is_public(line, in_trait):
            name = f"{owner}::{call.group(1)}" if owner else call.group(1)
            source.calls[crate, name] = signature(lines[place : place + 20])
        enum = re.match(r"^pub enum (\w+)", line)
        if enum:
            source.variants[enum.group(1)] = read_variants(lines[place + 1 :])


def read_variants(lines):
    found = []
    for line in lines:
        if line == "}":
            break
        variant = re.match(r"^    (\w+)\b", line)
        if variant:
            found.append(variant.group(1))
    return found


def read_sources():
    source = Source()
    for crate in sorted(CRATES.iterdir()):
        for path in sorted(crate.glob("src/**/*.rt")):
            read_file(source, crate.name, path)
    return source


def refusals(source, answer):
    """The refusals that an answer names."""
    result = re.match(r"^Result<.*, (\w+)>$", answer)
    if result:
        error = result.group(1)
        return source.variants.get(error, [error])
    return [variant for variant in source.variants.get(answer, []) if variant not in GIVES]


def memory(call, named):
    if any(word in WANTS for word in named):
        return "may want"
    return "handed" if "Global" in call.parameters else "none"


def rows(source):
    """A row for each call: crate, call, refusals, memory, and what is wrong or is to be told."""
    for crate, (may_want, takes_none) in CALLS.items():
        if not (CRATES / crate).is_dir():
            print(f"{crate} is not there: passed over")
            continue
        for name in may_want.split() + takes_none.split():
            call = source.calls.get((crate, name))
            if call is None:
                yield crate, name, "", "", "WRONG: it is not there"
                continue
            named = refusals(source, call.answer)
            wants = memory(call, named)
            yield crate, name, " ".join(named) or "-", wants, remark(name in may_want.split(), wants)


def remark(may_want, wants):
    if may_want:
        return "" if wants == "may want" else "might want memory, and wants none"
    return "WRONG: it is to take none" if wants == "may want" else ""


def main(_given):
    table = [("crate", "call", "refusals", "memory", ""), *rows(read_sources())]
    sizes = [max(len(row[column]) for row in table) for column in range(4)]
    for row in table:
        print("  ".join(cell.ljust(size) for cell, size in zip(row, sizes)) + "  " + row[4])
    counts = {word: sum(row[3] == word for row in table) for word in ("may want", "handed", "none")}
    print(", ".join(f"{word}: {count}" for word, count in counts.items()))
    return 1 if any(row[4].startswith("WRONG") for row in table) else 0
