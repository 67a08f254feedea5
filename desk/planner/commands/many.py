"""Decides many plans, as many at once as there are processors: a line for each, with the program's answer.

Files are plans, and of folders all files in them whose names end in .stnu or .json. The status is 0 if each plan can be kept, 1 if one
cannot, and that of the fault (3, or 4 of a limit) if one is refused.

Plans don't depend on each other. So on many machines any runner of jobs does the same: give each machine a part of the list of files, and
put what they print together, by GNU parallel for example:

  find plans -name '*.stnu' | parallel --sshloginfile machines --xargs planner many --jobs 1
"""

import os
from concurrent.futures import ThreadPoolExecutor
from dataclasses import dataclass
from pathlib import Path

from planner.faults import Fault, Status, say
from planner.options import whole_number
from planner.output import hand_on, tell
from planner.plan import ENDINGS, load, read
from planner.reader import quoted

EXAMPLE = """
  planner many examples
  planner many --json plans/monday.stnu plans/tuesday.json"""

# For so few plans it takes longer to look for the program behind its launcher than to launch it.
FEW = 50


def add_words(parser):
    parser.add_argument("paths", nargs="+", metavar="PATH", help="files with plans, and folders of such files")
    processors = os.cpu_count() or 1
    parser.add_argument(
        "--jobs", type=whole_number(1, 1000), default=processors, metavar="N", help="so many at once (as there are processors)"
    )


def run(args):
    files = files_of(args.paths)
    quick = args.program.quick() if len(files) > FEW else args.program
    counts, worst = {}, Status.KEPT
    with ThreadPoolExecutor(args.jobs) as pool:
        try:
            for decision in pool.map(lambda file: decided(quick, file, args.delay), files):
                if decision.call:
                    quick.show(decision.call)
                report(args, decision)
                kind = "refused" if decision.status > Status.NOT_KEPT else decision.said
                counts[kind] = counts.get(kind, 0) + 1
                worst = max(worst, decision.status)
        except BaseException:
            pool.shutdown(wait=False, cancel_futures=True)
            raise
    say(f"{len(files)} plan{'' if len(files) == 1 else 's'}: " + ", ".join(f"{count} {kind}" for kind, count in sorted(counts.items())))
    return Status(worst)


def files_of(paths):
    """The files that are named, and those in the folders that are."""
    files = []
    for path in map(Path, paths):
        if path.is_dir():
            files += sorted(str(file) for file in path.rglob("*") if file.suffix in ENDINGS and file.is_file())
        elif path.exists():
            files.append(str(path))
        else:
            raise Fault(f"{path}: no such file or directory")
    if not files:
        raise Fault(f"no file in {', '.join(paths)} ends in {' or '.join(ENDINGS)}")
    return files


@dataclass(frozen=True)
class Decision:
    """What is said of a plan, with its status, what is the matter with it, and the call that said so."""

    file: str
    said: str
    status: int
    fault: str | None = None
    call: str | None = None


def decided(program, file, delay):
    """What the program answers to a plan, or why the plan cannot be read."""
    try:
        source = load(file, delay)
    except Fault as fault:
        return Decision(file, str(fault).removeprefix(f"{file}: "), fault.status)
    answer = program.call(["check"], source, is_shown=False)
    fault = first_fault(source, answer.first) if answer.is_refused else None
    return Decision(file, answer.first or "nothing", answer.status, fault, answer.call)


def report(args, decision):
    if args.json:
        hand_on({"plan": decision.file, "answer": decision.said, "status": decision.status, "fault": decision.fault})
    else:
        tell(f"{decision.file}: {decision.said}" + (f" ({decision.fault})" if decision.fault else ""))


def first_fault(source, said):
    """What is the matter with a plan that was refused, if planner finds the same fault first."""
    fault = next((it for it in read(source)[2] if it.is_fault), None)
    if fault is None or fault.told != said:
        return None
    return fault.message if fault.token is None else f"{quoted(fault.token)}: {fault.message}"
