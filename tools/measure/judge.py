"""Measures `judge` on a plan of 20,000 bounds and a refutation of many lines, and on table proofs.

Two kinds of input are measured in one run: a plan of 1,000 points without links, whose refutation
has `bound` and `no` lines, and one of 999 points and 333 links, whose refutation has lines of all
seven rules. Prints, for a quarter, a half and all of LINES rule lines (200,000): seconds, lines a
second and the peak of memory; then, as ratios within this run, how time grows with the input, the
bytes of memory that each further line takes, and the time against that of a program in Python that
only splits the same input into words.

With --tables table proofs are measured, of as many points as POINTS say (200, 500 and 1,000): full
tables, with an entry from each point to each; sparse ones, with a few entries for each point; and
those that `check --proof` prints of drawn plans (tools/inputs/plans.py). Prints of each: the
processor's seconds with one thread, which is had on one processor, and how many entries a second
those are; the seconds and the processors' seconds with as many threads as there are processors; the
peak of memory; how many bytes an entry takes beside the certificate as it was read, against the
same table with a first line that is refused; and the processor's seconds of `check` of its plan. Of
`check --proof | judge` it prints the processor's seconds of each. Then how the time of full tables
grows from the first number of points to the last.

With --plain the program is measured beside the plain one of tools/plain (`plain judge`), which is
built by `cargo build --release`: on the table proof of a chain that can be kept, of as many points
as the first number of POINTS says (1,400, which is some 10^6 entries), and on the refutation of
links in loops, of as many points as the second says (440, which is some 10^5 lines). They run in
turn, five times each. Prints of each the medians of its wall and user seconds, the peak of memory
of its own process, which is read while it runs, and the bytes that a line of the certificate adds
to that of the plan alone; then how many times the user seconds and the memory of the plain one the
program took. The answers must agree. The load of the machine comes first.
"""

import os
import statistics
import subprocess
import sys
import tempfile
import time

from inputs.days import text as plan_text
from inputs.plans import KINDS
from shared import front
from shared.costs import Ran, load, times, used
from shared.places import PLAIN, built_plain

BOUNDS = 20_000
IN_TURN = 5


class Bounds:
    """Bounds round and round 1,000 points, and an edge that goes along them, a bound at a time."""

    name = "bounds"
    points = 1_000

    def plan(self):
        lines = [f"point p{i}" for i in range(self.points)]
        lines += [f"bound next{i} p{i} p{(i + 1) % self.points} 5" for i in range(self.points)]
        lines += [f"bound far{i}.{k} p{i} p{(i + k) % self.points} 5" for k in range(2, 21) for i in range(self.points)]
        lines[-1] = "bound back p1 p0 -10"
        return lines

    def refutation(self, count):
        lines = ["bound next0 p0 p1 5"]
        path, weight, at = 1, 5, 1
        while len(lines) + 2 <= count - 2:
            to = (at + 1) % self.points
            lines.append(f"bound next{at} p{at} p{to} 5")
            weight += 5
            lines.append(f"no {path} {len(lines)} p0 p{to} {weight}")
            path, at = len(lines), to
        lines.append("bound back p1 p0 -10")
        lines.append(f"no 1 {len(lines)} p0 p0 -5")
        return lines, len(lines)


class Links:
    """Links of which each alone excludes every strategy, and each must not end long before the
    next."""

    name = "links"
    links = 333

    def plan(self):
        each = range(self.links)
        lines = [f"point {kind}{i}" for i in each for kind in ("begin", "done", "after")]
        lines += [f"link begin{i} 1 10 done{i}" for i in each]
        for i in each:
            lines += [f"bound late{i} after{i} done{i} 1", f"bound soon{i} done{i} after{i} -1"]
            lines.append(f"bound next{i} done{i} done{(i + 1) % self.links} 5")
        more = BOUNDS - 3 * self.links
        lines += [f"bound more{k} begin{k % self.links} after{(k + k // self.links) % self.links} 1000" for k in range(more)]
        return lines

    def refutation(self, count):
        lines = []
        while len(lines) < count:
            i = len(lines) // 13 % self.links
            lines += self.block(len(lines), i, (i + 1) % self.links)
        return lines, 7

    def block(self, number, i, j):
        """A negative loop at the beginning of link i, and an edge from it to that of link j;
        `number` lines stand before."""
        a, c, d, b, e = f"begin{i}", f"done{i}", f"after{i}", f"begin{j}", f"done{j}"
        n = number
        return [
            f"bound late{i} {d} {c} 1",
            f"bound soon{i} {c} {d} -1",
            f"link {c} {c} {a} -10",
            f"up {n + 1} {n + 3} {d} {a} {c} -9",
            f"low {c} {n + 2} {a} {d} 0",
            f"up {n + 5} {n + 4} {a} {a} {c} -9",
            f"drop {n + 6} {a} {a} -1",
            f"bound next{i} {c} {e} 5",
            f"link {e} {e} {b} -10",
            f"up {n + 8} {n + 9} {c} {b} {e} -5",
            f"cross {c} {n + 10} {a} {b} {e} -4",
            f"drop {n + 11} {a} {b} -1",
            f"no {n + 7} {n + 12} {a} {b} -2",
        ]


def text(kind, count):
    """An input with about so many rule lines, and how many it has."""
    lines, step = kind.refutation(count)
    plan = ["stnu 1", *kind.plan(), "end"]
    certificate = ["certificate 1", "refutation", *lines, f"walk {step}", "end"]
    return "\n".join(plan + certificate + [""]).encode(), len(lines)


def run(command, data):
    start = time.perf_counter()
    child = subprocess.Popen(command, stdin=subprocess.PIPE, stdout=subprocess.PIPE)
    out = child.communicate(data)[0]
    return time.perf_counter() - start, out


def peak_of(program, data):
    """The peak of memory in bytes, and the answer."""
    wrapper = [sys.executable, "-c", (
        "import resource, subprocess, sys\n"
        "subprocess.run(sys.argv[1:], check=False)\n"
        "print(resource.getrusage(resource.RUSAGE_CHILDREN).ru_maxrss * 1024)\n"), program, "judge"]
    answer, peak = run(wrapper, data)[1].decode().splitlines()
    return int(peak), answer


def measured(program, data):
    """Seconds (the best of three), the peak of memory in bytes, and the answer."""
    peak, answer = peak_of(program, data)
    return min(run([program, "judge"], data)[0] for _ in range(3)), peak, answer


def report(program, kind, most):
    seen = []
    for wanted in (most // 4, most // 2, most):
        data, count = text(kind, wanted)
        seconds, peak, answer = measured(program, data)
        seen.append((count, seconds, peak, data))
        print(f"{kind.name}: {count} lines, {len(data)} bytes: {seconds:.3f} s, {count / seconds:,.0f} lines a second, "
              f"peak {peak / 1e6:.1f} MB: {answer}")
    (few, fast, low, _), (many, slow, high, data) = seen[0], seen[-1]
    splitting = [sys.executable, "-c", "import sys\nfor line in sys.stdin.buffer: line.split()"]
    words = min(run(splitting, data)[0] for _ in range(3))
    print(f"{kind.name}: time grows {slow / fast:.2f} times for {many / few:.2f} times the lines")
    print(f"{kind.name}: {(high - low) / (many - few):.0f} bytes of memory for each further line")
    print(f"{kind.name}: {slow / words:.2f} times the time that Python takes to split the input into words")


class Table:
    """A plan that can be kept, and a table proof of it."""

    def __init__(self, name, plan, certificate):
        self.name, self.plan, self.certificate = name, plan, certificate
        self.entries = sum(line.startswith((b"edge ", b"upper ")) for line in certificate.splitlines())

    def refused(self):
        """The same with a first line of the order that names no point of the plan."""
        head, order, rest = self.certificate.partition(b"order ")
        return self.plan + head + order + b"nobody-" + rest


def steps(points):
    """Points in a row, each 3 to 5 moments after the one before."""
    lines = [f"point p{i}" for i in range(points)]
    for i in range(points - 1):
        lines += [f"bound most{i} p{i} p{i + 1} 5", f"bound least{i} p{i + 1} p{i} -3"]
    return lines


def table_of(name, points, plan, pairs):
    """A table over points in a row, with an entry for each of these pairs: 5 moments forward and 3
    back for each step between them."""
    lines = ["certificate 1", "table", *(f"order p{i}" for i in range(points))]
    lines += [f"edge p{i} p{j} {(j - i) * (5 if i <= j else 3)}" for i, j in pairs]
    return Table(f"{name}, {points} points", plan_text(plan), ("\n".join([*lines, "end"]) + "\n").encode())


def full(points):
    """An entry from each point to each."""
    each = range(points)
    return table_of("full", points, steps(points), ((i, j) for i in each for j in each))


def sparse(points):
    """Entries of no negative edge, for which nothing more is asked: from each point to the next
    ten."""
    plan = [line for line in steps(points) if " least" not in line]
    pairs = ((i, j) for i in range(points) for j in range(i, min(points, i + 10)))
    return table_of("sparse", points, plan, pairs)


def proof_of(program, kind, points):
    """The table proof that `check --proof` prints of a drawn plan."""
    plan = plan_text(KINDS[kind](points, True))
    verdict, _, certificate = run([program, "check", "--proof"], plan)[1].partition(b"\n")
    assert verdict == b"controllable", verdict
    return Table(f"{kind}, {points} points", plan, certificate)


def on_one_processor(command):
    return ["taskset", "-c", str(min(os.sched_getaffinity(0))), *command]


def spent(command, data):
    """The processors' seconds of one run, its seconds, and what it put."""
    before = used()[1]
    seconds, out = run(command, data)
    return used()[1] - before, seconds, out


def least(command, data, tries=3):
    """The least processors' seconds of some runs, and the least seconds."""
    runs = [spent(command, data) for _ in range(tries)]
    return min(run[0] for run in runs), min(run[1] for run in runs)


def report_table(program, table):
    """Measures one table, and gives the seconds of one thread."""
    data = table.plan + table.certificate
    peak, answer = peak_of(program, data)
    beside = (peak - peak_of(program, table.refused())[0]) / table.entries
    one, _ = least(on_one_processor([program, "judge"]), data)
    many, seconds = least([program, "judge"], data)
    check, _ = least(on_one_processor([program, "check"]), table.plan)
    print(
        f"{table.name}: {table.entries} entries, {len(data)} bytes: {answer}: "
        f"one thread {one:.3f} s, {table.entries / one:,.0f} entries a second; "
        f"{len(os.sched_getaffinity(0))} processors {seconds:.3f} s ({many:.3f} s of them); "
        f"peak {peak / 2**20:.1f} MiB, {beside:.0f} bytes an entry beside the certificate; "
        f"check of the plan {check:.3f} s, judge {one / check:.2f} times as long",
        flush=True,
    )
    return one


def report_pipe(program, kind, points):
    """`check --proof | judge`: the plan goes to both, and the certificate from one to the other."""
    plan = plan_text(KINDS[kind](points, True))
    check, _, put = spent(on_one_processor([program, "check", "--proof"]), plan)
    judge, _, answer = spent(on_one_processor([program, "judge"]), plan + put.partition(b"\n")[2])
    print(f"{kind}, {points} points: check --proof {check:.3f} s, judge {judge:.3f} s: {answer.decode().strip()}", flush=True)


def report_tables(program, sizes):
    times = [report_table(program, full(points)) for points in sizes]
    print(f"full: time grows {times[-1] / times[0]:.1f} times from {sizes[0]} to {sizes[-1]} points")
    for points in sizes:
        report_table(program, sparse(points))
    for kind in ("chain", "lanes", "dense"):
        for points in sizes:
            report_table(program, proof_of(program, kind, points))
            report_pipe(program, kind, points)


def highest(pid):
    """The peak of memory of a process in MiB so far, and 0 of one that has ended."""
    try:
        with open(f"/proc/{pid}/status", encoding="ascii") as status:
            told = [line.split()[1] for line in status if line.startswith("VmHWM:")]
    except ProcessLookupError:
        told = []
    return int(told[0]) / 1024 if told else 0


def alone(command, path):
    """Runs a program once on the input in a file. Its peak of memory is its own, not that of the
    process that starts it."""
    size, began = 0, time.monotonic()
    with open(path, "rb") as data, subprocess.Popen(command, stdin=data, stdout=subprocess.PIPE) as child:
        ended = 0
        while not ended:
            size = max(size, highest(child.pid))
            ended, status, cost = os.wait4(child.pid, os.WNOHANG)
            time.sleep(0 if ended else 0.0005)
        seconds = time.monotonic() - began
        child.returncode = os.waitstatus_to_exitcode(status)
        return Ran(child.stdout.read(), seconds, cost.ru_utime, size, "")


def median(runs):
    """The medians of some runs; of the memory, of which a look may come too early, the greatest."""
    seconds, user = (statistics.median(each) for each in zip(*((ran.seconds, ran.user) for ran in runs)))
    return Ran(runs[0].answer, seconds, user, max(ran.size for ran in runs), "")


def in_turn(commands, path):
    """The medians of each command; they run in turn."""
    runs = [[alone(command, path) for command in commands] for _ in range(IN_TURN)]
    return [median(ran) for ran in zip(*runs)]


def report_beside(program, kind, kept, points):
    """Measures the program beside the plain one on the certificate of one plan."""
    plan = plan_text(KINDS[kind](points, kept))
    certificate = run([program, "check", "--proof"], plan)[1].partition(b"\n")[2]
    lines = certificate.count(b"\n") - 3
    commands = [[program, "judge"], [PLAIN, "judge"]]
    with tempfile.NamedTemporaryFile() as short, tempfile.NamedTemporaryFile() as whole:
        short.write(plan)
        whole.write(plan + certificate)
        short.flush()
        whole.flush()
        before, ran = in_turn(commands, short.name), in_turn(commands, whole.name)
    head = f"{kind}, {points} points, {lines:,} lines"
    for name, few, many in zip(("the program", "plain"), before, ran):
        told = f"{(many.size - few.size) * 2**20 / lines:.0f} bytes a line"
        print(f"{head}: {name}: {many.verdict()}, {many}, {told}")
    ours, plain = ran
    print(f"{head}: {times(ours, plain):.2f} times the user seconds of plain, {ours.size / plain.size:.2f} as large", flush=True)
    if ours.answer != plain.answer:
        print(f"{head}: THE ANSWERS DIFFER")


def words(parser):
    either = parser.add_mutually_exclusive_group()
    either.add_argument("--tables", action="store_true", help="of table proofs")
    either.add_argument("--plain", action="store_true", help="beside the plain program")
    front.program(parser)
    about = "how many lines the longest refutation has; with --tables and --plain how many points the plans have"
    parser.add_argument("numbers", type=int, nargs="*", metavar="LINES|POINTS", help=about)


def main(given):
    if given.plain:
        chain, loops = given.numbers or (1400, 440)
        built_plain()
        print(load())
        report_beside(given.program, "chain", True, chain)
        report_beside(given.program, "loops", False, loops)
        return
    if given.tables:
        report_tables(given.program, given.numbers or [200, 500, 1000])
        return
    (most,) = given.numbers or [200_000]
    for kind in (Bounds(), Links()):
        report(given.program, kind, most)
