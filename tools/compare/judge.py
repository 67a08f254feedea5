"""Compares what `judge` answers with tools/reference, byte by byte.

Each input is a small random plan, most often without a delay, and a random derivation over it, or
its table, of which most have a few words, lines or bytes changed. Prints each input on which the
two differ, how often each answer came, and how many inputs there were.

With --plain the plain judge of tools/plain is compared with PROGRAM: on the calls of `judge` that
examples/answers lists, but for those with `--json` or `--strong`; on the plans of examples with
their certificates, as `check --proof` prints them; and on random small plans with theirs, each as
it is and then with one number of one line of the certificate changed.
"""

import random
import subprocess

from inputs.random_plans import as_input, random_delay, random_header, random_plan, with_a_word_changed
from reference.judge import judge
from shared import front
from shared.answers import Differences, given_at_once, words_alone
from shared.places import EXAMPLES, built_plain

ODD_WORDS = [
    "point", "bound", "link", "end", "stnu", "no", "up", "low", "cross", "drop", "walk", "refutation", "table", "order", "edge",
    "upper", "certificate", "#",
    "0", "1", "-1", "-0", "01", "+1", "1000000000", "1000000001", "1000000000000", "-1000000000001", "999999999999999999",
    "1000000000000000000", "18446744073709551615", "18446744073709551616", "A.b-c_d", "9a", "a" * 32, "a" * 33, "\t", "\r",
]
ODD_BYTES = [0, 9, 10, 11, 12, 13, 32, 35, 45, 46, 48, 49, 57, 65, 95, 97, 160, 255]


class Derivation:
    """A random plan, and lines that follow from it one after another."""

    def __init__(self, choose, delay):
        self.choose, self.header = choose, random_header(choose)
        own = int(self.header[1].split()[1]) if len(self.header) > 1 else 0
        self.delay = own if delay is None else delay
        self.points = [f"p{i}" for i in range(choose.randint(2, 6))]
        self.links = {end: self.link_to(end) for end in choose.sample(self.points, choose.randrange(len(self.points)))}
        self.bounds = {f"b{i}": self.bound() for i in range(choose.randint(0, 8))}
        self.lines, self.edges = [], []

    def link_to(self, end):
        low = self.choose.randint(1, 6)
        start = self.choose.choice([point for point in self.points if point != end])
        return start, low, low + self.choose.randint(0, 8)

    def bound(self):
        return self.choose.choice(self.points), self.choose.choice(self.points), self.choose.randint(-9, 12)

    def plan(self):
        parts = [f"bound {name} {start} {end} {most}" for name, (start, end, most) in self.bounds.items()]
        parts += [f"link {start} {low} {high} {end}" for end, (start, low, high) in self.links.items()]
        if self.header[0] == "stnu 2" and self.choose.random() < 0.5:
            start, low = self.choose.choice(self.points), self.choose.randint(-9, 6)
            high, end = self.choose.randint(-2, 12), self.choose.choice(self.points)
            self.bounds |= {"w.max": (start, end, high), "w.min": (end, start, -low)}
            parts.append(f"between w {start} {low} {high} {end}")
        self.choose.shuffle(parts)
        return [*self.header, *(f"point {point}" for point in self.points), *parts, "end"]

    def show(self):
        """From now on the plan is as it is shown: the end of a link comes the delay later."""
        lag = {point: self.delay if point in self.links else 0 for point in self.points}
        self.bounds = {name: (a, b, most + lag[b] - lag[a]) for name, (a, b, most) in self.bounds.items()}
        self.links = {
            end: (a, low + self.delay - lag[a], high + self.delay - lag[a])
            for end, (a, low, high) in self.links.items()
        }

    def following(self):
        """The lines that may come next, without their weights, each with its edge."""
        for name, (start, end, most) in self.bounds.items():
            yield f"bound {name} {start} {end}", (start, end, None, most)
        for end, (start, _, high) in self.links.items():
            yield f"link {end} {end} {start}", (end, start, end, -high)
        for j, (start, end, label, weight) in enumerate(self.edges, 1):
            for i, (first, middle, other, more) in enumerate(self.edges, 1):
                if other is None and middle == start:
                    rule, tail = ("no", end) if label is None else ("up", f"{end} {label}")
                    yield f"{rule} {i} {j} {first} {tail}", (first, end, label, more + weight)
            if label is not None:
                yield f"drop {j} {start} {end}", (start, end, None, max(weight, -self.links[label][1]))
            if start in self.links and weight < 0 and label != start:
                activation, low, _ = self.links[start]
                rule, tail = ("low", end) if label is None else ("cross", f"{end} {label}")
                yield f"{rule} {start} {j} {activation} {tail}", (activation, end, label, low + weight)

    def derive(self):
        """Lines up to a negative loop, or for a while; then a walk over edges that meet."""
        for _ in range(self.choose.randint(1, 25)):
            options = list(self.following())
            if not options:
                break
            words, (start, end, label, weight) = self.choose.choice(options)
            weight += self.choose.choice([0, 0, 0, 0, 0, 0, 1, -1 if self.choose.random() < 0.1 else 0])
            self.lines.append(f"{words} {weight}")
            self.edges.append((start, end, label, weight))
            if start == end and weight < 0:
                return [len(self.edges)]
        return self.walk()

    def walk(self):
        if not self.edges:
            return []
        steps = [self.choose.randint(1, len(self.edges))]
        begin, at = self.edges[steps[0] - 1][:2]
        while at != begin and len(steps) < 7:
            onward = [step for step, edge in enumerate(self.edges, 1) if edge[0] == at]
            if not onward:
                break
            steps.append(self.choose.choice(onward))
            at = self.edges[steps[-1] - 1][1]
        return steps

    def closed(self):
        """The entries of the table by their keys, as far as they fall in a few rounds."""
        table = {}
        offered = [((start, end, None), most) for start, end, most in self.bounds.values()]
        offered += [((end, start, end), -high) for end, (start, _, high) in self.links.items()]
        for _ in range(40):
            fell = [(key, weight) for key, weight in offered if weight < table.get(key, weight + 1)]
            if not fell:
                return table
            for key, weight in fell:
                table[key] = min(weight, table.get(key, weight))
            offered = list(self.following_of(table))
        return table

    def following_of(self, table):
        for (start, end, label), weight in table.items():
            if label is not None:
                yield (start, end, None), max(weight, -self.links[label][1])
            if weight < 0:
                for (first, middle, other), more in table.items():
                    if other is None and middle == start:
                        yield (first, end, label), max(more, 0) + weight
                if start in self.links and label != start:
                    activation, low, _ = self.links[start]
                    yield (activation, end, label), low + weight

    def order_of(self, table):
        """The points, so that negative edges fall as far as they can."""
        negative = [(a, b) for (a, b, label), weight in table.items() if label is None and weight < 0]
        placed, left = [], list(self.points)
        while left:
            ready = [x for x in left if not any(a == x and b in left for a, b in negative)]
            placed.append(ready[0] if ready else left[0])
            left.remove(placed[-1])
        return placed

    def table(self):
        table = self.closed()
        entries = [f"edge {a} {b} {w}" if l is None else f"upper {a} {l} {w}" for (a, b, l), w in table.items()]
        self.choose.shuffle(entries)
        if entries and self.choose.random() < 0.3:
            entries.pop()
        return ["certificate 1", "table", *(f"order {point}" for point in self.order_of(table)), *entries, "end"]

    def input(self):
        plan = self.plan()
        self.show()
        if self.choose.random() < 0.5:
            return plan, self.table()
        steps = self.derive()
        return plan, ["certificate 1", "refutation", *self.lines, *(f"walk {step}" for step in steps), "end"]


def with_an_odd_word(choose, lines):
    return with_a_word_changed(choose, lines, ODD_WORDS, 0.5)


def with_a_line_changed(choose, lines):
    place = choose.randrange(len(lines))
    line, other = lines[place], choose.choice(lines)
    changed = choose.choice([
        [], [line, other], [other], [line, "# a remark"], [" ", line], [f"{line} {choose.choice(ODD_WORDS)}"],
        [line.rpartition(" ")[0]],
    ])
    return lines[:place] + changed + (lines[place + 1:] if choose.random() < 0.95 else []) or [""]


def with_a_byte_changed(choose, data):
    place = choose.randrange(len(data) + 1)
    byte = bytes([choose.choice(ODD_BYTES)])
    return data[:place] + choose.choice([b"", byte]) + data[place + choose.choice([0, 1]):]


def random_input(choose, delay):
    plan, certificate = Derivation(choose, delay).input()
    lines = plan + certificate
    for _ in range(choose.choice([0, 0, 1, 1, 1, 2, 3])):
        change = choose.choice([with_an_odd_word, with_an_odd_word, with_a_line_changed])
        lines = change(choose, lines)
    data = as_input(choose, lines)
    for _ in range(choose.choice([0, 0, 0, 0, 1, 3])):
        data = with_a_byte_changed(choose, data)
    if choose.random() < 0.005:
        data = b"#" + b"x" * choose.choice([65_534, 65_535, 65_536, 65_537]) + b"\n" + data
    return data


def certificate_of(program, plan, delay_words=()):
    """The lines of the certificate that `check --proof` prints of a plan."""
    command = [program, "check", "--proof", *delay_words]
    return subprocess.run(command, input=plan, stdout=subprocess.PIPE, check=False).stdout.decode().splitlines()[1:]


def with_a_number_changed(choose, lines):
    """One number of one of these lines is another one, most often near to it."""
    is_number = lambda word: word.lstrip("-").isdigit()
    words = [line.split() for line in lines]
    places = [(i, k) for i, line in enumerate(words) for k, word in enumerate(line) if is_number(word) and i > 0]
    if places:
        i, k = choose.choice(places)
        words[i][k] = str(int(words[i][k]) + choose.choice([-1000, -2, -1, -1, 1, 1, 2, 1000]))
    return [" ".join(line) for line in words]


def calls_of_examples(program):
    """The words and the input of each call of `judge` on examples."""
    for row in (EXAMPLES / "answers").read_text(encoding="utf-8").splitlines():
        parts = [part.split() for part in row.split("|")]
        if len(parts) == 4 and parts[1][0] == "judge" and not {"--json", "--strong"} & set(parts[1]):
            yield parts[1][1:], b"".join((EXAMPLES / name).read_bytes() for name in parts[2])
    for path in sorted(EXAMPLES.glob("*/*.stnu")):
        plan = path.read_bytes()
        yield [], plan + "\n".join([*certificate_of(program, plan), ""]).encode()


def drawn_calls(program, choose, count):
    """The words and the input of calls on so many random plans, each as it is and changed."""
    for _ in range(count):
        plan = "\n".join([*random_plan(choose, 1), ""]).encode()
        _, delay_words = random_delay(choose)
        lines = certificate_of(program, plan, delay_words)
        for given in (lines, with_a_number_changed(choose, lines)):
            yield delay_words, plan + "\n".join([*given, ""]).encode()


def answered(command, data):
    done = subprocess.run(command, input=data, capture_output=True, check=False)
    return done.stdout.decode(), done.returncode


def compare_plain(program, count, seed):
    plain, choose, seen, calls = built_plain(), random.Random(seed), Differences(), 0
    for made in (calls_of_examples(program), drawn_calls(program, choose, count)):
        for more, data in made:
            # (`error words` is printed by the program alone)
            wanted = answered([program, "judge", *more], data)
            given = answered([plain, "judge", *more], data)
            is_refused = (wanted[1], given[1]) == (2, 2)
            seen.compare(wanted if is_refused else given, wanted, more, data)
            seen.kinds[words_alone(wanted[0])] += 1
            calls += 1
    return seen.end(f"{calls} calls, of which {seen.count} differ")


def words(parser):
    parser.add_argument("--plain", action="store_true", help="compare the plain judge with the program")
    front.program(parser)
    front.drawn(parser, 2_000, "inputs; with --plain plans")


def main(given):
    if given.plain:
        return compare_plain(given.program, given.count, given.seed)
    choose, seen = random.Random(given.seed), Differences()
    for _ in range(given.count):
        delay, delay_words = random_delay(choose)
        data = random_input(choose, delay)
        wanted = judge(data, delay)
        seen.compare(given_at_once([given.program, "judge", *delay_words], data), wanted, data)
        seen.kinds[words_alone(wanted[0])] += 1
    return seen.end(f"{given.count} inputs, of which {seen.count} differ")
