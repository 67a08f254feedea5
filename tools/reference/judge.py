"""The judge once more, by the rules of docs/FORMAT.md and docs/ANSWERS.md.

It takes a plan and a certificate, and prints the answer.
"""

import sys
from dataclasses import dataclass

from reference.lines import Answer, Fault, Lines, delay_word, refused, values_of
from reference.plan_text import read_plan

MOST_JUDGED_WEIGHT = 1_000_000_000_000

# What stands after the first word of a line, by the kinds of lines.py.
RULE_WORDS = {
    b"bound": "NNNW", b"link": "NNNW", b"no": "IINNW", b"up": "IINNNW",
    b"low": "NINNW", b"cross": "NINNNW", b"drop": "INNW",
}
TABLE_WORDS = {b"order": "N", b"edge": "NNW", b"upper": "NNW", b"end": ""}


@dataclass
class Rule:
    """A rule line: its word, the item it names, the numbers of its premises, and its edge."""

    word: str
    item: str
    premises: list
    start: str
    end: str
    stated_label: str
    weight: int

    @property
    def label(self):
        return self.item if self.word == "link" else self.stated_label


@dataclass
class Entry:
    """An entry of a table proof. It ends in a point, or where the link of its label begins."""

    start: str
    end: str
    label: str
    weight: int

    def key(self, plan):
        return self.start, self.end if self.label is None else plan.links[self.label][0], self.label


def rule_of(word, values):
    kinds = RULE_WORDS[word]
    *values, weight = values
    label = values.pop() if word in (b"up", b"cross") else None
    *operands, start, end = values
    item = operands[0] if kinds[0] == "N" else None
    premises = operands[1:] if kinds[0] == "N" else operands
    return Rule(word.decode(), item, premises, start, end, label, weight)


def read_certificate(lines):
    lines.header(b"certificate 1")
    words = lines.wanted()
    if words[0] not in (b"refutation", b"table"):
        raise lines.fault("unknown-word")
    if len(words) != 1:
        raise lines.fault("word-count")
    return read_refutation(lines) if words[0] == b"refutation" else read_table(lines)


def read_table(lines):
    order, entries = [], []
    while True:
        words = lines.wanted()
        with lines.read():
            if words[0] not in TABLE_WORDS or (words[0] == b"order" and entries):
                raise Fault("unknown-word")
            values = values_of(TABLE_WORDS[words[0]], words[1:])
        if words[0] == b"end":
            return lambda plan: judge_table(plan, order, entries)
        if words[0] == b"order":
            order += values
        else:
            start, other, weight = values
            is_edge = words[0] == b"edge"
            entries.append(Entry(start, other if is_edge else None, None if is_edge else other, weight))


def read_refutation(lines):
    rules, walk = [], []
    while True:
        words = lines.wanted()
        with lines.read():
            if words[0] == b"end":
                values_of("", words[1:])
                return lambda plan: judge_refutation(plan, rules, walk)
            if words[0] == b"walk":
                walk += values_of("I", words[1:])
            elif words[0] in RULE_WORDS and not walk:
                rules.append(rule_of(words[0], values_of(RULE_WORDS[words[0]], words[1:])))
            else:
                raise Fault("unknown-word")


def names_known(plan, rule):
    known = {rule.start, rule.end} <= plan.points and (rule.stated_label is None or rule.stated_label in plan.links)
    if rule.word == "bound":
        return known and rule.item in plan.bounds
    return known and (rule.item is None or rule.item in plan.links)


def has_right_labels(rule, premises):
    labels = [premise.label for premise in premises]
    if rule.word in ("no", "low"):
        return all(label is None for label in labels)
    if rule.word == "up":
        return labels[0] is None and labels[1] is not None and labels[1] == rule.stated_label
    if rule.word == "cross":
        return labels[0] is not None and labels[0] == rule.stated_label
    return rule.word != "drop" or labels[0] is not None


def ends_and_least(plan, rule, premises):
    """The ends that the rule gives, or None where the premises do not meet, and the least
    weight."""
    if rule.word == "bound":
        start, end, most = plan.bounds[rule.item]
        return (start, end), most
    if rule.word == "link":
        activation, _, high = plan.links[rule.item]
        return (rule.item, activation), -high
    if rule.word in ("no", "up"):
        first, second = premises
        meet = first.end == second.start
        return (first.start, second.end) if meet else None, first.weight + second.weight
    (premise,) = premises
    if rule.word == "drop":
        return (premise.start, premise.end), max(premise.weight, -plan.links[premise.label][1])
    activation, low, _ = plan.links[rule.item]
    meet = premise.start == rule.item
    return (activation, premise.end) if meet else None, low + premise.weight


def judge_rule(plan, rules, number):
    rule = rules[number - 1]
    if not names_known(plan, rule):
        raise refused(number, "unknown-item")
    if abs(rule.weight) > MOST_JUDGED_WEIGHT:
        raise refused(number, "weight-range")
    if not all(1 <= premise < number for premise in rule.premises):
        raise refused(number, "premise")
    premises = [rules[premise - 1] for premise in rule.premises]
    if not has_right_labels(rule, premises):
        raise refused(number, "label")
    if rule.word in ("low", "cross") and premises[0].weight >= 0:
        raise refused(number, "rule-condition")
    if rule.word == "cross" and rule.stated_label == rule.item:
        raise refused(number, "rule-condition")
    ends, least = ends_and_least(plan, rule, premises)
    if ends != (rule.start, rule.end):
        raise refused(number, "ends")
    if rule.weight < least:
        raise refused(number, "too-low", rule.weight, least)


def judge_walk(rules, walk):
    before = len(rules)
    for place, step in enumerate(walk, 1):
        if not 1 <= step <= len(rules):
            raise refused(before + place, "premise")
    if not walk:
        raise refused(before + 1, "walk-broken")
    steps = [rules[step - 1] for step in walk]
    for place in range(1, len(steps)):
        if steps[place].start != steps[place - 1].end:
            raise refused(before + place + 1, "walk-broken")
    if steps[-1].end != steps[0].start:
        raise refused(before + len(steps), "walk-broken")
    total = sum(step.weight for step in steps)
    if total >= 0:
        raise refused(before + len(steps), "walk-not-negative", total)


def judge_refutation(plan, rules, walk):
    for number in range(1, len(rules) + 1):
        judge_rule(plan, rules, number)
    judge_walk(rules, walk)
    return "accepted not controllable"


def judge_entry(plan, number, entry):
    """The names and the weight of an entry, by its line."""
    known = entry.start in plan.points
    known = known and (entry.end in plan.points if entry.label is None else entry.label in plan.links)
    if not known:
        raise refused(number, "unknown-item")
    if abs(entry.weight) > MOST_JUDGED_WEIGHT:
        raise refused(number, "weight-range")


def judge_base(plan, stands):
    for name, (start, end, most) in plan.bounds.items():
        if not stands((start, end, None), most):
            raise refused(0, "missing-base bound", name)
    for end, (start, _, high) in plan.links.items():
        if not stands((end, start, end), -high):
            raise refused(0, "missing-base link", end)


def judge_order(plan, order, entries):
    places = {}
    for number, point in enumerate(order, 1):
        if point in places:
            raise refused(number, "order-broken")
        places[point] = number
    if len(places) < len(plan.points):
        raise refused(0, "order-broken")
    for number, entry in enumerate(entries, len(order) + 1):
        if entry.label is None and entry.weight < 0 and places[entry.end] >= places[entry.start]:
            raise refused(number, "order-broken")


def what_follows(plan, before, entry):
    """The keys and weights that the rules give with an entry as the second premise."""
    start, end, label = entry.key(plan)
    if label is not None:
        yield (start, end, None), max(entry.weight, -plan.links[label][1])
    if entry.weight >= 0:
        return
    for first, weight in before.get(start, {}).items():
        yield (first, end, label), max(weight, 0) + entry.weight
    if start in plan.links and label != start:
        activation, low, _ = plan.links[start]
        yield (activation, end, label), low + entry.weight


def judge_table(plan, order, entries):
    for number, point in enumerate(order, 1):
        if point not in plan.points:
            raise refused(number, "unknown-item")
    for number, entry in enumerate(entries, len(order) + 1):
        judge_entry(plan, number, entry)
    least, before = {}, {}
    for entry in entries:
        key = entry.key(plan)
        least[key] = min(entry.weight, least.get(key, entry.weight))
        if entry.label is None:
            before.setdefault(entry.end, {})[entry.start] = least[key]
    stands = lambda key, weight: key in least and least[key] <= weight
    judge_base(plan, stands)
    judge_order(plan, order, entries)
    for number, entry in enumerate(entries, len(order) + 1):
        if not all(stands(key, weight) for key, weight in what_follows(plan, before, entry)):
            raise refused(number, "not-closed")
    return "accepted controllable"


def judge(data, delay=None):
    """The answer to an input, with its line end, and the status."""
    lines = Lines(data)
    try:
        plan = read_plan(lines)
        plan.shown(delay)
        certificate = read_certificate(lines)
        return f"{certificate(plan)}\n", 0
    except Answer as answer:
        return f"{answer}\n", answer.status


def words(parser):
    delay_word(parser)


def main(given):
    answer, status = judge(sys.stdin.buffer.read(), given.delay)
    sys.stdout.write(answer)
    return status
