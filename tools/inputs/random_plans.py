"""Random plans, delays and streams of events, and what is changed in them."""

ODD_WORDS = ["at", "done", "end", "0", "-1", "01", "4000000000000", "4000000000001", "p0", "p1", "P1", "p!", "x" * 33, "#"]
UNITS = [1, 1, 1, 100_000_000]


def random_delay(choose):
    """A delay, and the words that give it, in one of their spellings; most often None and no
    words."""
    delay = choose.choice([None, None, None, None, 0, 1, 1, 2, 3, 7, 20])
    return delay, [] if delay is None else choose.choice([["--delay", str(delay)], [f"--delay={delay}"]])


def random_header(choose):
    """The lines with which a plan begins: version 1, or version 2, often with a delay."""
    delay = choose.choice([0, 1, 1, 2, 5])
    return choose.choice([["stnu 1"], ["stnu 1"], ["stnu 2"], ["stnu 2", f"delay {delay}"]])


def between_line(choose, header, number, begin, end, unit=1):
    """The line of two bounds, where the version has it, else of one."""
    low, high = sorted([choose.randint(-4, 9) * unit, choose.randint(-2, 12) * unit])
    if header[0] == "stnu 1":
        return f"bound w{number} {begin} {end} {high}"
    return f"between w{number} {begin} {low} {high} {end}"


def random_plan(choose, unit):
    count = choose.randint(2, 9)
    header = random_header(choose)
    lines = header + [f"point p{i}" for i in range(count)]
    for end in choose.sample(range(count), choose.choice([0, 1, 1, 1, 2, 3, 4][: 3 + count // 2])):
        begin = choose.choice([i for i in range(count) if i != end])
        low = choose.randint(1, 5)
        lines.append(f"link p{begin} {low * unit} {(low + choose.randint(0, 4)) * unit} p{end}")
    for number in range(choose.randint(0, 2 * count)):
        begin, end = choose.sample(range(count), 2)
        lines.append(f"bound b{number} p{begin} p{end} {choose.randint(-4, 9) * unit}")
    if choose.random() < 0.4:
        begin, end = choose.sample(range(count), 2)
        lines.append(between_line(choose, header, 0, f"p{begin}", f"p{end}", unit))
    return [*lines, "end"]


def random_stream(choose, execution, unit):
    """The events of a day: each completion at its moment, and now and then the moment alone."""
    names, lines, moment, idle = execution.points, [], 0, choose.randint(0, 2)
    lasts = {end: choose.randint(low, high) // unit * unit for _, low, high, end in execution.links}
    while True:
        awaited = {end: execution.moments[begin] for begin, _, _, end in execution.links if execution.moments[end] is None}
        completed = [end for end, began in awaited.items() if began is not None and began + lasts[end] == moment]
        choose.shuffle(completed)
        if completed or choose.random() < 0.3:
            lines.append(" ".join(["at", str(moment), *(names[end] for end in completed)]))
        for end in completed:
            execution.moments[end] = moment
        execution.act(moment)
        if not awaited:
            idle -= 1
        if idle < 0:
            return [*lines, "done"]
        moment += unit


def with_a_word_changed(choose, lines, odd_words=ODD_WORDS, near=0.7):
    """A word is one of these or another one of the lines, or a number near to it, so often where it
    is one."""
    place = choose.randrange(len(lines))
    words = lines[place].split(" ")
    k = choose.randrange(len(words))
    if words[k].lstrip("-").isdigit() and choose.random() < near:
        words[k] = str(int(words[k]) + choose.choice([-2, -1, 1, 2]))
    else:
        words[k] = choose.choice(odd_words if choose.random() < 0.5 else choose.choice(lines).split(" "))
    return lines[:place] + [" ".join(words)] + lines[place + 1 :]


def with_a_word_or_line_changed(choose, lines):
    return choose.choice([with_a_word_changed, with_a_line_changed])(choose, lines)


def with_a_line_changed(choose, lines):
    place = choose.randrange(len(lines))
    line, other = lines[place], choose.choice(lines)
    longer = f" {line} {choose.choice(ODD_WORDS)}"
    changed = choose.choice(
        [[], [line, other], [other], [line, "# a remark"], [" \t", line], [longer], [line.rpartition(" ")[0]]]
    )
    return lines[:place] + changed + lines[place + 1 :] or [""]


def with_a_completion_changed(choose, lines):
    """A completion left out, told twice, told in another line, or put in place of another point's;
    or a moment moved."""
    events = [line.split(" ") for line in lines]
    places = [place for place, words in enumerate(events) if words[0] == "at"]
    if not places:
        return lines
    words, other = events[choose.choice(places)], events[choose.choice(places)]
    if len(words) < 3 or choose.random() < 0.3:
        words[1] = str(max(0, int(words[1]) + choose.choice([-2, -1, 1, 2]) * choose.choice(UNITS)))
        return [" ".join(words) for words in events]
    name = words.pop(choose.randrange(2, len(words)))
    moved = choose.choice([[], [name], [name, name], [f"p{choose.randrange(4)}"]])
    (words if moved != [name] else other).extend(moved)
    return [" ".join(words) for words in events]


def with_names_mixed(choose, lines):
    """The names of each line in any order; often with one of them twice, or with one that is not
    contingent, not to come yet, or unknown."""
    mixed = []
    for line in lines:
        words = line.split(" ")
        if words[0] == "at":
            names = words[2:]
            if choose.random() < 0.15:
                for _ in range(choose.randint(1, 3)):
                    is_twice = words[2:] and choose.random() < 0.3
                    names.append(choose.choice(words[2:]) if is_twice else f"p{choose.randrange(10)}")
            choose.shuffle(names)
            words[2:] = names
        mixed.append(" ".join(words))
    return mixed


def as_input(choose, lines, line_ends=("\n", "\n", "\n", "\r\n")):
    """Lines as an input, with one of these line ends; that of the last line may be twice or
    missing."""
    line_end = choose.choice(line_ends)
    return (line_end.join(lines) + choose.choice([line_end, line_end, ""])).encode()
