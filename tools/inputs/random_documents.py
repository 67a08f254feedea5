"""Random plans as JSON documents, most of them with a fault or two, for the tools that compare."""

import json

NAMES = ["A", "B", "C", "a-1", "x.y_z", "end", "A" * 32]
ENDS = [b"\nend\n", b"\nend\n", b"\n end\t\r\n", b"\nend", b"\nend\nmore\n", b"\nend x\nend\n", b"\n", b"\n# end\nend\n"]
DELAYS = ["0", "1", "5", "1000000"]
BAD_DELAYS = ["1000001", "-1", "-0", "1.0", "9223372036854775807", "9223372036854775808", "null", '"1"', "[]", "true"]
BAD_NAMES = ["", "9", "A b", "A\n", "é", "A" * 33, "-A"]
NUMBERS = ["0", "1", "-1", "1000000000", "-1000000000"]
BAD_NUMBERS = ["1000000001", "-1000000001", "-0", "1.0", "1e0", "1.5", "9223372036854775807", "9223372036854775808",
               "-9223372036854775809", "18446744073709551616", "1e400", "9" * 400, "01", "+1", "null",
               "true", '"1"', "[]", "{}", "NaN", "0e5", "1e-400"]


def name(draw, broken):
    text = draw.choice(BAD_NAMES) if broken else draw.choice(NAMES)
    return json.dumps(text, ensure_ascii=draw.random() < 0.5)


def number(draw, broken):
    return draw.choice(BAD_NUMBERS) if broken else draw.choice([*NUMBERS, str(draw.randint(-50, 50))])


def members(draw, pairs, faults):
    """The members of an object in some order; with a fault one is left out, given twice, or given
    another name."""
    pairs = draw.sample(pairs, len(pairs))
    if pairs and faults():
        place = draw.randrange(len(pairs))
        key, value = pairs[place]
        change = draw.randrange(4)
        if change == 0:
            del pairs[place]
        elif change == 1:
            pairs.append((key, draw.choice(["null", "1", value])))
        elif change == 2:
            pairs[place] = (draw.choice(["x", "", key.upper(), key + " "]), value)
        else:
            pairs.insert(0, (key, "7"))
    return pairs


def blanks(draw):
    return draw.choice(["", "", "", " ", "\n", "\n\t", "\r\n", "\n\n"])


def joined(draw, opens, texts, closes):
    text = opens
    for place, one in enumerate(texts):
        text += ("," if place else "") + blanks(draw) + one + blanks(draw)
    return text + blanks(draw) + closes


def written(draw, pairs):
    return joined(draw, "{", [json.dumps(key) + blanks(draw) + ":" + blanks(draw) + value for key, value in pairs], "}")


def drawn(draw):
    """A document, with a fault here and there."""
    rate = draw.choice([0, 0, 0.02, 0.05, 0.2])

    def faults():
        return draw.random() < rate

    count = draw.randint(0, 6)
    points = draw.sample(NAMES, count) if draw.random() < 0.8 else [draw.choice(NAMES) for _ in range(count)]
    end = draw.sample(points, len(points))
    bounds = []
    for place in range(draw.randint(0, 4)):
        called = json.dumps(f"b{place}") if draw.random() < 0.9 else name(draw, faults())
        ends = [("from", name(draw, faults())), ("to", name(draw, faults()))]
        bounds.append([("name", called), *ends, ("most", number(draw, faults()))])
    links = []
    for to in end[: draw.randint(0, 2)]:
        low = draw.randint(0 if faults() else 1, 5)
        start = ("from", name(draw, faults()))
        least = ("low", number(draw, True) if faults() else str(low))
        most = ("high", number(draw, True) if faults() else str(low + draw.randint(-1 if faults() else 0, 9)))
        links.append([start, least, most, ("to", name(draw, True) if faults() else json.dumps(to))])
    version = draw.choice(["1", "2", "2"])
    between = []
    for place in range(draw.randint(0, 3) if version == "2" or faults() else 0):
        called = json.dumps(draw.choice([f"w{place}", f"w{place}", "b" * 28, "b" * (29 if faults() else 27)]))
        ends = [("name", called if not faults() else name(draw, True))]
        ends += [("from", name(draw, faults())), ("to", name(draw, faults()))]
        between.append([*ends, ("low", number(draw, faults())), ("high", number(draw, faults()))])
    for one in [*bounds, *between, *links]:
        for place, (key, value) in enumerate(one):
            is_strange = key in ("from", "to") and points and value not in map(json.dumps, points)
            if is_strange and draw.random() < 0.95 and not faults():
                one[place] = (key, json.dumps(draw.choice(points)))
    listed = {
        "points": [name(draw, True) if faults() else json.dumps(point) for point in points],
        "bounds": [written(draw, members(draw, one, faults)) if not faults() else number(draw, True) for one in bounds],
        "between": [written(draw, members(draw, one, faults)) if not faults() else number(draw, True) for one in between],
        "links": [written(draw, members(draw, one, faults)) if not faults() else name(draw, True) for one in links],
    }
    pairs = [("stnu", draw.choice(["3", "1.0", '"1"', "-1", "2e0"]) if faults() else version)]
    if version == "2" and draw.random() < 0.5 or faults():
        pairs.append(("delay", draw.choice(BAD_DELAYS if faults() else DELAYS)))
    for key, texts in listed.items():
        if texts or key == "points" or (draw.random() < 0.5 and (key != "between" or version == "2")):
            pairs.append((key, draw.choice(["null", "{}", "0"]) if faults() else joined(draw, "[", texts, "]")))
    text = blanks(draw) + written(draw, members(draw, pairs, faults)) + blanks(draw)
    return spoiled(draw, text) if draw.random() < 0.15 else text


def spoiled(draw, text):
    """With a byte more, less or another, or lists around a part of it."""
    place = draw.randrange(len(text))
    change = draw.randrange(5)
    if change == 0:
        return text[:place] + draw.choice(',:"{}[]e0x#\\') + text[place:]
    if change == 1:
        return text[:place] + text[place + 1 :]
    if change == 2:
        return text[:place] + draw.choice("\x00\x0b\x7f\ufeff") + text[place:]
    if change == 3:
        deep = draw.choice([1, 126, 127, 128])
        return "[" * deep + text + "]" * deep
    return draw.choice(["", text + text, text[:place], "\ufeff" + text])


def given(draw):
    """An input: a document and the line that ends it, or none."""
    text = drawn(draw).encode()
    if draw.random() < 0.02:
        text += b"\xff"
    return text + (draw.choice(ENDS) if draw.random() < 0.2 else ENDS[0])
