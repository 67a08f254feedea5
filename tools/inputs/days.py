"""Days of any number of points, to measure with."""


def day(points, kept, delay=0):
    """Tasks one after another, each to begin within 30 moments of the end of the one before; nature
    decides every second duration, and the day has an end. With a delay it has as much more time as
    completions are seen late."""
    tasks = points // 2
    lines = ["point morning", "point evening"]
    lines += [f"point {kind}{i}" for i in range(tasks - 1) for kind in ("begin", "done")]
    least = 0
    for i in range(tasks - 1):
        last = "morning" if i == 0 else f"done{i - 1}"
        lines += [f"bound after{i} begin{i} {last} 0", f"bound soon{i} {last} begin{i} 30"]
        if i % 2:
            lines.append(f"link begin{i} 10 25 done{i}")
            least += 25 + delay
        else:
            lines += [f"bound most{i} begin{i} done{i} 40", f"bound least{i} done{i} begin{i} -20"]
            least += 20
    lines += [f"bound closing morning evening {least - (0 if kept else 1)}", f"bound home evening done{tasks - 2} 0"]
    return lines


def finer(lines, parts):
    """The same day in a unit of time of which so many make one of before."""
    return [" ".join(str(int(word) * parts) if word.lstrip("-").isdigit() else word for word in line.split()) for line in lines]


def text(lines):
    order = {"point": 0, "bound": 1, "link": 2}
    lines = sorted(lines, key=lambda line: order[line.split()[0]])
    return ("\n".join(["stnu 1", *lines, "end"]) + "\n").encode()
