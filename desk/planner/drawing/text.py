"""Draws a chart as rows of letters for a terminal."""

from planner.drawing.chart import Shape

# How a row begins, goes on and ends, by its shape.
BARS = {Shape.LINK: "[=]", Shape.CHOSEN: "(-)"}
MARKS = {Shape.POINT: "o", Shape.TAIL: "~", Shape.LIMIT: "|", Shape.RELATIVE: ":"}
SAMPLES = {shape: f"{left}{middle * 2}{right}" for shape, (left, middle, right) in BARS.items()}
LEGEND = MARKS | SAMPLES | {Shape.TAIL: MARKS[Shape.TAIL] * 2}
# The least room for the moments of a day.
LEAST = 10


class Terminal:
    """Rows of letters: a name, and for each day a moment and a place for each moment of the window."""

    def __init__(self, chart, columns):
        self.chart, self.window = chart, chart.window
        self.texts = chart.texts()
        self.label = max((len(row.name) for row in chart.rows), default=0)
        self.number = max((len(text) for texts in self.texts.values() for text in texts), default=1)
        self.width = max((columns - self.label + 1) // max(len(chart.days), 1) - self.number - 3, LEAST)

    def row(self, name, cells):
        """A row: a name, and for each day a moment and what is drawn."""
        drawn = " ".join(f" {moment:>{self.number}} {text:{self.width}}" for moment, text in cells)
        return f"{name:{self.label}}{drawn}".rstrip()

    def axis(self):
        """The moments of the axis, each over its place as far as there is room, and a line with their places."""
        numbers, line = "", "-" * self.width
        scale = self.chart.scale
        for moment in self.window.ticks(scale, self.width // (self.number + 3), self.chart.step):
            place = self.window.place(moment, self.width)
            line = f"{line[:place]}|{line[place + 1 :]}"
            text = scale.text(moment)
            place = min(place, self.width - len(text))
            numbers = numbers.ljust(place) + text if len(numbers) < place or not numbers else numbers
        return numbers, line

    def place(self, moment):
        return self.window.place(moment, self.width)

    def bar(self, mark):
        """The first place of what a mark is drawn as, and its letters."""
        begin, here = self.place(mark.begin), self.place(mark.moment)
        if mark.shape is Shape.POINT:
            return here, MARKS[Shape.POINT]
        left, middle, right = BARS[mark.shape]
        left = "<" if mark.begin < self.window.first else left
        right = ">" if mark.moment > self.window.last else right
        tail = MARKS[Shape.TAIL] * (self.place(mark.seen) - here)
        return begin, left * (begin < here) + middle * (here - begin - 1) + right + tail

    def drawn(self, mark):
        """What a day has in a row. A limit at the very place of the mark stands beside it."""
        places = [" "] * self.width
        here = None
        if self.chart.shows(mark):
            first, letters = self.bar(mark)
            places[first : first + len(letters)] = letters
            here = self.place(mark.moment)
        for limit in self.chart.limits(mark):
            place = self.place(limit.moment)
            if place == here:
                place += 1 if limit.is_latest else -1
            if 0 <= place < self.width and places[place] != MARKS[Shape.LIMIT]:
                places[place] = MARKS[limit.shape]
        return "".join(places).rstrip()

    def lines(self):
        if self.chart.title:
            yield self.chart.title
        if len(self.chart.days) > 1:
            yield self.row("", [("", day) for day in self.chart.days])
        for text in self.axis():
            yield self.row("", [("", text)] * len(self.chart.days))
        for row in self.chart.rows:
            yield self.row(row.name, list(zip(self.texts[row.name], map(self.drawn, row.marks))))
        for shape in self.chart.shapes():
            yield f"{LEGEND[shape]:4} {shape.value}"
