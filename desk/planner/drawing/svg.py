"""Draws a chart as an SVG picture, in light and in dark colours, as the reader of it has chosen."""

from html import escape

from planner.drawing.chart import Shape

# The picture, in units of its own: the width of a day that is drawn alone, and of one beside others; the height of a row; how wide a letter
# of its font is; how much room is left at its edges.
ALONE = 720
BESIDE = 420
ROW = 20
LETTER = 8
EDGE = 12
# The room for a moment of the axis.
TICK = 60

# Each colour with what is drawn in it, for a light and for a dark ground.
COLOURS = {
    "ground": ("#ffffff", "#16191d"),
    "stripe": ("#f4f6f8", "#1e2329"),
    "grid": ("#d0d4d8", "#3a4149"),
    "grey": ("#5c6670", "#9aa4ae"),
    "ink": ("#1c2024", "#e6e9ec"),
    "link": ("#3f7cbc", "#5b9bdd"),
    "chosen": ("#2c8a57", "#4fb57f"),
    "limit": ("#c4351c", "#ff7a5e"),
}
RULES = """.{0} {{ fill: {1}; }}
.{0}-line {{ stroke: {1}; fill: none; }}"""


def style():
    """The colours as a style sheet: the light ones, and the dark ones where those are preferred."""
    light = "\n".join(RULES.format(name, colour) for name, (colour, _) in COLOURS.items())
    dark = "\n".join(RULES.format(name, colour) for name, (_, colour) in COLOURS.items())
    return f"<style>\n{light}\n@media (prefers-color-scheme: dark) {{\n{dark}\n}}\n</style>"


def text(left, middle, words, colour="ink", anchor="start", weight=None):
    bold = f' font-weight="{weight}"' if weight else ""
    return f'<text x="{left}" y="{middle + 4}" class="{colour}" text-anchor="{anchor}"{bold}>{escape(str(words))}</text>'


def box(left, top, width, height, colour):
    return f'<rect x="{left}" y="{top}" width="{width}" height="{height}" class="{colour}"/>'


def told(element, what):
    """An element that says what it is where a pointer rests on it."""
    return f"<g><title>{escape(what)}</title>{element}</g>"


def bar(shape, left, width, middle):
    """A bar: full where nature decides how long it is, else an outline."""
    if shape is Shape.LINK:
        return box(left, middle - 5, max(width, 2), 10, "link")
    return f'<rect x="{left}" y="{middle - 4}" width="{max(width, 2)}" height="8" rx="3" class="chosen-line" stroke-width="2"/>'


def tail(left, width, middle):
    """The time from the end of a link until it is seen, hatched."""
    return (
        f'<rect x="{left}" y="{middle - 5}" width="{max(width, 2)}" height="10" fill="url(#late)"/>'
        f'<rect x="{left}" y="{middle - 5}" width="{max(width, 2)}" height="10" class="link-line"/>'
    )


def dot(left, middle):
    return f'<circle cx="{left}" cy="{middle}" r="4" class="ink"/>'


def limit_line(shape, left, middle, is_latest=True):
    """A limit: a bracket that is open to the side on which the point may come; dashed, where it is counted from another point."""
    if shape is Shape.RELATIVE:
        return f'<path d="M{left} {middle - 9}v18" class="limit-line" stroke-width="2" stroke-dasharray="2 2"/>'
    hook = -3 if is_latest else 3
    return f'<path d="M{left + hook} {middle - 8}h{-hook}v16h{hook}" class="limit-line" stroke-width="2"/>'


HATCHES = (
    '<defs><pattern id="late" width="5" height="5" patternUnits="userSpaceOnUse" patternTransform="rotate(45)">'
    '<rect width="2" height="5" class="link"/></pattern></defs>'
)


class Picture:
    """A chart as the lines of a picture."""

    def __init__(self, chart):
        self.chart, self.window = chart, chart.window
        self.texts = chart.texts()
        self.label = EDGE + LETTER * max((len(row.name) for row in chart.rows), default=0)
        self.number = 2 * EDGE + LETTER * max((len(it) for texts in self.texts.values() for it in texts), default=1)
        self.room = ALONE if len(chart.days) == 1 else BESIDE
        named = [self.about(limit) for row in chart.rows for mark in row.marks for limit in self.of_day(mark)]
        self.beside = max([EDGE, *(LETTER * (len(text) + 2) for text in named)])
        # Where the rows begin, below the titles and the moments, and where they end, above the legend.
        self.titles = EDGE + ROW * bool(chart.title)
        self.top = self.titles + ROW * (1 + (len(chart.days) > 1))
        self.bottom = self.top + ROW * len(chart.rows)

    def of_day(self, mark):
        """The limits of a mark that have their moment beside them: of those of the day the latest."""
        return [it for it in self.chart.limits(mark) if it.is_of_day and it.is_latest]

    def about(self, limit):
        return f"{'by' if limit.is_latest else 'from'} {self.chart.scale.text(limit.moment)}"

    def left(self, number):
        """Where the moments of a day begin, of which this is the number."""
        return self.label + self.number + number * (self.room + self.beside + self.number)

    def place(self, number, moment):
        return self.left(number) + self.window.place(moment, self.room + 1)

    def axis(self, number):
        """The title of a day, and a line down the rows for each moment of its axis."""
        if len(self.chart.days) > 1:
            yield text(self.left(number), self.titles + ROW // 2, self.chart.days[number])
        scale = self.chart.scale
        for moment in self.window.ticks(scale, self.room // TICK, self.chart.step):
            here = self.place(number, moment)
            yield box(here, self.top, 1, self.bottom - self.top, "grid")
            yield text(here, self.top - ROW // 2, scale.text(moment), "grey", "middle")

    def drawn(self, number, row, middle):
        """What a day has in a row; limits below what they limit."""
        mark, written = row.marks[number], self.texts[row.name][number]
        yield text(self.left(number) - EDGE, middle, written, "grey", "end")
        yield from self.limits(number, row, middle)
        here = self.place(number, mark.moment)
        if self.chart.shows(mark):
            begin = self.place(number, mark.begin)
            if mark.shape is Shape.POINT:
                yield told(dot(here, middle), f"{row.name} at {written}")
            else:
                lasts = f"{row.name}: {self.chart.scale.text(mark.begin)} to {written}"
                yield told(bar(mark.shape, begin, here - begin, middle), lasts)
            if mark.seen > mark.moment:
                seen = f"{row.name}: over at {written}, seen at {self.chart.scale.text(mark.seen)}"
                yield told(tail(here, self.place(number, mark.seen) - here, middle), seen)

    def limits(self, number, row, middle):
        mark = row.marks[number]
        named = self.of_day(mark)
        soonest = {it.moment for it in self.chart.limits(mark) if not it.is_latest}
        for limit in self.chart.limits(mark):
            here = self.place(number, limit.moment)
            line = limit_line(limit.shape, here, middle, limit.is_latest)
            yield told(line, f"{row.name} {self.about(limit)}, by the bound {limit.bound}")
            if limit in named:
                told_as = f"at {self.chart.scale.text(limit.moment)}" if limit.moment in soonest else self.about(limit)
                yield text(here + LETTER // 2 + 2, middle, told_as, "limit")

    def legend(self):
        """What the marks mean: as many beside one another as there is room for, with the width and the height that this takes."""
        left, middle, lines = EDGE, self.bottom + ROW, []
        for shape in self.chart.shapes():
            wide = LETTER * (len(shape.value) + 7)
            if left > EDGE and left + wide > self.width:
                left, middle = EDGE, middle + ROW
            lines += [self.sample(shape, left, middle), text(left + 4 * LETTER, middle, shape.value, "grey")]
            left += wide
        return lines, middle + ROW

    @staticmethod
    def sample(shape, left, middle):
        match shape:
            case Shape.LINK | Shape.CHOSEN:
                return bar(shape, left, 3 * LETTER, middle)
            case Shape.TAIL:
                return tail(left, 3 * LETTER, middle)
            case Shape.POINT:
                return dot(left + LETTER, middle)
        return limit_line(shape, left + LETTER, middle)

    @property
    def width(self):
        return self.left(len(self.chart.days) - 1) + self.room + self.beside + EDGE

    def lines(self):
        chart = self.chart
        legend, height = self.legend()
        size = f'width="{self.width}" height="{height}" viewBox="0 0 {self.width} {height}"'
        yield f'<svg xmlns="http://www.w3.org/2000/svg" role="img" {size} font-family="DejaVu Sans Mono, monospace" font-size="13">'
        yield f"<title>{escape(chart.title or 'days')}</title>"
        yield style()
        yield HATCHES
        yield box(0, 0, self.width, height, "ground")
        if chart.title:
            yield text(EDGE, EDGE + ROW // 2 - 2, chart.title, weight="bold")
        for place in range(0, len(chart.rows), 2):
            yield box(0, self.top + ROW * place, self.width, ROW, "stripe")
        for number in range(len(chart.days)):
            yield from self.axis(number)
        for place, row in enumerate(chart.rows):
            middle = self.top + ROW * place + ROW // 2
            yield text(EDGE, middle, row.name)
            for number in range(len(chart.days)):
                yield from self.drawn(number, row, middle)
        yield from legend
        yield "</svg>"
