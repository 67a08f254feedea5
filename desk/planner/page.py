"""A page for a screen on the wall: the table of a room, each vehicle with its day as a strip; HTML and SVG that load themselves anew."""

from dataclasses import dataclass
from html import escape

from planner.drawing.scale import Clock, Numbers
from planner.table import HEADS, STATES, coming
from planner.table import moment as moment_text

SECONDS = 5
# So many vehicles stand below each other at most, and from so many on the lines are closer; so many that are late are named above.
MOST_LINES, MOST_WIDE, MOST_NAMED = 32, 22, 12
BADGES = {"goes on": "", "late": '<span class="badge">late</span>', "over": '<span class="ended">over</span>'}
LEGEND = "dots: what has come; hatched: when the end of a link may be seen; diamond: the next moment that is due; upright line: now."
STYLE = """
:root { color-scheme: light dark; --paper: #ffffff; --ink: #15191e; --soft: #5b6672; --rule: #d4dae0; --band: #f3f5f7;
  --over: #a9b4bf; --run: #1f6feb; --due: #9a5b00; --now: #c2255c; --late: #b3261e; --on-late: #ffffff; }
@media (prefers-color-scheme: dark) {
  :root { --paper: #0f1317; --ink: #eef2f6; --soft: #a3afbb; --rule: #333c45; --band: #171d23;
    --over: #56616c; --run: #6cb0ff; --due: #ffc861; --now: #ff7aa8; --late: #ff8a80; --on-late: #2a0503; } }
body { margin: 1.2rem; background: var(--paper); color: var(--ink); font: 1.15rem/1.35 system-ui, sans-serif; }
header { display: flex; align-items: baseline; gap: 1.6rem; flex-wrap: wrap; margin-bottom: .8rem; }
h1 { font-size: 2.1rem; margin: 0; } header .late { color: var(--late); font-weight: 700; font-size: 1.4rem; }
footer { color: var(--soft); font-size: .85rem; margin-top: .8rem; }
table { border-collapse: collapse; width: 100%; font-variant-numeric: tabular-nums; }
th { text-align: left; color: var(--soft); font-weight: 600; font-size: .95rem; }
th, td { padding: .28rem .7rem .28rem .2rem; border-bottom: 1px solid var(--rule); vertical-align: middle; white-space: nowrap; }
tr:nth-child(even) td { background: var(--band); }
td.number, th.number { text-align: right; } td.name { font-weight: 700; font-size: 1.3rem; } td.due { font-weight: 700; color: var(--due); }
td.coming { white-space: normal; min-width: 12rem; } td.why { color: var(--soft); white-space: normal; }
td.strip, th.strip { width: 46%; padding-right: 0; }
.badge { background: var(--late); color: var(--on-late); border-radius: .3rem; padding: .1rem .5rem; font-weight: 700; }
main { display: grid; gap: 0 2rem; align-items: start; } main.two { grid-template-columns: 1fr 1fr; }
.close { font-size: .95rem; } .close td { padding: .08rem .5rem .08rem .2rem; } .close td.name { font-size: 1rem; }
.two td.coming { min-width: 7rem; } .two td.strip, .two th.strip { width: 40%; }
.ended { color: var(--soft); } svg { display: block; width: 100%; overflow: visible; }
svg text { fill: var(--ink); font-size: 13px; paint-order: stroke; stroke: var(--paper); stroke-width: 3px; }
svg .tick { fill: var(--soft); } svg .grid { stroke: var(--rule); } svg .now { stroke: var(--now); stroke-width: 2; }
svg .over { fill: var(--over); } svg .run { fill: var(--run); } svg .may { fill: url(#may); stroke: var(--run); }
svg .point { fill: var(--ink); } svg .due { fill: var(--due); } #may path { stroke: var(--run); }
"""
PATTERN = (
    '<svg width="0" height="0" style="position:absolute" aria-hidden="true"><defs><pattern id="may" width="7" height="7"'
    ' patternUnits="userSpaceOnUse"><path d="M-1,8 L8,-1" stroke-width="1.6"/></pattern></defs></svg>'
)


@dataclass(frozen=True)
class Axis:
    """Where moments stand in a strip, and how they are written."""

    first: int
    last: int
    scale: Numbers | Clock

    @classmethod
    def of(cls, rows, now, scale):
        moments = [now]
        for row in rows:
            moments += [*row.came.values(), *([] if row.due is None else [row.due]), *(window.last for window in row.coming.values())]
        first, last = min(0, *moments), max(moments)
        return cls(first, last + max(1, (last - first) // 20), scale)

    def at(self, moment):
        return f"{100 * (moment - self.first) / (self.last - self.first):.2f}%"

    def length(self, start, end):
        return f"{100 * (end - start) / (self.last - self.first):.2f}%"

    def ticks(self):
        """Round moments, eight at most."""
        step = next(step for step in self.scale.steps() if (self.last - self.first) / step <= 8)
        return range(self.scale.first_tick(self.first, step), self.last + 1, step)

    def text(self, moment):
        return moment_text(moment, self.scale)


def element(name, text="", **attributes):
    """An element of SVG."""
    words = " ".join(f'{key.rstrip("_").replace("_", "-")}="{value}"' for key, value in attributes.items())
    return f"<{name} {words}>{text}</{name}>"


@dataclass(frozen=True)
class Shape:
    """Heights in a strip: of a bar, from one bar to the next, and of what is free above and below."""

    thick: int
    lane: int
    free: int

    def height(self, lanes):
        return self.free * 2 + self.thick + self.lane * max(0, lanes - 1)

    @property
    def middle(self):
        return self.free + self.thick // 2


WIDE, CLOSE = Shape(14, 20, 7), Shape(10, 13, 4)


@dataclass(frozen=True)
class Strips:
    """The days of vehicles as strips of one scale."""

    axis: Axis
    now: int
    shape: Shape

    def strip(self, row):
        """The day of a vehicle: what is over, what runs and may end in the hatched time, what came, what is due."""
        height = self.shape.height(len(row.coming))
        parts = [self.upright(tick, height, "grid") for tick in self.axis.ticks()]
        parts += [self.bar(start, end, 0, "over") for start, end in row.over]
        for lane, (end, window) in enumerate(row.coming.items()):
            parts += self.running(row.begun[end], window, lane)
        parts += [self.point(point, came) for point, came in row.came.items()]
        # Names lie upon bars and dots, and dots on the upper edges of bars, so that neither hides the other.
        parts += [self.name(end, row.begun[end], lane) for lane, end in enumerate(row.coming)]
        parts += [] if row.due is None else [self.due(row.due)]
        parts.append(self.upright(self.now, height, "now"))
        return element("svg", "".join(parts), height=height, role="img", aria_label=escape(f"the day of {row.name}"))

    def upright(self, moment, height, kind):
        return element("line", x1=self.axis.at(moment), x2=self.axis.at(moment), y1=0, y2=height, class_=kind)

    def bar(self, start, end, lane, kind):
        y = self.shape.free + lane * self.shape.lane
        place = {"x": self.axis.at(start), "width": self.axis.length(start, end), "y": y}
        return element("rect", **place, height=self.shape.thick, rx=2, class_=kind)

    def running(self, start, window, lane):
        """A link that runs: the time in which it cannot be over, and the hatched time in which its end may be seen."""
        first = max(start, min(self.now, window.last) if window.first is None else window.first)
        yield self.bar(start, first, lane, "run")
        yield self.bar(first, window.last, lane, "may")

    def name(self, end, start, lane):
        """The name of a link that runs, upon its bar."""
        return element("text", escape(end), x=self.axis.at(start), dx=6, y=self.shape.middle + lane * self.shape.lane + 4)

    def point(self, name, came):
        title = element("title", f"{escape(name)} {self.axis.text(came)}")
        return element("circle", title, cx=self.axis.at(came), cy=self.shape.free - 1, r=self.shape.thick * 0.3, class_="point")

    def due(self, moment):
        mark = element("path", f"<title>due {self.axis.text(moment)}</title>", d="M0,-8 L7,0 L0,8 L-7,0 Z", class_="due")
        return element("svg", mark, x=self.axis.at(moment), y=self.shape.middle, width=1, height=1)

    def moments(self):
        """The moments above the strips."""
        parts = [self.tick(moment) for moment in self.axis.ticks()]
        return element("svg", "".join(parts), height=18, aria_hidden="true")

    def tick(self, moment):
        place = {"x": self.axis.at(moment), "y": 14, "text_anchor": "middle"}
        return element("text", self.axis.text(moment), **place, class_="tick")

    def line(self, row):
        """A line of the table."""
        name = cell(escape(row.name), "name")
        if row.state not in STATES:
            return f'<tr>{name}{cell(row.state, "ended")}<td class="why" colspan="4">{escape(row.why)}</td></tr>'
        moments = [cell(self.axis.text(row.last), "number"), cell(self.axis.text(row.due), "number due")]
        cells = [name, cell(BADGES[row.state], "state"), *moments]
        return f'<tr>{"".join(cells)}{cell(escape(coming(row, self.axis.scale)), "coming")}{cell(self.strip(row), "strip")}</tr>'

    def table(self, rows):
        heads = "".join(f'<th class="{"number" if head in ("told", "due") else "text"}">{head}</th>' for head in HEADS)
        body = "\n".join(map(self.line, rows))
        return f'<table><thead><tr>{heads}<th class="strip">{self.moments()}</th></tr></thead><tbody>\n{body}\n</tbody></table>'


def cell(text, kind):
    return f'<td class="{kind}">{text}</td>'


def warning(rows):
    """Who is late, as far as there is room for the names."""
    late = [row.name for row in rows if row.state == "late"]
    more = f" and {len(late) - MOST_NAMED} more" if len(late) > MOST_NAMED else ""
    if not late:
        return "<span>nobody is late</span>"
    return f'<span class="late">late: {escape(", ".join(late[:MOST_NAMED]))}{more}</span>'


def page(rows, now, title, written, scale):
    """The page of a room that stands at this moment; `written` tells when the page was."""
    is_close = len(rows) > MOST_WIDE
    strips = Strips(Axis.of(rows, now, scale), now, CLOSE if is_close else WIDE)
    half = len(rows) if len(rows) <= MOST_LINES else -(-len(rows) // 2)
    kind = " ".join([*(["close"] if is_close else []), *(["two"] if half < len(rows) else [])])
    tables = "\n".join(strips.table(part) for part in (rows[:half], rows[half:]) if part)
    return f"""<!DOCTYPE html>
<html lang="en"><head><meta charset="utf-8"><meta name="viewport" content="width=device-width">
<meta http-equiv="refresh" content="{SECONDS}"><title>{escape(title)} at {scale.text(now)}</title><style>{STYLE}</style></head><body>
{PATTERN}<header><h1>{escape(title)}</h1><span>now <b>{scale.text(now)}</b></span>{warning(rows)}</header>
<main class="{kind}">
{tables}
</main>
<footer>{LEGEND} Written {escape(written)}; loads itself anew each {SECONDS} seconds.</footer>
</body></html>
"""
