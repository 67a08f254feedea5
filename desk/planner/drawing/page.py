"""Writes a chart as one HTML file that stands alone: the picture, its moments as a table, the plan, and the calls that gave all this."""

from html import escape

from planner.drawing.svg import COLOURS, Picture

PAGE = """:root {{ color-scheme: light dark; }}
body {{ font-family: system-ui, sans-serif; margin: 1.5rem; background: {ground[0]}; color: {ink[0]}; }}
.picture {{ overflow-x: auto; }}
svg {{ max-width: 100%; min-width: {least}px; height: auto; }}
table {{ border-collapse: collapse; margin: 1rem 0; font-variant-numeric: tabular-nums; }}
th, td {{ border-bottom: 1px solid {grid[0]}; padding: 0.2rem 0.8rem; text-align: right; }}
th:first-child {{ text-align: left; }}
pre {{ overflow-x: auto; padding: 0.8rem; background: {stripe[0]}; }}
summary {{ cursor: pointer; margin: 0.5rem 0; }}
@media (prefers-color-scheme: dark) {{
body {{ background: {ground[1]}; color: {ink[1]}; }}
th, td {{ border-color: {grid[1]}; }}
pre {{ background: {stripe[1]}; }}
}}
@media print {{ body {{ margin: 0; }} svg {{ min-width: 0; }} }}"""
# On a narrow screen a picture is drawn so small at least, and can be moved: its letters stay legible.
LEAST = 0.7


def table(chart):
    """The moments of all rows."""
    yield '<table><thead><tr><th scope="col">point</th>'
    yield from (f'<th scope="col">{escape(day)}</th>' for day in chart.days)
    yield "</tr></thead><tbody>"
    for name, moments in chart.texts().items():
        cells = "".join(f"<td>{escape(moment)}</td>" for moment in moments)
        yield f'<tr><th scope="row">{escape(name)}</th>{cells}</tr>'
    yield "</tbody></table>"


def folded(summary, text):
    """A text that is shown where its reader asks for it."""
    return f"<details><summary>{escape(summary)}</summary><pre>{escape(text)}</pre></details>"


def lines(chart, plan_text, calls):
    """The lines of the page."""
    title, picture = escape(chart.title or "days"), Picture(chart)
    yield '<!doctype html>\n<html lang="en"><head><meta charset="utf-8">'
    yield '<meta name="viewport" content="width=device-width, initial-scale=1">'
    yield f"<title>{title}</title>"
    yield f"<style>\n{PAGE.format(**COLOURS, least=int(picture.width * LEAST))}\n</style></head><body>"
    yield '<div class="picture">'
    yield from picture.lines()
    yield "</div>"
    yield "<details open><summary>the moments as a table</summary>"
    yield from table(chart)
    yield "</details>"
    yield folded("the plan", plan_text)
    if calls:
        yield folded("the calls that gave these moments", "\n".join(calls))
    yield "</body></html>"
