"""A plan as a graph in the language of Graphviz: each arrow goes from the point that comes first, and says how much later the other comes."""

from planner.parts import Kind

HEAD = """  rankdir=LR;
  node [shape=box, fontname="sans-serif"];
  edge [fontname="sans-serif", fontsize=10];"""
# How points that nature executes are drawn, and links, and bounds.
SEEN = 'style="rounded,bold"'
LINK, BOUND = "style=bold", "color=gray40, style=dashed"


def lines(plan, title):
    """The lines of the graph."""
    yield f"digraph {quoted(title)} {{"
    yield HEAD
    for name in plan.points:
        yield f"  {quoted(name)}" + (f" [{SEEN}]" if name in plan.links else "") + ";"
    for link in plan.links.values():
        yield arrow(link.start, link.end, f"{link.low} to {link.high}", LINK)
    for statement in plan.statements:
        if statement.kind == Kind.BOUND:
            yield bound(statement["FROM"], statement["TO"], statement.number("MOST"), statement["NAME"])
        elif statement.kind == Kind.BETWEEN:
            label = f"{statement['NAME']}: {statement['LOW']} to {statement['HIGH']}"
            yield arrow(statement["FROM"], statement["TO"], label, BOUND)
    yield "}"


def bound(start, end, most, name):
    if most > 0:
        return arrow(start, end, f"{name}: at most {most}", BOUND)
    return arrow(end, start, f"{name}: {f'at least {-most}' if most else 'not before'}", BOUND)


def arrow(start, end, label, style):
    return f"  {quoted(start)} -> {quoted(end)} [label={quoted(label)}, {style}];"


def quoted(text):
    return '"' + text.replace("\\", "\\\\").replace('"', '\\"') + '"'
