#!/usr/bin/env python3
"""Makes docs/guide/deployment.svg of docs/guide/deployment.txt, whose first lines say how it is written.

usage: deploy/draw.py          writes the drawing
       deploy/draw.py --show   writes it to standard output
"""
import pathlib
import sys
from xml.sax.saxutils import escape

DOCS = pathlib.Path(__file__).resolve().parent.parent / "docs" / "guide"
UNIT, LINE = 10, 17
STYLE = """<style>
text { font: 13px sans-serif; fill: #223; text-anchor: middle }
.title { font-weight: bold; font-size: 14px }
.box { fill: #eef3fb; stroke: #46618f; stroke-width: 1.5 }
.disk { fill: #f7f1e3; stroke: #8a6d2f; stroke-width: 1.5 }
.arrow { stroke: #223; stroke-width: 1.5; fill: none; marker-end: url(#head) }
.line { stroke: #777; stroke-width: 1.5; stroke-dasharray: 5 4; fill: none; marker-end: url(#head) }
.said { font-size: 12px; fill: #445 }
</style>
<defs><marker id="head" markerWidth="9" markerHeight="8" refX="8" refY="4" orient="auto">\
<path d="M0,0 L9,4 L0,8 z" fill="#445"/></marker></defs>
"""


def lines_of(text):
    """Each line's words before the colon, and the parts behind it."""
    for line in text.splitlines():
        if line.strip() and not line.startswith("#"):
            head, _, rest = line.partition(" :")
            yield head.split(), [part.strip() for part in rest.split("|")]


def box(kind, place, parts):
    """A rectangle with its title and lines in the middle."""
    left, top, width, height = place
    shapes = [f'<rect class="{kind}" x="{left:g}" y="{top:g}" width="{width:g}" height="{height:g}" rx="6"/>']
    first = top + height / 2 - (len(parts) - 1) * LINE / 2 + 5
    for number, part in enumerate(parts):
        title = ' class="title"' if number == 0 else ""
        x, y = left + width / 2, first + number * LINE
        shapes.append(f'<text{title} x="{x:g}" y="{y:g}">{escape(part)}</text>')
    return shapes


def middle(one, other, axis):
    """The middle of what two boxes share along an axis; None where they share nothing."""
    low = max(one[axis], other[axis])
    high = min(one[axis] + one[axis + 2], other[axis] + other[axis + 2])
    return (low + high) / 2 if low < high else None


def ends(one, other, axis):
    """Where a straight line leaves the one box and meets the other, along that axis."""
    if one[axis] < other[axis]:
        return one[axis] + one[axis + 2], other[axis]
    return one[axis], other[axis] + other[axis + 2]


def connection(kind, one, other, said):
    """A straight line between two boxes, and what stands at it."""
    if (y := middle(one, other, 1)) is not None:
        (x1, x2), y1, y2 = ends(one, other, 0), y, y
        text = (x1 + x2) / 2, y - 7, ""
    else:
        x1 = x2 = middle(one, other, 0)
        y1, y2 = ends(one, other, 1)
        text = x1 + 8, (y1 + y2) / 2 + 4, ' style="text-anchor: start"'
    yield f'<path class="{kind}" d="M{x1:g},{y1:g} L{x2:g},{y2:g}"/>'
    if said:
        yield f'<text class="said" x="{text[0]:g}" y="{text[1]:g}"{text[2]}>{escape(said)}</text>'


def drawing(text):
    """The SVG of the text."""
    places, shapes, size = {}, [], (0, 0)
    for words, parts in lines_of(text):
        if words[0] == "size":
            size = [int(word) * UNIT for word in words[1:]]
        elif words[0] in ("box", "disk"):
            places[words[1]] = [float(word) * UNIT for word in words[2:]]
            shapes += box(words[0], places[words[1]], parts)
        else:
            shapes += connection(words[0], places[words[1]], places[words[3]], parts[0])
    extent = f'width="{size[0]}" height="{size[1]}"'
    head = f'<svg xmlns="http://www.w3.org/2000/svg" viewBox="0 0 {size[0]} {size[1]}" {extent}>'
    ground = f'<rect {extent} fill="#ffffff"/>'
    return "\n".join([head, STYLE + ground, *shapes, "</svg>"]) + "\n"


def main():
    made = drawing((DOCS / "deployment.txt").read_text())
    if sys.argv[1:] == ["--show"]:
        print(made, end="")
    elif sys.argv[1:]:
        print(__doc__, file=sys.stderr)
        return 2
    else:
        (DOCS / "deployment.svg").write_text(made)
    return 0


if __name__ == "__main__":
    sys.exit(main())
