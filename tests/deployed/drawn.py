"""The dashboard, drawn of what Prometheus has: a picture (SVG) with a panel for each of the dashboard's."""
import math
import re
from xml.sax.saxutils import escape

# a unit of Grafana's grid, what a panel keeps free above and below its lines, and the width of a legend's letter
WIDE, HIGH, MARGIN, LETTER = 45, 24, 34, 6.5
COLOURS = ("#2f6fb3", "#c2572b", "#3a8a4d", "#8a52a8", "#a38a1f", "#4b8f8c")
STYLE = "text{font:11px sans-serif;fill:#223}.title{font-weight:bold}.box{fill:#fff;stroke:#99a}polyline{fill:none}"


def legend(text, labels):
    """The name of a line, as Grafana makes it."""
    return re.sub(r"\{\{(\w+)\}\}", lambda found: labels.get(found[1], ""), text or "value")


def number(value):
    """A number in a few letters."""
    for size, letter in ((1e9, "G"), (1e6, "M"), (1e3, "k")):
        if abs(value) >= size:
            return f"{value / size:.1f}{letter}"
    return f"{value:.3g}"


def lines_of(panel, found):
    """The name and the points of each line of a panel; `found` asks for an expression."""
    for target in panel["targets"]:
        for one in found(target["expr"]):
            points = [(float(at), float(value)) for at, value in one["values"]]
            yield legend(target.get("legendFormat"), one["metric"]), [pair for pair in points if math.isfinite(pair[1])]


def drawn_panel(panel, found, begin, end):
    """A panel where the dashboard has it."""
    place = panel["gridPos"]
    x, y, wide, high = place["x"] * WIDE, place["y"] * HIGH, place["w"] * WIDE - 6, place["h"] * HIGH - 6
    lines = list(lines_of(panel, found))
    most = max((value for _, points in lines for _, value in points), default=0.0) or 1.0
    parts = [f'<rect class="box" x="{x}" y="{y}" width="{wide}" height="{high}"/>',
             f'<text class="title" x="{x + 8}" y="{y + 15}">{escape(panel["title"])}</text>',
             f'<text x="{x + 8}" y="{y + 29}">up to {number(most)}</text>']
    at_letter, bottom, room = 0, y + high - MARGIN, high - 2 * MARGIN
    for place, (name, points) in enumerate(lines):
        colour = COLOURS[place % len(COLOURS)]
        text = " ".join(f"{x + 8 + (wide - 16) * (at - begin) / (end - begin):.0f},{bottom - room * value / most:.1f}"
                        for at, value in points)
        parts.append(f'<polyline points="{text}" stroke="{colour}"/>')
        if 8 + LETTER * (at_letter + len(name)) < wide:
            parts.append(f'<text x="{x + 8 + LETTER * at_letter:.0f}" y="{y + high - 9}" style="fill:{colour}">'
                         f"{escape(name)}</text>")
        at_letter += len(name) + 2
    return "\n".join(parts)


def drawn(board, found, begin, end):
    """The whole picture."""
    wide = max((panel["gridPos"]["x"] + panel["gridPos"]["w"]) * WIDE for panel in board["panels"])
    high = max((panel["gridPos"]["y"] + panel["gridPos"]["h"]) * HIGH for panel in board["panels"])
    panels = [drawn_panel(panel, found, begin, end) for panel in board["panels"]]
    return (f'<svg xmlns="http://www.w3.org/2000/svg" width="{wide}" height="{high}"><style>{STYLE}</style>\n'
            + "\n".join(panels) + "\n</svg>\n")
