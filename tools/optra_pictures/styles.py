"""How operators, types and what is closed look. Colours stand out from white by 4.5 to 1 or more, so names in them can be read."""
from . import svg

COLOURS = ["#0067a3", "#b34700", "#00734f", "#a32b6f", "#7a5d00", "#5f4697", "#3d3d3d", "#9c1f1f"]
MARKS = ["circle", "square", "triangle", "diamond", "ring", "bar"]
DASHES = ["none", "9 4", "11 3 3 3", "5 3", "6 2 2 2 2 2", "16 4"]
WIDTHS = [1.4, 1.8, 2.4, 1.4, 1.4, 2.2]
GREY = "#555555"


class Styles:
    """Colour and mark by operator, dashes and width by type."""

    def __init__(self, net, plan):
        self.operators = sorted({bid.bidder for bid in plan.bids.values()} | {train.bidder for train in plan.trains})
        self.types = net.types

    def operator(self, name):
        place = self.operators.index(name)
        return COLOURS[place % len(COLOURS)], MARKS[place % len(MARKS)]

    def type(self, name):
        turn, place = divmod(self.types.index(name), len(DASHES))
        return {"stroke_width": round(WIDTHS[place] + 1.5 * turn, 1), "stroke_dasharray": DASHES[place]}


def mark(kind, x, y, colour):
    """The operator's mark."""
    r = 3.6
    if kind in ("circle", "ring"):
        return svg.element("circle", cx=f"{x:.1f}", cy=f"{y:.1f}", r=r, fill=colour if kind == "circle" else "#ffffff", stroke=colour,
                           stroke_width=1.4)
    shapes = {"square": [(-r, -r), (r, -r), (r, r), (-r, r)], "triangle": [(0, -r - 1), (r + 0.6, r), (-r - 0.6, r)],
              "diamond": [(0, -r - 1), (r + 1, 0), (0, r + 1), (-r - 1, 0)],
              "bar": [(-1.5, -r - 1), (1.5, -r - 1), (1.5, r + 1), (-1.5, r + 1)]}
    return svg.polygon([(x + dx, y + dy) for dx, dy in shapes[kind]], fill=colour)


def bar(x, y, width, stands, hatch):
    """Minutes that are closed: hatched to who enters a track, dark to who stands in a station."""
    colour = "#333333" if stands else "#777777"
    return svg.rectangle(x, y - 4, width, 8, fill=colour if stands else f"url(#{hatch})", stroke=colour, stroke_width=0.6)


def cross(x, y):
    return "".join(svg.segment(x - 4, y - 4 * slope, x + 4, y + 4 * slope, stroke="#ffffff", stroke_width=4)
                   + svg.segment(x - 4, y - 4 * slope, x + 4, y + 4 * slope, stroke="#000000", stroke_width=1.8) for slope in (-1, 1))


def lost_path(colour):
    """The look of a bid that isn't served."""
    return {"stroke": colour, "stroke_width": 1.4, "stroke_dasharray": "1.4 3.4"}
