"""What the lines and marks of a picture mean."""
from . import styles, svg

ROW = 22


class Shelf:
    """Entries side by side, and below each other where they don't fit."""

    def __init__(self, x, y, width):
        self.left, self.x, self.y, self.width = x, x, y, width
        self.made = []

    def put(self, sample, wide, told):
        """An entry: what is drawn at a place, so wide, and what it means."""
        needed = wide + 6 + svg.width_of(told, 12) + 26
        if self.x > self.left and self.x + needed > self.width:
            self.new_row()
        self.made += [*sample(self.x, self.y - 4), svg.text(self.x + wide + 6, self.y, told, fill="#222222")]
        self.x += needed

    def new_row(self):
        if self.x > self.left:
            self.x, self.y = self.left, self.y + ROW


def legend_of(chart, x, y):
    """The legend's elements, and how far down it reaches."""
    shelf = Shelf(x, y, chart.frame.width - x)
    bids = [chart.plan.bids[name] for name in chart.drawn]
    for kind in [kind for kind in chart.net.types if kind in {bid.kind for bid in bids}]:
        look = chart.styles.type(kind)
        shelf.put(lambda x, y, look=look: [svg.segment(x, y, x + 40, y, stroke="#222222", **look)], 40, kind)
    shelf.new_row()
    for operator in sorted({bid.bidder for bid in bids}):
        colour, shape = chart.styles.operator(operator)
        shelf.put(lambda x, y, colour=colour, shape=shape: [svg.segment(x, y, x + 30, y, stroke=colour, stroke_width=2),
                                                            styles.mark(shape, x, y, colour)], 30, operator)
    shelf.new_row()
    put_losers(chart, shelf)
    put_stations(chart, shelf)
    return shelf.made, shelf.y + 16


def put_losers(chart, shelf):
    if not any(loser.bid.name in chart.drawn for loser in chart.losers):
        return
    shelf.put(lambda x, y: [svg.segment(x, y, x + 40, y, **styles.lost_path(styles.GREY))], 40,
              "(name): a bid that isn't served, as it would run alone")
    whats = {meeting.what for _, meeting in chart.met()}
    if whats - {"full"}:
        shelf.put(lambda x, y: [styles.bar(x, y, 40, False, chart.hatch), styles.cross(x + 20, y)], 40,
                  "it would enter a track here, at minutes that a train closes to it")
    if "full" in whats:
        shelf.put(lambda x, y: [styles.bar(x, y, 20, True, chart.hatch)], 20, "it would stand here, where all places are taken")


def put_stations(chart, shelf):
    frame = chart.frame
    shelf.put(lambda x, y: [svg.segment(x + 3, y - 7, x + 3, y + 7, stroke="#111111", stroke_width=1.8)], 6, "single track")
    shelf.put(lambda x, y: [svg.segment(x + dx, y - 7, x + dx, y + 7, stroke="#111111", stroke_width=1.1) for dx in (1.5, 4.5)], 6,
              "two tracks")
    if not all(section.both_ways for _, _, section in frame.sections):
        shelf.put(lambda x, y: [svg.segment(x + 3, y - 8, x + 3, y + 8, stroke="#111111", stroke_width=1.8, stroke_dasharray="5 3")], 6,
                  "one way")
    if any(chart.net.limits[station] for station in frame.line):
        shelf.put(lambda x, y: [], 0, "Station (2): at most two may stand there at once")
    if any("\u2039" in name or "\u203a" in name for name in chart.names):
        shelf.put(lambda x, y: [], 0, "\u2039X comes from X, \u203aX goes on to X, off this picture")
