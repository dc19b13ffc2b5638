"""A plan on a line as a time-distance diagram: one SVG picture."""
from . import losers as why, styles, svg
from .faults import Refused
from .frame import Frame, Labels
from .heading import heading_of, summary_of
from .legend import legend_of
from .words import clock, money

MARGIN = 16
HOVER = ".run:hover .line{stroke-width:4}.run .wide{stroke:transparent;stroke-width:9;pointer-events:stroke}"


def on_line(line, legs):
    """The legs between stations that are next to each other on the line."""
    order = {station: place for place, station in enumerate(line)}
    return [leg for leg in legs if leg.tail in order and leg.head in order and abs(order[leg.tail] - order[leg.head]) == 1]


def drawn_walk(loser):
    """The way of a bid that isn't served: the one that it would take if it were alone."""
    return loser.walk.legs if loser.walk and loser.case not in why.ALONE else []


def span_of(case, line):
    """The first and the last minute of all that runs on the line, and of what would; None where nothing does."""
    walks = [train.legs for train in case.plan.trains] + [drawn_walk(loser) for loser in case.losers]
    legs = [leg for walk in walks for leg in on_line(line, walk)]
    if not legs:
        return None
    first, last = min(leg.depart for leg in legs) // 10 * 10, -(-max(leg.arrive for leg in legs) // 10) * 10
    return first, max(last, first + 10)


def pieces_of(frame, legs):
    """The legs on the line, in pieces that run without a break."""
    pieces, before = [], None
    for leg in legs:
        if not frame.has(leg):
            before = None
            continue
        if before is None:
            pieces.append([])
        pieces[-1].append(leg)
        before = leg
    return pieces


def way_told(legs):
    """Where a train starts, halts, waits and ends, with clock times."""
    told = [f"{legs[0].tail} {clock(legs[0].depart)}"]
    for leg in legs:
        if leg.action in ("halt", "wait"):
            told.append(f"{leg.head} {clock(leg.arrive)} to {clock(leg.arrive + leg.dwell)}")
    return ", ".join([*told, f"{legs[-1].head} {clock(legs[-1].arrive)}"])


class Chart:
    """The pieces of a picture. The prefix keeps its names apart from those of other pictures in one page."""

    def __init__(self, case, line, title, hours=None, prefix="line"):
        span = hours or span_of(case, line)
        if span is None:
            raise Refused(f"no train and no bid runs between {line[0]} and {line[-1]}")
        self.net, self.plan, self.losers, self.title, self.prefix = case.net, case.plan, case.losers, title, prefix
        self.frame = Frame(case.map, line, *span)
        self.styles, self.labels = styles.Styles(self.net, self.plan), Labels(self.frame)
        self.names = []
        walks = [(train.bid, train.legs) for train in self.plan.trains] + [(loser.bid.name, drawn_walk(loser)) for loser in self.losers]
        self.drawn = [name for name, legs in walks if any(self.frame.sees(leg) for leg in legs)]

    def lines(self):
        """What is drawn of trains, above the grid and below the losers."""
        made = []
        for train in self.plan.trains:
            bid = self.plan.bids[train.bid]
            colour, shape = self.styles.operator(train.bidder)
            told = f"{train.bid}, {train.bidder}, {bid.kind}: {way_told(train.legs)}; worth {money(train.value)}"
            for piece in self.seen(train.legs):
                made.append(self.run(piece, told, stroke=colour, **self.styles.type(bid.kind)))
                if piece[0] is train.legs[0] and self.frame.first <= piece[0].depart:
                    made.append(styles.mark(shape, self.frame.x(piece[0].depart), self.frame.y(piece[0].tail), colour))
                self.name(train.legs, piece, train.bid, colour)
        return made

    def seen(self, legs):
        return [piece for piece in pieces_of(self.frame, legs) if any(self.frame.sees(leg) for leg in piece)]

    def run(self, piece, told, **attributes):
        """One line, and a wide one that nobody sees, for a pointer; a stay is a level piece."""
        points = []
        for leg in piece:
            points += [(self.frame.x(leg.depart), self.frame.y(leg.tail)), (self.frame.x(leg.arrive), self.frame.y(leg.head))]
        if piece[-1].dwell:
            points.append((self.frame.x(piece[-1].arrive + piece[-1].dwell), self.frame.y(piece[-1].head)))
        return svg.group(svg.polyline(points, class_="line", stroke_linejoin="round", **attributes),
                         svg.polyline(points, class_="wide", stroke="none"), title=told, class_="run")

    def name(self, legs, piece, name, colour):
        """The name beside a piece, with where the train comes from and goes to off the picture."""
        from_, to = piece[0] is legs[0], piece[-1] is legs[-1]
        before = "" if from_ else f" \u2039{self.before(legs, piece)}"
        behind = "" if to else f" \u203a{self.behind(legs, piece)}"
        seen = [leg for leg in piece if self.frame.sees(leg)]
        if len(seen) <= 3 or not behind:
            self.names += self.labels.beside(seen[0], name + before + (behind if len(seen) <= 3 else ""), colour)
        else:
            self.names += self.labels.beside(seen[0], name + before, colour)
        if len(seen) > 3:
            self.names += self.labels.beside(seen[-1], name + behind, colour)

    def before(self, legs, piece):
        """Where a train comes from: its origin, or the station from which it comes back to the line."""
        place = next(number for number, leg in enumerate(legs) if leg is piece[0])
        return legs[place - 1].tail if any(self.frame.has(leg) for leg in legs[:place]) else legs[0].tail

    def behind(self, legs, piece):
        """Where a train goes to: its destination, or the station to which it leaves the line for a while."""
        place = next(number for number, leg in enumerate(legs) if leg is piece[-1])
        return legs[place + 1].head if any(self.frame.has(leg) for leg in legs[place + 1:]) else legs[-1].head

    def met(self):
        """What is in the way of losers on the line, within its minutes."""
        return [(loser, meeting) for loser in self.losers for meeting in loser.meetings
                if drawn_walk(loser) and self.frame.sees(meeting.leg) and meeting.last >= self.frame.first
                and meeting.first <= self.frame.last]

    def bars(self):
        """The minutes that are closed to losers, below all lines."""
        made = []
        for loser, meeting in self.met():
            stands = meeting.what == "full"
            x1 = self.frame.x(max(meeting.first, self.frame.first))
            x2 = self.frame.x(min(meeting.last + 1, self.frame.last))
            y = self.frame.y(meeting.leg.head if stands else meeting.leg.tail)
            made.append(svg.group(styles.bar(x1, y, max(x2 - x1, 1), stands, self.hatch), title=self.bar_told(loser, meeting)))
        return made

    def bar_told(self, loser, meeting):
        span = f"{clock(meeting.first)} to {clock(meeting.last)}"
        if meeting.what == "full":
            return f"{meeting.leg.head} is full from {span}: {', '.join(meeting.others)}"
        return f"{meeting.leg.track} is closed to {loser.bid.name} from {span} by {', '.join(meeting.others) or 'itself'}"

    def lost(self):
        """The ways of losers, in the colours of their operators."""
        made = []
        for loser in self.losers:
            colour, bid = self.styles.operator(loser.bid.bidder)[0], loser.bid
            legs = drawn_walk(loser)
            for piece in self.seen(legs):
                told = (f"{bid.name}, {bid.bidder}, {bid.kind}, isn't served. Alone it would run: {way_told(legs)}; "
                        f"worth {money(loser.walk.value)}")
                made.append(self.run(piece, told, **styles.lost_path(colour)))
                self.name(legs, piece, f"({bid.name})", colour)
        return made

    def crosses(self):
        """Where losers would enter a track too near to a train, above all else."""
        made = []
        for loser, meeting in self.met():
            if meeting.what != "full" and self.frame.first <= meeting.leg.depart <= self.frame.last:
                x, y = self.frame.x(meeting.leg.depart), self.frame.y(meeting.leg.tail)
                theirs = f"{', '.join(meeting.others) or 'it'} enters {meeting.theirs.track} at {clock(meeting.theirs.depart)}"
                told = f"{loser.bid.name} would enter {meeting.leg.track} at {clock(meeting.leg.depart)}; {theirs}"
                made.append(svg.group(styles.cross(x, y), title=told))
        return made

    @property
    def hatch(self):
        return f"{self.prefix}-closed"

    def definitions(self):
        plot = svg.rectangle(self.frame.left, self.frame.top - 8, self.frame.plot_width, self.frame.plot_height + 16)
        hatch = svg.element("pattern", svg.element("rect", width=4, height=4, fill="#ffffff", fill_opacity=0.7),
                            svg.element("line", x1=0, y1=0, x2=0, y2=4, stroke="#777777", stroke_width=1.4), id=self.hatch, width=4,
                            height=4, patternUnits="userSpaceOnUse", patternTransform="rotate(45)")
        return svg.element("defs", svg.element("clipPath", plot, id=f"{self.prefix}-plot"), hatch)

    def svg(self, with_heading=True, with_legend=True):
        """The whole picture."""
        frame = self.frame
        heading = heading_of(self, MARGIN) if with_heading else []
        frame.top = 20 + 18 * len(heading) + 24
        grid, bars, lines, lost, crosses = frame.grid(), self.bars(), self.lines(), self.lost(), self.crosses()
        plot = svg.group(*bars, *lines, *lost, *crosses, clip_path=f"url(#{self.prefix}-plot)")
        legend, height = legend_of(self, MARGIN, frame.bottom + 44) if with_legend else ([], frame.bottom + 28)
        told = [svg.element("title", svg.escaped(self.title), id=f"{self.prefix}-title"),
                svg.element("desc", svg.escaped(summary_of(self)), id=f"{self.prefix}-desc")]
        width, tall = f"{frame.width:.0f}", f"{height:.0f}"
        return svg.element("svg", *told, svg.element("style", HOVER), self.definitions(),
                           svg.element("rect", width="100%", height="100%", fill="#ffffff"), "\n", *heading, "\n",
                           "\n".join(grid), "\n", plot, "\n", *self.names, "\n", *legend, "\n",
                           xmlns="http://www.w3.org/2000/svg", role="img",
                           aria_labelledby=f"{self.prefix}-title", aria_describedby=f"{self.prefix}-desc",
                           width=width, height=tall, viewBox=f"0 0 {width} {tall}", font_family="Helvetica, Arial, sans-serif",
                           font_size=12) + "\n"

