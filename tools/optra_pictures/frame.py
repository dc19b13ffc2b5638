"""Where stations and minutes stand in a picture, and where names find room."""
from . import svg
from .words import clock

LEAST_WIDTH, MINUTE_WIDTH, LEAST_GAP, MOST_LETTERS = 1160, 4, 26, 24


class Frame:
    """The plot of a line and of minutes; stations stand down, minutes across."""

    def __init__(self, railmap, line, first, last):
        self.net, self.line, self.first, self.last = railmap.net, line, first, last
        self.near, self.sections = railmap.near, [(a, b, railmap.section(a, b)) for a, b in zip(line, line[1:])]
        self.order = {station: place for place, station in enumerate(line)}
        self.label_width = 26 + max(svg.width_of(self.name(station), 12) for station in line)
        self.plot_width = max(LEAST_WIDTH, MINUTE_WIDTH * (last - first))
        self.left, self.top = self.label_width, 0
        self.down = self.places()
        self.plot_height = max(self.down.values())
        self.width = self.left + self.plot_width + self.label_width

    def name(self, station):
        """What stands beside a station; a long name is cut, and its tooltip has it whole."""
        limit, short = self.net.limits[station], station if len(station) <= MOST_LETTERS else f"{station[:MOST_LETTERS - 1]}\u2026"
        return f"{short} ({limit})" if limit else short

    def places(self):
        """How far down each station stands, by the minutes between, and far enough apart for its name."""
        minutes = [0]
        for a, b, _ in self.sections:
            minutes.append(minutes[-1] + self.near[a][b])
        scale = min(640, max(200, 110 * (len(self.line) - 1))) / max(minutes[-1], 1)
        at = [0.0]
        for a, b in zip(minutes, minutes[1:]):
            at.append(at[-1] + max((b - a) * scale, LEAST_GAP))
        return dict(zip(self.line, at))

    def x(self, minute):
        return self.left + (minute - self.first) * self.plot_width / (self.last - self.first)

    def y(self, station):
        return self.top + self.down[station]

    @property
    def right(self):
        return self.left + self.plot_width

    @property
    def bottom(self):
        return self.top + self.plot_height

    def has(self, leg):
        """Whether a leg runs between stations that are next to each other on the line."""
        return leg.tail in self.order and leg.head in self.order and abs(self.order[leg.tail] - self.order[leg.head]) == 1

    def sees(self, leg):
        """Whether a part of a leg, or of the stay after it, lies within the minutes."""
        return self.has(leg) and leg.depart <= self.last and leg.arrive + leg.dwell >= self.first

    def grid(self):
        """Clock times and stations, with the tracks between them at both sides."""
        span = self.last - self.first
        strong = next(step for step in (10, 20, 30, 60, 120, 240, 480, 1440) if span / step <= self.plot_width / 75)
        step = max(10, strong // 3 // 10 * 10)
        made = []
        for minute in range(-(-self.first // step) * step, self.last + 1, step):
            told = minute % strong == 0
            made.append(svg.segment(self.x(minute), self.top, self.x(minute), self.bottom, stroke="#bbbbbb" if told else "#e6e6e6"))
            if told:
                made += [svg.text(self.x(minute), y, clock(minute), text_anchor="middle", fill="#333333")
                         for y in (self.top - 8, self.bottom + 18)]
        return made + [piece for station in self.line for piece in self.station(station)] + self.tracks()

    def station(self, station):
        y, limit = self.y(station), self.net.limits[station]
        told = f"{station}: at most {limit} may stand here at once" if limit else f"{station}: any number may stand here"
        names = [svg.text(x, y + 4, self.name(station), text_anchor=anchor, fill="#111111")
                 for x, anchor in ((self.left - 14, "end"), (self.right + 14, "start"))]
        return [svg.segment(self.left, y, self.right, y, stroke="#999999"), svg.group(*names, title=told)]

    def tracks(self):
        """Beside the stations a stroke for each track of a section, broken where all lead one way."""
        made = []
        for a, b, lie in self.sections:
            many = f"{lie.tracks} tracks" if lie.tracks > 1 else "single track"
            shown = min(lie.tracks, 4)
            strokes = [svg.segment(x + 3 * place - 1.5 * (shown - 1), self.y(a), x + 3 * place - 1.5 * (shown - 1), self.y(b),
                                   stroke="#111111", stroke_width=1.8 if lie.tracks == 1 else 1.1,
                                   stroke_dasharray="none" if lie.both_ways else "5 3")
                       for x in (self.left - 6, self.right + 6) for place in range(shown)]
            made.append(svg.group(*strokes, title=f"{a} to {b}: {many}{'' if lie.both_ways else ', one way'}"))
        return made


class Labels:
    """Names beside legs, each where no other one stands, if there is such a place."""

    SHARES = (0.45, 0.65, 0.28, 0.82, 0.15, 0.55, 0.36, 0.74)

    def __init__(self, frame):
        self.frame, self.taken = frame, []

    def beside(self, leg, body, colour):
        """A name beside a leg; an empty list where the leg isn't within the minutes."""
        frame, wide = self.frame, svg.width_of(body, 10) + 4
        x1, y1, x2, y2 = frame.x(leg.depart), frame.y(leg.tail), frame.x(leg.arrive), frame.y(leg.head)
        places = [(x1 + (x2 - x1) * share + 6, y1 + (y2 - y1) * share + (1 if y2 > y1 else 8)) for share in self.SHARES]
        places = [(x, y) for x, y in places if frame.left <= x - 6 <= frame.right]
        if not places:
            return []
        x, y = next((place for place in places if self.has_room(*place, wide)), places[0])
        self.taken.append((x, y, wide))
        return [svg.text(x, y, body, fill=colour, font_size=10, stroke="#ffffff", stroke_width=2.5, paint_order="stroke")]

    def has_room(self, x, y, wide):
        return all(x + wide < a or a + other < x or abs(y - b) > 10 for a, b, other in self.taken)
