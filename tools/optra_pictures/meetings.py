"""Whom a walk meets: the trains that run, a station whose places are all taken, or itself."""
from collections import namedtuple

from . import rules
from .rules import Use

# Where a leg of a walk can't be: what is `track` (a headway), `crossing`, `full` or `itself`; the names of the other bids, their
# leg (None where a station is full), and the first and the last minute that are closed to it there.
Meeting = namedtuple("Meeting", "leg what others theirs first last")


# No headway and no crossing is longer.
LONGEST = 120


class Occupancy:
    """What the trains of a plan leave to another train."""

    def __init__(self, net, plan):
        self.net, self.plan, self.known = net, plan, {}
        self.uses, self.stand = {}, {}
        for train in plan.trains:
            for leg in train.legs:
                use = Use(leg.track, plan.bids[train.bid].kind, leg.depart)
                self.uses.setdefault(leg.track, []).append((use, train, leg))
                for minute in rules.standing(leg):
                    self.stand.setdefault((leg.head, minute), []).append(train.bid)
        self.beside = {track: [track] for track in net.tracks}
        for first, second in dict.fromkeys(crossing[:2] for crossing in net.crossings):
            self.beside[first].append(second)

    def near(self, track):
        """The uses of the track and of those that cross it."""
        return (entry for other in self.beside[track] for entry in self.uses.get(other, ()))

    def closed(self, track, kind):
        """The minutes at which a train of the type can't enter the track."""
        if (track, kind) not in self.known:
            minutes = set()
            for use, _, _ in self.near(track):
                span = rules.closed_minutes(self.net, Use(track, kind, 0), use)
                if span:
                    minutes.update(range(span[0], span[1] + 1))
            self.known[track, kind] = minutes
        return self.known[track, kind]

    def is_full(self, station, minute):
        limit = self.net.limits[station]
        return 0 < limit <= len(self.stand.get((station, minute), ()))

    def is_free(self, kind, leg):
        """Whether the leg could be run beside the trains of the plan."""
        if leg.depart in self.closed(leg.track, kind):
            return False
        return not (self.net.limits[leg.head] and any(self.is_full(leg.head, minute) for minute in rules.standing(leg)))

    def meetings_of(self, kind, legs):
        """All that is in the way of the legs, in their order."""
        found = []
        for leg in legs:
            mine = Use(leg.track, kind, leg.depart)
            for use, train, theirs in self.near(leg.track):
                if rules.are_in_conflict(self.net, mine, use):
                    first, last = rules.closed_minutes(self.net, mine, use)
                    what = "track" if theirs.track == leg.track else "crossing"
                    found.append(Meeting(leg, what, (train.bid,), theirs, first, last))
            found += self.full_for(leg)
        return found + own_meetings(self.net, kind, legs)

    def full_for(self, leg):
        """Where the leg would stand in a station that is full: one meeting at most, from its first such minute on."""
        met = [minute for minute in rules.standing(leg) if self.is_full(leg.head, minute)]
        if not met:
            return []
        first = last = met[0]
        while self.is_full(leg.head, first - 1):
            first -= 1
        while self.is_full(leg.head, last + 1):
            last += 1
        return [Meeting(leg, "full", tuple(self.stand[leg.head, met[0]]), None, first, last)]


def own_meetings(net, kind, legs):
    """Where a walk is in its own way."""
    return [meeting for place, leg in enumerate(legs) for meeting in own_meetings_of(net, kind, leg, legs[:place])]


def own_meetings_of(net, kind, leg, earlier):
    """Where a leg is in conflict with earlier ones of its own train."""
    mine, found = Use(leg.track, kind, leg.depart), []
    for before in reversed(earlier):
        if leg.depart - before.depart >= LONGEST:
            break
        theirs = Use(before.track, kind, before.depart)
        if rules.are_in_conflict(net, mine, theirs):
            found.append(Meeting(leg, "itself", (), before, *rules.closed_minutes(net, mine, theirs)))
    return found


def first_fault(net, plan):
    """What is wrong with the trains of a plan as a whole; None where they are free of conflict."""
    occupancy = Occupancy(net, plan)
    for track, entries in occupancy.uses.items():
        for use, train, leg in entries:
            for other, their_train, theirs in occupancy.near(track):
                if theirs is not leg and rules.are_in_conflict(net, use, other):
                    return f"{train.bid} and {their_train.bid} are in conflict on {track}"
    for (station, _), standing in occupancy.stand.items():
        if 0 < net.limits[station] < len(standing):
            return f"{station} holds {net.limits[station]}, and {len(standing)} trains stand there at once"
    return None
