"""The best walk of a bid: alone, or beside trains that run.

The search goes from state to state (a station, a minute, whether the train stands there, how many stops are done), the most
promising first: what a walk is worth so far, less the least that the rest can cost. So the first walk that ends is a best one.
"""
import heapq
from collections import namedtuple

from . import meetings, rules
from .plans import Leg
from .tables import LAST_MINUTE

MOST_LEGS = 500_000

State = namedtuple("State", "station minute halted done")
Walk = namedtuple("Walk", "value legs")


class TooMany(Exception):
    """A bid has more ways than are looked at."""


class Ways:
    """The tracks of a network for each type, and how far it is from station to station."""

    def __init__(self, net):
        self.net, self.known = net, {}
        self.leaving, self.entering = {}, {}
        for (name, kind), times in net.running.items():
            track = net.tracks[name]
            self.leaving.setdefault((kind, track.tail), []).append(track)
            self.entering.setdefault((kind, track.head), []).append((min(times), track.tail))

    def minutes_to(self, kind, end):
        """The fewest minutes of a type from each station to one of them; stations from which there is no way aren't there."""
        if (kind, end) not in self.known:
            done, waiting = {}, [(0, end)]
            while waiting:
                minutes, station = heapq.heappop(waiting)
                if station not in done:
                    done[station] = minutes
                    for more, before in self.entering.get((kind, station), ()):
                        if before not in done:
                            heapq.heappush(waiting, (minutes + more, before))
            self.known[kind, end] = done
        return self.known[kind, end]


class Search:
    """The walks of one bid."""

    def __init__(self, ways, bid, occupancy=None):
        self.ways, self.net, self.bid, self.occupancy = ways, ways.net, bid, occupancy
        self.goals = self.goals_of()

    def goals_of(self):
        """By the stops that are done: the minutes to the next stop or the destination, and the fewest from there to the end; the
        second is None where there is no way."""
        bid, after = self.bid, 0
        goals = [(self.ways.minutes_to(bid.kind, bid.destination), 0)]
        for stop in reversed(bid.stops):
            on = goals[0][0].get(stop.station)
            after = None if on is None or after is None else stop.least + on + after
            goals.insert(0, (self.ways.minutes_to(bid.kind, stop.station), after))
        return goals

    def minutes_ahead(self, station, done):
        """The fewest minutes from a station to the end, with so many stops done; None where there is no way."""
        to_goal, after = self.goals[done]
        minutes = to_goal.get(station)
        return None if minutes is None or after is None else minutes + after

    def quickest(self):
        """The fewest minutes that the bid could be under way; None where no tracks lead over its stops to its destination."""
        return self.minutes_ahead(self.bid.origin, 0)

    def ahead(self, state):
        """The least that the rest of a walk costs from a state on, and the minute at which it ends at the earliest; None for both
        where it can't end in time."""
        minutes = self.minutes_ahead(state.station, state.done)
        if minutes is None or state.minute + minutes > self.bid.arrive.last or state.minute > LAST_MINUTE:
            return None, None
        end = state.minute + minutes
        return self.bid.rates.travel * minutes + self.bid.rates.late_arrive * max(end - self.bid.arrive.ideal, 0), end

    def next_legs(self, state):
        """The legs that may come next, each with the state after it; None after the last leg."""
        bid = self.bid
        for track in self.ways.leaving.get((bid.kind, state.station), ()):
            passing, halting = (state.minute + rules.running_minutes(self.net, track.name, bid.kind, state.halted, to_halt)
                                for to_halt in (False, True))
            yield self.leg(track, state, passing, "pass", 0), State(track.head, passing, False, state.done)
            if state.done == len(bid.stops) and track.head == bid.destination and bid.arrive.first <= halting <= bid.arrive.last:
                yield self.leg(track, state, halting, "finish", 0), None
            yield from self.stays(track, state, halting)

    def stays(self, track, state, at):
        """The legs that halt at a stop, and those that wait, after which the train goes on."""
        if state.done < len(self.bid.stops):
            stop = self.bid.stops[state.done]
            if stop.station == track.head and stop.first <= at <= stop.last:
                for dwell in range(stop.least, stop.most + 1):
                    yield self.leg(track, state, at, "halt", dwell), State(track.head, at + dwell, True, state.done + 1)
        ahead = self.minutes_ahead(track.head, state.done)
        longest = 0 if ahead is None else min(self.bid.wait_max, self.bid.arrive.last - ahead - at)
        for dwell in range(1, longest + 1):
            yield self.leg(track, state, at, "wait", dwell), State(track.head, at + dwell, True, state.done)

    def leg(self, track, state, arrive, action, dwell):
        return Leg(track.name, track.tail, state.minute, track.head, arrive, action, dwell)

    def starts(self):
        for minute in range(self.bid.depart.first, self.bid.depart.last + 1):
            yield self.bid.base - rules.start_loss(self.bid, minute), State(self.bid.origin, minute, True, 0)

    def after(self, worth, leg):
        """What a walk is worth with one leg more, without what its end costs."""
        rates = self.bid.rates
        return (worth - rates.travel * (leg.arrive + leg.dwell - leg.depart)
                - (rates.wait * leg.dwell if leg.action == "wait" else rules.end_loss(self.bid, leg.arrive) if leg.action == "finish" else 0))

    def is_open(self, leg, taken):
        """Whether a leg may be run after those that were taken."""
        if self.occupancy is not None and not self.occupancy.is_free(self.bid.kind, leg):
            return False
        return not taken or not meetings.own_meetings_of(self.net, self.bid.kind, leg, taken)

    def best(self, least=None, off_itself=False):
        """A best walk that is worth more than `least`; None where there is none. Walks that are in their own way count, but where
        they are left out by `off_itself`. Raises `TooMany` where the search gets too long."""
        frontier = Frontier(self, least, off_itself)
        for worth, state in self.starts():
            frontier.add(worth, state, None)
        while frontier.waiting:
            worth, state, link = frontier.next()
            if state is None:
                return Walk(worth, legs_of(link))
            before = legs_of(link) if off_itself else []
            for leg, after in self.next_legs(state):
                frontier.count(1 + len(before))
                if self.is_open(leg, before):
                    frontier.add(self.after(worth, leg), after, (leg, link))
        return None


class Frontier:
    """What of a search is still to be looked at: the most promising first, of those that promise as much what may end first, and then
    what was found last. Of each state the best way to it is kept, or each way where they aren't the same for what follows."""

    def __init__(self, search, least, keeps_all):
        self.search, self.least, self.keeps_all = search, least, keeps_all
        self.waiting, self.known, self.counted = [], {}, 0

    def count(self, legs):
        """Counts legs that are looked at, and raises `TooMany` where they get too many."""
        self.counted += legs
        if self.counted > MOST_LEGS:
            raise TooMany

    def add(self, worth, state, link):
        """Adds a way to a state, or to the end (None)."""
        ahead, end = (0, link[0].arrive) if state is None else self.search.ahead(state)
        if ahead is None or (self.least is not None and worth - ahead <= self.least):
            return
        if state is not None and not self.keeps_all:
            if worth <= self.known.get(state, worth - 1):
                return
            self.known[state] = worth
        heapq.heappush(self.waiting, (ahead - worth, end, -self.counted, len(self.waiting), worth, state, link))

    def next(self):
        *_, worth, state, link = heapq.heappop(self.waiting)
        return worth, state, link


def legs_of(link):
    """The legs of a chain, from the first one on."""
    legs = []
    while link:
        legs.append(link[0])
        link = link[1]
    return legs[::-1]


def best_walk(ways, bid, occupancy=None, least=None):
    """A best walk of the bid that isn't in its own way, beside the trains that are given, worth more than `least`; None where there
    is none."""
    search = Search(ways, bid, occupancy)
    walk = search.best(least)
    if walk and meetings.own_meetings(ways.net, bid.kind, walk.legs):
        walk = search.best(least, off_itself=True)
    return walk
