"""A network without faults, and what it lets a train do: quickest ways, and whether a bid has a timed walk."""
import heapq
from collections import deque, namedtuple

from .formats import LAST_MINUTE

Track = namedtuple("Track", "name tail head")
Stop = namedtuple("Stop", "station min_dwell max_dwell arrive_from arrive_to")
Bid = namedtuple("Bid", "name bidder kind origin destination depart arrive base rates wait_max stops")
# The modes of a running time.
PASS, HALT = 0, 1
# So many turns are taken to find a walk; a bid that wants more is left alone.
MOST_TURNS = 200_000


class Railway:
    """Tracks by their names, running times by track and type, and of each station the tracks that lead from it."""

    def __init__(self, stations, limits, ends, types, running, headways, crossings):
        self.stations, self.limits, self.types = list(stations), limits, list(types)
        self.tracks = {name: Track(name, *both) for name, both in ends.items()}
        self.running, self.headways, self.crossings = running, headways, crossings
        self.leaving = {station: [] for station in self.stations}
        self.arriving = {station: [] for station in self.stations}
        for track in self.tracks.values():
            self.leaving[track.tail].append(track)
            self.arriving[track.head].append(track)
        self.users = {name: [kind for kind in self.types if (name, kind) in running] for name in self.tracks}
        self.pairs = {}
        for track in self.tracks.values():
            self.pairs.setdefault((track.tail, track.head), []).append(track.name)
        self.known_rests, self.known_ways_in = {}, {}

    def opposite(self, name):
        """The tracks that lead the other way between the same stations."""
        track = self.tracks[name]
        return self.pairs.get((track.head, track.tail), [])

    def neighbours(self, station):
        """The stations that tracks join a station with, whichever way."""
        return {track.head for track in self.leaving[station]} | {track.tail for track in self.arriving[station]}

    def parts(self):
        """The stations in parts that no tracks join."""
        found, seen = [], set()
        for station in self.stations:
            part, waiting = [], [station]
            while waiting:
                here = waiting.pop()
                if here not in seen:
                    seen.add(here)
                    part.append(here)
                    waiting += self.neighbours(here)
            found += [part] if part else []
        return found

    def ways_in(self, kind):
        """Of each station those from which a track leads to it that the type may use, with the fewest of its minutes."""
        if kind not in self.known_ways_in:
            self.known_ways_in[kind] = {station: [(track.tail, min(self.running[track.name, kind])) for track in tracks
                                                  if (track.name, kind) in self.running] for station, tracks in self.arriving.items()}
        return self.known_ways_in[kind]

    def rests(self, kind, end):
        """Of each station from which a type gets to the end: the least minutes, by the fewest of each track."""
        if (kind, end) not in self.known_rests:
            done, waiting, ways_in = {}, [(0, end)], self.ways_in(kind)
            while waiting:
                minutes, station = heapq.heappop(waiting)
                if station not in done:
                    done[station] = minutes
                    for tail, more in ways_in[station]:
                        if tail not in done:
                            heapq.heappush(waiting, (minutes + more, tail))
            self.known_rests[kind, end] = done
        return self.known_rests[kind, end]

    def way(self, kind, start, end):
        """The stations of a quickest way for a type, both ends with it; None where there is none."""
        rests = self.rests(kind, end)
        if start not in rests:
            return None
        way = [start]
        while way[-1] != end:
            ways = [(rests[track.head] + min(self.running[track.name, kind]), track.head) for track in self.leaving[way[-1]]
                    if track.head in rests and (track.name, kind) in self.running]
            way.append(min(ways, key=lambda found: found[0])[1])
        return way


# Least minutes of a run

def least_run(railway, kind, start, end, may_wait):
    """The least minutes from a halt at one station to a halt at another, or None; where trains may wait, also by a wait on the way."""
    done, waiting = set(), [(0, start, HALT, False)]
    while waiting:
        minutes, station, mode, is_end = heapq.heappop(waiting)
        if is_end:
            return minutes
        if (station, mode) in done:
            continue
        done.add((station, mode))
        for track in railway.leaving[station]:
            times = railway.running.get((track.name, kind))
            if times is None:
                continue
            if track.head == end:
                heapq.heappush(waiting, (minutes + times[2 * mode + HALT], end, HALT, True))
            heapq.heappush(waiting, (minutes + times[2 * mode + PASS], track.head, PASS, False))
            if may_wait:
                heapq.heappush(waiting, (minutes + times[2 * mode + HALT] + 1, track.head, HALT, False))
    return None


def least_minutes(railway, bid):
    """The least minutes under way over all stops, with their least dwells; None where there is no way."""
    places, total = places_of(bid), 0
    for start, end in zip(places, places[1:]):
        run = least_run(railway, bid.kind, start, end, bid.wait_max > 0)
        if run is None:
            return None
        total += run
    return total + sum(stop.min_dwell for stop in bid.stops)


def places_of(bid):
    return [bid.origin, *(stop.station for stop in bid.stops), bid.destination]


# Timed walks, by sets of minutes: bit m of a number stands for minute m

def span(first, last):
    """The minutes from the first to the last."""
    return (1 << last + 1) - (1 << first) if first <= last else 0


def later(minutes, least, most):
    """The minutes that are so many later than one of these."""
    found, width, wanted = minutes << least, 1, most - least + 1
    while width < wanted:
        more = min(width, wanted - width)
        found |= found << more
        width += more
    return found


def first_of(minutes):
    return (minutes & -minutes).bit_length() - 1


def last_of(minutes):
    return minutes.bit_length() - 1


class Walks:
    """When a bid's train can be where, by any timed walk, or by those alone that get nearer to their next stop with each track:
    `arrives[k]` are the minutes at which it can halt at stop k, in its window or not, the last of them at the destination."""

    def __init__(self, railway, bid, is_straight=False):
        self.railway, self.bid, self.is_straight, self.places = railway, bid, is_straight, places_of(bid)
        self.windows = [(stop.arrive_from, stop.arrive_to) for stop in bid.stops] + [(bid.arrive[0], bid.arrive[2])]
        self.arrives = [0] * len(self.windows)
        self.seen, self.waiting = {}, deque()
        self.is_served, self.is_sure = False, True
        self.latest = self.latest_minutes()

    def latest_minutes(self):
        """Of each part of the run and each station the latest minute from which the end can be had in time."""
        limit, found = self.bid.arrive[2], []
        for number in reversed(range(len(self.windows))):
            rests = self.railway.rests(self.bid.kind, self.places[number + 1])
            limit = min(limit, self.windows[number][1])
            found.append({station: limit - rest for station, rest in rests.items()})
            start = rests.get(self.places[number])
            dwell = self.bid.stops[number - 1].min_dwell if number else 0
            limit = limit - start - dwell if start is not None else -1
        return found[::-1]

    def reach(self, number, station, mode, minutes):
        """Notes minutes at which the train can go on from a station."""
        minutes &= span(0, min(LAST_MINUTE, self.latest[number].get(station, -1)))
        known = self.seen.get((number, station, mode), 0)
        if minutes & ~known:
            self.seen[number, station, mode] = known | minutes
            self.waiting.append((number, station, mode, minutes & ~known))

    def halt(self, number, minutes):
        """Notes minutes at which the train arrives at the end of a part of the run."""
        fresh = minutes & span(0, LAST_MINUTE) & ~self.arrives[number]
        self.arrives[number] |= fresh
        inside = fresh & span(*self.windows[number])
        if not inside:
            return
        if number == len(self.bid.stops):
            self.is_served = True
        else:
            stop = self.bid.stops[number]
            self.reach(number + 1, stop.station, HALT, later(inside, stop.min_dwell, stop.max_dwell))

    def step(self, number, station, mode, minutes):
        """All that the train can do from a station at these minutes."""
        rests = self.railway.rests(self.bid.kind, self.places[number + 1])
        for track in self.railway.leaving[station]:
            times = self.railway.running.get((track.name, self.bid.kind))
            if times is None or self.is_straight and rests.get(track.head, LAST_MINUTE) >= rests[station]:
                continue
            self.reach(number, track.head, PASS, minutes << times[2 * mode + PASS])
            arrives = minutes << times[2 * mode + HALT]
            if self.bid.wait_max:
                self.reach(number, track.head, HALT, later(arrives, 1, self.bid.wait_max))
            if track.head == self.places[number + 1]:
                self.halt(number, arrives)

    def search(self):
        """Finds whether there is a timed walk; `is_sure` says whether it was found out."""
        self.reach(0, self.bid.origin, HALT, span(self.bid.depart[0], self.bid.depart[2]))
        turns = 0
        while self.waiting and not self.is_served:
            turns += 1
            if turns > MOST_TURNS:
                self.is_sure = False
                return
            self.step(*self.waiting.popleft())
