"""Lines of a network: stations one after the other, each joined with the next one by a track."""
import csv
import heapq
from collections import Counter, namedtuple

from .faults import Refused

# What joins two neighbours of a line: how many tracks lie side by side, and whether they lead both ways.
Section = namedtuple("Section", "tracks both_ways")


class Map:
    """Which stations of a network are joined by tracks that some type may use, and how."""

    def __init__(self, net):
        self.net, self.tracks, self.crossed = net, {}, {}
        # Of each station those that a track joins it with, and the fewest minutes between, whichever way.
        self.near = {station: {} for station in net.stations}
        for (name, _), times in net.running.items():
            track = net.tracks[name]
            self.tracks.setdefault(ends_of(track), {})[name] = track
            for a, b in ((track.tail, track.head), (track.head, track.tail)):
                self.near[a][b] = min(times[0], self.near[a].get(b, times[0]))
        for first, second in dict.fromkeys(crossing[:2] for crossing in net.crossings):
            if ends_of(net.tracks[first]) == ends_of(net.tracks[second]):
                self.crossed.setdefault(first, {})[second] = 1

    def copy(self):
        """The neighbours, to be taken apart."""
        return {station: dict(others) for station, others in self.near.items()}

    def section(self, a, b):
        """What lies between two neighbours: tracks that cross each other are one."""
        tracks = self.tracks[frozenset((a, b))]
        near = {name: [other for other in self.crossed.get(name, ()) if other in tracks] for name in tracks}
        lying = {frozenset(part_of(near, name)) for name in tracks}
        return Section(len(lying), len({track.tail for track in tracks.values()}) == 2)


def ends_of(track):
    return frozenset((track.tail, track.head))


def quickest(near, start):
    """The minutes to each station, and the station before it on the way."""
    done, waiting = {}, [(0, start, None)]
    while waiting:
        minutes, station, before = heapq.heappop(waiting)
        if station not in done:
            done[station] = (minutes, before)
            for other, more in near[station].items():
                if other not in done:
                    heapq.heappush(waiting, (minutes + more, other, station))
    return done


def way_to(done, end):
    """The stations of the quickest way to the end."""
    way = [end]
    while done[way[-1]][1] is not None:
        way.append(done[way[-1]][1])
    return way[::-1]


def longest_line(near, starts, traffic):
    """The quickest way between two stations that has the most stations, of those with as many the one with most traffic, and then one
    of most minutes."""
    best, line = (0, 0, 0), []
    for start in starts:
        done, length = quickest(near, start), {None: (0, 0)}
        for station, (minutes, before) in done.items():
            stations, runs = length[before]
            length[station] = stations + 1, runs + traffic.get(frozenset((before, station)), 0)
            if (*length[station], minutes) > best:
                best, line = (*length[station], minutes), way_to(done, station)
    return line


def traffic_of(plan):
    """How often trains run from one station to another, whichever way."""
    return Counter(frozenset((leg.tail, leg.head)) for train in plan.trains for leg in train.legs)


def part_of(near, start):
    """The stations that hang together with one."""
    part, waiting = {start}, [start]
    while waiting:
        for other in near[waiting.pop()]:
            if other not in part:
                part.add(other)
                waiting.append(other)
    return part


def parts_of(near, stations):
    """The parts that hang together, of those stations that are joined with others."""
    parts, seen = [], set()
    for station in stations:
        if station not in seen and near[station]:
            part = part_of(near, station)
            parts.append([other for other in stations if other in part])
            seen |= part
    return parts


def in_order(railmap, line):
    """The line from the end that the tables name first."""
    place = railmap.net.stations.index
    return line if place(line[0]) <= place(line[-1]) else line[::-1]


def longest(railmap, plan):
    line = longest_line(railmap.near, railmap.net.stations, traffic_of(plan))
    if len(line) < 2:
        raise Refused("the network has no track that a type may use")
    return in_order(railmap, line)


def cover(railmap, plan):
    """Lines that together have each section once: the longest one, then the longest ones of what it leaves, and so on."""
    near, found, traffic = railmap.copy(), [], traffic_of(plan)
    waiting = parts_of(near, railmap.net.stations)
    while waiting:
        part = waiting.pop(0)
        line = longest_line(near, part, traffic)
        for a, b in zip(line, line[1:]):
            near[a].pop(b)
            near[b].pop(a)
        found.append(in_order(railmap, line))
        waiting = parts_of(near, part) + waiting
    return sorted(found, key=len, reverse=True)


def between(railmap, start, end):
    """The quickest way from one station to another."""
    near = railmap.near
    for station in (start, end):
        if station not in near:
            raise Refused(f"no station is called {station}")
    done = quickest(near, start)
    if start == end or end not in done:
        raise Refused(f"no tracks lead from {start} to {end}" if start != end else "a line has two ends that are different")
    return way_to(done, end)


def named(railmap, text):
    """The line whose stations are named one after the other, with commas between; a name with a comma stands in quotes."""
    line, near = next(csv.reader([text]), []), railmap.near
    for station in line:
        if station not in near:
            raise Refused(f"no station is called {station}")
    for a, b in zip(line, line[1:]):
        if b not in near[a]:
            raise Refused(f"no track joins {a} and {b}")
    if len(line) < 2 or len(set(line)) < len(line):
        raise Refused("a line has two stations or more, each once")
    return line
