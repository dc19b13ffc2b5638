#!/usr/bin/env python3
"""Writes the tables of a large network with: python3 bench/network.py STATIONS TRACKS TYPES BIDS SEED FOLDER

Stations hang together by lines with branches, with a track each way between neighbours, and what is left of TRACKS makes
short cuts; so TRACKS is at least 2 * (STATIONS - 1). Each bid goes along 4 to 9 sections with 2 to 4 stops, departs within
10 to 20 minutes and may wait up to 4 minutes at a station; its windows are made for the way over the lines, so it has walks.
All numbers are drawn from the seed, so the same words always write the same tables. FOLDER gets net/ with its five tables,
bids.csv and stops.csv.
"""
import sys

import demo

SHORTEST, LONGEST = 4, 9


def extra(kind):
    """What a type takes longer than the fastest one on each section, in minutes."""
    return 2 * kind


def lines(draws, stations, tracks):
    """For each station but the first the one that it hangs on, and all sections as (from, to, minutes)."""
    before = [None] + [i - 1 if draws.draw(4) else draws.draw(i) for i in range(1, stations)]
    sections = [(before[i], i, 4 + draws.draw(5)) for i in range(1, stations)]
    while len(sections) < (tracks + 1) // 2:
        a, b = draws.draw(stations), draws.draw(stations)
        if a != b:
            sections.append((a, b, 10 + draws.draw(20)))
    ways = [way for a, b, minutes in sections for way in ((a, b, minutes), (b, a, minutes))]
    return before, ways[:tracks]


def write_network(folder, stations, ways, types):
    demo.write(f"{folder}/stations.csv", ["station"] + [f"S{i}" for i in range(1, stations + 1)])
    demo.write(f"{folder}/tracks.csv", ["track,from,to"] + [f"T{t},S{a + 1},S{b + 1}" for t, (a, b, _) in enumerate(ways, start=1)])
    demo.write(f"{folder}/types.csv", ["type"] + [f"c{kind}" for kind in range(1, types + 1)])
    running, headways = [], []
    for t, (_, _, minutes) in enumerate(ways, start=1):
        for kind in range(types):
            r = minutes + extra(kind)
            running.append(f"T{t},c{kind + 1},{r},{r + 1},{r + 1},{r + 2}")
            headways += [f"T{t},c{kind + 1},c{other + 1},{3 + max(extra(kind) - extra(other), 0)}" for other in range(types)]
    demo.write(f"{folder}/running.csv", ["track,type,pass_pass,pass_halt,halt_pass,halt_halt"] + running)
    demo.write(f"{folder}/headways.csv", ["track,first,second,minutes"] + headways)


def way_between(before, origin, destination):
    """The stations from one to another along the lines."""
    def to_first(station):
        way = [station]
        while before[way[-1]] is not None:
            way.append(before[way[-1]])
        return way

    there, back = to_first(origin), to_first(destination)
    while len(there) > 1 and len(back) > 1 and there[-2] == back[-2]:
        there.pop()
        back.pop()
    return there + back[-2::-1]


def drawn_way(draws, before):
    """The stations of a bid, as many as it may have, or fewer where the lines are too short."""
    longest = []
    for _ in range(1000):
        way = way_between(before, draws.draw(len(before)), draws.draw(len(before)))
        if SHORTEST <= len(way) - 1 <= LONGEST:
            return way
        if len(longest) < len(way) <= LONGEST:
            longest = way
    return longest


def bid(draws, before, minutes, types, number):
    """One bid, and its stops: the windows lie about the quickest walk along its way."""
    way, kind = drawn_way(draws, before), draws.draw(types)
    length = len(way) - 1
    between = list(range(1, length))
    while len(between) > 2 + draws.draw(3):
        between.pop(draws.draw(len(between)))
    depart, around = 60 + draws.draw(240), 5 + draws.draw(6)
    run = sum(minutes[a, b] + extra(kind) for a, b in zip(way, way[1:]))
    arrive = depart + run + 2 + 3 * len(between)
    fields = [f"b{number}", f"R{1 + draws.draw(10)}", f"c{kind + 1}", f"S{way[0] + 1}", f"S{way[-1] + 1}",
              depart - around, depart, depart + around, arrive - around, arrive, arrive + around,
              2000 + 500 * length + draws.draw(2000), 20, 30, 10, 40, 5, 15, 1 + draws.draw(4)]
    stops = [f"b{number},S{way[place] + 1},1,3,0,2879" for place in between]
    return ",".join(map(str, fields)), stops


def main(stations, tracks, types, bids, seed, folder):
    if stations < 2 or tracks < 2 * (stations - 1):
        sys.exit("network.py: at least 2 stations and 2 * (STATIONS - 1) tracks")
    draws = demo.Draws(seed)
    before, ways = lines(draws, stations, tracks)
    write_network(f"{folder}/net", stations, ways, types)
    minutes = {(a, b): m for a, b, m in reversed(ways)}
    made = [bid(draws, before, minutes, types, number) for number in range(1, bids + 1)]
    demo.write(f"{folder}/bids.csv", [demo.BIDS] + [line for line, _ in made])
    demo.write(f"{folder}/stops.csv", [demo.STOPS] + [stop for _, stops in made for stop in stops])


if __name__ == "__main__":
    if len(sys.argv) != 7:
        sys.exit(__doc__)
    main(*map(int, sys.argv[1:6]), sys.argv[6])
