#!/usr/bin/env python3
"""Writes the demo tables with: python3 bench/demo.py SEED SIZE FOLDER

A line of 4 * SIZE stations with a track each way between neighbours, three types, and 20 * SIZE bids. All numbers are drawn
from the seed, so the tables of a seed and a size are always the same. FOLDER gets net/ with its five tables, bids.csv and
stops.csv.
"""
import os
import sys

BIDS = ("bid,bidder,type,origin,destination,depart_from,depart_ideal,depart_to,arrive_from,arrive_ideal,arrive_to,"
        "base,early_depart,late_depart,early_arrive,late_arrive,travel,wait,wait_max")
STOPS = "bid,station,min_dwell,max_dwell,arrive_from,arrive_to"
TYPES = ["ic", "re", "fr"]
EXTRA = [0, 2, 4]


class Draws:
    """The state of the draws; each moves it on and gives a number below its limit."""

    def __init__(self, seed):
        self.state = seed % 2**31

    def draw(self, limit):
        self.state = (self.state * 1103515245 + 12345) % 2**31
        return self.state // 65536 % limit


def write(path, lines):
    os.makedirs(os.path.dirname(path), exist_ok=True)
    with open(path, "w", newline="") as file:
        file.write("".join(line + "\n" for line in lines))


def network(draws, stations, folder):
    """Writes the network, and gives the running minutes of each section."""
    sections = [4 + draws.draw(5) for _ in range(stations - 1)]
    tracks = []
    for i, minutes in enumerate(sections, start=1):
        tracks += [(f"T{i}", i, i + 1, minutes), (f"U{i}", i + 1, i, minutes)]
    write(f"{folder}/stations.csv", ["station"] + [f"S{i}" for i in range(1, stations + 1)])
    write(f"{folder}/tracks.csv", ["track,from,to"] + [f"{name},S{a},S{b}" for name, a, b, _ in tracks])
    write(f"{folder}/types.csv", ["type"] + TYPES)
    running = []
    for name, _, _, minutes in tracks:
        for kind, extra in zip(TYPES, EXTRA):
            r = minutes + extra
            running.append(f"{name},{kind},{r},{r + 1},{r + 1},{r + 2}")
    write(f"{folder}/running.csv", ["track,type,pass_pass,pass_halt,halt_pass,halt_halt"] + running)
    headways = [f"{name},{a},{b},{3 + max(x - y, 0)}"
                for name, _, _, _ in tracks for a, x in zip(TYPES, EXTRA) for b, y in zip(TYPES, EXTRA)]
    write(f"{folder}/headways.csv", ["track,first,second,minutes"] + headways)
    return sections


def bid(draws, stations, sections, number):
    """One bid, and its stop where it has one."""
    bidder = f"R{1 + draws.draw(5)}"
    kind = draws.draw(3)
    back = draws.draw(2) == 1
    length = 2 + draws.draw(stations - 2)
    offset = draws.draw(stations - length)
    depart = 30 + draws.draw(180)
    base = 2000 + 500 * length + draws.draw(2000)
    ends = [f"S{offset + 1}", f"S{offset + length + 1}"]
    if back:
        ends.reverse()
    arrive = depart + 2 + sum(minutes + EXTRA[kind] for minutes in sections[offset:offset + length])
    line = (f"b{number},{bidder},{TYPES[kind]},{ends[0]},{ends[1]},{depart - 10},{depart},{depart + 10},"
            f"{arrive - 10},{arrive},{arrive + 20},{base},20,30,10,40,5,15,3")
    stop = f"b{number},S{offset + 1 + length // 2},1,3,0,2879" if length >= 4 else None
    return line, stop


def main(seed, size, folder):
    draws = Draws(seed)
    stations = 4 * size
    sections = network(draws, stations, f"{folder}/net")
    made = [bid(draws, stations, sections, number) for number in range(1, 20 * size + 1)]
    write(f"{folder}/bids.csv", [BIDS] + [line for line, _ in made])
    write(f"{folder}/stops.csv", [STOPS] + [stop for _, stop in made if stop])


if __name__ == "__main__":
    if len(sys.argv) != 4:
        sys.exit(__doc__)
    main(int(sys.argv[1]), int(sys.argv[2]), sys.argv[3])
