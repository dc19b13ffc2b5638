#!/usr/bin/env python3
"""Writes tables to measure the reading of tables with: python3 bench/tables.py FOLDER

FOLDER/full/      a network at all its limits (300 stations, 1,000 tracks, 16 types, 16,000 running rows, 256,000
                  headway rows), 1,000 bids and 8 stops for each; the stops end with a record of a bid that isn't there,
                  so that a program reads everything and then refuses the stops at row 8002 instead of planning
FOLDER/row2/      the bids are 256 MB of short records, the first of which is faulty
FOLDER/empty/     the bids are 256 MB of empty lines and then a faulty record
FOLDER/field/     the bids are one quoted field of 256 MB that never ends
FOLDER/surplus/   the stations are 256 MB of one-letter names, the second of which is taken
Each has net/ with its five tables, bids.csv and stops.csv.
"""
import os
import sys

MOST = 268_435_456
BIDS = ("bid,bidder,type,origin,destination,depart_from,depart_ideal,depart_to,arrive_from,arrive_ideal,arrive_to,"
        "base,early_depart,late_depart,early_arrive,late_arrive,travel,wait,wait_max\n")
STOPS = "bid,station,min_dwell,max_dwell,arrive_from,arrive_to\n"


def write(path, pieces):
    os.makedirs(os.path.dirname(path), exist_ok=True)
    with open(path, "wb") as file:
        for piece in pieces:
            file.write(piece.encode())


def network(folder, stations, tracks, types):
    """Stations in a row, with tracks from each to the next one and back, one after the other."""
    write(f"{folder}/stations.csv", ["station\n"] + [f"S{s}\n" for s in range(stations)])
    ends = [(s, s + 1) for s in range(stations - 1)] + [(s + 1, s) for s in range(stations - 1)]
    ends += [(s, s + 2) for s in range(stations - 2)] + [(s + 2, s) for s in range(stations - 2)]
    names = [f"T{t}" for t in range(tracks)]
    write(f"{folder}/tracks.csv", ["track,from,to\n"] + [f"{n},S{a},S{b}\n" for n, (a, b) in zip(names, ends)])
    write(f"{folder}/types.csv", ["type\n"] + [f"c{c}\n" for c in range(types)])
    write(f"{folder}/running.csv", ["track,type,pass_pass,pass_halt,halt_pass,halt_halt\n"]
          + [f"{n},c{c},10,11,11,12\n" for n in names for c in range(types)])
    write(f"{folder}/headways.csv", ["track,first,second,minutes\n"]
          + [f"{n},c{a},c{b},5\n" for n in names for a in range(types) for b in range(types)])


def filled(start, unit, rest):
    """Start, then the unit over and over up to the greatest length, then the rest."""
    yield start
    block = unit * (1 << 16)
    left = MOST - len(start) - len(rest)
    while left >= len(block):
        yield block
        left -= len(block)
    yield unit * (left // len(unit))
    yield rest


def main(folder):
    network(f"{folder}/full/net", 300, 1000, 16)
    rates = "1000,1,1,1,1,1,1,3"
    write(f"{folder}/full/bids.csv", [BIDS] + [
        f"b{n},r{n % 50},c{n % 16},S{n % 290},S{n % 290 + 9},0,10,20,0,200,2879,{rates}\n" for n in range(1000)])
    write(f"{folder}/full/stops.csv", [STOPS] + [
        f"b{n},S{n % 290 + s},1,3,0,2879\n" for n in range(1000) for s in range(1, 9)] + ["none,S1,1,3,0,2879\n"])
    for case in ["row2", "empty", "field", "surplus"]:
        network(f"{folder}/{case}/net", 2, 1, 1)
        write(f"{folder}/{case}/stops.csv", [STOPS])
        write(f"{folder}/{case}/bids.csv", [BIDS])
    write(f"{folder}/row2/bids.csv", filled(BIDS, "x\n", ""))
    write(f"{folder}/empty/bids.csv", filled(BIDS, "\n", "x\n"))
    write(f"{folder}/field/bids.csv", filled(BIDS + '"', "x", ""))
    write(f"{folder}/surplus/net/stations.csv", filled("station\n", "A\n", ""))


if __name__ == "__main__":
    if len(sys.argv) != 2:
        sys.exit(__doc__)
    main(sys.argv[1])
