#!/usr/bin/env python3
"""Writes the tables of the corridor anew from its distances and speeds: python3 examples/corridor/make.py

The numbers are ours: a main line of twelve stations with a track each way, and a branch of three more on a single track. A train needs
its distance at the speed of its type, rounded up to whole minutes, and more where it has to brake for a stop or to start from one. The
bids stand in this file as an operator would write them.
"""
import math
import os

HERE = os.path.dirname(os.path.abspath(__file__))

# Kilometres from the first station of each line. The branch leaves the main line at Junction.
MAIN = [("Seaport", 0), ("Dunes", 7), ("Marsh", 15), ("Kirkby", 23), ("Junction", 31), ("Weir", 39), ("Aldbury", 47), ("Forest", 57),
        ("Lakeside", 66), ("Upton", 74), ("Brook", 83), ("Capital", 92)]
BRANCH = [("Junction", 0), ("Quarry", 9), ("Glen", 17), ("Mine", 24)]

# How many trains may stand at a small station at once; the others have no limit.
PLACES = {"Dunes": 1, "Marsh": 2, "Kirkby": 2, "Weir": 1, "Aldbury": 2, "Forest": 1, "Upton": 2, "Brook": 1, "Quarry": 2, "Glen": 1}

# Kilometres an hour, and the minutes that starting from a stop and braking for one take.
TYPES = {"fast": (140, 1, 1), "regional": (100, 1, 1), "freight": (80, 2, 2)}

# The types that may use the tracks of a line.
ON_MAIN, ON_BRANCH = list(TYPES), ["regional", "freight"]

# The least minutes between two trains on a track, before the second one's being faster is added.
APART = 3

# The minutes that setting the route takes on the single track, behind a train and before the next one in the other direction.
ROUTE = 1


def sections():
    """Each track with its ends, its kilometres and the types that may use it."""
    for line, kinds in ((MAIN, ON_MAIN), (BRANCH, ON_BRANCH)):
        for (a, at), (b, to) in zip(line, line[1:]):
            yield f"{a}-{b}", a, b, to - at, kinds
            yield f"{b}-{a}", b, a, to - at, kinds


def pure(kind, km):
    return math.ceil(km * 60 / TYPES[kind][0])


def running(kind, km):
    """Passing both ends, stopping at the head, starting at the tail, and both."""
    _, start, brake = TYPES[kind]
    run = pure(kind, km)
    return [run, run + brake, run + start, run + start + brake]


def headway(first, second, km):
    """A faster train behind a slower one has to start later, so that it doesn't catch up on the track."""
    return APART + max(0, pure(first, km) - pure(second, km))


def crossing(first, km):
    """Whatever comes the other way on a single track starts when the first train is off it, at its slowest, and the route is set."""
    return running(first, km)[3] + ROUTE


def write(name, lines):
    path = os.path.join(HERE, name)
    os.makedirs(os.path.dirname(path), exist_ok=True)
    with open(path, "w") as file:
        file.write("".join(line + "\n" for line in lines))


def network():
    stations = [name for name, _ in MAIN] + [name for name, _ in BRANCH[1:]]
    write("net/stations.csv", ["station,halt_max"] + [f"{name},{PLACES.get(name, 0)}" for name in stations])
    write("net/types.csv", ["type", *TYPES])
    write("net/tracks.csv", ["track,from,to"] + [f"{track},{a},{b}" for track, a, b, _, _ in sections()])
    write("net/running.csv", ["track,type,pass_pass,pass_halt,halt_pass,halt_halt"]
          + [",".join(map(str, [track, kind, *running(kind, km)])) for track, _, _, km, kinds in sections() for kind in kinds])
    write("net/headways.csv", ["track,first,second,minutes"]
          + [f"{track},{first},{second},{headway(first, second, km)}" for track, _, _, km, kinds in sections()
             for first in kinds for second in kinds])
    write("net/crossings.csv", ["first_track,second_track,first,second,minutes"]
          + [f"{a}-{b},{b}-{a},{first},{second},{crossing(first, km)}" for track, a, b, km, _ in sections() if is_single(a, b)
             for first in ON_BRANCH for second in ON_BRANCH])


def is_single(a, b):
    """Whether the two tracks between the stations are one single track."""
    return {a, b} <= {name for name, _ in BRANCH}


def way(origin, destination):
    """The kilometres of each track from a station to another."""
    ends = {a: {} for _, a, *_ in sections()}
    for _, a, b, km, _ in sections():
        ends[a][b] = km
    waiting, seen = [(origin, [])], {origin}
    while waiting:
        at, kms = waiting.pop(0)
        if at == destination:
            return kms
        for b, km in ends[at].items():
            if b not in seen:
                seen.add(b)
                waiting.append((b, kms + [km]))
    raise SystemExit(f"no way from {origin} to {destination}")


def ideal_arrival(kind, origin, destination, depart, stops):
    """When the train gets there that departs at its ideal and halts at each stop for its least dwell."""
    _, start, brake = TYPES[kind]
    return depart + sum(pure(kind, km) for km in way(origin, destination)) + start + brake + sum(
        start + brake + dwell for _, dwell, _ in stops)


# Name, operator, type, from, to, ideal departure, minutes that it may be early and late, base in cents, and the stops: a station with
# its least and its greatest dwell. Minute 360 is six in the morning.
BIDS = [
    ("IC1", "Swift", "fast", "Seaport", "Capital", 360, 3, 5, 90000, [("Junction", 2, 8), ("Lakeside", 2, 3)]),
    ("IC2", "Swift", "fast", "Capital", "Seaport", 365, 3, 5, 90000, [("Lakeside", 2, 3), ("Junction", 2, 3)]),
    ("IC3", "Swift", "fast", "Seaport", "Capital", 420, 3, 5, 90000, [("Junction", 2, 3), ("Lakeside", 2, 3)]),
    ("IC4", "Swift", "fast", "Capital", "Seaport", 425, 3, 5, 90000, [("Lakeside", 2, 3), ("Junction", 2, 3)]),
    ("IC5", "Swift", "fast", "Seaport", "Capital", 480, 3, 5, 90000, [("Junction", 2, 3), ("Lakeside", 2, 3)]),
    ("IC6", "Swift", "fast", "Capital", "Seaport", 485, 3, 5, 90000, [("Lakeside", 2, 3), ("Junction", 2, 3)]),
    ("EX1", "Comet", "fast", "Seaport", "Capital", 361, 0, 0, 60000, []),
    ("EX2", "Comet", "fast", "Capital", "Seaport", 452, 1, 5, 60000, []),
    ("EX3", "Comet", "fast", "Seaport", "Capital", 454, 3, 6, 60000, []),
    ("EX4", "Comet", "fast", "Capital", "Seaport", 500, 3, 6, 60000, []),
    ("R1", "Coastline", "regional", "Seaport", "Junction", 367, 3, 6, 30000, [("Marsh", 1, 2), ("Kirkby", 1, 2)]),
    ("R2", "Coastline", "regional", "Junction", "Seaport", 370, 3, 6, 30000, [("Kirkby", 1, 2), ("Marsh", 1, 2)]),
    ("R3", "Coastline", "regional", "Seaport", "Junction", 400, 3, 6, 30000, [("Marsh", 1, 2), ("Kirkby", 1, 2)]),
    ("R4", "Coastline", "regional", "Junction", "Seaport", 411, 3, 6, 30000, [("Kirkby", 1, 2), ("Marsh", 1, 2)]),
    ("R5", "Coastline", "regional", "Seaport", "Junction", 427, 3, 6, 30000, [("Marsh", 1, 2), ("Kirkby", 1, 2)]),
    ("R6", "Coastline", "regional", "Junction", "Seaport", 430, 3, 6, 30000, [("Kirkby", 1, 2), ("Marsh", 1, 2)]),
    ("R7", "Coastline", "regional", "Seaport", "Junction", 460, 3, 6, 30000, [("Marsh", 1, 2), ("Kirkby", 1, 2)]),
    ("R8", "Coastline", "regional", "Junction", "Seaport", 442, 3, 6, 30000, [("Kirkby", 1, 2), ("Marsh", 1, 2)]),
    ("R11", "Coastline", "regional", "Junction", "Capital", 385, 3, 8, 40000, [("Aldbury", 1, 2), ("Lakeside", 1, 2), ("Upton", 1, 2)]),
    ("R12", "Coastline", "regional", "Capital", "Junction", 370, 3, 8, 40000, [("Upton", 1, 2), ("Lakeside", 1, 2), ("Aldbury", 1, 2)]),
    ("R13", "Coastline", "regional", "Junction", "Capital", 445, 3, 8, 40000, [("Aldbury", 1, 2), ("Lakeside", 1, 2), ("Upton", 1, 2)]),
    ("R14", "Coastline", "regional", "Capital", "Junction", 430, 3, 8, 40000, [("Upton", 1, 2), ("Lakeside", 1, 2), ("Aldbury", 1, 2)]),
    ("F1", "Orehaul", "freight", "Seaport", "Capital", 392, 0, 0, 50000, [("Kirkby", 0, 1)]),
    ("F2", "Northfreight", "freight", "Seaport", "Capital", 392, 0, 0, 52000, [("Kirkby", 0, 1)]),
    ("F3", "Northfreight", "freight", "Capital", "Seaport", 396, 2, 6, 45000, [("Aldbury", 0, 20)]),
    ("F4", "Northfreight", "freight", "Lakeside", "Seaport", 470, 2, 6, 30000, [("Junction", 0, 1)]),
    ("F5", "Northfreight", "freight", "Seaport", "Lakeside", 488, 2, 6, 30000, [("Kirkby", 0, 1)]),
    ("B1", "Coastline", "regional", "Junction", "Mine", 365, 0, 0, 20000, [("Quarry", 1, 4), ("Glen", 1, 1)]),
    ("B2", "Coastline", "regional", "Mine", "Junction", 360, 2, 2, 20000, [("Glen", 1, 1), ("Quarry", 1, 4)]),
    ("B3", "Coastline", "regional", "Junction", "Mine", 435, 0, 0, 22000, [("Quarry", 1, 1), ("Glen", 1, 1)]),
    ("B4", "Coastline", "regional", "Mine", "Junction", 444, 0, 0, 20000, [("Glen", 1, 1), ("Quarry", 1, 1)]),
    ("V1", "Coastline", "regional", "Mine", "Capital", 391, 1, 3, 45000, [("Junction", 2, 3), ("Aldbury", 1, 2)]),
    ("O1", "Orehaul", "freight", "Mine", "Seaport", 466, 2, 6, 35000, [("Junction", 2, 3)]),
    ("O2", "Orehaul", "freight", "Seaport", "Mine", 380, 2, 6, 35000, [("Junction", 3, 12)]),
]

HEADER = ("bid,bidder,type,origin,destination,depart_from,depart_ideal,depart_to,arrive_from,arrive_ideal,arrive_to,base,early_depart,"
          "late_depart,early_arrive,late_arrive,travel,wait,wait_max")

# Cents for each minute: early and late at the departure and at the arrival, under way, and waiting.
RATES = {"fast": (400, 400, 100, 600, 50, 300), "regional": (200, 200, 50, 300, 20, 100), "freight": (60, 60, 0, 60, 10, 20)}
WAIT_MAX = {"fast": 0, "regional": 0, "freight": 0}


def bids():
    rows, stops = [HEADER], ["bid,station,min_dwell,max_dwell,arrive_from,arrive_to"]
    for name, operator, kind, origin, destination, depart, early, late, base, halts in BIDS:
        arrive = ideal_arrival(kind, origin, destination, depart, halts)
        rows.append(",".join(map(str, [name, operator, kind, origin, destination, depart - early, depart, depart + late,
                                       arrive - early, arrive, arrive + late + 15, base, *RATES[kind], WAIT_MAX[kind]])))
        stops += [f"{name},{station},{least},{most},0,2879" for station, least, most in halts]
    write("bids.csv", rows)
    write("stops.csv", stops)


# What the operators do in the rounds after the first, in which each of them opens a bid on each specification of its own, at its reserve.
LATER = [
    (2, "Orehaul", "raise", "F1", "", 54000),
    (2, "Orehaul", "raise", "F1", "", 56000),
    (2, "Northfreight", "raise", "F2", "", 60000),
    (2, "Comet", "amend", "EX1", "EX3", ""),
    (2, "Orehaul", "raise", "F2", "", 70000),
    (3, "Northfreight", "raise", "F2", "", 58800),
    (3, "Orehaul", "raise", "F1", "", 60000),
]


def auction():
    write("rules.csv", ["min_increment,permille,rounds", "500,50,3"])
    opened = [(1, operator, "open", name, name, base) for name, operator, *_, base, _ in BIDS]
    write("actions.csv", ["round,bidder,action,bid,spec,amount"] + [",".join(map(str, action)) for action in opened + LATER])


if __name__ == "__main__":
    network()
    bids()
    auction()
