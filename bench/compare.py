#!/usr/bin/env python3
"""Compares a built planner with the plain one on random small tables.

    python3 bench/compare.py PROGRAM [COUNT] [SEED] [--tables VERSION]

Makes COUNT networks with bids (200 if none is given) from SEED (1 if none is given), in tables of version 1 or 2 (1 if none is
given), plans each with several --steps and --budget by PROGRAM and by bench/plain.py, and compares text, status and certificate.
At the first difference it prints both and the words, keeps the folder of the tables, and ends with status 1. At the end it tells
how many plans there were and what was in them; of version 2 also how many plans would be others without crossings, and how many
without limits.
"""
import argparse
import os
import random
import shutil
import subprocess
import sys
import tempfile
from collections import Counter

import demo
import plain

MOST_WALKS = 200


def write(folder, tables):
    for name, lines in tables.items():
        demo.write(f"{folder}/{name}.csv", lines)


def random_network(draws, version=1):
    """The tables: parallel tracks, tracks both ways, types that may not use a track, and headways of all lengths."""
    stations = ["A", "B", "C", "D"][:draws.choice([2, 2, 2, 3, 3, 4] if version == 1 else [2, 3, 3, 4])]
    types = ["x", "y", "z"][:draws.choice([1, 2, 2, 3])]
    tracks = []
    for _ in range(draws.choice([1, 1, 2, 2, 3, 4, 5])):
        ends = draws.sample(stations, 2)
        if tracks and draws.random() < 0.5:
            ends = [tracks[-1][1], tracks[-1][0]]
        tracks.append(ends)
    slow = draws.choice([2, 3, 6, 10])
    far = draws.choice([[1], [1, 2, 3], [1, 1, 4, 7], [2, 5, 9], [1, 3, 14], [4, 9, 20]])
    if draws.random() < 0.2:
        # Forth and back quickly, with headways by which a train gets in its own way.
        tracks, slow, far = [["A", "B"], ["B", "A"]], 2, [1, 3, 6, 9]
    if version == 2 and draws.random() < 0.6:
        # A line of three stations, where trains come close one after the other and halt in the middle.
        stations, far = ["A", "B", "C"], draws.choice([[1], [1, 1, 2], [1, 2, 3]])
        tracks = [["A", "B"], ["B", "C"]] + draws.choice([[], [["C", "B"], ["B", "A"]], [["A", "B"]]])
        draws.shuffle(tracks)
    running, headways = [], []
    for number in range(len(tracks)):
        users = [kind for kind in types if draws.random() < 0.9] or types[:1]
        for kind in users:
            run = draws.randint(1, slow)
            times = [run] + [run + draws.randint(0, more) for more in (2, 2, 3)]
            running.append(",".join(map(str, [f"t{number}", kind, *times])))
        for first in types:
            for second in types:
                if {first, second} <= set(users) or draws.random() < 0.3:
                    headways.append(f"t{number},{first},{second},{draws.choice(far)}")
    tables = {"net/stations": ["station", *stations],
              "net/tracks": ["track,from,to"] + [f"t{number},{a},{b}" for number, (a, b) in enumerate(tracks)],
              "net/types": ["type", *types],
              "net/running": ["track,type,pass_pass,pass_halt,halt_pass,halt_halt", *running],
              "net/headways": ["track,first,second,minutes", *headways]}
    return second_version(draws, tables) if version == 2 else tables


def second_version(draws, tables):
    """The same network in tables of version 2: with limits, and with crossings that may be longer one way than the other."""
    stations, tracks, types = (tables[f"net/{table}"] for table in ("stations", "tracks", "types"))
    limits = draws.choice([[0], [0, 1, 2], [1], [1], [1, 1, 2], [1, 1000]])
    far = draws.choice([[1, 2, 3], [2, 5, 9], [1, 3, 14], [4, 9, 20], [12], [1, 120]])
    often = draws.choice([0, 0.4, 0.9])
    names = [line.split(",")[0] for line in tracks[1:]]
    crossings = []
    for place, first in enumerate(names):
        for second in names[:place]:
            for a in types[1:]:
                for b in types[1:]:
                    if draws.random() < often:
                        crossings += [f"{first},{second},{a},{b},{draws.choice(far)}",
                                      f"{second},{first},{b},{a},{draws.choice(far)}"]
    draws.shuffle(crossings)
    return {**tables, "net/stations": ["station,halt_max"] + [f"{name},{draws.choice(limits)}" for name in stations[1:]],
            "net/crossings": ["first_track,second_track,first,second,minutes", *crossings]}


def fastest(net, kind, origin):
    """The fewest minutes from a station to each that the type can get to."""
    least, open_ends = {}, [(0, origin)]
    while open_ends:
        at, station = min(open_ends)
        open_ends.remove((at, station))
        if station not in least:
            least[station] = at
            open_ends += [(at + min(net.running[track, kind]), ends.head) for track, ends in enumerate(net.tracks)
                          if ends.tail == station and plain.may_use(net, track, kind)]
    return least


def between(net, kind, origin, destination):
    """The stations on a quick way of the type from one station to another one."""
    reached = fastest(net, kind, origin)
    most = reached.get(destination, -1) + 2
    return [station for station in reached if station not in (origin, destination)
            and reached[station] + fastest(net, kind, station).get(destination, plain.LAST_MINUTE) <= most]


def random_bid(draws, net, early, spread):
    """The fields of a bid that can get where it wants to, and its stops; None where its type gets nowhere."""
    kind = draws.randrange(len(net.types))
    origin = draws.randrange(len(net.stations))
    reached = fastest(net, kind, origin)
    ends = [station for station in reached if station != origin]
    if not ends:
        return None
    destination = draws.choice(ends)
    places = range(len(net.stations))
    far = [(a, b) for a in places for b in places if a != b and between(net, kind, a, b)] if any(net.limits) else []
    if far:
        origin, destination = draws.choice(far)
        reached = fastest(net, kind, origin)
    depart = early + draws.randint(0, spread)
    departs = sorted([depart, depart + draws.randint(0, 6), depart + draws.randint(0, 6)])
    slack = draws.choice([0, 1, 2, 4, 7, 10])
    arrive = depart + reached[destination]
    arrives = sorted(min(minute, plain.LAST_MINUTE) for minute in
                     [arrive, arrive + draws.randint(0, slack), departs[2] + reached[destination] + slack])
    base = draws.choice([0, 7, 100, 1000, 1000, 1000, draws.randint(1, 2000)])
    rates = [draws.choice([0, 0, 1, 10, draws.randint(0, 300)]) for _ in range(6)]
    fields = [net.types[kind], net.stations[origin], net.stations[destination], *departs, *arrives, base, *rates,
              draws.choice([0, 0, 1, 2, 3])]
    stops = []
    if far:
        if draws.random() < 0.8:
            least, place = draws.choice([0, 2, 5, 9]), draws.choice(between(net, kind, origin, destination))
            stops.append([net.stations[place], least, least + draws.randint(0, 1), 0, plain.LAST_MINUTE])
            fields[8] = min(arrives[2] + least + 2, plain.LAST_MINUTE)
        return fields, stops
    while draws.random() < 0.3 and len(stops) < 2:
        least = draws.randint(0, 2)
        latest = draws.choice([plain.LAST_MINUTE, arrives[2]])
        stops.append([draws.choice(net.stations), least, least + draws.randint(0, 1), 0, latest])
    return fields, stops


def bid_tables(draws, net):
    """The two tables of bids; now and then a bid is another one again."""
    early, spread, again = draws.choice([0, 0, 0, 100, 2850]), draws.choice([0, 1, 2, 4, 8]), 0.25
    if any(net.limits):
        spread, again = draws.choice([0, 1, 2]), 0.4
    made = []
    for number in range(draws.choice([1, 2, 3, 4, 5, 5])):
        bid = draws.choice(made) if made and draws.random() < again else random_bid(draws, net, early, spread)
        if bid:
            made.append(bid)
    bids = [",".join(map(str, [f"b{number}", draws.choice(["ann", "bob"]), *fields])) for number, (fields, _) in enumerate(made)]
    stops = [",".join(map(str, [f"b{number}", *stop])) for number, (_, stops) in enumerate(made) for stop in stops]
    return {"bids": [demo.BIDS, *bids], "stops": [demo.STOPS, *stops]}


def walk_count(net, bid):
    """How many walks a bid has, without a list of them."""
    known = {None: 1}

    def count(state):
        if state not in known:
            known[state] = 0 if state[1] >= bid.arrive[2] else sum(count(after) for _, after in plain.next_legs(net, bid, state))
        return known[state]

    return sum(count((bid.origin, minute, True, 0)) for minute in range(bid.depart[0], bid.depart[2] + 1))


def random_case(draws, folder, version=1):
    """Writes tables whose bids have few walks, and gives them as read back; draws again until there are some."""
    while True:
        shutil.rmtree(folder, ignore_errors=True)
        write(folder, random_network(draws, version))
        net = plain.read_network(f"{folder}/net")
        write(folder, bid_tables(draws, net))
        bids = plain.read_bids(net, f"{folder}/bids.csv", f"{folder}/stops.csv")
        counts = [walk_count(net, bid) for bid in bids]
        if max(counts, default=1) <= MOST_WALKS and (any(counts) or draws.random() < 0.1):
            return net, bids


def all_options(draws, walks):
    """The options to plan with: few steps, many nodes, many steps, and where there are few walks no options at all."""
    few = ["--steps", str(draws.randint(0, 3)), "--budget", str(draws.randint(1, 30))]
    many = ["--steps", str(draws.randint(2, 10)), "--budget", str(draws.choice([2, 5, 60]))]
    return [few, many, ["--budget", "3"]] + ([[]] if walks <= 30 else [])


ROW_KINDS = ["window", "pair", "cross", "halt"]


def tell(net, bids, plan, given, seen):
    """What is in a plan."""
    seen.update(item[0] for item in plan.items)
    kinds = {ROW_KINDS[row[0]] for item in plan.items if item[0] == "priced" for row in item[1]}
    kinds |= {ROW_KINDS[item[1][0]] for item in plan.items if item[0] == "forced"}
    seen.update(f"{kind} rows" for kind in kinds)
    seen["gap" if plan.bound > plan.revenue else "optimal"] += 1
    for what, other in [("crossings", net._replace(crossings={})), ("limits", net._replace(limits=[0] * len(net.limits)))]:
        if other != net:
            without = plain.Planner(other, bids).plan(*given)
            seen[f"others without {what}"] += plain.plan_text(net, bids, without) != plain.plan_text(net, bids, plan)


def taken(path):
    """What stands in a file, which is taken away; nothing where there is none."""
    if not os.path.exists(path):
        return ""
    with open(path, encoding="utf-8", newline="") as file:
        text = file.read()
    os.remove(path)
    return text


def compared(program, folder, net, planner, options, seen):
    """Whether the program's text, status and certificate are those of the plain planner."""
    words = dict(zip(options[::2], map(int, options[1::2])))
    given = words.get("--steps", 40), words.get("--budget", 200)
    plan = planner.plan(*given)
    text, status = plain.plan_text(net, planner.bids, plan), int(plan.bound > plan.revenue)
    cert = plain.certificate_text(net, plan)
    tell(net, planner.bids, plan, given, seen)
    words = [program, "plan", "--net", "net", "--bids", "bids.csv", "--stops", "stops.csv", *options, "--cert", "c.csv"]
    ran = subprocess.run(words, cwd=folder, capture_output=True, text=True)
    put = taken(f"{folder}/c.csv")
    if (ran.stdout, ran.returncode, ran.stderr, put) == (text, status, "", cert):
        return True
    print(f"differs in {folder}\n{' '.join(words)}\n-- the program, status {ran.returncode}\n{ran.stdout}{ran.stderr}{put}"
          f"-- the plain planner, status {status}\n{text}{cert}", end="")
    return False


def main(program, count, seed, version):
    folder, seen = tempfile.mkdtemp(prefix="optra-compare-"), Counter()
    for case in range(count):
        draws = random.Random(f"{seed} {case}")
        net, bids = random_case(draws, folder, version)
        planner = plain.Planner(net, bids)
        for options in all_options(draws, sum(map(len, planner.walks))):
            if not compared(os.path.realpath(program), folder, net, planner, options, seen):
                print(f"-- case {case} of seed {seed}")
                return 1
    shutil.rmtree(folder)
    print(f"{count} cases are equal: " + ", ".join(f"{name} {number}" for name, number in sorted(seen.items())))
    return 0


if __name__ == "__main__":
    words = argparse.ArgumentParser(description=__doc__, formatter_class=argparse.RawDescriptionHelpFormatter)
    words.add_argument("program")
    words.add_argument("count", type=int, nargs="?", default=200)
    words.add_argument("seed", type=int, nargs="?", default=1)
    words.add_argument("--tables", type=int, choices=[1, 2], default=1)
    given = words.parse_args()
    sys.exit(main(given.program, given.count, given.seed, given.tables))
