#!/usr/bin/env python3
"""Runs a built optra at its limits: python3 bench/limits.py PROGRAM [--memory GB] [CASE ..]

Each case below has the statuses that it may end with, and where there is one answer its line. A program may take as much memory as
GB says (12 if it isn't given), by `ulimit -v`; more is refused, and then the status has to be 8. Prints the seconds of processor time,
the peak memory and what was answered, and ends with status 1 where an answer is another one. Run by hand; the cases take minutes.

full-wide       300 stations, 1,000 tracks, 16 types, all running times and headways; 1,000 bids of 8 stops that may depart, arrive and
                stop at any minute of both days and wait 30 minutes anywhere
full-one        the same network with one such bid
full-tenth      the same network with 100 bids of 8 stops and waits of 30 minutes, each within some 200 minutes of the two days
full-narrow     the same with 1,000 such bids
crossed         the same network in version 2 without bids, every entry at the greatest reach, 4,000, and all stations with a limit
crossed-most    the same with as many crossings, of a minute each way, as a table of 268,435,456 bytes holds
certificate     a certificate of splits, 268,435,456 bytes long, whose tree never ends
certificate+1   the same and a byte more
one-record      a certificate of that length whose second record is nearly all of it
many-fields     the same, of empty fields
price-row       a certificate of that length of which the minute of a price's row is nearly all
steps           1,000 price steps at each node
nodes           10,000 nodes
steps-and-nodes both at once, on cliques of trains of which no bound but that of the whole tree is tight
"""
import argparse
import os
import resource
import shutil
import subprocess
import sys
import tempfile

import demo
import hostile
import reader
import sheets
import tables

LIMIT = 268_435_456
PLAN = ["plan", *hostile.WORDS]
CHECK = ["check", *hostile.WORDS, "--cert", "c.csv"]
HEAD = b"optra-certificate,1\nrevenue,0\nbound,0\n"


# Tables

def full(folder, bids, windows):
    """The largest network, and bids along its line of stations by windows (departure, arrival, stop) of a bid's number."""
    tables.network(f"{folder}/net", 300, 1000, 16)
    lines, stops = [], []
    for number in range(bids):
        depart, arrive, stop = windows(number)
        first = number % 290
        lines.append(f"b{number},r{number % 50},c{number % 16},S{first},S{first + 9},{depart},{arrive},100000,1,1,1,1,1,1,30")
        stops += [f"b{number},S{first + place},1,31,{stop}" for place in range(1, 9)]
    demo.write(f"{folder}/bids.csv", [demo.BIDS, *lines])
    demo.write(f"{folder}/stops.csv", [demo.STOPS, *stops])


def wide(_number):
    return "0,1000,2879", "0,2000,2879", "0,2879"


def narrow(number):
    start = number * 97 % 2600
    return f"{start},{start + 5},{start + 10}", f"{start + 90},{start + 150},{start + 200}", f"{start},{start + 200}"


def as_crossed(folder, rows):
    """The largest network in version 2, with these crossings, and no bids."""
    tables.network(f"{folder}/net", 300, 1000, 16)
    demo.write(f"{folder}/net/stations.csv", ["station,halt_max"] + [f"S{station},1000" for station in range(300)])
    with open(f"{folder}/net/crossings.csv", "w") as file:
        file.write("first_track,second_track,first,second,minutes\n")
        file.writelines(rows)
    demo.write(f"{folder}/bids.csv", [demo.BIDS])
    demo.write(f"{folder}/stops.csv", [demo.STOPS])


def both_ways(one, other, first, second, there, back):
    """A crossing in both directions."""
    yield f"T{one},T{other},c{first},c{second},{there}\n"
    yield f"T{other},T{one},c{second},c{first},{back}\n"


def greatest_reach():
    """Each track crosses one other track for 120 minutes each way, all types, and a third one for 120 and 57, each type with
    itself: 16 times 239 minutes and 176 are 4,000."""
    for start in range(0, 1000, 4):
        for one, other in ((start, start + 1), (start + 2, start + 3)):
            for first in range(16):
                for second in range(16):
                    yield from both_ways(one, other, first, second, 120, 120)
        for one, other in ((start, start + 2), (start + 1, start + 3)):
            for kind in range(16):
                yield from both_ways(one, other, kind, kind, 120, 57)


def most_crossings():
    """Crossings of a minute each way, of each track with the next ones, all types, up to the greatest length of a table."""
    left = LIMIT - 100
    for away in range(1, 125):
        for one in range(1000):
            for first in range(16):
                for second in range(16):
                    rows = list(both_ways(one, (one + away) % 1000, first, second, 1, 1))
                    left -= len(rows[0]) + len(rows[1])
                    if left < 0:
                        return
                    yield from rows


def cliques(folder, count):
    """On each of some tracks three trains of which every two are in conflict by a pair of their own."""
    kinds = ["x", "y", "z"]
    tracks = [f"t{number}" for number in range(count)]
    minutes = {("x", "y"): 4, ("y", "z"): 4, ("x", "z"): 7}
    demo.write(f"{folder}/net/tracks.csv", ["track,from,to"] + [f"{track},A,B{track}" for track in tracks])
    demo.write(f"{folder}/net/stations.csv", ["station", "A"] + [f"B{track}" for track in tracks])
    demo.write(f"{folder}/net/types.csv", ["type", *kinds])
    demo.write(f"{folder}/net/running.csv", [reader.HEADERS["running"]] + [f"{track},{kind},10,10,10,10" for track in tracks for kind in kinds])
    demo.write(f"{folder}/net/headways.csv", ["track,first,second,minutes"]
               + [f"{track},{a},{b},{minutes.get((a, b), 1)}" for track in tracks for a in kinds for b in kinds])
    demo.write(f"{folder}/bids.csv", [demo.BIDS]
               + [f"{track}{kind},ann,{kind},A,B{track},{at},{at},{at},0,{at + 10},60,1000,0,0,0,0,0,0,0"
                  for track in tracks for kind, at in zip(kinds, (0, 3, 6))])
    demo.write(f"{folder}/stops.csv", [demo.STOPS])


# Certificates of exactly the longest length, each with the row of its fault

def of_splits(folder, more=b""):
    """Splits of the leg at one minute or another, whose lengths add up to the limit, without a leaf."""
    shortest, longest = b"split,1,ab,0,halt,finish,0\n", b"split,1,ab,10,halt,finish,0\n"
    left = LIMIT - len(HEAD)
    # So many of the longest that what is left is a whole number of the shortest.
    long_ones = next(n for n in range(len(shortest)) if (left - n * len(longest)) % len(shortest) == 0)
    short_ones = (left - long_ones * len(longest)) // len(shortest)
    with open(f"{folder}/c.csv", "wb") as file:
        file.write(HEAD + longest * long_ones)
        for _ in range(short_ones // 100_000):
            file.write(shortest * 100_000)
        file.write(shortest * (short_ones % 100_000) + more)
    return 3 + long_ones + short_ones + 1


def of_one_record(folder, byte=b"1"):
    start = b"optra-certificate,1\nrevenue,"
    with open(f"{folder}/c.csv", "wb") as file:
        file.write(start + byte * (LIMIT - len(start) - 1) + b"\n")
    return 2


def of_price_row(folder):
    start, end = HEAD + b"priced,1\nprice,window,ab,", b",0\n"
    with open(f"{folder}/c.csv", "wb") as file:
        file.write(start + b"1" * (LIMIT - len(start) - len(end)) + end)
    return 5


# The cases: what makes the files, the words, and the statuses that may come or the one answer

def one_bid():
    return next(files for name, _, files in sheets.runs(["plans.sheet"]) if name == "one-bid")


def with_certificate(make, line):
    """A case that checks what `make` writes over the tables of one bid; the line may name the row of the fault."""
    def prepare(folder):
        hostile.lay(folder, one_bid())
        row = make(folder)
        return CHECK, line.replace("ROW", str(row))
    return prepare


def planned(make, *options):
    def prepare(folder):
        make(folder)
        return [*PLAN, *options], None
    return prepare


CASES = {
    "full-wide": planned(lambda folder: full(folder, 1000, wide), "--steps", "1", "--budget", "1"),
    "full-one": planned(lambda folder: full(folder, 1, wide), "--steps", "1", "--budget", "1"),
    "full-tenth": planned(lambda folder: full(folder, 100, narrow), "--steps", "5", "--budget", "3"),
    "full-narrow": planned(lambda folder: full(folder, 1000, narrow), "--steps", "5", "--budget", "3"),
    "crossed": planned(lambda folder: as_crossed(folder, greatest_reach())),
    "crossed-most": planned(lambda folder: as_crossed(folder, most_crossings())),
    "certificate": with_certificate(of_splits, "verdict,unreadable,ROW,C6"),
    "certificate+1": with_certificate(lambda folder: of_splits(folder, b"x"), "too long: c.csv"),
    "one-record": with_certificate(of_one_record, "verdict,unreadable,ROW,C5"),
    "many-fields": with_certificate(lambda folder: of_one_record(folder, b","), "verdict,unreadable,ROW,C3"),
    "price-row": with_certificate(of_price_row, "verdict,unreadable,ROW,C5"),
    "steps": planned(lambda folder: demo.main(7, 3, folder), "--steps", "1000", "--budget", "5"),
    "nodes": planned(lambda folder: cliques(folder, 12), "--steps", "5", "--budget", "10000"),
    "steps-and-nodes": planned(lambda folder: cliques(folder, 12), "--steps", "1000", "--budget", "10000"),
}
STATUS_OF = {"too": 9, "ver": 4}


def run(program, folder, words, memory):
    """The status, the first lines of what was printed, the seconds and the peak memory in megabytes."""
    def limit():
        resource.setrlimit(resource.RLIMIT_AS, (memory, memory))
    with open(f"{folder}/out", "wb") as out, open(f"{folder}/err", "wb") as err:
        process = subprocess.Popen([program, *words], cwd=folder, stdout=out, stderr=err, preexec_fn=limit)
        _, ended, use = os.wait4(process.pid, 0)
    status = os.waitstatus_to_exitcode(ended)
    text = (reader.read(f"{folder}/out") + reader.read(f"{folder}/err")).decode("utf-8", "replace")
    return status, text.split("\n")[:4], use.ru_utime + use.ru_stime, use.ru_maxrss // 1024


def main():
    words = argparse.ArgumentParser(description=__doc__, formatter_class=argparse.RawDescriptionHelpFormatter)
    words.add_argument("program")
    words.add_argument("cases", nargs="*")
    words.add_argument("--memory", type=float, default=12)
    given = words.parse_intermixed_args()
    program, wrong = os.path.realpath(given.program), 0
    for name in given.cases or CASES:
        folder = tempfile.mkdtemp(prefix="optra-limits-")
        command, line = CASES[name](folder)
        status, told, seconds, peak = run(program, folder, command, int(given.memory * 2**30))
        allowed = {0, 1, 8} if line is None else {STATUS_OF[line[:3]], 8}
        is_right = status in allowed and (line is None or status == 8 or told[0] == line)
        wrong += not is_right
        print(f"{name:16} status {status} {seconds:9.2f} s {peak:6} MB  {' '.join(told).strip()}{'' if is_right else '  WRONG'}", flush=True)
        shutil.rmtree(folder)
    return 1 if wrong else 0


if __name__ == "__main__":
    sys.exit(main())
