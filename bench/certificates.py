#!/usr/bin/env python3
"""Times certificates: python3 bench/certificates.py PROGRAM

On the demo tables of sizes 3, 6 and 9 it plans without and with `--cert`, and checks what was put. Then it makes
certificates by hand: 100,000 splits in a row, which end too early; prices of 200 MB, without their last leaf, so that they are
read to their end and refused there; and valid ones of 2,501, 5,001 and 10,001 nodes, whose check grows with their
number. Of each it prints the user and system seconds (the least of three turns), the peak memory, and the verdict.
"""
import os
import subprocess
import sys
import tempfile

import demo

TABLES = ["--net", "net", "--bids", "bids.csv", "--stops", "stops.csv"]
CHECK = ["check", *TABLES, "--cert", "c.csv"]


def measured(program, words, place, turns=3):
    """The least seconds, the peak memory in kilobytes, and the output."""
    best, peak, out = None, 0, ""
    for _ in range(turns):
        process = subprocess.Popen([program, *words], cwd=place, stdout=subprocess.PIPE, stderr=subprocess.DEVNULL)
        out = process.stdout.read().decode()
        _, _, use = os.wait4(process.pid, 0)
        seconds = use.ru_utime + use.ru_stime
        best = seconds if best is None else min(best, seconds)
        peak = max(peak, use.ru_maxrss)
    return best, peak, out


def tell(what, result):
    seconds, peak, out = result
    last = out.strip().split("\n")[-1] if out.startswith("verdict") else out.split("\n")[0]
    print("%-40s %8.3f s %8d KB  %s" % (what, seconds, peak, last), flush=True)


def lay(place, tables):
    os.makedirs(os.path.join(place, "net"), exist_ok=True)
    for name, lines in tables.items():
        with open(os.path.join(place, name), "w") as handle:
            handle.write("\n".join(lines) + "\n")


def certificate(place, lines):
    with open(os.path.join(place, "c.csv"), "w") as handle:
        for line in lines:
            handle.write(line + "\n")
    return os.path.getsize(os.path.join(place, "c.csv"))


def splits(count):
    """Splits alone: the tree isn't whole at the end."""
    yield from ["optra-certificate,1", "revenue,0", "bound,0"]
    for _ in range(count):
        yield "split,1,T1,0,halt,finish,0"


def prices(tracks, leaves):
    """Leaves with a price on each window, each behind a split; the last leaf is missing."""
    yield from ["optra-certificate,1", "revenue,0", "bound,0"]
    rows = ["price,window,%s,%d,1999999999999" % (track, minute) for track in tracks for minute in range(2999)]
    for _ in range(leaves):
        yield "split,1,T1,0,halt,finish,0"
        yield "priced,%d" % len(rows)
        yield from rows


def nodes(count, bound):
    """A valid tree of so many splits, each on another leg that no walk has: the yes leaf is dead, and the no side goes on."""
    yield from ["optra-certificate,1", "revenue,0", "bound,%d" % bound]
    for k in range(count):
        yield "split,1,ab,%d,%s,wait,%d" % (20 + k % 2800, "halt" if k // 2800 % 2 else "pass", 31 + k // 5600)
        yield "nowalk,1"
    yield "priced,0"


ONE_TRACK = {
    "net/stations.csv": ["station", "A", "B"],
    "net/tracks.csv": ["track,from,to", "ab,A,B"],
    "net/types.csv": ["type", "ic"],
    "net/running.csv": ["track,type,pass_pass,pass_halt,halt_pass,halt_halt", "ab,ic,10,10,10,10"],
    "net/headways.csv": ["track,first,second,minutes", "ab,ic,ic,5"],
    "bids.csv": [
        "bid,bidder,type,origin,destination,depart_from,depart_ideal,depart_to,arrive_from,arrive_ideal,arrive_to,"
        "base,early_depart,late_depart,early_arrive,late_arrive,travel,wait,wait_max",
        "b1,ann,ic,A,B,0,2,10,0,12,60,1000,10,20,0,0,0,0,0",
    ],
    "stops.csv": ["bid,station,min_dwell,max_dwell,arrive_from,arrive_to"],
}


def main():
    program = os.path.abspath(sys.argv[1])
    with tempfile.TemporaryDirectory() as tmp:
        for size in (3, 6, 9):
            place = os.path.join(tmp, "demo%d" % size)
            demo.main(7, size, place)
            words = ["plan", *TABLES, "--steps", "20", "--budget", "5"]
            tell("demo 7 %d planned" % size, measured(program, words, place))
            tell("demo 7 %d planned and put" % size, measured(program, [*words, "--cert", "c.csv"], place))
            tell("demo 7 %d checked, %d bytes" % (size, os.path.getsize(os.path.join(place, "c.csv"))),
                 measured(program, CHECK, place))
        place = os.path.join(tmp, "demo9")
        long = certificate(place, splits(100000))
        tell("100,000 splits, %d bytes" % long, measured(program, CHECK, place))
        tracks = [name + str(k) for k in range(1, 36) for name in "TU"]
        long = certificate(place, prices(tracks, 27))
        tell("prices, %d bytes" % long, measured(program, CHECK, place, 1))
        place = os.path.join(tmp, "one")
        lay(place, ONE_TRACK)
        for count in (1250, 2500, 5000):
            long = certificate(place, nodes(count, 1000))
            tell("%d nodes, %d bytes" % (2 * count + 1, long), measured(program, CHECK, place))


main()
