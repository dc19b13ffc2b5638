#!/usr/bin/env python3
"""Times the audit of the worst timetables, and compressed times of the longest ones: python3 bench/worst_audit.py PROGRAM [CASE ..]

one-minute-2000  2,000 legs on one track at one minute, so that each two of them are a clash: 2.0 million of them
one-minute-4000  the same with 4,000 legs, 8.0 million clashes
one-minute-8000  the same with 8,000 legs, as many as a timetable may have: 32.0 million clashes. Time and memory that grow with the report
                 alone are about four times those of the case before
halts            8,000 legs that stand 240 minutes in one station that has a limit of 1, spread over the two days
to-and-fro       5,754 legs on two tracks, an entry in nearly each minute of both days: more than one a minute can't be on a track without
                 a clash. No fault; audited and compressed
ring             8,000 legs on three tracks, the same
line             8,000 legs on eight tracks, each train two minutes behind another one where one would do; the same

Of each it prints the user and system seconds (the least of three turns, of one where the output has 100 MB), the peak memory, and bytes and
records of the output, and ends with status 1 where the answer isn't the one that it has to be.
"""
import argparse
import os
import subprocess
import sys
import tempfile
from collections import namedtuple

import demo
import reader
import timetables

MOST_BIDS, MOST_LEGS, MINUTES = 1000, 8000, 2880
LONG, TURNS = 100_000_000, 3
WORDS = ["--net", "net", "--bids", "bids.csv", "--stops", "stops.csv", "--times", "times.csv"]

# What was printed: seconds, the peak in kilobytes, bytes, records, the first and the last 100 bytes, and the status.
Measured = namedtuple("Measured", "seconds peak size count first last status")


# Running

def turn(program, command, folder):
    process = subprocess.Popen([program, command, *WORDS], cwd=folder, stdout=subprocess.PIPE, stderr=subprocess.DEVNULL)
    size, count, first, last = 0, 0, b"", b""
    while True:
        piece = process.stdout.read(1 << 20)
        if not piece:
            break
        size, count, first, last = size + len(piece), count + piece.count(b"\n"), first or piece[:100], (last + piece)[-100:]
    process.stdout.close()
    _, status, use = os.wait4(process.pid, 0)
    return Measured(use.ru_utime + use.ru_stime, use.ru_maxrss, size, count, first.decode(), last.decode(), os.waitstatus_to_exitcode(status))


def measured(program, command, folder):
    best = turn(program, command, folder)
    for _ in range(TURNS - 1 if best.size < LONG else 0):
        again = turn(program, command, folder)
        best = best._replace(seconds=min(best.seconds, again.seconds), peak=max(best.peak, again.peak))
    return best


def told(name, command, found, wanted):
    """Prints what was measured; whether the answer is as it has to be."""
    is_right = wanted(found)
    print("%-16s %-8s %8.2f s %8.0f MB %12d bytes %10d records%s"
          % (name, command, found.seconds, found.peak / 1024, found.size, found.count, "" if is_right else "  WRONG"), flush=True)
    if not is_right:
        print(f"status {found.status}\n{found.first}\n..\n{found.last}")
    return is_right


# Timetables

def write(folder, stations, tracks, bids, lines, limit=None):
    """Tables of one type, which takes a minute on each track and has a headway of a minute; with a limit of all stations where it is given."""
    header, rest = ("station", "") if limit is None else ("station,halt_max", f",{limit}")
    tables = {"net/stations": [header] + [station + rest for station in stations], "net/types": ["type", "x"],
              "net/tracks": [reader.HEADERS["tracks"]] + [f"{name},{tail},{head}" for name, tail, head in tracks],
              "net/running": [reader.HEADERS["running"]] + [f"{name},x,1,1,1,1" for name, _, _ in tracks],
              "net/headways": [reader.HEADERS["headways"]] + [f"{name},x,x,1" for name, _, _ in tracks],
              "net/crossings": [reader.HEADERS["crossings"]],
              "bids": [demo.BIDS] + [f"b{k},ann,x,{tail},{head},0,0,2879,0,0,2879,1000,0,0,0,0,0,0,0" for k, (tail, head) in enumerate(bids)],
              "stops": [demo.STOPS], "times": [timetables.HEADER, *lines]}
    for name, rows in tables.items():
        demo.write(f"{folder}/{name}.csv", rows)


def one_minute(folder, count):
    """So many legs at one minute, eight of each bid; each bid's legs have a Place and, but for the last, an Early."""
    write(folder, ["A", "B"], [("ab", "A", "B")], [("A", "B")] * MOST_BIDS, [f"b{k * MOST_BIDS // MOST_LEGS},ab,0,halt,finish,0"
                                                                             for k in range(count)])
    trains, clashes = count * MOST_BIDS // MOST_LEGS, count * (count - 1) // 2
    faults = clashes + 2 * (count - trains)
    return {"audit": lambda found: found.status == 1 and found.count == faults + 1 and found.last.endswith(f"\nfaults,{faults}\n")}


def halts(folder):
    """Each leg stands for 240 minutes where one may stand; the departures are spread over the two days."""
    write(folder, ["A", "B"], [("ab", "A", "B")], [("A", "B")] * MOST_BIDS,
          [f"b{k * MOST_BIDS // MOST_LEGS},ab,{k * MINUTES // MOST_LEGS},halt,halt,240" for k in range(MOST_LEGS)], limit=1)
    return {"audit": lambda found: found.status == 1 and found.count > MINUTES - 3 and "\nhalts,B,2879,667,1\n" in found.last}


def ring(folder, stations, legs, is_apart):
    """Trains of so many legs around a ring, which together enter each track in nearly every minute."""
    names = "ABCDEFGH"[:stations]
    tracks = [(f"t{place}", names[place], names[(place + 1) % stations]) for place in range(stations)]
    bids, lines = [], []
    for phase in range(stations):
        minute = 0
        while minute + legs < MINUTES and len(bids) < MOST_BIDS:
            first = (minute - phase) % stations
            bids.append((names[first], names[(first + legs) % stations]))
            lines += leg_lines(len(bids) - 1, [tracks[(first + place) % stations][0] for place in range(legs)], minute)
            minute += legs + (len(bids) % 2 if is_apart else 0)
    write(folder, names, tracks, bids, lines)
    return without_fault(lines, bids)


def leg_lines(bid, tracks, minute):
    """The lines of a train that passes from track to track, a minute each."""
    last = len(tracks) - 1
    return [f"b{bid},{track},{minute + place},{'halt' if place == 0 else 'pass'},{'finish' if place == last else 'pass'},0"
            for place, track in enumerate(tracks)]


def line(folder):
    names = "ABCDEFGHI"
    tracks = [(f"t{place}", tail, head) for place, (tail, head) in enumerate(zip(names, names[1:]))]
    lines = [text for k in range(MOST_BIDS) for text in leg_lines(k, [name for name, _, _ in tracks], 2 * k)]
    write(folder, names, tracks, [("A", "I")] * MOST_BIDS, lines)
    answers = without_fault(lines, [None] * MOST_BIDS)
    return {**answers, "compress": lambda found: found.first.startswith("before,2006\nafter,1007\n") and answers["compress"](found)}


def without_fault(lines, bids):
    return {"audit": lambda found: (found.status, found.last) == (0, f"faults,0\nrevenue,{1000 * len(bids)}\n"),
            "compress": lambda found: found.status == 0 and found.count == 2 + len(lines) + 2 * len(bids)}


CASES = {"one-minute-2000": lambda folder: one_minute(folder, 2000), "one-minute-4000": lambda folder: one_minute(folder, 4000),
         "one-minute-8000": lambda folder: one_minute(folder, 8000), "halts": halts, "to-and-fro": lambda folder: ring(folder, 2, 7, False),
         "ring": lambda folder: ring(folder, 3, 8, True), "line": line}


def main(program, names):
    is_right = True
    for name in names or CASES:
        with tempfile.TemporaryDirectory(prefix="optra-worst-") as folder:
            for command, wanted in CASES[name](folder).items():
                is_right = told(name, command, measured(program, command, folder), wanted) and is_right
    return 0 if is_right else 1


if __name__ == "__main__":
    words = argparse.ArgumentParser(description=__doc__, formatter_class=argparse.RawDescriptionHelpFormatter)
    words.add_argument("program")
    words.add_argument("cases", nargs="*", metavar="CASE")
    given = words.parse_args()
    if not set(given.cases) <= set(CASES):
        words.error(f"a case is one of {', '.join(CASES)}")
    sys.exit(main(os.path.realpath(given.program), given.cases))
