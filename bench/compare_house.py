#!/usr/bin/env python3
"""Compares houses with auctions on random small ones: python3 bench/compare_house.py PROGRAM [COUNT] [SEED]

Makes COUNT auctions (200 if none is given) from SEED (1 if none is given), as bench/compare_auctions.py does. Each is played by one
`auction`, and by a `house` on a new journal that is run once for each round until the auction is closed, and once more. What the
rounds printed, one after the other, must be the auction's text but for `graphs`, of which each run counts its own, and for late
actions: an auction prints those of the rounds behind the last one, and a house prints these too at its last round and in the run
behind it. Statuses must be those of the rounds, and bench/journal.py must find a stamp and the rounds in the journal. At the first
difference it prints both, keeps the folder, and ends with status 1.
"""
import os
import random
import shutil
import subprocess
import sys
import tempfile
from collections import Counter

import compare_auctions
import journal

TABLES = compare_auctions.AUCTION[1:]
HOUSE = ["house", *TABLES, "--journal", "j"]
MOST_RUNS = 200


def ran(program, words, folder):
    """The text and the status; a line on `err` counts as text."""
    done = subprocess.run([program, *words], cwd=folder, capture_output=True, text=True)
    return done.stdout + done.stderr, done.returncode


def without_graphs(text):
    return [line for line in text.splitlines() if not line.startswith("graphs,")]


def graphs_of(text):
    return [int(line.split(",")[1]) for line in text.splitlines() if line.startswith("graphs,")]


def round_status(text):
    """1 where the bound of a round isn't its revenue, else 0."""
    numbers = dict(line.split(",")[:2] for line in text.splitlines() if line.startswith(("revenue,", "bound,")))
    return int(numbers.get("revenue") != numbers.get("bound"))


def close_of(text):
    """The records from `closed` on."""
    lines = text.splitlines()
    return next((lines[at:] for at, line in enumerate(lines) if line.startswith("closed,")), None)


def played(program, folder):
    """The texts and statuses of the runs up to the close."""
    runs = []
    while len(runs) < MOST_RUNS:
        runs.append(ran(program, HOUSE, folder))
        if runs[-1][1] > 1 or close_of(runs[-1][0]):
            break
    return runs


def fault_of_journal(folder, rounds):
    """What is wrong with the journal, or None."""
    with open(f"{folder}/j", "rb") as file:
        bytes_of = file.read()
    try:
        found = journal.read_journal(bytes_of)
        journal.check_stamp(found, journal.Stamp(*(journal.read(f"{folder}/{name}.csv") for name in journal.Stamp._fields)))
    except journal.NoJournal as fault:
        return f"the journal: {fault}"
    if len(found.entries) != rounds + 1 or found.last_gate != len(bytes_of) - 1:
        return f"the journal has {len(found.entries)} entries and {len(bytes_of)} bytes"
    return None


def difference(program, folder, seen):
    """What differs, or None."""
    text, status = ran(program, compare_auctions.AUCTION, folder)
    runs = played(program, folder)
    printed = [line for out, _ in runs for line in without_graphs(out)]
    if printed != without_graphs(text):
        return "the rounds", text, "".join(out for out, _ in runs)
    if [status for _, status in runs] != [round_status(out) for out, _ in runs] or max(status for _, status in runs) != status:
        return "the statuses", str(status), str([status for _, status in runs])
    again = ran(program, HOUSE, folder)
    if again != ("".join(f"{line}\n" for line in close_of(text)), 0):
        return "the run behind the close", "\n".join(close_of(text)), f"{again[0]}{again[1]}"
    wrong = fault_of_journal(folder, len(runs))
    if wrong:
        return wrong, "", ""
    seen.update({"rounds": len(runs), "gap" if status else "optimal": 1})
    seen["late actions"] += sum(line.endswith(",A9") for line in close_of(text))
    seen["runs with graphs of their own"] += sum(a != b for a, b in zip(graphs_of(text), [g for out, _ in runs for g in graphs_of(out)]))
    return None


def main(program, count, seed):
    program, folder, seen = os.path.realpath(program), tempfile.mkdtemp(prefix="optra-houses-"), Counter()
    for case in range(count):
        if os.path.exists(f"{folder}/j"):
            os.remove(f"{folder}/j")
        compare_auctions.random_case(random.Random(f"{seed} {case}"), case, folder)
        found = difference(program, folder, seen)
        if found:
            print(f"case {case} of seed {seed} in {folder}: {found[0]}\n-- auction\n{found[1]}\n-- house\n{found[2]}")
            return 1
    shutil.rmtree(folder)
    print(f"{count} auctions are equal: " + ", ".join(f"{name} {number}" for name, number in sorted(seen.items())))
    return 0


if __name__ == "__main__":
    if not 2 <= len(sys.argv) <= 4 or sys.argv[1] in ("-h", "--help"):
        print(__doc__)
        sys.exit(0 if "--help" in sys.argv or "-h" in sys.argv else 2)
    sys.setrecursionlimit(20_000)
    sys.exit(main(sys.argv[1], int((sys.argv[2:] or ["200"])[0]), int((sys.argv[3:] or ["1"])[0])))
