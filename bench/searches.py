#!/usr/bin/env python3
"""Counts what a plan searches: python3 bench/searches.py PROGRAM [FOLDER]

PROGRAM is a built optra with its symbols, as the build leaves it in crates/optra/out; gdb must be at hand. FOLDER has the
tables that bench/plans.sh makes (/tmp/optra-plans if none is given). For each case below a line tells how many arcs the
graphs of its bids have, counted from the tables by the rules alone (bench/plain.py); how many sets of prices were tried;
how many searches of a bid's graph were made, those at a new node and those of the first tables included; and how many were
skipped: a set of prices that is tried asks each bid for its reply, and a bid is searched only where one of its prices
changed. Run by hand; the gate does not run it.
"""
import re
import subprocess
import sys

import plain

CASES = [("demo3", 20, 5), ("demo6", 20, 5), ("demo9", 20, 5), ("demo3", 40, 200), ("large", 40, 1), ("large", 40, 20)]
SEARCH = "optra_prices::searching::search_bid"
SETTLE = "optra_prices::sessions::settle"


def arcs_of(net, bid):
    """How many arcs the graph of a bid has: a start for each minute, and each leg that lies on a walk."""
    ending = {None: True}
    starts = [(bid.origin, minute, True, 0) for minute in range(bid.depart[0], bid.depart[2] + 1)]
    waiting = list(starts)
    after = {}
    while waiting:
        state = waiting[-1]
        if state in ending:
            waiting.pop()
            continue
        if state not in after:
            late = state[1] >= bid.arrive[2]
            after[state] = [] if late else [then for _, then in plain.next_legs(net, bid, state)]
        open_states = [then for then in set(after[state]) if then not in ending]
        if open_states:
            waiting += open_states
        else:
            ending[state] = any(ending[then] for then in after[state])
            waiting.pop()
    seen, waiting = set(), [state for state in starts if ending[state]]
    count = len(waiting)
    while waiting:
        state = waiting.pop()
        if state in seen or state is None:
            continue
        seen.add(state)
        following = [then for then in after[state] if ending[then]]
        count += len(following)
        waiting += following
    return count


def hits(program, words, folder):
    """How often the search of a bid and the settling of all bids were called."""
    script = ["set confirm off", "set pagination off"]
    for number, name in enumerate([SEARCH, SETTLE], start=1):
        script += [f"break '{name}'", f"ignore {number} 1000000000"]
    script += ["run", "info breakpoints"]
    command = ["gdb", "-q", "-batch"] + [part for line in script for part in ("-ex", line)] + ["--args", program, *words]
    text = subprocess.run(command, capture_output=True, text=True, cwd=folder).stdout
    found = {name: 0 for name in (SEARCH, SETTLE)}
    place = None
    for line in text.splitlines():
        for name in found:
            if name in line:
                place = name
        told = re.search(r"breakpoint already hit (\d+) time", line)
        if told and place:
            found[place] = int(told.group(1))
    return found[SEARCH], found[SETTLE]


def main():
    program = sys.argv[1]
    folder = sys.argv[2] if len(sys.argv) > 2 else "/tmp/optra-plans"
    arcs = {}
    for case, steps, budget in CASES:
        place = f"{folder}/{case}"
        net = plain.read_network(f"{place}/net")
        bids = plain.read_bids(net, f"{place}/bids.csv", f"{place}/stops.csv")
        if case not in arcs:
            arcs[case] = sum(arcs_of(net, bid) for bid in bids)
        words = ["plan", "--net", "net", "--bids", "bids.csv", "--stops", "stops.csv", "--steps", str(steps), "--budget", str(budget)]
        searches, tried = hits(program, words, place)
        skipped = tried * len(bids) - (searches - len(bids))
        print(f"{case:6} steps {steps:>2} budget {budget:>3}  arcs {arcs[case]:>8}  prices tried {tried:>5}  searches {searches:>7}  "
              f"skipped {skipped:>7}", flush=True)


main()
