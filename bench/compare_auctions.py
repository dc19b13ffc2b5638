#!/usr/bin/env python3
"""Compares a built optra with the plain auction on random small ones: python3 bench/compare_auctions.py PROGRAM [COUNT] [SEED]

Makes COUNT auctions (200 if none is given) from SEED (1 if none is given) over the networks and bids of bench/compare.py, plays
each by PROGRAM and by bench/auction.py, and compares text and status; with --certs also the bids, stops and certificate of each
round, as PROGRAM checks them. At the first difference it prints both, keeps the folder of the tables, and ends with status 1. At
the end it tells how many rounds there were, and how often each answer to an action came.
"""
import os
import random
import shutil
import subprocess
import sys
import tempfile
from collections import Counter

import auction
import compare
import demo
import plain

ACTIONS = "round,bidder,action,bid,spec,amount"
RULES = "min_increment,permille,rounds"
AUCTION = ["auction", "--net", "net", "--bids", "bids.csv", "--stops", "stops.csv", "--rules", "rules.csv", "--actions",
           "actions.csv"]


def random_rules(draws):
    return auction.Rules(draws.choice([1, 20, 500]), draws.choice([0, 1, 33, 50, 1000]), draws.choice([1, 2, 3, 6, 100]))


def random_action(draws, specs, rules, state):
    """An action on what stands, near the edges of what is accepted."""
    names, bidders = ["u", "v", "w", "x"], ["ann", "bob"]
    mine = draws.choice(state.standing) if state.standing and draws.random() < 0.8 else None
    spec = draws.choice(specs) if draws.random() < 0.9 else None
    kind = draws.choice(["open", "open", "raise", "raise", "amend", "withdraw"]) if mine else "open"
    amount = (spec.base if spec else 5) + draws.choice([-1, 0, 0, 100, 1000])
    if kind == "raise":
        amount = mine.amount + auction.least_raise(rules, mine.amount) + draws.choice([-1, 0, 0, 300])
    name = mine.name if mine and (kind != "open" or draws.random() < 0.2) else draws.choice(names)
    bidder = mine.bidder if mine and draws.random() < 0.85 else draws.choice(bidders)
    unread = draws.choice(["", "?", "s 1"])
    return auction.Action(0, state.round, bidder, kind, name, (spec.name if spec else "none") if kind in ("open", "amend") else unread,
                          max(0, amount) if kind in ("open", "raise") else unread)


def random_actions(draws, net, specs, rules):
    """Actions drawn round after round, each round with what its plan left; some for rounds that never come."""
    state, actions = auction.State(1, [], 0, False), []
    last = draws.randint(1, 4)
    while not state.closed and state.round <= last:
        for _ in range(draws.choice([0, 1, 3, 6])):
            action = random_action(draws, specs, rules, state)
            actions.append(action)
            if not auction.refusal(specs, rules, state, action):
                state = auction.accepted(specs, state, action)
        bids = auction.planned(specs, state)
        state = auction.after_round(rules, state, plain.Planner(net, bids).plan(auction.STEPS, auction.BUDGET).choice)
    if draws.random() < 0.3:
        actions.append(random_action(draws, specs, rules, state)._replace(round=100))
    return actions


def crowded(folder, draws):
    """One specification that no train can serve, and one bid more than may stand."""
    compare.write(folder, {"net/stations": ["station", "A", "B"], "net/tracks": ["track,from,to", "ab,A,B"],
                           "net/types": ["type", "ic"], "net/headways": ["track,first,second,minutes", "ab,ic,ic,5"],
                           "net/running": ["track,type,pass_pass,pass_halt,halt_pass,halt_halt", "ab,ic,9,9,9,9"],
                           "bids": [demo.BIDS, "s,ann,ic,A,B,0,0,0,0,1,2,500,0,0,0,0,0,0,0"], "stops": [demo.STOPS],
                           "rules": [RULES, "1,0,1"],
                           "actions": [ACTIONS] + [f"1,ann,open,n{k},s,{500 + draws.randint(0, 9)}" for k in range(501)]})


def random_case(draws, case, folder):
    """Writes the tables of an auction whose specifications have few walks."""
    if case % 50 == 49:
        shutil.rmtree(folder, ignore_errors=True)
        return crowded(folder, draws)
    while True:
        net, specs = compare.random_case(draws, folder)
        if specs:
            break
    rules = random_rules(draws)
    actions = random_actions(draws, net, specs, rules)
    by_round = sorted(actions, key=lambda action: draws.random()) if draws.random() < 0.2 else actions
    compare.write(folder, {"rules": [RULES, ",".join(map(str, rules))],
                           "actions": [ACTIONS] + [",".join(map(str, action[1:])) for action in by_round]})


def certified(program, folder, state, bids, plan):
    """What is wrong with the files that were put for a round, or None."""
    prefix = f"{folder}/c{state.round}"
    read = plain.read_bids(plain.read_network(f"{folder}/net"), f"{prefix}.bids.csv", f"{prefix}.stops.csv")
    if read != bids:
        return "other bids were put"
    checked = subprocess.run([program, "check", "--net", "net", "--bids", f"c{state.round}.bids.csv", "--stops",
                              f"c{state.round}.stops.csv", "--cert", f"c{state.round}.cert.csv"], cwd=folder, capture_output=True,
                             text=True)
    want = f"verdict,yes,{plan.revenue},{plan.bound}\n"
    return None if checked.stdout == want else f"the certificate: {checked.stdout}{checked.stderr}"


def compared(program, folder, seen):
    """Whether the program's text, status and files are those of the plain auction."""
    net = plain.read_network(f"{folder}/net")
    specs = plain.read_bids(net, f"{folder}/bids.csv", f"{folder}/stops.csv")
    lines, status, rounds = auction.play(net, specs, auction.read_rules(f"{folder}/rules.csv"),
                                         auction.read_actions(f"{folder}/actions.csv"))
    text = plain.text_of(lines)
    seen.update(line[2] for line in lines if line[0] == "action")
    seen["rounds"] += len(rounds)
    seen["gap" if status else "optimal"] += 1
    ran = subprocess.run([program, *AUCTION, "--certs", "c"], cwd=folder, capture_output=True, text=True)
    wrong = None if (ran.stdout, ran.returncode, ran.stderr) == (text, status, "") else "the text"
    for state, bids, plan in rounds:
        wrong = wrong or certified(program, folder, state, bids, plan)
    if not wrong:
        return True
    print(f"differs in {folder}: {wrong}\n-- the program, status {ran.returncode}\n{ran.stdout}{ran.stderr}"
          f"-- the plain auction, status {status}\n{text}", end="")
    return False


def main(program, count, seed):
    folder, seen = tempfile.mkdtemp(prefix="optra-auctions-"), Counter()
    for case in range(count):
        random_case(random.Random(f"{seed} {case}"), case, folder)
        if not compared(os.path.realpath(program), folder, seen):
            print(f"-- case {case} of seed {seed}")
            return 1
    shutil.rmtree(folder)
    print(f"{count} auctions are equal: " + ", ".join(f"{name} {number}" for name, number in sorted(seen.items())))
    return 0


if __name__ == "__main__":
    if not 2 <= len(sys.argv) <= 4:
        sys.exit(__doc__)
    sys.setrecursionlimit(20_000)
    sys.exit(main(sys.argv[1], int((sys.argv[2:] or ["200"])[0]), int((sys.argv[3:] or ["1"])[0])))
