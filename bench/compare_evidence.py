#!/usr/bin/env python3
"""Compares a built optra_evidence with bench/evidence.py, and both with the truth, on random small instances.

    python3 bench/compare_evidence.py PROGRAM [COUNT] [SEED]

Makes COUNT instances (500 if none is given) from SEED (1 if none is given), every third in tables of version 2. Each gets certificates of
five kinds: the plain planner's plans with few steps and nodes and with many, a tree and prices drawn at random with a good choice and
with a poor one, and one with no choice at all. The texts must be equal in every byte. All choices that keep the rows are
listed: what is said with a bid and without it is never below the truth, none comes only where no choice serves it, and the two
consequences hold: a bid that lost, raised by one less than its number, is in no best choice, and one that is served, lowered by one less
than its number, is in each. At the first fault it prints it, keeps the folder, and ends with status 1.
"""
import argparse
import os
import random
import shutil
import subprocess
import sys
import tempfile
from collections import Counter

import compare
import evidence
import plain
import reader

WORDS = ["--net", "net", "--bids", "bids.csv", "--stops", "stops.csv", "--cert", "c.csv"]
MOST_CHOICES = 20_000
LARGEST_PRICE = [1, 1000, 400_000, 3_000_000]


# All choices

def all_choices(planner):
    """The most that a choice earns with each bid and without it; None where none serves it, and in all where there are too many choices."""
    count = len(planner.bids)
    served, lost, seen = [None] * count, [None] * count, 0

    def visit(bid, choice, use, revenue):
        nonlocal seen
        if bid == count:
            seen += 1
            for place, walk in enumerate(choice):
                side = lost if walk is None else served
                side[place] = revenue if side[place] is None else max(side[place], revenue)
            return seen <= MOST_CHOICES
        if not visit(bid + 1, choice + [None], use, revenue):
            return False
        for walk in planner.walks[bid]:
            if planner.fits(use, walk.legs, bid):
                after = use + Counter(row for leg in walk.legs for row in planner.rows(bid, leg))
                if not visit(bid + 1, choice + [walk], after, revenue + walk.value):
                    return False
        return True

    return (served, lost) if visit(0, [], Counter(), 0) else None


# Certificates

def random_prices(draws, planner):
    """Prices on some of the rows that walks use."""
    rows = sorted({row for bid, walks in enumerate(planner.walks) for walk in walks for leg in walk.legs for row in planner.rows(bid, leg)})
    some = draws.sample(rows, min(len(rows), draws.choice([0, 1, 2, 5, 12])))
    return {row: draws.randint(1, draws.choice(LARGEST_PRICE)) for row in some}


def random_leg(draws, planner, node):
    """A leg of some walk, which isn't decided yet; None where there is none."""
    legs = [(bid, leg) for bid, walks in enumerate(planner.walks) for walk in walks for leg in walk.legs]
    legs = sorted(set(legs) - {(decision.bid, decision.leg) for decision in node})
    return draws.choice(legs) if legs else None


def random_tree(draws, planner, depth):
    """The items of a tree from the root on, and the dual values of its priced leaves."""
    waiting, items, duals = [[]], [], []
    while waiting:
        node = waiting.pop()
        allowed = [planner.allowed(node, bid) for bid in range(len(planner.bids))]
        dead = planner.dead(node, allowed)
        split = random_leg(draws, planner, node) if len(node) < depth and draws.random() < 0.7 else None
        if dead and draws.random() < 0.7:
            items.append(dead)
        elif split:
            items.append(("split", *split))
            waiting += [node + [plain.Decision(*split, False)], node + [plain.Decision(*split, True)]]
        else:
            prices = random_prices(draws, planner)
            items.append(("priced", prices))
            duals.append(planner.dual(node, allowed, prices).value)
    return items, duals


def random_choice(draws, planner):
    """Walks of some bids, one after the other where they fit."""
    choice, use = [None] * len(planner.bids), Counter()
    for bid in draws.sample(range(len(planner.bids)), len(planner.bids)):
        fitting = [walk for walk in planner.walks[bid] if planner.fits(use, walk.legs, bid)]
        if fitting and draws.random() < 0.8:
            choice[bid] = draws.choice(fitting)
            use.update(row for leg in choice[bid].legs for row in planner.rows(bid, leg))
    return choice


def drawn(draws, planner, choice):
    """A plan with this choice over a tree that is drawn."""
    items, duals = random_tree(draws, planner, draws.choice([0, 1, 3, 5]))
    return plain.Plan(choice, planner.revenue(choice), max(duals) // 1000, len(items), items, [], [])


def plans(draws, planner):
    """Plans of all kinds, each with its kind. A revenue below zero has no certificate."""
    yield "planned quickly", planner.plan(draws.randint(0, 3), draws.randint(1, 5))
    best = planner.plan(draws.randint(5, 40), draws.choice([5, 60]))
    yield "planned well", best
    yield "a good choice over a drawn tree", drawn(draws, planner, best.choice)
    poor = random_choice(draws, planner)
    if planner.revenue(poor) >= 0:
        yield "a drawn choice over a drawn tree", drawn(draws, planner, poor)
    yield "no choice over a drawn tree", drawn(draws, planner, [None] * len(planner.bids))


# What must hold

def wrong(found, planner, choice, truth, seen):
    """What of the figures isn't true, or None."""
    for bid, (figures, walk) in enumerate(zip(found, choice)):
        best_with, best_without = truth[0][bid], truth[1][bid]
        if best_with is not None and (figures.served is None or figures.served < best_with):
            return f"bid {bid + 1}: with it {figures.served}, in truth {best_with}"
        if figures.lost is None or figures.lost < best_without:
            return f"bid {bid + 1}: without it {figures.lost}, in truth {best_without}"
        revenue = planner.revenue(choice)
        if walk is None and figures.served is None:
            seen["lost, no choice serves it"] += 1
        elif walk is None:
            by = revenue - figures.served
            if by > 0 and best_with is not None and best_with + by - 1 >= best_without:
                return f"bid {bid + 1}: raised by {by - 1} it is in a best choice"
            seen[f"lost, {'decided' if by > 0 else 'open'}"] += 1
        else:
            by = revenue - figures.lost
            if by > 0 and best_with - (by - 1) <= best_without:
                return f"bid {bid + 1}: lowered by {by - 1} it isn't in each best choice"
            seen[f"served, {'decided' if by > 0 else 'open'}"] += 1
    return None


def fault(program, folder, net, planner, plan, truth, seen):
    """What is wrong about a certificate, or None."""
    text = plain.certificate_text(net, plan)
    with open(f"{folder}/c.csv", "w", encoding="utf-8", newline="") as file:
        file.write(text)
    read_net, bids = reader.read_tables(reader.tables_in(folder))
    lines, status = evidence.told(read_net, bids, text.encode())
    if status:
        return f"bench/reader.py refuses it: {lines}"
    done = subprocess.run([program, *WORDS], cwd=folder, capture_output=True, text=True)
    if (done.stdout, done.stderr, done.returncode) != (lines, "", status):
        return f"the texts differ\n-- the program, status {done.returncode}\n{done.stdout}{done.stderr}-- bench/evidence.py\n{lines}"
    return truth and wrong(evidence.evidence(reader.Certificate(read_net, bids, text.encode())), planner, plan.choice, truth, seen)


def main(program, count, seed):
    program, folder, seen = os.path.realpath(program), tempfile.mkdtemp(prefix="optra-evidence-"), Counter()
    for case in range(count):
        draws = random.Random(f"{seed} {case}")
        net, bids = compare.random_case(draws, folder, 2 if case % 3 == 2 else 1)
        planner = plain.Planner(net, bids)
        truth = all_choices(planner)
        seen["listed" if truth else "too many choices"] += 1
        for kind, plan in plans(draws, planner):
            found = fault(program, folder, net, planner, plan, truth, seen)
            if found:
                print(f"case {case} of seed {seed}, {kind}, in {folder}: {found}")
                return 1
            seen[kind] += 1
    shutil.rmtree(folder)
    print(f"{count} instances: " + ", ".join(f"{name} {number}" for name, number in sorted(seen.items())))
    return 0


if __name__ == "__main__":
    words = argparse.ArgumentParser(description=__doc__, formatter_class=argparse.RawDescriptionHelpFormatter)
    words.add_argument("program")
    words.add_argument("count", type=int, nargs="?", default=500)
    words.add_argument("seed", type=int, nargs="?", default=1)
    sys.setrecursionlimit(20_000)
    sys.exit(main(*vars(words.parse_args()).values()))
