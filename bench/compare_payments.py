#!/usr/bin/env python3
"""Compares the payments of a built optra with slow plain ones: python3 bench/compare_payments.py PROGRAM [COUNT] [SEED] [--list]

Makes COUNT networks with bids (200 if none is given) from SEED (1 if none is given) by bench/compare.py, in tables of version 1 and 2 in
turn, deals the bids out to up to four bidders, and compares text and status of `pay` with those of bench/plain.py, which plans all bids,
and for each bidder the others' bids, with the same steps and budget. With --list it lists all choices of bids that have few walks instead:
of each printed interval it tests that it holds the bidder's payment (the most that the others' bids can earn, less what the others' trains
are worth in the printed plan), and that its ends are equal where PROGRAM finds that plan of the others' bids to be optimal. At the first
difference it prints both, keeps the folder, and ends with status 1. At the end it tells what there was.
"""
import argparse
import csv
import io
import itertools
import os
import random
import shutil
import subprocess
import sys
import tempfile
from collections import Counter, namedtuple

import compare
import demo
import plain
from plain import HALT, LAST_MINUTE, WAIT

WORDS = ["--net", "net", "--bids", "bids.csv", "--stops", "stops.csv"]
BIDDERS = ["ann", "bob", "cat", "dan, \"ltd\""]
BASE = demo.BIDS.split(",").index("base")
MOST_CHOICES = 5_000

Pay = namedtuple("Pay", "bidder won value low high")
Head = namedtuple("Head", "status revenue bound")


# Cases

def deal(draws, folder):
    """Gives each bid a bidder anew, and some bids rivals that want the same for about as much."""
    some = BIDDERS[:draws.choice([1, 2, 3, 3, 4])]
    header, *rows = plain.all_records(f"{folder}/bids.csv")
    stops = plain.all_records(f"{folder}/stops.csv")
    for row in draws.sample(rows, min(len(rows), draws.choice([0, 0, 1, 2]))):
        base = max(0, int(row[BASE]) + draws.choice([-50, -1, 0, 1, 30]))
        rows.insert(draws.randrange(len(rows) + 1), [f"r{row[0]}", *row[1:BASE], str(base), *row[BASE + 1:]])
        stops += [[f"r{row[0]}", *stop[1:]] for stop in stops if stop[0] == row[0]]
    write(f"{folder}/bids.csv", [header] + [[row[0], draws.choice(some), *row[2:]] for row in rows])
    write(f"{folder}/stops.csv", stops)


def write(path, records):
    with open(path, "w", encoding="utf-8", newline="") as file:
        file.write(plain.text_of(records))


def random_case(draws, folder, version):
    compare.random_case(draws, folder, version)
    deal(draws, folder)
    net = plain.read_network(f"{folder}/net")
    return net, plain.read_bids(net, f"{folder}/bids.csv", f"{folder}/stops.csv")


def options_of(draws):
    return draws.choice([["--steps", str(draws.randint(0, 4)), "--budget", str(draws.randint(1, 6))], ["--budget", "1"],
                         ["--steps", "3"], ["--steps", "10", "--budget", "30"], []])


def limits_of(options):
    words = dict(zip(options[::2], map(int, options[1::2])))
    return words.get("--steps", 40), words.get("--budget", 200)


def ran(program, command, folder, words):
    return subprocess.run([program, command, *words], cwd=folder, capture_output=True, text=True, check=False)


# The slow plain payments

def bidders_of(bids):
    """The bidders, each where it was first seen."""
    return list(dict.fromkeys(bid.bidder for bid in bids))


def pay_of(net, bids, choice, bidder, limits):
    """What a bidder has in a choice, and the ends of its payment by a plan of the others' bids."""
    plan = plain.Planner(net, [bid for bid in bids if bid.bidder != bidder]).plan(*limits)
    own = [walk.value for bid, walk in zip(bids, choice) if walk and bid.bidder == bidder]
    others = sum(walk.value for bid, walk in zip(bids, choice) if walk and bid.bidder != bidder)
    return Pay(bidder, len(own), sum(own), max(plan.revenue, others) - others, plan.bound - others)


def pay(net, bids, limits):
    """The text of the payments, their status, the plan and the payments."""
    plan = plain.Planner(net, bids).plan(*limits)
    pays = [pay_of(net, bids, plan.choice, bidder, limits) for bidder in bidders_of(bids)]
    is_closed = plan.bound == plan.revenue and all(one.low == one.high for one in pays)
    return plain.text_of(plain.head_lines(plan) + [("pay", *one) for one in pays]), 0 if is_closed else 1, plan, pays


def tell(plan, pays, seen):
    seen["gap" if plan.bound > plan.revenue else "optimal"] += 1
    seen[f"of {len(pays)} bidders"] += 1
    for one in pays:
        seen["payments"] += 1
        seen["open intervals" if one.low < one.high else "closed intervals"] += 1
        seen["won nothing"] += one.won == 0
        seen["won several"] += one.won > 1
        seen["pays"] += one.low > 0
        seen["pays all that it has"] += 0 < one.low == one.high == one.value
        seen["an end above the value"] += one.high > one.value
    closed = [one.low == one.high for one in pays]
    seen["closed as a whole, open without a bidder"] += plan.bound == plan.revenue and not all(closed)
    seen["a gap as a whole, closed without a bidder"] += plan.bound > plan.revenue and any(closed)


def compared(program, folder, net, bids, options, seen):
    """Whether the program's text and status are those of the plain payments."""
    text, status, plan, pays = pay(net, bids, limits_of(options))
    tell(plan, pays, seen)
    done = ran(program, "pay", folder, [*WORDS, *options])
    if (done.stdout, done.returncode, done.stderr) == (text, status, ""):
        return True
    print(f"differs in {folder}: pay {' '.join(options)}\n-- the program, status {done.returncode}\n{done.stdout}{done.stderr}"
          f"-- the plain payments, status {status}\n{text}", end="")
    return False


# All choices

def keeps_rule(net, trains):
    """Whether (bid, walk) of a choice are free of conflict, by the rules themselves."""
    uses = [(leg.track, bid.kind, leg.depart) for bid, walk in trains for leg in walk.legs]
    standing = Counter()
    for bid, walk in trains:
        for leg in walk.legs:
            if leg.action in (HALT, WAIT):
                arrive = plain.arrival(net, bid.kind, leg)
                standing.update((net.tracks[leg.track].head, minute) for minute in range(arrive, arrive + leg.dwell) if minute <= LAST_MINUTE)
    return (not any(are_near(net, one, other) for one, other in itertools.combinations(uses, 2))
            and not any(0 < net.limits[station] < count for (station, _), count in standing.items()))


def are_near(net, first, second):
    (one, a, t), (other, b, u) = first, second
    if one == other:
        return plain.in_conflict(net, one, a, t, b, u)
    return (one, other, a, b) in net.crossings and plain.breaks_crossing(net, first, second)


def greatest_revenue(net, bids, walks):
    """The most that a choice of the bids earns which is free of conflict: each choice is looked at that begins with no conflict."""
    def most(place, trains):
        if place == len(bids):
            return sum(walk.value for _, walk in trains)
        found = [most(place + 1, trains)]
        for walk in walks[place]:
            if keeps_rule(net, [*trains, (bids[place], walk)]):
                found.append(most(place + 1, [*trains, (bids[place], walk)]))
        return max(found)
    return most(0, [])


def choice_count(walks):
    count = 1
    for listed in walks:
        count *= 1 + len(listed)
    return count


def head_of(records):
    return Head(records[0][1], int(records[1][1]), int(records[2][1]))


def records_of(text):
    return list(csv.reader(io.StringIO(text, newline="")))


def found_without(program, folder, options, bidder):
    """What the program finds when it plans the others' bids alone."""
    header, *rows = plain.all_records(f"{folder}/bids.csv")
    others = [row for row in rows if row[1] != bidder]
    names = {row[0] for row in others}
    write(f"{folder}/others.csv", [header, *others])
    write(f"{folder}/other_stops.csv", [demo.STOPS.split(",")] + [row for row in plain.records(f"{folder}/stops.csv") if row[0] in names])
    words = ["--net", "net", "--bids", "others.csv", "--stops", "other_stops.csv", *options]
    return head_of(records_of(ran(program, "plan", folder, words).stdout))


def wrong_interval(program, folder, net, bids, walks, options, values, pay_record, seen):
    """What is wrong with the interval of a bidder by all choices, or None. Values are those of the printed trains by their bids' names."""
    bidder, won, value, low, high = pay_record[1], *map(int, pay_record[2:])
    others = [place for place, bid in enumerate(bids) if bid.bidder != bidder]
    worth = sum(values.get(bids[place].name, 0) for place in others)
    greatest = greatest_revenue(net, [bids[place] for place in others], [walks[place] for place in others])
    own = [values[bid.name] for bid in bids if bid.bidder == bidder and bid.name in values]
    head = found_without(program, folder, options, bidder)
    seen["payments"] += 1
    seen["closed intervals" if low == high else "open intervals"] += 1
    seen["pays"] += greatest > worth
    seen["low is below the payment"] += low < greatest - worth
    seen["high is above the payment"] += high > greatest - worth
    if (won, value) != (len(own), sum(own)):
        return f"{bidder} has {len(own)} trains worth {sum(own)}"
    if not 0 <= low <= greatest - worth <= high:
        return f"the payment of {bidder} is {greatest} - {worth}"
    if (low, high) != (max(head.revenue, worth) - worth, head.bound - worth):
        return f"the others of {bidder} are planned with {head}, and have {worth}"
    return f"the ends of {bidder} are to be equal" if head.status == "optimal" and low != high else None


def listed(program, folder, net, bids, walks, options, seen):
    """Whether all printed intervals hold the payments that are found by all choices."""
    done = ran(program, "pay", folder, [*WORDS, *options])
    records, plan = records_of(done.stdout), records_of(ran(program, "plan", folder, [*WORDS, *options]).stdout)
    values = {record[2]: int(record[4]) for record in plan if record[0] == "train"}
    head, best = head_of(records), greatest_revenue(net, bids, walks)
    seen[head.status] += 1
    wrong = [] if records[:4] == plan[:4] else ["the head isn't that of the plan"]
    wrong += [] if head.revenue <= best <= head.bound else [f"the greatest revenue is {best}"]
    wrong += [] if [record[1] for record in records[4:]] == bidders_of(bids) else ["the bidders are others"]
    wrong += [wrong_interval(program, folder, net, bids, walks, options, values, record, seen) for record in records[4:]]
    is_closed = head.status == "optimal" and all(record[4] == record[5] for record in records[4:])
    wrong += [] if done.returncode == (0 if is_closed else 1) else [f"the status is {done.returncode}"]
    wrong = [what for what in wrong if what]
    if wrong:
        print(f"differs in {folder}: pay {' '.join(options)}\n{done.stdout}{done.stderr}" + "".join(f"{what}\n" for what in wrong), end="")
    return not wrong


# Running

def compared_case(program, folder, draws, case, is_listed, seen):
    while True:
        net, bids = random_case(draws, folder, 1 + case % 2)
        if not is_listed:
            return compared(program, folder, net, bids, options_of(draws), seen)
        walks = [plain.all_walks(net, bid) for bid in bids]
        if choice_count(walks) <= MOST_CHOICES:
            return listed(program, folder, net, bids, walks, options_of(draws), seen)


def main(program, count, seed, is_listed):
    folder, seen = tempfile.mkdtemp(prefix="optra-payments-"), Counter()
    for case in range(count):
        if not compared_case(program, folder, random.Random(f"{seed} {case}"), case, is_listed, seen):
            print(f"-- case {case} of seed {seed}")
            return 1
    shutil.rmtree(folder)
    print(f"{count} cases are equal: " + ", ".join(f"{name} {number}" for name, number in sorted(seen.items())))
    return 0


if __name__ == "__main__":
    words = argparse.ArgumentParser(description=__doc__, formatter_class=argparse.RawDescriptionHelpFormatter)
    words.add_argument("program")
    words.add_argument("count", type=int, nargs="?", default=200)
    words.add_argument("seed", type=int, nargs="?", default=1)
    words.add_argument("--list", action="store_true")
    given = words.parse_args()
    sys.setrecursionlimit(20_000)
    sys.exit(main(os.path.realpath(given.program), given.count, given.seed, given.list))
