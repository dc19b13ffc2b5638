#!/usr/bin/env python3
"""Compares a built optra_improve with the truth on random small instances: python3 bench/compare_improve.py IMPROVE OPTRA [COUNT] [SEED]

Makes COUNT instances (300 if none is given) from SEED (1 if none is given), every second in tables of version 2, of those whose choices can
all be listed; half of them are drawn until `plan --budget 1` misses the optimum. Each is improved from two certificates, with 1,000 rounds: that of OPTRA's `plan --budget 1`, and one by another hand, with a drawn
choice over a drawn tree. What is put must be a certificate with the tree and the bound of the one that was handed in, with a revenue of
at least that one's and at most the optimum's, `check` by OPTRA and bench/reader.py must say yes, the text printed must be its plan text, and
the status 0 where bound and revenue meet, else 1. With no rounds the certificate put is the one handed in, byte for byte. Run again with
the same words the bytes are the same. At the first fault it prints it, keeps the folder, and ends with status 1; at the end it tells how
often the optimum was reached, and how often where the plan had missed it: nine of ten there is what is wanted.
"""
import argparse
import itertools
import os
import random
import shutil
import subprocess
import sys
import tempfile
from collections import Counter

import compare
import compare_evidence
import plain
import reader

TABLES = ["--net", "net", "--bids", "bids.csv", "--stops", "stops.csv"]
CHECK = ["check", *TABLES, "--cert"]
IMPROVE = [*TABLES, "--cert", "c.csv", "--out"]
ROUNDS = 1000
MOST_TRIES = 60


class Fault(Exception):
    """What isn't as it must be."""


def must(holds, what):
    if not holds:
        raise Fault(what)


def ran(program, words, folder):
    done = subprocess.run([program, *words], cwd=folder, capture_output=True, text=True)
    return done.stdout, done.returncode, done.stderr


def text_in(path):
    with open(path, encoding="utf-8", newline="") as file:
        return file.read()


def put(path, text):
    with open(path, "w", encoding="utf-8", newline="") as file:
        file.write(text)


def split_certificate(text):
    """The revenue, the bound, the legs and the records of the tree."""
    lines = text.splitlines()
    legs = [line for line in lines if line.startswith("leg,")]
    return int(lines[1].split(",")[1]), int(lines[2].split(",")[1]), legs, lines[3 + len(legs):]


def is_item(line):
    return not line.startswith("price,")


def plan_text(net, bids, text):
    """The plan text of a certificate, whose nodes are the items of its tree."""
    revenue, bound, _, tree = split_certificate(text)
    walks = {}
    for number, leg in reader.Certificate(net, bids, text.encode()).legs:
        walks.setdefault(number, []).append(leg)
    lines = [("status", "gap" if bound > revenue else "optimal"), ("revenue", revenue), ("bound", bound),
             ("nodes", sum(map(is_item, tree)))]
    for number, legs in sorted(walks.items()):
        bid = bids[number - 1]
        lines.append(("train", number, bid.name, bid.bidder, reader.value_of(net, bid, legs)))
        for leg in legs:
            tail, head = net.ends[leg.track]
            lines.append(("leg", leg.track, tail, leg.depart, head, reader.arrival(net, bid.kind, leg), leg.action, leg.dwell))
    return plain.text_of(lines)


def improved(programs, folder, rounds, seed, most):
    """The revenue before and after an improvement; or Fault."""
    improve, optra = programs
    before = text_in(f"{folder}/c.csv")
    words = [*IMPROVE, "out.csv", "--rounds", str(rounds), "--seed", str(seed)]
    printed, status, error = ran(improve, words, folder)
    must(error == "" and status in (0, 1), f"status {status}: {error}")
    after = text_in(f"{folder}/out.csv")
    old, new = split_certificate(before), split_certificate(after)
    must(new[1] == old[1] and new[3] == old[3], "another bound or tree")
    must(old[0] <= new[0] <= most, f"a revenue of {new[0]} from {old[0]}, where the optimum is {most}")
    must(rounds > 0 or after == before, "another certificate with no rounds")
    must(ran(optra, [*CHECK, "out.csv"], folder)[0] == f"verdict,yes,{new[0]},{new[1]}\n", "check doesn't say yes")
    net, bids = reader.read_tables(reader.tables_in(folder))
    must(reader.verdict(net, bids, after.encode()) == f"verdict,yes,{new[0]},{new[1]}", "bench/reader.py doesn't say yes")
    must(printed == plan_text(net, bids, after) and status == int(new[0] < new[1]), f"the text, status {status}\n{printed}")
    must(ran(improve, words, folder) == (printed, status, "") and text_in(f"{folder}/out.csv") == after, "another answer to the same words")
    return old[0], new[0]


def by_plan(optra, folder):
    _, status, error = ran(optra, ["plan", *TABLES, "--budget", "1", "--cert", "c.csv"], folder)
    must(status in (0, 1), f"plan: {error}")


def by_another_hand(draws, net, planner, folder):
    choice = compare_evidence.random_choice(draws, planner)
    if planner.revenue(choice) < 0:
        choice = [None] * len(planner.bids)
    put(f"{folder}/c.csv", plain.certificate_text(net, compare_evidence.drawn(draws, planner, choice)))


def optimum(planner):
    """The most that a choice earns; None where there are too many to list."""
    truth = compare_evidence.all_choices(planner)
    return truth and max((most for side in truth for most in side if most is not None), default=0)


def random_listed(draws, optra, folder, version, is_hard):
    """An instance whose choices can be listed, and its optimum; a hard one is one whose plan misses it, where one is soon drawn."""
    for tries in itertools.count(1):
        net, bids = compare.random_case(draws, folder, version)
        planner = plain.Planner(net, bids)
        most = optimum(planner)
        if most is not None:
            by_plan(optra, folder)
            if not is_hard or tries > MOST_TRIES or split_certificate(text_in(f"{folder}/c.csv"))[0] < most:
                return net, planner, most


def tell(seen, hand, before, after, most):
    seen[f"{hand}: all"] += 1
    seen[f"{hand}: at the optimum after"] += after == most
    seen[f"{hand}: missed before"] += before < most
    seen[f"{hand}: missed before, reached after"] += before < most == after


def one_case(draws, programs, folder, version, is_hard, seen):
    net, planner, most = random_listed(draws, programs[1], folder, version, is_hard)
    for hand in ("plan", "another hand"):
        if hand == "plan":
            by_plan(programs[1], folder)
        else:
            by_another_hand(draws, net, planner, folder)
        improved(programs, folder, 0, 1, most)
        before, after = improved(programs, folder, ROUNDS, draws.randint(0, 99), most)
        tell(seen, hand, before, after, most)


def main(improve, optra, count, seed):
    programs, folder, seen = (os.path.realpath(improve), os.path.realpath(optra)), tempfile.mkdtemp(prefix="optra-improve-"), Counter()
    for case in range(count):
        try:
            one_case(random.Random(f"{seed} {case}"), programs, folder, 1 + case % 2, case % 4 >= 2, seen)
        except Fault as fault:
            print(f"case {case} of seed {seed} in {folder}: {fault}")
            return 1
    shutil.rmtree(folder)
    print(f"{count} instances:\n" + "\n".join(f"{name} {number}" for name, number in sorted(seen.items())))
    missed, reached = seen["plan: missed before"], seen["plan: missed before, reached after"]
    return int(10 * reached < 9 * missed)


if __name__ == "__main__":
    words = argparse.ArgumentParser(description=__doc__, formatter_class=argparse.RawDescriptionHelpFormatter)
    words.add_argument("improve")
    words.add_argument("optra")
    words.add_argument("count", type=int, nargs="?", default=300)
    words.add_argument("seed", type=int, nargs="?", default=1)
    sys.setrecursionlimit(20_000)
    sys.exit(main(*vars(words.parse_args()).values()))
