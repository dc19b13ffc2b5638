#!/usr/bin/env python3
"""Slow plain evidence for each bid, written from the definition in words and not from the crates, over bench/reader.py.

    python3 bench/evidence.py --net DIR --bids FILE --stops FILE --cert FILE

Prints what `optra_evidence` prints with the same words, and ends with its status: of a valid certificate its verdict, and for each
bid what a choice that leaves it out, or one that serves it, can earn at most. A priced leaf counts where each bid with a yes leg
has an allowed walk. There the term of a bid is the greatest reduced value over its allowed walks, or 0 where it has no yes leg and
that is less or there is none. With the bid: the dual value less its term plus its greatest reduced value, where it has an allowed
walk. Without it: the dual value less its term, where it has no yes leg. The figure is the greatest over the leaves, in whole cents.
Every dual value is found anew at each leaf, so this is for small cases.
"""
import sys
from collections import namedtuple

import reader

USAGE = "usage: optra_evidence --net DIR --bids FILE --stops FILE --cert FILE [--steps K]"
OPTIONS = ["--net", "--bids", "--stops", "--cert"]

# In cents; what can't be is None.
Figures = namedtuple("Figures", "served lost")


class Ended(Exception):
    """A status, and the line for `err`."""

    def __init__(self, status, line):
        super().__init__(line)
        self.status, self.line = status, line


def read_words(words):
    """The values of the options, in the order of OPTIONS."""
    given, words = {}, list(words)
    while words:
        option, joined, value = words.pop(0).partition("=")
        if option not in OPTIONS or option in given or not (joined or words):
            raise Ended(2, USAGE)
        given[option] = value if joined else words.pop(0)
    if len(given) < len(OPTIONS) or not all(1 <= len(value.encode()) <= 4096 for value in given.values()):
        raise Ended(2, USAGE)
    return [given[option] for option in OPTIONS]


def got(path):
    try:
        return reader.read(path)
    except FileNotFoundError:
        raise Ended(6, f"absent: {path}") from None
    except OSError:
        raise Ended(5, f"read fault: {path}") from None


def files(folder, bids, stops, cert):
    """The tables and the certificate, got in their order."""
    tables = {"stations": got(f"{folder}/stations.csv")}
    tables.update({table: got(f"{folder}/{table}.csv") for table in ("tracks", "types", "running", "headways")})
    if reader.version_of(tables["stations"]) == 2:
        tables["crossings"] = got(f"{folder}/crossings.csv")
    tables.update({"bids": got(bids), "stops": got(stops)})
    return tables, got(cert)


# Evidence

def leaf_figures(node, prices):
    """Of each bid the most with it and without it at a leaf, in thousandths of a cent; None where the leaf doesn't count."""
    numbers = range(1, len(node.bids) + 1)
    bests = [node.best(number, prices) for number in numbers]
    have_yes = [bool(node.legs(number, True)) for number in numbers]
    if any(yes and best is None for yes, best in zip(have_yes, bests)):
        return None
    terms = [best if yes else max(best or 0, 0) for yes, best in zip(have_yes, bests)]
    total = sum(terms) + sum(price * reader.capacity(node.net, row) for row, price in prices)
    return [Figures(None if best is None else total - term + best, None if yes else total - term)
            for best, yes, term in zip(bests, have_yes, terms)]


def greatest(figures):
    """The greatest of some figures in whole cents, rounded down; None where there is none."""
    there = [figure for figure in figures if figure is not None]
    return max(there) // 1000 if there else None


def evidence(cert):
    """Of each bid what a choice that serves it and one that leaves it out earn at most, in cents."""
    leaves = [leaf_figures(node, item[1]) for item, node in reader.leaves(cert) if item[0] == "priced"]
    leaves = [figures for figures in leaves if figures is not None]
    return [Figures(greatest(leaf[place].served for leaf in leaves), greatest(leaf[place].lost for leaf in leaves))
            for place in range(len(cert.bids))]


def bid_record(number, bid, value, figures, revenue):
    """The record of a bid, whose walk in the choice has a value, or which has none."""
    figure = figures.lost if value is not None else figures.served
    parts = ["bid", number, bid.name, bid.bidder, "lost" if value is None else "served", bid.base if value is None else value,
             "none" if figure is None else figure, "none" if figure is None else revenue - figure]
    return reader.written([str(part).encode() for part in parts]).decode()


def told(net, bids, text):
    """The text on a certificate, and the status."""
    line = reader.verdict(net, bids, text) + "\n"
    if not line.startswith("verdict,yes"):
        return line, 4
    cert = reader.Certificate(net, bids, text)
    walks = {}
    for number, leg in cert.legs:
        walks.setdefault(number, []).append(leg)
    values = [reader.value_of(net, bid, walks[number]) if number in walks else None for number, bid in enumerate(bids, start=1)]
    found = evidence(cert)
    return line + "".join(bid_record(k + 1, bid, values[k], found[k], cert.revenue) for k, bid in enumerate(bids)), 0


def main(words):
    try:
        tables, text = files(*read_words(words))
        net, bids = reader.read_tables(tables)
    except Ended as ended:
        print(ended.line, file=sys.stderr)
        return ended.status
    except reader.Refused as fault:
        print(fault, file=sys.stderr)
        return 3
    lines, status = told(net, bids, text)
    sys.stdout.write(lines)
    return status


if __name__ == "__main__":
    if sys.argv[1:] in (["-h"], ["--help"]):
        print(__doc__)
        sys.exit(0)
    sys.setrecursionlimit(20_000)
    sys.exit(main(sys.argv[1:]))
