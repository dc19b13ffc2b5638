#!/usr/bin/env python3
"""A slow reader of journals, written from docs/FORMATS.md and not from the crates.

    python3 bench/journal.py FILE [--bids FILE --stops FILE --rules FILE]

Says by the format alone what stands in the journal FILE: a line for the heading, one for each entry, with its place, and one for
what stands behind the last. With the three tables it also compares the stamp with them. Ends with 0. Where FILE is no journal it
says the place and why, as far as that shows without the auction's bids and rules, and ends with 1.
"""
import argparse
import sys
from collections import namedtuple

HEADING = b"OPTRAJ1\n"
MOST_BYTES = 67_108_864
# A file that is shorter is no journal yet: it is written anew.
LEAST_BYTES = 10
MOST_CENTS = 1_000_000_000
ENTRY_HEAD = 5

Act = namedtuple("Act", "kind names amount")
Stamp = namedtuple("Stamp", "bids stops rules")
Round = namedtuple("Round", "number acts values")
Entry = namedtuple("Entry", "place payload means")
Journal = namedtuple("Journal", "entries last_gate")

# The names of an action, and whether it has an amount behind them.
KINDS = [("open", ["bidder", "bid", "spec"], True), ("raise", ["bidder", "bid"], True),
         ("amend", ["bidder", "bid", "spec"], False), ("withdraw", ["bidder", "bid"], False)]


class NoJournal(Exception):
    """Why a file is no journal, and where that shows."""

    def __init__(self, place, why):
        super().__init__(f"at byte {place}: {why}")


class Fields:
    """Bytes of a payload that are taken one field after the other."""

    def __init__(self, payload, place):
        self.payload, self.place, self.at = payload, place, 0

    def no(self, why):
        raise NoJournal(self.place + self.at, why)

    def take(self, count, what):
        if self.at + count > len(self.payload):
            self.no(f"the payload ends before {what}")
        self.at += count
        return self.payload[self.at - count:self.at]

    def number(self, count, what):
        return int.from_bytes(self.take(count, what), "big")

    def end(self):
        if self.at != len(self.payload):
            self.no("bytes stand behind the payload's last field")


def is_name(field):
    """1 to 64 bytes of UTF-8 without control characters."""
    try:
        text = field.decode("utf-8")
    except UnicodeDecodeError:
        return False
    return 1 <= len(field) <= 64 and not any(ord(mark) < 32 or 127 <= ord(mark) < 160 for mark in text)


def read_name(fields, what):
    name = fields.take(fields.number(1, f"the length of the {what}"), f"the {what}'s end")
    if not is_name(name):
        fields.no(f"the {what} is no name")
    return name.decode("utf-8")


def read_cents(fields, least, what):
    cents = fields.number(8, what)
    if not least <= cents <= MOST_CENTS:
        fields.no(f"{what} of {cents} isn't {least} to {MOST_CENTS}")
    return cents


def read_act(fields):
    kind = fields.number(1, "an action's kind")
    if kind >= len(KINDS):
        fields.no(f"an action of kind {kind}")
    word, names, has_amount = KINDS[kind]
    held = [read_name(fields, name) for name in names]
    return Act(word, held, read_cents(fields, 0, "an amount") if has_amount else None)


def read_value(fields):
    flag = fields.number(1, "a value's flag")
    if flag > 1:
        fields.no(f"a value's flag is {flag}")
    return read_cents(fields, 1, "a value") if flag else None


def read_round(fields):
    number = fields.number(2, "the round's number")
    acts = [read_act(fields) for _ in range(fields.number(4, "the number of actions"))]
    return Round(number, acts, [read_value(fields) for _ in range(fields.number(4, "the number of values"))])


def read_stamp(fields):
    return Stamp(*(fields.take(fields.number(8, f"the length of the {part}"), f"the end of the {part}") for part in Stamp._fields))


def read_payload(payload, place, is_first):
    fields = Fields(payload, place)
    kind = fields.number(1, "its kind")
    if kind > 1:
        fields.no(f"an entry of kind {kind}")
    if is_first != (kind == 0):
        fields.no("the first entry isn't a stamp" if is_first else "a second stamp")
    means = read_stamp(fields) if is_first else read_round(fields)
    fields.end()
    return means


def read_entries(file):
    """The places and payloads of the entries, and the place of the gate that ends them."""
    entries, gate = [], len(HEADING)
    while file[gate] == 1:
        if len(file) < gate + ENTRY_HEAD:
            raise NoJournal(gate, "the entry isn't whole")
        start = gate + ENTRY_HEAD
        end = start + int.from_bytes(file[gate + 1:start], "big")
        if len(file) <= end:
            raise NoJournal(gate, "the entry isn't whole" if len(file) < end else "no gate follows the entry")
        entries.append((gate, file[start:end]))
        gate = end
    return entries, gate


def read_journal(file):
    """The entries of a file, or why it is no journal; None for a file that is too short for one."""
    if len(file) < LEAST_BYTES:
        return None
    if not file.startswith(HEADING):
        raise NoJournal(0, "another heading")
    if len(file) > MOST_BYTES:
        raise NoJournal(MOST_BYTES, f"a journal has at most {MOST_BYTES} bytes")
    raw, gate = read_entries(file)
    entries = [Entry(place, payload, read_payload(payload, place + ENTRY_HEAD, k == 0)) for k, (place, payload) in enumerate(raw)]
    for number, entry in enumerate(entries[1:], start=1):
        if entry.means.number != number:
            raise NoJournal(entry.place, f"round {entry.means.number} where round {number} comes")
    return Journal(entries, gate)


def stamp_payload(stamp):
    return b"\0" + b"".join(len(part).to_bytes(8, "big") + part for part in stamp)


def check_stamp(journal, tables):
    """Refuses a journal whose stamp isn't of these tables."""
    if journal.entries and journal.entries[0].means != tables:
        other = next(part for part in Stamp._fields if getattr(journal.entries[0].means, part) != getattr(tables, part))
        raise NoJournal(journal.entries[0].place, f"the stamp has other {other}")


def said_of_round(entry):
    yield f"byte {entry.place}: round {entry.means.number}, {len(entry.means.acts)} actions, {len(entry.means.values)} values"
    for act in entry.means.acts:
        yield "  " + ",".join([act.kind, *act.names, *([str(act.amount)] if act.amount is not None else [])])
    yield "  values " + ",".join("-" if value is None else str(value) for value in entry.means.values)


def said(file, journal):
    """The lines about a journal."""
    if journal is None:
        yield f"{len(file)} bytes: too short for a journal; it is written anew"
        return
    yield f"{len(file)} bytes, {len(journal.entries)} entries"
    for entry in journal.entries[:1]:
        yield f"byte {entry.place}: stamp of {', '.join(f'{len(part)} bytes of {name}' for name, part in entry.means._asdict().items())}"
    for entry in journal.entries[1:]:
        yield from said_of_round(entry)
    yield f"byte {journal.last_gate}: gate {file[journal.last_gate]}, {len(file) - journal.last_gate - 1} bytes behind it mean nothing"


def read(path):
    with open(path, "rb") as file:
        return file.read()


def words():
    parser = argparse.ArgumentParser(description=__doc__, formatter_class=argparse.RawDescriptionHelpFormatter)
    parser.add_argument("file")
    for table in Stamp._fields:
        parser.add_argument(f"--{table}")
    return parser.parse_args()


def main(given):
    tables = [getattr(given, table) for table in Stamp._fields]
    if any(tables) and not all(tables):
        print("journal: --bids, --stops and --rules come together", file=sys.stderr)
        return 2
    try:
        file, stamp = read(given.file), Stamp(*map(read, tables)) if all(tables) else None
    except OSError as fault:
        print(f"journal: {fault}", file=sys.stderr)
        return 2
    try:
        journal = read_journal(file)
        if journal and stamp:
            check_stamp(journal, stamp)
    except NoJournal as fault:
        print(f"no journal: {fault}")
        return 1
    for line in said(file, journal):
        print(line)
    return 0


if __name__ == "__main__":
    sys.exit(main(words()))
