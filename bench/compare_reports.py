#!/usr/bin/env python3
"""Holds tools/report and tools/diagram against a built planner and the plain one on random small tables.

    python3 bench/compare_reports.py PROGRAM [COUNT] [SEED] [--tables VERSION]
    python3 bench/compare_reports.py PROGRAM --folder FOLDER [--budget B]

Makes COUNT networks with bids (200 if none is given) from SEED (1 if none is given) as bench/compare.py does, in tables of version 1 or 2,
plans each with several options by PROGRAM, and makes the report of each plan. Of each report these are compared:

- the verdict, the sums, the trains and the bids without one with what PROGRAM printed, and the check of the certificate;
- why a bid has no train with all its walks as bench/plain.py lists them: that it can't run even alone, that it fits beside the trains, or
  that none of its walks that are worth anything does; what it is worth alone, also with what PROGRAM plans for it alone;
- each meeting, and the minutes that it closes, with the rules of bench/plain.py: none is made up, and none is left out;
- what each train is worth alone, and whether it runs to and fro;
- that each picture is well formed, and each leg of a train stands in exactly one of the lines.

With a folder (net/, bids.csv and stops.csv, of any size) it makes the report of these tables, and compares all of this that needs no list of
walks: what stands in the bids' rows is held against the program and the plain planner's rules. At the first difference it prints it, keeps the
folder of the tables, and ends with status 1. At the end it tells what was seen.
"""
import argparse
import os
import random
import shutil
import subprocess
import sys
import tempfile
import xml.etree.ElementTree as xml
from collections import Counter
from html.parser import HTMLParser

import compare
import plain

sys.dont_write_bytecode = True
sys.path.insert(0, os.path.join(os.path.dirname(os.path.realpath(__file__)), "..", "tools"))

from optra_pictures import lines, losers, pictures, rules  # noqa: E402
from optra_pictures.chart import Chart, span_of  # noqa: E402
from optra_pictures.program import Program  # noqa: E402
from optra_pictures.report import Report, html_of  # noqa: E402
from optra_pictures.words import money  # noqa: E402

OPTIONS = [["--steps", "0", "--budget", "1"], ["--steps", "2", "--budget", "2"], ["--budget", "5"], []]


class Differs(Exception):
    """What isn't as it should be."""


def require(is_right, what):
    if not is_right:
        raise Differs(what)


class Tables(HTMLParser):
    """The cells of each table row of a page, by the section that it stands in, and the text of each section."""

    def __init__(self, text):
        super().__init__()
        self.rows, self.texts, self.items = {}, {}, Counter()
        self.section = self.cell = None
        self.feed(text)

    def handle_starttag(self, tag, attributes):
        if tag == "section":
            self.section = dict(attributes)["id"]
            self.rows[self.section], self.texts[self.section] = [], ""
        elif tag == "tr" and self.section:
            self.rows[self.section].append([])
        elif tag in ("td", "th") and self.section:
            self.rows[self.section][-1].append("")
            self.cell = self.rows[self.section][-1]
        elif tag == "li" and self.section and self.cell is not None:
            self.items[self.section, self.cell[0]] += 1

    def handle_endtag(self, tag):
        if tag in ("td", "th", "tr"):
            self.cell = None

    def handle_data(self, text):
        if self.section:
            self.texts[self.section] += text
            if self.cell is not None:
                self.cell[-1] += text

    def names(self, section):
        """The first cells of a section's rows, but for the heading."""
        return [row[0] for row in self.rows.get(section, [])[1:]]


# The rules of bench/plain.py over walks

def uses_of(bid, walk):
    return [(leg.track, bid.kind, leg.depart) for leg in walk.legs]


def conflict(net, one, other):
    """Whether two uses exclude one another, by the plain planner's rules."""
    if one[0] == other[0]:
        return plain.in_conflict(net, one[0], one[1], one[2], other[1], other[2])
    return (one[0], other[0], one[1], other[1]) in net.crossings and plain.breaks_crossing(net, one, other)


def is_in_own_way(net, bid, walk):
    uses = uses_of(bid, walk)
    return any(conflict(net, one, other) for place, one in enumerate(uses) for other in uses[:place])


def stays(net, bid, legs):
    return [row for leg in legs for row in plain.halt_rows(net, bid.kind, leg)]


class Plain:
    """A plan by the plain planner's own rules."""

    def __init__(self, net, bids, plan):
        self.net, self.bids, self.known = net, bids, {}
        self.trains = {}
        for train in plan.trains:
            number = next(number for number, bid in enumerate(bids) if bid.name == train.bid)
            self.trains[train.bid] = (bids[number], self.plain_legs(train.legs))
        self.stand = Counter(row for bid, legs in self.trains.values() for row in stays(net, bid, legs))

    def walks(self, number):
        """All walks of a bid."""
        if number not in self.known:
            self.known[number] = plain.all_walks(self.net, self.bids[number])
        return self.known[number]

    def plain_legs(self, legs):
        """Legs of a page as those of the plain planner."""
        made, halted = [], True
        for leg in legs:
            action = plain.ACTIONS.index(leg.action)
            track = next(number for number, track in enumerate(self.net.tracks) if track.name == leg.track)
            made.append(plain.Leg(track, leg.depart, halted, action, leg.dwell))
            halted = action != plain.PASS
        return tuple(made)

    def meetings(self, bid, legs):
        """The places of a walk's legs that are in conflict, with whom and with which leg, or with a station that is full."""
        found = set()
        for place, leg in enumerate(legs):
            mine = (leg.track, bid.kind, leg.depart)
            for name, (other, theirs) in self.trains.items():
                found |= {(place, name, there) for there, their_leg in enumerate(theirs)
                          if conflict(self.net, mine, (their_leg.track, other.kind, their_leg.depart))}
            if any(self.stand[row] >= self.net.limits[row[1]] for row in plain.halt_rows(self.net, bid.kind, leg)):
                found.add((place, "full", None))
            found |= {(place, "itself", before) for before, other in enumerate(legs[:place])
                      if conflict(self.net, mine, (other.track, bid.kind, other.depart))}
        return found

    def expected(self, number):
        """The case of a bid without a train, and the value that goes with it."""
        bid, walks = self.bids[number], self.walks(number)
        worth = [walk for walk in walks if walk.value > 0]
        alone = [walk for walk in worth if not is_in_own_way(self.net, bid, walk)]
        free = [walk for walk in alone if not self.meetings(bid, walk.legs)]
        if not worth:
            return ("worthless", max(walk.value for walk in walks)) if walks else ("no walk", None)
        if not alone:
            return "own way", None
        if free:
            return "fits", max(walk.value for walk in free)
        return "meets", max(walk.value for walk in alone)


# Comparing

def compare_head(case, page, printed, check):
    records = [line.split(",") for line in printed.splitlines()]
    served = [record[2] for record in records if record[0] == "train"]
    revenue, bound = int(records[1][1]), int(records[2][1])
    text = page.texts["verdict"]
    require(("Optimal." in text) == (records[0][1] == "optimal") == ("A gap." not in text), "the verdict's word")
    require(money(revenue) in text and money(bound) in text, "the verdict's sums")
    require(check.is_valid and check.line in text and (check.revenue, check.bound) == (revenue, bound), "the check")
    require("doesn't show this plan" not in text, "that the certificate is the plan's")
    require(page.names("trains") == served, "the trains")
    require(page.names("lost") == [name for name in case.plan.bids if name not in served], "the bids without a train")


def compare_loser(case, truth, number, loser, page, seen):
    word, value = truth.expected(number)
    told = {losers.NO_WAY: "no walk", losers.TOO_SHORT: "no walk"}.get(loser.case, loser.case)
    require(told == word, f"{loser.bid.name} is said to be {loser.case}, and it is {word}")
    seen[f"{loser.case}"] += 1
    row = next(row for row in page.rows["lost"][1:] if row[0] == loser.bid.name)
    require(("can't run even alone" in row[-1]) == (loser.case in losers.ALONE), "the row's words")
    if word == "worthless" or word == "meets":
        require(loser.walk.value == value, f"{loser.bid.name} is worth {value}, not {loser.walk.value}")
    if word == "fits":
        require(loser.place.value == value and not truth.meetings(truth.bids[number], truth.plain_legs(loser.place.legs)), "where it fits")
    if word == "meets":
        require(page.items["lost", loser.bid.name] > 0, "no meeting is named")
    if loser.walk:
        require(plain.Walk(truth.plain_legs(loser.walk.legs), loser.walk.value) in truth.walks(number), f"{loser.bid.name} has no such walk")
        compare_walk(case, truth, number, loser, seen)


def compare_walk(case, truth, number, loser, seen):
    """The walk that is drawn, and what it meets."""
    bid, legs = truth.bids[number], truth.plain_legs(loser.walk.legs)
    require(plain.value(truth.net, bid, legs) == loser.walk.value, f"what the walk of {loser.bid.name} is worth")
    if loser.case in losers.ALONE:
        return
    places = {id(leg): place for place, leg in enumerate(loser.walk.legs)}
    told, trains = set(), {train.bid: train for train in case.plan.trains}
    for meeting in loser.meetings:
        seen[f"meetings: {meeting.what}"] += 1
        if meeting.what == "full":
            told.add((places[id(meeting.leg)], "full", None))
            continue
        theirs = trains[meeting.others[0]].legs
        told.add((places[id(meeting.leg)], meeting.others[0], next(place for place, leg in enumerate(theirs) if leg is meeting.theirs)))
        compare_minutes(truth, bid, legs[places[id(meeting.leg)]], meeting)
    require(told == truth.meetings(bid, legs), f"what {loser.bid.name} meets")


def compare_minutes(truth, bid, leg, meeting):
    """The minutes that a meeting closes, and those just beside them."""
    other, theirs = truth.trains[meeting.others[0]]
    use = next((their.track, other.kind, their.depart) for their in theirs if their.depart == meeting.theirs.depart
               and truth.net.tracks[their.track].name == meeting.theirs.track)
    for minute in range(meeting.first - 1, meeting.last + 2):
        require(conflict(truth.net, (leg.track, bid.kind, minute), use) == (meeting.first <= minute <= meeting.last), "closed minutes")


def compare_trains(case, truth, page, seen):
    for train, row in zip(case.plan.trains, page.rows.get("trains", [])[1:]):
        number = next(number for number, bid in enumerate(truth.bids) if bid.name == train.bid)
        alone = max(walk.value for walk in truth.walks(number) if not is_in_own_way(truth.net, truth.bids[number], walk))
        require(row[10] == (money(alone - train.value) if alone > train.value else "0"), f"what {train.bid} is worth alone")
        stations = rules.stations_of(train.legs)
        require(("to and fro" in row[11]) == (len(set(stations)) < len(stations)), f"whether {train.bid} runs to and fro")
        seen["to and fro"] += len(set(stations)) < len(stations)


def compare_lines(case):
    cover = lines.cover(case.map, case.plan)
    for line in cover:
        if span_of(case, line):
            xml.fromstring(Chart(case, line, "a & b").svg())
    sections = [{a, b} for line in cover for a, b in zip(line, line[1:])]
    for train in case.plan.trains:
        require(all(sections.count({leg.tail, leg.head}) == 1 for leg in train.legs), "each leg is in one line")


def compare_alone(program, folder, case, number, loser):
    """What the program plans for the bid alone."""
    tables = [open(f"{folder}/{table}.csv", encoding="utf-8").read().splitlines() for table in ("bids", "stops")]
    for table, rows in zip(("bids", "stops"), tables):
        with open(f"{folder}/alone.{table}.csv", "w", encoding="utf-8") as file:
            file.write("".join(row + "\n" for row in rows[:1] + [row for row in rows[1:] if row.split(",")[0] == loser.bid.name]))
    words = [program, "plan", "--net", "net", "--bids", "alone.bids.csv", "--stops", "alone.stops.csv", "--budget", "2000"]
    ran = subprocess.run(words, cwd=folder, capture_output=True, text=True)
    head = dict(line.split(",") for line in ran.stdout.splitlines()[:4])
    expected = 0 if loser.case in losers.ALONE else loser.walk.value
    require(head["status"] == "gap" or int(head["revenue"]) == expected, f"{loser.bid.name} alone is worth {head['revenue']}")


def read_report(program, folder, net, bids, options):
    """The report of a plan, whose head is compared, as a page, and the same plan by the plain planner's rules."""
    caller = Program(program, f"{folder}/net", f"{folder}/bids.csv", f"{folder}/stops.csv")
    caller.plan(options, f"{folder}/plan.txt", f"{folder}/c.csv")
    case = pictures.read_case(f"{folder}/net", f"{folder}/bids.csv", f"{folder}/stops.csv", f"{folder}/plan.txt")
    check = caller.check(f"{folder}/c.csv")
    page = Tables(html_of(Report("a title", case, check, [])))
    with open(f"{folder}/plan.txt", encoding="utf-8") as file:
        compare_head(case, page, file.read(), check)
    return case, page, Plain(net, bids, case.plan)


def compare_report(program, folder, net, bids, options, seen):
    case, page, truth = read_report(program, folder, net, bids, options)
    for loser in case.losers:
        number = next(number for number, bid in enumerate(bids) if bid.name == loser.bid.name)
        compare_loser(case, truth, number, loser, page, seen)
        compare_alone(program, folder, case, number, loser)
    compare_trains(case, truth, page, seen)
    compare_lines(case)
    seen.update({"reports": 1, "trains": len(case.plan.trains), "gaps": case.plan.bound > case.plan.revenue})


def compare_folder(program, tables, budget):
    """The report of tables of any size."""
    folder, seen = tempfile.mkdtemp(prefix="optra-reports-"), Counter()
    for name in ("net", "bids.csv", "stops.csv"):
        os.symlink(os.path.abspath(f"{tables}/{name}"), f"{folder}/{name}")
    net = plain.read_network(f"{folder}/net")
    bids = plain.read_bids(net, f"{folder}/bids.csv", f"{folder}/stops.csv")
    try:
        case, page, truth = read_report(program, folder, net, bids, ["--budget", budget])
        for loser in case.losers:
            number = next(number for number, bid in enumerate(bids) if bid.name == loser.bid.name)
            seen[loser.case] += 1
            compare_alone(program, folder, case, number, loser)
            if loser.walk:
                compare_walk(case, truth, number, loser, seen)
            require(loser.case != losers.MEETS or page.items["lost", loser.bid.name], "no meeting is named")
            require(loser.place is None or not truth.meetings(bids[number], truth.plain_legs(loser.place.legs)), "where it fits")
        compare_lines(case)
    except (Differs, pictures.Refused) as fault:
        print(f"differs in {folder}: {fault}")
        return 1
    shutil.rmtree(folder)
    print("equal: " + ", ".join(f"{name} {number}" for name, number in sorted(seen.items())))
    return 0


def main(program, count, seed, version):
    folder, seen = tempfile.mkdtemp(prefix="optra-reports-"), Counter()
    for case in range(count):
        draws = random.Random(f"{seed} {case}")
        net, bids = compare.random_case(draws, folder, version)
        for options in OPTIONS:
            try:
                compare_report(program, folder, net, bids, options, seen)
            except (Differs, pictures.Refused) as fault:
                print(f"differs in {folder}, case {case} of seed {seed}, {' '.join(options)}: {fault}")
                return 1
    shutil.rmtree(folder)
    print(f"{count} cases are equal: " + ", ".join(f"{name} {number}" for name, number in sorted(seen.items())))
    return 0


if __name__ == "__main__":
    words = argparse.ArgumentParser(description=__doc__, formatter_class=argparse.RawDescriptionHelpFormatter)
    words.add_argument("program")
    words.add_argument("count", type=int, nargs="?", default=200)
    words.add_argument("seed", type=int, nargs="?", default=1)
    words.add_argument("--tables", type=int, choices=[1, 2], default=1)
    words.add_argument("--folder")
    words.add_argument("--budget", default="200")
    given = words.parse_args()
    if given.folder:
        sys.exit(compare_folder(os.path.realpath(given.program), given.folder, given.budget))
    sys.exit(main(os.path.realpath(given.program), given.count, given.seed, given.tables))
