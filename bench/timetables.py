#!/usr/bin/env python3
"""A slow plain audit of timetables, and slow plain compressed times, written from the rules in words and not from the crates.

    python3 bench/timetables.py FOLDER TIMES [--compress]

FOLDER has net/ with its five tables, or with six of version 2, bids.csv and stops.csv; they are taken as accepted, no fault is looked for.
TIMES is a timetable from anywhere. Prints what `optra audit` prints of it, and ends with its status; with --compress what `optra compress`
prints, but without the chains, which are free where several serve: `chain_fault` tests any. Each leg is compared with each other one, and
starts are raised in rounds until every rule is kept, so this is for small cases alone.
"""
import argparse
import re
import sys
from collections import Counter, namedtuple

import plain
import reader
from plain import ACTIONS, FINISH, HALT, LAST_MINUTE, PASS, WAIT, Leg

HEADER = "bid,track,depart,from,action,dwell"
FROM = ["pass", "halt"]
MOST_LINES, LONGEST_DWELL = 8000, 240
CODES = ["origin", "start", "depart", "kind", "place", "time", "mode", "stop", "wait", "early", "last", "stops", "destination", "arrive"]

# Bids and legs are numbered by their places from 0; a fault's code is a place in CODES, a station its place in the table.
Line = namedtuple("Line", "bid leg")
Fault = namedtuple("Fault", "bid leg code")
Clash = namedtuple("Clash", "bid leg other_bid other_leg crossing")
Over = namedtuple("Over", "station minute standing")
Report = namedtuple("Report", "faults clashes overs")
# The own leg of the own bid departs at least the gap after the leg of the bid.
Rule = namedtuple("Rule", "bid leg own own_leg gap")
Answer = namedtuple("Answer", "out status error")


class Refused(Exception):
    """A timetable's first fault."""

    def __init__(self, row, code):
        super().__init__(f"refused: timetable row {row} {code}")


def refuse_if(holds, row, code):
    if holds:
        raise Refused(row, code)


# The table

def lines_of(net, bids, text):
    """The lines of a timetable's bytes; or Refused."""
    found = reader.table_records(text)
    refuse_if(next(found, None) != HEADER.encode().split(b","), 1, "Header")
    names = {"bid": {bid.name: place for place, bid in reversed(list(enumerate(bids)))},
             "track": {track.name: place for place, track in enumerate(net.tracks)}}
    lines = []
    for row, record in enumerate(found, start=2):
        lines.append(line_of(names, len(lines), row, record))
    return lines


def line_of(names, count, row, record):
    """The line of a record behind so many others."""
    refuse_if(len(record) != 6 or not all(map(reader.is_text, record)), row, "Csv")
    bid, track, depart, start, action, dwell = (field.decode("utf-8") for field in record)
    refuse_if(not all(re.fullmatch("[0-9]{1,10}", number, re.ASCII) for number in (depart, dwell)), row, "Number")
    depart, dwell = int(depart), int(dwell)
    refuse_if(count == MOST_LINES, row, "U5")
    refuse_if(bid not in names["bid"], row, "U1")
    refuse_if(track not in names["track"], row, "U2")
    refuse_if(start not in FROM or action not in ACTIONS, row, "U3")
    refuse_if(depart > LAST_MINUTE or dwell > LONGEST_DWELL or (action in ("pass", "finish") and dwell != 0), row, "U4")
    return Line(names["bid"][bid], Leg(names["track"][track], depart, start == "halt", ACTIONS.index(action), dwell))


def trains_of(lines):
    """The legs of each bid that has lines, by the bid's place."""
    return {bid: [line.leg for line in lines if line.bid == bid] for bid in sorted({line.bid for line in lines})}


# What is wrong with a train

def arrival(net, bid, leg):
    """The arrival, which isn't there where the type may not use the track."""
    return plain.arrival(net, bid.kind, leg) if plain.may_use(net, leg.track, bid.kind) else None


def next_departure(net, bid, leg):
    """When the next leg has to depart; None after a finish, and where there is no arrival."""
    arrive = arrival(net, bid, leg)
    return None if arrive is None or leg.action == FINISH else arrive + leg.dwell


def is_late_or_early(arrive, first, last):
    """Whether an arrival is there and isn't within its span."""
    return arrive is not None and not first <= arrive <= last


def breaks_stop(bid, count, station, arrive, dwell):
    """Whether the halt of this count, from 1, isn't the stop that it is to be."""
    if count > len(bid.stops):
        return True
    stop = bid.stops[count - 1]
    return (station != stop.station or not stop.min_dwell <= dwell <= stop.max_dwell
            or is_late_or_early(arrive, stop.arrive_from, stop.arrive_to))


def codes_of(net, bid, legs, place):
    """The codes of all that is wrong with a leg of a train, in their order."""
    leg, ends, arrive = legs[place], net.tracks[legs[place].track], arrival(net, bid, legs[place])
    is_first, is_last, before = place == 0, place == len(legs) - 1, legs[place - 1]
    halts = sum(other.action == HALT for other in legs[:place + 1])
    wrong = {
        "origin": is_first and ends.tail != bid.origin,
        "start": is_first and not leg.from_halt,
        "depart": is_first and not bid.depart[0] <= leg.depart <= bid.depart[2],
        "kind": arrive is None,
        "place": not is_first and ends.tail != net.tracks[before.track].head,
        "time": not is_first and next_departure(net, bid, before) not in (None, leg.depart),
        "mode": not is_first and leg.from_halt == (before.action == PASS),
        "stop": leg.action == HALT and breaks_stop(bid, halts, ends.head, arrive, leg.dwell),
        "wait": leg.action == WAIT and not 1 <= leg.dwell <= bid.wait_max,
        "early": leg.action == FINISH and not is_last,
        "last": leg.action != FINISH and is_last,
        "stops": is_last and halts < len(bid.stops),
        "destination": is_last and ends.head != bid.destination,
        "arrive": is_last and is_late_or_early(arrive, bid.arrive[0], bid.arrive[2]),
    }
    return [number for number, code in enumerate(CODES) if wrong[code]]


# What is wrong between trains

def usable_legs(net, bids, trains):
    """(bid, leg number, leg) of all legs whose types may use their tracks, in order."""
    return [(bid, place, leg) for bid, legs in trains.items() for place, leg in enumerate(legs)
            if plain.may_use(net, leg.track, bids[bid].kind)]


def are_near(net, first, second):
    """Whether two uses (track, type, minute) are too near to each other."""
    (one, a, t), (other, b, u) = first, second
    if one == other:
        return plain.in_conflict(net, one, a, t, b, u)
    return (one, other, a, b) in net.crossings and plain.breaks_crossing(net, first, second)


def clashes_of(net, bids, trains):
    found = []
    legs = [(bid, place, (leg.track, bids[bid].kind, leg.depart)) for bid, place, leg in usable_legs(net, bids, trains)]
    for number, (bid, place, use) in enumerate(legs):
        found += [Clash(bid, place, other_bid, other_place, use[0] != other[0])
                  for other_bid, other_place, other in legs[number + 1:] if are_near(net, use, other)]
    return found


def overs_of(net, bids, trains):
    standing = Counter()
    for bid, _, leg in usable_legs(net, bids, trains):
        station, arrive = net.tracks[leg.track].head, arrival(net, bids[bid], leg)
        if leg.action in (HALT, WAIT):
            standing.update((station, minute) for minute in range(arrive, arrive + leg.dwell) if minute <= LAST_MINUTE)
    return [Over(station, minute, count) for (station, minute), count in sorted(standing.items())
            if 0 < net.limits[station] < count]


def report_of(net, bids, trains):
    """All that is wrong with a timetable."""
    faults = [Fault(bid, place, code) for bid, legs in trains.items() for place in range(len(legs))
              for code in codes_of(net, bids[bid], legs, place)]
    return Report(faults, clashes_of(net, bids, trains), overs_of(net, bids, trains))


def audit_lines(net, bids, trains, report):
    lines = [("fault", bid + 1, leg + 1, CODES[code]) for bid, leg, code in report.faults]
    lines += [("crossing" if clash.crossing else "headway", *(number + 1 for number in clash[:4])) for clash in report.clashes]
    lines += [("halts", net.stations[station], minute, standing, net.limits[station]) for station, minute, standing in report.overs]
    count = len(lines)
    lines.append(("faults", count))
    if count == 0:
        lines.append(("revenue", sum(plain.value(net, bids[bid], legs) for bid, legs in trains.items())))
    return lines


def audit(net, bids, text):
    """What the audit of a timetable's bytes answers."""
    try:
        trains = trains_of(lines_of(net, bids, text))
    except Refused as fault:
        return Answer("", 3, f"{fault}\n")
    lines = audit_lines(net, bids, trains, report_of(net, bids, trains))
    return Answer(plain.text_of(lines), 0 if ("faults", 0) in lines else 1, "")


# Compressed times

def gap_of(net, first, second):
    """The minutes from one use to another one at the earliest; None where neither minds the other."""
    (one, a, _), (other, b, _) = first, second
    return net.headways[one, a, b] if one == other else net.crossings.get((one, other, a, b))


def rules_of(net, bids, trains):
    """A rule for every two legs of different trains between which there is a gap, in the order in which they depart."""
    legs = [(bid, place, (leg.track, bids[bid].kind, leg.depart)) for bid, place, leg in usable_legs(net, bids, trains)]
    rules = []
    for bid, place, use in legs:
        for own, own_place, own_use in legs:
            gap = gap_of(net, use, own_use)
            if own != bid and use[2] < own_use[2] and gap is not None:
                rules.append(Rule(bid, place, own, own_place, gap))
    return rules


def distance(legs, place):
    """The minutes from a train's first departure to that of a leg."""
    return legs[place].depart - legs[0].depart


def least_start(trains, starts, rule):
    """The earliest start of the own train by one rule."""
    return starts[rule.bid] + distance(trains[rule.bid], rule.leg) + rule.gap - distance(trains[rule.own], rule.own_leg)


def least_starts(trains, rules):
    """The least starts from 0 that keep the rules: each is raised where it breaks one, in rounds, until none does."""
    starts, is_kept = {bid: 0 for bid in trains}, False
    while not is_kept:
        is_kept = True
        for rule in rules:
            least = least_start(trains, starts, rule)
            if starts[rule.own] < least:
                starts[rule.own], is_kept = least, False
    return starts


def moved(legs, start):
    """The legs of a train at another start."""
    return [leg._replace(depart=start + distance(legs, place)) for place, leg in enumerate(legs)]


def span_of(net, bids, trains):
    """The minutes from the least first departure to the greatest last arrival."""
    return (max((arrival(net, bids[bid], legs[-1]) for bid, legs in trains.items()), default=0)
            - min((legs[0].depart for legs in trains.values()), default=0))


def compressed_lines(net, bids, trains, starts):
    """The records of compressed times, but for the chains."""
    early = {bid: moved(legs, starts[bid]) for bid, legs in trains.items()}
    lines = [("before", span_of(net, bids, trains)), ("after", span_of(net, bids, early))]
    for bid, legs in early.items():
        lines.append(("train", bid + 1, bids[bid].name, bids[bid].bidder, legs[0].depart))
        lines += [plain.leg_line(net, bids[bid], leg) for leg in legs]
    return lines


def compress(net, bids, text):
    """What the compression of a timetable's bytes answers, without the chains."""
    found = audit(net, bids, text)
    if found.status != 0:
        return found
    trains = trains_of(lines_of(net, bids, text))
    starts = least_starts(trains, rules_of(net, bids, trains))
    return Answer(plain.text_of(compressed_lines(net, bids, trains, starts)), 0, "")


def link_fault(trains, rules, starts, linked, record):
    """What is wrong with one record of chains behind those of the linked bids, or None."""
    form = "chain,([0-9]+),start|chain,([0-9]+),([0-9]+),([0-9]+),([0-9]+),([0-9]+)"
    if not re.fullmatch(form, record, re.ASCII):
        return "isn't a record of chains"
    own, *rest = (int(number) if number != "start" else None for number in record.split(",")[1:])
    if own - 1 not in trains or own - 1 in linked:
        return "is of no train, or the second one of a train"
    if rest == [None]:
        return None if starts[own - 1] == 0 else f"is of a start of {starts[own - 1]}"
    own_leg, bid, leg, gap = rest
    rule = Rule(bid - 1, leg - 1, own - 1, own_leg - 1, gap)
    if rule not in rules:
        return "is no rule"
    if least_start(trains, starts, rule) != starts[own - 1]:
        return "is a rule that doesn't bind"
    return None if bid - 1 in linked else "names a bid whose chain doesn't stand before"


def chain_fault(trains, rules, starts, chains):
    """What is wrong with records of chains, or None where they show of each train, one after the other, that it can't start earlier."""
    linked = []
    for record in chains:
        wrong = link_fault(trains, rules, starts, linked, record)
        if wrong:
            return f"{record} {wrong}"
        linked.append(int(record.split(",")[1]) - 1)
    return None if len(linked) == len(trains) else f"there are {len(linked)} chains of {len(trains)} trains"


def main():
    words = argparse.ArgumentParser(description=__doc__, formatter_class=argparse.RawDescriptionHelpFormatter)
    words.add_argument("folder")
    words.add_argument("times")
    words.add_argument("--compress", action="store_true")
    given = words.parse_args()
    net = plain.read_network(f"{given.folder}/net")
    bids = plain.read_bids(net, f"{given.folder}/bids.csv", f"{given.folder}/stops.csv")
    answer = (compress if given.compress else audit)(net, bids, reader.read(given.times))
    sys.stdout.write(answer.out)
    sys.stderr.write(answer.error)
    return answer.status


if __name__ == "__main__":
    sys.exit(main())
