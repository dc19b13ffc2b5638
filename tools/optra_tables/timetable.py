"""A printed plan as a timetable with clock times: train by train, station by station, or as a sheet."""
import csv
from collections import namedtuple

from . import formats
from .sheet_reading import Unusable
from .words import clock, count, money

# A call of a train at a station: where it comes from and goes to is told by its train.
Call = namedtuple("Call", "station arrive depart action")
Train = namedtuple("Train", "bid bidder value calls")
Plan = namedtuple("Plan", "heading trains")
ACTIONS = {"pass": "passes", "halt": "halts", "wait": "waits", "finish": "ends"}
HEADER = ["train", "bidder", "station", "arrival", "departure", "action"]


# Reading a printed plan, or a round of a printed auction

def all_records(path):
    try:
        with open(path, encoding="utf-8", newline="") as file:
            return [record for record in csv.reader(file) if record]
    except (OSError, UnicodeDecodeError, csv.Error) as error:
        raise Unusable(path, f"can't be read: {error}") from error


def records_of_round(found, asked, path):
    """The records of a plan: all of them, or of an auction those of a round, the last one where none is asked for."""
    starts = [place for place, record in enumerate(found) if record[0] in ("round", "closed")]
    rounds = {found[place][1]: found[place + 1:end] for place, end in zip(starts, [*starts[1:], len(found)]) if found[place][0] == "round"}
    if asked is not None and asked not in rounds:
        raise Unusable(path, f"has no round {asked}")
    return rounds[asked or max(rounds, key=int)] if rounds else found


def calls_of(legs):
    """The calls of a train: its origin, and the head of each leg."""
    first = legs[0]
    calls = [Call(first[2], None, int(first[3]), "starts")]
    for leg in legs:
        arrive, dwell, action = int(leg[5]), int(leg[7]), leg[6]
        depart = None if action == "finish" else arrive + dwell
        calls.append(Call(leg[4], arrive, depart, ACTIONS[action]))
    return calls


def is_train(found):
    """Whether a train's record and its legs are as the program prints them."""
    (_, _, value), legs = found
    return formats.is_number(value) and all(leg[6] in ACTIONS for leg in legs)


def read_plan(path, asked):
    found = records_of_round(all_records(path), asked, path)
    is_whole = all(formats.is_number(record[place]) for record in found if record[0] == "leg" and len(record) == 8 for place in (3, 5, 7))
    heading = {record[0]: record[1] for record in found if record[0] in ("status", "revenue", "bound") and len(record) == 2}
    is_whole = is_whole and all(text.isascii() and text.isdigit() for word, text in heading.items() if word != "status")
    trains = []
    for record in found:
        if record[0] == "train" and len(record) == 5:
            trains.append((record[2:], []))
        elif record[0] == "leg" and len(record) == 8 and trains:
            trains[-1][1].append(record)
    if len(heading) < 3 or not is_whole or not all(map(is_train, trains)):
        raise Unusable(path, "is no printed plan")
    return Plan(heading, [Train(*names, calls_of(legs)) for names, legs in trains if legs])


# Printing

def time_text(minute):
    return "" if minute is None else clock(minute)


def heading_of(plan):
    told = f"{plan.heading['status']}, {count(len(plan.trains), 'train')}, revenue {money(int(plan.heading['revenue']))}"
    return told + ("" if plan.heading["status"] == "optimal" else f", at most {money(int(plan.heading['bound']))}")


def by_train(plan):
    """Each train with its stations down the page."""
    width = max((len(call.station) for train in plan.trains for call in train.calls), default=0)
    lines = [heading_of(plan)]
    for train in plan.trains:
        first, last = train.calls[0], train.calls[-1]
        lines += ["", f"{train.bid} ({train.bidder}): {first.station} {clock(first.depart)} to {last.station} {clock(last.arrive)}, "
                      f"worth {money(int(train.value))}"]
        for call in train.calls:
            arrive = "" if call.action == "passes" else time_text(call.arrive)
            lines.append(f"  {call.station:{width}} {arrive:>8} {time_text(call.depart):>8}  {call.action}")
    return lines


def by_station(plan):
    """Each station with its trains by the clock."""
    boards = {}
    for train in plan.trains:
        for call in train.calls:
            boards.setdefault(call.station, []).append((call.depart if call.depart is not None else call.arrive, train, call))
    width = max((len(train.bid) for train in plan.trains), default=0)
    lines = [heading_of(plan)]
    for station in sorted(boards):
        lines += ["", station]
        for _, train, call in sorted(boards[station], key=lambda found: found[0]):
            arrive = "" if call.action == "passes" else time_text(call.arrive)
            ends = f"{train.calls[0].station} to {train.calls[-1].station}"
            lines.append(f"  {arrive:>8} {time_text(call.depart):>8}  {train.bid:{width}}  {call.action:6}  {ends}")
    return lines


def sheet(plan):
    """A row for each call."""
    return [HEADER, *([train.bid, train.bidder, call.station, time_text(call.arrive), time_text(call.depart), call.action]
                      for train in plan.trains for call in train.calls)]
