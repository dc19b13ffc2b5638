"""The trains that run: when, how far off their ideals, and worth what."""
from .. import losers as why, rules
from ..page import Column, Section, name, paragraph, table, tag
from ..words import clock, count, listed, money, off

COLUMNS = [Column("Bid", None), Column("Operator", None), Column("Type", None), Column("From", None), Column("Departs", "time"),
           Column("Off ideal departure", "number"), Column("To", None), Column("Arrives", "time"), Column("Off ideal arrival", "number"),
           Column("Worth", "number"), Column("Less than alone", "number"), Column("On the way", "notes")]


def trains(report):
    ways, plan = report.case.ways, report.case.plan
    if not plan.trains:
        return Section("trains", "Trains that run", paragraph("No train runs."))
    told = paragraph("Minutes off the ideal departure and arrival have a minus where the train is early. A train is worth its base less "
                     "what its minutes cost by its own rates. The column behind it says how much more it would be worth if no other train "
                     "ran.")
    return Section("trains", "Trains that run", told + table(f"{count(len(plan.trains), 'train')}, in the order of the bids", COLUMNS,
                                                             [row_of(ways, plan.bids[train.bid], train) for train in plan.trains]))


def row_of(ways, bid, train):
    first, last = train.legs[0], train.legs[-1]
    alone = why.worth_alone(ways, bid)
    less = "not known" if alone is None else money(alone - train.value) if alone > train.value else "0"
    return [name(bid.name), name(bid.bidder), name(bid.kind), name(first.tail), clock(first.depart), off(first.depart - bid.depart.ideal),
            name(last.head), clock(last.arrive), off(last.arrive - bid.arrive.ideal), money(train.value), less, notes_of(train.legs)]


def notes_of(legs):
    """What is out of the common: waits, and stations that a train comes to more than once."""
    notes = [f"waits {leg.dwell} min at {name(leg.head)}" for leg in legs if leg.action == "wait"]
    again = rules.runs_to_and_fro(legs)
    if again:
        stations = listed([name(station) for station in again], 4)
        notes.append(f"{tag('strong', 'runs to and fro')}: more than once at {stations}")
    return "; ".join(notes)
