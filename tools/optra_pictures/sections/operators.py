"""What each operator asked for and got."""
from ..page import Column, Section, name, table
from ..words import money

COLUMNS = [Column("Operator", None), Column("Bids", "number"), Column("Trains", "number"), Column("Without a train", "number"),
           Column("Worth of its trains", "number")]


def operators(report):
    plan = report.case.plan
    values = {train.bid: train.value for train in plan.trains}
    rows = []
    for operator in dict.fromkeys(bid.bidder for bid in plan.bids.values()):
        names = [bid.name for bid in plan.bids.values() if bid.bidder == operator]
        served = [values[bid] for bid in names if bid in values]
        rows.append([name(operator), f"{len(names):,}", f"{len(served):,}", f"{len(names) - len(served):,}", money(sum(served))])
    return Section("operators", "Operators", table("Bids and trains by operator", COLUMNS, rows)) if rows else None
