"""Printed plans, and the rounds of printed auctions."""
from collections import namedtuple

from . import rules
from .faults import Refused
from .tables import minute, number, records

# Arrival at the head; the action is pass, halt, wait or finish, the dwell what follows a halt or a wait.
Leg = namedtuple("Leg", "track tail depart head arrive action dwell")
Train = namedtuple("Train", "bid bidder value legs")
# The bids are those that were planned, by name and in order; the round is None where no auction was printed.
Plan = namedtuple("Plan", "revenue bound nodes trains bids round")


def rounds_of(found):
    """The records of each round of an auction's text."""
    rounds, current = {}, None
    for record in found:
        if record[0] == "round" and len(record) == 2:
            rounds[record[1]] = current = []
        elif record[0] == "closed":
            break
        elif current is not None:
            current.append(record)
    return rounds


def standing_bids(found, bids, path):
    """The bids that stood in a round, whether the table is that of the round or the specifications that were on sale."""
    stood = [record for record in found if record[0] == "bid" and len(record) == 6]
    table = [(bid.name, bid.bidder, bid.base) for bid in bids.values()]
    if [(name, bidder, number(amount, path)) for _, name, bidder, _, amount, _ in stood] == table:
        return bids
    missing = [spec for _, _, _, spec, _, _ in stood if spec not in bids]
    if missing:
        raise Refused(f"{path}: a bid stands on {missing[0]}, which the bids' table doesn't have")
    return {name: bids[spec]._replace(name=name, bidder=bidder, base=number(amount, path))
            for _, name, bidder, spec, amount, _ in stood}


def round_of(rounds, asked, path):
    """The name of the round that is asked for: the last one where none is."""
    if asked is None:
        return max(rounds, key=int) if rounds else None
    if str(asked) not in rounds:
        raise Refused(f"{path} has no round {asked}")
    return str(asked)


def read_trains(found, path):
    trains = []
    for record in found:
        if record[0] == "train" and len(record) == 5:
            trains.append(Train(record[2], record[3], number(record[4], path), []))
        elif record[0] == "leg" and len(record) == 8 and trains:
            track, tail, depart, head, arrive, action, dwell = record[1:]
            trains[-1].legs.append(Leg(track, tail, minute(depart, path), head, minute(arrive, path), action, number(dwell, path)))
    return trains


def read_plan(net, bids, path, asked=None):
    """A printed plan, or a round of a printed auction, which is of these tables."""
    found = records(path)
    rounds = rounds_of(found)
    current = round_of(rounds, asked, path)
    if current is not None:
        found = rounds[current]
        bids = standing_bids(found, bids, path)
    head = {record[0]: number(record[1], path) for record in found if record[0] in ("revenue", "bound", "nodes") and len(record) == 2}
    if len(head) != 3:
        raise Refused(f"{path} is no printed plan")
    plan = Plan(head["revenue"], head["bound"], head["nodes"], read_trains(found, path), bids, current)
    require_tables(net, plan, path)
    return plan


def require_tables(net, plan, path):
    """Refuses a plan of other tables: its trains would be drawn at places and times that don't mean anything."""
    for train in plan.trains:
        bid = plan.bids.get(train.bid)
        if bid is None:
            raise Refused(f"{path} isn't of these tables: no bid is called {train.bid}")
        wrong = rules.walk_fault(net, bid, train.legs)
        if wrong is None and rules.value_of(bid, train.legs) != train.value:
            wrong = "is worth another sum"
        if wrong:
            raise Refused(f"{path} isn't of these tables: the train of {train.bid} {wrong}")
    if sum(train.value for train in plan.trains) != plan.revenue:
        raise Refused(f"{path} isn't whole: its trains aren't worth its revenue")
