"""Why a bid isn't served: it can't run even alone, or whom it meets."""
from collections import namedtuple

from . import walks
from .meetings import Occupancy

# The case is one of the words below; the walk is the best one that the bid would have alone, with what is in its way; the place is
# the best walk that is free beside all trains that run, where there is one.
Loser = namedtuple("Loser", "bid case walk meetings place")

NO_WAY = "no way"              # no tracks of its type lead over its stops to its destination
TOO_SHORT = "too short"        # its windows leave fewer minutes than the quickest run takes
NO_WALK = "no walk"            # its windows, stops and waits leave no walk
WORTHLESS = "worthless"        # no walk of it is worth anything
OWN_WAY = "own way"            # all walks of it that are worth anything are in their own way
MEETS = "meets"                # each walk of it that is worth anything meets something
FITS = "fits"                  # one of its walks that are worth something is free: the plan can be bettered
UNDECIDED = "undecided"        # it has more ways than are looked at
ALONE = (NO_WAY, TOO_SHORT, NO_WALK, WORTHLESS, OWN_WAY)


def losers_of(ways, plan):
    """The bids of a plan that aren't served, in order."""
    served, occupancy = {train.bid for train in plan.trains}, Occupancy(ways.net, plan)
    return [loser_of(ways, bid, occupancy) for bid in plan.bids.values() if bid.name not in served]


def loser_of(ways, bid, occupancy):
    search = walks.Search(ways, bid)
    quickest = search.quickest()
    if quickest is None:
        return Loser(bid, NO_WAY, None, [], None)
    if bid.depart.first + quickest > bid.arrive.last:
        return Loser(bid, TOO_SHORT, None, [], None)
    try:
        walk = search.best()
        if walk is None or walk.value <= 0:
            return Loser(bid, NO_WALK if walk is None else WORTHLESS, walk, [], None)
        walk = walks.best_walk(ways, bid, least=0)
    except walks.TooMany:
        return Loser(bid, UNDECIDED, None, [], None)
    if walk is None:
        return Loser(bid, OWN_WAY, search.best(), [], None)
    return beside(ways, bid, walk, occupancy)


def beside(ways, bid, walk, occupancy):
    """Why a bid that could run alone doesn't run beside the trains of the plan."""
    met = occupancy.meetings_of(bid.kind, walk.legs)
    if not met:
        return Loser(bid, FITS, walk, met, walk)
    try:
        place = walks.best_walk(ways, bid, occupancy, least=0)
    except walks.TooMany:
        return Loser(bid, UNDECIDED, walk, met, None)
    return Loser(bid, FITS if place else MEETS, walk, met, place)


def quickest_run(ways, bid):
    """The fewest minutes that a bid could be under way; None where no tracks lead to its destination."""
    return walks.Search(ways, bid).quickest()


def worth_alone(ways, bid):
    """The most that a bid could be worth if no other train ran; None where that isn't known."""
    try:
        walk = walks.best_walk(ways, bid)
    except walks.TooMany:
        return None
    return walk.value if walk else None
