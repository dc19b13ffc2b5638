"""The railway's rules of docs/MODEL.md: what a timed walk is and is worth, and which uses are in conflict."""
from collections import namedtuple

from .tables import LAST_MINUTE

# That a train of a type enters a track in a minute.
Use = namedtuple("Use", "track kind minute")


def running_minutes(net, track, kind, from_halt, to_halt):
    return net.running[track, kind][2 * from_halt + to_halt]


def least_between(net, first, second):
    """The fewest minutes from the first use to the second; None where they have nothing to do with each other."""
    if first.track == second.track:
        return net.headways.get((first.track, first.kind, second.kind))
    return net.crossings.get((first.track, second.track, first.kind, second.kind))


def closed_minutes(net, mine, theirs):
    """The first and the last minute at which their use closes my track to my type; None where it closes none."""
    before, after = least_between(net, mine, theirs), least_between(net, theirs, mine)
    if before is None or after is None:
        return None
    return theirs.minute - before + 1, theirs.minute + after - 1


def are_in_conflict(net, mine, theirs):
    closed = closed_minutes(net, mine, theirs)
    return closed is not None and closed[0] <= mine.minute <= closed[1]


def standing(leg):
    """The minutes in which a train stands at the head of a leg."""
    if leg.action not in ("halt", "wait"):
        return range(0)
    return range(leg.arrive, min(leg.arrive + leg.dwell, LAST_MINUTE + 1))


def start_loss(bid, minute):
    return (bid.rates.early_depart * max(bid.depart.ideal - minute, 0)
            + bid.rates.late_depart * max(minute - bid.depart.ideal, 0))


def end_loss(bid, minute):
    return (bid.rates.early_arrive * max(bid.arrive.ideal - minute, 0)
            + bid.rates.late_arrive * max(minute - bid.arrive.ideal, 0))


def value_of(bid, legs):
    """What a walk is worth, in cents."""
    depart, arrive = legs[0].depart, legs[-1].arrive
    waits = sum(leg.dwell for leg in legs if leg.action == "wait")
    return (bid.base - start_loss(bid, depart) - end_loss(bid, arrive) - bid.rates.travel * (arrive - depart)
            - bid.rates.wait * waits)


def stations_of(legs):
    """The stations of a walk, one after the other."""
    return [legs[0].tail] + [leg.head for leg in legs]


def runs_to_and_fro(legs):
    """The stations that a walk comes to more than once, each once."""
    stations = stations_of(legs)
    return [station for station in dict.fromkeys(stations) if stations.count(station) > 1]


def leg_fault(net, bid, leg, from_halt):
    """What a leg by itself isn't, for a train of the bid; None where it is right."""
    track = net.tracks.get(leg.track)
    if track is None or (track.tail, track.head) != (leg.tail, leg.head) or (leg.track, bid.kind) not in net.running:
        return f"can't run on {leg.track}"
    if leg.arrive != leg.depart + running_minutes(net, leg.track, bid.kind, from_halt, leg.action != "pass"):
        return f"takes another time on {leg.track}"
    if leg.action == "wait" and not 1 <= leg.dwell <= bid.wait_max:
        return f"waits too long at {leg.head}"
    return None


def stops_fault(bid, legs):
    """What the halts of a walk aren't; None where they are the bid's stops."""
    halts = [leg for leg in legs if leg.action == "halt"]
    if len(halts) != len(bid.stops):
        return "makes other stops"
    for leg, stop in zip(halts, bid.stops):
        if leg.head != stop.station or not stop.first <= leg.arrive <= stop.last or not stop.least <= leg.dwell <= stop.most:
            return f"doesn't keep the stop at {stop.station}"
    return None


def walk_fault(net, bid, legs):
    """What legs aren't, where they are no timed walk of the bid; None where they are one."""
    if not legs or legs[0].tail != bid.origin or legs[-1].head != bid.destination:
        return "has other ends"
    if not bid.depart.first <= legs[0].depart <= bid.depart.last or not bid.arrive.first <= legs[-1].arrive <= bid.arrive.last:
        return "runs outside its windows"
    if [leg.action == "finish" for leg in legs] != [False] * (len(legs) - 1) + [True]:
        return "doesn't end once"
    at, minute, from_halt = bid.origin, legs[0].depart, True
    for leg in legs:
        if (leg.tail, leg.depart) != (at, minute):
            return f"isn't where it leaves {leg.tail}"
        wrong = leg_fault(net, bid, leg, from_halt)
        if wrong:
            return wrong
        at, minute, from_halt = leg.head, leg.arrive + leg.dwell, leg.action != "pass"
    return stops_fault(bid, legs)
