"""The bids without a train, each with what is in its way."""
from .. import losers as why
from ..page import Column, Section, bullets, name, paragraph, table
from ..words import clock, count, listed, money
from .verdict import is_wrong

COLUMNS = [Column("Bid", None), Column("Operator", None), Column("Type", None), Column("From", None), Column("Ideal departure", "time"),
           Column("To", None), Column("Ideal arrival", "time"), Column("Base", "number"), Column("Worth alone", "number"),
           Column("Why", "why")]
MOST_TRAINS = 8


def lost(report):
    losers = report.case.losers
    if not losers:
        return Section("lost", "Bids without a train", paragraph("Every bid is served."))
    told = paragraph(standing(report), " Each is held against the trains that run, on the run that would be worth most if it were alone.")
    return Section("lost", "Bids without a train", told + table(f"{count(len(losers), 'bid')} without a train, in the order of the bids",
                                                                COLUMNS, [row_of(report, loser) for loser in losers]))


def standing(report):
    """What the verdict says of the bids without a train."""
    if is_wrong(report):
        return "Nothing shows that these bids have to lose."
    if report.case.plan.bound > report.case.plan.revenue:
        return "The plan has a gap: that these bids have to lose isn't proved."
    return "The plan is optimal: every choice of trains that serves one of these bids earns at most as much."


def row_of(report, loser):
    bid = loser.bid
    alone = money(loser.walk.value) if loser.walk and loser.case not in why.ALONE else "-"
    return [name(bid.name), name(bid.bidder), name(bid.kind), name(bid.origin), clock(bid.depart.ideal), name(bid.destination),
            clock(bid.arrive.ideal), money(bid.base), alone, WHY[loser.case](report, loser)]


def alone(told):
    """Why a bid can't run even alone."""
    return lambda report, loser: f"It can't run even alone: {told(report.case.ways, loser)}."


def over(bid):
    return f" over {listed([name(stop.station) for stop in bid.stops])}" if bid.stops else ""


def no_way(_, loser):
    bid = loser.bid
    return f"no tracks that its type may use lead from {name(bid.origin)}{over(bid)} to {name(bid.destination)}"


def too_short(ways, loser):
    bid = loser.bid
    return (f"its quickest run takes {why.quickest_run(ways, bid)} minutes, and from its earliest departure to its latest arrival there are "
            f"{max(bid.arrive.last - bid.depart.first, 0)}")


def no_walk(_, loser):
    return "its windows, stops and waits leave it no run"


def worthless(_, loser):
    return f"by its own rates no run of it is worth anything; the best one is worth {money(loser.walk.value)}"


def own_way(_, loser):
    return ("each run of it that is worth anything would be in its own way: it comes back to a track, or to one that crosses it, too "
            "soon")


def meets(report, loser):
    legs = loser.walk.legs
    told = f"Alone it would run from {clock(legs[0].depart)} to {clock(legs[-1].arrive)}. There it meets"
    rest = "" if loser.case == why.UNDECIDED else "No other run of it that is worth anything is free beside the trains that run."
    return told + bullets(met(report, loser)) + rest


def fits(report, loser):
    legs = loser.place.legs
    return (f"It fits beside the trains that run, from {clock(legs[0].depart)} to {clock(legs[-1].arrive)}, and would be worth "
            f"{money(loser.place.value)}: the plan can be bettered by it.")


def undecided(report, loser):
    if loser.walk is None:
        return "It has too many ways to look at all of them here."
    return meets(report, loser) + "It has too many other ways to look at all of them here."


def met(report, loser):
    """A line for each train or station that is in the way."""
    groups = {}
    for meeting in loser.meetings:
        key = meeting.what == "full" and meeting.leg.head, meeting.others
        groups.setdefault(key, []).append(meeting)
    values = {train.bid: train.value for train in report.case.plan.trains}
    lines = [meeting_text(report.case.net, found, values) for found in groups.values()]
    more = len(lines) - MOST_TRAINS
    return lines if more <= 0 else lines[:MOST_TRAINS] + [f"and {count(more, 'train or full station', 'trains or full stations')} more"]


def meeting_text(net, found, values):
    """The first of the meetings with one train, and how many more there are."""
    first = found[0]
    if first.what == "full":
        limit = net.limits[first.leg.head]
        who = listed([name(other) for other in first.others])
        return (f"{name(first.leg.head)}, which holds {limit}: {who} {'stand' if limit > 1 else 'stands'} there when it would, from "
                f"{clock(first.leg.arrive)} on")
    other = name(first.others[0])
    crossing = f" {name(first.theirs.track)}, which crosses it," if first.what == "crossing" else ""
    more = f"; {count(len(found) - 1, 'more such place', 'more such places')}" if len(found) > 1 else ""
    return (f"{other} (worth {money(values[first.others[0]])}) on {name(first.leg.track)}: it would enter at {clock(first.leg.depart)}, "
            f"{other} enters{crossing} at {clock(first.theirs.depart)}, so from {clock(first.first)} to {clock(first.last)} it can't{more}")


WHY = {why.NO_WAY: alone(no_way), why.TOO_SHORT: alone(too_short), why.NO_WALK: alone(no_walk), why.WORTHLESS: alone(worthless),
       why.OWN_WAY: alone(own_way), why.MEETS: meets, why.FITS: fits, why.UNDECIDED: undecided}
