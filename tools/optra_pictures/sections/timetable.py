"""Each train, station by station."""
from ..page import Section, name, paragraph, tag
from ..words import clock

HEAD = tag("thead", tag("tr", *(tag("th", heading, scope="col", class_=kind) for heading, kind in (
    ("Station", None), ("Arrives", "time"), ("Departs", "time"), ("", None)))))


def timetable(report):
    plan = report.case.plan
    if not plan.trains:
        return None
    tables = [train_table(plan.bids[train.bid], train.legs) for train in plan.trains]
    return Section("timetable", "Timetable", paragraph("Each train, station by station, in the order of the bids.")
                   + tag("div", "\n".join(tables), class_="timetable"))


def train_table(bid, legs):
    rows = [row(legs[0].tail, "", clock(legs[0].depart), "starts")]
    for leg in legs:
        rows.append(row(leg.head, "" if leg.action == "pass" else clock(leg.arrive),
                        "" if leg.action == "finish" else clock(leg.arrive + leg.dwell), told(leg)))
    caption = tag("caption", tag("strong", name(bid.name)), f", {name(bid.bidder)}, {name(bid.kind)}")
    return tag("table", caption, HEAD, tag("tbody", *rows))


def told(leg):
    """What a train does at the end of a leg."""
    return {"pass": "passes", "halt": "stops", "wait": "waits", "finish": "ends"}[leg.action]


def row(station, arrives, departs, does):
    return tag("tr", tag("th", name(station), scope="row"), tag("td", arrives, class_="time"), tag("td", departs, class_="time"),
               tag("td", does, class_="off"))
