"""What of accepted bids, and of an auction's actions, is most likely not meant."""
from collections import Counter

from .formats import ARRIVES, COLUMNS, DEPARTS, RATES
from .network_warnings import joined, look_alikes, minute_text
from .railway import Bid, Stop, Walks, last_of, first_of, least_minutes, least_run, places_of, span
from .words import clock

# So many times of a table at least have to look like clock times without a sign between, so that it is no chance.
LEAST_TIMES = 12
# A detour of more than this share of the quickest way is told.
FAR = 1.5


def is_whole(row):
    """Whether each cell of a row could be read."""
    return set(COLUMNS[row.place.table]) <= set(row.cells)


def bids_of(known, faulty):
    """The bids without a fault, each with its row."""
    for name in known.bids.lines:
        row, stops = known.bid_rows.get(name), known.stop_rows.get(name, [])
        if row is None or name in faulty or not all(map(is_whole, [row, *stops])):
            continue
        cells = row.cells
        stops = [Stop(*(stop.cells[column] for column in COLUMNS["stops"][1:])) for stop in stops]
        yield row, Bid(name, cells["bidder"], cells["type"], cells["origin"], cells["destination"], [cells[column] for column in DEPARTS],
                       [cells[column] for column in ARRIVES], cells["base"], [cells[column] for column in RATES], cells["wait_max"], stops)


# Bids that no walk serves

def window_text(first, last):
    return minute_text(first) if first == last else f"{minute_text(first)} to {minute_text(last)}"


def no_way(railway, bid):
    """The part of the run for which the type has no way, in words; or None."""
    places = places_of(bid)
    for start, end in zip(places, places[1:]):
        if least_run(railway, bid.kind, start, end, False) is None:
            if start == end:
                return f"its train is to get from {start} to {end} again, and {bid.kind} has no way round"
            return f"{bid.kind} has no way from {start} to {end}"
    return None


def too_late(railway, bid, windows):
    """Where the train is too late even if it leaves as early as it may and goes the quickest way; or None."""
    at, places = bid.depart[0], places_of(bid)
    if bid.arrive[2] < bid.depart[0]:
        return f"its arrival window ends at {minute_text(bid.arrive[2])}, before its departure window begins at {minute_text(at)}"
    for number, (first, last) in enumerate(windows):
        at += least_run(railway, bid.kind, places[number], places[number + 1], bid.wait_max > 0)
        if at > last:
            via = f" by {joined(places[1:number + 1])}" if number else ""
            return (f"leaving at {minute_text(bid.depart[0])} it is at {places[number + 1]}{via} at {minute_text(at)} at the earliest, after "
                    f"arrive_to, {minute_text(last)}")
        if number < len(bid.stops):
            at = max(at, first) + bid.stops[number].min_dwell
    return None


def unfit(walks):
    """Where the train can't halt within its window, although not too late."""
    for number, (first, last) in enumerate(walks.windows):
        arrives = walks.arrives[number]
        if arrives & span(first, last):
            continue
        place = walks.places[number + 1]
        if arrives and last_of(arrives) < first:
            return (f"it is at {place} at {minute_text(last_of(arrives))} at the latest, before arrive_from, {minute_text(first)}; a later "
                    f"depart_to or a longer wait_max lets it come later")
        if arrives and first_of(arrives) <= last_of(arrives):
            return f"none of the minutes at which it can be at {place} is in {window_text(first, last)}"
    return "its windows, dwells and waits leave no timed walk"


def unserved(railway, bid):
    """Why no timed walk serves a bid, in words; None where one does, or where that would take too long to find out."""
    reason = no_way(railway, bid)
    if reason:
        return reason
    walks = Walks(railway, bid)
    walks.search()
    if walks.is_served or not walks.is_sure:
        return None
    return too_late(railway, bid, walks.windows) or unfit(walks)


# Bids that are served, and yet odd

def roundabout(railway, bid):
    """Why a bid's train can't go straight from stop to stop, in words; None where it can, or goes back at a stop that is off the way."""
    walks = Walks(railway, bid, is_straight=True)
    walks.search()
    if walks.is_served or not walks.is_sure or len(set(walks.places)) < len(walks.places):
        return None
    return f"it can run only to and fro or by a detour: straight on {unfit(walks)}"


def worthless(bid, least):
    """Why a bid's train can be worth nothing, in words; or None."""
    cost = bid.rates[4] * least
    if bid.base > cost:
        return None
    if bid.base == 0:
        return "its base is 0, so it never runs"
    return f"its base of {bid.base} is no more than {least} minutes under way at {bid.rates[4]} each, so it never runs"


def ideals(bid, least):
    """What is wrong with the two ideal minutes, in words; or None."""
    depart, arrive = bid.depart[1], bid.arrive[1]
    if arrive <= depart:
        return f"its ideal arrival, {minute_text(arrive)}, isn't after its ideal departure, {minute_text(depart)}"
    if arrive - depart < least:
        return f"from its ideal departure to its ideal arrival are {arrive - depart} minutes, and it takes {least} at least"
    return None


def way_by(railway, kind, places):
    """The stations of the quickest ways from each place to the next."""
    found = [places[0]]
    for start, end in zip(places, places[1:]):
        found += (railway.way(kind, start, end) or [])[1:]
    return found


def minutes_by(railway, kind, places):
    """The least minutes over these places in turn, halting nowhere; None where there is no way."""
    parts = [railway.rests(kind, end).get(start) for start, end in zip(places, places[1:])]
    return None if None in parts else sum(parts)


def off_the_way(railway, bid):
    """A stop that the train goes out of its way for, in words; or None."""
    places = places_of(bid)
    direct = minutes_by(railway, bid.kind, [bid.origin, bid.destination])
    total = minutes_by(railway, bid.kind, places)
    for stop in bid.stops:
        if stop.station in (bid.origin, bid.destination):
            return f"it stops at {stop.station}, where its run {'begins' if stop.station == bid.origin else 'ends'}; no stop is needed there"
    if not bid.stops or total == direct:
        return None
    order = sorted(bid.stops, key=lambda stop: minutes_by(railway, bid.kind, [bid.origin, stop.station]) or 0)
    names = [stop.station for stop in order]
    sorted_total = minutes_by(railway, bid.kind, [bid.origin, *names, bid.destination])
    if sorted_total is not None and sorted_total < total:
        return f"its stops take {total} minutes in their order, and {sorted_total} as {joined(names)}; are they in the right order?"
    way = way_by(railway, bid.kind, places)
    twice = next((station for station in way if way.count(station) > 1), None)
    if twice:
        return f"to stop at {joined(stop.station for stop in bid.stops)} it passes {twice} twice; is a stop off the way?"
    if total > FAR * direct:
        return f"by its stops it takes {total} minutes, and {direct} without them; is a stop off the way?"
    return None


def check_bids(railway, known, faulty, findings):
    """The warnings of each bid that has no fault."""
    table = known.tables["bids"]
    for row, bid in bids_of(known, faulty):
        place = table.place(row.place.line, row.place.row)
        reason = unserved(railway, bid)
        if reason:
            detour = None if no_way(railway, bid) else off_the_way(railway, bid)
            reason += f"; {detour}" if detour else ""
            findings.warn(place, None, f"{bid.name} can never run: {reason}", "unserved", "bids that can never run")
            continue
        least = least_minutes(railway, bid)
        for kind, text in (("worthless", worthless(bid, least)), ("ideals", ideals(bid, least)), ("roundabout", roundabout(railway, bid)),
                           ("way", off_the_way(railway, bid))):
            if text:
                findings.warn(place, None, f"{bid.name}: {text}", kind, "bids of this kind")


# The table as a whole

def same_bids(known, faulty, findings):
    """Bids that are alike in all but their names."""
    seen = {}
    for row, bid in bids_of(known, faulty):
        alike = repr(bid._replace(name=""))
        if alike in seen:
            findings.warn(row.place, None, f"{bid.name} says the same as {seen[alike]}; is it there twice?", "twice")
        seen.setdefault(alike, bid.name)


def unsigned_clocks(known, findings):
    """Times such as 730 that most likely mean 7:30: none of many ends in 60 to 99."""
    times = {row.cells[column] for row in known.bid_rows.values() for column in DEPARTS + ARRIVES if column in row.cells}
    times = {time for time in times if time >= 100}
    if len(times) >= LEAST_TIMES and all(time % 100 < 60 for time in times) and max(times) < 2400:
        time = min(times)
        text = f"no time ends in 60 to 99, so they may be clock times without a colon: {time} is {clock(time)}, and {time // 100}:{time % 100:02} "
        findings.warn(known.tables["bids"].place(), None, text + f"is written {time // 100 * 60 + time % 100}", "clocks")


def bidders(known, findings):
    """Bidders whose names differ by spaces and capitals alone: those that stand in fewer rows."""
    spellings = {}
    for row in known.bid_rows.values():
        name = row.cells.get("bidder")
        if name is not None:
            spellings.setdefault("".join(name.casefold().split()), Counter())[name] += 1
    for row in known.bid_rows.values():
        name = row.cells.get("bidder", "")
        found = spellings.get("".join(name.casefold().split()), Counter())
        if len(found) > 1 and name != found.most_common(1)[0][0]:
            findings.warn(row.place, "bidder", f"{name!r} and {found.most_common(1)[0][0]!r} are two bidders; is one meant?", name)


def bid_warnings(railway, known, faulty, findings):
    look_alikes(known.bids, findings)
    bidders(known, findings)
    unsigned_clocks(known, findings)
    same_bids(known, faulty, findings)
    check_bids(railway, known, faulty, findings)


# Actions

def action_warnings(known, findings):
    """Actions that the auction is bound to refuse, whoever wins."""
    opened = set()
    for row in sorted(known.actions, key=lambda row: row.cells.get("round", 0)):
        cells = row.cells
        action, bid = cells.get("action"), cells.get("bid")
        spec = cells.get("spec") if action in ("open", "amend") else None
        told = known.bids.missing(spec) if spec is not None else None
        if told:
            findings.warn(row.place, "spec", f"{told} (the auction refuses this: A1)", told)
        base = known.bid_rows[spec].cells.get("base") if spec in known.bid_rows else None
        if action == "open":
            opened.add(bid)
            if base is not None and cells.get("amount", base) < base:
                text = f"{cells['amount']} is less than the reserve of {spec}, {base} (the auction refuses this: A3)"
                findings.warn(row.place, "amount", text, "reserve")
        elif bid is not None and bid not in opened:
            findings.warn(row.place, "bid", f"{bid!r} wasn't opened before (the auction refuses this: A4)", "unopened")
