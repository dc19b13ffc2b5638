#!/usr/bin/env python3
"""A slow reader of tables and certificates, written from docs/FORMATS.md and docs/MODEL.md and not from the crates.

    python3 bench/reader.py FOLDER [CERTIFICATE]

FOLDER has net/ with its five tables, or with six of version 2, bids.csv and stops.csv. Prints the line of the first fault of the tables and ends with 3.
Without a fault and with a certificate it prints the verdict, and ends with 0 or 4. Every dual value is found anew at each leaf,
over a table of all moments of a bid, so this is for small cases.
"""
import re
import sys
from collections import Counter, namedtuple

BYTE_ORDER_MARK = b"\xef\xbb\xbf"
LAST_MINUTE, LAST_ROW_MINUTE = 2879, 2998
GREATEST_PRICE = 2_000_000_000_000
MOST_REACH = 4000

HEADERS = {
    "stations": "station",
    "tracks": "track,from,to",
    "types": "type",
    "running": "track,type,pass_pass,pass_halt,halt_pass,halt_halt",
    "headways": "track,first,second,minutes",
    "crossings": "first_track,second_track,first,second,minutes",
    "bids": "bid,bidder,type,origin,destination,depart_from,depart_ideal,depart_to,arrive_from,arrive_ideal,arrive_to,"
            "base,early_depart,late_depart,early_arrive,late_arrive,travel,wait,wait_max",
    "stops": "bid,station,min_dwell,max_dwell,arrive_from,arrive_to",
    "rules": "min_increment,permille,rounds",
    "actions": "round,bidder,action,bid,spec,amount",
}
STATIONS_2 = "station,halt_max"
NAMES = {"station", "track", "first_track", "second_track", "from", "to", "type", "first", "second", "bid", "bidder", "origin", "destination", "spec"}
# Which fields of an action are read beside the others, by its word.
READ_OF = {"open": {"spec", "amount"}, "raise": {"amount"}, "amend": {"spec"}, "withdraw": set()}
# The tables of a plan in version 1; in version 2 the crossings come behind the headways.
PLAN_TABLES = ["stations", "tracks", "types", "running", "headways", "bids", "stops"]

Leg = namedtuple("Leg", "track depart from_halt action dwell")


class Refused(Exception):
    """A table's first fault."""

    def __init__(self, table, row, code):
        super().__init__(f"refused: {table} row {row} {code}")


class Unreadable(Exception):
    """A certificate's first fault."""

    def __init__(self, row, code):
        super().__init__(f"verdict,unreadable,{row},{code}")


# Records

def field_at(text, at):
    """The field that begins at a place, and the place behind it."""
    field = bytearray()
    if text[at:at + 1] == b'"':
        at += 1
        while at < len(text):
            if text[at:at + 1] != b'"':
                field.append(text[at])
                at += 1
            elif text[at + 1:at + 2] == b'"':
                field.append(text[at])
                at += 2
            else:
                at += 1
                break
    while at < len(text) and text[at:at + 1] not in (b",", b"\r", b"\n"):
        field.append(text[at])
        at += 1
    return bytes(field), at


def records(text):
    """The records of a text in turn, each a list of fields of bytes. Empty lines are none."""
    at = 0
    while True:
        while at < len(text) and text[at:at + 1] in (b"\r", b"\n"):
            at += 1
        if at == len(text):
            return
        field, at = field_at(text, at)
        record = [field]
        while text[at:at + 1] == b",":
            field, at = field_at(text, at + 1)
            record.append(field)
        yield record


def is_text(field):
    try:
        field.decode("utf-8")
    except UnicodeDecodeError:
        return False
    return True


def is_name(field):
    return 1 <= len(field) <= 64 and not any(ord(c) < 0x20 or 0x7F <= ord(c) <= 0x9F for c in field.decode("utf-8"))


# Tables

def table_records(text):
    """The records of a table: one byte-order mark is dropped, and behind a second one there are none."""
    if text.startswith(BYTE_ORDER_MARK):
        text = text[3:]
    return records(b"" if text.startswith(BYTE_ORDER_MARK) else text)


def version_of(stations):
    """The version of the tables, by the header of the stations."""
    return 2 if next(table_records(stations), None) == STATIONS_2.encode().split(b",") else 1


def rows(table, text, header=None):
    """The rows of a table behind its header, each with its number and its fields: names as texts, numbers as numbers."""
    header = (header or HEADERS[table]).split(",")
    found = table_records(text)
    if next(found, None) != [word.encode() for word in header]:
        raise Refused(table, 1, "Header")
    for number, record in enumerate(found, start=2):
        if len(record) != len(header) or not all(map(is_text, record)):
            raise Refused(table, number, "Csv")
        unread = {"spec", "amount"} - READ_OF.get(record[2].decode("utf-8"), set()) if table == "actions" else set()
        fields = []
        for word, field in zip(header, record):
            if word == "action" or word in unread:
                fields.append(field.decode("utf-8"))
            elif word in NAMES:
                if not is_name(field):
                    raise Refused(table, number, "Name")
                fields.append(field.decode("utf-8"))
            else:
                if not re.fullmatch(rb"[0-9]{1,10}", field):
                    raise Refused(table, number, "Number")
                fields.append(int(field))
        yield number, fields


def refuse_if(holds, table, row, code):
    if holds:
        raise Refused(table, row, code)


class Network:
    """The network that the tables mean."""

    def __init__(self, tables):
        self.version = version_of(tables["stations"])
        self.stations, self.tracks, self.types = [], [], []
        self.limits, self.ends, self.running, self.headways, self.crossings = {}, {}, {}, {}, {}
        for row, (name, *limit) in rows("stations", tables["stations"], STATIONS_2 if self.version == 2 else None):
            refuse_if(len(self.stations) == 300, "stations", row, "N7")
            refuse_if(name in self.stations, "stations", row, "N1")
            refuse_if(max(limit, default=0) > 1000, "stations", row, "N3")
            self.stations.append(name)
            self.limits[name] = max(limit, default=0)
        for row, (name, tail, head) in rows("tracks", tables["tracks"]):
            refuse_if(len(self.tracks) == 1000, "tracks", row, "N7")
            refuse_if(name in self.ends, "tracks", row, "N1")
            refuse_if(tail not in self.stations or head not in self.stations, "tracks", row, "N2")
            refuse_if(tail == head, "tracks", row, "N4")
            self.tracks.append(name)
            self.ends[name] = (tail, head)
        for row, (name,) in rows("types", tables["types"]):
            refuse_if(len(self.types) == 16, "types", row, "N7")
            refuse_if(name in self.types, "types", row, "N1")
            self.types.append(name)
        for row, (track, kind, *minutes) in rows("running", tables["running"]):
            refuse_if(track not in self.ends or kind not in self.types, "running", row, "N2")
            refuse_if(not all(1 <= m <= 240 for m in minutes), "running", row, "N3")
            refuse_if((track, kind) in self.running, "running", row, "N5")
            self.running[track, kind] = minutes
        for row, (track, first, second, minutes) in rows("headways", tables["headways"]):
            refuse_if(track not in self.ends or not {first, second} <= set(self.types), "headways", row, "N2")
            refuse_if(not 1 <= minutes <= 120, "headways", row, "N3")
            refuse_if((track, first, second) in self.headways, "headways", row, "N5")
            self.headways[track, first, second] = minutes
        users = {}
        for track, kind in self.running:
            users.setdefault(track, []).append(kind)
        refuse_if(any((track, a, b) not in self.headways for track, kinds in users.items() for a in kinds for b in kinds),
                  "headways", 0, "N6")
        if self.version == 2:
            self.read_crossings(tables["crossings"])
        self.least = {(track, a): min(self.headways[track, a, b] for b in kinds) for track, kinds in users.items() for a in kinds}
        self.leaving = {station: [t for t in self.tracks if self.ends[t][0] == station] for station in self.stations}

    def read_crossings(self, text):
        for row, (one, other, first, second, minutes) in rows("crossings", text):
            refuse_if(not {one, other} <= self.ends.keys() or not {first, second} <= set(self.types), "crossings", row, "N2")
            refuse_if(one == other, "crossings", row, "N4")
            refuse_if(not 1 <= minutes <= 120, "crossings", row, "N3")
            refuse_if((one, other, first, second) in self.crossings, "crossings", row, "N5")
            self.crossings[one, other, first, second] = minutes
        refuse_if(any((other, one, second, first) not in self.crossings for one, other, first, second in self.crossings),
                  "crossings", 0, "N8")
        reach = Counter()
        for (one, other, first, second), minutes in self.crossings.items():
            reach[one, first] += minutes + self.crossings[other, one, second, first] - 1
        refuse_if(max(reach.values(), default=0) > MOST_REACH, "crossings", 0, "N9")


class Bid:
    """A bid by its fields; its stops are added behind."""

    def __init__(self, fields):
        self.name, self.bidder, self.kind, self.origin, self.destination = fields[:5]
        self.depart, self.arrive, self.base = fields[5:8], fields[8:11], fields[11]
        self.early_depart, self.late_depart, self.early_arrive, self.late_arrive, self.travel, self.wait = fields[12:18]
        self.wait_max, self.stops = fields[18], []


def read_bids(net, tables):
    bids = {}
    for row, fields in rows("bids", tables["bids"]):
        bid = Bid(fields)
        refuse_if(len(bids) == 1000, "bids", row, "N7")
        refuse_if(bid.name in bids, "bids", row, "N1")
        refuse_if(bid.kind not in net.types or not {bid.origin, bid.destination} <= set(net.stations), "bids", row, "B4")
        refuse_if(bid.origin == bid.destination, "bids", row, "B1")
        refuse_if(sorted(bid.depart) != bid.depart or sorted(bid.arrive) != bid.arrive, "bids", row, "B2")
        refuse_if(max(bid.depart + bid.arrive) > LAST_MINUTE or bid.base > 1_000_000_000 or max(fields[12:18]) > 1_000_000
                  or bid.wait_max > 30, "bids", row, "B3")
        bids[bid.name] = bid
    for row, (name, station, least, most, first, last) in rows("stops", tables["stops"]):
        refuse_if(name not in bids or station not in net.stations, "stops", row, "B4")
        refuse_if(last < first, "stops", row, "B2")
        refuse_if(last > LAST_MINUTE or first > LAST_MINUTE or least > 240 or most > 240, "stops", row, "B3")
        refuse_if(len(bids[name].stops) == 8 or least > most or most - least > 30, "stops", row, "B5")
        bids[name].stops.append((station, least, most, first, last))
    return list(bids.values())


def read_rules(text):
    found = rows("rules", text)
    row, (least, permille, rounds) = next(found, (2, (None,) * 3))
    refuse_if(least is None, "rules", 2, "Csv")
    refuse_if(not 1 <= least <= 1_000_000_000 or permille > 1000 or not 1 <= rounds <= 100, "rules", row, "N3")
    return least, permille, rounds


def read_actions(text):
    for count, (row, (round_, _, action, _, _, amount)) in enumerate(rows("actions", text)):
        refuse_if(count == 100_000, "actions", row, "N7")
        refuse_if(action not in READ_OF, "actions", row, "N2")
        refuse_if(not 1 <= round_ <= 100 or ("amount" in READ_OF[action] and amount > 1_000_000_000), "actions", row, "N3")


def read_auction(tables):
    """The rules and actions of an auction; or Refused."""
    rules = read_rules(tables["rules"])
    refuse_if(len(list(records_behind(tables["rules"]))) > 1, "rules", 3, "Csv")
    read_actions(tables["actions"])
    return rules


def records_behind(text):
    """The records of a text behind its header."""
    return list(records(text.removeprefix(BYTE_ORDER_MARK)))[1:]


def read_tables(tables):
    """The network and the bids of the tables, which are bytes by their names; or Refused."""
    net = Network(tables)
    return net, read_bids(net, tables)


# Certificates

def written(record):
    """A record as it is written."""
    def shown(field):
        return b'"' + field.replace(b'"', b'""') + b'"' if re.search(rb'[,"\r\n]', field) else field
    return b",".join(map(shown, record)) + b"\n"


# What stands in the fields behind the first word of a record.
LEG_FIELDS = ["bid", "track", "departure", "from", "action", "dwell"]
ROW_FIELDS = {"window": ["track", "minute"], "pair": ["track", "type", "minute", "type", "minute"]}
ROW_FIELDS_2 = {**ROW_FIELDS, "cross": ["track", "minute", "type", "track", "minute", "type"], "halt": ["station", "minute"]}
WORDS = {"from": ["halt", "pass"], "action": ["pass", "halt", "wait", "finish"]}


def form_of(record, row_fields):
    """What stands in each field behind the first word, or None where the record has no form."""
    word, cells = record[0], record[1:]
    if word in ("revenue", "bound", "priced"):
        form = ["number"]
    elif word in ("leg", "split"):
        form = LEG_FIELDS
    elif word == "nowalk":
        form = ["bid"]
    elif word in ("forced", "price"):
        if not cells or cells[0] not in row_fields:
            return None
        form = ["kind", *row_fields[cells[0]]] + (["number"] if word == "price" else [])
    else:
        return None
    if len(cells) != len(form) or any(cell not in WORDS.get(part, [cell]) for part, cell in zip(form, cells)):
        return None
    return form


class Certificate:
    """What a certificate's text says; or Unreadable."""

    def __init__(self, net, bids, text):
        self.net, self.bids = net, bids
        self.legs, self.tree = [], []
        found = list(records(text))
        if (text.startswith(BYTE_ORDER_MARK) or any(record == [b""] or not all(map(is_text, record)) for record in found)
                or b"".join(map(written, found)) != text):
            raise Unreadable(0, "C1")
        found = [[field.decode("utf-8") for field in record] for record in found]
        versions = [["optra-certificate", str(version)] for version in range(1, net.version + 1)]
        if not found or found[0] not in versions:
            raise Unreadable(1, "C2")
        self.row_fields = ROW_FIELDS_2 if found[0] == ["optra-certificate", "2"] else ROW_FIELDS
        self.open, self.due, self.heads = 1, 0, ["revenue", "bound"]
        for row, record in enumerate(found[1:], start=2):
            self.take(row, record)
        if self.heads or self.open:
            raise Unreadable(len(found) + 1, "C6")

    def may_come(self):
        """The first words that may come."""
        if self.heads:
            return self.heads[:1]
        if self.due:
            return ["price"]
        return ["split", "nowalk", "forced", "priced"] + ([] if self.tree else ["leg"])

    def take(self, row, record):
        if not self.open:
            raise Unreadable(row, "C6")
        form = form_of(record, self.row_fields) if record[0] in self.may_come() else None
        if form is None:
            raise Unreadable(row, "C3")
        values = []
        for part, cell in zip(form, record[1:]):
            values.append(self.value(row, part, cell, values))
        word = record[0]
        if word in ("revenue", "bound"):
            setattr(self, word, values[0])
            self.heads.pop(0)
        elif word == "leg":
            if self.legs and values[0] < self.legs[-1][0]:
                raise Unreadable(row, "C6")
            self.legs.append((values[0], Leg(*values[1:])))
        elif word == "price":
            self.take_price(row, tuple(values[:-1]), values[-1])
        else:
            self.take_item(word, values)

    def take_item(self, word, values):
        if word == "split":
            self.tree.append(("split", values[0], Leg(*values[1:])))
            self.open += 1
        elif word == "priced":
            self.tree.append(("priced", []))
            self.due = values[0]
            self.open -= not self.due
        else:
            self.tree.append((word, values[0] if word == "nowalk" else tuple(values)))
            self.open -= 1

    def take_price(self, row, place, price):
        prices = self.tree[-1][1]
        if prices and self.order(place) <= self.order(prices[-1][0]):
            raise Unreadable(row, "C6")
        prices.append((place, price))
        self.due -= 1
        self.open -= not self.due

    def order(self, row):
        """What rows ascend by."""
        kind, *fields = row
        track_at, type_at = self.net.tracks.index, self.net.types.index
        if kind == "window":
            return (0, track_at(fields[0]), fields[1])
        if kind == "pair":
            track, first, t, second, u = fields
            return (1, track_at(track), t, type_at(first), u, type_at(second))
        if kind == "cross":
            one, t, first, other, u, second = fields
            return (2, track_at(one), t, type_at(first), track_at(other), u, type_at(second))
        return (3, self.net.stations.index(fields[0]), fields[1])

    def value(self, row, part, cell, before):
        """What a field says."""
        if part in ("from", "action", "kind"):
            return cell == "halt" if part == "from" else cell
        if part in ("track", "type", "station"):
            if cell not in {"track": self.net.ends, "type": self.net.types, "station": self.net.stations}[part]:
                raise Unreadable(row, "C4")
            return cell
        least, most = {"bid": (1, len(self.bids)), "departure": (0, LAST_MINUTE), "minute": (0, LAST_ROW_MINUTE),
                       "dwell": (0, 240 if before and before[-1] in ("halt", "wait") else 0), "number": (0, 10 ** 18)}[part]
        if not re.fullmatch(r"0|[1-9][0-9]{0,17}", cell) or not least <= int(cell) <= most:
            raise Unreadable(row, "C5")
        return int(cell)


# Whether it is valid

def arrival(net, kind, leg):
    minutes = net.running.get((leg.track, kind))
    return None if minutes is None else leg.depart + minutes[2 * leg.from_halt + (leg.action != "pass")]


def value_of(net, bid, legs):
    """The value of a timed walk of the bid in cents; None where the legs are none."""
    station, minute, halted, stops = bid.origin, None, True, list(bid.stops)
    start = legs[0].depart if legs else None
    if start is None or not bid.depart[0] <= start <= bid.depart[2]:
        return None
    waits = 0
    for place, leg in enumerate(legs):
        arrive = arrival(net, bid.kind, leg)
        if arrive is None or net.ends[leg.track][0] != station or leg.from_halt != halted:
            return None
        if minute not in (None, leg.depart):
            return None
        station, minute, halted = net.ends[leg.track][1], arrive + leg.dwell, leg.action != "pass"
        if leg.action == "halt":
            if not stops:
                return None
            where, least, most, first, last = stops.pop(0)
            if station != where or not first <= arrive <= last or not least <= leg.dwell <= most:
                return None
        if leg.action == "wait":
            if not 1 <= leg.dwell <= bid.wait_max:
                return None
            waits += leg.dwell
        if (leg.action == "finish") != (place == len(legs) - 1):
            return None
    if stops or station != bid.destination or not bid.arrive[0] <= minute <= bid.arrive[2]:
        return None
    return (bid.base - start_loss(bid, start) - end_loss(bid, minute) - bid.travel * (minute - start) - bid.wait * waits)


def start_loss(bid, depart):
    return bid.early_depart * max(bid.depart[1] - depart, 0) + bid.late_depart * max(depart - bid.depart[1], 0)


def end_loss(bid, arrive):
    return bid.early_arrive * max(bid.arrive[1] - arrive, 0) + bid.late_arrive * max(arrive - bid.arrive[1], 0)


def in_conflict(net, a, b):
    """Whether two uses (track, type, minute) exclude one another."""
    (track, first, t), (other, second, u) = a, b
    if track != other:
        after, before = net.crossings.get((track, other, first, second)), net.crossings.get((other, track, second, first))
        return after is not None and not (u >= t + after or t >= u + before)
    return not (u >= t + net.headways[track, first, second] or t >= u + net.headways[track, second, first])


def standing(net, kind, leg):
    """The limited station where a leg stands and its minutes there; none where it doesn't."""
    head = net.ends[leg.track][1]
    if leg.action not in ("halt", "wait") or not net.limits[head]:
        return head, range(0)
    arrive = arrival(net, kind, leg)
    return head, range(arrive, min(arrive + leg.dwell, LAST_MINUTE + 1))


def stands(net, kind, leg, station, minute):
    head, minutes = standing(net, kind, leg)
    return head == station and minute in minutes


def use_of(kind, leg):
    return leg.track, kind, leg.depart


def uses_row(net, kind, leg, row):
    """Whether a leg of a type that may use its track takes a row."""
    if row[0] == "halt":
        return stands(net, kind, leg, *row[1:])
    return has_use(net, use_of(kind, leg), row)


def has_use(net, use, row):
    """Whether a use takes a row of headways or crossings."""
    track, kind, minute = use
    if row[0] == "window":
        return row[1] == track and minute <= row[2] < minute + net.least[track, kind]
    return row[0] != "halt" and is_row(net, row) and use in row_uses(row)


def row_uses(row):
    """The two uses of a pair or of a crossing."""
    if row[0] == "pair":
        _, track, first, t, second, u = row
        return [(track, first, t), (track, second, u)]
    _, one, t, first, other, u, second = row
    return [(one, first, t), (other, second, u)]


def capacity(net, row):
    return net.limits[row[1]] if row[0] == "halt" else 1


def is_row(net, row):
    """Whether a row that was read is one: each minute of a track, each two uses in conflict that share no window minute, each two
    uses that break their crossing, the one on the lesser track first, and each minute of a station with a limit."""
    if row[0] == "window":
        return True
    if row[0] == "halt":
        return net.limits[row[1]] > 0 and row[2] <= LAST_MINUTE
    if row[0] == "cross":
        first, second = row_uses(row)
        return (net.tracks.index(first[0]) < net.tracks.index(second[0]) and max(first[2], second[2]) <= LAST_MINUTE
                and first[:2] in net.running and second[:2] in net.running and in_conflict(net, first, second))
    _, track, first, t, second, u = row
    return ((track, first) in net.running and (track, second) in net.running and u <= LAST_MINUTE
            and t + net.least[track, first] <= u < t + net.headways[track, first, second])


class Node:
    """What is decided on the way from the root: (bid number, leg, yes or no)."""

    def __init__(self, net, bids, decisions):
        self.net, self.bids, self.decisions = net, bids, decisions

    def legs(self, number, yes):
        return [leg for bid, leg, is_yes in self.decisions if bid == number and is_yes == yes]

    def yes_legs(self, but=None):
        """The yes legs of all bids but one, of types that may use the tracks, each with its type."""
        found = []
        for number, leg, yes in self.decisions:
            kind = self.bids[number - 1].kind
            if yes and number != but and (leg.track, kind) in self.net.running:
                found.append((kind, leg))
        return found

    def best(self, number, prices):
        """The most that an allowed walk of the bid is worth at the prices, in thousandths of a cent; None without one."""
        net, bid = self.net, self.bids[number - 1]
        yes = sorted(self.legs(number, True), key=lambda leg: leg.depart)
        barred, others, known, costs = set(self.legs(number, False)), self.yes_legs(number), {}, {}

        def cost(track, minute):
            """What the rows of a use cost; None where another bid's yes leg is in its way."""
            use = (track, bid.kind, minute)
            if use not in costs:
                blocked = any(in_conflict(net, use, use_of(*other)) for other in others)
                costs[use] = None if blocked else sum(price for row, price in prices if has_use(net, use, row))
            return costs[use]

        def stay_cost(leg):
            """What the rows cost in which a leg stands; None where other bids' yes legs take up the station."""
            head, minutes = standing(net, bid.kind, leg)
            if any(sum(stands(net, *other, head, m) for other in others) >= net.limits[head] for m in minutes):
                return None
            return sum(price for row, price in prices if row[0] == "halt" and row[1] == head and row[2] in minutes)

        def next_legs(station, minute, halted, done):
            for track in net.leaving[station]:
                if (track, bid.kind) not in net.running or cost(track, minute) is None:
                    continue
                head = net.ends[track][1]
                passes, halts = (arrival(net, bid.kind, Leg(track, minute, halted, action, 0)) for action in ("pass", "halt"))
                yield Leg(track, minute, halted, "pass", 0), head, passes, done
                if done < len(bid.stops):
                    where, least, most, first, last = bid.stops[done]
                    if where == head and first <= halts <= last:
                        for dwell in range(least, most + 1):
                            yield Leg(track, minute, halted, "halt", dwell), head, halts, done + 1
                for dwell in range(1, bid.wait_max + 1):
                    yield Leg(track, minute, halted, "wait", dwell), head, halts, done
                if done == len(bid.stops) and head == bid.destination and bid.arrive[0] <= halts <= bid.arrive[2]:
                    yield Leg(track, minute, halted, "finish", 0), head, halts, done

        def rest(station, minute, halted, done, seen):
            """The most from a moment on, where so many yes legs were gone over."""
            state = (station, minute, halted, done, seen)
            if state in known:
                return known[state]
            known[state] = most = None
            if minute <= bid.arrive[2] and (seen == len(yes) or minute <= yes[seen].depart):
                for leg, head, arrive, after in next_legs(station, minute, halted, done):
                    if leg in barred or arrive > bid.arrive[2] or stay_cost(leg) is None:
                        continue
                    now = seen + (seen < len(yes) and leg == yes[seen])
                    worth = -cost(leg.track, minute) - stay_cost(leg) - 1000 * bid.travel * (arrive + leg.dwell - minute)
                    if leg.action == "finish":
                        if now < len(yes):
                            continue
                        worth -= 1000 * end_loss(bid, arrive)
                    else:
                        more = rest(head, arrive + leg.dwell, leg.action != "pass", after, now)
                        if more is None:
                            continue
                        worth += more - 1000 * bid.wait * (leg.dwell if leg.action == "wait" else 0)
                    most = worth if most is None else max(most, worth)
            known[state] = most
            return most

        worths = []
        for minute in range(bid.depart[0], bid.depart[2] + 1):
            worth = rest(bid.origin, minute, True, 0, 0)
            if worth is not None:
                worths.append(worth + 1000 * (bid.base - start_loss(bid, minute)))
        return max(worths, default=None)

    def dual(self, prices):
        """The dual value at the prices."""
        total = sum(price * capacity(self.net, row) for row, price in prices)
        for number in range(1, len(self.bids) + 1):
            best, has_yes = self.best(number, prices), bool(self.legs(number, True))
            if best is None and has_yes:
                return 0
            total += best if has_yes else max(best or 0, 0)
        return total


def leaves(cert):
    """The items of the tree, each with the node where it stands."""
    waiting = [[]]
    for item in cert.tree:
        decisions = waiting.pop()
        yield item, Node(cert.net, cert.bids, decisions)
        if item[0] == "split":
            waiting += [decisions + [(item[1], item[2], False)], decisions + [(item[1], item[2], True)]]


def reasons(cert):
    """For each reason, by number, a call that tells whether it holds somewhere."""
    net, bids = cert.net, cert.bids
    walks = {}
    for number, leg in cert.legs:
        walks.setdefault(number, []).append(leg)
    values = {number: value_of(net, bids[number - 1], legs) for number, legs in walks.items()}
    placed = [(bids[number - 1].kind, leg) for number, leg in cert.legs]

    def decided_twice(item, node):
        return item[0] == "split" and any((bid, leg) == item[1:] for bid, leg, _ in node.decisions)

    def is_not_dead(item, node):
        if item[0] == "nowalk":
            return not node.legs(item[1], True) or node.best(item[1], []) is not None
        if item[0] == "forced":
            return not is_row(net, item[1]) or sum(uses_row(net, *leg, item[1]) for leg in node.yes_legs()) <= capacity(net, item[1])
        return False

    def in_the_way():
        stays = Counter((head, m) for head, minutes in (standing(net, *leg) for leg in placed) for m in minutes)
        return (any(in_conflict(net, use_of(*a), use_of(*b)) for place, a in enumerate(placed) for b in placed[:place])
                or any(count > net.limits[head] for (head, _), count in stays.items()))

    def has_wrong_price(item):
        return item[0] == "priced" and any(not 1 <= price <= GREATEST_PRICE or not is_row(net, row) for row, price in item[1])

    def bound():
        return max(node.dual(item[1]) // 1000 for item, node in leaves(cert) if item[0] == "priced")

    return [lambda: None in values.values(),
            in_the_way,
            lambda: sum(values.values()) != cert.revenue,
            lambda: any(decided_twice(item, node) for item, node in leaves(cert)),
            lambda: any(is_not_dead(item, node) for item, node in leaves(cert)),
            lambda: any(has_wrong_price(item) for item, _ in leaves(cert)),
            lambda: bound() != cert.bound]


def verdict(net, bids, text):
    """The line of the verdict on a certificate's text."""
    try:
        cert = Certificate(net, bids, text)
    except Unreadable as fault:
        return str(fault)
    for number, holds in enumerate(reasons(cert), start=1):
        if holds():
            return f"verdict,no,K{number}"
    return f"verdict,yes,{cert.revenue},{cert.bound}"


def read(path):
    with open(path, "rb") as file:
        return file.read()


def tables_in(folder):
    tables = {table: read(f"{folder}/{table}.csv" if table in ("bids", "stops") else f"{folder}/net/{table}.csv") for table in PLAN_TABLES}
    if version_of(tables["stations"]) == 2:
        tables["crossings"] = read(f"{folder}/net/crossings.csv")
    return tables


def main():
    if not 2 <= len(sys.argv) <= 3:
        sys.exit(__doc__)
    try:
        net, bids = read_tables(tables_in(sys.argv[1]))
    except Refused as fault:
        print(fault)
        return 3
    if len(sys.argv) == 2:
        return 0
    told = verdict(net, bids, read(sys.argv[2]))
    print(told)
    return 0 if told.startswith("verdict,yes") else 4


if __name__ == "__main__":
    sys.setrecursionlimit(20_000)
    sys.exit(main())
