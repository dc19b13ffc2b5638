"""Makes tables of spreadsheets: times as minutes, money as cents, columns in their order, and what is left out filled in by the rules that
docs/tools/tables.md states."""
import difflib
import functools
import re

from . import formats, values
from .formats import ARRIVES, COLUMNS, COUNT, DEPARTS, DURATION, KINDS, LAST_MINUTE, MINUTE, MONEY, NAME, RATES, WORD
from .railway import Bid, Stop, least_minutes
from .sheet_reading import Sheet
from .values import Unclear
from .words import clock

# What a field is that is empty, or whose column isn't there.
DEFAULTS = {"halt_max": 0, **dict.fromkeys([*RATES, "wait_max"], 0)}
BID_COLUMNS = [*COLUMNS["bids"], "early", "late", "slack", "stops"]
NEEDED = {"stations": ["station"], "bids": ["bid", "bidder", "type", "origin", "destination", "depart_ideal", "base"],
          "stops": ["bid", "station", "min_dwell"]}
DWELL = re.compile(r"(.+?)[\s:(]+(\d+)(?:\s*(?:[-–]|to|bis)\s*(\d+))?\s*(?:min\.?|')?\s*\)?")


# Fields

def name_of(text):
    if not formats.is_name(text):
        raise Unclear("is no name; one has 1 to 64 bytes")
    return text


def count_of(text):
    if not re.fullmatch(r"\d+(?:[.,]0+)?", text):
        raise Unclear("is no whole number")
    return int(re.split("[.,]", text)[0])


def short(number):
    if number >= 10**10:
        raise Unclear("has more than 10 digits")
    return number


class Fields:
    """How the fields of a sheet are read; money as cents or as whole units, which one sheet has alike."""

    def __init__(self, sheet, money):
        self.sheet = sheet
        amounts = [row.texts[column] for row in sheet.rows for column in row.texts if KINDS.get(column) == MONEY]
        self.in_cents = money == "cents" or money == "auto" and not any(map(values.is_in_units, amounts))
        if amounts and not self.in_cents:
            sheet.told.append("money in whole units with decimals, so times 100")

    def reader(self, column):
        """What reads a column's fields: a name, a word, or a number of its kind that isn't too long for a table."""
        kind = KINDS.get(column, DURATION)
        if kind in (NAME, WORD):
            return name_of if kind == NAME else str.casefold
        number_of = {MINUTE: values.minute_of, DURATION: values.duration_of, COUNT: count_of}.get(kind)
        return lambda text: short(number_of(text) if number_of else values.money_of(text, self.in_cents))

    def read(self, row, column, default=None):
        """A field, or its default where it is empty; None and a fault where nothing can be made of it."""
        if row.texts.get(column, "") == "" and default is not None:
            return default
        return self.sheet.read(row, column, self.reader(column))


def tell_minutes(sheet):
    """Tells whole numbers that stand beside clock times: they are minutes from midnight."""
    times = [(row.line, text) for row in sheet.rows for column, text in row.texts.items() if KINDS.get(column) == MINUTE and text]
    whole = [(line, int(text)) for line, text in times if formats.is_number(text)]
    if whole and len(whole) < len(times):
        (line, minute), more = whole[0], f" ({len(whole) - 1} more such)" if len(whole) > 1 else ""
        sheet.told.append(f"whole numbers beside clock times are minutes: {minute} in line {line} is {clock(minute)}{more}")


def left_out(sheet, columns):
    """Tells which columns with a default aren't there."""
    missing = [column for column in columns if column not in sheet.columns]
    if missing:
        sheet.told.append(f"no column {', '.join(missing)}: 0 in each row")


# Tables that have a row for each row of the sheet

def plain_table(name, path, money, faults):
    """A sheet's table, with its header, and what was found out about the sheet."""
    sheet = Sheet(path, COLUMNS[name], faults)
    if not sheet.expect(NEEDED.get(name, COLUMNS[name])):
        return [COLUMNS[name]], sheet.told
    fields = Fields(sheet, money)
    tell_minutes(sheet)
    rows = [plain_row(name, fields, row) for row in sheet.rows]
    if name == "stations" and "halt_max" not in sheet.columns:
        sheet.told.append("no column halt_max: no station has a limit")
    return [COLUMNS[name], *rows], sheet.told


def plain_row(name, fields, row):
    if name == "actions":
        return action_row(fields, row)
    if name == "stops":
        least = fields.read(row, "min_dwell")
        return [fields.read(row, "bid"), fields.read(row, "station"), least, fields.read(row, "max_dwell", least),
                fields.read(row, "arrive_from", 0), fields.read(row, "arrive_to", LAST_MINUTE)]
    return [fields.read(row, column, DEFAULTS.get(column)) for column in COLUMNS[name]]


def action_row(fields, row):
    """An action; what the program doesn't read of it may be empty."""
    action = row.texts.get("action", "").casefold()
    unread = {"spec", "amount"} - set(formats.READ_OF.get(action, ["spec", "amount"]))
    return [row.texts.get(column, "") if column in unread else fields.read(row, column) for column in COLUMNS["actions"]]


# Bids

def stop_of(text, stations):
    """A stop of a bid's field of stops: a station, with its dwell behind it or a minute."""
    if text in stations:
        return text, 1, 1
    found = DWELL.fullmatch(text)
    if not found:
        return text, 1, 1
    least = int(found[2])
    return found[1], least, int(found[3]) if found[3] else least


def stops_of(text, stations):
    """The stops of a field such as `Marsh 1-2; Kirkby 1`."""
    parts = [" ".join(part.split()) for part in re.split(r"[;|,\n]", text)]
    return [stop_of(part, stations) for part in parts if part]


class Bids:
    """The rows of both tables of bids, as they are made of one or two sheets."""

    def __init__(self, path, railway, money, faults):
        self.sheet, self.railway, self.faults = Sheet(path, BID_COLUMNS, faults), railway, faults
        self.bids, self.stops = [COLUMNS["bids"]], [COLUMNS["stops"]]
        self.fields = Fields(self.sheet, money) if self.sheet.expect(NEEDED["bids"]) else None
        self.has_stops = any(row.texts.get("stops") for row in self.sheet.rows)
        left_out(self.sheet, [*RATES, "wait_max"])
        tell_minutes(self.sheet)
        if not {"depart_from", "depart_to", "early", "late"} & set(self.sheet.columns):
            self.sheet.told.append("no column early, late, depart_from or depart_to: each train departs at its ideal minute or not at all")

    def make(self, others):
        """All rows; `others` are the rows of a table of stops, where there is one."""
        lines = {}
        for row in self.sheet.rows if self.fields else []:
            name = row.texts["bid"]
            if name and lines.setdefault(name, row.line) != row.line:
                self.faults.in_sheet(self.sheet.path, row.line, "bid", f"{name!r} stands in line {lines[name]} already", "twice")
            stops = stops_of(row.texts.get("stops", ""), self.railway.stations if self.railway else [])
            self.stops += [[name, *stop, 0, LAST_MINUTE] for stop in stops]
            halts = stops or [tuple(stop[1:4]) for stop in others if stop[0] == name]
            self.bids.append(self.bid_row(row, halts))

    def bid_row(self, row, halts):
        read = self.fields.read
        names = [read(row, column) for column in COLUMNS["bids"][:5]]
        early, late, slack = (read(row, column, 0) for column in ("early", "late", "slack"))
        money = [read(row, "base"), *(read(row, column, 0) for column in RATES), read(row, "wait_max", 0)]
        depart = read(row, "depart_ideal")
        arrive = self.ideal_arrival(row, names, depart, halts, money[-1])
        if None in (*names, early, late, slack, depart, arrive, *money):
            return None
        return [*names, *self.window(row, DEPARTS, depart, early, late), *self.window(row, ARRIVES, arrive, early, late + slack), *money]

    def window(self, row, columns, ideal, early, late):
        """A window by its fields, and where they are empty by how early and late the train may be."""
        first = self.fields.read(row, columns[0], max(ideal - early, 0))
        last = self.fields.read(row, columns[2], min(ideal + late, LAST_MINUTE))
        return [first, ideal, last]

    def ideal_arrival(self, row, names, depart, halts, wait_max):
        """The ideal arrival by its field, and where that is empty the earliest one after the ideal departure."""
        if row.texts.get("arrive_ideal"):
            return self.fields.read(row, "arrive_ideal")
        if self.railway is None:
            if not self.faults.all:
                self.faults.in_sheet(self.sheet.path, row.line, "arrive_ideal", "is empty, and without a network it can't be found; --net tells one")
            return None
        is_known = self.are_known(row, names, halts)
        if depart is None or wait_max is None or not is_known or None in names or any(None in halt for halt in halts):
            return None
        least = self.least_minutes(row, names, halts, wait_max)
        return None if least is None else depart + least

    def are_known(self, row, names, halts):
        """Whether the type and the stations that a bid names are there; a fault for each that isn't."""
        _, _, kind, *ends = names
        unknown = {station: "station" for station in [*ends, *(halt[0] for halt in halts)] if station not in self.railway.leaving}
        unknown.update({kind: "type"} if kind not in self.railway.types else {})
        unknown.pop(None, None)
        for name, what in unknown.items():
            near = difflib.get_close_matches(name, self.railway.stations if what == "station" else self.railway.types, 1, 0.6)
            text = f"no {what} is called {name!r}" + (f"; is {near[0]!r} meant?" if near else "")
            self.faults.in_sheet(self.sheet.path, row.line, None, text)
        return not unknown

    def least_minutes(self, row, names, halts, wait_max):
        """The least minutes under way of a bid's train; None and a fault where there is no way."""
        bid, bidder, kind, origin, destination = names
        stops = [Stop(station, least, most, 0, LAST_MINUTE) for station, least, most in halts]
        least = least_minutes(self.railway, Bid(bid, bidder, kind, origin, destination, None, None, 0, [], wait_max, stops))
        if least is None:
            text = f"{kind!r} has no way from {origin!r} to {destination!r}" + (" over its stops" if halts else "") + self.split
            self.faults.in_sheet(self.sheet.path, row.line, None, text, "no way")
        return least

    @functools.cached_property
    def split(self):
        """Of a network in several parts, what most likely splits it: a station under two names. Else nothing."""
        parts = self.railway.parts()
        for number, part in enumerate(parts):
            others = [station for other in parts[number + 1:] for station in other]
            for station in part:
                near = difflib.get_close_matches(station, others, 1, 0.85)
                if near:
                    return f"; no tracks join {station!r} and {near[0]!r}: are they one station?"
        return f"; the network is in {len(parts)} parts that no tracks join" if len(parts) > 1 else ""
