"""Makes a network's tables of two small sheets: lines with their stations and kilometres, and types with their speeds."""
import math
import re
from collections import namedtuple
from fractions import Fraction

from . import formats
from .formats import COLUMNS
from .sheet_reading import Sheet
from .table_making import count_of, name_of
from .values import Unclear

LINE_COLUMNS = ["line", "station", "km", "track", "places", "types", "speed"]
SPEED_COLUMNS = ["type", "speed", "start", "brake"]
WORDS = {"single": "single", "s": "single", "1": "single", "double": "double", "d": "double", "2": "double"}

# A type's kilometres an hour, and the minutes that starting from a halt and braking for one take.
Speed = namedtuple("Speed", "speed start brake")
# A part of a line between two stations that are next to each other.
Section = namedtuple("Section", "line tail head km is_single types speed row")


def decimal_of(text):
    """A number with or without decimals, exactly."""
    found = re.fullmatch(r"(\d+(?:[.,]\d+)?)\s*(?:km(?:/h)?)?", text)
    if not found:
        raise Unclear("is no number")
    return Fraction(found[1].replace(",", "."))


def positive_of(text):
    if decimal_of(text) == 0:
        raise Unclear("is 0")
    return decimal_of(text)


def track_word(text):
    if text.casefold() not in WORDS:
        raise Unclear("is neither single nor double")
    return WORDS[text.casefold()]


# The two sheets

def read_speeds(path, faults):
    """The types with their speeds, in the order of the sheet."""
    sheet, speeds = Sheet(path, SPEED_COLUMNS, faults), {}
    for row in sheet.rows if sheet.expect(["type", "speed"]) else []:
        name, speed = sheet.read(row, "type", name_of), sheet.read(row, "speed", positive_of)
        start, brake = (sheet.read(row, column, lambda text: count_of(text) if text else 1) for column in ("start", "brake"))
        if None not in (name, speed, start, brake):
            if name in speeds:
                faults.in_sheet(path, row.line, "type", f"{name!r} stands above already")
            speeds[name] = Speed(speed, start, brake)
    return speeds, sheet.told


class Lines:
    """The sections of the lines, and of each station how many trains may stand there."""

    def __init__(self, path, types, faults):
        # Where the sheet of speeds has faults, types without a speed aren't told.
        self.path, self.types, self.faults, self.is_doubtful = path, types, faults, bool(faults.all)
        self.sheet = Sheet(path, LINE_COLUMNS, faults)
        self.places, self.sections = {}, []
        before = None
        for row in self.sheet.rows if self.sheet.expect(["station", "km"]) else []:
            before = self.take(row, before)

    def fault(self, row, column, text):
        self.faults.in_sheet(self.path, row.line, column, text)

    def take(self, row, before):
        """Reads a row, and makes the section from the row before it on the same line; gives what the next row goes on from."""
        line = row.texts.get("line", "") or (before["line"] if before else "")
        is_new = before is None or line != before["line"]
        here = {"line": line, "station": self.sheet.read(row, "station", name_of), "km": self.sheet.read(row, "km", decimal_of), "row": row}
        here["track"] = self.carried(row, "track", track_word, "double" if is_new else before["track"])
        here["types"] = self.carried(row, "types", self.types_of, self.types if is_new else before["types"])
        here["speed"] = self.carried(row, "speed", positive_of, None if is_new else before["speed"])
        self.take_places(row, here["station"])
        if not is_new:
            self.add_section(before, here)
        return here

    def carried(self, row, column, reader, above):
        """A field, or what stands above it where it is empty."""
        return self.sheet.read(row, column, reader) if row.texts.get(column) else above

    def types_of(self, text):
        """The types of a field: names between commas, semicolons, bars, slashes or plus signs, or between spaces where more of these are known."""
        ways = [[text], [name.strip() for name in re.split(r"[;,|/+]", text) if name.strip()], re.findall(r"[^;,|/+\s]+", text)]
        names = max(ways, key=lambda found: sum(name in self.types for name in found))
        unknown = [name for name in names if name not in self.types]
        if unknown and not self.is_doubtful:
            raise Unclear(f"names {unknown[0]!r}, which has no speed")
        return [name for name in self.types if name in names]

    def take_places(self, row, station):
        """How many trains may stand in a station: told once, or alike."""
        text = row.texts.get("places", "")
        places = self.sheet.read(row, "places", count_of) if text else None
        if station is None:
            return
        if places is not None and self.places.get(station) not in (None, places):
            self.fault(row, "places", f"{station!r} has {self.places[station]} places above")
        if places is not None or station not in self.places:
            self.places[station] = places

    def add_section(self, tail, head):
        if None in (tail["station"], tail["km"], head["station"], head["km"]):
            return
        step = head["km"] - tail["km"]
        if step == 0:
            self.fault(head["row"], "km", f"{tail['station']!r} and {head['station']!r} have the same kilometre")
        elif tail.get("step", step) * step < 0:
            turn = "rise" if step < 0 else "fall"
            here, above = (place["row"].texts["km"] for place in (head, tail))
            self.fault(head["row"], "km", f"{here!r} comes after {above!r}, and the line's kilometres {turn} before: one of them is wrong")
        elif tail["station"] == head["station"]:
            self.fault(head["row"], "station", f"{head['station']!r} stands twice in a row")
        elif None not in (tail["track"], tail["types"]):
            head["step"] = step
            self.sections.append(Section(tail["line"], tail["station"], head["station"], abs(step), tail["track"] == "single", tail["types"],
                                         tail["speed"], head["row"]))


# Minutes

def pure_minutes(speed, section):
    """Whole minutes for a section without a halt, at the lesser of the two speeds."""
    kilometres = speed.speed if section.speed is None else min(speed.speed, section.speed)
    return max(math.ceil(section.km * 60 / kilometres), 1)


def running_times(speed, section):
    """Passing both ends, halting at the head, starting at the tail, and both."""
    run = pure_minutes(speed, section)
    return [run, run + speed.brake, run + speed.start, run + speed.start + speed.brake]


def headway(first, second, section, apart):
    """The least distance, and more where the second train is the faster one, so that it doesn't catch up on the section."""
    gain = max(a - b for a, b in zip(running_times(first, section), running_times(second, section)))
    return max(apart + max(0, pure_minutes(first, section) - pure_minutes(second, section)), gain + 1)


def crossing(first, section, route):
    """A train from the other end of a single track waits until the first is off it, at its slowest, and the route is set."""
    return running_times(first, section)[3] + route


# The tables

class Network:
    """The rows of a network's tables, made of sections and speeds."""

    def __init__(self, lines, speeds, apart, route, faults):
        self.lines, self.speeds, self.apart, self.route, self.faults = lines, speeds, apart, route, faults
        self.tables = {name: [COLUMNS[name]] for name in formats.NETWORK}
        self.tables["stations"] += [[name, places or 0] for name, places in lines.places.items()]
        self.tables["types"] += [[name] for name in speeds]
        self.taken, self.long = set(), set()
        for section in lines.sections:
            self.add(section)

    def track_name(self, section, tail, head):
        """A track's name by its ends, and by its line too where two stations are joined twice."""
        name = f"{tail}-{head}"
        name = f"{name} {section.line}" if name in self.taken else name
        if name in self.taken or not formats.is_name(name):
            what = "is there already" if name in self.taken else "has more than 64 bytes"
            self.lines.fault(section.row, "station", f"the track {name!r} {what}")
        self.taken.add(name)
        return name

    def number(self, section, column, minutes):
        """Minutes of a table; a fault of the section where they are out of range."""
        low, high = formats.RANGES[column]
        if not low <= minutes <= high and section.row.line not in self.long:
            self.long.add(section.row.line)
            text = f"from {section.tail} to {section.head} a number of minutes would be {minutes}, and at most {high} are; put a station between"
            self.lines.fault(section.row, "km", text)
        return minutes

    def crossing(self, first, section):
        return self.number(section, "minutes", crossing(self.speeds[first], section, self.route))

    def add(self, section):
        out, back = (self.track_name(section, *ends) for ends in ((section.tail, section.head), (section.head, section.tail)))
        self.tables["tracks"] += [[out, section.tail, section.head], [back, section.head, section.tail]]
        for track in (out, back):
            self.add_track(track, section)
        if section.is_single:
            for one, other in ((out, back), (back, out)):
                self.tables["crossings"] += [[one, other, first, second, self.crossing(first, section)]
                                             for first in section.types for second in section.types]

    def add_track(self, track, section):
        for kind in section.types:
            times = [self.number(section, "pass_pass", time) for time in running_times(self.speeds[kind], section)]
            self.tables["running"].append([track, kind, *times])
        for first in section.types:
            for second in section.types:
                minutes = headway(self.speeds[first], self.speeds[second], section, self.apart)
                self.tables["headways"].append([track, first, second, self.number(section, "minutes", minutes)])


def network_of(lines_path, speeds_path, apart, route, faults):
    """The tables of a network, and what was found out about each of the two sheets."""
    speeds, told = read_speeds(speeds_path, faults)
    lines = Lines(lines_path, list(speeds), faults)
    network = Network(lines, speeds, apart, route, faults)
    singles = sum(section.is_single for section in lines.sections)
    lines.sheet.told.append(f"{len(lines.places)} stations, {len(lines.sections) - singles} sections of double and {singles} of single track")
    return network.tables, {lines_path: lines.sheet.told, speeds_path: [*told, f"{len(speeds)} types"]}
