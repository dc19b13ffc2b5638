"""Makes a folder of tables of a folder of sheets, or says all that is wrong with them and writes nothing."""
import os

from . import formats, linting
from .findings import Findings
from .formats import COLUMNS, NETWORK
from .line_making import network_of
from .railway import Railway
from .records import written
from .sheet_reading import Unusable, file_in, workbooks_in
from .table_making import Bids, plain_table
from .words import count


class Making:
    """The sheets of a folder, the tables that are made of them, and what is said of each."""

    def __init__(self, folder, money, apart, route, net):
        self.folder, self.money, self.apart, self.route, self.net = folder, money, apart, route, net
        self.faults, self.tables, self.told = Findings(), {}, []
        self.sheets = {name: file_in(folder, name) for name in [*COLUMNS, "lines", "speeds"]}

    def say(self, path, told):
        self.told.append(f"{path}: {'; '.join(told)}")

    def make(self):
        if not os.path.isdir(self.folder):
            raise Unusable(self.folder, "is no folder")
        if not any(self.sheets.values()):
            books = workbooks_in(self.folder)
            hint = f"; save each sheet of {', '.join(books)} as CSV under one of these names" if books else ""
            raise Unusable(self.folder, f"has none of {', '.join(f'{name}.csv' for name in self.sheets)}{hint}")
        if self.sheets["lines"] or self.sheets["speeds"]:
            self.make_lines()
        for name in COLUMNS:
            if self.sheets[name] and name not in ("bids", "stops"):
                self.attempt(lambda name=name: self.make_plain(name))
        self.match_versions()
        for name in ("stops", "bids"):
            if self.sheets[name]:
                self.attempt(self.make_bids if name == "bids" else lambda: self.make_plain("stops"))

    def attempt(self, part):
        """Makes a part; a sheet that can't be read is a fault beside the others."""
        try:
            part()
        except Unusable as fault:
            self.faults.in_sheet(fault.path, None, None, fault.text)

    def make_lines(self):
        """The network of lines and speeds, which has no other sheet."""
        lines, speeds = self.sheets["lines"], self.sheets["speeds"]
        if not lines or not speeds:
            raise Unusable(lines or speeds, f"comes with {'speeds' if lines else 'lines'}.csv, which isn't there")
        others = [self.sheets[name] for name in NETWORK if self.sheets[name]]
        if others:
            raise Unusable(lines, f"makes the network, and so does {others[0]}; take one of them away")
        tables, told = network_of(lines, speeds, self.apart, self.route, self.faults)
        self.tables.update(tables)
        for path, found in told.items():
            self.say(path, found)

    def make_plain(self, name):
        rows, told = plain_table(name, self.sheets[name], self.money, self.faults)
        self.tables[name] = rows
        self.say(self.sheets[name], [*told, count(len(rows) - 1, "row")])

    def match_versions(self):
        """A network without limits and crossings is of version 1; with one of them the other is there too."""
        if "stations" not in self.tables or self.sheets["lines"]:
            return
        header, *rows = self.tables["stations"]
        if "crossings" in self.tables or any(row[1] for row in rows):
            self.tables.setdefault("crossings", [COLUMNS["crossings"]])
        else:
            self.tables["stations"] = [header[:1], *(row[:1] for row in rows)]

    def make_bids(self):
        """Both tables of bids, of one sheet or of two."""
        path = self.sheets["bids"]
        bids = Bids(path, self.railway(), self.money, self.faults)
        others = self.tables.get("stops", [COLUMNS["stops"]])[1:]
        if bids.has_stops and others:
            raise Unusable(path, f"has a column of stops, and {self.sheets['stops']} has stops too; take one of them away")
        bids.make(others)
        self.tables["bids"] = bids.bids
        if not others:
            self.tables["stops"] = bids.stops
        self.say(path, [*bids.sheet.told, f"{count(len(bids.bids) - 1, 'bid')} with {count(len(self.tables['stops']) - 1, 'stop')}"])

    def railway(self):
        """The network that was made, or the one that is there, where it has no fault."""
        if "running" in self.tables or self.sheets["lines"]:
            return None if self.faults.all else railway_of_rows(self.tables)
        if self.net is None or not os.path.isdir(self.net):
            return None
        findings, known, _ = linting.linted({name: f"{self.net}/{name}.csv" for name in NETWORK})
        if findings.has_faults(NETWORK):
            raise Unusable(self.net, f"has faults; tools/lint --net {self.net} tells them")
        return Railway(known.stations.lines, known.limits, known.ends, known.types.lines, known.running, known.headways, known.crossings)

    def write(self, folder):
        """Writes the tables, and gives their paths; no sheet that they are made of is overwritten."""
        sheets = {os.path.realpath(path) for path in self.sheets.values() if path}
        if any(os.path.realpath(formats.path_in(folder, name)) in sheets for name in self.tables):
            raise Unusable(folder, "has the sheets themselves; write the tables into another folder")
        paths = []
        for name, rows in self.tables.items():
            paths.append(formats.path_in(folder, name))
            os.makedirs(os.path.dirname(paths[-1]), exist_ok=True)
            with open(paths[-1], "w", encoding="utf-8", newline="") as file:
                file.write(written(rows))
        return paths


def railway_of_rows(tables):
    """What is needed of a network that was made, to find the least minutes; rows that name what isn't there are left to tools/lint."""
    stations = [row[0] for row in tables["stations"][1:]]
    ends = {track: (tail, head) for track, tail, head in tables["tracks"][1:] if {tail, head} <= set(stations)}
    running = {(track, kind): times for track, kind, *times in tables["running"][1:] if track in ends and None not in times}
    return Railway(stations, {}, ends, [row[0] for row in tables["types"][1:]], running, {}, {})
