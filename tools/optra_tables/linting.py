"""Reads all tables of a plan or an auction and finds their faults, in the order in which the program reads, and then what is odd."""
import os

from . import formats
from .bid_warnings import action_warnings, bid_warnings
from .findings import FAULT, Findings
from .formats import COLUMNS, NETWORK
from .known import Known
from .network_warnings import network_warnings
from .railway import Railway
from .records import MARK, records
from .table_reading import Table, absent_text, file_bytes, read_rows
from .table_rules import ROW_RULES, TABLE_RULES


def says_version_2(text):
    """Whether the program takes the stations as those of version 2: by their header alone."""
    text = text.removeprefix(MARK)
    first = next(records(b"" if text.startswith(MARK) else text), (1, []))[1]
    return first == [column.encode() for column in COLUMNS["stations"]]


class Lint:
    """All tables of some paths, by their names; the network's are always among them."""

    def __init__(self, paths):
        self.tables = {name: Table(name, paths[name]) for name in COLUMNS if name in paths}
        self.findings, self.known = Findings(), Known({name: self.tables.get(name) or Table(name, "") for name in COLUMNS})
        self.texts = {}

    def get_files(self):
        """Gets all files before one is read, as the program does; whether the crossings are got the stations' header tells."""
        for name, table in self.tables.items():
            if name != "crossings" or says_version_2(self.texts.get("stations") or b""):
                self.texts[name] = file_bytes(table, self.findings)

    def get_crossings(self):
        """Where the stations' header is at fault and version 2 is meant, the program gets no crossings, and lint does."""
        table = self.tables["crossings"]
        if self.known.version == 2 and "crossings" not in self.texts:
            if os.path.exists(table.path):
                self.texts["crossings"] = file_bytes(table, self.findings)
            else:
                self.findings.fault(table.place(), None, "absent", absent_text(table.path))

    def read(self, name):
        """Reads one table and tells its faults."""
        table, text = self.tables[name], self.texts.get(name)
        names = self.known.names_of(name)
        if text is not None:
            for row in read_rows(table, text, self.findings):
                ROW_RULES[name](row, self.known, self.findings)
            if table.is_read and name in TABLE_RULES:
                TABLE_RULES[name](table, self.known, self.findings)
            if name == "rules" and table.is_read:
                self.count_rules(table)
        if names:
            names.is_whole = table.is_whole

    def count_rules(self, table):
        """The rules are exactly one row."""
        if not table.rows:
            self.findings.fault(table.place(None, 2), None, "Csv", "there is no row under the header; write one")
        if table.surplus:
            self.findings.fault(table.place(table.surplus, 3), None, "Csv", "there is more than one row under the header; write one")

    def read_all(self):
        self.get_files()
        for name in self.tables:
            if name == "crossings":
                self.get_crossings()
            if name in self.texts:
                self.read(name)
            if name == "stations":
                self.known.version = 2 if self.tables[name].columns == COLUMNS[name] else 1

    def faulty_bids(self):
        """The names of bids with a fault in their row or in one of their stops."""
        rows = {(finding.place.table, finding.place.row) for finding in self.findings.of_level(FAULT)}
        stops = {name for name, found in self.known.stop_rows.items() for row in found if ("stops", row.place.row) in rows}
        if "stops" in self.tables and not self.tables["stops"].is_whole:
            return set(self.known.bid_rows)
        return stops | self.known.bids.twice | {name for name, row in self.known.bid_rows.items() if ("bids", row.place.row) in rows}

    def warn(self):
        """Tells what is odd; whether all of it could be looked for."""
        known = self.known
        if self.findings.has_faults(NETWORK):
            return False
        railway = Railway(known.stations.lines, known.limits, known.ends, known.types.lines, known.running, known.headways, known.crossings)
        network_warnings(railway, known, os.path.exists(self.tables["crossings"].path), self.findings)
        if "bids" in self.tables:
            bid_warnings(railway, known, self.faulty_bids(), self.findings)
        if "actions" in self.tables:
            action_warnings(known, self.findings)
        return not self.findings.has_faults(["bids", "stops"])


def linted(paths):
    """The findings of tables by their names, what was read of them, and whether all warnings could be looked for."""
    lint = Lint(paths)
    lint.read_all()
    is_whole = lint.warn()
    return lint.findings, lint.known, is_whole


def paths_in(folder):
    """The paths of a folder with all tables, the network's in its net/ or beside the others; of bids and auctions where they are there."""
    found = formats.paths_in(folder)
    is_there = {name for name, path in found.items() if os.path.exists(path)}
    left = set()
    if not is_there & {"bids", "stops"}:
        left |= {"bids", "stops"}
    if not is_there & {"rules", "actions"}:
        left |= {"rules", "actions"}
    return {name: path for name, path in found.items() if name not in left}
