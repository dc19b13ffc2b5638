"""Reads a spreadsheet as people save it: any of the usual encodings and separators, columns in any order, a title above the header."""
import os
from collections import namedtuple

from . import headers, records, values

Row = namedtuple("Row", "line texts")
# Lines in which the header is looked for, and so many of its words at least have to be known.
HEADER_LINES = 6


class Unusable(Exception):
    """A file or folder of which nothing can be made, and why."""

    def __init__(self, path, text):
        super().__init__(f"{path}: {text}")
        self.path, self.text = path, text


class Sheet:
    """The rows of a sheet, each a text for each column; what was found out about its form, in words; and the columns that it has."""

    def __init__(self, path, columns, faults):
        self.path, self.faults, self.rows, self.told = path, faults, [], []
        found = self.all_records()
        place = self.header_place(found, columns)
        words = found[place][1]
        means = headers.columns_of(words, columns)
        if place:
            self.told.append(f"the header is line {found[place][0]}")
        self.columns = [column for column in means if column]
        unknown = [word for word, column in zip(words, means) if not column and word]
        if unknown:
            self.told.append(f"not read: {', '.join(map(repr, unknown))}")
        others = [f"{word} is {column}" for word, column in zip(words, means) if column and headers.plain(word) != column]
        if others:
            self.told.append(", ".join(others))
        for line, fields in found[place + 1:]:
            self.take(line, fields, means)

    def all_records(self):
        """The records as texts without the spaces around them; empty rows are none."""
        try:
            with open(self.path, "rb") as file:
                text = file.read()
        except OSError as error:
            raise Unusable(self.path, f"can't be read: {error.strerror}") from error
        if text.startswith(records.WORKBOOK):
            raise Unusable(self.path, "is a workbook of a spreadsheet program; save its sheet as CSV")
        text = self.as_utf8(text)
        start = text.lstrip(b"\r\n").splitlines()[:HEADER_LINES]
        separator = max((records.separator_of(line.decode()) for line in start), key=lambda sign: sum(sign.encode() in line for line in start),
                        default=",")
        self.separator = separator
        if separator != ",":
            self.told.append(f"with {records.SEPARATORS[separator]}")
        found = [(line, [" ".join(field.decode().split()) for field in fields]) for line, fields in records.records(text, separator.encode())]
        found = [(line, fields) for line, fields in found if any(fields)]
        if not found:
            raise Unusable(self.path, "is empty")
        return found

    def as_utf8(self, text):
        """The bytes of a file as UTF-8 without a mark."""
        encoding = records.utf16_of(text)
        if encoding:
            self.told.append("UTF-16")
            return text.decode(encoding, "replace").lstrip("\ufeff").encode()
        text = text.removeprefix(records.MARK)
        try:
            text.decode()
        except UnicodeDecodeError:
            self.told.append("Windows-1252")
            return records.decoded(text).encode()
        return text

    def header_place(self, found, columns):
        """Which record is the header: of the first ones that with the most known words."""
        counts = [sum(column is not None for column in headers.columns_of(fields, columns)) for _, fields in found[:HEADER_LINES]]
        if not max(counts):
            raise Unusable(self.path, f"none of its first lines is a header; its columns are {', '.join(columns)}")
        return counts.index(max(counts))

    def take(self, line, fields, means):
        if any(fields[len(means):]):
            text = f"has {len(fields)} fields, and the header {len(means)}; a field with a {self.separator!r} in it stands in double quotes"
            self.faults.in_sheet(self.path, line, None, text, "fields")
            return
        fields = fields + [""] * (len(means) - len(fields))
        self.rows.append(Row(line, {column: text for column, text in zip(means, fields) if column}))

    def expect(self, columns):
        """Tells which columns are missing that have to be there; whether none is."""
        missing = [column for column in columns if column not in self.columns]
        if missing:
            self.faults.in_sheet(self.path, None, None, f"there is no column {', '.join(missing)}")
        return not missing

    def read(self, row, column, reader):
        """What a reader makes of a field; None and a fault where it makes nothing of it."""
        text = row.texts.get(column, "")
        try:
            return reader(text)
        except values.Unclear as fault:
            self.faults.in_sheet(self.path, row.line, column, f"{text!r} {fault}" if text else "is empty", str(fault) if text else "empty")
            return None


def workbooks_in(folder):
    """The workbooks of a folder, which are no sheets."""
    return sorted(name for name in os.listdir(folder) if name.lower().endswith((".xlsx", ".xls", ".ods", ".xlsm")))


def file_in(folder, name):
    """The path of a sheet in a folder or in its net/, by its name in any case; None where there is none."""
    for place in (folder, os.path.join(folder, "net")):
        if os.path.isdir(place):
            for other in sorted(os.listdir(place)):
                stem, ending = os.path.splitext(other.lower())
                if stem == name and ending in (".csv", ".txt", ".tsv"):
                    return os.path.join(place, other)
    return None
