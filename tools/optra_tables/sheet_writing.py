"""Writes tables as spreadsheets that people edit: clock times, money with decimals, semicolons and a byte-order mark."""
import csv
import os

from .formats import COLUMNS, KINDS, MINUTE, MONEY, NETWORK, STATIONS_1, is_number, path_in, paths_in
from .sheet_reading import Unusable
from .words import clock


def shown(column, text, decimal):
    """A field as people read it."""
    if not is_number(text):
        return text
    if KINDS[column] == MINUTE:
        return clock(int(text))
    if KINDS[column] == MONEY:
        return f"{int(text) // 100}{decimal}{int(text) % 100:02}"
    return text


def sheet_of(path, name, decimal):
    """The rows of a table with its fields as people read them."""
    with open(path, encoding="utf-8-sig", newline="") as file:
        header, *rows = [record for record in csv.reader(file) if record] or [[]]
    if header != COLUMNS[name] and not (name == "stations" and header == STATIONS_1):
        raise Unusable(path, f"its header isn't {','.join(COLUMNS[name])}")
    for row in rows:
        if len(row) != len(header):
            raise Unusable(path, f"a row has {len(row)} fields, not {len(header)}: {','.join(row)}")
    return [header, *([shown(column, text, decimal) for column, text in zip(header, row)] for row in rows)]


def write_sheets(folder, out, separator, decimal):
    """A sheet of each table of a folder, all in one folder; gives their paths."""
    paths = []
    for name, path in paths_in(folder).items():
        if os.path.exists(path):
            try:
                rows = sheet_of(path, name, decimal)
            except (OSError, UnicodeDecodeError) as error:
                raise Unusable(path, f"can't be read: {error}") from error
            paths.append(os.path.join(out, f"{name}.csv"))
            os.makedirs(out, exist_ok=True)
            with open(paths[-1], "w", encoding="utf-8-sig", newline="") as file:
                csv.writer(file, delimiter=separator, lineterminator="\r\n").writerows(rows)
    if not paths:
        raise Unusable(folder, f"has no tables ({path_in(folder, NETWORK[0])}, .., {path_in(folder, 'bids')})")
    return paths
