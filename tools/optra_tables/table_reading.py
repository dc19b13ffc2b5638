"""Reads one table as the program does, tells every fault of its form, and goes on as far as what is meant is clear."""
import difflib
import itertools
import os
from collections import namedtuple

from . import formats, headers, records, values
from .findings import Place
from .formats import COLUMNS, KINDS, NAME, WORD
from .records import MARK

# Among so many records a header is looked for that isn't the first.
HEADER_RECORDS = 6
# A row and the cells that have the right form: names and words as texts, numbers as numbers. `raw` are its first fields.
Row = namedtuple("Row", "place cells raw")


class Table:
    """What was read of a table."""

    def __init__(self, name, path):
        self.name, self.path, self.columns = name, path, []
        # Whether the rows are there to be read, and all of them, so that what isn't in them is missing; the line of the first that is too many.
        self.is_read, self.is_whole, self.rows, self.surplus = False, False, [], None

    def place(self, line=None, row=0):
        return Place(self.name, self.path, line, row)


# Files

def neighbour(path):
    """A file of the same folder that most likely is meant, or None."""
    folder, name = os.path.split(path)
    try:
        others = os.listdir(folder or ".")
    except OSError:
        return None
    near = difflib.get_close_matches(name.lower(), [other.lower() for other in others], 1, 0.75)
    return os.path.join(folder, next(other for other in others if other.lower() == near[0])) if near else None


def absent_text(path):
    near = neighbour(path)
    return "there is no such file" + (f"; is {near} meant?" if near else "")


def file_bytes(table, findings):
    """The bytes of a table's file; None, and a fault, where the program gets none."""
    try:
        with open(table.path, "rb") as file:
            text = file.read(formats.LONGEST_FILE + 1)
    except FileNotFoundError:
        findings.fault(table.place(), None, "absent", absent_text(table.path))
        return None
    except OSError as error:
        findings.fault(table.place(), None, "read fault", f"can't be read: {error.strerror}")
        return None
    if len(text) > formats.LONGEST_FILE:
        findings.fault(table.place(), None, "too long", f"has more than {formats.LONGEST_FILE} bytes")
        return None
    return text


# The first line

def unmarked(text):
    """The bytes without byte-order marks and as UTF-8, and what is wrong with them as a whole, or None."""
    if text.startswith(records.WORKBOOK):
        return b"", "is a workbook of a spreadsheet program; save its sheet as CSV in UTF-8"
    encoding = records.utf16_of(text)
    if encoding:
        plain = text.decode(encoding, "replace").lstrip("\ufeff").encode("utf-8", "replace")
        return plain, "is UTF-16; save it as CSV in UTF-8"
    text = text.removeprefix(MARK)
    if text.startswith(MARK):
        while text.startswith(MARK):
            text = text.removeprefix(MARK)
        return text, "has two byte-order marks; save it as CSV in UTF-8"
    return text, None


def expected_header(name, got):
    """The columns that a table's header is to have: of stations those of the version that is meant."""
    if name == "stations" and (got == formats.STATIONS_1 or len(got) == 1 and not any(sign in got[0] for sign in records.SEPARATORS)):
        return formats.STATIONS_1
    return COLUMNS[name]


def header_fault(got, columns):
    """What is wrong with a header, as the rest of a sentence, whatever separates it."""
    wanted = f"write {','.join(columns)}"
    if headers.is_data(got, columns):
        return f"the first line isn't the header; {wanted}"
    if got[:len(columns)] == columns and not any(got[len(columns):]):
        return f"there are commas at its end; {wanted}"
    if sorted(got) == sorted(columns):
        return f"the columns stand in another order; {wanted}"
    if [headers.plain(word) for word in got] == columns:
        return f"the words are written otherwise; {wanted}"
    means = headers.columns_of(got, columns)
    missing = [column for column in columns if column not in means]
    unknown = [word for word, column in zip(got, means) if column is None]
    others = [f"{word!r} is to be {column}" for word, column in zip(got, means) if column not in (None, word)]
    told = [f"{', '.join(missing)} missing"] if missing else []
    told += [f"{', '.join(map(repr, unknown))} not known"] if unknown else []
    return f"{'; '.join(told + others[:4])}; {wanted}"


def header_of(name, found):
    """The words of the first record, what separates them, and the columns that they are to be."""
    words = [records.decoded(field) for field in found]
    separator = records.separator_of(words[0]) if len(words) == 1 else ","
    if separator == "," and len(words) > 1 and any(";" in word for word in words):
        separator = ";"
    if separator != ",":
        words = [values.stripped(word).strip('"') for word in ",".join(words).split(separator)]
    return words, separator, expected_header(name, words)


def tell_header(table, line, words, separator, findings):
    """The faults of a header; the first of them is the program's."""
    place = table.place(line, 1)
    if separator != ",":
        what = records.SEPARATORS[separator]
        findings.fault(place, None, "Header", f"{what} separate the fields; save it with commas", "separator")
    if words != table.columns:
        findings.fault(place, None, "Header", header_fault(words, table.columns), "words")


# Rows

def count_fault(fields, columns):
    """What is wrong with a row of another number of fields."""
    told = f"has {len(fields)} fields, not {len(columns)}"
    if any(b"\n" in field or b"\r" in field for field in fields):
        return f"{told}; a double quote in it isn't closed, so that it goes over more than one line"
    if len(fields) > len(columns) and not any(fields[len(columns):]):
        return f"{told}; take out the commas at its end"
    if len(fields) > len(columns):
        return f"{told}; a name with a comma stands in double quotes, and numbers have no comma (12,50 is 1250 cents)"
    missing = ", ".join(column or "a field" for column in columns[len(fields):])
    return f"{told}; {missing} missing at its end, or a field before"


def name_fault(text):
    """What is wrong with a text that is no name."""
    if text == "":
        return "is empty; write a name"
    if len(text.encode()) > 64:
        return f"has {len(text.encode())} bytes; a name has at most 64"
    return "has a character that can't be seen, such as a tab or a line's end; take it out"


def read_cell(column, text, row, findings):
    """A cell of the right form, or None and a fault."""
    if KINDS[column] == WORD:
        return text
    if KINDS[column] == NAME:
        if formats.is_name(text):
            return text
        findings.fault(row.place, column, "Name", f"{text!r} {name_fault(text)}", "empty" if not text else "name")
        return None
    if formats.is_number(text):
        return int(text)
    advice = values.advice(column, text)
    findings.fault(row.place, column, "Number", f"{text!r} {advice}", advice.split(";")[0], "such fields")
    return None


def unread_columns(table, texts):
    """The columns of a row that the program doesn't read."""
    action = texts.get("action") if table.name == "actions" else None
    return set() if action is None else {"spec", "amount"} - set(formats.READ_OF.get(action, []))


def bad_byte(field):
    """The first byte of a field that isn't UTF-8; None where there is none."""
    try:
        field.decode("utf-8")
    except UnicodeDecodeError as error:
        return field[error.start]
    return None


def tell_encoding(row, columns, fields, findings):
    """The fault of a row with a field that isn't UTF-8."""
    if bad_byte(b",".join(fields)) is None:
        return
    for column, field in zip(columns, fields):
        byte = bad_byte(field)
        if byte is not None:
            text = f"byte {byte:02X} isn't UTF-8, most likely {records.decoded(field)!r} in Windows-1252; save the file as CSV in UTF-8"
            findings.fault(row.place, column, "Csv", text, "encoding", "such fields")
            return


def read_row(table, line, number, fields, columns, findings):
    """A row with the cells that can be read; `columns` is what stands in its fields, in their order."""
    row = Row(table.place(line, number), {}, [records.decoded(field) for field in fields])
    if len(fields) != len(columns):
        findings.fault(row.place, None, "Csv", count_fault(fields, columns), f"{len(fields)} fields", "rows of this kind")
        table.is_whole &= not any(b"\n" in field or b"\r" in field for field in fields)
        return row
    tell_encoding(row, columns, fields, findings)
    texts = {column: text for column, text in zip(columns, row.raw) if column}
    if len(columns) > 1 and not any(map(values.stripped, row.raw)):
        column = table.columns[0]
        code = "Name" if KINDS[column] == NAME else "Number"
        findings.fault(row.place, None, code, "the row is empty; take it out", "empty row", "empty rows")
        return row._replace(raw=[])
    unread = unread_columns(table, texts)
    for column in table.columns:
        if column in texts:
            cell = texts[column] if column in unread else read_cell(column, texts[column], row, findings)
            if cell is not None:
                row.cells[column] = cell
    return row


def header_below(text, separator, name):
    """Of a header that isn't the first record: how many records stand above it, its line and its columns; or None."""
    headers_of_table = [COLUMNS[name], *([formats.STATIONS_1] if name == "stations" else [])]
    for above, (line, fields) in enumerate(itertools.islice(records.records(text, separator.encode()), HEADER_RECORDS)):
        words = [records.decoded(field) for field in fields]
        if words in headers_of_table:
            return above, line, words
    return None


def read_header(table, text, findings):
    """Tells the faults of a header. Gives what separates the fields, which column stands in each, and how many records are no rows."""
    line, first = next(records.records(text))
    words, separator, table.columns = header_of(table.name, first)
    below = header_below(text, separator, table.name) if words != table.columns else None
    if below:
        above, header_line, table.columns = below
        findings.fault(table.place(line, 1), None, "Header", f"the header stands in line {header_line}; take out what is above it")
        return separator, table.columns, above + 1
    tell_header(table, line, words, separator, findings)
    if headers.is_data(words, table.columns):
        return separator, table.columns, 0
    return separator, headers.columns_of(words, table.columns), 1


def read_rows(table, text, findings):
    """The rows of a table's bytes, one at a time. The faults of a row's form are told before it is given, and no fault of a later one."""
    text, fault = unmarked(text)
    first = next(records.records(text), None)
    if fault:
        findings.fault(table.place(first[0] if first else 1, 1), None, "Header", fault)
    if first is None:
        if not fault:
            wanted = ",".join(expected_header(table.name, [""]))
            findings.fault(table.place(1, 1), None, "Header", f"the file is empty; its first line is to be {wanted}")
        return
    separator, columns, above = read_header(table, text, findings)
    table.is_read = table.is_whole = any(columns)
    found = enumerate(records.records(text, separator.encode()), start=1)
    for number, (line, fields) in itertools.islice(found, above, None) if table.is_read else []:
        if table.name == "rules" and table.rows:
            table.surplus = table.surplus or line
            continue
        row = read_row(table, line, number, fields, columns, findings)
        table.rows.append(row)
        yield row
