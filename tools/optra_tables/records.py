"""The records of a table as the program reads them, each with the line of its file, and the encodings that people's files have."""
import csv
import io
import re

MARK = b"\xef\xbb\xbf"
# How the workbooks of spreadsheet programs begin.
WORKBOOK = b"PK\x03\x04"
LINE_END = re.compile(rb"\r\n|\r|\n")
SEPARATORS = {";": "semicolons", "\t": "tabs", "|": "bars"}


def field_pattern(separator):
    """A field: in quotes with what stands behind them, or plain."""
    plain = rb"[^" + re.escape(separator) + rb"\r\n]*"
    return re.compile(rb'"([^"]*(?:""[^"]*)*)(?:"|\Z)(' + plain + rb")|(" + plain + rb")")


def quoted_record(text, at, separator, pattern):
    """The fields of the record that begins at a place, and the place behind it."""
    fields = []
    while True:
        found = pattern.match(text, at)
        if found[3] is None:
            fields.append(found[1].replace(b'""', b'"') + found[2])
        else:
            fields.append(found[3])
        at = found.end()
        if text[at:at + 1] != separator:
            return fields, at
        at += 1


def records(text, separator=b","):
    """Each record with the line on which it begins, and its fields as bytes. Empty lines give none."""
    at, line, pattern = 0, 1, field_pattern(separator)
    while at < len(text):
        ending = LINE_END.search(text, at)
        end = ending.start() if ending else len(text)
        begins = line
        if text.find(b'"', at, end) < 0:
            fields = text[at:end].split(separator) if end > at else None
        else:
            fields, end = quoted_record(text, at, separator, pattern)
            line += len(LINE_END.findall(text, at, end))
            ending = LINE_END.match(text, end)
        if fields:
            yield begins, fields
        at = ending.end() if ending else end
        line += 1


def decoded(field):
    """A field as text: UTF-8, or else the letters of Windows-1252, which is most likely what was saved."""
    try:
        return field.decode("utf-8")
    except UnicodeDecodeError:
        return field.decode("cp1252", "replace")


def utf16_of(text):
    """The encoding where bytes are most likely UTF-16, by their mark or by the zeros between their letters; or None."""
    if text.startswith((b"\xff\xfe", b"\xfe\xff")):
        return "utf-16"
    if 0 not in text[:2]:
        return None
    return "utf-16-be" if text[0] == 0 else "utf-16-le"


def separator_of(line):
    """What most likely separates the fields of a first line: a comma, or one of the others where it stands more often."""
    return max([",", *SEPARATORS], key=line.count)


def written(rows):
    """Rows as the text of a table, with quotes where a field needs them."""
    text = io.StringIO()
    csv.writer(text, lineterminator="\n").writerows(rows)
    return text.getvalue()
