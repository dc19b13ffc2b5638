"""What tools/lint found, each with its place, and how it is printed: one line each, and those that are alike put together."""
from collections import Counter, namedtuple

FAULT, WARNING, NOTE = "fault", "warning", "note"
# How many of those that are alike are printed one by one, and of how many kinds with one code in a file.
SHOWN, SHOWN_KINDS = 3, 10

# Where a record stands: its table, the file, the line of the file, and the row that the program counts.
Place = namedtuple("Place", "table path line row")
# `kind` tells those that are alike, and `alike` names them in the line that puts the rest together.
Finding = namedtuple("Finding", "level place column code text kind alike")


class Findings:
    """All that was found, in the order in which the program reads."""

    def __init__(self):
        self.all = []

    def fault(self, place, column, code, text, kind=None, alike="of this kind"):
        self.all.append(Finding(FAULT, place, column, code, text, kind or code, alike))

    def warn(self, place, column, text, kind, alike="of this kind"):
        self.all.append(Finding(WARNING, place, column, WARNING, text, kind, alike))

    def note(self, place, text):
        self.all.append(Finding(NOTE, place, None, NOTE, text, text, ""))

    def in_sheet(self, path, line, column, text, kind=None):
        """A fault of a sheet of people's own, which has no code and no row."""
        self.all.append(Finding(FAULT, Place(None, path, line, None), column, None, text, kind or text, "of this kind"))

    def of_level(self, level):
        return [finding for finding in self.all if finding.level == level]

    def has_faults(self, tables):
        """Whether there is a fault in one of the tables."""
        return any(finding.level == FAULT and finding.place.table in tables for finding in self.all)

    def first(self):
        """The line that the program ends with; None where it accepts."""
        faults = self.of_level(FAULT)
        if not faults:
            return None
        place, code = faults[0].place, faults[0].code
        if code in ("absent", "read fault", "too long"):
            return f"{code}: {place.path}"
        return f"refused: {place.table} row {place.row} {code}"


def where(finding):
    """The place as one reads it: the file, its line, and the row where that is another number."""
    place = finding.place
    told = place.path + (f":{place.line}" if place.line else "")
    if place.line and place.row and place.row != place.line:
        told += f" (row {place.row})"
    return told + (f": {finding.column}" if finding.column else "")


def line_of(finding):
    return f"{where(finding)}: {f'{finding.code}: ' if finding.code else ''}{finding.text}"


def spans(numbers):
    """Numbers in words: 3, 5 to 9, 12, and how many are left out."""
    found = []
    for number in sorted(numbers):
        if found and number == found[-1][1] + 1:
            found[-1][1] = number
        else:
            found.append([number, number])
    told = [str(a) if a == b else f"{a} to {b}" for a, b in found[:8]]
    return ", ".join(told) + (f" and {len(found) - 8} spans more" if len(found) > 8 else "")


def rest_line(findings):
    """One line for those that are alike and weren't printed one by one: in which columns and lines they stand."""
    first = findings[0]
    columns = ", ".join(dict.fromkeys(finding.column for finding in findings if finding.column))
    lines = {finding.place.line for finding in findings if finding.place.line}
    alike = first.alike if len({finding.kind for finding in findings}) == 1 else "with this code"
    told = f"{len(findings)} more {alike}" + (f", in line{'s' * (len(lines) > 1)} {spans(lines)}" if lines else "")
    return line_of(first._replace(place=first.place._replace(line=None), column=columns, text=f"{told}; --all prints each"))


def grouped(findings):
    """The lines of one file's findings: a few of each kind, and then what the rest is."""
    seen, kinds, shown, rest = Counter(), {}, [], {}
    for finding in findings:
        kind, known = (finding.code, finding.kind), kinds.setdefault(finding.code, set())
        if kind not in known and len(known) == SHOWN_KINDS:
            kind = (finding.code, None)
        else:
            known.add(kind)
        seen[kind] += 1
        if kind[1] is not None and seen[kind] <= SHOWN:
            shown.append(finding)
        else:
            rest.setdefault(kind, []).append(finding)
    lines = [line_of(finding) for finding in shown]
    for left in rest.values():
        lines += [line_of(left[0])] if len(left) == 1 else [rest_line(left)]
    return lines


def lines_of(findings, show_all):
    """All lines of a level, table by table."""
    if show_all:
        return [line_of(finding) for finding in findings]
    paths = dict.fromkeys(finding.place.path for finding in findings)
    return [line for path in paths for line in grouped([finding for finding in findings if finding.place.path == path])]
