"""The refusals of the tables, each tested in the program's order, and told for every row."""
from collections import Counter

from . import formats
from .formats import ARRIVES, DEPARTS, MOST_REACH, RATES, TIMES


# Parts of the rules

def take_name(row, column, names, findings):
    """Takes a name of a table that gives each name once: N7 where there are too many already, N1 where it stands."""
    most = formats.MOST_ROWS[row.place.table]
    if len(names.lines) >= most:
        findings.fault(row.place, None, "N7", f"there are {most} {row.place.table} already", "N7", "rows too many")
    name = row.cells.get(column)
    if name is None:
        names.doubtful.update(row.raw[:1])
    elif name in names:
        names.twice.add(name)
        findings.fault(row.place, column, "N1", f"{name!r} stands in line {names.lines[name]} already; each name stands once")
    else:
        names.lines[name] = row.place.line


def expect_names(row, code, names_by_column, findings):
    """Tests that what is named is there; whether all of it is."""
    is_there = True
    for column, names in names_by_column.items():
        name = row.cells.get(column)
        told = names.missing(name) if name is not None else None
        if told:
            findings.fault(row.place, column, code, told, told, "with this name")
        is_there &= name is not None and not told
    return is_there


def expect_range(row, columns, code, findings):
    """Tests that the numbers are in their ranges; whether all of them are."""
    is_right = True
    for column in columns:
        low, high = formats.RANGES[column]
        number = row.cells.get(column)
        if number is not None and not low <= number <= high:
            findings.fault(row.place, column, code, f"{number} is out of range; write {low} to {high}{range_hint(column, number)}", "range")
        is_right &= number is not None and low <= number <= high
    return is_right


def range_hint(column, number):
    """What a number out of range may be."""
    if formats.KINDS[column] == formats.DURATION and number > 240 and number % 60 == 0:
        return f" (minutes, not seconds: {number // 60})"
    return ""


def take_once(row, columns, taken, what, findings):
    """Takes what may stand once: N5 where it stands already."""
    key = tuple(row.cells.get(column) for column in columns)
    if None in key:
        return None
    if (row.place.table, key) in taken:
        findings.fault(row.place, None, "N5", f"{', '.join(key)} {what} in line {taken[row.place.table, key]} already")
        return None
    taken[row.place.table, key] = row.place.line
    return key


# The network

def station_rule(row, known, findings):
    take_name(row, "station", known.stations, findings)
    if "halt_max" in row.cells:
        expect_range(row, ["halt_max"], "N3", findings)
    known.limits.setdefault(row.cells.get("station"), row.cells.get("halt_max", 0))


def track_rule(row, known, findings):
    take_name(row, "track", known.tracks, findings)
    is_there = expect_names(row, "N2", {"from": known.stations, "to": known.stations}, findings)
    tail, head = row.cells.get("from"), row.cells.get("to")
    if tail is not None and tail == head:
        findings.fault(row.place, None, "N4", f"leads from {tail!r} to itself; a track joins two stations")
    elif is_there and "track" in row.cells:
        known.ends.setdefault(row.cells["track"], (tail, head))


def type_rule(row, known, findings):
    take_name(row, "type", known.types, findings)


def running_rule(row, known, findings):
    is_there = expect_names(row, "N2", {"track": known.tracks, "type": known.types}, findings)
    expect_range(row, TIMES, "N3", findings)
    key = take_once(row, ["track", "type"], known.lines, "has running times", findings)
    if key and is_there:
        known.running[key] = [row.cells.get(column) for column in TIMES]


def headway_rule(row, known, findings):
    expect_names(row, "N2", {"track": known.tracks, "first": known.types, "second": known.types}, findings)
    expect_range(row, ["minutes"], "N3", findings)
    key = take_once(row, ["track", "first", "second"], known.lines, "has a headway", findings)
    if key:
        known.headways[key] = row.cells.get("minutes")


def crossing_rule(row, known, findings):
    expect_names(row, "N2", {"first_track": known.tracks, "second_track": known.tracks, "first": known.types, "second": known.types}, findings)
    one, other = row.cells.get("first_track"), row.cells.get("second_track")
    if one is not None and one == other:
        findings.fault(row.place, None, "N4", f"both tracks are {one!r}; a crossing is of two")
    expect_range(row, ["minutes"], "N3", findings)
    key = take_once(row, ["first_track", "second_track", "first", "second"], known.lines, "have a crossing", findings)
    if key and one != other:
        known.crossings[key] = row.cells.get("minutes")


def all_headways(table, known, findings):
    """Each two types that may use a track have a headway on it."""
    for track, kinds in known.users_of().items():
        for first in kinds:
            for second in kinds:
                if (track, first, second) not in known.headways:
                    text = f"a row is missing: {written_row(track, first, second, '<minutes>')} (both may use the track)"
                    findings.fault(table.place(), None, "N6", text, "N6", "such rows are missing")


def all_crossings(table, known, findings):
    """Each crossing is there in its other direction, and none reaches too far."""
    for one, other, first, second in known.crossings:
        if (other, one, second, first) not in known.crossings:
            text = f"a row is missing: {written_row(other, one, second, first, '<minutes>')} (the other direction of line "
            text += f"{known.lines['crossings', (one, other, first, second)]})"
            findings.fault(table.place(), None, "N8", text, "N8", "such rows are missing")
    reach = Counter()
    for (one, other, first, second), minutes in known.crossings.items():
        reach[one, first] += (minutes or 1) + (known.crossings.get((other, one, second, first)) or 0) - 1
    for (track, kind), total in reach.items():
        if total > MOST_REACH:
            text = f"the crossings of {kind} on {track} add up to {total}, at most {MOST_REACH} (their minutes and those of their "
            findings.fault(table.place(), None, "N9", text + "other directions, less 1 for each); take out some or make them shorter")


def written_row(*fields):
    """A row as it is to stand in a table, without its line end."""
    return ",".join(f'"{field}"' if any(sign in field for sign in ',"') else field for field in fields)


# Bids and stops

def expect_order(row, columns, findings):
    """Tests that a window is in order; whether it is."""
    window = [row.cells.get(column) for column in columns]
    if None in window:
        return
    if window != sorted(window):
        told = ", ".join(f"{column} {minute}" for column, minute in zip(columns, window))
        hint = "; a time after midnight is 1440 more" if window[-1] < 360 and max(window) > 1080 else "; write them in order"
        findings.fault(row.place, columns[0], "B2", told + hint, f"B2 {columns[0]}")


def bid_rule(row, known, findings):
    cells = row.cells
    take_name(row, "bid", known.bids, findings)
    expect_names(row, "B4", {"type": known.types, "origin": known.stations, "destination": known.stations}, findings)
    if cells.get("origin") is not None and cells.get("origin") == cells.get("destination"):
        findings.fault(row.place, "destination", "B1", f"origin and destination both are {cells['origin']!r}")
    expect_order(row, DEPARTS, findings)
    expect_order(row, ARRIVES, findings)
    expect_range(row, [*DEPARTS, *ARRIVES, "base", *RATES, "wait_max"], "B3", findings)
    known.bid_rows.setdefault(cells.get("bid"), row)


def stop_rule(row, known, findings):
    cells = row.cells
    expect_names(row, "B4", {"bid": known.bids, "station": known.stations}, findings)
    expect_order(row, ["arrive_from", "arrive_to"], findings)
    expect_range(row, ["min_dwell", "max_dwell", "arrive_from", "arrive_to"], "B3", findings)
    stops = known.stop_rows.setdefault(cells.get("bid"), [])
    if len(stops) >= formats.MOST_STOPS and "bid" in cells:
        findings.fault(row.place, "bid", "B5", f"{cells['bid']!r} has {formats.MOST_STOPS} stops already")
    least, most = cells.get("min_dwell"), cells.get("max_dwell")
    if least is not None and most is not None and not least <= most <= least + formats.WIDEST_DWELL:
        text = f"a dwell of {least} to {most}; max_dwell is to be min_dwell or up to {formats.WIDEST_DWELL} more"
        findings.fault(row.place, "max_dwell", "B5", text)
    stops.append(row)


# Auctions

def rules_rule(row, known, findings):
    expect_range(row, ["min_increment", "permille", "rounds"], "N3", findings)


def action_rule(row, known, findings):
    cells = row.cells
    if len(known.actions) >= formats.MOST_ROWS["actions"]:
        findings.fault(row.place, None, "N7", f"there are {formats.MOST_ROWS['actions']} actions already", "N7", "rows too many")
    action = cells.get("action")
    if action is not None and action not in formats.READ_OF:
        findings.fault(row.place, "action", "N2", f"{action!r} is no action; write {', '.join(formats.READ_OF)}", action)
    expect_range(row, ["round"] + (["amount"] if "amount" in formats.READ_OF.get(action, []) else []), "N3", findings)
    known.actions.append(row)


ROW_RULES = {"stations": station_rule, "tracks": track_rule, "types": type_rule, "running": running_rule, "headways": headway_rule,
             "crossings": crossing_rule, "bids": bid_rule, "stops": stop_rule, "rules": rules_rule, "actions": action_rule}
TABLE_RULES = {"headways": all_headways, "crossings": all_crossings}
