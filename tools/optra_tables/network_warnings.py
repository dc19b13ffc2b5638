"""What of an accepted network is most likely not meant."""
from collections import Counter

from .formats import TIMES
from .values import stripped
from .words import clock

# Where there are so many times more single tracks than double ones, those are few.
FEW = 3
MODES = ["passing both ends", "halting at its end", "starting at its beginning", "starting and halting"]


def joined(names, most=12):
    """Names in one line; where there are many, the first ones and how many more."""
    names = list(names)
    return ", ".join(names[:most]) + (f" and {len(names) - most} more" if len(names) > most else "")


def minute_text(minute):
    return f"{minute} ({clock(minute)})"


# Names

def look_alikes(names, findings):
    """Names with spaces around them, and names that differ by spaces and capitals alone."""
    seen = {}
    for name, line in names.lines.items():
        place = names.table.place(line)
        if stripped(name) != name:
            findings.warn(place, None, f"{name!r} has spaces around it, which are part of the name", "spaces")
        plain = "".join(name.casefold().split())
        if plain in seen:
            findings.warn(place, None, f"{name!r} and {seen[plain]!r} are two names; is one meant?", "alike")
        seen.setdefault(plain, name)


# Running times

def unused_parts(railway, known, findings):
    """Stations, tracks and types that no train can use."""
    for station, line in known.stations.lines.items():
        if not railway.neighbours(station):
            findings.warn(known.stations.table.place(line), None, f"no track leads to {station!r} or from it", "no track")
    for track, line in known.tracks.lines.items():
        if not railway.users[track]:
            findings.warn(known.tracks.table.place(line), None, f"no type has running times on {track!r}, so no train may use it", "no user")
    used = {kind for _, kind in railway.running}
    for kind, line in known.types.lines.items():
        if kind not in used:
            findings.warn(known.types.table.place(line), None, f"{kind!r} has running times on no track, so its trains can't run", "no times")


def missing_ways_back(railway, known, findings):
    """Tracks without one the other way, and types that may use a track in one direction alone, where others go both ways."""
    if not any(railway.opposite(name) for name in railway.tracks):
        return
    for name, track in railway.tracks.items():
        back = railway.opposite(name)
        if not back:
            text = f"no track leads back from {track.head} to {track.tail}"
            findings.warn(known.tracks.table.place(known.tracks.lines[name]), None, text, "one way", "tracks without one back")
            continue
        for kind in railway.users[name]:
            if not any((other, kind) in railway.running for other in back):
                line = known.lines["running", (name, kind)]
                text = f"{kind} may use {name} and not the way back, {joined(back)}"
                findings.warn(known.tables["running"].place(line), None, text, "one way", "rows without one for the way back")


def odd_times(railway, known, findings):
    """Running times that are shorter for a train that halts than for one that passes."""
    for (track, kind), times in railway.running.items():
        place = known.tables["running"].place(known.lines["running", (track, kind)])
        for mode in (1, 2, 3):
            if times[mode] < times[0]:
                text = f"{kind} on {track} takes {times[mode]} minutes {MODES[mode]} and {times[0]} {MODES[0]}"
                findings.warn(place, TIMES[mode], text, "odd times")
                break


# Headways

def catch_up(slow, quick, minutes):
    """In which mode a quick train behind a slow one gains most on it, and by how many minutes it is in front at the end."""
    gains = [a - b - minutes for a, b in zip(slow, quick)]
    return max(range(4), key=lambda mode: (gains[mode], -mode)), max(gains)


def overtakings(railway, known, findings):
    """Headways by which a train gets to the end of the track no later than the one before it."""
    for (track, first, second), minutes in railway.headways.items():
        if (track, first) not in railway.running or (track, second) not in railway.running:
            continue
        mode, gain = catch_up(railway.running[track, first], railway.running[track, second], minutes)
        if gain >= 0:
            what = f"{gain} minutes before it" if gain > 1 else "a minute before it" if gain else "in the same minute"
            behind = f"{minutes} minutes" if minutes > 1 else "a minute"
            text = f"{second} enters {track} {behind} behind {first} and is at its end {what} (both {MODES[mode]}); write "
            place = known.tables["headways"].place(known.lines["headways", (track, first, second)])
            findings.warn(place, "minutes", text + f"more than {minutes + gain}", "overtaking")


def missing_times(railway, known, findings):
    """Types with headways on a track that they may not use."""
    told = set()
    for track, first, second in railway.headways:
        for kind in (first, second):
            if (track, kind) not in railway.running and (track, kind) not in told:
                told.add((track, kind))
                place = known.tables["headways"].place(known.lines["headways", (track, first, second)])
                findings.warn(place, None, f"{kind} has headways on {track} and no running times there, so it may not use it", "no times")


# Crossings

def pair_name(railway, name):
    track = railway.tracks[name]
    return f"{track.tail} and {track.head}"


def opposite_pairs(railway):
    """Each two tracks that lead to and fro between two stations, once."""
    order = {name: place for place, name in enumerate(railway.tracks)}
    return [(one, other) for one in railway.tracks for other in railway.opposite(one) if order[one] < order[other]]


def gaps_of_single(railway, known, one, other, findings):
    """Types that may meet on a single track since no row keeps them apart."""
    for first in railway.users[one]:
        for second in railway.users[other]:
            if (one, other, first, second) not in railway.crossings:
                text = f"{first} on {one} and {second} on {other} have no row, so they may meet on the single track"
                findings.warn(known.tables["crossings"].place(), None, text, "meet", "such rows are missing")


def short_crossings(railway, known, findings):
    """Crossings of a single track that are over while the first train may still be on it."""
    for (one, other, first, second), minutes in railway.crossings.items():
        times = railway.running.get((one, first))
        if times and other in railway.opposite(one) and minutes < max(times):
            text = f"{second} may enter {other} {minutes} minutes after {first} entered {one}, which takes up to {max(times)}"
            place = known.tables["crossings"].place(known.lines["crossings", (one, other, first, second)])
            findings.warn(place, "minutes", f"{text}; write {max(times)} or more", "short")


def far_crossings(railway, known, findings):
    """Crossings of tracks that have no station in common."""
    told = set()
    for one, other, first, second in railway.crossings:
        ends = set(railway.tracks[one][1:]) & set(railway.tracks[other][1:])
        if not ends and frozenset((one, other)) not in told:
            told.add(frozenset((one, other)))
            place = known.tables["crossings"].place(known.lines["crossings", (one, other, first, second)])
            findings.warn(place, None, f"{one} and {other} have no station in common; are these the tracks?", "far")


def why_single(railway, pair, are_few, ends_of_singles):
    """Why a pair of tracks without rows may be a single track all the same, in words; or None."""
    for end in railway.tracks[pair[0]][1:]:
        if ends_of_singles[end] and len(railway.neighbours(end)) == 2:
            return f"beyond {end} the line is a single track"
    return "nearly all others have" if are_few else None


def forgotten_sections(railway, known, doubles, singles, findings):
    """Pairs of tracks without rows that most likely are forgotten: the line goes on as a single track where nothing branches off, or nearly
    all others are single tracks."""
    ends_of_singles = Counter(end for one, _ in singles for end in railway.tracks[one][1:])
    are_few = FEW * len(doubles) <= len(singles)
    for one, other in doubles:
        why = why_single(railway, (one, other), are_few, ends_of_singles)
        if why:
            text = f"{one} and {other} have no rows, and {why}; are they one single track too?"
            findings.warn(known.tables["crossings"].place(), None, text, "forgotten", "such pairs of tracks")


def crossing_warnings(railway, known, findings):
    table, pairs = known.tables["crossings"], opposite_pairs(railway)
    crossed = {frozenset(key[:2]) for key in railway.crossings}
    singles = [pair for pair in pairs if frozenset(pair) in crossed]
    doubles = [pair for pair in pairs if frozenset(pair) not in crossed]
    if not railway.crossings and pairs:
        text = f"no rows: each of the {len(pairs)} pairs of tracks to and fro is a double track; on a single one trains would meet"
        findings.warn(table.place(), None, text, "no rows")
        return
    for one, other in singles:
        gaps_of_single(railway, known, one, other, findings)
    short_crossings(railway, known, findings)
    far_crossings(railway, known, findings)
    forgotten_sections(railway, known, doubles, singles, findings)
    for pairs, what in ((singles, "single track, worked both ways"), (doubles, "double track (no rows)")):
        if pairs:
            findings.note(table.place(), f"{what}: {joined(pair_name(railway, one).replace(' and ', '–') for one, _ in pairs)}")


# Versions

def unread_crossings(railway, known, path_is_there, findings):
    """What tables of version 1 leave out."""
    table, pairs = known.tables["stations"], opposite_pairs(railway)
    if path_is_there:
        text = "crossings.csv isn't read, since this header is that of version 1; write station,halt_max and a limit behind each name (0 is none)"
        findings.warn(table.place(1, 1), None, text, "version")
    elif pairs:
        text = f"tables of version 1 have no crossings: each of the {len(pairs)} pairs of tracks to and fro is a double track"
        findings.note(table.place(1, 1), text)


def network_warnings(railway, known, has_crossings_file, findings):
    """All warnings of a network, table by table."""
    for names in (known.stations, known.tracks, known.types):
        look_alikes(names, findings)
    if known.version == 1:
        unread_crossings(railway, known, has_crossings_file, findings)
    unused_parts(railway, known, findings)
    missing_ways_back(railway, known, findings)
    odd_times(railway, known, findings)
    overtakings(railway, known, findings)
    missing_times(railway, known, findings)
    if known.version == 2:
        crossing_warnings(railway, known, findings)
