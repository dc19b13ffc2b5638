"""The tables of a network and of its bids, of both versions.

They are read as far as pictures and pages need them. Which tables are right, with the row and the code of each fault, `optra` and
`tools/lint` say; here what can't be read is one line.
"""
import csv
from collections import namedtuple

from .faults import Refused

LAST_MINUTE = 2879

# Tracks by name; running times, headways and crossings by their names; a limit of 0 is none.
Net = namedtuple("Net", "version stations limits tracks types running headways crossings")
Track = namedtuple("Track", "name tail head")
Window = namedtuple("Window", "first ideal last")
Stop = namedtuple("Stop", "station least most first last")
# The rates are in cents a minute, in the order of the table: early and late departure, early and late arrival, travel, wait.
Bid = namedtuple("Bid", "name bidder kind origin destination depart arrive base rates wait_max stops")
Rates = namedtuple("Rates", "early_depart late_depart early_arrive late_arrive travel wait")


def records(path):
    """The records of a file that have fields."""
    try:
        with open(path, newline="", encoding="utf-8-sig") as file:
            return [record for record in csv.reader(file) if record]
    except OSError as error:
        raise Refused(f"can't read {path}: {error.strerror or error}") from error
    except (UnicodeDecodeError, csv.Error) as error:
        raise Refused(f"can't read {path}: {error}") from error


def rows(path, width):
    """The records under the header, each with so many fields."""
    found = records(path)[1:]
    for place, record in enumerate(found, start=2):
        if len(record) != width:
            raise Refused(f"{path}, row {place}: {len(record)} fields, not {width}")
    return found


def number(text, path):
    if not text.isascii() or not text.isdigit() or len(text) > 18:
        raise Refused(f"{path}: {text!r} is no number")
    return int(text)


def minute(text, path):
    found = number(text, path)
    if found > LAST_MINUTE:
        raise Refused(f"{path}: {found} is no minute of the two days")
    return found


def known(name, names, path, what):
    if name not in names:
        raise Refused(f"{path}: no {what} is called {name}")
    return name


def read_stations(path):
    """The version of the tables, and the limit of each station."""
    header, *found = records(path) or [[]]
    if header not in (["station"], ["station", "halt_max"]):
        raise Refused(f"{path}: its header is neither station nor station,halt_max")
    for place, record in enumerate(found, start=2):
        if len(record) != len(header):
            raise Refused(f"{path}, row {place}: {len(record)} fields, not {len(header)}")
    return len(header), {record[0]: number(record[1], path) if len(header) == 2 else 0 for record in found}


def read_net(folder):
    version, limits = read_stations(f"{folder}/stations.csv")
    path = f"{folder}/tracks.csv"
    tracks = {name: Track(name, known(tail, limits, path, "station"), known(head, limits, path, "station"))
              for name, tail, head in rows(path, 3)}
    types = [record[0] for record in rows(f"{folder}/types.csv", 1)]
    path = f"{folder}/running.csv"
    running = {(known(track, tracks, path, "track"), known(kind, types, path, "type")): [number(time, path) for time in times]
               for track, kind, *times in rows(path, 6)}
    path = f"{folder}/headways.csv"
    headways = {(known(track, tracks, path, "track"), a, b): number(minutes, path) for track, a, b, minutes in rows(path, 4)}
    path, crossings = f"{folder}/crossings.csv", {}
    if version == 2:
        crossings = {(known(a, tracks, path, "track"), known(b, tracks, path, "track"), c, d): number(minutes, path)
                     for a, b, c, d, minutes in rows(path, 5)}
    return Net(version, list(limits), limits, tracks, types, running, headways, crossings)


def read_stops(path, net):
    """The stops of each bid, in order."""
    stops = {}
    for bid, station, *numbers in rows(path, 6):
        least, most, first, last = (number(text, path) for text in numbers)
        stops.setdefault(bid, []).append(Stop(known(station, net.limits, path, "station"), least, most, first, last))
    return stops


def read_bids(net, bids, stops):
    """The bids by their names, in order."""
    halts, found = read_stops(stops, net), {}
    for name, bidder, kind, origin, destination, *rest in rows(bids, 19):
        minutes, numbers = [minute(text, bids) for text in rest[:6]], [number(text, bids) for text in rest[6:]]
        found[name] = Bid(name, bidder, known(kind, net.types, bids, "type"), known(origin, net.limits, bids, "station"),
                          known(destination, net.limits, bids, "station"), Window(*minutes[:3]), Window(*minutes[3:]),
                          numbers[0], Rates(*numbers[1:7]), numbers[7], halts.get(name, []))
    return found
