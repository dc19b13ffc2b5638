"""The tables: their columns, what stands in each, and the ranges of the numbers, as docs/FORMATS.md says."""
import os

LAST_MINUTE = 2879
LONGEST_FILE = 268_435_456
MOST_REACH = 4000
MOST_STOPS = 8
WIDEST_DWELL = 30

# In the order in which the program reads them.
COLUMNS = {
    "stations": ["station", "halt_max"],
    "tracks": ["track", "from", "to"],
    "types": ["type"],
    "running": ["track", "type", "pass_pass", "pass_halt", "halt_pass", "halt_halt"],
    "headways": ["track", "first", "second", "minutes"],
    "crossings": ["first_track", "second_track", "first", "second", "minutes"],
    "bids": ["bid", "bidder", "type", "origin", "destination", "depart_from", "depart_ideal", "depart_to", "arrive_from", "arrive_ideal",
             "arrive_to", "base", "early_depart", "late_depart", "early_arrive", "late_arrive", "travel", "wait", "wait_max"],
    "stops": ["bid", "station", "min_dwell", "max_dwell", "arrive_from", "arrive_to"],
    "rules": ["min_increment", "permille", "rounds"],
    "actions": ["round", "bidder", "action", "bid", "spec", "amount"],
}
NETWORK = ["stations", "tracks", "types", "running", "headways", "crossings"]
STATIONS_1 = ["station"]

TIMES = ["pass_pass", "pass_halt", "halt_pass", "halt_halt"]
DEPARTS = ["depart_from", "depart_ideal", "depart_to"]
ARRIVES = ["arrive_from", "arrive_ideal", "arrive_to"]
RATES = ["early_depart", "late_depart", "early_arrive", "late_arrive", "travel", "wait"]

# What a column holds: a name, a word, or a number of one of these kinds.
NAME, WORD, MINUTE, DURATION, MONEY, COUNT = "name", "word", "minute", "duration", "money", "count"
KINDS = {
    **dict.fromkeys(["station", "track", "from", "to", "type", "first_track", "second_track", "first", "second", "bid", "bidder", "origin",
                     "destination", "spec"], NAME),
    "action": WORD,
    **dict.fromkeys(DEPARTS + ARRIVES, MINUTE),
    **dict.fromkeys(TIMES + ["minutes", "min_dwell", "max_dwell", "wait_max"], DURATION),
    **dict.fromkeys(RATES + ["base", "min_increment", "amount"], MONEY),
    **dict.fromkeys(["halt_max", "permille", "rounds", "round"], COUNT),
}

# The least and the greatest number of a column, the same wherever the column stands.
RANGES = {
    "halt_max": (0, 1000),
    **dict.fromkeys(TIMES, (1, 240)),
    "minutes": (1, 120),
    **dict.fromkeys(DEPARTS + ARRIVES, (0, LAST_MINUTE)),
    "base": (0, 1_000_000_000),
    **dict.fromkeys(RATES, (0, 1_000_000)),
    "wait_max": (0, 30),
    **dict.fromkeys(["min_dwell", "max_dwell"], (0, 240)),
    "min_increment": (1, 1_000_000_000),
    "permille": (0, 1000),
    "rounds": (1, 100),
    "round": (1, 100),
    "amount": (0, 1_000_000_000),
}
MOST_ROWS = {"stations": 300, "tracks": 1000, "types": 16, "bids": 1000, "actions": 100_000}

# Of an action the fields that are read beside the others.
READ_OF = {"open": ["spec", "amount"], "raise": ["amount"], "amend": ["spec"], "withdraw": []}


def path_in(folder, table):
    """Where a table stands in a folder that has all of them."""
    return f"{folder}/net/{table}.csv" if table in NETWORK else f"{folder}/{table}.csv"


def paths_in(folder):
    """Where each table stands in a folder that has all of them, or the network's alone."""
    is_network = not os.path.isdir(f"{folder}/net") and os.path.exists(f"{folder}/stations.csv")
    return {name: f"{folder}/{name}.csv" if is_network else path_in(folder, name) for name in COLUMNS}


def is_name(text):
    """Whether the program takes a text as a name."""
    return 1 <= len(text.encode()) <= 64 and not any(ord(letter) < 0x20 or 0x7F <= ord(letter) <= 0x9F for letter in text)


def is_number(text):
    """Whether the program takes a text as a number."""
    return 1 <= len(text) <= 10 and text.isascii() and text.isdigit()
