"""Which column a word in a first line most likely means."""
import difflib
import re

from . import formats

# Other words for a column, in any table that has it; those of bids alone stand below.
SYNONYMS = {
    "name": ["station", "track", "type", "bid"],
    **dict.fromkeys(["limit", "places", "capacity", "platforms", "halt_max"], ["halt_max", "places"]),
    "start": ["from"], "tail": ["from"], "end": ["to"], "head": ["to"],
    "kind": ["type"], "train_type": ["type"],
    "headway": ["minutes"], "time": ["minutes"], "min": ["min_dwell", "minutes"],
    "first_type": ["first"], "second_type": ["second"],
    "train": ["bid"], "train_number": ["bid"], "number": ["bid"], "request": ["bid"], "id": ["bid"],
    "operator": ["bidder"], "company": ["bidder"], "ru": ["bidder"],
    "from": ["origin"], "to": ["destination"], "origin_station": ["origin"], "destination_station": ["destination"],
    "departure": ["depart_ideal"], "depart": ["depart_ideal"], "dep": ["depart_ideal"], "departure_ideal": ["depart_ideal"],
    "ideal_departure": ["depart_ideal"], "departure_from": ["depart_from"], "earliest_departure": ["depart_from"],
    "departure_earliest": ["depart_from"], "departure_to": ["depart_to"], "latest_departure": ["depart_to"],
    "departure_latest": ["depart_to"],
    "arrival": ["arrive_ideal"], "arrive": ["arrive_ideal"], "arr": ["arrive_ideal"], "arrival_ideal": ["arrive_ideal"],
    "ideal_arrival": ["arrive_ideal"], "arrival_from": ["arrive_from"], "earliest_arrival": ["arrive_from"],
    "arrival_earliest": ["arrive_from"], "arrival_to": ["arrive_to"], "latest_arrival": ["arrive_to"], "arrival_latest": ["arrive_to"],
    "price": ["base"], "value": ["base"], "bid_value": ["base"], "amount": ["base"],
    "max_wait": ["wait_max"], "longest_wait": ["wait_max"], "waiting": ["wait"], "travel_rate": ["travel"], "wait_rate": ["wait"],
    "max": ["max_dwell"], "dwell_min": ["min_dwell"], "dwell_max": ["max_dwell"], "least_dwell": ["min_dwell"],
    "greatest_dwell": ["max_dwell"],
    "increment": ["min_increment"], "specification": ["spec"],
    "kilometre": ["km"], "kilometres": ["km"], "kilometer": ["km"], "distance": ["km"], "tracks": ["track"], "max_speed": ["speed"],
    "km_h": ["speed"], "starting": ["start"], "braking": ["brake"], "halts": ["stops"], "via": ["stops"],
}


ALL_WORDS = {word for columns in formats.COLUMNS.values() for word in columns} | set(SYNONYMS)
UNITS = re.compile(r"_(?:in_)?(?:km_?h|km|min|mins|minutes?|eur|euros?|chf|cents?|ct)$")


def plain(word):
    """A word without what people write differently: case, spaces, points, units behind it."""
    word = re.sub(r"[(\[].*?[)\]]", "", word.strip().strip("\ufeff")).casefold()
    word = re.sub(r"[^\w]+", "_", word).strip("_")
    return UNITS.sub("", word) if word not in ALL_WORDS else word


def column_of(word, columns):
    """The column that a word means, or None."""
    word = plain(word)
    if word in columns:
        return word
    for column in SYNONYMS.get(word, []):
        if column in columns:
            return column
    near = difflib.get_close_matches(word, columns, 1, 0.85)
    return near[0] if near else None


def columns_of(words, columns):
    """Of each word the column that it means, each column once; None where a word means none."""
    found = [plain(word) if plain(word) in columns else None for word in words]
    for place, word in enumerate(words):
        if found[place] is None:
            column = column_of(word, columns)
            found[place] = column if column not in found else None
    return [column if found.index(column) == place else None for place, column in enumerate(found)]


def is_data(words, columns):
    """Whether a first line is no header but a row: no word means a column, and there are as many as columns."""
    means = [column for column in columns_of(words, columns) if column]
    numbers = [word for word in words if formats.is_number(word.strip())]
    return not means and (len(words) == len(columns) or bool(numbers))
