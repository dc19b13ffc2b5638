"""What the tables said so far, as the rules ask for it."""
import difflib

# For so many different names that aren't there a near one is looked for.
MOST_LOOKED_FOR = 300


class Names:
    """The names of one kind, each with the line that it stands on."""

    def __init__(self, table):
        self.table, self.path, self.lines = table, table.path, {}
        # Names of rows that couldn't be read whole: nobody who names them is at fault. And names that stand twice.
        self.doubtful = set()
        self.twice = set()
        self.is_whole, self.told = True, {}

    def __contains__(self, name):
        return name in self.lines

    def near(self, name):
        """The name that most likely is meant, or None."""
        if name not in self.told and len(self.told) < MOST_LOOKED_FOR:
            plain = {known.strip().casefold(): known for known in self.lines}
            near = difflib.get_close_matches(name.strip().casefold(), list(plain), 1, 0.6)
            self.told[name] = plain[near[0]] if near else None
        return self.told.get(name)

    def missing(self, name):
        """What to say of a name that isn't there; None where it is, or where nothing can be said."""
        if name in self.lines or name in self.doubtful or not self.is_whole:
            return None
        near = self.near(name)
        if near is None:
            return f"{name!r} isn't in {self.path}"
        if near == name.strip():
            return f"{name!r} has spaces around it; write {near}"
        return f"{name!r} isn't in {self.path}; is {near!r} meant?"


class Known:
    """A network, its bids and its auction as far as they were read. Times that couldn't be read are None."""

    def __init__(self, tables):
        self.tables = tables
        self.stations, self.tracks, self.types, self.bids = (Names(tables[name]) for name in ("stations", "tracks", "types", "bids"))
        self.version = 1
        self.limits, self.ends, self.running, self.headways, self.crossings = {}, {}, {}, {}, {}
        # The line of each row that may not stand twice.
        self.lines = {}
        # The cells of each bid, of its stops in order, and of the rules and actions.
        self.bid_rows, self.stop_rows, self.actions = {}, {}, []

    def names_of(self, table):
        return {"stations": self.stations, "tracks": self.tracks, "types": self.types, "bids": self.bids}.get(table)

    def users_of(self):
        """The types that may use each track, in the order of the table."""
        users = {}
        for track, kind in self.running:
            users.setdefault(track, []).append(kind)
        return users
