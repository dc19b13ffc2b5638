#!/usr/bin/env python3
"""A slow plain planner, written from docs/MODEL.md and not from the crates.

    python3 bench/plain.py FOLDER [--steps K] [--budget B] [--cert FILE] [--trace]

FOLDER has net/ with its five tables, or with six of version 2, bids.csv and stops.csv; they are taken as accepted, no fault is looked
for. Prints what `optra plan` prints, and ends with its status. With --cert the certificate of the plan is written there. With --trace each node
that is taken is told on standard error. Every walk of every bid is listed, so this is for small cases alone.
"""
import argparse
import csv
import sys
from collections import Counter, namedtuple

LAST_MINUTE = 2879
LONGEST_CROSSING = 120
GREATEST_PRICE = 2_000_000_000_000

# Actions in their order: a kind by its rank, and a dwell.
PASS, HALT, WAIT, FINISH = range(4)
ACTIONS = ["pass", "halt", "wait", "finish"]

Track = namedtuple("Track", "name tail head")
Stop = namedtuple("Stop", "station min_dwell max_dwell arrive_from arrive_to")
Bid = namedtuple("Bid", "name bidder kind origin destination depart arrive base early_depart late_depart early_arrive "
                        "late_arrive travel wait wait_max stops")
Leg = namedtuple("Leg", "track depart from_halt action dwell")
Walk = namedtuple("Walk", "legs value")
Decision = namedtuple("Decision", "bid leg yes")
# Crossings are minutes by (first track, second track, first type, second type); a limit of 0 is none.
Network = namedtuple("Network", "version stations limits tracks types running headways crossings")
Valuation = namedtuple("Valuation", "value terms replies")
Candidate = namedtuple("Candidate", "prices dual")
Open = namedtuple("Open", "node start")
# A taken node; an item is ("split", bid, leg), ("nowalk", bid), ("forced", row) or ("priced", prices).
Turn = namedtuple("Turn", "number node start item path result repaired revenue")
Plan = namedtuple("Plan", "choice revenue bound nodes items turns rest")


# Tables

def all_records(path):
    with open(path, newline="", encoding="utf-8-sig") as file:
        return [record for record in csv.reader(file) if record]


def records(path):
    return all_records(path)[1:]


def read_network(folder):
    header, *rows = all_records(f"{folder}/stations.csv")
    version = len(header)
    stations = [row[0] for row in rows]
    limits = [int(row[1]) if version == 2 else 0 for row in rows]
    tracks = [Track(name, stations.index(tail), stations.index(head)) for name, tail, head in records(f"{folder}/tracks.csv")]
    types = [name for name, in records(f"{folder}/types.csv")]
    place = {track.name: i for i, track in enumerate(tracks)}
    running = {(place[track], types.index(kind)): tuple(map(int, times))
               for track, kind, *times in records(f"{folder}/running.csv")}
    headways = {(place[track], types.index(a), types.index(b)): int(minutes)
                for track, a, b, minutes in records(f"{folder}/headways.csv")}
    crossings = {(place[first], place[second], types.index(a), types.index(b)): int(minutes)
                 for first, second, a, b, minutes in (records(f"{folder}/crossings.csv") if version == 2 else [])}
    return Network(version, stations, limits, tracks, types, running, headways, crossings)


def read_bids(net, bids_path, stops_path):
    stops = [(bid, Stop(net.stations.index(station), *map(int, numbers)))
             for bid, station, *numbers in records(stops_path)]
    bids = []
    for name, bidder, kind, origin, destination, *rest in records(bids_path):
        numbers = list(map(int, rest))
        bids.append(Bid(name, bidder, net.types.index(kind), net.stations.index(origin), net.stations.index(destination),
                        tuple(numbers[0:3]), tuple(numbers[3:6]), *numbers[6:14], [stop for bid, stop in stops if bid == name]))
    return bids


# The railway

def arrival(net, kind, leg):
    """The departure plus the running time by the modes at the two ends."""
    return leg.depart + net.running[leg.track, kind][2 * leg.from_halt + (leg.action != PASS)]


def may_use(net, track, kind):
    return (track, kind) in net.running


def in_conflict(net, track, a, t, b, u):
    """Whether type a at minute t and type b at minute u exclude one another on the track."""
    return not (u >= t + net.headways[track, a, b] or t >= u + net.headways[track, b, a])


def breaks_crossing(net, first, second):
    """Whether two uses (track, type, minute) of two tracks with a crossing come too close one after the other."""
    (one, a, t), (other, b, u) = first, second
    return not (u >= t + net.crossings[one, other, a, b] or t >= u + net.crossings[other, one, b, a])


def window(net, track, kind, minute):
    """The window minutes of a use: as many as the least headway after its type."""
    least = min(net.headways[track, kind, other] for other in range(len(net.types)) if may_use(net, track, other))
    return range(minute, minute + least)


def headway_rows(net, track, kind, minute):
    """(0, track, minute) is a window, (1, track, minute, type, minute, type) a pair."""
    mine = window(net, track, kind, minute)
    for m in mine:
        yield (0, track, m)
    for other in range(len(net.types)):
        if not may_use(net, track, other):
            continue
        reach = max(net.headways[track, kind, other], net.headways[track, other, kind])
        for u in range(max(0, minute - reach), min(LAST_MINUTE, minute + reach) + 1):
            theirs = window(net, track, other, u)
            if in_conflict(net, track, kind, minute, other, u) and not set(mine) & set(theirs):
                first, second = sorted([(minute, kind), (u, other)])
                yield (1, track, *first, *second)


def cross_rows(net, track, kind, minute):
    """(2, track, minute, type, track, minute, type): two uses that break their crossing, the one on the lesser track first."""
    for one, other, a, b in net.crossings:
        if (one, a) == (track, kind) and may_use(net, other, b):
            for u in range(max(0, minute - LONGEST_CROSSING), min(LAST_MINUTE, minute + LONGEST_CROSSING) + 1):
                if breaks_crossing(net, (track, kind, minute), (other, b, u)):
                    first, second = sorted([(track, minute, kind), (other, u, b)])
                    yield (2, *first, *second)


def halt_rows(net, kind, leg):
    """(3, station, minute): the leg stands at its head, where so many trains may stand as the limit says."""
    head = net.tracks[leg.track].head
    if net.limits[head] > 0 and leg.action in (HALT, WAIT):
        arrive = arrival(net, kind, leg)
        for m in range(arrive, min(arrive + leg.dwell, LAST_MINUTE + 1)):
            yield (3, head, m)


def capacity(net, row):
    return net.limits[row[1]] if row[0] == 3 else 1


def next_legs(net, bid, state):
    """The legs that may come next at a state, in the order of walks, each with the state after it; None after a finish."""
    station, minute, halted, done = state
    for track, ends in enumerate(net.tracks):
        if ends.tail != station or not may_use(net, track, bid.kind) or minute > LAST_MINUTE:
            continue
        passing = Leg(track, minute, halted, PASS, 0)
        yield passing, (ends.head, arrival(net, bid.kind, passing), False, done)
        stopping = passing._replace(action=HALT)
        at = arrival(net, bid.kind, stopping)
        if done < len(bid.stops):
            stop = bid.stops[done]
            if stop.station == ends.head and stop.arrive_from <= at <= stop.arrive_to:
                for dwell in range(stop.min_dwell, stop.max_dwell + 1):
                    yield stopping._replace(dwell=dwell), (ends.head, at + dwell, True, done + 1)
        for dwell in range(1, bid.wait_max + 1):
            yield stopping._replace(action=WAIT, dwell=dwell), (ends.head, at + dwell, True, done)
        if done == len(bid.stops) and ends.head == bid.destination and bid.arrive[0] <= at <= bid.arrive[2]:
            yield stopping._replace(action=FINISH), None


def all_walks(net, bid):
    """Every timed walk of the bid, in walk order, each with its value."""
    ending = {}

    def ends(state):
        if state is None:
            return True
        if state not in ending:
            ending[state] = state[1] < bid.arrive[2] and any(ends(after) for _, after in next_legs(net, bid, state))
        return ending[state]

    def runs(state):
        if state is None:
            yield ()
        elif ends(state):
            for leg, after in next_legs(net, bid, state):
                for rest in runs(after):
                    yield (leg, *rest)

    starts = [(bid.origin, minute, True, 0) for minute in range(bid.depart[0], bid.depart[2] + 1)]
    return [Walk(legs, value(net, bid, legs)) for start in starts for legs in runs(start)]


def value(net, bid, legs):
    """The value of a walk in cents."""
    depart, arrive = legs[0].depart, arrival(net, bid.kind, legs[-1])
    waits = sum(leg.dwell for leg in legs if leg.action == WAIT)
    return (bid.base - bid.early_depart * max(bid.depart[1] - depart, 0) - bid.late_depart * max(depart - bid.depart[1], 0)
            - bid.early_arrive * max(bid.arrive[1] - arrive, 0) - bid.late_arrive * max(arrive - bid.arrive[1], 0)
            - bid.travel * (arrive - depart) - bid.wait * waits)


class Planner:
    """The rules of the search over the lists of all walks."""

    def __init__(self, net, bids):
        self.net, self.bids = net, bids
        self.walks = [all_walks(net, bid) for bid in bids]
        self.known_rows = {}

    def rows(self, bid, leg):
        """The rows that a leg of the bid takes."""
        use = (leg.track, self.bids[bid].kind, leg.depart)
        if use not in self.known_rows:
            self.known_rows[use] = [*headway_rows(self.net, *use), *cross_rows(self.net, *use)]
        return self.known_rows[use] + list(halt_rows(self.net, self.bids[bid].kind, leg))

    def capacity(self, row):
        return capacity(self.net, row)

    def load(self, choice):
        """How much the walks of a choice use of each row."""
        return Counter(row for bid, walk in enumerate(choice) if walk for leg in walk.legs for row in self.rows(bid, leg))

    def revenue(self, choice):
        return sum(walk.value for walk in choice if walk)

    # Nodes

    def yes_legs(self, node, bid):
        return [d.leg for d in node if d.bid == bid and d.yes]

    def allowed(self, node, bid):
        """The walks with each yes leg of the bid, none of its no legs and no leg that the others' yes legs block."""
        yes = set(self.yes_legs(node, bid))
        no = {d.leg for d in node if d.bid == bid and not d.yes}
        taken = Counter(row for d in node if d.yes and d.bid != bid for row in self.rows(d.bid, d.leg))
        legs = {leg for walk in self.walks[bid] for leg in walk.legs}
        barred = no | {leg for leg in legs if any(1 + taken[row] > self.capacity(row) for row in self.rows(bid, leg))}
        return [walk for walk in self.walks[bid] if yes.issubset(walk.legs) and barred.isdisjoint(walk.legs)]

    def dead(self, node, allowed):
        """The item of a dead node, or None."""
        use = Counter(row for d in node if d.yes for row in self.rows(d.bid, d.leg))
        overfull = [row for row in use if use[row] > self.capacity(row)]
        if overfull:
            return ("forced", min(overfull))
        stuck = self.stuck(node, allowed)
        return ("nowalk", stuck[0]) if stuck else None

    def stuck(self, node, allowed):
        """The bids with a yes leg and no allowed walk."""
        return [bid for bid in range(len(self.bids)) if self.yes_legs(node, bid) and not allowed[bid]]

    # Prices

    def dual(self, node, allowed, prices):
        """The dual value at a node and prices in thousandths of a cent, with the term and the reply of each bid."""
        terms, replies = [], []
        for bid in range(len(self.bids)):
            best, reply, cost = None, None, {}
            for walk in allowed[bid]:
                reduced = 1000 * walk.value
                for leg in walk.legs if prices else ():
                    if leg not in cost:
                        cost[leg] = sum(prices.get(row, 0) for row in self.rows(bid, leg))
                    reduced -= cost[leg]
                if best is None or reduced > best:
                    best, reply = reduced, walk
            if not self.yes_legs(node, bid) and (best is None or best <= 0):
                best, reply = 0, None
            terms.append(0 if best is None else best)
            replies.append(reply)
        total = 0 if self.stuck(node, allowed) else sum(prices[row] * self.capacity(row) for row in prices) + sum(terms)
        return Valuation(total, terms, replies)

    def step(self, k, prices, replies):
        """The prices after step k by the replies."""
        greatest = max((bid.base for bid in self.bids), default=0)
        length = max(1, greatest * 1000 // (4 * (k + 1)))
        use = self.load(replies)
        after = {row: min(max(prices.get(row, 0) + length * (use[row] - self.capacity(row)), 0), GREATEST_PRICE)
                 for row in {*prices, *use}}
        return {row: price for row, price in after.items() if price > 0}

    def price_path(self, node, allowed, start, steps, incumbent):
        """All candidates of the path, and the first one of least dual value."""
        path = []
        for number in range(steps + 2):
            if number < 2:
                prices = [{}, start][number]
            else:
                prices = self.step(number - 2, path[-1].prices, path[-1].dual.replies)
            path.append(Candidate(prices, self.dual(node, allowed, prices)))
            if path[-1].dual.value // 1000 <= incumbent:
                break
        return path, min(path, key=lambda candidate: candidate.dual.value)

    # A choice, and a leg to split on

    def fits(self, use, legs, bid):
        """Whether the legs, all of them with what is placed, get no row above its capacity."""
        whole = Counter(row for leg in legs for row in self.rows(bid, leg))
        return all(use[row] + whole[row] <= self.capacity(row) for row in whole)

    def repair(self, allowed, dual):
        """A choice, made by bids that take walks one after the other."""
        worth = [dual.terms[bid] if dual.replies[bid] else 0 for bid in range(len(self.bids))]
        choice, use = [None] * len(self.bids), Counter()
        for bid in sorted(range(len(self.bids)), key=lambda bid: (-worth[bid], bid)):
            fitting, best = {}, None
            for walk in allowed[bid]:
                for leg in walk.legs:
                    if leg not in fitting:
                        fitting[leg] = self.fits(use, [leg], bid)
                if all(fitting[leg] for leg in walk.legs) and (best is None or walk.value > best.value):
                    best = walk
            if best and best.value > 0 and self.fits(use, best.legs, bid):
                choice[bid] = best
                use.update(row for leg in best.legs for row in self.rows(bid, leg))
        return choice

    def split_leg(self, node, allowed, replies):
        """The bid and the leg on which a node is split."""
        fixed = {(d.bid, d.leg) for d in node if d.yes}
        free = [(bid, leg) for bid, walk in enumerate(replies) if walk for leg in walk.legs if (bid, leg) not in fixed]
        use = self.load(replies)
        for bid, leg in free:
            if any(use[row] > self.capacity(row) for row in self.rows(bid, leg)):
                return bid, leg
        for entry in free:
            return entry
        for bid in range(len(self.bids)):
            counts = [sum((bid, leg) not in fixed for leg in walk.legs) for walk in allowed[bid]]
            if max(counts, default=0) > 0:
                freest = allowed[bid][counts.index(max(counts))]
                return bid, next(leg for leg in freest.legs if (bid, leg) not in fixed)
        raise AssertionError("a node without a free leg is open")

    # The search

    def plan(self, steps, budget):
        waiting, items, turns = [Open([], {})], [], []
        incumbent = [None] * len(self.bids)
        leaves = []
        while waiting and len(turns) < budget:
            node, start = waiting.pop(0)
            allowed = [self.allowed(node, bid) for bid in range(len(self.bids))]
            item, path, result, repaired = self.dead(node, allowed), [], None, None
            if not item:
                path, result = self.price_path(node, allowed, start, steps, self.revenue(incumbent))
                repaired = self.repair(allowed, result.dual)
                if self.revenue(repaired) > self.revenue(incumbent):
                    incumbent = repaired
                if result.dual.value // 1000 <= self.revenue(incumbent):
                    item = ("priced", result.prices)
                    leaves.append(result.dual.value)
                else:
                    bid, leg = self.split_leg(node, allowed, result.dual.replies)
                    item = ("split", bid, leg)
                    waiting[0:0] = [Open(node + [Decision(bid, leg, yes)], result.prices) for yes in (True, False)]
            items.append(item)
            turns.append(Turn(len(turns) + 1, node, start, item, path, result, repaired, self.revenue(incumbent)))
        rest = []
        for node, start in waiting:
            allowed = [self.allowed(node, bid) for bid in range(len(self.bids))]
            dual = self.dual(node, allowed, start)
            items.append(("priced", start))
            leaves.append(dual.value)
            rest.append((node, start, dual))
        return Plan(incumbent, self.revenue(incumbent), max(leaves) // 1000, len(turns), items, turns, rest)


# Texts

def field(text):
    return '"' + text.replace('"', '""') + '"' if any(c in text for c in ',"\r\n') else text


def head_lines(plan):
    return [("status", "optimal" if plan.bound == plan.revenue else "gap"), ("revenue", plan.revenue), ("bound", plan.bound),
            ("nodes", plan.nodes)]


def leg_line(net, bid, leg):
    track = net.tracks[leg.track]
    return ("leg", track.name, net.stations[track.tail], leg.depart, net.stations[track.head], arrival(net, bid.kind, leg),
            ACTIONS[leg.action], leg.dwell)


def train_lines(net, bids, choice):
    lines = []
    for number, (bid, walk) in enumerate(zip(bids, choice), start=1):
        if walk:
            lines.append(("train", number, bid.name, bid.bidder, walk.value))
            lines += [leg_line(net, bid, leg) for leg in walk.legs]
    return lines


def text_of(lines):
    return "".join(",".join(field(str(part)) for part in line) + "\n" for line in lines)


def plan_text(net, bids, plan):
    return text_of(head_lines(plan) + train_lines(net, bids, plan.choice))


def leg_fields(net, bid, leg):
    return (bid + 1, net.tracks[leg.track].name, leg.depart, "halt" if leg.from_halt else "pass", ACTIONS[leg.action], leg.dwell)


def row_fields(net, row):
    kind, *fields = row
    if kind == 0:
        return ("window", net.tracks[fields[0]].name, fields[1])
    if kind == 1:
        track, t, a, u, b = fields
        return ("pair", net.tracks[track].name, net.types[a], t, net.types[b], u)
    if kind == 2:
        first, t, a, second, u, b = fields
        return ("cross", net.tracks[first].name, t, net.types[a], net.tracks[second].name, u, net.types[b])
    return ("halt", net.stations[fields[0]], fields[1])


def certificate_text(net, plan):
    """The certificate of the plan."""
    lines = [("optra-certificate", net.version), ("revenue", plan.revenue), ("bound", plan.bound)]
    lines += [("leg", *leg_fields(net, bid, leg)) for bid, walk in enumerate(plan.choice) if walk for leg in walk.legs]
    for kind, *rest in plan.items:
        if kind == "split":
            lines.append(("split", *leg_fields(net, *rest)))
        elif kind == "nowalk":
            lines.append(("nowalk", rest[0] + 1))
        elif kind == "forced":
            lines.append(("forced", *row_fields(net, rest[0])))
        else:
            prices = rest[0]
            lines.append(("priced", len(prices)))
            lines += [("price", *row_fields(net, row), prices[row]) for row in sorted(prices)]
    return text_of(lines)


def leg_text(net, leg):
    return f"{net.tracks[leg.track].name} {leg.depart} {'halt' if leg.from_halt else 'pass'} {ACTIONS[leg.action]} {leg.dwell}"


def row_text(net, row):
    return " ".join(map(str, row_fields(net, row)))


def listed(parts):
    return "; ".join(parts) or "none"


def prices_text(net, prices):
    return listed(f"{row_text(net, row)} = {prices[row]}" for row in sorted(prices))


def node_text(net, bids, node):
    return listed(f"{bids[d.bid].name} {leg_text(net, d.leg)} {'yes' if d.yes else 'no'}" for d in node)


def walks_text(net, bids, walks):
    return listed(f"{bid.name}: {', '.join(leg_text(net, leg) for leg in walk.legs) if walk else 'none'}"
                  for bid, walk in zip(bids, walks))


def item_text(net, bids, item):
    if item[0] == "split":
        return f"split {bids[item[1]].name} {leg_text(net, item[2])}"
    if item[0] == "nowalk":
        return f"nowalk {bids[item[1]].name}"
    if item[0] == "forced":
        return f"forced {row_text(net, item[1])}"
    return f"priced {prices_text(net, item[1])}"


def dual_lines(net, bids, dual):
    return [f"  dual value: {dual.value}", f"  terms: {listed(f'{b.name} {t}' for b, t in zip(bids, dual.terms))}",
            f"  replies: {walks_text(net, bids, dual.replies)}"]


def trace_text(net, bids, plan):
    """Every node that was taken, and then those that stayed open; prices and dual values in thousandths of a cent."""
    lines = []
    for turn in plan.turns:
        lines += [f"node {turn.number}: {item_text(net, bids, turn.item)}", f"  decisions: {node_text(net, bids, turn.node)}",
                  f"  start prices: {prices_text(net, turn.start)}"]
        if turn.result:
            place = turn.path.index(turn.result)
            lines += [f"  candidates: {len(turn.path)}, the result is number {place} from 0",
                      f"  dual values: {' '.join(str(candidate.dual.value) for candidate in turn.path)}",
                      f"  result prices: {prices_text(net, turn.result.prices)}", *dual_lines(net, bids, turn.result.dual),
                      f"  repaired: {walks_text(net, bids, turn.repaired)}"]
        lines.append(f"  revenue: {turn.revenue}")
    for node, start, dual in plan.rest:
        lines += [f"open: priced {prices_text(net, start)}", f"  decisions: {node_text(net, bids, node)}",
                  *dual_lines(net, bids, dual)]
    return "".join(line + "\n" for line in lines)


def main():
    words = argparse.ArgumentParser(description=__doc__, formatter_class=argparse.RawDescriptionHelpFormatter)
    words.add_argument("folder")
    words.add_argument("--steps", type=int, default=40)
    words.add_argument("--budget", type=int, default=200)
    words.add_argument("--cert")
    words.add_argument("--trace", action="store_true")
    given = words.parse_args()
    net = read_network(f"{given.folder}/net")
    bids = read_bids(net, f"{given.folder}/bids.csv", f"{given.folder}/stops.csv")
    plan = Planner(net, bids).plan(given.steps, given.budget)
    if given.trace:
        sys.stderr.write(trace_text(net, bids, plan))
    if given.cert:
        with open(given.cert, "w", encoding="utf-8", newline="") as file:
            file.write(certificate_text(net, plan))
    sys.stdout.write(plan_text(net, bids, plan))
    return 0 if plan.bound == plan.revenue else 1


if __name__ == "__main__":
    sys.setrecursionlimit(20_000)
    sys.exit(main())
