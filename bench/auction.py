#!/usr/bin/env python3
"""A slow plain auction, written from docs/AUCTION.md and docs/FORMATS.md and not from the crates.

    python3 bench/auction.py FOLDER

FOLDER has net/ with its five tables, bids.csv, stops.csv, rules.csv and actions.csv; they are taken as accepted, no fault is
looked for. Prints what `optra auction` prints, and ends with its status. Each round is planned by bench/plain.py, from scratch.
"""
import csv
import sys
from collections import namedtuple

import plain

STEPS, BUDGET, MOST_BIDS = 40, 200, 500

Rules = namedtuple("Rules", "increment permille rounds")
Action = namedtuple("Action", "row round bidder kind bid spec amount")
# A bid that stands: its winning value is None where it did not win the last planned round.
Standing = namedtuple("Standing", "name bidder spec amount won acted")
State = namedtuple("State", "round standing accepted closed")


# Tables

def read_rules(path):
    (numbers,) = plain.records(path)
    return Rules(*map(int, numbers))


def read_actions(path):
    with open(path, newline="", encoding="utf-8-sig") as file:
        records = [record for record in csv.reader(file) if record]
    return [Action(row, int(at), bidder, kind, bid, spec, int(amount) if kind in ("open", "raise") else None)
            for row, (at, bidder, kind, bid, spec, amount) in enumerate(records[1:], start=2)]


# The machine

def least_raise(rules, amount):
    """The least increment, or the share of the amount rounded up, whichever is more."""
    return max(rules.increment, -(-amount * rules.permille // 1000))


def holding(reasons):
    """The first code whose reason holds."""
    return next((code for code, holds in reasons if holds), None)


def refusal(specs, rules, state, action):
    """The code of the first reason against an action, in the order of its table; None where it is accepted."""
    spec = next((spec for spec in specs if spec.name == action.spec), None)
    mine = next((bid for bid in state.standing if bid.name == action.bid), None)
    closed, no_spec = ("A9", state.closed), ("A1", spec is None)
    held = [("A4", mine is None), ("A5", mine and mine.bidder != action.bidder)]
    still = [("A7", mine and mine.won is not None), ("A8", mine and mine.acted)]
    if action.kind == "open":
        below = ("A3", spec and action.amount < spec.base)
        return holding([closed, no_spec, ("A2", mine), below, ("A10", len(state.standing) >= MOST_BIDS)])
    if action.kind == "raise":
        return holding([closed, *held, ("A6", mine and action.amount < mine.amount + least_raise(rules, mine.amount)), *still])
    if action.kind == "amend":
        return holding([closed, no_spec, *held, *still, ("A3", spec and mine and mine.amount < spec.base)])
    return holding([closed, *held, *still])


def accepted(specs, state, action):
    """The state after an action that is accepted."""
    standing = list(state.standing)
    if action.kind == "open":
        standing.append(Standing(action.bid, action.bidder, action.spec, action.amount, None, True))
    else:
        place = [bid.name for bid in standing].index(action.bid)
        if action.kind == "raise":
            standing[place] = standing[place]._replace(amount=action.amount, acted=True)
        elif action.kind == "amend":
            standing[place] = standing[place]._replace(spec=action.spec, acted=True)
        else:
            del standing[place]
    return state._replace(standing=standing, accepted=state.accepted + 1)


def planned(specs, state):
    """The standing bids as they are planned."""
    by_name = {spec.name: spec for spec in specs}
    return [by_name[bid.spec]._replace(name=bid.name, bidder=bid.bidder, base=bid.amount) for bid in state.standing]


def after_round(rules, state, choice):
    """The state after the close of a round."""
    won = [bid._replace(won=walk.value if walk else None) for bid, walk in zip(state.standing, choice)]
    if state.accepted == 0 or state.round == rules.rounds:
        return state._replace(standing=won, closed=True)
    return State(state.round + 1, [bid._replace(acted=False) for bid in won], 0, False)


# The auction

def path_of(bid):
    """What a graph is made of: all of a bid but its names and its money."""
    return (bid.kind, bid.origin, bid.destination, bid.depart, bid.arrive, bid.wait_max, tuple(bid.stops))


def play(net, specs, rules, actions):
    """The printed lines, the status, and of each round its bids and its plan."""
    state, lines, rounds, paths = State(1, [], 0, False), [], [], set()
    while not state.closed:
        lines.append(("round", state.round))
        for action in (action for action in actions if action.round == state.round):
            why = refusal(specs, rules, state, action)
            lines.append(("action", action.row, why or "accepted"))
            state = state if why else accepted(specs, state, action)
        bids = planned(specs, state)
        plan = plain.Planner(net, bids).plan(STEPS, BUDGET)
        paths |= {path_of(bid) for bid in bids}
        rounds.append((state, bids, plan))
        lines += plain.head_lines(plan)
        lines += [("bid", bid.name, bid.bidder, bid.spec, bid.amount, "won" if walk else "lost")
                  for bid, walk in zip(state.standing, plan.choice)]
        lines += plain.train_lines(net, bids, plan.choice) + [("graphs", len(paths))]
        state = after_round(rules, state, plan.choice)
    lines.append(("closed", state.round))
    lines += [("action", action.row, "A9") for action in actions if action.round > state.round]
    lines += [("award", bid.name, bid.bidder, bid.won) for bid in state.standing if bid.won is not None]
    return lines, int(any(plan.bound > plan.revenue for _, _, plan in rounds)), rounds


def main(folder):
    net = plain.read_network(f"{folder}/net")
    specs = plain.read_bids(net, f"{folder}/bids.csv", f"{folder}/stops.csv")
    lines, status, _ = play(net, specs, read_rules(f"{folder}/rules.csv"), read_actions(f"{folder}/actions.csv"))
    sys.stdout.write(plain.text_of(lines))
    return status


if __name__ == "__main__":
    if len(sys.argv) != 2:
        sys.exit(__doc__)
    sys.setrecursionlimit(20_000)
    sys.exit(main(sys.argv[1]))
