#!/usr/bin/env python3
"""Compares the audit of timetables, and compressed times, of a built optra with slow plain ones.

    python3 bench/compare_timetables.py PROGRAM [COUNT] [SEED] [--limits]

Makes COUNT timetables (2,000 if none is given) from SEED (1 if none is given) over the networks and bids of bench/compare.py, tables of
version 1 and 2 in turn, with names that want quotes now and then. Some are of plans that PROGRAM prints, some of walks that are drawn for
the bids, some of many trains that keep all rules; most then have lines moved, cut, repeated and swapped, words and numbers changed, or
bytes broken. Text, status and error line of `audit` and `compress` are compared with those of bench/timetables.py; the chains of
compressed times, which are free where several serve, are tested for their truth and order instead. The timetable of a plan has to have no
fault and the plan's revenue. At the first difference it prints both, keeps the folder, and ends with status 1. At the end it tells what
there was, and what did not occur. With --limits it compares the longest timetables, of 8,000 and 8,001 lines, and no others.
"""
import argparse
import csv
import io
import os
import random
import shutil
import subprocess
import sys
import tempfile
from collections import Counter

import compare
import demo
import plain
import reader
import timetables
from plain import ACTIONS, FINISH, HALT, PASS, WAIT
from timetables import Line

WORDS = ["--net", "net", "--bids", "bids.csv", "--stops", "stops.csv"]
HEADER = timetables.HEADER.split(",")
BID, TRACK, DEPART, FROM, ACTION, DWELL = range(6)
MOST_LEGS, MOST_TRIES = 9, 30
TABLES = ["net/stations", "net/tracks", "net/types", "net/running", "net/headways", "net/crossings", "bids", "stops"]


# Tables

def dress(draws, folder):
    """Writes the tables again under names that want quotes or have other letters than those of ASCII."""
    ends, names = ["", "", ",", '"', " ", "é", ',"x"', "'"], {}
    for table in TABLES:
        path = f"{folder}/{table}.csv"
        if os.path.exists(path):
            header, *rows = plain.all_records(path)
            for row in rows:
                for place, word in enumerate(header):
                    if word in reader.NAMES:
                        row[place] = names.setdefault(row[place], row[place] + draws.choice(ends))
            write_text(path, plain.text_of([header, *rows]).encode())


def as_uneven(draws, folder):
    """Headways most of which are short and some long, so that trains that aren't neighbours on a track are too near."""
    header, *rows = plain.all_records(f"{folder}/net/headways.csv")
    rows = [[*row[:3], draws.choice([1, 1, 1, 2, 9, 14])] for row in rows]
    write_text(f"{folder}/net/headways.csv", plain.text_of([header, *rows]).encode())


def bar(draws, folder):
    """A type may no longer use a track, whose headways and crossings stay; trains may have been made for it."""
    header, *rows = plain.all_records(f"{folder}/net/running.csv")
    rows.pop(draws.randrange(len(rows)))
    write_text(f"{folder}/net/running.csv", plain.text_of([header, *rows]).encode())


def write_text(path, text):
    with open(path, "wb") as file:
        file.write(text)


def read_case(folder):
    net = plain.read_network(f"{folder}/net")
    return net, plain.read_bids(net, f"{folder}/bids.csv", f"{folder}/stops.csv")


def write_bids(folder, net, bids):
    """The two tables of bids."""
    lines = [(bid.name, bid.bidder, net.types[bid.kind], net.stations[bid.origin], net.stations[bid.destination], *bid.depart,
              *bid.arrive, *bid[7:15]) for bid in bids]
    stops = [(bid.name, net.stations[stop.station], *stop[1:]) for bid in bids for stop in bid.stops]
    write_text(f"{folder}/bids.csv", plain.text_of([demo.BIDS.split(","), *lines]).encode())
    write_text(f"{folder}/stops.csv", plain.text_of([demo.STOPS.split(","), *stops]).encode())


def as_wide(draws, net, bids):
    """More bids than there were, of any type, which may run at any minute."""
    made = []
    for place in range(draws.randint(3, 14)):
        bid = draws.choice(bids)
        kind = draws.choice([bid.kind, draws.randrange(len(net.types))])
        stops = [stop._replace(arrive_from=0, arrive_to=plain.LAST_MINUTE) for stop in bid.stops]
        made.append(bid._replace(name=f"w{place}{bid.name}", kind=kind, depart=(0, 100, plain.LAST_MINUTE), arrive=(0, 200, plain.LAST_MINUTE),
                                 wait_max=draws.choice([0, 2, 9, 30]), stops=stops))
    return made


# Timetables, as records of texts

def record_of(net, bids, line):
    leg = line.leg
    return [bids[line.bid].name, net.tracks[leg.track].name, str(leg.depart), timetables.FROM[leg.from_halt], ACTIONS[leg.action],
            str(leg.dwell)]


def records_of(net, bids, trains):
    return [record_of(net, bids, Line(bid, leg)) for bid, legs in trains.items() for leg in legs]


def planned(program, folder, options):
    """The timetable of the plan that the program prints, and the plan's revenue."""
    ran = subprocess.run([program, "plan", *WORDS, *options], cwd=folder, capture_output=True, text=True, check=False)
    records, bid, start, revenue = [], None, None, None
    for record in csv.reader(io.StringIO(ran.stdout, newline="")):
        if record[0] == "revenue":
            revenue = int(record[1])
        elif record[0] == "train":
            bid, start = record[2], "halt"
        elif record[0] == "leg":
            _, track, _, depart, _, _, action, dwell = record
            records.append([bid, track, depart, start, action, dwell])
            start = "pass" if action == "pass" else "halt"
    return records, revenue


def drawn_trains(draws, walks):
    """A walk of each bid, whether they are in each other's way or not; some bids have none."""
    return {bid: list(draws.choice(listed).legs) for bid, listed in enumerate(walks) if listed and draws.random() < 0.9}


def drawn_run(draws, net, bid, latest):
    """The legs of a run that is a walk of the bid, or None where chance led nowhere."""
    state, legs = (bid.origin, draws.randint(0, latest), True, 0), []
    while state and len(legs) < MOST_LEGS:
        choices = list(plain.next_legs(net, bid, state))
        if not choices:
            return None
        finishes = [choice for choice in choices if choice[0].action == FINISH]
        stops = [choice for choice in choices if choice[0].action == HALT]
        leg, state = draws.choice(finishes if finishes and draws.random() < 0.7 else stops or choices)
        legs.append(leg)
    return legs if state is None else None


def kept_trains(draws, net, bids):
    """Trains that keep all rules: runs are drawn for each bid in turn until one fits beside those that are there."""
    trains, latest, least = {}, draws.choice([20, 60, 200, 2500]), draws.choice([0, 0, 300])
    for bid in draws.sample(range(len(bids)), len(bids)):
        for _ in range(MOST_TRIES):
            legs = drawn_run(draws, net, bids[bid], latest)
            if legs is None:
                continue
            more = {**trains, bid: [leg._replace(depart=leg.depart + least) for leg in legs]}
            report = timetables.report_of(net, bids, more)
            if not any(report):
                trains = more
                break
    return dict(sorted(trains.items()))


# Lines that are moved, cut, repeated and swapped

def move_train(draws, records, _net, _bids):
    bid, by = draws.choice(records)[BID], draws.choice([-3, -2, -1, 1, 2, 3, 7, 60])
    for record in records:
        if record[BID] == bid:
            record[DEPART] = str(max(0, int(record[DEPART]) + by))


def move_all(draws, records, _net, _bids):
    """All trains run at the end of the two days, and what comes after it is cut."""
    by = plain.LAST_MINUTE - draws.randint(0, 5) - int(draws.choice(records)[DEPART])
    for record in records:
        record[DEPART] = str(max(0, int(record[DEPART]) + by))
    records[:] = [record for record in records if int(record[DEPART]) <= plain.LAST_MINUTE]


def move_line(draws, records, _net, _bids):
    record = draws.choice(records)
    record[DEPART] = str(max(0, int(record[DEPART]) + draws.choice([-2, -1, 1, 2, 30])))


def move_to_other(draws, records, _net, _bids):
    """A line departs when another one does."""
    draws.choice(records)[DEPART] = draws.choice(records)[DEPART]


def cut_line(draws, records, _net, _bids):
    records.pop(draws.randrange(len(records)))


def cut_train(draws, records, _net, _bids):
    """A train's lines end too early, or begin too late."""
    bid = draws.choice(records)[BID]
    places = [place for place, record in enumerate(records) if record[BID] == bid]
    cut = draws.randrange(len(places))
    for place in reversed(draws.choice([places[cut:], places[:cut]])):
        records.pop(place)


def repeat_line(draws, records, _net, _bids):
    place = draws.randrange(len(records))
    records.insert(draws.choice([place, len(records), draws.randrange(len(records) + 1)]), list(records[place]))


def swap_lines(draws, records, _net, _bids):
    one, other = draws.randrange(len(records)), draws.randrange(len(records))
    records[one], records[other] = records[other], records[one]


def shuffle_lines(draws, records, _net, _bids):
    draws.shuffle(records)


def mix_trains(draws, records, _net, _bids):
    """The lines of the trains stand between one another, each train's in order."""
    queues = {}
    for record in records:
        queues.setdefault(record[BID], []).append(record)
    left = [bid for bid, queue in queues.items() for _ in queue]
    draws.shuffle(left)
    records[:] = [queues[bid].pop(0) for bid in left]


def add_line(draws, records, net, bids):
    """A line of a bid without sense, or one more leg of what is there."""
    record = [draws.choice(bids).name, draws.choice(net.tracks).name, str(draws.randint(0, 300)), draws.choice(timetables.FROM),
              draws.choice(ACTIONS), "0"]
    if record[ACTION] in ("halt", "wait"):
        record[DWELL] = str(draws.randint(0, 5))
    records.insert(draws.randrange(len(records) + 1), record)


# Words that are changed to others that are known

def other_bid(draws, records, _net, bids):
    draws.choice(records)[BID] = draws.choice(bids).name


def other_track(draws, records, net, _bids):
    draws.choice(records)[TRACK] = draws.choice(net.tracks).name


def barred_track(draws, records, net, bids):
    """A track that the type may not use, where there is one."""
    record = draws.choice(records)
    kinds = [bid.kind for bid in bids if bid.name == record[BID]]
    barred = [track.name for place, track in enumerate(net.tracks) if not plain.may_use(net, place, kinds[0])]
    if barred:
        record[TRACK] = draws.choice(barred)


def other_start(draws, records, _net, _bids):
    record = draws.choice(records)
    record[FROM] = "pass" if record[FROM] == "halt" else "halt"


def other_action(draws, records, _net, _bids):
    record = draws.choice(records)
    record[ACTION] = draws.choice(ACTIONS)
    if record[ACTION] in ("pass", "finish"):
        record[DWELL] = "0"


def other_dwell(draws, records, _net, bids):
    longest = draws.choice(bids).wait_max
    stays = [record for record in records if record[ACTION] in ("halt", "wait")]
    if stays:
        draws.choice(stays)[DWELL] = str(draws.choice([0, 1, 2, longest, longest + 1, 60, 240]))


def as_stay(draws, records, _net, _bids):
    """A pass becomes a stay, short or long; what follows is then at another minute than it should."""
    passes = [record for record in records if record[ACTION] == "pass"]
    if passes:
        record = draws.choice(passes)
        record[ACTION], record[DWELL] = draws.choice(["halt", "wait"]), str(draws.choice([0, 1, 5, 200]))


MOVES = [move_train, move_train, move_all, move_line, move_to_other, cut_line, cut_train, repeat_line, swap_lines, shuffle_lines, mix_trains,
         add_line, other_bid, other_track, barred_track, other_start, other_action, other_dwell, other_dwell, as_stay]


# Fields that are refused

def broken_number(draws, record):
    place = draws.choice([DEPART, DWELL])
    record[place] = draws.choice(["", "+1", "-1", " 1", "1 ", "x", "1.0", "00000000010", "12345678901", "\u0661", "1\u00b2"])


def broken_name(draws, record):
    place = draws.choice([BID, TRACK])
    record[place] = draws.choice(["", "zz", record[place] + " ", " " + record[place], record[place].upper() + "Z", "\u0001", "n" * 70,
                                  record[TRACK + BID - place]])


def broken_word(draws, record):
    place = draws.choice([FROM, ACTION])
    record[place] = draws.choice(["", "Halt", "stop", "pass ", "wait" if place == FROM else "start", record[place] * 2])


def broken_range(draws, record):
    kind = draws.choice(["depart", "dwell", "stays"])
    if kind == "depart":
        record[DEPART] = draws.choice(["2880", "2879", "9999999999", "65536", "4294967296"])
    elif kind == "dwell":
        record[ACTION], record[DWELL] = draws.choice(["halt", "wait"]), draws.choice(["240", "241", "256", "65536", "9999999999"])
    else:
        record[ACTION], record[DWELL] = draws.choice(["pass", "finish"]), draws.choice(["1", "240", "241", "0000000000"])


def broken_count(draws, record):
    if draws.random() < 0.5:
        record.append(draws.choice(["", "0"]))
    else:
        record.pop()


BREAKS = [broken_number, broken_name, broken_name, broken_word, broken_range, broken_range, broken_count]


def break_fields(draws, records):
    """One record has a wrong field or several, sometimes another one too."""
    for record in draws.choices(records, k=draws.choice([1, 1, 2])):
        for spoil in draws.choices(BREAKS, k=draws.choice([1, 1, 2, 3])):
            if len(record) == 6:
                spoil(draws, record)


# Bytes

def padded(draws, text):
    """The same records in other bytes: numbers with zeros in front, fields in quotes, other ends of lines, a mark, empty lines."""
    mark = draws.choice([b"", b"", reader.BYTE_ORDER_MARK])
    text = text.replace(b"\n", draws.choice([b"\n", b"\r\n", b"\r", b"\n\n", b"\r\n\r\n"]))
    if draws.random() < 0.3:
        text = text.replace(b",halt,", b',"halt",').replace(b",finish,0", b',"finish",0000000000')
    return mark + (text.rstrip(b"\r\n") if draws.random() < 0.4 else text)


def broken_bytes(draws, text):
    """One place is changed, put in or cut; or the header is another one; or there are two marks."""
    kind = draws.choice(["change", "change", "insert", "insert", "cut", "header", "marks", "end"])
    if kind == "header":
        first, *rest = text.split(b"\n")
        other = draws.choice([first.upper(), first + b",x", first.rpartition(b",")[0], b"", b" " + first, b'"bid"' + first[3:]])
        return b"\n".join([other, *rest])
    if kind == "marks":
        return reader.BYTE_ORDER_MARK * 2 + text
    place = draws.randrange(len(text))
    some = draws.choice([b'"', b",", b"\n", b"\r", b"0", b"9", b" ", b"\xff", b"\xc3", b"\x00", b"e", b'""', b"\n\n", b'"\n"'])
    if kind == "end":
        return text[:place]
    return text[:place] + (b"" if kind == "cut" else some) + text[place + (0 if kind == "insert" else 1):]


def spoiled(draws, net, bids, records):
    """The bytes of a timetable like this one, in which some things are others."""
    records = [list(record) for record in records]
    for move in draws.choices(MOVES, k=draws.choice([0, 1, 1, 2, 3, 5])):
        if records:
            move(draws, records, net, bids)
    if records and draws.random() < 0.3:
        break_fields(draws, records)
    text = text_of(records)
    if draws.random() < 0.2:
        text = padded(draws, text)
    return broken_bytes(draws, text) if draws.random() < 0.1 else text


def text_of(records):
    return plain.text_of([HEADER, *records]).encode()


# What there was

EXPECTED = ([f"fault {code}" for code in timetables.CODES] + [f"refused {code}" for code in ("Header", "Csv", "Number", "U1", "U2", "U3", "U4")]
            + ["clash on a track", "clash on crossings", "clash of a train with itself", "clash past a train between",
               "station over its limit in a minute", "of plans", "other starts by neighbours alone", "other starts without crossings",
               "other starts by one pass"])


def tell_audit(net, bids, text, answer, seen):
    seen["timetables"] += 1
    if answer.status == 3:
        seen[f"refused {answer.error.split()[-1]}"] += 1
        return
    trains = timetables.trains_of(timetables.lines_of(net, bids, text))
    report = timetables.report_of(net, bids, trains)
    seen["without fault" if answer.status == 0 else "with faults"] += 1
    seen["without lines"] += not trains
    seen.update(f"fault {timetables.CODES[fault.code]}" for fault in report.faults)
    seen.update("clash on crossings" if clash.crossing else "clash on a track" for clash in report.clashes)
    seen["clash of a train with itself"] += sum(clash.bid == clash.other_bid for clash in report.clashes)
    seen["clash past a train between"] += sum(is_past_another(trains, clash, report) for clash in report.clashes)
    seen["station over its limit in a minute"] += len(report.overs)
    seen["the same in the last minute"] += sum(over.minute == plain.LAST_MINUTE for over in report.overs)


def is_past_another(trains, clash, report):
    """Whether on one track another leg departs between the two legs of a clash, and is in conflict with neither."""
    one, other = trains[clash.bid][clash.leg], trains[clash.other_bid][clash.other_leg]
    pairs = {found[:4] for found in report.clashes} | {(*found[2:4], *found[0:2]) for found in report.clashes}
    first, last = sorted([one.depart, other.depart])
    return not clash.crossing and any(
        leg.track == one.track and first < leg.depart < last and not {(bid, place, *clash[:2]), (bid, place, *clash[2:4])} & pairs
        for bid, legs in trains.items() for place, leg in enumerate(legs))


def one_pass(trains, rules):
    """The starts by one pass over the trains in the order of their first departures: less than least where rules lead back."""
    starts = {bid: 0 for bid in trains}
    for bid in sorted(trains, key=lambda bid: trains[bid][0].depart):
        starts[bid] = max([timetables.least_start(trains, starts, rule) for rule in rules if rule.own == bid] + [0])
    return starts


def neighbours(trains, rules):
    """The rules of legs on one track between which no other leg departs there, and those of crossings."""
    def is_between(rule):
        leg, own = trains[rule.bid][rule.leg], trains[rule.own][rule.own_leg]
        return leg.track == own.track and any(other.track == leg.track and leg.depart < other.depart < own.depart
                                              for legs in trains.values() for other in legs)
    return [rule for rule in rules if not is_between(rule)]


def tell_compressed(net, bids, trains, chains, seen):
    rules = timetables.rules_of(net, bids, trains)
    starts = timetables.least_starts(trains, rules)
    seen.update({"compressed": 1, "compressed trains": len(trains), "trains that move": sum(
        starts[bid] < legs[0].depart for bid, legs in trains.items())})
    seen.update("chain from a start" if chain.endswith("start") else "chain behind a train" for chain in chains)
    on_tracks = [rule for rule in rules if trains[rule.bid][rule.leg].track == trains[rule.own][rule.own_leg].track]
    seen["other starts by neighbours alone"] += timetables.least_starts(trains, neighbours(trains, rules)) != starts
    seen["other starts without crossings"] += timetables.least_starts(trains, on_tracks) != starts
    seen["other starts by one pass"] += one_pass(trains, rules) != starts


# Comparing

def ran(program, command, folder):
    done = subprocess.run([program, command, *WORDS, "--times", "times.csv"], cwd=folder, capture_output=True, check=False)
    return timetables.Answer(done.stdout.decode(), done.returncode, done.stderr.decode())


def told(folder, command, answer, plain_answer, wrong=""):
    print(f"{command} differs in {folder} {wrong}\n-- the program, status {answer.status}\n{answer.out}{answer.error}"
          f"-- the plain one, status {plain_answer.status}\n{plain_answer.out}{plain_answer.error}", end="")
    return False


def compared_audit(program, folder, net, bids, text, seen):
    answer, wanted = ran(program, "audit", folder), timetables.audit(net, bids, text)
    tell_audit(net, bids, text, wanted, seen)
    return answer == wanted or told(folder, "audit", answer, wanted)


def compared_compress(program, folder, net, bids, text, seen):
    answer, wanted = ran(program, "compress", folder), timetables.compress(net, bids, text)
    if wanted.status != 0:
        return answer == wanted or told(folder, "compress", answer, wanted)
    lines = answer.out.splitlines(keepends=True)
    head = "".join(line for line in lines if not line.startswith("chain,"))
    chains = [line.removesuffix("\n") for line in lines if line.startswith("chain,")]
    if answer._replace(out=head) != wanted or answer.out != head + "".join(f"{chain}\n" for chain in chains):
        return told(folder, "compress", answer, wanted)
    trains = timetables.trains_of(timetables.lines_of(net, bids, text))
    rules = timetables.rules_of(net, bids, trains)
    wrong = timetables.chain_fault(trains, rules, timetables.least_starts(trains, rules), chains)
    tell_compressed(net, bids, trains, chains, seen)
    return told(folder, "compress", answer, wanted, wrong) if wrong else True


def compared(program, folder, net, bids, text, seen):
    """Whether the program's answers for a timetable are those of the slow plain ones."""
    write_text(f"{folder}/times.csv", text)
    return (compared_audit(program, folder, net, bids, text, seen) and compared_compress(program, folder, net, bids, text, seen))


def compared_plan(program, folder, net, bids, draws, seen):
    """The timetable of a plan has no fault and the plan's revenue; gives its records, or None where it is otherwise."""
    records, revenue = planned(program, folder, draws.choice([[], ["--steps", "2", "--budget", "1"], ["--budget", "5"]]))
    if not compared(program, folder, net, bids, text_of(records), seen):
        return None
    answer = ran(program, "audit", folder)
    if answer.out != f"faults,0\nrevenue,{revenue}\n":
        print(f"the timetable of a plan is refused in {folder}\n{answer.out}{answer.error}", end="")
        return None
    seen["of plans"] += 1
    return records


def sources(program, folder, draws, is_wide, seen):
    """The tables of a case, and timetables to spoil, or none where the one of its plan is at fault."""
    if is_wide and draws.random() < 0.5:
        as_uneven(draws, folder)
    net, bids = read_case(folder)
    if is_wide and bids:
        bids = as_wide(draws, net, bids)
        write_bids(folder, net, bids)
        kept = records_of(net, bids, kept_trains(draws, net, bids))
        other = records_of(net, bids, kept_trains(draws, net, bids))
        if draws.random() < 0.2:
            bar(draws, folder)
        return *read_case(folder), [kept, kept, other, kept + other]
    drawn = [records_of(net, bids, drawn_trains(draws, [plain.all_walks(net, bid) for bid in bids])) for _ in range(2)]
    records = compared_plan(program, folder, net, bids, draws, seen)
    return net, bids, records is not None and [records, *drawn, drawn[0] + records]


def compared_case(program, folder, draws, case, seen):
    compare.random_case(draws, folder, 1 + case % 2)
    if draws.random() < 0.3:
        dress(draws, folder)
    net, bids, found = sources(program, folder, draws, case // 2 % 2 == 1, seen)
    if not found:
        return False
    texts = [text_of(records) for records in found] + [spoiled(draws, net, bids, draws.choice(found)) for _ in range(6)]
    return all(compared(program, folder, net, bids, text, seen) for text in texts)


# The longest timetables

def longest(folder):
    """A network with one track that no bid's type may use, and some bids."""
    compare.write(folder, {"net/stations": ["station", "A", "B"], "net/tracks": ["track,from,to", "ab,A,B"], "net/types": ["type", "x", "y"],
                           "net/running": [reader.HEADERS["running"], "ab,x,9,9,9,9"], "net/headways": [reader.HEADERS["headways"], "ab,x,x,5"],
                           "bids": [demo.BIDS] + [f"b{k},ann,y,A,B,0,0,0,0,1,2,500,0,0,0,0,0,0,0" for k in range(10)], "stops": [demo.STOPS]})


def compared_limits(program, folder, seen):
    """8,000 and 8,001 lines, and faults before and behind them."""
    longest(folder)
    net, bids = read_case(folder)
    lines = [f"b{k % 10},ab,{k % 2880},halt,finish,0" for k in range(8000)]
    wrong = {"more": ["b0,ab,1,halt,finish,0"], "no bid": ["zz,ab,1,halt,finish,0"], "no number": ["b0,ab,x,halt,finish,0"],
             "no word": ["b0,ab,1,stop,finish,0"], "two more": ["b0,ab,1,halt,finish,0", "b0,ab"], "none": []}
    for rest in wrong.values():
        text = "".join(line + "\n" for line in [timetables.HEADER, *lines, *rest]).encode()
        short = "".join(line + "\n" for line in [timetables.HEADER, *lines[1:], *rest]).encode()
        if not (compared(program, folder, net, bids, text, seen) and compared(program, folder, net, bids, short, seen)):
            return False
    return True


def main(program, count, seed, is_at_limits):
    folder, seen, case = tempfile.mkdtemp(prefix="optra-timetables-"), Counter(), 0
    if is_at_limits and not compared_limits(program, folder, seen):
        return 1
    while not is_at_limits and seen["timetables"] < count:
        if not compared_case(program, folder, random.Random(f"{seed} {case}"), case, seen):
            print(f"-- case {case} of seed {seed}")
            return 1
        case += 1
    shutil.rmtree(folder)
    print("all are equal: " + ", ".join(f"{name} {number}" for name, number in sorted(seen.items())))
    absent = [name for name in EXPECTED if not seen[name]]
    if absent and not is_at_limits:
        print(f"did not occur: {', '.join(absent)}")
    return 0


if __name__ == "__main__":
    words = argparse.ArgumentParser(description=__doc__, formatter_class=argparse.RawDescriptionHelpFormatter)
    words.add_argument("program")
    words.add_argument("count", type=int, nargs="?", default=2000)
    words.add_argument("seed", type=int, nargs="?", default=1)
    words.add_argument("--limits", action="store_true")
    given = words.parse_args()
    sys.setrecursionlimit(20_000)
    sys.exit(main(os.path.realpath(given.program), given.count, given.seed, given.limits))
