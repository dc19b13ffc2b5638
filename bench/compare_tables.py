#!/usr/bin/env python3
"""Tries tools/tables: python3 bench/compare_tables.py PROGRAM [COUNT] [SEED]

- The corridor's lines, speeds and bids, as sheets of the numbers in examples/corridor/make.py: the tables that are made are its tables.
- The examples and COUNT random networks with bids (300 if none is given) from SEED (1 if none is given), as spreadsheets that people have:
  any separator and encoding, columns in any order under other words, clock times, money with decimals, a title above. The tables that are
  made of them are the same, byte for byte. So are those that are made of what `tools/tables sheets` writes.
- The same sheets, and the template's, with a mistake or two: what is made of them is refused in lines, or has no fault of form.
- examples/template: tools/lint finds nothing in its tables, PROGRAM plans them, and the timetables of its plan and of the corridor's say what
  the printed legs say.

At a difference it says which, keeps the files, and ends with status 1. At the end it tells what there was.
"""
import argparse
import csv
import importlib.util
import io
import os
import random
import re
import shutil
import subprocess
import sys
import tempfile
from collections import Counter

import compare
import compare_lint
import demo
import hostile

HERE = os.path.dirname(os.path.realpath(__file__))
TOP = os.path.dirname(HERE)
sys.dont_write_bytecode = True
sys.path.insert(0, f"{TOP}/tools")

from optra_tables import formats, linting, timetable  # noqa: E402
from optra_tables.findings import FAULT, WARNING, lines_of  # noqa: E402
from optra_tables.formats import COLUMNS, KINDS, MINUTE, MONEY, NAME  # noqa: E402

EXAMPLES = ["corridor", "one_track", "single-track"]
OTHER_WORDS = {"bid": "Train", "bidder": "Operator", "depart_ideal": "Departure", "arrive_ideal": "Arrival", "base": "Price",
               "origin": "From", "destination": "To", "depart_from": "Earliest departure", "arrive_to": "Latest arrival",
               "halt_max": "Places", "wait_max": "Max wait (min)", "min_dwell": "Min dwell"}


class Differs(Exception):
    """What is another one than it was to be."""


def tables_tool(*words):
    ran = subprocess.run([sys.executable, f"{TOP}/tools/tables", *words], capture_output=True, text=True)
    if ran.returncode:
        raise Differs(f"tools/tables {' '.join(words)}: status {ran.returncode}: {ran.stderr}")
    return ran.stdout


def text_of(path):
    with open(path, encoding="utf-8", newline="") as file:
        return file.read()


def expect_same(made, wanted, names=tuple(COLUMNS)):
    """Tests that two folders have the same tables."""
    count = 0
    for name in names:
        path, other = formats.path_in(wanted, name), formats.path_in(made, name)
        if os.path.exists(path):
            count += 1
            if not os.path.exists(other) or text_of(other) != text_of(path):
                raise Differs(f"{other} isn't {path}")
    return count


# The corridor, of its lines and speeds

def corridor_numbers():
    spec = importlib.util.spec_from_file_location("corridor", f"{TOP}/examples/corridor/make.py")
    module = importlib.util.module_from_spec(spec)
    spec.loader.exec_module(module)
    return module


def write_rows(path, rows):
    os.makedirs(os.path.dirname(path), exist_ok=True)
    with open(path, "w", encoding="utf-8", newline="") as file:
        csv.writer(file).writerows(rows)


def corridor_sheets(folder):
    """The corridor as lines, speeds and a sheet of bids."""
    numbers = corridor_numbers()
    lines = [["line", "station", "km", "track", "places", "types"]]
    for line, stations, track, kinds in (("Main", numbers.MAIN, "double", ""), ("Branch", numbers.BRANCH, "single", "; ".join(numbers.ON_BRANCH))):
        lines += [[line, name, km, track, numbers.PLACES.get(name, ""), kinds] for name, km in stations]
    write_rows(f"{folder}/lines.csv", lines)
    write_rows(f"{folder}/speeds.csv", [["type", "speed", "start", "brake"], *([kind, *speeds] for kind, speeds in numbers.TYPES.items())])
    bids = [["bid", "bidder", "type", "origin", "destination", "depart_ideal", "early", "late", "slack", "base", *formats.RATES, "stops"]]
    for name, operator, kind, origin, destination, depart, early, late, base, halts in numbers.BIDS:
        stops = "; ".join(f"{station} {least}-{most}" for station, least, most in halts)
        bids.append([name, operator, kind, origin, destination, f"{depart // 60}:{depart % 60:02}", early, late, 15,
                     *(f"{cents // 100}.{cents % 100:02}" for cents in (base, *numbers.RATES[kind])), stops])
    write_rows(f"{folder}/bids.csv", bids)


def corridor(folder):
    corridor_sheets(f"{folder}/sheets")
    tables_tool("make", f"{folder}/sheets", f"{folder}/made")
    return expect_same(f"{folder}/made", f"{TOP}/examples/corridor", [*formats.NETWORK, "bids", "stops"])


# Tables as people have them

def clock_text(draws, minute):
    hours, minutes = divmod(minute, 60)
    kinds = [f"{hours}:{minutes:02}", f"{hours:02}:{minutes:02}", f"{hours:02}:{minutes:02}:00", f"{hours}h{minutes:02}", str(minute)]
    if hours >= 24:
        kinds.append(f"{hours - 24}:{minutes:02}+1")
    if hours < 24:
        kinds.append(f"{hours % 12 or 12}:{minutes:02} {'am' if hours < 12 else 'PM'}")
        kinds.append(f"{minute / 1440:.8f}" if minute else "0:00")
    return draws.choice(kinds)


def money_text(draws, cents, decimal):
    units, rest = divmod(cents, 100)
    signs = [""] + (["'", " ", "\u00a0"] if decimal == "," else ["'", ","])
    sign = draws.choice(signs)
    whole = re.sub(r"(?<=\d)(?=(\d{3})+$)", sign, str(units))
    return draws.choice(["", "", "€ ", "CHF "]) + f"{whole}{decimal}{rest:02}"


def dressed_cell(draws, column, text, decimal, in_cents):
    """A field as people write it; a field that isn't read stays."""
    if KINDS[column] == MINUTE:
        text = clock_text(draws, int(text))
    elif KINDS[column] == MONEY and text.isdigit() and not in_cents:
        text = money_text(draws, int(text), decimal)
    elif KINDS[column] != NAME and draws.random() < 0.1:
        text += draws.choice(["", ".0" if text.isdigit() and KINDS[column] != MONEY else ""])
    return draws.choice(["", "", " "]) + text + draws.choice(["", "", " ", "\u00a0"])


def dressed(draws, name, text):
    """A table as a sheet, in bytes."""
    header, *rows = [record for record in csv.reader(io.StringIO(text)) if record]
    decimal, in_cents = draws.choice([".", ","]), draws.random() < 0.3
    order = draws.sample(range(len(header)), len(header))
    words = [draws.choice([word, word.title(), word.replace("_", " "), OTHER_WORDS.get(word, word)]) for word in header]
    sheet = [[dressed_cell(draws, column, text, decimal, in_cents) for column, text in zip(header, row)] for row in rows]
    sheet = [[row[place] for place in order] + [""] * draws.choice([0, 0, 2]) for row in [words, *sheet]]
    if draws.random() < 0.2:
        sheet.insert(0, [f"{name} of our network"])
    for _ in range(draws.choice([0, 0, 2])):
        sheet.insert(draws.randint(1, len(sheet)) if len(sheet[0]) > 1 or len(header) == 1 else len(sheet), [""] * len(header))
    out = io.StringIO()
    csv.writer(out, delimiter=draws.choice([",", ";", ";", "\t"]), lineterminator=draws.choice(["\n", "\r\n"])).writerows(sheet)
    encoding = draws.choice(["utf-8", "utf-8-sig", "utf-16", "cp1252"])
    return out.getvalue().encode(encoding)


def dress_folder(draws, tables, out):
    """All tables of a folder as sheets in another one."""
    os.makedirs(out)
    for name in COLUMNS:
        path = formats.path_in(tables, name)
        if os.path.exists(path):
            with open(os.path.join(out, draws.choice([name, name.title()]) + draws.choice([".csv", ".csv", ".txt"])), "wb") as file:
                file.write(dressed(draws, name, text_of(path)))


def to_and_fro(draws, folder, tables, seen):
    """Makes tables of sheets that were made of tables, in both ways."""
    for place in ("sheets", "made"):
        shutil.rmtree(f"{folder}/{place}", ignore_errors=True)
    if draws.random() < 0.7:
        dress_folder(draws, tables, f"{folder}/sheets")
        seen["as people have them"] += 1
    else:
        tables_tool("sheets", tables, f"{folder}/sheets", "--separator", draws.choice([";", ",", "tab"]), "--decimal", draws.choice([".", ","]))
        seen["by tools/tables sheets"] += 1
    tables_tool("make", f"{folder}/sheets", f"{folder}/made")
    seen["tables"] += expect_same(f"{folder}/made", tables)


def random_tables(draws, folder):
    """Random tables of one of both versions, or those of a small demo."""
    shutil.rmtree(folder, ignore_errors=True)
    if draws.random() < 0.2:
        demo.main(draws.randrange(1000), 1, folder)
    else:
        compare.random_case(draws, folder, draws.choice([1, 2]))
    return folder


def trips(folder, count, seed):
    seen = Counter()
    for name in EXAMPLES:
        for turn in range(5):
            to_and_fro(random.Random(f"{name} {turn} {seed}"), folder, f"{TOP}/examples/{name}", seen)
    for number in range(count):
        draws = random.Random(f"tables {seed} {number}")
        try:
            to_and_fro(draws, folder, random_tables(draws, f"{folder}/tables"), seen)
        except Differs as fault:
            raise Differs(f"random tables {number} of seed {seed}: {fault}") from fault
    return seen


# Sheets with mistakes

def broken_sheets(folder, count, seed):
    """What is made of sheets with mistakes: lines for faults, or tables whose form has none."""
    seen = Counter()
    for number in range(count):
        draws = random.Random(f"broken {seed} {number}")
        for place in ("sheets", "made"):
            shutil.rmtree(f"{folder}/{place}", ignore_errors=True)
        if draws.random() < 0.3:
            shutil.copytree(f"{TOP}/examples/template", f"{folder}/sheets")
        else:
            dress_folder(draws, random_tables(draws, f"{folder}/tables"), f"{folder}/sheets")
        for name in draws.sample(sorted(os.listdir(f"{folder}/sheets")), draws.choice([1, 2])):
            with open(f"{folder}/sheets/{name}", "rb") as file:
                text = file.read()
            with open(f"{folder}/sheets/{name}", "wb") as file:
                file.write(draws.choice(hostile.CHANGES + compare_lint.PEOPLE)(draws, text))
        seen[made_of(folder)] += 1
    return seen


def made_of(folder):
    """What came of sheets: `refused`, or tables, which are `of the right form`."""
    ran = subprocess.run([sys.executable, f"{TOP}/tools/tables", "make", f"{folder}/sheets", f"{folder}/made"], capture_output=True, text=True)
    if ran.returncode == 1 and ran.stderr.startswith(f"{folder}/") and "Traceback" not in ran.stderr and not os.path.exists(f"{folder}/made"):
        return "refused"
    if ran.returncode or ran.stderr:
        raise Differs(f"status {ran.returncode}: {ran.stderr}")
    paths = {name: path for name, path in linting.paths_in(f"{folder}/made").items() if os.path.exists(path)}
    findings, _, _ = linting.linted({**{name: f"{folder}/made/net/{name}.csv" for name in formats.NETWORK}, **paths})
    for finding in findings.of_level(FAULT):
        if finding.code in ("Header", "Csv", "Name", "Number"):
            raise Differs(f"the tables that were made: {lines_of([finding], True)[0]}")
    return "of the right form"


# The template, and timetables

def minute_of(text):
    """A clock time of the timetable, read by itself."""
    found = re.fullmatch(r"(\d+):(\d\d)(\+1)?", text)
    return 60 * int(found[1]) + int(found[2]) + (1440 if found[3] else 0)


def legs_of(sheet):
    """The legs that a timetable's sheet tells: train, tail, departure, head, arrival, and the dwell behind it."""
    rows = [row for row in csv.reader(io.StringIO(sheet))][1:]
    for before, row in zip(rows, rows[1:]):
        if row[3]:
            dwell = minute_of(row[4]) - minute_of(row[3]) if row[4] else 0
            yield [row[0], before[2], minute_of(before[4]), row[2], minute_of(row[3]), dwell]


def printed_legs(path):
    train = None
    for record in csv.reader(io.StringIO(text_of(path))):
        if record[0] == "train":
            train = record[2]
        elif record[0] == "leg":
            yield [train, record[2], int(record[3]), record[4], int(record[5]), int(record[7])]


def expect_timetable(path):
    """Tests that the three forms of a plan's timetable say what the plan says."""
    legs = list(printed_legs(path))
    if list(legs_of(tables_tool("timetable", path, "--csv"))) != legs:
        raise Differs(f"the timetable of {path} has other legs")
    plan = timetable.read_plan(path, None)
    calls = sum(len(train.calls) for train in plan.trains)
    for by in ("train", "station"):
        lines = [line for line in tables_tool("timetable", path, "--by", by).split("\n") if line.startswith("  ")]
        if len(lines) != calls:
            raise Differs(f"the timetable of {path} by {by} has {len(lines)} lines, and there are {calls} calls")
    return len(legs)


def template(program, folder):
    tables_tool("make", f"{TOP}/examples/template", f"{folder}/template")
    findings, _, _ = linting.linted(linting.paths_in(f"{folder}/template"))
    if findings.of_level(FAULT) + findings.of_level(WARNING):
        raise Differs("the template's tables: " + "\n".join(lines_of(findings.all, True)))
    words = [program, "plan", "--net", "net", "--bids", "bids.csv", "--stops", "stops.csv"]
    ran = subprocess.run(words, cwd=f"{folder}/template", capture_output=True, text=True)
    if ran.returncode != 0 or "revenue,232760\n" not in ran.stdout:
        raise Differs(f"the template's plan: status {ran.returncode}: {ran.stdout[:60]}{ran.stderr}")
    with open(f"{folder}/plan.txt", "w", encoding="utf-8") as file:
        file.write(ran.stdout)
    return [expect_timetable(path) for path in (f"{folder}/plan.txt", f"{TOP}/examples/corridor/expected/plan.txt")]


def main():
    words = argparse.ArgumentParser(description=__doc__, formatter_class=argparse.RawDescriptionHelpFormatter)
    words.add_argument("program")
    words.add_argument("count", type=int, nargs="?", default=300)
    words.add_argument("seed", type=int, nargs="?", default=1)
    given = words.parse_args()
    folder = tempfile.mkdtemp(prefix="optra-tables-")
    try:
        print(f"the corridor of its lines: {corridor(f'{folder}/corridor')} tables equal", flush=True)
        seen = trips(folder, given.count, given.seed)
        print("to sheets and back: " + ", ".join(f"{name} {number}" for name, number in sorted(seen.items())), flush=True)
        seen = broken_sheets(folder, given.count, given.seed)
        print("broken sheets: " + ", ".join(f"{name} {number}" for name, number in sorted(seen.items())), flush=True)
        print(f"timetables: {' and '.join(map(str, template(os.path.realpath(given.program), folder)))} legs equal")
    except Differs as fault:
        print(f"{fault}\nthe files: {folder}")
        return 1
    shutil.rmtree(folder)
    return 0


if __name__ == "__main__":
    sys.exit(main())
