#!/usr/bin/env python3
"""Compares tools/lint with a built program: python3 bench/compare_lint.py PROGRAM [COUNT] [SEED]

- Every run of crates/optra_cases that reads tables: lint's first fault has to be what the program says of the same files, and it has no fault
  where the program accepts.
- The examples: no fault and no warning; and the corridor with mistakes that the program accepts: a warning of each.
- COUNT (1,000 if none is given) random broken tables from SEED (1 if none is given), of both versions: worked cases, examples and random
  networks with one or two mistakes as people make them, or as in bench/hostile.py. Again the first fault, and none where it accepts.
- Two tables that have a mistake each which the program refuses alone: counted is how often lint tells both at once.
- bench/compare.py's random tables: lint says that a bid can never run exactly where bench/plain.py finds no walk of it.

At a difference it says which, keeps the files, and ends with status 1. Of each part it tells what there was.
"""
import argparse
import os
import random
import shutil
import subprocess
import sys
import tempfile
from collections import Counter

import compare
import demo
import hostile
import reader
import sheets

HERE = os.path.dirname(os.path.realpath(__file__))
sys.dont_write_bytecode = True
sys.path.insert(0, os.path.join(os.path.dirname(HERE), "tools"))

from optra_tables import linting  # noqa: E402
from optra_tables.findings import FAULT, WARNING, lines_of  # noqa: E402

SHEETS = ["plans.sheet", "refusals.sheet", "certificates.sheet", "checks.sheet", "auctions.sheet", "full-auction.sheet", "version-2.sheet",
          "outside.sheet"]
OPTIONS = {"--bids": "bids", "--stops": "stops", "--rules": "rules", "--actions": "actions"}
PLAN = ["plan", "--net", "net", "--bids", "bids.csv", "--stops", "stops.csv", "--steps", "0", "--budget", "1"]
AUCTION = ["auction", "--net", "net", "--bids", "bids.csv", "--stops", "stops.csv", "--rules", "rules.csv", "--actions", "actions.csv"]
EXAMPLES = ["corridor", "one_track", "single-track"]
# What the program says of the tables, by its status.
SAYS = {0: "accepted", 1: "accepted", 3: "refused", 5: "read fault", 6: "absent", 9: "too long"}


# The program and lint on the same files

def paths_of(words):
    """The paths of the tables that a command reads, by their names."""
    given = dict(zip(words[1::2], words[2::2]))
    paths = {name: f"{given['--net']}/{name}.csv" for name in linting.NETWORK}
    return {**paths, **{name: given[option] for option, name in OPTIONS.items() if option in given}}


def program_says(program, folder, words):
    """The status and the line of a run."""
    ran = subprocess.run([program, *words], cwd=folder, capture_output=True)
    return ran.returncode, ran.stderr.decode("utf-8", "replace").strip()


def lint_says(folder, words):
    """The findings of the same tables, by the same paths."""
    here = os.getcwd()
    os.chdir(folder)
    try:
        findings, _, _ = linting.linted(paths_of(words))
        for level in (FAULT, WARNING):
            lines_of(findings.of_level(level), False)
        return findings
    finally:
        os.chdir(here)


def compared(program, folder, words, name, seen):
    """Lint's findings; None where it says another thing than the program."""
    status, line = program_says(program, folder, words)
    says, findings = SAYS.get(status, f"status {status}"), lint_says(folder, words)
    wanted = None if says == "accepted" else line
    if findings.first() != wanted:
        print(f"{name} differs in {folder}\nthe program: {line or says}\nlint: {findings.first() or 'no fault'}")
        print("\n".join(lines_of(findings.of_level(FAULT), False)[:5]))
        return None
    seen[line.split()[-1] if says == "refused" else says] += 1
    return findings


# The worked cases and the examples

def table_words(words):
    """The words by which a run reads its tables; None where they are none, or have a path that can't stand here."""
    if not words or words[0] not in ("plan", "check", "auction") or len(words) % 2 == 0:
        return None
    given = [(option, path) for option, path in zip(words[1::2], words[2::2]) if option in ("--net", *OPTIONS)]
    options = [option for option, _ in given]
    is_form = sorted(options) == sorted(["--net", *OPTIONS] if words[0] == "auction" else ["--net", "--bids", "--stops"])
    if not is_form or not all(path and len(path) < 200 and not path.startswith("/") for _, path in given):
        return None
    return [word for pair in given for word in pair]


def lay(folder, files):
    shutil.rmtree(folder, ignore_errors=True)
    os.makedirs(f"{folder}/net")
    for path, text in files.items():
        os.makedirs(os.path.dirname(f"{folder}/{path}"), exist_ok=True)
        with open(f"{folder}/{path}", "wb") as file:
            file.write(text)


def cases(program, folder):
    seen = Counter()
    for name, words, files in sheets.runs(SHEETS):
        tables = table_words(words)
        if tables is not None:
            lay(folder, files)
            # A certificate isn't read: one that an earlier run puts isn't among the files.
            words = ["auction", *tables] if words[0] == "auction" else ["plan", *tables, "--steps", "0", "--budget", "1"]
            if compared(program, folder, words, name, seen) is None:
                return None
    return seen


def examples(program, seen):
    """Whether the examples have neither faults nor warnings."""
    for name in EXAMPLES:
        folder = os.path.join(os.path.dirname(HERE), "examples", name)
        findings = compared(program, folder, PLAN, name, seen)
        if findings is None or findings.of_level(WARNING):
            print(f"examples/{name}: " + "\n".join(lines_of(findings.of_level(WARNING) if findings else [], True)))
            return False
    return True


# Mistakes in the corridor that the program accepts

IC1_WINDOWS = "357,360,365,411,414,434"


def replaced(old, new):
    return lambda text: text.replace(old, new)


def without(*starts):
    """A table without the rows that begin so."""
    return lambda text: "".join(line for line in text.splitlines(True) if not line.startswith(starts))


def header_alone(text):
    return text.split("\n")[0] + "\n"


def names_alone(text):
    return "".join(line.split(",")[0] + "\n" for line in text.splitlines())


# What is changed in which files, and words of the warning that has to come.
ACCEPTED = [
    ({"net/crossings.csv": header_alone}, "no rows: each of the 14 pairs"),
    ({"net/crossings.csv": without("Quarry-Glen", "Glen-Quarry")}, "beyond Quarry the line is a single track"),
    ({"net/crossings.csv": without("Glen-Quarry,Quarry-Glen,freight,regional", "Quarry-Glen,Glen-Quarry,regional,freight")},
     "so they may meet on the single track"),
    ({"net/crossings.csv": replaced("Glen-Mine,Mine-Glen,regional,regional,", "Glen-Mine,Mine-Glen,regional,regional,000")}, None),
    ({"net/crossings.csv": replaced("Junction-Quarry,Quarry-Junction,freight,regional,12", "Junction-Quarry,Quarry-Junction,freight,regional,5")},
     "which takes up to 11; write 11 or more"),
    ({"net/stations.csv": names_alone}, "crossings.csv isn't read"),
    ({"net/stations.csv": replaced("Capital,", "Capital,0\nLost,")}, "no track leads to 'Lost' or from it"),
    ({"net/headways.csv": replaced("Weir-Aldbury,freight,fast,5", "Weir-Aldbury,freight,fast,1")}, "a minute behind freight and is at its end 3 minutes"),
    ({"net/running.csv": without("Weir-Aldbury,freight")}, "freight has headways on Weir-Aldbury and no running times there"),
    ({"net/running.csv": without("Weir-Aldbury,freight")}, "freight may use Aldbury-Weir and not the way back"),
    ({"net/running.csv": replaced("Weir-Aldbury,fast,4,5,5,6", "Weir-Aldbury,fast,4,3,5,6")}, "takes 3 minutes halting at its end and 4 passing"),
    ({"net/types.csv": replaced("freight\n", "freight\ntram\n")}, "'tram' has running times on no track"),
    ({"bids.csv": replaced(IC1_WINDOWS, "357,360,365,111,114,134")}, "its arrival window ends at 134 (2:14), before its departure window"),
    ({"bids.csv": replaced(IC1_WINDOWS, "357,360,365,400,402,405")}, "at 411 (6:51) at the earliest, after arrive_to, 405 (6:45)"),
    ({"bids.csv": replaced(IC1_WINDOWS, "357,360,365,511,514,534")}, "only to and fro or by a detour"),
    ({"bids.csv": replaced("IC1,Swift,fast,Seaport,Capital", "IC1,Swift,fast,Seaport,Mine")}, "fast has no way from Lakeside to Mine"),
    ({"bids.csv": replaced(",90000,", ",900,")}, "its base of 900 is no more than 54 minutes under way"),
    ({"bids.csv": replaced("IC2,Swift", "IC2,swift")}, "'swift' and 'Swift' are two bidders"),
    ({"bids.csv": lambda text: text + next(line for line in text.splitlines(True) if line.startswith("EX1,")).replace("EX1,", "EX9,")},
     "EX9 says the same as EX1"),
    ({"stops.csv": lambda text: text.replace("IC1,Junction,2,8,0,2879\nIC1,Lakeside,2,3,0,2879", "IC1,Lakeside,2,3,0,2879\nIC1,Junction,2,8,0,2879"),
      "bids.csv": replaced(IC1_WINDOWS, "357,360,365,411,514,634")}, "are they in the right order?"),
    ({"stops.csv": replaced("R1,Kirkby,1,2", "R1,Weir,1,2"), "bids.csv": replaced("392,395,416,30000", "392,395,456,30000")},
     "to stop at Marsh, Weir it passes Junction twice"),
    ({"stops.csv": replaced("IC1,Lakeside", "IC1,Capital")}, "it stops at Capital, where its run ends"),
]


def accepted_mistakes(program, folder):
    """How many mistakes that the program accepts lint warns of, each in the words that it has to have."""
    seen, files = Counter(), example_files("corridor")
    for changes, words in ACCEPTED:
        others = {path: change(files[path].decode()).encode() for path, change in changes.items()}
        lay(folder, {**files, **others})
        findings = compared(program, folder, PLAN, f"the corridor with another {' and '.join(changes)}", seen)
        if findings is None:
            return None
        texts = [finding.text for finding in findings.of_level(WARNING)]
        if any(others[path] == files[path] for path in changes) or words and not any(words in text for text in texts) or not words and texts:
            print(f"the corridor with another {' and '.join(changes)}: {words!r} isn't told; told is {texts}")
            return None
    return seen


# Mistakes as people make them

def cells_of(text):
    return [line.split(b",") for line in text.split(b"\n")]


def joined(cells):
    return b"\n".join(b",".join(row) for row in cells)


def a_cell(draws, text, change):
    """One to eight cells under the header that a change makes others."""
    cells = cells_of(text)
    rows = [row for row in range(1, len(cells)) if cells[row] != [b""]]
    for _ in range(draws.choice([1, 1, 2, 8]) if rows else 0):
        row = draws.choice(rows)
        place = draws.randrange(len(cells[row]))
        cells[row][place] = change(draws, cells[row][place])
    return joined(cells)


def as_clock(draws, cell):
    return b"%d:%02d" % divmod(int(cell), 60) if cell.isdigit() and len(cell) < 9 else cell


def as_decimal(draws, cell):
    return b"%d%s%02d" % (int(cell) // 100, draws.choice([b".", b"."]), int(cell) % 100) if cell.isdigit() else cell


def with_spaces(draws, cell):
    return draws.choice([b" " + cell, cell + b" ", b"\xc2\xa0" + cell])


def misspelt(draws, cell):
    at = draws.randint(0, max(len(cell) - 1, 0))
    return draws.choice([cell[:at] + cell[at + 1:], cell[:at] + b"x" + cell[at:], cell.upper(), cell.lower(), cell.title()])


def emptied(draws, cell):
    return b""


def out_of_range(draws, cell):
    return draws.choice([b"0", b"31", b"121", b"241", b"1001", b"2880", b"1000001", b"1000000001", b"10000000000"])


def of_cells(change):
    return lambda draws, text: a_cell(draws, text, change)


def semicolons(draws, text):
    return text.replace(b",", draws.choice([b";", b"\t"]))


def utf16(draws, text):
    return text.decode("utf-8", "replace").encode(draws.choice(["utf-16", "utf-16-le", "utf-16-be"]))


def windows(draws, text):
    return text.replace(b"a", b"\xe4", draws.choice([1, 3])) if draws.random() < 0.5 else text.replace(b"b", b"\xfc", 4)


def excel_end(draws, text):
    width = text.split(b"\n")[0].count(b",")
    return text + b"," * width + b"\r\n"


def header_words(draws, text):
    header, _, rest = text.partition(b"\n")
    words = header.split(b",")
    kind = draws.randrange(5)
    if kind == 0:
        draws.shuffle(words)
    elif kind == 1:
        words = [word.title() for word in words]
    elif kind == 2:
        words = words[:-1]
    elif kind == 3:
        return rest
    else:
        words.append(b"remarks")
    return b",".join(words) + b"\n" + rest


def fewer_rows(draws, text):
    lines = text.split(b"\n")
    for _ in range(draws.choice([1, 1, 3])):
        if len(lines) > 2:
            lines.pop(draws.randrange(1, len(lines) - 1))
    return b"\n".join(lines)


def a_row_again(draws, text):
    lines = text.split(b"\n")
    if len(lines) > 2:
        lines.insert(draws.randrange(1, len(lines)), lines[draws.randrange(1, len(lines) - 1)])
    return b"\n".join(lines)


def nothing(draws, text):
    return draws.choice([b"", b"\n\n", text.split(b"\n")[0] + b"\n", reader.BYTE_ORDER_MARK + text, reader.BYTE_ORDER_MARK * 2 + text])


def swapped(draws, text):
    """Two neighbouring cells of some rows in each other's place."""
    cells = cells_of(text)
    for row in draws.sample(range(1, len(cells)), min(draws.choice([1, 3]), len(cells) - 1)):
        if len(cells[row]) > 1:
            place = draws.randrange(len(cells[row]) - 1)
            cells[row][place:place + 2] = cells[row][place + 1], cells[row][place]
    return joined(cells)


PEOPLE = [of_cells(change) for change in (as_clock, as_decimal, with_spaces, misspelt, misspelt, emptied, out_of_range, out_of_range)] * 2
PEOPLE += [swapped] * 4 + [semicolons, utf16, windows, excel_end, header_words, fewer_rows, fewer_rows, a_row_again, nothing]


# Random broken tables

def example_files(name):
    folder, found = os.path.join(os.path.dirname(HERE), "examples", name), {}
    for path in [f"net/{table}.csv" for table in linting.NETWORK] + ["bids.csv", "stops.csv", "rules.csv", "actions.csv"]:
        if os.path.exists(f"{folder}/{path}"):
            found[path] = reader.read(f"{folder}/{path}")
    return found


def worked():
    """Accepted tables to break: small worked cases of both versions, and the examples."""
    found = {}
    for name, _, files in sheets.runs(SHEETS):
        paths = [path for path in files if path.endswith(".csv") and path.count("/") <= 1]
        if {"net/running.csv", "bids.csv", "stops.csv"} <= set(paths) and sum(len(files[path]) for path in paths) < 20_000:
            found[name] = {path: files[path] for path in paths}
    return {**found, **{name: example_files(name) for name in EXAMPLES}}


def random_files(draws, folder):
    """Random tables of one of both versions, or those of a small demo."""
    if draws.random() < 0.3:
        shutil.rmtree(folder, ignore_errors=True)
        demo.main(draws.randrange(1000), 1, folder)
    else:
        compare.random_case(draws, folder, draws.choice([1, 2]))
    return {os.path.relpath(os.path.join(place, name), folder): reader.read(os.path.join(place, name))
            for place, _, names in os.walk(folder) for name in names}


def broken(draws, files, words):
    """The files with one or two mistakes in tables that the command reads."""
    files = dict(files)
    paths = [path for path in [*paths_of(words).values(), *["bids.csv", "stops.csv"] * 3] if path in files]
    for _ in range(draws.choice([1, 1, 1, 2])):
        path = draws.choice(paths)
        if draws.random() < 0.04:
            files.pop(path, None)
            continue
        change = draws.choice(PEOPLE) if draws.random() < 0.6 else draws.choice(hostile.CHANGES)
        files[path] = change(draws, files.get(path, b""))
    return files


def random_tables(program, folder, count, seed):
    seen, known = Counter(), worked()
    for number in range(count):
        draws = random.Random(f"{seed} {number}")
        name = draws.choice(sorted(known)) if draws.random() < 0.6 else "random tables"
        files = known[name] if name in known else random_files(draws, folder)
        words = AUCTION if {"rules.csv", "actions.csv"} <= set(files) else PLAN
        lay(folder, broken(draws, files, words))
        if compared(program, folder, words, f"broken tables {number} of seed {seed}, from {name},", seen) is None:
            return None
    return seen


# Two mistakes at once

def refused_line(program, folder, files, words):
    """The line by which the program refuses a table; None where it does something else."""
    lay(folder, files)
    status, line = program_says(program, folder, words)
    return line if status == 3 else None


def two_mistakes(program, folder, count, seed):
    """How often lint tells both faults at once of tables of which the program tells each where the other isn't there."""
    seen, known = Counter(), worked()
    for number in range(count):
        draws = random.Random(f"two {seed} {number}")
        files = known[draws.choice(sorted(known))]
        words = AUCTION if {"rules.csv", "actions.csv"} <= set(files) else PLAN
        paths = draws.sample([path for path in paths_of(words).values() if path in files], 2)
        others = {path: draws.choice(PEOPLE)(draws, files[path]) for path in paths}
        lines = [refused_line(program, folder, {**files, path: others[path]}, words) for path in paths]
        if None in lines or lines[0] == lines[1]:
            continue
        lay(folder, {**files, **others})
        told = {f"refused: {finding.place.table} row {finding.place.row} {finding.code}" for finding in lint_says(folder, words).of_level(FAULT)}
        seen["both told" if set(lines) <= told else "one hides the other"] += 1
    return seen


# Bids that can never run

def never_runs(program, folder, count, seed):
    """Whether lint and the plain planner agree on which bids have no walk, in tables that are not broken."""
    seen = Counter()
    for number in range(count):
        draws = random.Random(f"walks {seed} {number}")
        net, bids = compare.random_case(draws, folder, draws.choice([1, 2]))
        findings = lint_says(folder, PLAN)
        told = {finding.text.split(" can never run")[0] for finding in findings.of_level(WARNING) if finding.kind == "unserved"}
        has_none = {bid.name for bid in bids if compare.walk_count(net, bid) == 0}
        if findings.of_level(FAULT) or told != has_none:
            print(f"random tables {number} of seed {seed} differ in {folder}: lint says {sorted(told)} can never run, there are {sorted(has_none)}")
            return None
        seen["with a walk"] += len(bids) - len(told)
        seen["without one"] += len(told)
    return seen


def told(what, seen):
    print(f"{what}: {sum(seen.values())} compared: " + ", ".join(f"{name} {number}" for name, number in sorted(seen.items())), flush=True)


def main():
    words = argparse.ArgumentParser(description=__doc__, formatter_class=argparse.RawDescriptionHelpFormatter)
    words.add_argument("program")
    words.add_argument("count", type=int, nargs="?", default=1000)
    words.add_argument("seed", type=int, nargs="?", default=1)
    given = words.parse_args()
    program, folder = os.path.realpath(given.program), tempfile.mkdtemp(prefix="optra-lint-")
    of_examples = Counter()
    parts = [("worked cases", lambda: cases(program, folder)),
             ("examples", lambda: of_examples if examples(program, of_examples) else None),
             ("mistakes that are accepted", lambda: accepted_mistakes(program, folder)),
             ("broken tables", lambda: random_tables(program, folder, given.count, given.seed)),
             ("two mistakes at once", lambda: two_mistakes(program, folder, given.count, given.seed)),
             ("bids", lambda: never_runs(program, folder, given.count // 2, given.seed))]
    for what, part in parts:
        seen = part()
        if seen is None:
            return 1
        told(what, seen)
    shutil.rmtree(folder)
    return 0


if __name__ == "__main__":
    sys.setrecursionlimit(20_000)
    sys.exit(main())
