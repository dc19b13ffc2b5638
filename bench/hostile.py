#!/usr/bin/env python3
"""Hands a built optra broken tables and certificates: python3 bench/hostile.py PROGRAM [COUNT] [SEED]

Makes COUNT runs (10,000 if none is given) from SEED (1 if none is given). Each takes a worked case of crates/optra_cases or
examples/one_track, of both versions of tables, changes bytes, cells, records or lengths of one or two of its files, and plans the tables or checks the
certificate. Each run has to end within a second of processor time, with the status and the line that bench/reader.py gives, which was
written from the documents alone. Of a plan that is printed, the status has to be the one that the text tells; the certificate that was
put has to be confirmed by that reader too, with the numbers of the text. Where the program plays auctions, two of them are taken as well,
and each round's certificate has to be confirmed. At the first difference it keeps the files, says what they are, and ends with status
1. At the end it tells what the runs came to.
"""
import os
import random
import resource
import shutil
import subprocess
import sys
import tempfile
from collections import Counter

import reader
import sheets

SHEETS = ["plans.sheet", "refusals.sheet", "certificates.sheet", "checks.sheet", "version-2.sheet"]
TABLES = {f"net/{table}.csv" if table not in ("bids", "stops") else f"{table}.csv": table for table in reader.PLAN_TABLES}
# The table that tables of version 2 have besides.
CROSSINGS = "net/crossings.csv"
WORDS = ["--net", "net", "--bids", "bids.csv", "--stops", "stops.csv"]
PLAN = ["plan", *WORDS, "--steps", "5", "--budget", "3", "--cert", "put.csv"]
CHECK = ["check", *WORDS, "--cert", "c.csv"]
AUCTION = ["auction", *WORDS, "--rules", "rules.csv", "--actions", "actions.csv", "--certs", "p"]
MOST_BYTES = 20_000
SECONDS = 1.0
MOST_SECONDS = 20

# Cells at the ends of ranges and of forms.
NUMBERS = [b"0", b"1", b"2", b"3", b"16", b"30", b"31", b"60", b"100", b"120", b"121", b"240", b"241", b"999", b"1000", b"1001", b"2878",
           b"2879", b"2880", b"2998", b"2999", b"65535", b"65536", b"1000000", b"1000001", b"1000000000", b"1000000001", b"4294967295",
           b"4294967296", b"9999999999", b"2000000000000", b"2000000000001", b"999999999999999999", b"1000000000000000000",
           b"9223372036854775807", b"18446744073709551616", b"99999999999", b"00000000000", b"0000000000", b"007", b"-1", b"+1", b"1.0",
           b"1e3", b"0x1", b" 1", b"1 ", b"\xd9\xa1"]
TEXTS = [b"", b"A", b"B", b"ab", b"ic", b"x", b"y", b"zz", b"b1", b"x1", b"a" * 64, b"a" * 65, "é".encode() * 32, "é".encode() * 33,
         "\u20ac".encode() * 21, b"\x00", b"\t", b"\x7f", b"\xc2\x80", b"\xc2\x9f", b"\xc2\xa0", b"\xff", b"\xc0\x80", b"\xed\xa0\x80",
         b"\xf4\x90\x80\x80", b"\xf0\x9f\x98\x80", reader.BYTE_ORDER_MARK, b'"', b'""', b'"A"', b'"A"B', b'"A,B"', b'"A\nB"', b'"A""B"', b" A",
         b"A ", b"halt", b"pass", b"wait", b"finish", b"leg", b"split", b"nowalk", b"forced", b"priced", b"price", b"window", b"pair",
         b"revenue", b"bound", b"optra-certificate", b"station", b"=1+1", b"../x"]
BYTES = [b",", b'"', b"\n", b"\r", b"\r\n", b"\x00", b"\xff", b"\x7f", b"\xc2", b"\x85", b" ", b"-", b"0", b"9", b"a", b";", b"\t",
         reader.BYTE_ORDER_MARK, b'"\n', b',"', b'",', b"\n\n"]


# Changes, each of bytes to bytes

def some_bytes(draws, text):
    """One to three places where a byte is another one, is taken out, or gets others in front of it."""
    for _ in range(draws.randint(1, 3)):
        at = draws.randint(0, len(text))
        kind = draws.randrange(4)
        if kind == 0 and text:
            at = min(at, len(text) - 1)
            text = text[:at] + bytes([text[at] ^ 1 << draws.randrange(8)]) + text[at + 1:]
        elif kind == 1:
            text = text[:at] + text[at + 1:]
        elif kind == 2:
            text = text[:at] + draws.choice(BYTES) + text[at + draws.randint(0, 1):]
        else:
            other = draws.randint(0, len(text))
            text = text[:at] + text[min(at, other):max(at, other)][:200] + text[at:]
    return text


def lines_of(text):
    return text.split(b"\n")


def some_cells(draws, text):
    """One to three cells that say something else."""
    lines = lines_of(text)
    for _ in range(draws.randint(1, 3)):
        row = place_of_record(draws, lines)
        cells = lines[row].split(b",")
        place = draws.randrange(len(cells))
        kind = draws.randrange(10)
        if cells[place].isdigit() and len(cells[place]) < 20 and kind < 6:
            cells[place] = str(max(int(cells[place]) + draws.choice([-500, -10, -3, -1, 1, 2, 7, 10, 1000]), 0)).encode()
        elif kind < 7:
            others = lines[place_of_record(draws, lines)].split(b",")
            cells[place] = others[min(place, len(others) - 1)]
        elif kind == 7:
            cells[place] = draws.choice(NUMBERS)
        elif kind == 8:
            cells[place] = draws.choice(TEXTS)
        else:
            other = draws.randrange(len(cells))
            cells[place], cells[other] = cells[other], cells[place]
        lines[row] = b",".join(cells)
    return b"\n".join(lines)


def place_of_record(draws, lines):
    """A record, seldom the header and seldom what stands behind the last line feed."""
    if len(lines) < 3 or draws.random() < 0.05:
        return draws.randrange(len(lines))
    return draws.randrange(1, len(lines) - 1)


def some_records(draws, text):
    """One to three records that are taken out, stand twice, elsewhere, or have a cell more or less."""
    lines = lines_of(text)
    for _ in range(draws.randint(1, 3)):
        row, other = place_of_record(draws, lines), place_of_record(draws, lines)
        kind = draws.randrange(7)
        if kind == 0 and len(lines) > 1:
            lines.pop(row)
        elif kind == 1:
            lines.insert(other, lines[row])
        elif kind == 2:
            lines[row], lines[other] = lines[other], lines[row]
        elif kind == 3:
            lines[row] += b"," + draws.choice(NUMBERS + TEXTS)
        elif kind == 4:
            lines[row] = b",".join(lines[row].split(b",")[:-1])
        elif kind == 5:
            lines.insert(other, draws.choice([b"", b'""', b",", b"\r", b" "]))
        else:
            lines[row:row + 1] = [lines[row]] * draws.choice([2, 9, 17])
    return b"\n".join(lines)


def another_length(draws, text):
    """A text that ends early, has no line feed at its end, or has a long field or many records."""
    kind = draws.randrange(6)
    if kind == 0:
        return text[:draws.randint(0, len(text))]
    if kind == 1:
        return text.rstrip(b"\n")
    if kind == 2:
        return text + draws.choice([b"\n", b"\r\n", b'"', b",", b"\x00", b"x"])
    if kind == 3:
        at = draws.randint(0, len(text))
        return text[:at] + draws.choice([b"1", b"a", b'"', b"\n", b","]) * draws.choice([64, 65, 1000, 5000]) + text[at:]
    lines = lines_of(text)
    if kind == 4:
        last = lines[-2] if len(lines) > 1 else lines[0]
        return text + (last + b"\n") * draws.choice([1, 8, 16, 300])
    count = draws.choice([15, 16, 17, 299, 300, 301, 1001])
    return text + b"".join(b"m%d%s\n" % (number, lines[-2][lines[-2].find(b","):] if len(lines) > 1 and b"," in lines[-2] else b"")
                           for number in range(count))


CHANGES = [some_bytes] + [some_cells] * 6 + [some_records] * 3 + [another_length]


# Runs

def tables_of(files):
    """The tables by name: those of version 1, and the crossings where there are any."""
    tables = {table: files[path] for path, table in TABLES.items()}
    return {**tables, "crossings": files[CROSSINGS]} if CROSSINGS in files else tables


def lacks_crossings(files):
    """Whether the stations say version 2 and there are no crossings."""
    return CROSSINGS not in files and reader.version_of(files["net/stations.csv"]) == 2


def is_accepted(files):
    """Whether the tables are there, not too large for many runs, and accepted."""
    if not set(TABLES) <= set(files) or sum(map(len, files.values())) > MOST_BYTES or lacks_crossings(files):
        return False
    try:
        reader.read_tables(tables_of(files))
    except reader.Refused:
        return False
    return True


def worked():
    """The files of the worked cases whose tables are accepted, by the name of the case, without the large ones. A case may run
    more than once: the last of its runs whose tables are accepted counts."""
    found = {name: files for name, _, files in sheets.runs(SHEETS) if is_accepted(files)}
    example = os.path.join(os.path.dirname(os.path.dirname(os.path.realpath(__file__))), "examples", "one_track")
    found["examples/one_track"] = {path: reader.read(f"{example}/{path}") for path in TABLES}
    return found


def auctions():
    """The files of two auctions, of three rounds each: one with bids for a slot, and one in which a bid is amended."""
    tables = next(files for name, _, files in sheets.runs(["plans.sheet"]) if name == "one-bid")
    slot, later = ("s%d,ann,ic,A,B,%s,500,0,0,0,0,0,0,0\n" % spec for spec in [(1, "2,2,2,0,12,60"), (2, "20,20,20,0,30,60")])
    raised = "1,ann,open,b1,s1,1000\n1,bob,open,b2,s1,1000\n2,bob,raise,b2,,1049\n2,bob,raise,b2,,1050\n2,ann,raise,b1,,1100\n"
    amended = "1,ann,open,b1,s1,1000\n1,bob,open,b2,s1,1000\n1,cat,open,b3,s2,1000\n2,bob,amend,b2,s2,\n"

    def files(specs, actions):
        bodies = {"bids": specs, "rules": "20,50,10\n", "actions": actions}
        return {**tables, **{f"{table}.csv": f"{reader.HEADERS[table]}\n{body}".encode() for table, body in bodies.items()}}

    return {"auction-of-three-rounds": files(slot, raised), "auction-with-an-amended-bid": files(slot + later, amended)}


def lay(folder, files):
    shutil.rmtree(folder, ignore_errors=True)
    os.makedirs(f"{folder}/net")
    for path, text in files.items():
        if "/" not in path or path.startswith("net/"):
            with open(f"{folder}/{path}", "wb") as file:
                file.write(text)


def ran(program, folder, words):
    """The status, the output, the error line and the processor seconds of a run; one that takes far too long is ended by the system."""
    with open(f"{folder}/out", "wb") as out, open(f"{folder}/err", "wb") as err:
        process = subprocess.Popen([program, *words], cwd=folder, stdout=out, stderr=err)
        try:
            resource.prlimit(process.pid, resource.RLIMIT_CPU, (MOST_SECONDS, MOST_SECONDS))
        except ProcessLookupError:
            pass
        _, ended, use = os.wait4(process.pid, 0)
        process.returncode = os.waitstatus_to_exitcode(ended)
    return process.returncode, reader.read(f"{folder}/out"), reader.read(f"{folder}/err"), use.ru_utime + use.ru_stime


def expected(files, words):
    """The status and what is printed on the output and the error line; of a plan that is printed the status and the text are None."""
    if lacks_crossings(files):
        return (6, b"", f"absent: {CROSSINGS}\n".encode()), None
    try:
        net, bids = reader.read_tables(tables_of(files))
        if words[0] == "auction":
            reader.read_auction({table: files[f"{table}.csv"] for table in ("rules", "actions")})
    except reader.Refused as fault:
        return (3, b"", f"{fault}\n".encode()), None
    if words[0] != "check":
        return (None, None, b""), (net, bids)
    told = reader.verdict(net, bids, files["c.csv"])
    return (0 if told.startswith("verdict,yes") else 4, f"{told}\n".encode(), b""), None


def plan_fault(folder, status, out, known):
    """What is wrong with a plan that was printed and put, or None."""
    head = [line.split(",") for line in out.decode().split("\n")[:4]]
    if [line[0] for line in head] != ["status", "revenue", "bound", "nodes"]:
        return "the text doesn't begin as a plan"
    revenue, bound = int(head[1][1]), int(head[2][1])
    if (status, head[0][1]) != ((0, "optimal") if revenue == bound else (1, "gap")):
        return "the status isn't that of the numbers"
    told = reader.verdict(*known, reader.read(f"{folder}/put.csv"))
    if told != f"verdict,yes,{revenue},{bound}":
        return f"the certificate that was put: {told}"
    return None


def auction_fault(folder, status, out, net):
    """What is wrong with an auction that was printed and put, or None."""
    rounds = out.decode().split("round,")[1:]
    gap = False
    for number, text in enumerate(rounds, start=1):
        told = dict(line.split(",", 1) for line in text.split("\n") if line.startswith(("revenue,", "bound,")))
        put = {table: reader.read(f"{folder}/p{number}.{table}.csv") for table in ("bids", "stops", "cert")}
        verdict = reader.verdict(net, reader.read_bids(net, put), put["cert"])
        if verdict != f"verdict,yes,{told['revenue']},{told['bound']}":
            return f"the certificate of round {number}: {verdict}"
        gap |= told["revenue"] != told["bound"]
    if not rounds or f"\nclosed,{len(rounds)}\n" not in rounds[-1] or status != int(gap):
        return "the text doesn't end as an auction, or its status isn't that of its rounds"
    return None


def difference(program, folder, files, words, seen):
    """What is wrong with a run, or None."""
    status, out, err, seconds = ran(program, folder, words)
    if seconds > SECONDS:
        return f"took {seconds:.2f} seconds"
    (want_status, want_out, want_err), known = expected(files, words)
    seen[f"{words[0]} {status}"] += 1
    if known:
        if status not in (0, 1) or err:
            return f"status {status}, out {out[:200]}, err {err[:200]}; it was to be 0 or 1"
        return plan_fault(folder, status, out, known) if words[0] == "plan" else auction_fault(folder, status, out, known[0])
    if status in (3, 4):
        seen[(out or err).decode("utf-8", "replace").strip().split(" ")[-1].split(",")[-1]] += 1
    if (status, out, err) != (want_status, want_out, want_err):
        return f"status {status}, out {out[:200]}, err {err[:200]}; the reader: {want_status}, {want_out}, {want_err}"
    return None


def main(program, count, seed):
    program, seen, cases = os.path.realpath(program), Counter(), worked()
    folder = tempfile.mkdtemp(prefix="optra-hostile-", dir="/dev/shm" if os.path.isdir("/dev/shm") else None)
    for name, files in auctions().items():
        lay(folder, files)
        if ran(program, folder, AUCTION)[0] != 2:
            cases.update({f"{name}, turn {turn}": files for turn in range(20)})
    for number in range(count):
        draws = random.Random(f"{seed} {number}")
        name = draws.choice(sorted(cases))
        files = dict(cases[name])
        checks, plays = "c.csv" in files and draws.random() < 0.8, "actions.csv" in files
        paths = sorted(TABLES) + [CROSSINGS] * 2 * (CROSSINGS in files) + ["c.csv"] * (7 * checks) + ["rules.csv", *["actions.csv"] * 6] * plays
        for _ in range(draws.choice([1, 1, 1, 2])):
            path = draws.choice(paths)
            files[path] = draws.choice(CHANGES)(draws, files[path])
        words = AUCTION if plays else CHECK if checks else PLAN
        lay(folder, files)
        fault = difference(program, folder, files, words, seen)
        if fault:
            print(f"run {number} of seed {seed}, from {name}: {fault}\nthe files: {folder}\nthe words: {' '.join(words)}")
            return 1
    shutil.rmtree(folder)
    print(f"{count} runs without a difference, of {len(cases)} worked cases: "
          + ", ".join(f"{name}: {number}" for name, number in sorted(seen.items())))
    return 0


if __name__ == "__main__":
    if not 2 <= len(sys.argv) <= 4:
        sys.exit(__doc__)
    sys.setrecursionlimit(20_000)
    sys.exit(main(sys.argv[1], int((sys.argv[2:] or ["10000"])[0]), int((sys.argv[3:] or ["1"])[0])))
