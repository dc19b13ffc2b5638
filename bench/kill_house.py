#!/usr/bin/env python3
"""Kills houses at random moments and cuts their journals: python3 bench/kill_house.py PROGRAM [COUNT] [SEED]

An auction of five rounds is run to its end once without a fault. Then, COUNT times (500 if none is given), from SEED (1 if none is
given): `house` is begun and killed by SIGKILL at a random moment within a little more than the middle run took, often near its end. Each time bench/journal.py looks
at the journal: it must be one, with the rounds that stood or one more, byte for byte those of the auction without a fault. The next
round begins from there, and after the last one the journal is taken away. Then the journal with two rounds is cut to each length
of its last entry: it opens as the round before where the gate's byte is gone or shut; a whole entry without a gate behind it isn't
what a crash leaves, and is refused. Then journals of the greatest length and of one byte more, a folder, a file that can't be
written, a full disk and streams that are closed at the start. Prints what came how often, and ends with 1 at the first fault.
"""
import os
import random
import shutil
import signal
import subprocess
import sys
import tempfile
import time
from collections import Counter

import compare
import demo
import journal

ROUNDS = 5
HOUSE = ["house", "--net", "net", "--bids", "bids.csv", "--stops", "stops.csv", "--rules", "rules.csv", "--actions", "actions.csv",
         "--journal", "j"]
TABLES = {
    "net/stations": ["station", "A", "B"], "net/tracks": ["track,from,to", "ab,A,B"], "net/types": ["type", "ic"],
    "net/running": ["track,type,pass_pass,pass_halt,halt_pass,halt_halt", "ab,ic,10,10,10,10"],
    "net/headways": ["track,first,second,minutes", "ab,ic,ic,5"],
    "bids": [demo.BIDS] + [f"s{k},ann,ic,A,B,{k},{k},{k + 9},0,{k + 10},60,500,1,1,1,1,1,1,0" for k in range(6)],
    "stops": [demo.STOPS], "rules": ["min_increment,permille,rounds", f"20,50,{ROUNDS}"],
    "actions": ["round,bidder,action,bid,spec,amount"] + [f"{r},bob,open,b{r}{k},s{k},{1000 + 10 * r}" for r in range(1, ROUNDS + 1) for k in range(4)],
}


class Fault(Exception):
    """What isn't as it must be."""


def must(holds, what):
    if not holds:
        raise Fault(what)


def house(program, folder, **how):
    return subprocess.run([program, *HOUSE], cwd=folder, capture_output=True, text=True, **how)


def file_of(folder):
    path = f"{folder}/j"
    return journal.read(path) if os.path.exists(path) else b""


def put(folder, file):
    with open(f"{folder}/j", "wb") as out:
        out.write(file)


def forget(folder):
    if os.path.exists(f"{folder}/j"):
        os.remove(f"{folder}/j")


def undisturbed(program, folder):
    """The journal after each round, the text of each run, and how long the middle one took."""
    files, texts, took = [], [], []
    for number in range(1, ROUNDS + 1):
        began = time.monotonic()
        done = house(program, folder)
        took.append(time.monotonic() - began)
        must(done.returncode in (0, 1) and done.stdout.startswith(f"round,{number}\n"), f"round {number}: {done}")
        files.append(file_of(folder))
        texts.append(done.stdout)
    must("\nclosed," in texts[-1], "the last round closes")
    return files, texts, sorted(took)[len(took) // 2]


def payloads(file):
    found = journal.read_journal(file)
    return [entry.payload for entry in found.entries] if found else []


def killed(program, folder, moment):
    """Begins a house and kills it after so many seconds: its text, or None where it was killed."""
    run = subprocess.Popen([program, *HOUSE], cwd=folder, stdout=subprocess.PIPE, stderr=subprocess.PIPE, text=True)
    time.sleep(moment)
    run.send_signal(signal.SIGKILL)
    out, _ = run.communicate()
    return out if run.returncode >= 0 else None


def kill_often(program, folder, count, draws, whole, texts, middle):
    seen, rounds = Counter(), 0
    forget(folder)
    for _ in range(count):
        out = killed(program, folder, draws.choice([draws.uniform(0, 1.2), draws.uniform(0.6, 1.1)]) * middle)
        try:
            have = payloads(file_of(folder))
        except journal.NoJournal as fault:
            raise Fault(f"after a kill in round {rounds + 1}: {fault}") from fault
        after = max(0, len(have) - 1)
        must(have == whole[:len(have)], f"after a kill in round {rounds + 1} the entries are others")
        must(after in (rounds, rounds + 1), f"{rounds} rounds stood, and {after} stand after a kill")
        must(out is None or (out == texts[rounds] and after == rounds + 1), f"round {rounds + 1} was printed as {out}, and {after} stand")
        seen["ended before the kill" if out is not None else "killed, the round stands" if after > rounds else "killed, the round doesn't stand"] += 1
        seen["a journal with bytes behind its last gate"] += has_tail(file_of(folder))
        rounds = after
        if rounds == ROUNDS:
            forget(folder)
            rounds = 0
    return seen


def has_tail(file):
    found = journal.read_journal(file)
    return found is not None and found.last_gate + 1 < len(file)


def cut(program, folder, files, texts):
    """Each length of the last entry of a journal with two rounds: how many of them opened, and how many were refused."""
    gate, seen = len(files[0]) - 1, Counter()
    for length in range(gate, len(files[1]) + 1):
        for shut in (False, True):
            file = files[1][:length]
            file = file[:gate] + b"\0" + file[gate + 1:] if shut and length > gate else file
            put(folder, file)
            done = house(program, folder)
            if length == len(files[1]) and not shut:
                must(done.stdout == texts[2], "the whole journal goes on with round 3")
            elif shut and length > gate:
                must(done.stdout == texts[1] and file_of(folder) == files[1], f"shut and cut to {length}: {done}")
                seen["shut, and goes on"] += 1
            else:
                must((done.returncode, done.stdout, done.stderr) == (10, "", "journal: H1\n"), f"cut to {length}: {done}")
                must(file_of(folder) == file, f"cut to {length}: the refused journal was written")
                seen["open, and refused"] += 1
    return seen


def greatest(program, folder, files, texts):
    for more, wanted in ((0, 0), (1, 10)):
        put(folder, files[0] + bytes(journal.MOST_BYTES + more - len(files[0])))
        done = house(program, folder)
        must((done.stdout, done.stderr) == ((texts[1], "") if wanted == 0 else ("", "journal: H1\n")), f"{more} over the greatest length: {done}")


def limited(program, folder):
    """A house whose files may have one block of 512 bytes, as on a disk that is full."""
    words = 'ulimit -f 1; trap "" XFSZ; exec "$@"'
    return subprocess.run(["/bin/sh", "-c", words, "sh", program, *HOUSE], cwd=folder, capture_output=True, text=True)


def unusual(program, folder, files, texts):
    """A folder, a file that can't be written, a full disk."""
    forget(folder)
    os.mkdir(f"{folder}/j")
    done = house(program, folder)
    must((done.returncode, done.stdout, done.stderr) == (11, "", "disk fault\n"), f"a folder as the journal: {done}")
    os.rmdir(f"{folder}/j")
    os.symlink("/dev/full", f"{folder}/j")
    done = house(program, folder)
    must((done.returncode, done.stdout, done.stderr) == (11, "", "disk fault\n"), f"a full device as the journal: {done}")
    os.remove(f"{folder}/j")
    if os.getuid() != 0:
        put(folder, files[0])
        os.chmod(f"{folder}/j", 0o400)
        done = house(program, folder)
        must((done.returncode, done.stdout) == (11, ""), f"a journal that can't be written: {done}")
        os.chmod(f"{folder}/j", 0o600)
    done = limited(program, folder)
    must((done.returncode, done.stdout, done.stderr) == (11, "", "disk fault\n"), f"a journal without room on its disk: {done}")
    must(house(program, folder).stdout == texts[0], "once there is room, the round that had none is played")
    forget(folder)


def closed_streams(program, folder, files):
    """Streams that are closed at the start: what is printed never stands in the journal."""
    for closed in ("<&-", ">&-", "2>&-", "<&- >&-", ">&- 2>&-", "<&- >&- 2>&-"):
        forget(folder)
        done = subprocess.run(["/bin/sh", "-c", f'"$@" {closed}', "sh", program, *HOUSE], cwd=folder, capture_output=True, text=True)
        file = file_of(folder)
        must(file in (b"", files[0]), f"with {closed}: the journal holds {file[:60]!r}.. after {done}")
        put(folder, files[0][:20] + b"\xff" + files[0][21:])
        subprocess.run(["/bin/sh", "-c", f'"$@" {closed}', "sh", program, *HOUSE], cwd=folder, capture_output=True)
        must(file_of(folder) == files[0][:20] + b"\xff" + files[0][21:], f"with {closed}: a refused journal was written")


def main(program, count, seed):
    program, folder = os.path.realpath(program), tempfile.mkdtemp(prefix="optra-killed-")
    compare.write(folder, TABLES)
    try:
        files, texts, middle = undisturbed(program, folder)
        seen = kill_often(program, folder, count, random.Random(seed), payloads(files[-1]), texts, middle)
        print(f"{count} kills within {1200 * middle:.0f} ms: " + ", ".join(f"{name} {number}" for name, number in sorted(seen.items())), flush=True)
        print("cut: " + ", ".join(f"{name} {number}" for name, number in sorted(cut(program, folder, files, texts).items())), flush=True)
        greatest(program, folder, files, texts)
        unusual(program, folder, files, texts)
        closed_streams(program, folder, files)
    except Fault as fault:
        print(f"in {folder}: {fault}")
        return 1
    shutil.rmtree(folder)
    print("journals of the greatest length and of one byte more, a folder, a full device, closed streams: as they must be")
    return 0


if __name__ == "__main__":
    if not 2 <= len(sys.argv) <= 4 or sys.argv[1] in ("-h", "--help"):
        print(__doc__)
        sys.exit(0 if "--help" in sys.argv or "-h" in sys.argv else 2)
    sys.exit(main(sys.argv[1], int((sys.argv[2:] or ["500"])[0]), int((sys.argv[3:] or ["1"])[0])))
