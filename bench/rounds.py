#!/usr/bin/env python3
"""Times auctions: python3 bench/rounds.py actions|plans PROGRAM [PROGRAM ..]

Several programs are timed side by side, turn by turn, and their texts compared.

actions: 100 rounds over 500 standing bids none of which is worth a train, so that the plans are trivial: with a single action in each
   round after the first, and with 25,000, 50,000 and 100,000 actions in all. What is above the first line is what the actions cost, and
   should double with them. Then 100,000 actions of which a fifth withdraws the first bid that stands and opens it again behind the others.
plans: ten rounds over the bids of a demo, and the sum of the ten plans of the same bids, each by a `plan` of its own; without files and
   with `--certs`. 20 bids, in three turns, and 60 bids, once: most of their plans spend the whole budget, which takes minutes.

Of each it prints the user and system seconds (the least of the turns) and the peak memory. Run by hand; the gate does not run it.
"""
import hashlib
import os
import subprocess
import sys
import tempfile

import demo

BIDS, ROUNDS = 500, 100
ACTIONS = "round,bidder,action,bid,spec,amount"
RULES = "min_increment,permille,rounds"
TABLES = ["--net", "net", "--bids", "bids.csv", "--stops", "stops.csv"]
AUCTION = ["auction", *TABLES, "--rules", "rules.csv", "--actions", "actions.csv"]
FIRST = [f"1,ann,open,n{k},s,0" for k in range(BIDS)]
# Ten minutes at this rate are worth more than any amount below.
RATE = 1000


def lay(place, tables):
    for name, lines in tables.items():
        demo.write(f"{place}/{name}.csv", lines)


def market(place):
    """One track, and one specification whose train costs more than it is worth."""
    lay(place, {"net/stations": ["station", "A", "B"], "net/tracks": ["track,from,to", "ab,A,B"], "net/types": ["type", "ic"],
                "net/running": ["track,type,pass_pass,pass_halt,halt_pass,halt_halt", "ab,ic,10,10,10,10"],
                "net/headways": ["track,first,second,minutes", "ab,ic,ic,5"],
                "bids": [demo.BIDS, f"s,ann,ic,A,B,0,0,0,0,10,20,0,0,0,0,0,{RATE},0,0"], "stops": [demo.STOPS],
                "rules": [RULES, f"1,0,{ROUNDS}"]})


def raised(count, number):
    """So many actions of a round: raises of bid after bid by a cent, accepted and then, once all are raised, refused."""
    return [f"{number},ann,raise,n{k % BIDS},,{number}" for k in range(count)]


def withdrawn(count, number):
    """So many actions of a round, of which a fifth are withdrawals of the first bid and openings of it, and the others raises."""
    moved = count // 10
    first = [(number - 2) * moved + k for k in range(moved)]
    moves = [action for k in first for action in (f"{number},ann,withdraw,n{k % BIDS},,", f"{number},ann,open,n{k % BIDS},s,{number}")]
    others = [k for k in range(BIDS) if k not in {k % BIDS for k in first}]
    return moves + [f"{number},ann,raise,n{others[k % len(others)]},,{number}" for k in range(count - 2 * moved)]


def actions(place, a_round, made=raised):
    later = [action for number in range(2, ROUNDS + 1) for action in made(a_round, number)]
    lay(place, {"actions": [ACTIONS, *FIRST, *(["1,ann,raise,n0,,1"] * max(0, a_round - BIDS)), *later]})


def measured(program, words, place):
    """The seconds, the peak memory in kilobytes, and the output's digest and status."""
    ran = subprocess.Popen([program, *words], cwd=place, stdout=subprocess.PIPE)
    digest = hashlib.sha256(ran.stdout.read()).hexdigest()
    _, status, use = os.wait4(ran.pid, 0)
    return use.ru_utime + use.ru_stime, use.ru_maxrss, (digest, os.waitstatus_to_exitcode(status))


def compared(what, programs, works, turns=3):
    """Prints a line: of each program the least seconds for all works together, and the peak memory."""
    best, peak, texts = {}, {}, {}
    for _ in range(turns):
        for program in programs:
            runs = [measured(program, words, place) for words, place in works]
            seconds = sum(seconds for seconds, _, _ in runs)
            best[program] = min(seconds, best.get(program, seconds))
            peak[program] = max(peak.get(program, 0), *(memory for _, memory, _ in runs))
            texts[program] = [text for _, _, text in runs]
    told = "   ".join(f"{best[program]:8.3f} s {peak[program] // 1024:5} MB" for program in programs)
    print(f"{what:44} {told}" + ("" if len(set(map(str, texts.values()))) == 1 else "   the texts differ"), flush=True)


def ten_rounds(place, size):
    """The tables of a demo, and ten rounds: all but nine bids are opened in the first, one in each later one, and losers raise."""
    demo.main(7, size, place)
    with open(f"{place}/bids.csv") as file:
        bids = [line.split(",") for line in file.read().splitlines()[1:]]
    opened = [f"{bid[1]},open,{bid[0]},{bid[0]},{bid[11]}" for bid in bids]
    made = [f"1,{action}" for action in opened[9:]]
    for number in range(2, 11):
        made += [f"{number},{opened[number - 2]}"]
        made += [f"{number},{bid[1]},raise,{bid[0]},,{int(int(bid[11]) * 1.06 ** number)}" for bid in bids]
    lay(place, {"rules": [RULES, "20,50,10"], "actions": [ACTIONS, *made]})
    return len(bids)


def time_actions(programs):
    with tempfile.TemporaryDirectory() as place:
        market(place)
        for what, count, made in [("100 rounds, an action in each", 1, raised), ("25,000 actions", 250, raised),
                                  ("50,000 actions", 500, raised), ("100,000 actions", 1000, raised),
                                  ("100,000 actions with withdrawals", 1000, withdrawn)]:
            actions(place, count, made)
            compared(what, programs, [(AUCTION, place)])


def time_plans(programs, size, turns):
    with tempfile.TemporaryDirectory() as place:
        bids = ten_rounds(place, size)
        compared(f"{bids} bids, the rounds with --certs", programs, [([*AUCTION, "--certs", "r"], place)], turns)
        compared(f"{bids} bids, the rounds", programs, [(AUCTION, place)], turns)
        rounds = [number for number in range(1, 11) if os.path.exists(f"{place}/r{number}.bids.csv")]
        plans = [["plan", "--net", "net", "--bids", f"r{number}.bids.csv", "--stops", f"r{number}.stops.csv"] for number in rounds]
        compared(f"{bids} bids, the {len(rounds)} plans", programs, [(words, place) for words in plans], turns)


def main(what, programs):
    print(f"{'':44} " + "   ".join(f"{program[-19:]:>19}" for program in programs))
    if what == "actions":
        time_actions(programs)
    else:
        time_plans(programs, 1, 3)
        time_plans(programs, 3, 1)


if __name__ == "__main__":
    if len(sys.argv) < 3 or sys.argv[1] not in ("actions", "plans"):
        sys.exit(__doc__)
    main(sys.argv[1], [os.path.realpath(program) for program in sys.argv[2:]])
