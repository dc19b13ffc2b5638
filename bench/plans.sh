#!/bin/sh
# Measures how a built optra searches for plans: bench/plans.sh PROGRAM [FOLDER]
# Makes tables in FOLDER (/tmp/optra-plans if none is given) where they aren't there yet: the demo tables of seed 7 and sizes 1, 2,
# 3, 6 and 9 (bench/demo.py), and a network of 200 stations, 400 tracks and 3 types with 500 bids (bench/network.py). Runs
# PROGRAM plan on each with the steps and the budget below, and prints a line each: seconds, peak memory and what was found.
# Run by hand; the gate does not run it.
set -eu
program=$(realpath "$1")
folder=${2:-/tmp/optra-plans}
here=$(dirname "$(realpath "$0")")
for size in 1 2 3 6 9; do
    [ -d "$folder/demo$size" ] || python3 "$here/demo.py" 7 "$size" "$folder/demo$size"
done
[ -d "$folder/large" ] || python3 "$here/network.py" 200 400 3 500 7 "$folder/large"
while read -r case steps budget; do
    cd "$folder/$case"
    python3 - "$program" "$case" "$steps" "$budget" <<'PY'
import resource, subprocess, sys, time
program, case, steps, budget = sys.argv[1:]
words = [program, "plan", "--net", "net", "--bids", "bids.csv", "--stops", "stops.csv", "--steps", steps, "--budget", budget]
start = time.monotonic()
run = subprocess.run(words, capture_output=True, text=True)
seconds = time.monotonic() - start
peak = resource.getrusage(resource.RUSAGE_CHILDREN).ru_maxrss // 1024
found = dict(line.split(",", 1) for line in run.stdout.splitlines()[:4])
told = "  ".join(f"{word} {found[word]}" for word in ["nodes", "revenue", "bound"] if word in found) or run.stderr.strip()
print(f"{case:6} steps {steps:>2} budget {budget:>3} {seconds:8.2f} s {peak:6} MB  {told}", flush=True)
PY
done <<'CASES'
demo1 20 5
demo2 20 5
demo3 20 5
demo6 20 5
demo9 20 5
demo1 40 200
demo2 40 200
demo3 40 200
large 40 20
CASES
