#!/bin/sh
# Measures how a built optra reads tables: bench/tables.sh PROGRAM [FOLDER]
# Makes the tables of bench/tables.py in FOLDER (1.1 GB, /tmp/optra-tables if none is given) where they aren't there yet,
# runs PROGRAM plan on each, and prints its refusal, seconds and peak memory. Run by hand; the gate does not run it.
set -eu
program=$(realpath "$1")
folder=${2:-/tmp/optra-tables}
here=$(dirname "$(realpath "$0")")
[ -d "$folder/full" ] || python3 "$here/tables.py" "$folder"
for case in full row2 empty field surplus; do
    cd "$folder/$case"
    python3 - "$program" "$case" <<'PY'
import resource, subprocess, sys, time
program, case = sys.argv[1:]
start = time.monotonic()
run = subprocess.run([program, "plan", "--net", "net", "--bids", "bids.csv", "--stops", "stops.csv"], capture_output=True, text=True)
seconds = time.monotonic() - start
peak = resource.getrusage(resource.RUSAGE_CHILDREN).ru_maxrss // 1024
print(f"{case:8} {seconds:7.2f} s {peak:6} MB  status {run.returncode}  {run.stderr.strip()}")
PY
done
