#!/bin/sh
# Measures how a built optra plans over graphs: bench/graphs.sh PROGRAM [FOLDER]
# Makes three sets of tables in FOLDER (/tmp/optra-graphs if none is given) where they aren't there yet: wide, one bid that may
# go forth and back between two stations all through both days, with more than 2^900 walks; and the demo tables of seed 7 and
# sizes 3 and 9 (bench/demo.py). Runs PROGRAM plan on each, and prints seconds, peak memory and the first lines of the plan.
# Run by hand; the gate does not run it.
set -eu
program=$(realpath "$1")
folder=${2:-/tmp/optra-graphs}
here=$(dirname "$(realpath "$0")")
if [ ! -d "$folder/wide" ]; then
    mkdir -p "$folder/wide/net"
    cd "$folder/wide"
    printf 'station\nA\nB\n' > net/stations.csv
    printf 'track,from,to\nab,A,B\nba,B,A\n' > net/tracks.csv
    printf 'type\nic\n' > net/types.csv
    printf 'track,type,pass_pass,pass_halt,halt_pass,halt_halt\nab,ic,1,1,1,1\nba,ic,1,1,1,1\n' > net/running.csv
    printf 'track,first,second,minutes\nab,ic,ic,1\nba,ic,ic,1\n' > net/headways.csv
    printf 'bid,station,min_dwell,max_dwell,arrive_from,arrive_to\n' > stops.csv
    printf 'bid,bidder,type,origin,destination,depart_from,depart_ideal,depart_to,arrive_from,arrive_ideal,arrive_to,' > bids.csv
    printf 'base,early_depart,late_depart,early_arrive,late_arrive,travel,wait,wait_max\n' >> bids.csv
    printf 'w,ann,ic,A,B,0,0,0,2879,2879,2879,1000,0,0,0,0,0,1,30\n' >> bids.csv
fi
for size in 3 9; do
    [ -d "$folder/demo$size" ] || python3 "$here/demo.py" 7 "$size" "$folder/demo$size"
done
for case in wide demo3 demo9; do
    cd "$folder/$case"
    status=0
    /usr/bin/time -v -o time.txt "$program" plan --net net --bids bids.csv --stops stops.csv > plan.txt || status=$?
    printf '%-6s %s s %s kB  status %s  %s\n' "$case" \
        "$(sed -n 's/.*Elapsed (wall clock) time (h:mm:ss or m:ss): //p' time.txt)" \
        "$(sed -n 's/.*Maximum resident set size (kbytes): //p' time.txt)" "$status" "$(head -4 plan.txt | tr '\n' ' ')"
done
