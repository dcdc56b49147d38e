#!/bin/bash
# Fills each store in memory with 1,000, 10,000 and 100,000 records in partitions of ten, and prints what one call takes: a get of a
# record, a put over one, and a scan of a partition. What the database takes is in what `growth.sh` prints of whole scripts.
#
# Needs GNU time. Build the program first: cd crates/bench_parts && rt run -- stores ordered get 40 6
# Another program may be given as the first word.
set -eu
root=$(cd "$(dirname "$0")/.." && pwd)
program=${1:-$root/crates/bench_parts/out/bench_parts}
room=$(mktemp -d)
trap 'rm -rf "$room"' EXIT

# The least processor time of five runs, in seconds.
timed() {
    for _ in 1 2 3 4 5; do
        /usr/bin/time -o "$room/cost" -f '%U' "$program" stores "$@" >/dev/null
        cat "$room/cost"
    done | sort -n | head -n 1
}

# What one call takes: the time of the run without that of a run that only fills the store and makes the requests.
printf '%8s %6s %10s %10s %12s\n' store call records calls 'us per call'
for store in ordered hashed; do
    for call in get:500000 put:200000 scan:50000; do
        IFS=: read -r name turns <<<"$call"
        for records in 1000 10000 100000; do
            filling=$(timed "$store" "$name" "$records" 0)
            all=$(timed "$store" "$name" "$records" "$turns")
            each=$(awk "BEGIN { printf \"%.2f\", ($all - $filling) * 1e6 / $turns }")
            printf '%8s %6s %10d %10d %12s\n' "$store" "$name" "$records" "$turns" "$each"
        done
    done
done
