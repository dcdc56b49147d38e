#!/bin/bash
# Notes rows in a snapshot and times one call of it: with as many rows in the partition that it reads and more and more
# rows beside it, and with more rows in the partition and as many in all. A scan finds no row: the first call at a partition
# notes it, and each later one looks whether the partition was scanned, among as many scans as there are partitions.
#
# Needs GNU time. Build the program first: cd crates/bench_parts && rt run -- snapshot overlay 3 4 5
# Another program may be given as the first word.
set -eu
root=$(cd "$(dirname "$0")/.." && pwd)
program=${1:-$root/crates/bench_parts/out/bench_parts}
room=$(mktemp -d)
trap 'rm -rf "$room"' EXIT

# The least processor time of three runs, in seconds.
timed() {
    for _ in 1 2 3; do
        /usr/bin/time -o "$room/cost" -f '%U' "$program" snapshot "$@" >/dev/null
        cat "$room/cost"
    done | sort -n | head -n 1
}

# What one call takes: the time of the run without that of a run that only notes the rows.
printf '%8s %12s %20s %10s %12s\n' call 'rows noted' 'rows of a partition' calls 'us per call'
while read -r call partitions rows turns; do
    noting=$(timed "$call" "$partitions" "$rows" 0)
    all=$(timed "$call" "$partitions" "$rows" "$turns")
    each=$(awk "BEGIN { printf \"%.2f\", ($all - $noting) * 1e6 / $turns }")
    printf '%8s %12d %20d %10d %12s\n' "$call" $((partitions * rows)) "$rows" "$turns" "$each"
done <<'END'
overlay 100 10 20000
overlay 1000 10 20000
overlay 10000 10 20000
overlay 1000 100 2000
overlay 100 1000 200
lookup 100 10 200000
lookup 1000 10 200000
lookup 10000 10 200000
write 40 10 200000
write 400 10 200000
write 4000 10 200000
scan 100 0 200000
scan 1000 0 20000
scan 4000 0 8000
END
