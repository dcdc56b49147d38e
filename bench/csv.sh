#!/bin/bash
# Writes a table of 1,000, 10,000 and 100,000 rows as CSV and reads it again, and prints what each takes.
#
# Needs GNU time. Build the program first: cd crates/bench_parts && rt run -- csv 3 1 1
# Another program may be given as the first word.
set -eu
root=$(cd "$(dirname "$0")/.." && pwd)
program=${1:-$root/crates/bench_parts/out/bench_parts}
room=$(mktemp -d)
trap 'rm -rf "$room"' EXIT

# The least processor time of three runs, in seconds.
timed() {
    for _ in 1 2 3; do
        /usr/bin/time -o "$room/cost" -f '%U' "$program" csv "$@" >/dev/null
        cat "$room/cost"
    done | sort -n | head -n 1
}

# The most memory that a run had, in KiB.
peak() {
    /usr/bin/time -o "$room/cost" -f '%M' "$program" csv "$@" >/dev/null
    cat "$room/cost"
}

per_row() {
    awk "BEGIN { printf \"%.2f\", ($1 - $2) * 1e6 / $3 }"
}

printf '%8s %8s %10s %14s %14s %12s\n' rows turns bytes 'write, us/row' 'read, us/row' 'peak, KiB'
for n in 1000 10000 100000; do
    turns=$((1000000 / n))
    bytes=$("$program" csv "$n" 1 0)
    once=$(timed "$n" 1 0)
    written=$(per_row "$(timed "$n" $((turns + 1)) 0)" "$once" $((n * turns)))
    read=$(per_row "$(timed "$n" 0 "$turns")" "$once" $((n * turns)))
    printf '%8d %8d %10d %14s %14s %12d\n' "$n" "$turns" "$bytes" "$written" "$read" "$(peak "$n" 1 1)"
done
