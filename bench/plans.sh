#!/bin/bash
# Plans a SELECT and an UPDATE over 100, 1,000 and 10,000 rows of one partition, and prints what one plan takes, the copy of
# its rows included.
#
# Needs GNU time. Build the program first: cd crates/bench_parts && rt run -- plans 'SELECT n FROM shop.item' 5 2
# Another program may be given as the first word.
set -eu
root=$(cd "$(dirname "$0")/.." && pwd)
program=${1:-$root/crates/bench_parts/out/bench_parts}
room=$(mktemp -d)
trap 'rm -rf "$room"' EXIT

# The least processor time of three runs, in seconds.
timed() {
    for _ in 1 2 3; do
        /usr/bin/time -o "$room/cost" -f '%U' "$program" plans "$@" >/dev/null
        cat "$room/cost"
    done | sort -n | head -n 1
}

printf '%8s %8s %8s %12s %12s\n' statement rows plans 'us per plan' 'us per row'
for n in 100 1000 10000; do
    turns=$((1000000 / n))
    for statement in 'SELECT n, qty FROM shop.item WHERE cat = 1 AND qty >= 0' 'UPDATE shop.item SET qty = 7 WHERE cat = 1'; do
        making=$(timed "$statement" "$n" 0)
        all=$(timed "$statement" "$n" "$turns")
        each=$(awk "BEGIN { printf \"%.1f\", ($all - $making) * 1e6 / $turns }")
        printf '%8s %8d %8d %12s %12s\n' "${statement%% *}" "$n" "$turns" "$each" "$(awk "BEGIN { printf \"%.2f\", $each / $n }")"
    done
done
