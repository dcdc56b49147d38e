#!/bin/bash
# Plays scripts of eight clients that change sixteen accounts in turns and conflict, of about 1,000, 10,000 and 100,000 events, and
# prints of each the events, the recorded transactions and the conflicts, the time, the peak memory and the microseconds per event.
#
# Needs GNU time. Build the program first: cd crates/scalardb && rt run -- replay < ../../examples/first.script
# Another program may be given as the first word.
set -eu
root=$(cd "$(dirname "$0")/.." && pwd)
program=${1:-$root/crates/scalardb/out/scalardb}
room=$(mktemp -d)
trap 'rm -rf "$room"' EXIT

# A script in which each of eight clients has so many transactions: each reads one account and changes another.
script() {
    echo 'schema {"bank.account":{"partition-key":["id"],"columns":{"id":"INT","balance":"INT"}}}'
    echo 'client setup'
    echo '  BEGIN'
    for ((i = 0; i < 16; i++)); do
        echo "  INSERT INTO bank.account (id, balance) VALUES ($i, 100)"
    done
    echo '  COMMIT'
    for ((c = 1; c <= 8; c++)); do
        echo "client c$c"
        for ((i = 1; i <= $1; i++)); do
            echo '  BEGIN'
            echo "  SELECT balance FROM bank.account WHERE id = $(((c * 7 + i * 3) % 16))"
            echo "  UPDATE bank.account SET balance = $i WHERE id = $(((c * 5 + i * 11) % 16))"
            echo '  COMMIT'
        done
    done
    echo run
    echo 'step 1 66'
    echo rest
}

printf '%12s %8s %8s %9s %8s %9s %13s\n' transactions events recorded conflicts seconds 'peak KiB' 'us per event'
for n in 12 120 1200; do
    script "$n" >"$room/script"
    /usr/bin/time -o "$room/cost" -f '%e %M' "$program" replay <"$room/script" >"$room/report"
    read -r seconds most <"$room/cost"
    events=$(awk 'NR == 2 { print $2 }' "$room/report")
    recorded=$(awk '$1 == "order" { print $2 }' "$room/report")
    conflicts=$(grep -c ' conflict ' "$room/report" || true)
    each=$(awk "BEGIN { printf \"%.1f\", ${seconds}e6 / $events }")
    printf '%12d %8d %8d %9d %8s %9d %13s\n' "$((8 * n + 1))" "$events" "$recorded" "$conflicts" "$seconds" "$most" "$each"
done
