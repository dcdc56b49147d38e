#!/bin/bash
# Plays scripts of 250, 1,000 and 3,300 transactions of one client, first ones that get single rows and then ones that scan, on each of
# the stores, and prints the time and the peak memory of each, and where valgrind is there the instructions too. A client has six
# statements a transaction, and 20,000 at most. All rows are in one store, those of the coordinator too.
#
# Needs GNU time. Build the program first: cd crates/scalardb && rt run -- replay < ../../examples/first.script
# Another program may be given as the first word.
set -eu
root=$(cd "$(dirname "$0")/.." && pwd)
program=${1:-$root/crates/scalardb/out/scalardb}
room=$(mktemp -d)
trap 'rm -rf "$room"' EXIT

# The places of the script's namespaces, all in one store.
places() {
    echo "place coordinator $1"
    echo "place bank $1"
    echo "place shop $1"
}

# A script of so many transactions, each with two INSERTs, one of them of a row that is there, and two SELECTs.
gets() {
    echo 'schema {"bank.account":{"partition-key":["id"],"columns":{"id":"INT","balance":"INT"}}}'
    echo 'client c1'
    for ((i = 1; i <= $1; i++)); do
        echo '  BEGIN'
        echo "  INSERT INTO bank.account (id, balance) VALUES ($i, 100)"
        echo "  INSERT INTO bank.account (id, balance) VALUES ($((i / 2 + 1)), 100)"
        echo "  SELECT balance FROM bank.account WHERE id = $i"
        echo "  SELECT balance FROM bank.account WHERE id = $((i / 3 + 1))"
        echo '  COMMIT'
    done
    echo run
    echo rest
}

# A script of so many transactions, each with two INSERTs into a category of its own, and two SELECTs of whole categories.
scans() {
    echo 'schema {"shop.item":{"partition-key":["cat"],"clustering-key":["n"],"columns":{"cat":"INT","n":"INT","qty":"INT"}}}'
    echo 'client c1'
    for ((i = 1; i <= $1; i++)); do
        echo '  BEGIN'
        echo "  INSERT INTO shop.item (cat, n, qty) VALUES ($i, 1, 100)"
        echo "  INSERT INTO shop.item (cat, n, qty) VALUES ($i, 2, 100)"
        echo "  SELECT * FROM shop.item WHERE cat = $i"
        echo "  SELECT * FROM shop.item WHERE cat = $((i / 2))"
        echo '  COMMIT'
    done
    echo run
    echo rest
}

# The instructions that the program takes for a script, and a dash without valgrind.
instructions() {
    if command -v valgrind >/dev/null; then
        valgrind --tool=callgrind --callgrind-out-file=/dev/null "$program" replay <"$1" 2>&1 >/dev/null | awk '/Collected/ { print $NF }'
    else
        echo -
    fi
}

# A sum over the events.
each() {
    if [ "$1" = - ]; then echo -; else awk "BEGIN { printf \"%.$3f\", $1 / $2 }"; fi
}

printf '%-7s %-6s %12s %8s %8s %9s %13s %14s %18s\n' store script transactions events seconds 'peak KiB' 'us per event' instructions 'instr. per event'
for store in ordered hashed sqlite sharded; do
    for kind in gets scans; do
        for n in 250 1000 3300; do
            { places "$store" && "$kind" "$n"; } >"$room/script"
            /usr/bin/time -o "$room/cost" -f '%e %M' "$program" replay <"$room/script" >"$room/report"
            read -r seconds most <"$room/cost"
            events=$(awk 'NR == 2 { print $2 }' "$room/report")
            count=$(instructions "$room/script")
            printf '%-7s %-6s %12d %8d %8s %9d %13s %14s %18s\n' "$store" "$kind" "$n" "$events" "$seconds" "$most" "$(each "${seconds}e6" "$events" 1)" "$count" "$(each "$count" "$events" 0)"
        done
    done
done
