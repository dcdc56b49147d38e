#!/bin/bash
# Plays scripts whose cost was once quadratic, each at three sizes that double, and prints the time of each, and where valgrind is there
# the instructions too:
#
#   spans     one transaction that scans so many partitions, each once
#   rescans   one transaction that scans so many partitions and writes a row to each, so that its COMMIT scans all of them again
#   tables    so many partitions of one table of the store `hashed`, and two hundred scans of the whole of another table there
#
# Needs GNU time. Build the program first: cd crates/scalardb && rt run -- replay < ../../examples/first.script
# Another program may be given as the first word.
set -eu
root=$(cd "$(dirname "$0")/.." && pwd)
program=${1:-$root/crates/scalardb/out/scalardb}
room=$(mktemp -d)
trap 'rm -rf "$room"' EXIT

schema='schema {"shop.item":{"partition-key":["cat"],"clustering-key":["n"],"columns":{"cat":"INT","n":"INT","qty":"INT"}},"shop.few":{"partition-key":["id"],"columns":{"id":"INT","qty":"INT"}}}'

spans() {
    echo "$schema"
    echo 'client c1'
    echo '  BEGIN'
    for ((i = 1; i <= $1; i++)); do
        echo "  SELECT * FROM shop.item WHERE cat = $i"
    done
    echo '  COMMIT'
}

rescans() {
    echo "$schema"
    echo 'client c1'
    echo '  BEGIN'
    for ((i = 1; i <= $1; i++)); do
        echo "  SELECT * FROM shop.item WHERE cat = $i"
        echo "  INSERT INTO shop.item (cat, n, qty) VALUES ($i, 1, 100)"
    done
    echo '  COMMIT'
}

tables() {
    echo 'place coordinator ordered'
    echo 'place shop hashed'
    echo "$schema"
    echo 'client c1'
    echo '  BEGIN'
    for ((i = 1; i <= $1; i++)); do
        echo "  INSERT INTO shop.item (cat, n, qty) VALUES ($i, 1, 100)"
    done
    echo '  COMMIT'
    for ((i = 1; i <= 200; i++)); do
        echo '  BEGIN'
        echo '  SELECT * FROM shop.few'
        echo '  COMMIT'
    done
}

# The instructions that the program takes for a script, and a dash without valgrind.
instructions() {
    if command -v valgrind >/dev/null; then
        valgrind --tool=callgrind --callgrind-out-file=/dev/null "$program" replay <"$1" 2>&1 >/dev/null | awk '/Collected/ { printf "%.0f", $NF / 1000000 }'
    else
        echo -
    fi
}

printf '%-8s %6s %8s %8s %16s\n' script size events seconds 'M instructions'
for kind in spans rescans tables; do
    for n in 1000 2000 4000; do
        { "$kind" "$n" && echo run && echo rest; } >"$room/script"
        /usr/bin/time -o "$room/cost" -f '%U' "$program" replay <"$room/script" >"$room/report"
        read -r seconds <"$room/cost"
        events=$(awk 'NR == 2 { print $2 }' "$room/report")
        printf '%-8s %6d %8d %8s %16s\n' "$kind" "$n" "$events" "$seconds" "$(instructions "$room/script")"
    done
done
