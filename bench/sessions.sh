#!/bin/bash
# Times sessions of more and more lines over a database in a file, each in a file of its own.
#
# A transaction is four lines: BEGIN, an UPSERT of one of a hundred accounts, a SELECT of another one, and COMMIT. For each number of lines
# it prints the seconds and the most memory, and tests that each line was answered by one line and that each COMMIT was answered committed.
#
# Build the program first: cd crates/scalardb && rt run -- replay < ../../examples/first.script
# The first word may be another program, the others the numbers of lines.
set -eu
root=$(cd "$(dirname "$0")/.." && pwd)
program=${1:-$root/crates/scalardb/out/scalardb}
shift || true
room=$(mktemp -d)
trap 'rm -rf "$room"' EXIT
for lines in "${@:-10000}"; do
    rm -f "$room"/*
    export SCALARDB_FILE=$room/kept.db
    "$program" schema >/dev/null <<<'{"bank.account":{"partition-key":["id"],"columns":{"id":"INT","balance":"INT"}}}'
    awk -v n=$((lines / 4)) 'BEGIN { for (i = 0; i < n; i++) printf "BEGIN\nUPSERT INTO bank.account (id, balance) VALUES (%d, %d)\nSELECT balance FROM bank.account WHERE id = %d\nCOMMIT\n", i % 100, i, (i * 7) % 100 }' >"$room/lines"
    /usr/bin/time -f "%e %U %S %M" -o "$room/time" "$program" sql <"$room/lines" >"$room/answers"
    [ "$(wc -l <"$room/answers")" -eq $((lines / 4 * 4)) ] && [ "$(grep -c '^committed$' "$room/answers")" -eq $((lines / 4)) ] || {
        echo "fails: $lines lines"
        exit 1
    }
    read -r elapsed user system memory <"$room/time"
    echo "lines $lines elapsed $elapsed user $user system $system KiB $memory"
done
