#!/bin/bash
# Retires a database in a file with the built program, over two files, and kills the program half way.
#
# So many rows (20,000, or the number given after the program) are loaded into a table that is kept in the second file, and exported.
# `retire` then moves them to the first file, and is killed several times, each time later. After each kill the table has to be exported as
# before, from the second file, which holds it still. A last `retire` has to finish with all rows, and the table has to be exported as before
# from the first file alone. Each line says what was tested, and its seconds; the first that fails ends the script with 1. Where the shell
# of SQLite is installed, the line of a kill says how many records had been copied, and some kill has to come after some of them.
#
# Build the program first: cd crates/scalardb && rt run -- replay < ../../examples/first.script
# Another program may be given as the first word.
set -eu
root=$(cd "$(dirname "$0")/.." && pwd)
program=${1:-$root/crates/scalardb/out/scalardb}
rows=${2:-20000}
room=$(mktemp -d)
trap 'rm -rf "$room"' EXIT
export SCALARDB_FILE=$room/first.db SCALARDB_FILE2=$room/second.db

fail() {
    echo "fails: $*"
    exit 1
}

# Runs the program on the words and the standard input, and tests its exit status and what it writes, where that is not `any`.
expect() {
    local tested=$1 status=$2 written=$3 came=0 began
    shift 3
    began=$(date +%s.%N)
    "$program" "$@" >"$room/output" 2>"$room/error" || came=$?
    [ "$came" -eq "$status" ] || fail "$tested: $came, $(cat "$room/output" "$room/error" | head -c 300)"
    [ "$written" = any ] || [ "$(cat "$room/output" "$room/error")" = "$written" ] || fail "$tested: $(cat "$room/output" "$room/error" | head -c 300)"
    awk -v tested="$tested" -v began="$began" -v ended="$(date +%s.%N)" 'BEGIN { printf "holds: %s, %.2f s\n", tested, ended - began }'
}

# The table is exported as it was before.
exports_the_same() {
    expect "$1" 0 any export shop.orders </dev/null
    cmp -s "$room/before.csv" "$room/output" || fail "$1: other rows"
}

# How many records of the table the first file holds.
copied() {
    sqlite3 "$SCALARDB_FILE" "SELECT count(*) FROM records WHERE t = 'shop.orders'"
}

# Kills the program so many seconds after it began to move the rows.
killed_after() {
    local came=0 count runs
    "$program" retire file2 file </dev/null >"$room/output" 2>"$room/error" &
    runs=$!
    sleep "$1"
    kill -KILL "$runs" 2>/dev/null || true
    wait "$runs" 2>/dev/null || came=$?
    [ "$came" -eq 137 ] || fail "killed after $1 s: $came, $(cat "$room/output" "$room/error")"
    if command -v sqlite3 >/dev/null; then
        count=$(copied)
        [ "$count" -le 0 ] || [ "$count" -ge "$rows" ] || parts=$((parts + 1))
        echo "holds: killed after $1 s, with $count records copied"
    else
        echo "holds: killed after $1 s"
    fi
}

schema='{"shop.orders":{"partition-key":["customer"],"clustering-key":["placed"],"columns":{"customer":"INT","placed":"BIGINT","note":"TEXT"}}}'
awk -v n="$rows" 'BEGIN { print "customer,note,placed"; for (i = 0; i < n; i++) printf "%d,note %d,%d\n", i / 10, i, i % 10 }' >"$room/rows.csv"

expect 'a schema is created over two files' 0 $'created coordinator.state\ncreated shop.orders' schema shop=file2 <<<"$schema"
expect "$rows rows are loaded into the second" 0 any load shop.orders insert 1000 <"$room/rows.csv"
cp "$room/rows.csv" "$room/before.csv"
exports_the_same 'they are exported'
expect 'the first store is not retired' 2 any retire file file2 </dev/null

parts=0
for seconds in 1 2 3; do
    killed_after "$seconds"
    exports_the_same 'the rows are there still'
done
if command -v sqlite3 >/dev/null; then
    [ "$parts" -gt 0 ] || fail "no kill came half way: try another number of rows"
fi
expect 'the last call finishes' 0 "moved $rows" retire file2 file </dev/null
exports_the_same 'the rows are there'
expect 'nothing is left to move' 0 'moved 0' retire file2 file </dev/null
unset SCALARDB_FILE2
exports_the_same 'they are in the first file'
expect 'the second file is no store any more' 2 any retire file2 file </dev/null
SCALARDB_FILE2=$room expect 'a second file that is a folder is refused' 14 'no database' schema </dev/null
SCALARDB_FILE='' SCALARDB_FILE2=$room/second.db expect 'an empty path is refused' 14 'no database' schema </dev/null
unset SCALARDB_FILE
SCALARDB_FILE2=$room/second.db expect 'a second file without a first is passed over' 2 any retire file2 ordered </dev/null
