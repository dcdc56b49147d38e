#!/bin/bash
# Loads and exports tables with the built program, over databases in files, and times it.
#
# For each number of rows (1,000, 10,000 and 100,000, or those given as words after the program) a CSV of that many rows is loaded into a new
# file, 1,000 rows a transaction, exported, and what is exported is loaded into another new file and exported again: both exports have to be
# the same bytes, and the first CSV in the order of the key. Each line has the seconds and the greatest memory in KiB of the first load and
# the first export; the last line of each number has the seconds of the shell of SQLite for one INSERT a row in one transaction, where it
# is installed.
#
# Build the program first: cd crates/scalardb && rt run -- replay < ../../examples/first.script
# Another program may be given as the first word.
set -eu
root=$(cd "$(dirname "$0")/.." && pwd)
program=${1:-$root/crates/scalardb/out/scalardb}
shift || true
sizes=${*:-1000 10000 100000}
room=$(mktemp -d)
trap 'rm -rf "$room"' EXIT

schema='{"shop.orders":{"partition-key":["customer"],"clustering-key":["placed"],"columns":{"customer":"INT","placed":"BIGINT","note":"TEXT"}}}'

# So many rows, ten to a customer, by the order of the key.
rows() {
    awk -v n="$1" 'BEGIN { print "customer,note,placed"; for (i = 0; i < n; i++) printf "%d,note %d,%d\n", i / 10, i, i % 10 }'
}

# Runs the program over a file, and prints its seconds and its memory.
timed() {
    local said=$1 file=$2 input=$3 output=$4
    shift 4
    SCALARDB_FILE=$file /usr/bin/time -f "$said: %e s, %M KiB" "$program" "$@" <"$input" >"$output" 2>"$room/time"
    cat "$room/time"
}

for size in $sizes; do
    rows "$size" >"$room/rows.csv"
    for file in first second; do
        SCALARDB_FILE=$room/$file.db "$program" schema <<<"$schema" >/dev/null
    done
    timed "load $size" "$room/first.db" "$room/rows.csv" "$room/loaded" load shop.orders insert 1000
    timed "export $size" "$room/first.db" /dev/null "$room/first.csv" export shop.orders
    timed "load it again" "$room/second.db" "$room/first.csv" "$room/reloaded" load shop.orders upsert 1000
    timed "export it again" "$room/second.db" /dev/null "$room/second.csv" export shop.orders
    cmp "$room/rows.csv" "$room/first.csv"
    cmp "$room/first.csv" "$room/second.csv"
    [ "$(grep -c ' committed$' "$room/loaded")" -eq $(((size + 999) / 1000)) ]
    if command -v sqlite3 >/dev/null; then
        awk -F, 'BEGIN { print "CREATE TABLE orders (customer INT, note TEXT, placed INT, PRIMARY KEY (customer, placed)); BEGIN;" }
            NR > 1 { printf "INSERT INTO orders VALUES (%d, '\''%s'\'', %d);\n", $1, $2, $3 } END { print "COMMIT;" }' "$room/rows.csv" >"$room/rows.sql"
        /usr/bin/time -f "sqlite3 $size: %e s, %M KiB" sqlite3 "$room/plain.db" <"$room/rows.sql" 2>&1
        rm -f "$room/plain.db"
    fi
    rm -f "$room"/*.db*
done
