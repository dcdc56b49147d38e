#!/bin/bash
# Reads and prints statements of 1 KB and of 64 KB, as many bytes in all, and prints the time of each.
#
# Needs GNU time. Build the program first: cd crates/bench_parts && rt run -- statements 'SELECT n FROM shop.item' 2
# Another program may be given as the first word.
set -eu
root=$(cd "$(dirname "$0")/.." && pwd)
program=${1:-$root/crates/bench_parts/out/bench_parts}
room=$(mktemp -d)
trap 'rm -rf "$room"' EXIT

# So many names, or numbers, with commas between.
listed() {
    seq -f "$2" -s ', ' 1 "$1"
}

# An INSERT of so many columns.
insert() {
    echo -n "INSERT INTO shop.item ($(listed "$1" 'c%g')) VALUES ($(listed "$1" '%g'))"
}

# A SELECT of so many tests.
select_tests() {
    echo -n "SELECT * FROM shop.item WHERE $(seq 1 "$1" | awk '{ printf "%sc%d >= %d", (NR > 1 ? " AND " : ""), $1, $1 }')"
}

# An UPDATE that sets a text of so many bytes.
update_text() {
    echo -n "UPDATE shop.item SET note = '$(printf 'x%.0s' $(seq 1 "$1"))'"
}

timed() {
    /usr/bin/time -o "$room/cost" -f '%e' "$program" statements "$(cat "$1")" "$2" >/dev/null
    cat "$room/cost"
}

printf '%16s %8s %8s %10s %10s\n' statement small large 'small, s' 'large, s'
for shape in insert:109:5100 select_tests:66:3300 update_text:985:65500; do
    IFS=: read -r name small large <<<"$shape"
    $name "$small" >"$room/small"
    $name "$large" >"$room/large"
    printf '%16s %8d %8d %10s %10s\n' "$name" "$(stat -c %s "$room/small")" "$(stat -c %s "$room/large")" "$(timed "$room/small" 6400)" "$(timed "$room/large" 100)"
done
