#!/bin/bash
# Reads scripts and reports back, and prints what large ones take.
#
# Each *.script of a folder, the first word, is read and printed again: the text has to be the same but for the schema line, which is
# printed in its shortest form, and the printed text has to be printed as itself. Each *.report has to be printed as itself. What is
# refused is named. Then a script of 64 MiB and reports of 10,000 and 100,000 events are read, and the time and the most memory printed.
#
# Needs GNU time. Build the program first: cd crates/bench_parts && rt run -- texts script again < stdin
# Another program may be given as the second word.
set -eu
root=$(cd "$(dirname "$0")/.." && pwd)
folder=${1:-$root/examples}
program=${2:-$root/crates/bench_parts/out/bench_parts}
room=$(mktemp -d)
trap 'rm -rf "$room"' EXIT

# The text of standard input printed again, without the number of its bytes after it.
again() {
    "$program" texts "$1" again | head -n -1
}

good=0
for file in "$folder"/*.script; do
    again script <"$file" >"$room/once"
    again script <"$room/once" >"$room/twice"
    if cmp -s "$room/once" "$room/twice" && diff -q <(grep -v '^schema ' "$file") <(grep -v '^schema ' "$room/once") >/dev/null; then
        good=$((good + 1))
    else
        echo "not read back: $(basename "$file"): $(head -c 60 "$room/once" | head -n 1)"
    fi
done
echo "scripts read back: $good"

good=0
for file in "$folder"/*.report; do
    again report <"$file" >"$room/once"
    if cmp -s "$room/once" "$file"; then
        good=$((good + 1))
    else
        echo "not read back: $(basename "$file"): $(head -c 60 "$room/once" | head -n 1)"
    fi
done
echo "reports read back: $good"

timed() {
    /usr/bin/time -o "$room/cost" -f '%e s, %M KiB' "$program" texts "$1" count >"$room/count"
    echo "$(cat "$room/count") in $(cat "$room/cost")"
}

# 64 clients with 14,700 statements of 66 bytes, and 100,000 moves.
awk 'BEGIN {
    for (c = 1; c <= 64; c++) {
        print "client c" c
        for (i = 1; i <= 14700; i++) printf "  INSERT INTO bank.account (id, balance) VALUES (%08d, %09d)\n", i, i
    }
    print "run"
    for (i = 1; i <= 100000; i++) print "step " (i % 64 + 1)
    print "rest"
}' >"$room/script"
echo "moves of a script of $(stat -c %s "$room/script") bytes: $(timed script <"$room/script")"

report() {
    awk -v n="$1" 'BEGIN {
        print "scalardb report 1"
        print "events " n
        for (i = 1; i <= n; i++) {
            if (i % 4 == 1) printf "%d take 1 - : INSERT INTO bank.account (id, balance) VALUES (%d, %d)\n", i, i, i
            if (i % 4 == 2) printf "%d call 1 ordered get bank.account(%d) seen found none count 1\n", i, i
            if (i % 4 == 3) printf "%d take 1 done : BEGIN\n", i
            if (i % 4 == 0) printf "%d clock %d\n", i, i
        }
        print "order 0"
        print "tables 0"
        print "end"
    }'
}
for n in 10000 100000; do
    report "$n" >"$room/report"
    echo "events of a report of $(stat -c %s "$room/report") bytes: $(timed report <"$room/report")"
done
