#!/bin/bash
# Hands the built program the largest input that it reads, and one with a byte more.
#
# An input has at most 67,108,864 bytes. So many LFs are read and refused at their first line, where no LF may come; one more is refused at
# the first byte past the limit, before any line is read. Each line says what holds; the first that doesn't ends the script with 1.
#
# Build the program first: cd crates/scalardb && rt run -- replay < ../../examples/first.script
# Another program may be given as the first word.
set -eu
root=$(cd "$(dirname "$0")/.." && pwd)
program=${1:-$root/crates/scalardb/out/scalardb}
room=$(mktemp -d)
trap 'rm -rf "$room"' EXIT

# Plays so many LFs, and tests the exit status and the line on standard error; nothing is written.
ends() {
    local bytes=$1 status=$2 line=$3 came=0
    head -c "$bytes" /dev/zero | tr '\0' '\n' | "$program" replay >"$room/output" 2>"$room/error" || came=$?
    if [ "$came" -ne "$status" ] || [ -s "$room/output" ] || [ "$(cat "$room/error")" != "$line" ]; then
        echo "fails: $bytes bytes: $came, $(cat "$room/error")"
        exit 1
    fi
    echo "holds: $bytes bytes: $line"
}

ends 67108864 3 'bad input at 1'
ends 67108865 10 'limit at 67108865: InputBytes'
