#!/bin/bash
# Draws the examples' reports again, and compares the pictures with those in docs/pictures, byte for byte.
#
# One that differs is named, with the exit status and the line on standard error where it isn't drawn. Then the numbers are printed.
# With the word `write` first, the pictures in docs/pictures are written instead.
#
# Build the program first: cd crates/picture && rt run < stdin
# Another program may be given as the last word.
set -eu
shopt -s nullglob
root=$(cd "$(dirname "$0")/.." && pwd)
writes=no
if [ "${1:-}" = write ]; then
    writes=yes
    shift
fi
program=${1:-$root/crates/picture/out/picture}
room=$(mktemp -d)
trap 'rm -rf "$room"' EXIT

same=0
differ=0
for report in "$root"/examples/*.report; do
    name=$(basename "$report" .report)
    kept=$root/docs/pictures/$name.svg
    status=0
    "$program" <"$report" >"$room/picture" 2>"$room/error" || status=$?
    if [ "$status" -ne 0 ]; then
        differ=$((differ + 1))
        echo "differs: $name: $status, $(head -n 1 "$room/error")"
    elif [ "$writes" = yes ]; then
        cp "$room/picture" "$kept"
        same=$((same + 1))
    elif cmp -s "$room/picture" "$kept"; then
        same=$((same + 1))
    else
        differ=$((differ + 1))
        echo "differs: $name"
    fi
done
echo "same: $same, differ: $differ"
[ "$differ" -eq 0 ]
