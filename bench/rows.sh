#!/bin/bash
# Plays worked scripts, and compares what is written with their reports.
#
# Each *.script of a folder, the first word, is played, and what the program writes has to be its *.report byte for byte, with exit
# status 0. One that differs is named, with the exit status and the line on standard error, or the first line that differs. Then
# the numbers are printed. Without a word the folder is bench/rows, whose reports two programs apart from this one wrote.
#
# Build the program first: cd crates/scalardb && rt run -- replay < ../../examples/first.script
# Another program may be given as the second word.
set -eu
shopt -s nullglob
root=$(cd "$(dirname "$0")/.." && pwd)
folder=${1:-$root/bench/rows}
program=${2:-$root/crates/scalardb/out/scalardb}
room=$(mktemp -d)
trap 'rm -rf "$room"' EXIT

# Where a report that was written differs from the one that is wanted.
first_difference() {
    [ -f "$1" ] || { echo "there is no report"; return; }
    cmp "$room/report" "$1" 2>&1 | sed 's/.*, \(line [0-9]*\)$/\1/; s/.*EOF on.*/one ends before the other/' || true
}

same=0
differ=0
for script in "$folder"/*.script; do
    name=$(basename "$script" .script)
    status=0
    "$program" replay <"$script" >"$room/report" 2>"$room/error" || status=$?
    if [ "$status" -eq 0 ] && cmp -s "$room/report" "$folder/$name.report"; then
        same=$((same + 1))
    elif [ "$status" -eq 0 ]; then
        differ=$((differ + 1))
        echo "differs: $name: $(first_difference "$folder/$name.report")"
    else
        differ=$((differ + 1))
        echo "differs: $name: $status, $(head -n 1 "$room/error")"
    fi
done
echo "same: $same, differ: $differ"
