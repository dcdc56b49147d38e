#!/bin/bash
# Plays one script over each choice of the four stores for two namespaces and the coordinator's, and compares the reports.
#
# A report is the same wherever its tables are kept, but for the names of the stores in its calls. A choice whose report is another one is
# named; then the numbers are printed.
#
# Build the program first: cd crates/scalardb && rt run -- replay < ../../examples/first.script
# Another program may be given as the first word.
set -eu
root=$(cd "$(dirname "$0")/.." && pwd)
program=${1:-$root/crates/scalardb/out/scalardb}
room=$(mktemp -d)
trap 'rm -rf "$room"' EXIT

# The report of the script over these stores, without their names.
report() {
    "$program" replay <<EOF | sed -E 's/^([0-9]+ call [0-9]+) [a-z]+ /\1 /'
place bank $1
place shop $2
place coordinator $3
schema {"bank.account":{"partition-key":["id"],"columns":{"id":"INT","balance":"INT"}},"shop.item":{"partition-key":["cat"],"clustering-key":["n"],"columns":{"cat":"INT","n":"INT","qty":"INT"}}}
client ann
  BEGIN
  INSERT INTO bank.account (id, balance) VALUES (1, 100)
  INSERT INTO shop.item (cat, n, qty) VALUES (1, 9, 5)
  SELECT * FROM bank.account
  SELECT * FROM shop.item
  COMMIT
run
rest
EOF
}

report hashed ordered sqlite >"$room/first"
same=0
differ=0
for bank in ordered hashed sqlite sharded; do
    for shop in ordered hashed sqlite sharded; do
        for coordinator in ordered hashed sqlite sharded; do
            if report "$bank" "$shop" "$coordinator" | cmp -s - "$room/first"; then
                same=$((same + 1))
            else
                differ=$((differ + 1))
                echo "differs: $bank $shop $coordinator"
            fi
        done
    done
done
echo "same: $same, differ: $differ"
