#!/bin/bash
# Runs the built program over a database in a file, one process after another, and tests what each finds of the one before.
#
# The first `schema` creates the rows of a catalog in the file, the second finds them there, and a third with another definition
# leaves them as they are. A session then writes rows, and another reads them. A path that can't be opened ends the program with 14. Each line says what was tested; the first
# that fails ends the script with 1.
#
# Build the program first: cd crates/scalardb && rt run -- replay < ../../examples/first.script
# Another program may be given as the first word.
set -eu
root=$(cd "$(dirname "$0")/.." && pwd)
program=${1:-$root/crates/scalardb/out/scalardb}
room=$(mktemp -d)
trap 'rm -rf "$room"' EXIT
export SCALARDB_FILE=$room/kept.db

# Runs the program on the words and the standard input, and tests its exit status and what it writes.
expect() {
    local said=$1 status=$2 written=$3 came=0
    shift 3
    "$program" "$@" >"$room/output" 2>"$room/error" || came=$?
    if [ "$came" -ne "$status" ] || [ "$(cat "$room/output" "$room/error")" != "$written" ]; then
        echo "fails: $said: $came, $(cat "$room/output" "$room/error")"
        exit 1
    fi
    echo "holds: $said"
}

schema='{"bank.account":{"partition-key":["id"],"columns":{"id":"INT","balance":"INT"}}}'
other='{"bank.account":{"partition-key":["id"],"columns":{"id":"BIGINT"}}}'

expect 'a schema is created in a new file' 0 $'created bank.account\ncreated coordinator.state' schema <<<"$schema"
expect 'the next process finds it' 0 $'exists bank.account\nexists coordinator.state' schema <<<"$schema"
expect 'another definition changes nothing' 0 $'differs bank.account\nexists coordinator.state' schema <<<"$other"
expect 'it is there still' 0 $'exists bank.account\nexists coordinator.state' schema <<<"$schema"
expect 'the file is a store that a namespace is placed on' 0 $'exists coordinator.state\ncreated shop.item' schema shop=file \
    <<<'{"shop.item":{"partition-key":["id"],"columns":{"id":"INT"}}}'
expect 'a session writes a row' 0 $'done\ncount 1\ncommitted' sql \
    <<<$'BEGIN\nINSERT INTO bank.account (id, balance) VALUES (1, 100)\nCOMMIT'
expect 'the next session finds it, and changes it' 0 $'done\nrows 1 (100)\ncount 1\ncommitted' sql \
    <<<$'BEGIN\nSELECT balance FROM bank.account WHERE id = 1\nUPDATE bank.account SET balance = 70 WHERE id = 1\nCOMMIT'
expect 'a transaction that is left open is rolled back' 0 $'done\ncount 1' sql \
    <<<$'BEGIN\nDELETE FROM bank.account WHERE id = 1'
expect 'so its row is there' 0 $'done\nrows 1 (70)\ncommitted' sql \
    <<<$'BEGIN\nSELECT balance FROM bank.account WHERE id = 1\nCOMMIT'
expect 'a line that is no text stops a session' 3 $'done\nbad input at 2' sql <<<$'BEGIN\n\xff'
SCALARDB_FILE=$room/example.db expect 'the tables of the example are created' 0 $'created bank.account\ncreated coordinator.state' schema \
    <"$root/examples/bank.json"
SCALARDB_FILE=$room/example.db expect 'the session of the example is answered so' 0 "$(cat "$root/examples/session.answers")" sql \
    <"$root/examples/session.sql"
SCALARDB_FILE=$room/none/kept.db expect 'a path that is not there is refused' 14 'no database' schema <<<"$schema"
SCALARDB_FILE=$room expect 'a folder is refused' 14 'no database' schema <<<"$schema"
