#!/bin/bash
# Hands the built program inputs that it refuses, one for each cause that docs/USING.md lists, and tests which line or record it names.
#
# Each line says what was refused; the first that isn't ends the script with 1.
#
# Build the program first: cd crates/scalardb && rt run -- replay < ../../examples/first.script
# Another program may be given as the first word.
set -eu
root=$(cd "$(dirname "$0")/.." && pwd)
program=${1:-$root/crates/scalardb/out/scalardb}
room=$(mktemp -d)
trap 'rm -rf "$room"' EXIT

# Runs the program on the words and an input in which printf's escapes stand for bytes, and tests that it is refused at that line.
refused() {
    local at=$1 input=$2 came=0
    shift 2
    printf '%b' "$input" | "$program" "$@" >"$room/output" 2>"$room/error" || came=$?
    if [ "$came" -ne 3 ] || [ "$(cat "$room/output" "$room/error")" != "bad input at $at" ]; then
        echo "fails: $input: $came, $(cat "$room/output" "$room/error")"
        exit 1
    fi
    echo "refused at $at: $(printf '%s' "$input" | head -c 100)"
}

echo '# lines of a script'
refused 1 'runs\n' replay
refused 1 'client\nrun\n' replay
refused 2 'run\nrest now\n' replay
refused 2 'client ann\n BEGIN\nrun\n' replay
refused 2 'client ann\n\tBEGIN\nrun\n' replay
refused 3 'client ann\nrun\nstep 01\n' replay
refused 2 'run\nclock -1\n' replay
refused 2 'client ann\nplace shop ordered\nrun\n' replay
refused 2 'schema {}\nschema {}\nrun\n' replay
refused 1 '  BEGIN\nrun\n' replay
refused 2 'client ann\nstep 1\nrun\n' replay
refused 2 'run\nclient ann\n' replay
refused 1 'client 7up\nrun\n' replay
refused 2 'client ann\nclient ann\nrun\n' replay
refused 2 'client ann\n  \nrun\n' replay
refused 3 'client ann\nrun\nstep 4\n' replay
refused 3 'client ann\nrun\nstep 1 1\n' replay
refused 3 'client ann\nrun\ndelay 4\n' replay
refused 2 'run\nland 0\n' replay
refused 2 'run\nland 200001\n' replay
refused 2 'run\nclock 9007199254740993\n' replay
refused 2 'run\nalter bank.account note\n' replay
refused 2 'run\nalter bank.account note VARCHAR\n' replay
refused 2 'run\nalter account note TEXT\n' replay
refused 2 'run\nalter bank.account 7up TEXT\n' replay
refused 1 'place shop mysql\nrun\n' replay
refused 2 'place shop ordered\nplace shop ordered\nrun\n' replay
refused 1 'place scalardb hashed\nrun\n' replay
refused 1 'schema {"account":{}}\nrun\n' replay
refused 2 'client ann\n  SELECT \xe4\nrun\n' replay
refused 2 'client ann\n' replay

echo '# schemas'
columns='"columns":{"id":"INT","balance":"INT"}'
refused 1 '{"bank.account":' schema
refused 1 '[]' schema
refused 1 '{"account":{"partition-key":["id"],'"$columns"'}}' schema
refused 1 '{"coordinator.x":{"partition-key":["id"],'"$columns"'}}' schema
refused 1 '{"bank.account":{'"$columns"'}}' schema
refused 1 '{"bank.account":{"partition-key":["id"]}}' schema
refused 1 '{"bank.account":{"partition-key":"id",'"$columns"'}}' schema
refused 1 '{"bank.account":{"partition-key":["id"],"clustering-key":["balance UP"],'"$columns"'}}' schema
refused 1 '{"bank.account":{"partition-key":["id"],"columns":{"id":"INTEGER"}}}' schema
refused 1 '{"bank.account":{"transaction":false,"partition-key":["id"],'"$columns"'}}' schema
refused 1 '{"bank.account":{"partition-key":["nr"],'"$columns"'}}' schema
refused 1 '{"bank.account":{"partition-key":["id"],"secondary-index":["nr"],'"$columns"'}}' schema
refused 1 '{"bank.account":{"partition-key":["id","id"],'"$columns"'}}' schema
refused 1 '{"bank.account":{"partition-key":[],'"$columns"'}}' schema
refused 1 '{"bank.account":{"partition-key":["id"],"columns":{"id":"INT","before_id":"INT"}}}' schema
refused 1 '{"bank.account":{"partition-key":["id"],"columns":{"id":"INT","tx_state":"INT"}}}' schema
refused 1 '{"bank.account":{"partition-key":["id"],"columns":{"id":"INT","order no":"INT"}}}' schema

echo '# records of a CSV'
export SCALARDB_FILE=$room/kept.db
"$program" schema >"$room/output" <<<'{"bank.account":{"partition-key":["id"],"columns":{"id":"INT","balance":"INT","owner":"TEXT"}}}'
load() {
    refused "$1" "$2" load bank.account "$3" 10
}
load 1 'id,colour\n1,2\n' insert
load 1 'id,id\n1,2\n' insert
load 1 'balance,owner\n1,ann\n' insert
load 1 'id\n1\n' update
load 2 'id,balance\n1,2,3\n' insert
load 3 'id,balance\n1,2\n2,ten\n' insert
load 2 'id,balance\n1,99999999999\n' insert
load 2 'id,balance\n007,1\n' insert
load 2 'id,balance\n+7,1\n' insert
load 2 'id,balance\n1,\n' insert
load 2 'id,balance\n\\N,1\n' insert
load 2 'id,owner\n1,\\x\n' insert
load 2 'id,owner\n1,\xff\n' insert
load 2 "id,owner\n1,$(head -c 4097 /dev/zero | tr '\0' x)\n" insert
