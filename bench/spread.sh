#!/bin/bash
# Puts 100,000 times in a store over three boxes, where four in five puts go to three partitions that have one home at first, and prints
# how many each box got: where no partition is moved, and where one is after 10,000, 1,000 and 100 calls.
#
# Build the program first: cd crates/bench_parts && rt run -- spread 1000 100000 0
# Another program may be given as the first word.
set -eu
root=$(cd "$(dirname "$0")/.." && pwd)
program=${1:-$root/crates/bench_parts/out/bench_parts}
printf '%8s %8s %8s %8s\n' every 'box 0' 'box 1' 'box 2'
for every in 0 10000 1000 100; do
    printf '%8d %8s %8s %8s\n' "$every" $("$program" spread "$every" 100000 0 spread "$every" 100000 1 spread "$every" 100000 2)
done
