#!/bin/sh
# Tells how many facts of one symbol a store adds and takes back, and how many it looks up, in a second, for 10,000, 100,000
# and 1,000,000 of them. Neither number may fall with the number of facts, but for what the caches of the machine cost. Nothing is
# asserted.
# Build the program first: `rt run` in crates/benchmarks.
program="$(dirname "$0")/../crates/benchmarks/out/benchmarks"
took() {
    start=$(date +%s%N)
    "$program" facts "$@" >/dev/null || exit 1
    echo $(($(date +%s%N) - start))
}
for facts in 10000 100000 1000000; do
    once=$(took "$facts" 1 0)
    fills=$(took "$facts" 6 0)
    finds=$(took "$facts" 1 5)
    echo "$facts facts: $((5 * facts * 1000000 / ((fills - once) / 1000 + 1))) added and taken back, $((5 * facts * 1000000 / ((finds - once) / 1000 + 1))) looked up in a second"
done
