#!/bin/sh
# Tells how long the calls of `Proof` take on a tree with as many rule applications as a proof may have, and on one
# with as many splits within one another. A round reads the nodes, copies the proof, lists its nodes and reads them
# again, for both trees. Nothing is asserted.
# Build the program first: `rt run` in crates/benchmarks.
program="$(dirname "$0")/../crates/benchmarks/out/benchmarks"
rounds="${1:-50}"
start=$(date +%s%N)
"$program" trees 1 > /dev/null || exit 1
middle=$(date +%s%N)
"$program" trees "$((rounds + 1))" || exit 1
end=$(date +%s%N)
echo "a round: $(((end - middle - (middle - start)) / rounds / 1000)) microseconds"
