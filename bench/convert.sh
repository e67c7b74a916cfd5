#!/bin/sh
# Tells how long `convert problem` takes on 4 MB of formulas, beside `cat` on the same file. Prints one run; it is no test.
# Build the program first: `rt run` in crates/larus_cli.
program="$(cd "$(dirname "$0")" && pwd)/../crates/larus_cli/out/larus_cli"
folder=$(mktemp -d) || exit 1
trap 'rm -rf "$folder"' EXIT
awk 'BEGIN { for (i = 0; i < 48000; i++) printf "fof(rule_%d,axiom,! [X,Y] : ((p(X,Y) & q(Y)) => (? [Z] : r(X,Z) | s(a,b)))).\n", i }' > "$folder/x.p"
took() {
    start=$(date +%s%N)
    "$@" > "$folder/out" || exit 1
    echo $(($(date +%s%N) - start))
}
cd "$folder" || exit 1
copy=$(took cat x.p)
convert=$(took "$program" convert problem x.p)
echo "$(wc -c < x.p) bytes, $(wc -c < out) printed: $((convert / 1000)) us, $((convert / copy)) times as long as cat"
