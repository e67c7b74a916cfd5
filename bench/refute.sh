#!/bin/sh
# Tells what `refute` takes on the problems of the folder countermodels/, beside clingo, which Debian's package gringo has. NAME.lp is
# a translation of NAME.p by hand, with `n` for the number of elements, and is solved for 1, 2, .. elements in turn, as `refute` goes.
# A line of the table has the problem; the number of elements of a least countermodel, or `none` up to the bound; the seconds of a
# processor that each takes, the best of three runs; and their ratio. That both answer the same, and that each structure which
# `refute` prints is confirmed, is looked at; no time is asserted.
# Build the program first: `./hogbygone` does it. PROGRAM=PATH takes another one.
export LC_ALL=C
here=$(cd "$(dirname "$0")" && pwd)
export PROGRAM=${PROGRAM:-$here/../crates/larus_cli/out/larus_cli}
command -v clingo >/dev/null || { echo "clingo is missing: Debian's package gringo has it" >&2; exit 1; }
folder=$(mktemp -d) || exit 1
trap 'rm -rf "$folder"' EXIT
cd "$folder" || exit 1

# Seeks a countermodel of NAME.p with at most so many elements; that there is none is no failure.
cat >seek <<'END'
"$PROGRAM" refute "$1.p" "$2"
[ $? -le 1 ]
END

# Solves NAME.lp for 1, 2, .. elements, at most so many, and prints the answer as `refute` begins its own.
cat >climb <<'END'
at=1
while [ "$at" -le "$2" ]; do
    clingo -V0 -c n=$at "$1.lp" >/dev/null
    case $? in
        10 | 30) echo "size $at."; exit 0 ;;
        20) at=$((at + 1)) ;;
        *) exit 1 ;;
    esac
done
echo "none up to $2"
END

# The nanoseconds and bytes of memory of a script above: took SCRIPT NAME SIZE. What it prints is in `out`.
took() {
    "$here/took" 3 sh "$@" || { echo "$*: failed" >&2; exit 1; }
}

# The answer in `out`: a number of elements, or `none`.
answer() {
    sed -n 's/^size \([0-9]*\)\.$/\1/p; s/^none up to .*/none/p' out
}

# A line of the table: tell NAME SIZE.
tell() {
    cp "$here/countermodels/$1.p" "$here/countermodels/$1.lp" .
    ours=$(took seek "$1" "$2") || exit 1
    size=$(answer)
    if [ "$size" != none ]; then
        cp out found
        said=$("$PROGRAM" confirm "$1.p" found)
        [ "$said" = "countermodel $size" ] || { echo "$1: confirm of what was found: $said" >&2; exit 1; }
    fi
    theirs=$(took climb "$1" "$2") || exit 1
    [ "$(answer)" = "$size" ] || { echo "$1: refute answers $size, clingo $(answer)" >&2; exit 1; }
    echo $ours $theirs | awk -v name="$1" -v size="$size" \
        '{ printf "%-12s %5s %9.3f %9.3f %8.2f\n", name, size, $1 / 1e9, $3 / 1e9, $1 / $3 }'
}

echo "problem       size    refute    clingo    ratio"
tell group 8
tell loop 8
tell lattice 8
tell girth 8
tell triples 8
tell pasch 8
tell points 5
tell endless 8
tell directed 8
