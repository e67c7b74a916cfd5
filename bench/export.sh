#!/bin/sh
# Tells what the chain of 20,000 steps takes to be printed: in the canonical text, in Isar and in English, and read back from its
# Isar text, each as a ratio to `check` of the same proof; and a proof of 40,000 steps whose premises all stand in its first line.
# Times are those of a processor, the best of three runs. That each run ends with 0 and that the Isar text comes back as the
# canonical one is looked at; no time is asserted.
# Build the program first: `./hogbygone` does it. PROGRAM=PATH takes another one.
export LC_ALL=C
here=$(cd "$(dirname "$0")" && pwd)
program=${PROGRAM:-$here/../crates/larus_cli/out/larus_cli}
folder=$(mktemp -d) || exit 1
trap 'rm -rf "$folder"' EXIT
cd "$folder" || exit 1

# The nanoseconds and bytes of memory of a command of the program: took COMMAND.. What it prints is in `out`.
took() {
    "$here/took" 3 "$program" "$@" || { echo "$*: failed" >&2; exit 1; }
}

# A line of the table: what was run, what that took, and what the check took.
row() {
    echo $2 $3 | awk -v name="$1" '{ printf "%-30s %9.4f %10.2f %6.0f\n", name, $1 / 1e9, $1 / $3, $2 / 1e6 }'
}

# The lines of a proof: tell NAME TITLE. Its files are NAME.p and NAME.v.
tell() {
    check=$(took check "$1.p" "$1.v") || exit 1
    row "$2: check" "$check" "$check"
    canonical=$(took convert vernacular "$1.p" "$1.v") || exit 1
    cp out canonical
    row "  convert vernacular" "$canonical" "$check"
    isar=$(took export isar "$1.p" "$1.v") || exit 1
    cp out isar
    row "  export isar" "$isar" "$check"
    back=$(took convert isar "$1.p" isar) || exit 1
    cmp -s out canonical || { echo "$1: another proof came back" >&2; exit 1; }
    row "  convert isar of it" "$back" "$check"
    english=$(took export english "$1.p" "$1.v") || exit 1
    row "  export english" "$english" "$check"
}

# 40,000 steps, each with the one premise of line 0.
write_first() {
    awk 'BEGIN {
        print "fof(a,axiom,! [X] : (p(X) => q(X)))."
        print "fof(g,conjecture,! [X] : (p(X) => q(X)))."
    }' >first.p
    awk 'BEGIN {
        print "vernacular 1.\ntake [x]."
        for (i = 1; i <= 40000; i++) print "mp a [x] new [] gives q(x)."
        print "as 1 []."
    }' >first.v
}

echo "                                 seconds times check     MB"
"$here/chain" 20000 . || exit 1
tell chain "chain of 20000"
write_first
tell first "40000 uses of line 0"
