#!/bin/sh
# Tells what `check` takes on large problems and proofs, beside `wc` on the same files: chains of up to 50,000 steps, beside
# Metamath too where its program is installed; as many steps as a proof may have, which all cite the last of as many axioms of one
# name as a problem may have; 200 splits around one another, with steps in each branch; and a million facts, then 60,000 steps
# behind them. Times are those of a processor, the best of three runs, and of 20 where a run is short. Instructions are counted
# where valgrind is installed. What each step costs is told without what the chain of one step takes, and in the last line without
# the million facts. That each proof is accepted is looked at; no time is asserted.
# Build the program first: `./hogbygone` does it. PROGRAM=PATH takes another one.
export LC_ALL=C
here=$(cd "$(dirname "$0")" && pwd)
program=${PROGRAM:-$here/../crates/larus_cli/out/larus_cli}
folder=$(mktemp -d) || exit 1
trap 'rm -rf "$folder"' EXIT
cd "$folder" || exit 1

# The instructions of a command, or 0.
instructions() {
    command -v valgrind >/dev/null || { echo 0; return; }
    valgrind --tool=cachegrind --cache-sim=no --cachegrind-out-file=/dev/null "$@" 2>&1 >/dev/null |
        awk '/I +refs:/ { gsub(",", "", $NF); print $NF }'
}

# The nanoseconds, bytes and instructions of a command that is run so often: took RUNS COMMAND.. What it prints is in `out`.
took() {
    "$here/took" "$@" || return
    shift
    instructions "$@"
}

# Checks a proof so often, and looks at its size: check PROBLEM PROOF SIZE RUNS. What it took is left in `check`.
check() {
    check=$(took "$4" "$program" check "$1" "$2") && [ "$(cat out)" = "accepted $3" ] && return
    echo "check $1 $2: $(cat out)" >&2
    exit 1
}

# A line of the table: what was run, what that took, what wc took, what is left out, and the number of steps.
row() {
    echo $2 $3 $4 "$5" | awk -v name="$1" '{
        each = $3 ? sprintf("%.0f", ($3 - $9) / $10) : "-"
        printf "%-34s %9.4f %8.1f %9.2f %13s %6.0f\n", name, $1 / 1e9, $1 / $4, ($1 - $7) / $10 / 1e3, each, $2 / 1e6
    }'
}

# The line of a proof of this size: tell PROBLEM PROOF SIZE RUNS NAME [PARTS].
tell() {
    check "$1.p" "$2.v" "$3" "$4"
    count=$(took 20 wc "$1.p" "$2.v") || exit 1
    row "$5" "$check" "$count" "$less" "${6:-$3}"
}

# The line of Metamath and the chain: tell_metamath SIZE RUNS.
tell_metamath() {
    if ! command -v metamath >/dev/null; then
        echo "  metamath is not installed"
        return
    fi
    other=$(took "$2" metamath 'read chain.mm' 'verify proof *' exit) || exit 1
    grep -q '^All proofs in the database were verified' out || exit 1
    row "  metamath on the same chain" "$other" "$count" "$less_other" "$1"
}

# 65,535 axioms of one name, and as many steps that cite the last one.
write_cited() {
    awk 'BEGIN {
        for (i = 1; i <= 65535; i++) printf "fof(a,axiom,p%d(c)).\n", i
        print "fof(g,conjecture,p65535(c))."
    }' >cited.p
    awk 'BEGIN {
        print "vernacular 1.\ntake []."
        for (i = 1; i <= 65535; i++) print "mp a:65535 [] new [] gives p65535(c)."
        print "as 1 []."
    }' >cited.v
}

# 200 splits, each in the first case of the one before. Each case begins with 160 steps that add an element and a fact each.
write_nested() {
    cat >nested.p <<'END'
fof(some,axiom,p(c) | q(c)).
fof(next,axiom,! [X] : ? [Y] : r(X,Y)).
fof(g,conjecture,? [X] : r(c,X)).
END
    awk 'function steps(level, letter,    i, at, new) {
        at = "c"
        for (i = 1; i <= 160; i++) {
            new = letter level "_" i
            printf "mp next [%s] new [%s] gives r(%s,%s).\n", at, new, at, new
            at = new
        }
    }
    BEGIN {
        print "vernacular 1.\ntake [].\nmp some [] new [] gives p(c) | q(c)."
        for (level = 1; level <= 200; level++) { print "cs 1.\ncase p(c)."; steps(level, "v") }
        print "as 1 [v1_1]."
        for (level = 200; level >= 1; level--) {
            print "case q(c)."
            steps(level, "w")
            print "as 1 [w" level "_1].\nend."
        }
    }' >nested.v
}

# 1,000 steps that add 1,024 facts and an element each. `further.v` has 60,000 steps more, each with a new fact.
write_wide() {
    awk 'BEGIN {
        printf "fof(all,axiom,! [X] : ? [Y] : (p1(X,Y)"
        for (i = 2; i <= 1024; i++) printf " & p%d(X,Y)", i
        print "))."
        for (i = 1; i <= 60; i++) printf "fof(turn%d,axiom,! [X,Y] : (p%d(X,Y) => p%d(Y,X))).\n", i, i, i
        print "fof(g,conjecture,? [X] : p1(c,X))."
    }' >wide.p
    awk 'BEGIN {
        print "vernacular 2.\ntake [].\nmp all with [X = c] new [w1]."
        for (i = 2; i <= 1000; i++) printf "mp all with [X = w%d] new [w%d].\n", i - 1, i
    }' >wide.v
    awk '{ print } END {
        for (i = 1; i <= 60; i++) {
            printf "mp turn%d with [X = c,Y = w1] new [].\n", i
            for (j = 2; j <= 1000; j++) printf "mp turn%d with [X = w%d,Y = w%d] new [].\n", i, j - 1, j
        }
        print "as 1 [w1]."
    }' wide.v >further.v
    echo "as 1 [w1]." >>wide.v
}

echo "                                     seconds times wc   us each  instructions     MB"
less="0 0 0" less_other="0 0 0"
for steps in 1 2000 10000 50000; do
    "$here/chain" "$steps" . || exit 1
    runs=$((steps < 50000 ? 20 : 3))
    tell chain chain $((steps + 2)) "$runs" "chain of $steps"
    tell_metamath $((steps + 2)) "$runs"
    [ "$steps" -gt 1 ] || less=$check less_other=$other
done
write_cited && tell cited cited 65536 3 "65535 steps citing the last form"
write_nested && tell nested nested 64402 3 "64000 steps in 200 splits"
write_wide && tell wide wide 1001 3 "1024000 facts in 1000 steps" 1024000
less=$check
tell wide further 61001 3 "60000 steps more behind them" 60000
