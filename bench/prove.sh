#!/bin/sh
# Tells what `prove` takes on each problem of a folder: prove.sh FOLDER SECONDS [MOST]. The problems are the files whose
# names end in `.p`; what they include is looked for in the folder. A line of the table has the problem; the number of
# rule applications of a smallest proof, `none` where no proof has MOST or fewer (200 where that is not told), or `-`
# where a run was stopped after so many seconds of a processor, or failed; and the seconds of a processor that the run
# took for itself. At the end it tells how many problems were decided. That each proof which is found is accepted is
# looked at, by `check`; no time is asserted.
# Build the program first: `./hogbygone` does it. PROGRAM=PATH takes another one.
export LC_ALL=C
here=$(cd "$(dirname "$0")" && pwd)
program=${PROGRAM:-$here/../crates/larus_cli/out/larus_cli}
limit=$2 most=${3:-200}
if [ ! -d "$1" ] || ! [ "$limit" -gt 0 ] 2>/dev/null; then
    echo "words: prove.sh FOLDER SECONDS [MOST]" >&2
    exit 1
fi
work=$(mktemp -d) || exit 1
trap 'rm -rf "$work"' EXIT
cd "$1" || exit 1

# Seeks a proof of a problem. How the run ended is left in `status`, and what it took in `seconds`.
prove() {
    times >"$work/before"
    { (ulimit -t "$limit" && exec "$program" prove "$1" "$most" >"$work/out"); } 2>"$work/errs"
    status=$?
    times >"$work/after"
    seconds=$(awk 'FNR == 2 { split($1, parts, /[ms]/); last = now; now = parts[1] * 60 + parts[2] }
        END { printf "%.2f", now - last }' "$work/before" "$work/after")
}

# What a run answered: `size`, and whether that decides the problem. Ends the script where a proof is not accepted.
read_answer() {
    size=-
    case $status in
        0)
            size=$("$program" check "$1" "$work/out")
            case $size in
                "accepted "*) size=${size#accepted } ;;
                *)
                    echo "$1: check of the proof that was found: $size" >&2
                    exit 1
                    ;;
            esac
            ;;
        1) size=none ;;
        137 | 152) ;; # stopped by the limit
        *) echo "$1: ended with $status: $(cat "$work/errs")" >&2 ;;
    esac
}

count=0 decided=0
printf '%-28s %6s %9s\n' problem size seconds
for problem in *.p; do
    [ -f "$problem" ] || continue
    prove "$problem"
    read_answer "$problem"
    printf '%-28s %6s %9s\n' "${problem%.p}" "$size" "$seconds"
    count=$((count + 1))
    [ "$size" = - ] || decided=$((decided + 1))
done
echo "$decided of $count problems decided"
