#!/bin/sh
# Lets each allocation of the program fail, one in each run, on small problems and proofs, and tells how the runs ended: how many
# allocations a run makes, how many of the runs ended with 71 and wrote nothing, and how many ended otherwise. A library that is
# loaded before the C library's counts the calls that give memory, and gives none at the one whose number is in FAIL_AT. It proves
# nothing and is no test. A C compiler is needed.
# Build the program first: `./hogbygone` does it. PROGRAM=PATH takes another one.
here=$(cd "$(dirname "$0")" && pwd)
program=${PROGRAM:-$here/../crates/larus_cli/out/larus_cli}
folder=$(mktemp -d) || exit 1
trap 'rm -rf "$folder"' EXIT
cd "$folder" || exit 1

cat >failing.c <<'END'
#define _GNU_SOURCE
#include <dlfcn.h>
#include <errno.h>
#include <stdlib.h>
#include <string.h>

typedef void *(*give)(size_t);
typedef void *(*give_two)(size_t, size_t);
typedef void *(*move)(void *, size_t);

static int fails(void) {
    static unsigned long calls, at;
    if (!at) {
        const char *text = getenv("FAIL_AT");
        at = text ? strtoul(text, 0, 10) : -1ul;
    }
    return ++calls == at;
}

void *malloc(size_t size) {
    static give next;
    if (!next) next = (give)dlsym(RTLD_NEXT, "malloc");
    return fails() ? 0 : next(size);
}

void *realloc(void *old, size_t size) {
    static move next;
    if (!next) next = (move)dlsym(RTLD_NEXT, "realloc");
    return fails() ? 0 : next(old, size);
}

void *aligned_alloc(size_t to, size_t size) {
    static give_two next;
    if (!next) next = (give_two)dlsym(RTLD_NEXT, "aligned_alloc");
    return fails() ? 0 : next(to, size);
}

void *calloc(size_t count, size_t size) {
    void *given = malloc(count * size);
    return given ? memset(given, 0, count * size) : given;
}

int posix_memalign(void **into, size_t to, size_t size) {
    *into = aligned_alloc(to, size);
    return *into ? 0 : ENOMEM;
}
END
cc -O2 -shared -fPIC -o failing.so failing.c -ldl || exit 1

cat >one.p <<'END'
fof(a1,axiom,p(c)). fof(g,conjecture,p(c)).
END
cat >one.v <<'END'
vernacular 1. take []. mp a1 [] new [] gives p(c). as 1 [].
END
cat >split.p <<'END'
fof(a1,axiom,p(c) | q(c)). fof(a2,axiom,! [X] : (p(X) => r(X))). fof(a3,axiom,! [X] : (q(X) => r(X))).
fof(g,conjecture,r(c)).
END
cat >split.v <<'END'
vernacular 1. take []. mp a1 [] new [] gives p(c) | q(c). cs 1. case p(c). mp a2 [c] new [] gives r(c). as 1 [].
case q(c). mp a3 [c] new [] gives r(c). as 1 []. end.
END
"$program" export isar split.p split.v >split.isar || exit 1

# Runs the program on these words once for each allocation, and tells how the runs ended.
fail_each() {
    "$program" "$@" >whole 2>wrong
    wanted=$? at=1 clean=0 other=0
    while :; do
        FAIL_AT=$at LD_PRELOAD="$folder/failing.so" "$program" "$@" >out 2>errs
        status=$?
        if [ "$status" -eq "$wanted" ] && cmp -s whole out && cmp -s wrong errs; then
            # past the last allocation a run is one in which none fails
            break
        fi
        if [ "$status" -eq 71 ] && [ ! -s out ] && [ ! -s errs ]; then clean=$((clean + 1)); else other=$((other + 1)); fi
        at=$((at + 1))
    done
    printf '| `%s` | %d | %d | %d | %d |\n' "$*" "$wanted" $((at - 1)) "$clean" "$other"
}

echo '| words | status | allocations | ended with 71, nothing written | ended otherwise |'
echo '|---|---|---|---|---|'
fail_each check one.p one.v
fail_each check split.p split.v
fail_each prove split.p 6
fail_each prove split.p 5
fail_each export isar split.p split.v
fail_each export english split.p split.v
fail_each convert problem split.p
fail_each convert vernacular split.p split.v
fail_each convert isar split.p split.isar
fail_each convert version2 split.p split.v
fail_each demo 2
