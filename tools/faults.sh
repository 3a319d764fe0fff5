#!/bin/bash
# Refuses growths of memory, one a run, in each test that is made for it: each run must pass. docs/FAULTS.md has the counts.
# It runs the proved tests (`rt test` in their crates, or `rt ci`, first), and needs a C compiler. And it does the same to
# the program as a server that is asked one write over HTTP (tools/refused_web.py): a put, a delete, or a list of puts.
# usage: tools/faults.sh                each growth of each test
#        tools/faults.sh --short        each growth of the script's test, all but the first of the server with the put, and each 50th
#                                       of the others: what the gate runs
#        tools/faults.sh web            each growth of the server with each of these writes
#        tools/faults.sh CRATE TEST     each growth of one test
set -eu
top=$(cd "$(dirname "$0")/.." && pwd)
room=$(mktemp -d)
trap 'rm -rf "$room"' EXIT
cat >"$room/refuse.c" <<'C'
// Refuses the allocation of number REFUSE, counted from 1; at the end of a run with 0 it tells how many there were.
#define _GNU_SOURCE
#include <dlfcn.h>
#include <errno.h>
#include <stdio.h>
#include <stdlib.h>
static unsigned long calls, refused;
static int begun;
static void *(*of_malloc)(size_t), *(*of_realloc)(void *, size_t), *(*of_aligned)(size_t, size_t);
static int (*of_posix)(void **, size_t, size_t);
__attribute__((constructor)) static void begin(void) {
    const char *number = getenv("REFUSE");
    of_malloc = dlsym(RTLD_NEXT, "malloc");
    of_realloc = dlsym(RTLD_NEXT, "realloc");
    of_aligned = dlsym(RTLD_NEXT, "aligned_alloc");
    of_posix = dlsym(RTLD_NEXT, "posix_memalign");
    refused = number ? strtoul(number, 0, 10) : 0;
    begun = 1;
}
__attribute__((destructor)) static void end(void) {
    begun = 0;
    if (!refused) fprintf(stderr, "allocations %lu\n", calls);
}
static int refuses(void) { return begun && ++calls == refused; }
void *malloc(size_t size) {
    if (!of_malloc) of_malloc = dlsym(RTLD_NEXT, "malloc");
    if (refuses()) { errno = ENOMEM; return 0; }
    return of_malloc(size);
}
void *realloc(void *old, size_t size) {
    if (!of_realloc) of_realloc = dlsym(RTLD_NEXT, "realloc");
    if (refuses()) { errno = ENOMEM; return 0; }
    return of_realloc(old, size);
}
void *aligned_alloc(size_t align, size_t size) {
    if (!of_aligned) of_aligned = dlsym(RTLD_NEXT, "aligned_alloc");
    if (refuses()) { errno = ENOMEM; return 0; }
    return of_aligned(align, size);
}
int posix_memalign(void **out, size_t align, size_t size) {
    if (!of_posix) of_posix = dlsym(RTLD_NEXT, "posix_memalign");
    if (refuses()) return ENOMEM;
    return of_posix(out, align, size);
}
C
${CC:-cc} -O1 -shared -fPIC -o "$room/refuse.so" "$room/refuse.c" -ldl

one() { # BINARY TEST NUMBER: prints the number where the test does not pass
    REFUSE=$3 LD_PRELOAD=$room/refuse.so timeout 60 "$1" "$2" >/dev/null 2>&1 || echo "$3"
}
export -f one
export room

sweep() { # CRATE TEST [STEP]: refuses growth 1, 1 + STEP and so on, each by itself
    local binary=$top/crates/$1/out/$1_tests step=${3:-1} count failed
    [ -x "$binary" ] || { echo "$1: no tests are built: run rt test there" >&2; exit 2; }
    count=$(REFUSE=0 LD_PRELOAD=$room/refuse.so "$binary" "$2" 2>&1 >/dev/null | sed -n 's/^allocations //p')
    [ "${count:-0}" -gt 0 ] || { echo "$1 $2: no growth was counted" >&2; exit 2; }
    failed=$(seq 1 "$step" "$count" | xargs -P "$(nproc)" -I N bash -c "one '$binary' '$2' N" | sort -n | tr '\n' ' ')
    echo "$1 $2: $(seq 1 "$step" "$count" | wc -l) of $count growths, not passed: ${failed:-none}"
    [ -z "$failed" ] || well=1
}

sweep_all() { # STEP: that of all tests but the cheapest
    local test
    for test in a_replica_is_asked_again a_connection_tells_what_is_there a_round_tells_what_is_there a_round_tells_at_hand_what_is_there; do
        sweep mvd_faults_tests memory::$test "$1"
    done
    sweep mvd_script_tests script_memory::a_script_tells_what_it_did
    sweep mvd_site_tests refused_growth::a_refused_allocation_leaves_old_states_or_joins "$1"
}

web() { # [--short]: the server with one put over HTTP
    "$top/tools/refused_web.py" "$@" "$top/crates/mvd/out/mvd" "$room/refuse.so" || well=1
}

well=0
case $#:${1:-} in
2:*) sweep "$1" "$2" ;;
1:--short) sweep_all 50; web --short ;;
1:web) web ;;
1:*) echo "faults.sh: $1 is no option" >&2; exit 2 ;;
*) sweep_all 1; web ;;
esac
exit "$well"
