#!/bin/sh
# Refuses each request for memory of a program in turn: the first in one run, the second in the next, until a run meets no
# refusal. Each run must end as with ample memory, with the same bytes written and the same status, or with status 9 and
# nothing written. It isn't part of the gate.
#
# usage: tools/want_of_memory.sh            all cases below
#        tools/want_of_memory.sh CRATE ARGS STDIN     one case: ARGS are words with blanks between them, STDIN is a file or -
#
# Each program is proved and built by `rt run`, which the kit brings. A library of a few lines, which `cc` builds here, stands
# before the C library's `malloc` and refuses the request of the number that it is given. `rt try --fail-alloc 1..` refuses the same
# requests of the unproved program.
set -eu

top=$(cd "$(dirname "$0")/.." && pwd)
work=$(mktemp -d)
trap 'rm -rf "$work"' EXIT

cat > "$work/refuse.c" <<'C'
#include <errno.h>
#include <stddef.h>
#include <stdio.h>
#include <stdlib.h>

extern void *__libc_malloc(size_t);
extern void *__libc_calloc(size_t, size_t);
extern void *__libc_realloc(void *, size_t);
extern void *__libc_memalign(size_t, size_t);

static long asked, refused;

static int refuses(void)
{
    asked += 1;
    if (asked != refused)
        return 0;
    errno = ENOMEM;
    return 1;
}

void *malloc(size_t n) { return refuses() ? NULL : __libc_malloc(n); }
void *calloc(size_t k, size_t n) { return refuses() ? NULL : __libc_calloc(k, n); }
void *realloc(void *p, size_t n) { return refuses() ? NULL : __libc_realloc(p, n); }
void *aligned_alloc(size_t to, size_t n) { return refuses() ? NULL : __libc_memalign(to, n); }

int posix_memalign(void **p, size_t to, size_t n)
{
    if (refuses())
        return ENOMEM;
    *p = __libc_memalign(to, n);
    return *p ? 0 : ENOMEM;
}

__attribute__((constructor)) static void begin(void)
{
    const char *number = getenv("REFUSED_REQUEST");
    refused = number ? atol(number) : 0;
    asked = 0;
}

__attribute__((destructor)) static void end(void)
{
    long made = asked;
    refused = 0;
    const char *path = getenv("REQUESTS_FILE");
    FILE *file = path ? fopen(path, "w") : NULL;
    if (file) {
        fprintf(file, "%ld\n", made);
        fclose(file);
    }
}
C
cc -O1 -shared -fPIC -o "$work/refuse.so" "$work/refuse.c"

# run_refusing N PROGRAM ARGS STDIN: what it writes goes to $work/out, its status to $status, its requests to $requests
run_refusing() {
    rm -f "$work/requests"
    status=0
    # ARGS are words
    # shellcheck disable=SC2086
    timeout 120 env REFUSED_REQUEST="$1" REQUESTS_FILE="$work/requests" LD_PRELOAD="$work/refuse.so" \
        "$2" $3 < "$4" > "$work/out" 2> "$work/err" || status=$?
    requests=$(cat "$work/requests" 2>/dev/null || echo none)
}

# each_allocation CRATE ARGS STDIN
each_allocation() {
    crate=$1 args=$2 input=$3
    [ "$input" != - ] || input=/dev/null
    [ -x "$top/crates/$crate/out/$crate" ] || (cd "$top/crates/$crate" && rt run > "$work/build" 2>&1 < /dev/null) || :
    program=$top/crates/$crate/out/$crate
    [ -x "$program" ] || { tail -n 5 "$work/build"; echo "$crate isn't built"; return 1; }

    run_refusing 0 "$program" "$args" "$input"
    mv "$work/out" "$work/ample"
    ample_status=$status ample_requests=$requests
    n=1 same=0 nine=0
    while :; do
        run_refusing "$n" "$program" "$args" "$input"
        if [ "$requests" = none ]; then
            echo "$crate $args: request $n refused: died with status $status"
            return 1
        fi
        if [ "$requests" -lt "$n" ]; then
            break
        fi
        if [ "$status" = "$ample_status" ] && cmp -s "$work/out" "$work/ample"; then
            same=$((same + 1))
        elif [ "$status" = 9 ] && [ ! -s "$work/out" ]; then
            nine=$((nine + 1))
        else
            echo "$crate $args: request $n refused: status $status"
            return 1
        fi
        n=$((n + 1))
    done
    echo "$crate $args: status $ample_status and $ample_requests requests with ample memory; of $((n - 1)) refused in turn" \
        "$same ended so, $nine with 9"
}

if [ $# -eq 3 ]; then
    each_allocation "$1" "$2" "$3"
    exit
fi

# block TITLE FILE: the input of the first run of the worked examples whose title begins so goes to the file
block() {
    awk -v title="# $1" 'index($0, title) == 1 { on = 1 } on && sub(/^input ?/, "") { print } on && $0 == "run" { exit }' \
        "$top/crates/lat_play/stdin" > "$2"
}

# a cell that is told a hundred events
echo "cell 100" > "$work/cell"
each_allocation lat_roles "" "$work/cell"
# the printed form of a message, a pcap file, a choice, a schedule played whole, one with a lost frame, its capture, and generated schedules
each_allocation lat show "$top/examples/run.hex"
block "START, with the least" "$work/starts"
each_allocation lat show "$work/starts"
each_allocation lat pcap "$top/examples/two-frames.pcap"
each_allocation lat choose "$top/examples/choices.txt"
block "Which node is chosen" "$work/nodes"
each_allocation lat choose "$work/nodes"
each_allocation lat replay "$top/crates/lat/stdin"
block "Requests: granted" "$work/printers"
each_allocation lat replay "$work/printers"
each_allocation lat replay "$top/examples/lost.txt"
each_allocation lat trace "$top/examples/lost.txt"
each_allocation lat draw "$top/examples/lost.txt"
each_allocation lat "capture 1" "$top/examples/lost.txt"
each_allocation lat "settle 60" "$top/examples/unheard.txt"
each_allocation lat audit "$top/examples/capture.txt"
each_allocation lat "gen 7" -
each_allocation lat "bench 7" -
