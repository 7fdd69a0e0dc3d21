#!/usr/bin/env bash
# Refuses each allocation of a program in turn, one a run, and tells how the runs ended: status, standard output beside that of a run in which
# none is refused, and the first line of standard error, each with how many runs ended so. The system's allocator is asked through a small library in
# C that is preloaded, so the program is the one that the gate builds.
#
#     bench/refusals.sh PROGRAM once|replay|run SCRIPT..      as examples/extents.replay, whose commands have several parts
#     bench/refusals.sh TESTS NAME..            tests of a crate as the gate links them (crates/CRATE/out/CRATE_tests), by their full names
set -euo pipefail
export LC_ALL=C

[ $# -ge 2 ] || { sed -n '2,8s/^# \{0,1\}//p' "$0"; exit 2; }
program=$(readlink -f "$1")
shift
dir=$(mktemp -d)
trap 'rm -rf "$dir"' EXIT

"${CC:-cc}" -O2 -shared -fPIC -o "$dir/refuse.so" -x c - <<'C'
#include <errno.h>
#include <fcntl.h>
#include <stdlib.h>
#include <unistd.h>

extern void *__libc_malloc(size_t);
extern void *__libc_realloc(void *, size_t);
extern void *__libc_memalign(size_t, size_t);

static long calls, refused;

__attribute__((constructor)) static void begin(void) {
    const char *number = getenv("REFUSED");
    refused = number ? atol(number) : 0;
    calls = 0;
}

/* whether this call is the one that is refused; it leaves a file behind, so that the caller sees that there was one */
static int is_refused(void) {
    if (++calls != refused) return 0;
    const char *mark = getenv("MARK");
    int file = mark ? open(mark, O_CREAT | O_WRONLY, 0600) : -1;
    if (file >= 0) close(file);
    errno = ENOMEM;
    return 1;
}

void *malloc(size_t size) { return is_refused() ? 0 : __libc_malloc(size); }
void *realloc(void *old, size_t size) { return is_refused() ? 0 : __libc_realloc(old, size); }
void *aligned_alloc(size_t align, size_t size) { return is_refused() ? 0 : __libc_memalign(align, size); }

int posix_memalign(void **result, size_t align, size_t size) {
    if (is_refused()) return ENOMEM;
    void *made = __libc_memalign(align, size);
    if (made) *result = made;
    return made ? 0 : ENOMEM;
}
C

# sweep INPUT WORD..: the program with these words, once for each of its allocations
sweep() {
    local input=$1 number=1 status output
    shift
    "$program" "$@" < "$input" > "$dir/want" 2> /dev/null || { echo "$*: fails where nothing is refused"; return 1; }
    : > "$dir/ends"
    while :; do
        rm -f "$dir/mark"
        status=0
        timeout 60 env REFUSED="$number" MARK="$dir/mark" LD_PRELOAD="$dir/refuse.so" \
            "$program" "$@" < "$input" > "$dir/got" 2> "$dir/err" || status=$?
        [ -e "$dir/mark" ] || break
        output=other
        if cmp -s "$dir/want" "$dir/got"; then output='the same'; elif [ ! -s "$dir/got" ]; then output=none; fi
        echo "status $status, output $output, error '$(head -n 1 "$dir/err")'" >> "$dir/ends"
        number=$((number + 1))
    done
    echo "$(basename "$input") $*: $((number - 1)) allocations"
    sort "$dir/ends" | uniq -c | sort -rn
}

case $1 in
    once | replay | run)
        word=$1
        shift
        for script in "$@"; do sweep "$script" "$word"; done
        ;;
    *) for name in "$@"; do sweep /dev/null "$name"; done ;;
esac
