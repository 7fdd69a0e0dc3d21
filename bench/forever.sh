#!/usr/bin/env bash
# Whether the mediator without a log runs for ever: 16 guests, resets among them, in rounds of a million events, each of the same commands.
#
#     bench/forever.sh [EVENTS]       1,000,000,000 where nothing is given; whole rounds, three at least
#
# Prints of the second round and of the last: the most bytes that were allocated at once, the blocks that were left at its end and the allocations
# in it, the peak of memory so far, and the processor time. Status 1 where more bytes, blocks or allocations were wanted than in the second round,
# where the peak has grown by more than a thousandth, or where the last round took more than 1.05 times as long. The program is that which `rt run`
# built in crates/nv_workloads; nothing else should run beside it.
#
# What the program asks for is counted by a small library in C that is preloaded, to the byte. The peak of memory is the kernel's, in whole pages, those of
# code and stack among them: it grows by some pages while no more is asked for, so a thousandth is let pass, and the allocator is told to give none back
# meanwhile.
set -euo pipefail
export LC_ALL=C

round=1000000
events=${1:-1000000000}
rounds=$(((events + round - 1) / round))
[ "$rounds" -ge 3 ] || rounds=3
root=$(dirname "$(dirname "$(readlink -f "$0")")")
program=${PROGRAM:-$root/crates/nv_workloads/out/nv_workloads}
[ -x "$program" ] || { echo "there is no $program: run 'rt run' in its crate's folder" >&2; exit 2; }

dir=$(mktemp -d)
trap 'rm -rf "$dir"' EXIT
"${CC:-cc}" -O2 -shared -fPIC -o "$dir/count.so" -x c - <<'C'
#include <errno.h>
#include <fcntl.h>
#include <stddef.h>
#include <stdio.h>
#include <stdlib.h>
#include <string.h>
#include <sys/syscall.h>
#include <unistd.h>

extern void *__libc_malloc(size_t);
extern void *__libc_calloc(size_t, size_t);
extern void *__libc_realloc(void *, size_t);
extern void __libc_free(void *);

/* what stands before each block: where its allocation begins, and how many bytes were asked for */
struct head { char *begin; size_t size; };

static size_t bytes, most, blocks, allocations;

static void *counted(char *begin, size_t before, size_t size) {
    if (!begin) return 0;
    struct head *head = (struct head *)(begin + before) - 1;
    head->begin = begin;
    head->size = size;
    bytes += size;
    blocks++;
    allocations++;
    if (bytes > most) most = bytes;
    return head + 1;
}

void *malloc(size_t size) { return counted(__libc_malloc(sizeof(struct head) + size), sizeof(struct head), size); }

void *calloc(size_t number, size_t each) {
    size_t size;
    if (__builtin_mul_overflow(number, each, &size)) return 0;
    return counted(__libc_calloc(1, sizeof(struct head) + size), sizeof(struct head), size);
}

void free(void *block) {
    if (!block) return;
    struct head *head = (struct head *)block - 1;
    bytes -= head->size;
    blocks--;
    __libc_free(head->begin);
}

/* A block behind a larger alignment is copied. */
void *realloc(void *old, size_t size) {
    if (!old) return malloc(size);
    struct head *head = (struct head *)old - 1;
    size_t before = head->size;
    if (head->begin != (char *)head) {
        void *made = malloc(size);
        if (made) memcpy(made, old, before < size ? before : size), free(old);
        return made;
    }
    char *begin = __libc_realloc(head, sizeof(struct head) + size);
    if (!begin) return 0;
    bytes -= before;
    blocks--;
    return counted(begin, sizeof(struct head), size);
}

int posix_memalign(void **result, size_t align, size_t size) {
    char *begin = __libc_malloc(sizeof(struct head) + align + size);
    size_t over = begin ? (size_t)(begin + sizeof(struct head)) % align : 0;
    void *made = counted(begin, sizeof(struct head) + (over ? align - over : 0), size);
    if (!made) return ENOMEM;
    *result = made;
    return 0;
}

void *aligned_alloc(size_t align, size_t size) {
    void *made = 0;
    return posix_memalign(&made, align, size) ? 0 : made;
}

/* The program writes a line at the end of each round: what was counted in it goes to the file that COUNTED names. */
ssize_t write(int file, const void *from, size_t len) {
    static int to = -1;
    const char *name = getenv("COUNTED");
    if (file == 1 && name) {
        char line[128];
        if (to < 0) to = open(name, O_WRONLY | O_APPEND | O_CREAT, 0600);
        int wide = snprintf(line, sizeof line, "%zu %zu %zu\n", most, blocks, allocations);
        if (syscall(SYS_write, to, line, (size_t)wide) != wide) abort();
        most = bytes;
        allocations = 0;
    }
    return syscall(SYS_write, file, from, len);
}
C

export GLIBC_TUNABLES=glibc.malloc.trim_threshold=1073741824:glibc.malloc.top_pad=16777216:glibc.malloc.mmap_threshold=33554432

# One round more than are looked at, so that the program is still there behind the last of them.
exec {lines}< <(exec env COUNTED="$dir/counted" LD_PRELOAD="$dir/count.so" "$program" forever 1 $(((rounds + 1) * round)))
pid=$!
trap 'kill "$pid" 2>/dev/null || true; rm -rf "$dir"' EXIT

# The processor time that the program took so far, in nanoseconds.
spent() {
    local nanoseconds rest
    read -r nanoseconds rest <"/proc/$pid/schedstat"
    echo "$nanoseconds"
}

# The most memory that the program had so far, in kB.
peak() {
    awk '$1 == "VmHWM:" { print $2 }' "/proc/$pid/status"
}

begun=$EPOCHREALTIME
before=0
for number in $(seq "$rounds"); do
    read -r -u "$lines" so_far digest || { echo "the program ended in round $number" >&2; exit 1; }
    [[ $so_far =~ ^[0-9]+$ ]] || { echo "the program failed in round $number: $so_far" >&2; exit 1; }
    now=$(spent)
    took=$((now - before))
    before=$now
    if [ "$number" = 2 ]; then
        second_took=$took
        second_peak=$(peak)
    fi
done
last_peak=$(peak)
awk -v events="$so_far" -v digest="$digest" -v from="$begun" -v to="$EPOCHREALTIME" -v second_took="$second_took" -v took="$took" \
    -v second_peak="$second_peak" -v peak="$last_peak" -v rounds="$rounds" '
NR == 2 { bytes = $1; blocks = $2; allocations = $3 }
NR >= 2 && NR <= rounds && ($1 != bytes || $2 != blocks || $3 != allocations) { others++ }
NR == rounds { last_bytes = $1; last_blocks = $2; last_allocations = $3 }
END {
    printf "%d events in %.1f s, %.1f million a second, digest %s\n", events, to - from, events / (to - from) / 1e6, digest
    told = "%d bytes at most, %d blocks left, %d allocations; peak of memory %d kB; %.3f s\n"
    printf "second round: " told, bytes, blocks, allocations, second_peak, second_took / 1e9
    printf "last round:   " told, last_bytes, last_blocks, last_allocations, peak, took / 1e9
    printf "rounds between that asked for other numbers: %d\n", others
    if (last_bytes > bytes || last_blocks > blocks || last_allocations > allocations) { print "more was asked for"; status = 1 }
    if (peak > 1.001 * second_peak) { print "memory has grown"; status = 1 }
    if (took > 1.05 * second_took) { print "the last round took longer"; status = 1 }
    exit status
}' "$dir/counted"
