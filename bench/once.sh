#!/usr/bin/env bash
# How long `nvmed once` takes for long scripts and for large dumps, and that it grows with their length and no faster.
#
# It runs a script of commands and a dump, each at a length and at half of it, and prints lines a second and MiB a second. Where time
# grows linearly, the two rates of a pair are about the same. The program is proved and built first, where it is not yet.
#
#     bench/once.sh [LINES] [MIB]                    100,000 lines and 16 MiB, where nothing is given
#     PEER=PROGRAM bench/once.sh [LINES] [MIB]       the same, with the speed set beside that of another program of the same scripts
set -euo pipefail
export LC_ALL=C

# shellcheck source=bench/timing.sh
source "$(dirname "$(readlink -f "$0")")/timing.sh"

lines=${1:-100000}
mib=${2:-16}

# A Read of one block into memory through one Data Block, so many times.
read_block=02400700010000000000000000000000000000000000000000300000000000000002000000000000050000000000000000000000000000000000000000000000

# Writes a script of so many lines behind the set-up, four kinds in turn.
commands() {
    awk -v lines="$1" -v entry="$read_block" 'BEGIN {
        print "memory 0x10000"; print "blocks 64"
        for (i = 0; i < lines; i++) {
            if (i % 4 == 0) printf "paint %d %d\n", i % 64, i % 256
            else if (i % 4 == 1) print "cmd " entry
            else if (i % 4 == 2) printf "store %d a1b2c3d4\n", i % 65000
            else print "dump 0x3000 16"
        }
    }'
}

# Writes a script that shows so many MiB of memory.
dump() {
    printf 'memory 16777216\nblocks 1\nfill 0 131072 0xa5\ndump 0 %d\n' "$(($1 * 1048576))"
}

seconds() {
    awk -v took="$1" 'BEGIN { printf "%.3f", took / 1000000000 }'
}

rate() {
    awk -v amount="$1" -v took="$2" 'BEGIN { printf "%.0f", amount * 1000000000 / took }'
}

for n in $((lines / 2)) "$lines"; do
    commands "$n" >"$room/script"
    run_script
    printf '%8d lines: %8s s, %12s lines a second%s\n' "$n" "$(seconds "$took")" "$(rate "$n" "$took")" "$(beside "$took" "$peer_took")"
done
for n in $((mib / 2)) "$mib"; do
    dump "$n" >"$room/script"
    run_script
    printf '%8d MiB dumped: %3s s, %12s MiB a second%s\n' "$n" "$(seconds "$took")" "$(rate "$n" "$took")" "$(beside "$took" "$peer_took")"
done
