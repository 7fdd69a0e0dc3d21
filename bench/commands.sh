#!/usr/bin/env bash
# How many commands, and how many bytes, the flat controller moves in a second: Reads, Writes and Compares of 256 blocks through one Data
# Block, Reads of 256 blocks by a list of region pages, and Reads of one block through a list of 1,023 descriptors.
#
# Each kind runs at a number of commands and at half of it, so that a reader sees time grow linearly. What one run costs beside its
# commands is measured with none, and taken off. The program is proved and built first, where it is not yet.
#
#     bench/commands.sh [COMMANDS]                    2,000, where nothing is given
#     PEER=PROGRAM bench/commands.sh [COMMANDS]       the same, with the speed set beside that of another program of the same scripts
set -euo pipefail
export LC_ALL=C

# shellcheck source=bench/timing.sh
source "$(dirname "$(readlink -f "$0")")/timing.sh"

commands=${1:-2000}

# Numbers as little-endian bytes in hexadecimal digits: so many bytes each.
little() {
    local number=$1 bytes=$2 digits="" i
    for ((i = 0; i < bytes; i++)); do
        digits+=$(printf '%02x' $(((number >> (8 * i)) & 255)))
    done
    printf '%s' "$digits"
}

# A command of 64 bytes: dword 0, its data pointer's 16 bytes, NLB; from LBA 0 of namespace 1.
entry() {
    printf '%s%s%s%s%s%s' "$(little "$1" 4)" "$(little 1 4)" "$(little 0 16)" "$2" "$(little 0 8)" "$(little "$3" 4)$(little 0 12)"
}

# An SGL descriptor: its kind, address and length.
descriptor() {
    printf '%s%s%s' "$(little "$2" 8)" "$(little "$3" 4)" "$(little $(($1 << 28)) 4)"
}

by_block=$(descriptor 0 $((0x100000)) $((256 * 512)))
by_list=$(descriptor 3 $((0x8000)) $((16 * 1023)))
by_pages=$(little $((0x100000)) 8)$(little $((0x2000)) 8)

# What stands in memory before the commands: the 31 page entries, and the 1,023 descriptors, of which the last names 512 bytes.
set_up() {
    printf 'memory 0x400000\nblocks 256\n'
    for ((i = 1; i < 32; i++)); do
        printf 'store %d %s\n' $((0x2000 + 8 * (i - 1))) "$(little $((0x100000 + 4096 * i)) 8)"
    done
    printf 'store %d %s\n' $((0x8000 + 16 * 1022)) "$(descriptor 0 $((0x100000)) 512)"
}

# A script of so many equal commands.
script() {
    cat "$room/set-up"
    awk -v n="$1" -v entry="$2" 'BEGIN { for (i = 0; i < n; i++) print "cmd " entry }'
}

set_up >"$room/set-up"
cp "$room/set-up" "$room/script"
run_script
none=$took
peer_none=$peer_took

measure() {
    local name=$1 entry=$2 bytes=$3 n
    for n in $((commands / 2)) "$commands"; do
        script "$n" "$entry" >"$room/script"
        run_script
        if [[ $(grep -c '00010007000100$' "$room/output") -ne $n ]]; then
            echo "$name: a command did not succeed" >&2
            exit 1
        fi
        awk -v name="$name" -v n="$n" -v took="$((took - none))" -v bytes="$bytes" \
            -v beside="$(beside $((took - none)) $((peer_took - peer_none)))" 'BEGIN {
            seconds = took / 1000000000
            if (seconds < 0.001) {
                printf "%-34s %6d commands: too short to tell\n", name, n
                exit
            }
            printf "%-34s %6d commands: %7.3f s, %9.0f commands a second, %7.0f MiB a second%s\n",
                name, n, seconds, n / seconds, n * bytes / seconds / 1048576, beside
        }'
    done
}

whole=$((256 * 512))
measure "Read, 256 blocks, one Data Block" "$(entry $((0x00074002)) "$by_block" 255)" "$whole"
measure "Compare, the same" "$(entry $((0x00074005)) "$by_block" 255)" "$whole"
measure "Write, the same" "$(entry $((0x00074001)) "$by_block" 255)" "$whole"
measure "Read, 256 blocks, 32 pages" "$(entry $((0x00070002)) "$by_pages" 255)" "$whole"
measure "Read, one block, 1,023 descriptors" "$(entry $((0x00074002)) "$by_list" 0)" 512
