#!/usr/bin/env bash
# How many events `nvmed replay` carries out in a second: events that change nothing, and whole commands of one block, each of ten events,
# direct ones and ones that go by way of the bounce pages.
#
# Each kind runs at a number of events, at a tenth of it, and at the same number with a host of eight times the memory, so that a reader
# sees that an event costs the same however long the log and however large the host. What the set-up costs is measured with no event, and
# taken off. The program is proved and built first, where it is not yet.
#
#     bench/replay.sh [EVENTS]                    1,000,000, where nothing is given
#     PEER=PROGRAM bench/replay.sh [EVENTS]       the same, with the speed set beside that of another program of the same scripts
set -euo pipefail
export LC_ALL=C

# shellcheck source=bench/timing.sh
source "$(dirname "$(readlink -f "$0")")/timing.sh"

word=replay
events=${1:-1000000}

# Numbers as little-endian bytes in hexadecimal digits: so many bytes each.
little() {
    local number=$1 bytes=$2 digits="" i
    for ((i = 0; i < bytes; i++)); do
        digits+=$(printf '%02x' $(((number >> (8 * i)) & 255)))
    done
    printf '%s' "$digits"
}

# An entry of the admin queue: opcode and identifier, its queue's address, dwords 10 and 11.
admin_entry() {
    printf '%s%s%s%s%s%s%s' "$(little "$1" 4)" "$(little 0 20)" "$(little "$2" 8)" "$(little 0 8)" "$(little "$3" 4)" \
        "$(little "$4" 4)" "$(little 0 16)"
}

# A Read of LBA 5, one block, identifier 7, through one Data Block at that address.
read_entry() {
    printf '%s%s%s%s%s%s%s%s' "$(little $((0x00074002)) 4)" "$(little 1 4)" "$(little 0 16)" "$(little "$1" 8)" \
        "$(little 512 4)" "$(little 0 4)" "$(little 5 8)" "$(little 0 16)"
}

# One guest with a queue pair of 64 slots, on a host of so many bytes.
set_up() {
    printf 'host %d\nmediator 0x400000\ndisk 4096\nlanes 1\n' "$1"
    printf 'guest 0 range 1000 64 heap 1048576\nmap 0 0x0 0x100000 0x20000\n'
    printf 'store 0 0x10000 %s\n' "$(admin_entry $((0x00010005)) $((0x12000)) $((0x003f0001)) 1)"
    printf 'store 0 0x10040 %s\n' "$(admin_entry $((0x00020001)) $((0x13000)) $((0x003f0001)) $((0x00010001)))"
    printf 'regwrite 0 0x24 0x001f001f\nregwrite 0 0x28 0x10000\nregwrite 0 0x30 0x11000\nregwrite 0 0x14 0x00460001\n'
    printf 'bell 0 0x1000 2\nadmin 0\nadmin 0\n'
}

# So many events that change nothing.
small() {
    awk -v n="$1" 'BEGIN {
        split("regread 0 0x1c,load 0 0x3000 4,post 0 5,devtake 0,load 0 0x20000 4,submit 0 3,reap 0,take 0 1 0", line, ",")
        for (i = 0; i < n; i++) print line[i % 8 + 1]
    }'
}

# So many events of whole commands with that entry.
commands() {
    awk -v n="$1" -v entry="$2" 'BEGIN {
        for (i = 0; 10 * i < n; i++) {
            slot = i % 64; next_slot = (i + 1) % 64
            printf "store 0 %d %s\nbell 0 0x1008 %d\ntake 0 1 0\nsubmit 0 0\ndevtake 0\n", 77824 + 64 * slot, entry, next_slot
            printf "devmove 0 0 0\ndevpost 0 0\nreap 0\npost 0 0\nbell 0 0x100c %d\n", next_slot
        }
    }'
}

# The time of the script in `$room/events` on a host of so many bytes, behind that of its set-up, which stands in `$room/set-up`.
measure() {
    local name=$1 host=$2 count none peer_none
    set_up "$host" >"$room/script"
    run_script
    none=$took
    peer_none=$peer_took
    cat "$room/events" >>"$room/script"
    run_script
    count=$(awk 'END { print NR }' "$room/events")
    awk -v name="$name" -v mib="$((host / 1048576))" -v n="$count" -v took="$((took - none))" \
        -v beside="$(beside $((took - none)) $((peer_took - peer_none)))" 'BEGIN {
        printf "%-16s %8d events, host of %3d MiB: %9.0f events a second%s\n", name, n, mib, n * 1000000000 / took, beside
    }'
}

measure_all() {
    local name=$1 kind=$2 n
    shift 2
    for n in $((events / 10)) "$events"; do
        "$kind" "$n" "$@" >"$room/events"
        measure "$name" $((16 * 1048576))
    done
    measure "$name" $((128 * 1048576))
}

measure_all "nothing changes" small
measure_all "direct Reads" commands "$(read_entry $((0x3000)))"
measure_all "bounced Reads" commands "$(read_entry $((0x3001)))"
