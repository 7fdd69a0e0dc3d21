#!/usr/bin/env bash
# How many commands `nvmed run` carries out in a second, for 2, 4 and 8 guests on 1 and 4 lanes. Each guest has a thread of its own, and does
# one command after another: it stores the entry, rings the doorbell, waits for the completion, and tells that it has seen it. One in three is
# a Read, one a Write, one a Flush, of one block.
#
# What the set-up and bringing the guests up costs is measured with no command, and taken off. The program is proved and built first, where it
# is not yet.
#
#     bench/run.sh [COMMANDS]                    3,000 a guest, where nothing is given
#     PEER=PROGRAM bench/run.sh [COMMANDS]       the same, with the speed set beside that of another program of the same scripts
set -euo pipefail
export LC_ALL=C

# shellcheck source=bench/timing.sh
source "$(dirname "$(readlink -f "$0")")/timing.sh"

word=run
commands=${1:-3000}

# So many guests on so many lanes, each brought up with a queue pair of 64 slots, and so many commands of each.
script() {
    awk -v guests="$1" -v lanes="$2" -v n="$3" '
        function zeros(count,    digits) {
            while (count-- > 0) digits = digits "00"
            return digits
        }
        # four bytes, lowest first
        function dword(number) {
            return sprintf("%02x%02x%02x%02x", number % 256, int(number / 256) % 256, int(number / 65536) % 256, int(number / 16777216))
        }
        # an entry of the admin queue: opcode, identifier, the address of a queue, and the second half of dword 11
        function admin(opcode, cid, addr, high) {
            return dword(opcode + 65536 * cid) zeros(20) dword(addr) zeros(12) "01003f00" sprintf("0100%02x00", high) zeros(16)
        }
        # a command of one block at LBA i modulo 64, by PRP; a Flush names neither
        function entry(opcode, cid, i) {
            if (opcode == 0) return dword(65536 * cid) dword(1) zeros(56)
            return dword(opcode + 65536 * cid) dword(1) zeros(16) dword(16384) zeros(12) dword(i % 64) zeros(20)
        }
        BEGIN {
            printf "host 0x8000000\nmediator 0x4000000\ndisk 4096\nlanes %d\n", lanes
            for (g = 0; g < guests; g++) printf "guest %d range %d 64 heap 65536\n", g, 64 * g
            for (g = 0; g < guests; g++) printf "map %d 0x0 %d 0x20000\n", g, 1048576 * (g + 1)
            for (g = 0; g < guests; g++) {
                printf "store %d 0x10000 %s\nstore %d 0x10040 %s\n", g, admin(5, 1, 73728, 0), g, admin(1, 2, 77824, 1)
                printf "regwrite %d 0x24 0x001f001f\nregwrite %d 0x28 0x10000\nregwrite %d 0x30 0x11000\nregwrite %d 0x14 0x00460001\n", g, g, g, g
                printf "bell %d 0x1000 2\nawait %d 0x1101c 0x00010002\n", g, g
            }
            split("2 1 0", opcode, " ")
            for (i = 0; i < n; i++) for (g = 0; g < guests; g++) {
                slot = i % 64
                phase = 1 - int(i / 64) % 2
                printf "store %d %d %s\nbell %d 0x1008 %d\n", g, 77824 + 64 * slot, entry(opcode[i % 3 + 1], i, i), g, (slot + 1) % 64
                printf "await %d %d %d\nbell %d 0x100c %d\n", g, 73728 + 16 * slot + 12, 65536 * phase + i, g, (slot + 1) % 64
            }
        }'
}

# The time of so many guests on so many lanes, behind that of bringing them up.
measure() {
    local guests=$1 lanes=$2 none peer_none
    script "$guests" "$lanes" 0 >"$room/script"
    run_script
    none=$took
    peer_none=$peer_took
    script "$guests" "$lanes" "$commands" >"$room/script"
    run_script
    awk -v guests="$guests" -v lanes="$lanes" -v n="$((guests * commands))" -v took="$((took - none))" \
        -v beside="$(beside $((took - none)) $((peer_took - peer_none)))" 'BEGIN {
        printf "%d guests on %d lanes: %7.0f commands a second%s\n", guests, lanes, n * 1000000000 / took, beside
    }'
}

for lanes in 1 4; do
    for guests in 2 4 8; do
        measure "$guests" "$lanes"
    done
done
