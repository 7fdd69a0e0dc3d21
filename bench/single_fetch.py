#!/usr/bin/env python3
"""single_fetch.py PREFIX: whether the library for C that is installed below PREFIX loads each byte of a guest's memory once.

A small host, without a drive, gets commands of each kind from a guest: entries, lists of both formats, ranges, and sources that are copied. valgrind's lackey
notes each load while the library takes them, reads their lists and hands them to the drive. What the guest's bytes are loaded for, and how often, is
printed, of a guest with one extent and of one with two; status 1 where a byte is loaded twice. Loads of one call of the C library's memcpy count once: it
may load a byte at the end of a copy twice, and the copy gets it from one of these. It needs clang or cc, and valgrind."""
import collections
import os
import re
import shutil
import subprocess
import sys
import tempfile

# where the host's memory is, and the guest's in it
AT = 0x200000000
GUEST, BYTES = 0x100000, 0x200000
SQ, LISTS, RANGES, DATA = 0x13000, 0x20000, 0x30000, 0x40000
KINDS = [("admin entries", 0x10000, 0x11000), ("entries", SQ, SQ + 0x1000), ("lists", LISTS, RANGES), ("ranges", RANGES, DATA), ("sources", DATA, BYTES)]
HOST = r"""
#define _GNU_SOURCE
#include <string.h>
#include <sys/mman.h>
#include "nvmed.h"
enum { HOST_BYTES = 0x2000000, AREA = 0x800000, GUEST = 0x100000, BYTES = 0x200000 };
enum { ADMIN_SQ = 0x10000, ADMIN_CQ = 0x11000, IO_CQ = 0x12000, IO_SQ = 0x13000, LISTS = 0x20000, RANGES = 0x30000, DATA = 0x40000, WHOLE = 128 * 1024 };
static uint8_t *guest;
static nvmed m;
static uint32_t tail;
static void put(uint32_t at, const void *bytes, size_t length) { memcpy(guest + at, bytes, length); }
static void word(uint32_t at, uint64_t value) { put(at, &value, 8); }
static void entry(uint32_t at, uint32_t first, uint64_t one, uint64_t two, uint32_t cdw10, uint32_t cdw11, uint32_t cdw12) {
    uint32_t d[16] = {first, 1, 0, 0, 0, 0, (uint32_t)one, (uint32_t)(one >> 32), (uint32_t)two, (uint32_t)(two >> 32), cdw10, cdw11, cdw12};
    put(at, d, sizeof d);
}
static void io(uint32_t first, uint64_t one, uint64_t two, uint32_t cdw10, uint32_t cdw11, uint32_t cdw12) {
    entry(IO_SQ + 64 * tail, first | tail << 16, one, two, cdw10, cdw11, cdw12);
    tail++;
}
static int work(void) {
    uint64_t done;
    return nvmed_work(&m, NVMED_OF_ALL, 0, 100000, &done) != NVMED_OK;
}
int main(int argc, char **argv) {
    const nvmed_sizes sizes = {HOST_BYTES, AREA, 4096, 1};
    const uint32_t limit = 1024;
    const nvmed_region region = {0, 0, GUEST, BYTES};
    const nvmed_extent one = {0, 64, 2000}, two[2] = {{0, 64, 1000}, {0, 2000, 1000}};
    uint8_t *memory = mmap((void *)0x200000000, HOST_BYTES, PROT_READ | PROT_WRITE, MAP_PRIVATE | MAP_ANONYMOUS | MAP_FIXED_NOREPLACE, -1, 0);
    if (memory == MAP_FAILED) return 1;
    guest = memory + GUEST;
    if (nvmed_serve(&m, memory, &sizes, &limit, 1, &region, 1, argc > 1 ? two : &one, argc > 1 ? 2 : 1)) return 2;
    (void)argv;
    entry(ADMIN_SQ, 5, IO_CQ, 0, 1 | 63 << 16, 1, 0);
    entry(ADMIN_SQ + 64, 1, IO_SQ, 0, 1 | 63 << 16, 1 | 1 << 16, 0);
    nvmed_reg_write(&m, 0, 0x24, 0x1f001f);
    nvmed_reg_write(&m, 0, 0x28, ADMIN_SQ);
    nvmed_reg_write(&m, 0, 0x30, ADMIN_CQ);
    nvmed_reg_write(&m, 0, 0x14, 0x460001);
    nvmed_doorbell(&m, 0, 0x1000, 2);
    if (work()) return 3;
    /* a Read and a Write of 128 KiB by region pages, with a list that goes on in a second page; the Write meets both extents */
    for (int i = 0; i < 32; i++) word(LISTS + (i == 0 ? 0xff8 : 0x1000 + 8 * (i - 1)), i == 0 ? LISTS + 0x1000 : DATA + 0x20000 + 4096 * i);
    for (int i = 0; i < 32; i++) word(LISTS + 0x2000 + 8 * i, DATA + 0x60000 + 4096 * (i + 1));
    io(2, DATA + 0x20000, LISTS + 0xff8, 0, 0, 255);
    io(1, DATA + 0x60000, LISTS + 0x2000, 900, 0, 255);
    /* a Write and a Compare of 128 KiB whose lists have pieces of any length, in two segments, so that they are copied */
    for (int c = 0; c < 2; c++) {
        uint32_t list = LISTS + 0x4000 + 0x2000 * c, at = DATA + 0xa0000 + 0x30000 * c, left = WHOLE;
        word(list + 16 * 9, list + 0x1000);
        word(list + 16 * 9 + 8, 12 * 16 | (uint64_t)0x30 << 56);
        for (int i = 0; i < 21; i++) {
            uint32_t piece = i == 20 ? left : 1000 + 37 * i;
            uint32_t to = i < 9 ? list + 16 * i : list + 0x1000 + 16 * (i - 9);
            word(to, at);
            word(to + 8, piece);
            at += piece + 8;
            left -= piece;
        }
        io((c ? 5 : 1) | 1 << 14, list, 10 * 16 | (uint64_t)0x20 << 56, 300 + 700 * c, 0, 255);
    }
    /* Dataset Management with five ranges, in both extents */
    for (int i = 0; i < 5; i++) word(RANGES + 16 * i, (uint64_t)8 << 32), word(RANGES + 16 * i + 8, 300 * i);
    io(9, RANGES, 0, 4, 4, 0);
    nvmed_doorbell(&m, 0, 0x1008, tail);
    return work() ? 4 : 0;
}
"""


def loads(trace):
    """Of each load of the guest's memory its place and length, and the number of its copy."""
    copy, inside = 0, False
    for line in trace:
        found = re.match(r"(I | L| S| M) +([0-9a-f]+),(\d+)", line)
        if not found:
            continue
        address = int(found[2], 16)
        if found[1] == "I ":
            # the program's own code lies low, the C library's high
            if address < 0x1000000:
                inside = False
            elif not inside:
                inside, copy = True, copy + 1
        elif found[1] in (" L", " M") and AT + GUEST <= address < AT + GUEST + BYTES:
            if not inside:
                copy += 1
            yield address - AT - GUEST, int(found[3]), copy


def counted(program, trace, words):
    """How many copies loaded each byte of the guest's."""
    subprocess.run(["valgrind", "--tool=lackey", "--trace-mem=yes", f"--log-file={trace}", program, *words], check=True)
    copies = collections.defaultdict(set)
    with open(trace, encoding="utf-8") as file:
        for place, length, copy in loads(file):
            for byte in range(place, place + length):
                copies[byte].add(copy)
    return {byte: len(of) for byte, of in copies.items()}


def main():
    if len(sys.argv) != 2:
        sys.exit(__doc__)
    wrong = 0
    with tempfile.TemporaryDirectory() as room:
        source, program, trace = (os.path.join(room, name) for name in ("host.c", "host", "trace"))
        with open(source, "w", encoding="utf-8") as file:
            file.write(HOST)
        compiler = shutil.which("clang") or "cc"
        flags = ["-std=c11", "-O1", "-no-pie", f"-I{sys.argv[1]}/include", source, f"-L{sys.argv[1]}/lib", "-lnvmed", "-o", program]
        subprocess.run([compiler, *flags], check=True)
        for extents in (1, 2):
            counts = counted(program, trace, ["two"] * (extents - 1))
            print(f"a guest with {extents} extent{'s' * (extents - 1)}:")
            for name, start, end in KINDS:
                here = [count for byte, count in counts.items() if start <= byte < end]
                print(f"  {name}: {len(here)} bytes, loaded {min(here)} to {max(here)} times" if here else f"  {name}: none")
                wrong += not here or max(here) > 1
    sys.exit(1 if wrong else 0)


main()
