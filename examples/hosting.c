/* A host that has the memory and the drive. Its drive is as small as can be: 64 blocks, and two commands. Guest 0 reads what the drive had before, and
 * writes; guest 1 does not see it. At last the drive fails, and the lane is closed. */
#include <stdio.h>
#include <stdlib.h>
#include <string.h>

#include "nvmed.h"

enum { GUEST_BYTES = 0x20000, ADMIN_SQ = 0x10000, ADMIN_CQ = 0x11000, IO_CQ = 0x12000, IO_SQ = 0x13000, DATA = 0x4000, BLOCK = 512 };
enum { HOST_BYTES = 0x1000000, AREA = 0x400000, FIRST = 0x100000, SECOND = 0x200000, BLOCKS = 64 };

/* The host's memory. A real host maps the guests' memories and some of its own here, at the addresses that the drive uses. */
static uint8_t *memory;

static nvmed_status failed(const char *what, nvmed_status status) {
    if (status != NVMED_OK) printf("%s: answered %d\n", what, (int)status);
    return status;
}

static void put32(uint8_t *at, uint32_t value) {
    for (int i = 0; i < 4; i++) at[i] = (uint8_t)(value >> 8 * i);
}

static uint32_t get32(const uint8_t *at) { return at[0] | (uint32_t)at[1] << 8 | (uint32_t)at[2] << 16 | (uint32_t)at[3] << 24; }

/* ---- the drive: it takes entries from one ring, and puts completions into the other */

typedef struct drive {
    uint8_t disk[BLOCKS][BLOCK];
    uint32_t head, posted, phase;
} drive;

static void complete(drive *d, const nvmed_lane_rings *rings, const uint8_t *entry) {
    uint8_t *at = memory + rings->completion + 16 * (uint64_t)d->posted;
    memset(at, 0, 16);
    put32(at + 8, d->head | 1u << 16);                               /* SQHD, and SQID 1 */
    put32(at + 12, (get32(entry) >> 16) | d->phase << 16);           /* the command's identifier, and the phase tag; Success */
    d->posted = (d->posted + 1) % rings->entries;
    if (d->posted == 0) d->phase ^= 1;
}

/* What was rung for is carried out: Reads (02h) and Writes (01h) of one block, by PRP1. */
static void drive_work(drive *d, const nvmed_lane_rings *rings) {
    while (d->head != rings->tail) {
        uint8_t entry[64];
        memcpy(entry, memory + rings->submission + 64 * (uint64_t)d->head, sizeof entry);
        d->head = (d->head + 1) % rings->entries;
        uint8_t *at = memory + get32(entry + 24), *block = d->disk[get32(entry + 40)];
        if (entry[0] == 1) memcpy(block, at, BLOCK);
        if (entry[0] == 2) memcpy(at, block, BLOCK);
        complete(d, rings, entry);
    }
}

/* The host does what is due, for the guests and for the drive, until nothing is. */
static void serve(nvmed *m, drive *d) {
    nvmed_lane_rings rings;
    uint64_t done;
    do {
        failed("work", nvmed_work(m, NVMED_OF_ALL, 0, 1000, &done));
        failed("rings", nvmed_rings(m, 0, &rings));
        if (d) drive_work(d, &rings);
    } while (done);
}

/* ---- the guests' drivers: they store into their memory by themselves, and write registers and doorbells by calls */

typedef struct guest {
    uint32_t number, sent;
    uint8_t *memory;
} guest;

/* What was seen of all guests' vectors. */
static nvmed_seen seen;

static void make_entry(uint8_t *entry, uint32_t opcode, uint64_t prp1, uint32_t cdw10, uint32_t cdw11) {
    memset(entry, 0, 64);
    put32(entry, opcode | 7u << 16);
    put32(entry + 4, 1);
    put32(entry + 24, (uint32_t)prp1);
    put32(entry + 40, cdw10);
    put32(entry + 44, cdw11);
}

/* One I/O queue pair of 16 slots, whose completion queue has vector 3. */
static void bring_up(nvmed *m, guest *g) {
    make_entry(g->memory + ADMIN_SQ, 0x05, IO_CQ, 15u << 16 | 1, 3u << 16 | 3);
    make_entry(g->memory + ADMIN_SQ + 64, 0x01, IO_SQ, 15u << 16 | 1, 1u << 16 | 1);
    failed("AQA", nvmed_reg_write(m, g->number, 0x24, 0x001f001f));
    failed("ASQ", nvmed_reg_write(m, g->number, 0x28, ADMIN_SQ));
    failed("ACQ", nvmed_reg_write(m, g->number, 0x30, ADMIN_CQ));
    failed("CC", nvmed_reg_write(m, g->number, 0x14, 0x00460001));
    failed("doorbell", nvmed_doorbell(m, g->number, 0x1000, 2));
    serve(m, NULL);
    failed("doorbell", nvmed_doorbell(m, g->number, 0x1004, 2));
}

static void send(nvmed *m, guest *g, uint32_t opcode, uint32_t block) {
    make_entry(g->memory + IO_SQ + 64 * (uint64_t)g->sent++, opcode, DATA, block, 0);
    failed("doorbell", nvmed_doorbell(m, g->number, 0x1008, g->sent));
}

/* The guests of whom other vectors are pending than before, as bits. A host with many guests asks this once, and then for the vectors of those. */
static unsigned changed(nvmed *m) {
    uint32_t guests = 0;
    failed("changed", nvmed_changed(m, &seen, &guests));
    return (unsigned)guests;
}

/* The status of the last command, and the vectors that are pending; the completion is acknowledged. */
static void finish(nvmed *m, guest *g, const char *what) {
    const uint8_t *entry = g->memory + IO_CQ + 16 * (uint64_t)(g->sent - 1);
    uint16_t vectors[NVMED_VECTORS];
    uint32_t count;
    failed("pending", nvmed_pending(m, g->number, vectors, &count));
    printf("guest %u: %s: status %x, vectors that are pending:", (unsigned)g->number, what, (unsigned)(get32(entry + 12) >> 17 & 0x7ff));
    for (uint32_t i = 0; i < count; i++) printf(" %u", (unsigned)vectors[i]);
    printf(", of guests %x", changed(m));
    failed("doorbell", nvmed_doorbell(m, g->number, 0x100c, g->sent));
    printf(", and of guests %x once it is acknowledged\n", changed(m));
}

int main(void) {
    const nvmed_sizes sizes = {HOST_BYTES, AREA, BLOCKS, 1};
    const uint32_t limits[2] = {1024, 1024};
    const nvmed_region regions[2] = {{0, 0, FIRST, GUEST_BYTES}, {1, 0, SECOND, GUEST_BYTES}};
    const nvmed_extent extents[2] = {{0, 0, BLOCKS / 2}, {1, BLOCKS / 2, BLOCKS / 2}};
    static drive d;
    nvmed m = NVMED_INIT;
    guest first = {0, 0, NULL}, second = {1, 0, NULL};

    d.phase = 1;
    memory = (uint8_t *)malloc(HOST_BYTES);
    if (!memory) return 1;
    memset(memory, 0xee, HOST_BYTES);
    first.memory = memory + FIRST;
    second.memory = memory + SECOND;
    strcpy((char *)d.disk[5], "what the drive had before");
    if (failed("serve", nvmed_serve(&m, memory, &sizes, limits, 2, regions, 2, extents, 2)) != NVMED_OK) return 1;
    bring_up(&m, &first);
    bring_up(&m, &second);

    send(&m, &first, 0x02, 5);
    serve(&m, &d);
    finish(&m, &first, "Read of block 5");
    printf("guest 0: sees \"%s\"\n", (const char *)first.memory + DATA);
    strcpy((char *)first.memory + DATA, "a secret");
    send(&m, &first, 0x01, 6);
    serve(&m, &d);
    finish(&m, &first, "Write of block 6");
    printf("the drive's block 6 has \"%s\"\n", (const char *)d.disk[6]);
    send(&m, &second, 0x02, 6);
    serve(&m, &d);
    finish(&m, &second, "Read of block 6");
    printf("guest 1: sees \"%s\"\n", (const char *)second.memory + DATA);
    send(&m, &second, 0x02, BLOCKS / 2);
    serve(&m, &d);
    finish(&m, &second, "Read of block 32, which it does not have");

    /* the drive stops with a command of guest 0 */
    send(&m, &first, 0x02, 5);
    serve(&m, NULL);
    failed("close", nvmed_close(&m, 0));
    serve(&m, NULL);
    finish(&m, &first, "Read of block 5, of a drive that has failed");
    failed("free", nvmed_free(&m));
    free(memory);
    return 0;
}
