/* A small hypervisor. Two guests share a drive: guest 0 writes a secret to its block 5, and guest 1 does what it can to read it.
 * Each guest brings up its controller as a driver does: the admin queues, Identify, a completion queue and a submission queue, commands. */
#include <stdio.h>
#include <string.h>

#include "nvmed.h"

enum { GUEST_BYTES = 0x20000, ADMIN_SQ = 0x10000, ADMIN_CQ = 0x11000, IO_CQ = 0x12000, IO_SQ = 0x13000, PAGE = 0x14000, BLOCKS = 64 };

static const char secret[] = "the launch code is 0000";

/* What a driver keeps of a guest's I/O queue pair. */
typedef struct guest {
    uint32_t number;
    uint32_t sent;
} guest;

static nvmed_status failed(const char *what, nvmed_status status) {
    if (status != NVMED_OK) printf("%s: answered %d\n", what, (int)status);
    return status;
}

static void put32(uint8_t *at, uint32_t value) {
    for (int i = 0; i < 4; i++) at[i] = (uint8_t)(value >> 8 * i);
}

static uint32_t get32(const uint8_t *at) {
    return at[0] | (uint32_t)at[1] << 8 | (uint32_t)at[2] << 16 | (uint32_t)at[3] << 24;
}

/* A submission queue entry of NSID 1. */
static void make_entry(uint8_t entry[64], uint32_t opcode, uint32_t cid, uint64_t prp1, uint32_t cdw10, uint32_t cdw11) {
    memset(entry, 0, 64);
    put32(entry, opcode | cid << 16);
    put32(entry + 4, 1);
    put32(entry + 24, (uint32_t)prp1);
    put32(entry + 28, (uint32_t)(prp1 >> 32));
    put32(entry + 40, cdw10);
    put32(entry + 44, cdw11);
}

/* The host does what is due, as it would between two entries of a guest. */
static void serve(nvmed *m) {
    uint64_t done;
    failed("work", nvmed_work(m, NVMED_OF_ALL, 0, 100000, &done));
}

/* The status of a completion: its type, times 256, and its code; -1 where none is there, which the phase tag tells. */
static int status_at(nvmed *m, uint32_t guest, uint64_t queue, uint32_t slot) {
    uint8_t entry[16];
    if (failed("load", nvmed_load(m, guest, queue + 16 * (uint64_t)slot, entry, sizeof entry)) != NVMED_OK) return -1;
    uint32_t dw3 = get32(entry + 12);
    return dw3 >> 16 & 1 ? (int)(dw3 >> 17 & 0x7ff) : -1;
}

/* Brings a guest's controller up, with one I/O queue pair of 16 slots, and says how large its drive is. */
static void bring_up(nvmed *m, guest *g) {
    uint8_t entries[3][64], page[8];
    uint32_t version;
    make_entry(entries[0], 0x06, 1, PAGE, 0, 0);                      /* Identify, of the namespace */
    make_entry(entries[1], 0x05, 2, IO_CQ, 15u << 16 | 1, 1);         /* Create I/O Completion Queue 1 */
    make_entry(entries[2], 0x01, 3, IO_SQ, 15u << 16 | 1, 1u << 16 | 1); /* Create I/O Submission Queue 1, of that queue */
    failed("store", nvmed_store(m, g->number, ADMIN_SQ, entries, sizeof entries));
    failed("version", nvmed_reg_read(m, g->number, 0x08, &version));
    failed("AQA", nvmed_reg_write(m, g->number, 0x24, 0x001f001f));
    failed("ASQ", nvmed_reg_write(m, g->number, 0x28, ADMIN_SQ));
    failed("ACQ", nvmed_reg_write(m, g->number, 0x30, ADMIN_CQ));
    failed("CC", nvmed_reg_write(m, g->number, 0x14, 0x00460001));
    failed("doorbell", nvmed_doorbell(m, g->number, 0x1000, 3));
    serve(m);
    failed("load", nvmed_load(m, g->number, PAGE, page, sizeof page));
    printf("guest %u: version %x, a drive of %u blocks, admin commands end with %x %x %x\n", (unsigned)g->number, (unsigned)version,
           (unsigned)get32(page), (unsigned)status_at(m, g->number, ADMIN_CQ, 0), (unsigned)status_at(m, g->number, ADMIN_CQ, 1),
           (unsigned)status_at(m, g->number, ADMIN_CQ, 2));
}

/* One command of one block: a Write (01h) or a Read (02h). Its status. */
static int command(nvmed *m, guest *g, uint32_t opcode, uint64_t memory, uint32_t block) {
    uint8_t entry[64];
    uint32_t slot = g->sent++;
    make_entry(entry, opcode, 7, memory, block, 0);
    failed("store", nvmed_store(m, g->number, IO_SQ + 64 * (uint64_t)slot, entry, sizeof entry));
    failed("doorbell", nvmed_doorbell(m, g->number, 0x1008, g->sent));
    serve(m);
    return status_at(m, g->number, IO_CQ, slot);
}

/* Whether the secret stands somewhere in a guest's memory, which is one region: it is looked at where it lies. */
static int has_secret(nvmed *m, uint32_t guest) {
    static uint8_t room[GUEST_BYTES];
    const uint8_t *memory;
    uint64_t count;
    if (failed("memory", nvmed_memory(m, guest, 0, room, sizeof room, &memory, &count)) != NVMED_OK) return -1;
    for (size_t i = 0; i + sizeof secret <= count; i++)
        if (memcmp(memory + i, secret, sizeof secret) == 0) return 1;
    return 0;
}

int main(void) {
    const nvmed_sizes sizes = {0x1000000, 0x400000, 4096, 1};
    const uint32_t limits[2] = {1024, 1024};
    const nvmed_region regions[2] = {{0, 0, 0x100000, GUEST_BYTES}, {1, 0, 0x200000, GUEST_BYTES}};
    const nvmed_extent extents[2] = {{0, 1000, BLOCKS}, {1, 2000, BLOCKS}};
    guest victim = {0, 0}, hostile = {1, 0};
    uint8_t block[512] = {0}, seen[512];
    const uint8_t *at;
    uint32_t kept;
    nvmed m = NVMED_INIT;

    if (failed("new", nvmed_new(&m, &sizes, limits, 2, regions, 2, extents, 2)) != NVMED_OK) return 1;
    bring_up(&m, &victim);
    bring_up(&m, &hostile);

    memcpy(block, secret, sizeof secret);
    failed("store", nvmed_store(&m, victim.number, 0x3000, block, sizeof block));
    printf("guest 0: Write of block 5: %x\n", (unsigned)command(&m, &victim, 0x01, 0x3000, 5));
    printf("guest 0: Read of block 5: %x\n", (unsigned)command(&m, &victim, 0x02, 0x4000, 5));
    failed("load", nvmed_load(&m, victim.number, 0x4000, seen, sizeof seen));
    printf("guest 0: sees \"%s\"\n", (const char *)seen);

    memset(seen, 0xee, sizeof seen);
    failed("store", nvmed_store(&m, hostile.number, 0x4000, seen, sizeof seen));
    printf("guest 1: Read of block 5: %x\n", (unsigned)command(&m, &hostile, 0x02, 0x4000, 5));
    failed("load", nvmed_load(&m, hostile.number, 0x4000, seen, sizeof seen));
    printf("guest 1: sees \"%s\"\n", (const char *)seen);
    printf("guest 1: Read of block 64, behind its drive: %x\n", (unsigned)command(&m, &hostile, 0x02, 0x4000, BLOCKS));
    printf("guest 1: Write from host address 104000h: %x\n", (unsigned)command(&m, &hostile, 0x01, 0x104000, 6));
    printf("guest 1: load from host address 104000h: answered %d\n", (int)nvmed_load(&m, hostile.number, 0x104000, seen, sizeof seen));
    printf("the secret stands in the memory of guest 0: %d, of guest 1: %d\n", has_secret(&m, 0), has_secret(&m, 1));

    failed("block", nvmed_block(&m, 1005, &at));
    failed("kept", nvmed_kept(&m, 1005, &kept));
    printf("the disk's block 1005 has \"%s\", kept: %u\n", (const char *)at, (unsigned)kept);
    failed("block", nvmed_block(&m, 2005, &at));
    printf("the disk's block 2005 has \"%s\"\n", (const char *)at);
    return nvmed_free(&m) != NVMED_OK;
}
