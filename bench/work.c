/* work.c: how long nvmed_work takes, of the library for C, in processor time. bench/c.sh time builds and runs it.
 *
 * First many guests with a command each on the way at once, again and again. Then one guest whose completion queue has two slots, so that of 63
 * Reads that the physical controller has carried out 62 wait until it acknowledges one. Last Reads of one guest whose list names itself, so that it
 * is read until the limit on descriptors ends it: alone, beside another guest's Writes, and by calls of at most 256 and 64 events. */
#include "nvmed.h"
#include <stdio.h>
#include <string.h>
#include <time.h>

enum { IMAGE = 0x20000, BLOCKS = 64, SLOTS = 64, ROUNDS = 300 };

static double seconds(void) { return (double)clock() / CLOCKS_PER_SEC; }

/* A guest stores an entry of a submission queue. */
static void enter(nvmed *m, uint32_t guest, uint64_t at, uint32_t opcode, uint32_t nsid, uint32_t prp1, uint32_t cdw10, uint32_t cdw11) {
    uint32_t dwords[16] = {opcode, nsid, 0, 0, 0, 0, prp1, 0, 0, 0, cdw10, cdw11};
    nvmed_store(m, guest, at, dwords, sizeof dwords);
}

/* Guests with 128 KiB and 64 blocks each, and a queue pair 1 of so many completions and of 64 submissions. */
static int open_guests(nvmed *m, uint32_t guests, uint64_t lanes, uint32_t completions, uint32_t limit) {
    nvmed_sizes sizes = {0x8000000, 0x1000000, 4096, lanes};
    uint32_t limits[16];
    nvmed_region regions[16];
    nvmed_extent extents[16];
    uint64_t done;
    for (uint32_t g = 0; g < guests; g++) {
        limits[g] = limit;
        regions[g] = (nvmed_region){g, 0, 0x100000 + (uint64_t)IMAGE * g, IMAGE};
        extents[g] = (nvmed_extent){g, (uint64_t)BLOCKS * g, BLOCKS};
    }
    if (nvmed_new(m, &sizes, limits, guests, regions, guests, extents, guests) != NVMED_OK) return 1;
    for (uint32_t g = 0; g < guests; g++) {
        enter(m, g, 0x10000, 5 | 1 << 16, 0, 0x12000, 1 | (completions - 1) << 16, 1);
        enter(m, g, 0x10040, 1 | 2 << 16, 0, 0x13000, 1 | (SLOTS - 1) << 16, 1 | 1 << 16);
        nvmed_reg_write(m, g, 0x24, 0x1f001f);
        nvmed_reg_write(m, g, 0x28, 0x10000);
        nvmed_reg_write(m, g, 0x30, 0x11000);
        nvmed_reg_write(m, g, 0x14, 0x460001);
        nvmed_doorbell(m, g, 0x1000, 2);
    }
    return nvmed_work(m, NVMED_OF_ALL, 0, 1000000, &done) != NVMED_OK;
}

/* Each guest has a Read or a Write carried out, and acknowledges its completion, in so many rounds. */
static int many(uint32_t guests, uint64_t lanes) {
    nvmed m = {0};
    uint64_t events = 0, done;
    if (open_guests(&m, guests, lanes, SLOTS, 1024)) return 1;
    double begun = seconds();
    for (uint32_t round = 0; round < ROUNDS; round++) {
        for (uint32_t g = 0; g < guests; g++) {
            enter(&m, g, 0x13000 + 64 * (round % SLOTS), (2 - round % 2) | round << 16, 1, 0x4000, 5, 0);
            nvmed_doorbell(&m, g, 0x1008, (round + 1) % SLOTS);
        }
        nvmed_work(&m, NVMED_OF_ALL, 0, 1000000, &done);
        events += done;
        for (uint32_t g = 0; g < guests; g++) nvmed_doorbell(&m, g, 0x100c, (round + 1) % SLOTS);
    }
    printf("%2u guests, %u lanes: %.2f microseconds an event\n", guests, (uint32_t)lanes, (seconds() - begun) * 1e6 / (double)events);
    nvmed_free(&m);
    return 0;
}

/* One guest has 63 Reads carried out and room for the completion of one. */
static int held(void) {
    nvmed m = {0};
    uint64_t done, none;
    if (open_guests(&m, 1, 1, 2, 1024)) return 1;
    for (uint32_t k = 0; k < SLOTS - 1; k++) enter(&m, 0, 0x13000 + 64 * k, 2 | k << 16, 1, 0x4000, 5, 0);
    nvmed_doorbell(&m, 0, 0x1008, SLOTS - 1);
    double begun = seconds();
    nvmed_work(&m, NVMED_OF_ALL, 0, 1000000, &done);
    double between = seconds();
    for (int call = 0; call < 100; call++) nvmed_work(&m, NVMED_OF_ALL, 0, 1000000, &none);
    double end = seconds();
    printf("63 Reads of which 62 wait: %.3f milliseconds; a call that finds nothing then: %.3f\n", (between - begun) * 1e3, (end - between) * 10);
    nvmed_free(&m);
    return 0;
}

/* Guest 0 has a Read whose list is one Segment that names itself, and so is each of the others. */
static void loop(nvmed *m, uint32_t round) {
    uint32_t segment[4] = {0x8000, 0, 16, 0x20000000};
    uint32_t dwords[16] = {2 | 1 << 14 | round << 16, 1, 0, 0, 0, 0, 0x8000, 0, 16, 0x20000000, 5, 0};
    nvmed_store(m, 0, 0x8000, segment, sizeof segment);
    nvmed_store(m, 0, 0x13000 + 64 * (round % SLOTS), dwords, sizeof dwords);
    nvmed_doorbell(m, 0, 0x1008, (round + 1) % SLOTS);
}

/* Such Reads, and 40 Writes of each other guest while one is under way. A call makes at most `most` events. */
static int looped(uint32_t limit, uint32_t guests, uint64_t most) {
    enum { READS = 20 };
    nvmed m = {0};
    uint64_t events = 0, done;
    double longest = 0, least = 1e9, whole = 0;
    if (open_guests(&m, guests, 1, SLOTS, limit)) return 1;
    for (uint32_t round = 0; round < READS; round++) {
        loop(&m, round);
        for (uint32_t g = 1; g < guests; g++) {
            for (uint32_t k = 0; k < 40; k++) enter(&m, g, 0x13000 + 64 * ((40 * round + k) % SLOTS), 1 | k << 16, 1, 0x4000, 5, 0);
            nvmed_doorbell(&m, g, 0x1008, 40 * (round + 1) % SLOTS);
        }
        double begun = seconds();
        do {
            nvmed_work(&m, NVMED_OF_ALL, 0, most, &done);
            events += done;
        } while (done == most);
        double took = seconds() - begun;
        whole += took;
        if (took > longest) longest = took;
        if (took < least) least = took;
        for (uint32_t g = 0; g < guests; g++) nvmed_doorbell(&m, g, 0x100c, (g ? 40 : 1) * (round + 1) % SLOTS);
    }
    printf("a list that names itself, limit %u, %u guests, calls of %llu events: %.3f milliseconds, %llu events (least %.3f, most %.3f)\n", limit, guests,
           (unsigned long long)most, whole * 1e3 / READS, (unsigned long long)(events / READS), least * 1e3, longest * 1e3);
    nvmed_free(&m);
    return 0;
}

int main(void) {
    enum { ALL = 1000000 };
    if (many(1, 1) || many(16, 1) || many(16, 8) || held()) return 1;
    return looped(1024, 1, ALL) || looped(4096, 1, ALL) || looped(1024, 2, ALL) || looped(4096, 2, ALL) || looped(1024, 1, 256) || looped(4096, 1, 256)
        || looped(1024, 1, 64) || looped(4096, 1, 64);
}
