/* The calls of a mediator over the host's memory and drive with wrong arguments, as bench/wrong/c.c has them for a simulation: each has to answer one of
 * its statuses, and to leave its outputs as it says. Prints how many calls there were of each function. */
#include <stdlib.h>

#include "calls.h"

enum { HOST_BYTES = 0x1000000, AREA = 0x400000, LANE_BYTES = 8663040 };

static uint8_t *memory;
static const nvmed_sizes good = {HOST_BYTES, AREA, 4096, 1};
static const uint32_t limits[17] = {1024, 1024, 1, 1, 1, 1, 1, 1, 1, 1, 1, 1, 1, 1, 1, 1, 1};
static const nvmed_region regions[1] = {{0, 0, 0x100000, 0x20000}};
static const nvmed_extent extents[1] = {{0, 1000, 64}};

/* A set-up of these sizes, which has to be answered so: no byte of the memory has changed, and the handle stays empty. */
static void refused(const char *what, nvmed_status status, nvmed_sizes sizes, nvmed_region region, nvmed_extent extent, uint32_t limit) {
    nvmed m = NVMED_INIT;
    want(what, status, nvmed_serve(&m, memory, &sizes, &limit, 1, &region, 1, &extent, 1));
    left(what, memory[AREA + 0x2000] == 0xee && m.memory == NULL && m.bytes == 0);
    want(what, NVMED_NO_MEDIATOR, nvmed_free(&m));
}

/* Guests with eight extents each: one command of each may need as many tags, and a lane has 64. */
static nvmed_status crowded(nvmed *m, uint32_t guests) {
    nvmed_extent many[128];
    for (uint32_t i = 0; i < 8 * guests; i++) many[i] = (nvmed_extent){i / 8, 2 * i, 1};
    return nvmed_serve(m, memory, &good, limits, guests, regions, 1, many, 8 * guests);
}

static void set_ups(void) {
    nvmed m = NVMED_INIT;
    nvmed_sizes s = good;
    nvmed_region r = regions[0];
    nvmed_extent e = extents[0];
    want("no handle", NVMED_NULL, nvmed_serve(NULL, memory, &good, limits, 1, regions, 1, extents, 1));
    want("no memory", NVMED_NULL, nvmed_serve(&m, NULL, &good, limits, 1, regions, 1, extents, 1));
    want("no sizes", NVMED_NULL, nvmed_serve(&m, memory, NULL, limits, 1, regions, 1, extents, 1));
    want("no limits", NVMED_NULL, nvmed_serve(&m, memory, &good, NULL, 1, regions, 1, extents, 1));
    want("no regions", NVMED_NULL, nvmed_serve(&m, memory, &good, limits, 1, NULL, 1, extents, 1));
    want("no extents", NVMED_NULL, nvmed_serve(&m, memory, &good, limits, 1, regions, 1, NULL, 1));
    want("17 guests", NVMED_TOO_MANY_GUESTS, nvmed_serve(&m, memory, &good, limits, 17, regions, 1, extents, 1));
    want("a guest without extents", NVMED_BAD_SIZE, nvmed_serve(&m, memory, &good, limits, 2, regions, 1, extents, 1));
    count("nvmed_serve(");
    left("72 extents", crowded(&m, 9) == NVMED_BAD_SIZE && memory[AREA + 0x2000] == 0xee);
    refused("a limit of 0", NVMED_BAD_SIZE, good, r, e, 0);
    refused("a limit of 4,097", NVMED_BAD_SIZE, good, r, e, 4097);
    for (int i = 0; i < WIDE; i++) {
        s = good, s.lanes = wide[i] == 1 ? 9 : wide[i];
        refused("lanes", NVMED_BAD_SIZE, s, r, e, 1024);
        s = good, s.mediator = wide[i] > 4096 ? wide[i] : good.mediator + 1 + 2 * wide[i];
        refused("area", NVMED_BAD_SIZE, s, r, e, 1024);
        e.blocks = wide[i] == 1 || wide[i] == 511 ? 0 : wide[i];
        refused("blocks", NVMED_BAD_SIZE, good, r, e, 1024);
        e = extents[0];
        r.bytes = wide[i] % 4096 ? wide[i] : 0;
        refused("bytes", NVMED_UNALIGNED, good, r, e, 1024);
        r = regions[0], r.host = HOST_BYTES + (wide[i] & 0x7ffffffffffff000);
        refused("host", NVMED_OUTSIDE_HOST, good, r, e, 1024);
        r = regions[0];
    }
    r.host = AREA;
    refused("in the area", NVMED_MAPS_MEET, good, r, e, 1024);
    for (int i = 96; i < POWERS; i++) {
        s = good, s.host_bytes = power(i);
        refused("memory", NVMED_BAD_SIZE, s, regions[0], e, 1024);
        s = good, s.disk_blocks = power(i) <= (uint64_t)1 << 48 ? 0 : power(i);
        refused("disk", NVMED_BAD_SIZE, s, regions[0], e, 1024);
    }
}

/* The calls that are for a host alone, on a handle that is null, that holds nothing, or that holds a simulation. */
static void not_for(nvmed *m, nvmed_status status) {
    nvmed_lane_rings rings;
    nvmed_seen seen;
    nvmed_posted_seen stood;
    uint16_t vectors[NVMED_VECTORS];
    uint32_t some = 7, changed = 7, posted = 7;
    memset(&rings, 0x5a, sizeof rings);
    memset(&seen, 0x5a, sizeof seen);
    memset(&stood, 0x5a, sizeof stood);
    for (int i = 0; i < NUMBERS; i++) {
        uint32_t n = numbers[i];
        nvmed_status answer = n > 255 && status != NVMED_NULL ? NVMED_NO_SUCH : status;
        want("rings", answer, nvmed_rings(m, n, &rings));
        want("close", answer, nvmed_close(m, n));
        want("pending", answer, nvmed_pending(m, n, vectors, &some));
        left("rings and pending", rings.entries == 0x5a5a5a5a && (status == NVMED_NULL || some == 0));
        want("posted", answer, nvmed_posted(m, n, &stood, vectors, &posted));
        left("posted", stood.queues[n % NVMED_VECTORS].tail == 0x5a5a && (status == NVMED_NULL || posted == 0));
        want("share", answer, nvmed_share(m, n, 64));
        want("changed", status, nvmed_changed(m, &seen, &changed));
        left("changed", seen.vectors[n % 16][n % NVMED_VECTORS] == 0x5a5a5a5a && (status == NVMED_NULL || changed == 0));
    }
}

/* Null pointers beside a handle that serves, and numbers of lanes and guests. */
static void numbers_everywhere(nvmed *m) {
    nvmed_lane_rings rings;
    nvmed_seen seen;
    nvmed_posted_seen stood;
    uint16_t vectors[NVMED_VECTORS];
    uint32_t count = 7, word;
    uint64_t done;
    const uint8_t *at;
    uint8_t bytes[8];
    memset(&seen, 0, sizeof seen);
    want("rings", NVMED_NULL, nvmed_rings(m, 0, NULL));
    want("pending", NVMED_NULL, nvmed_pending(m, 0, NULL, &count));
    want("pending", NVMED_NULL, nvmed_pending(m, 0, vectors, NULL));
    memset(&stood, 0x5a, sizeof stood);
    want("posted", NVMED_NULL, nvmed_posted(m, 0, NULL, vectors, &count));
    want("posted", NVMED_NULL, nvmed_posted(m, 0, &stood, NULL, &count));
    want("posted", NVMED_NULL, nvmed_posted(m, 0, &stood, vectors, NULL));
    want("changed", NVMED_NULL, nvmed_changed(m, NULL, &count));
    want("changed", NVMED_NULL, nvmed_changed(m, &seen, NULL));
    want("a second mediator", NVMED_IN_USE, nvmed_serve(m, memory, &good, limits, 1, regions, 1, extents, 1));
    want("a simulation beside it", NVMED_IN_USE, nvmed_new(m, &good, limits, 1, regions, 1, extents, 1));
    for (int i = 0; i < NUMBERS; i++) {
        uint32_t n = numbers[i];
        want("rings", n ? NVMED_NO_SUCH : NVMED_OK, nvmed_rings(m, n, &rings));
        if (n) want("close", NVMED_NO_SUCH, nvmed_close(m, n));
        want("pending", n == 0 ? NVMED_OK : n > 255 ? NVMED_NO_SUCH : NVMED_IGNORED, nvmed_pending(m, n, vectors, &count));
        left("pending", count == 0);
        stood.queues[i % NVMED_VECTORS].head = 0x5a5a;
        want("posted", n == 0 ? NVMED_OK : n > 255 ? NVMED_NO_SUCH : NVMED_IGNORED, nvmed_posted(m, n, &stood, vectors, &count));
        left("posted", count == 0 && stood.queues[i % NVMED_VECTORS].head == (n == 0 ? 0 : 0x5a5a));
        want("share", n == 0 ? NVMED_OK : n > 255 ? NVMED_NO_SUCH : NVMED_IGNORED, nvmed_share(m, n, 64));
        want("share", n >= 1 && n <= 64 ? NVMED_OK : NVMED_BAD_SIZE, nvmed_share(m, 0, n));
        want("memory", NVMED_NO_SUCH, nvmed_memory(m, n == 1 || n > 255 ? 0 : n, 0, bytes, sizeof bytes, &at, &done));
        want("block", NVMED_NO_SUCH, nvmed_block(m, n, &at));
        want("kept", NVMED_NO_SUCH, nvmed_kept(m, n, &word));
        any("work", nvmed_work(m, n, n, n, &done));
        for (uint32_t kind = 0; kind < 14; kind++) {
            nvmed_event event = {kind, n, n, n, n, n, n, n, n, n, n};
            any("due", nvmed_due(m, &event, &word));
            if (kind >= NVMED_DEV_TAKE && kind <= NVMED_KEEP) want("an event of the drive", NVMED_NO_SUCH, nvmed_step(m, &event));
            else any("step", nvmed_step(m, &event));
        }
    }
    left("rings", rings.submission == AREA && rings.completion == AREA + 0x2000 && rings.entries == 65 && !rings.tail && !rings.head && !rings.closed);
    for (int i = 0; i < POWERS; i++) {
        uint64_t p = power(i);
        nvmed_status whole = p <= 0x20000 - sizeof bytes ? NVMED_OK : NVMED_UNMAPPED;
        memset(bytes, (int)i, sizeof bytes);
        want("store", whole, nvmed_store(m, 0, p, bytes, sizeof bytes));
        memset(bytes, 0, sizeof bytes);
        want("load", whole, nvmed_load(m, 0, p, bytes, sizeof bytes));
        left("store and load", whole != NVMED_OK || (bytes[0] == (uint8_t)i && memory[0x100000 + p] == (uint8_t)i));
        want("rings", (uint32_t)p ? NVMED_NO_SUCH : NVMED_OK, nvmed_rings(m, (uint32_t)p, &rings));
        want("pending", (uint32_t)p > 255 ? NVMED_NO_SUCH : (uint32_t)p ? NVMED_IGNORED : NVMED_OK, nvmed_pending(m, (uint32_t)p, vectors, &count));
        seen.vectors[0][i % NVMED_VECTORS] = seen.vectors[1][0] = (uint32_t)p;
        want("changed", NVMED_OK, nvmed_changed(m, &seen, &count));
        left("changed", count == ((uint32_t)p != 0) && seen.vectors[0][i % NVMED_VECTORS] == 0 && seen.vectors[1][0] == (uint32_t)p);
        want("changed", NVMED_OK, nvmed_changed(m, &seen, &count));
        left("changed", count == 0);
        want("share", (uint32_t)p >= 1 && (uint32_t)p <= 64 ? NVMED_OK : NVMED_BAD_SIZE, nvmed_share(m, 0, (uint32_t)p));
        want("memory", NVMED_NO_SUCH, nvmed_memory(m, 0, p, bytes, sizeof bytes, &at, &done));
        want("block", NVMED_NO_SUCH, nvmed_block(m, p, &at));
        want("kept", NVMED_NO_SUCH, nvmed_kept(m, p, &word));
        any("work", nvmed_work(m, NVMED_OF_LANE, 0, p, &done));
        any("reg_read", nvmed_reg_read(m, 0, (uint32_t)p, &word));
        any("reg_write", nvmed_reg_write(m, 0, (uint32_t)p, 0));
        any("doorbell", nvmed_doorbell(m, 0, (uint32_t)p, 0));
    }
}

/* A completion that names no command is a stray one: the lane is closed then, once or more often, and nothing is taken for it. */
static void stray(nvmed *m) {
    nvmed_event reap, take;
    nvmed_lane_rings rings;
    uint64_t done;
    memset(&reap, 0, sizeof reap);
    memset(&take, 0, sizeof take);
    reap.kind = NVMED_REAP;
    take.kind = NVMED_TAKE;
    take.queue = 1;
    want("nothing to reap", NVMED_IDLE, nvmed_step(m, &reap));
    memory[AREA + 0x2000 + 10] = 1;
    memory[AREA + 0x2000 + 14] = 1;
    want("a stray completion", NVMED_STRAY, nvmed_step(m, &reap));
    want("a stray completion", NVMED_STRAY, nvmed_work(m, NVMED_OF_ALL, 0, 10, &done));
    left("work", done == 0);
    for (int i = 0; i < 100; i++) want("close", NVMED_OK, nvmed_close(m, 0));
    want("rings", NVMED_OK, nvmed_rings(m, 0, &rings));
    left("rings", rings.closed == 1);
    want("nothing to reap", NVMED_IDLE, nvmed_step(m, &reap));
    want("a lane that was closed", NVMED_CLOSED, nvmed_step(m, &take));
}

int main(void) {
    nvmed m = NVMED_INIT, simulation = NVMED_INIT;
    memory = (uint8_t *)malloc(HOST_BYTES);
    if (!memory) return 1;
    memset(memory, 0xee, HOST_BYTES);
    set_ups();
    not_for(NULL, NVMED_NULL);
    not_for(&m, NVMED_NO_MEDIATOR);
    want("new", NVMED_OK, nvmed_new(&simulation, &good, limits, 1, regions, 1, extents, 1));
    not_for(&simulation, NVMED_NO_SUCH);
    want("free", NVMED_OK, nvmed_free(&simulation));
    want("serve", NVMED_OK, nvmed_serve(&m, memory, &good, limits, 1, regions, 1, extents, 1));
    left("the rings are clear, and nothing else", memory[AREA + 0x2000] == 0 && memory[AREA + 0x2000 + 65 * 16 - 1] == 0 && memory[AREA] == 0xee
         && memory[AREA + LANE_BYTES - 1] == 0xee && memory[0] == 0xee);
    numbers_everywhere(&m);
    stray(&m);
    want("free", NVMED_OK, nvmed_free(&m));
    count("nvmed_serve(");
    left("64 extents", crowded(&m, 8) == NVMED_OK);
    want("shares of 8 each", NVMED_BAD_SIZE, nvmed_share(&m, 7, 9));
    want("shares of 8 each", NVMED_OK, nvmed_share(&m, 7, 8));
    want("free", NVMED_OK, nvmed_free(&m));
    left("free", m.memory == NULL && m.bytes == 0);
    want("free again", NVMED_NO_MEDIATOR, nvmed_free(&m));
    free(memory);
    return sum_up();
}
