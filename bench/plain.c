/* plain.c: what a command costs of a mediator in plain C that proves nothing, beside bench/serving.c. bench/c.sh time builds and runs it.
 *
 * It has no registers, no admin commands, no lists and no shares: just what a Read or a Write of at most two pages needs from a guest's queue to the drive
 * and back. Guests, queues, rings, commands and drive are those of serving.c, and time is counted in the same way. */
#define _POSIX_C_SOURCE 200809L
#include <stdint.h>
#include <stdio.h>
#include <stdlib.h>
#include <string.h>
#include <time.h>
#include <x86intrin.h>

enum { IMAGE = 0x80000, BLOCKS = 64, SLOTS = 64, TURNS = 7, FIRST = 0x100000, AREA = 0x4000000, HOST_BYTES = 0x9000000, PAGE = 4096, BLOCK = 512 };
enum { IO_CQ = 0x12000, IO_SQ = 0x13000, DATA = 0x20000, ENTRY = 64, COMPLETION = 16, RING = 65, TAGS = 64, LANE_BYTES = 0x10000 };
enum { WRITE = 1, READ = 2, SUCCESS = 0, INVALID_OPCODE = 1, INVALID_FIELD = 2, INVALID_NAMESPACE = 0xb, OUT_OF_RANGE = 0x80, MISPLACED = 0x13, NOT_MAPPED = 4 };

typedef struct guest {
    uint64_t address, host, bytes;  /* its memory: one region */
    uint64_t first, blocks;         /* its blocks: one extent */
    uint32_t head, tail, posted, acknowledged, phase;
} guest;

typedef struct tag {
    uint16_t identifier;
    uint8_t guest;
} tag;

typedef struct lane {
    uint32_t tail, head, phase;             /* of the mediator */
    uint32_t taken, posted, drive_phase;    /* of the drive */
    uint64_t free;
    tag tags[TAGS];
} lane;

typedef struct host {
    uint8_t *memory;
    uint32_t guests, lanes, depth;
    guest guest[16];
    lane lane[8];
    uint64_t cycles;
} host;

static double nanoseconds_of_a_cycle;

static void give_up(const char *why) {
    fprintf(stderr, "plain: %s\n", why);
    exit(1);
}

static void calibrate(void) {
    struct timespec from, to;
    clock_gettime(CLOCK_MONOTONIC, &from);
    uint64_t cycles = __rdtsc();
    do clock_gettime(CLOCK_MONOTONIC, &to);
    while ((double)(to.tv_sec - from.tv_sec) * 1e9 + (double)(to.tv_nsec - from.tv_nsec) < 5e7);
    cycles = __rdtsc() - cycles;
    nanoseconds_of_a_cycle = ((double)(to.tv_sec - from.tv_sec) * 1e9 + (double)(to.tv_nsec - from.tv_nsec)) / (double)cycles;
}

static uint64_t get(const uint8_t *bytes, uint32_t length) {
    uint64_t value = 0;
    memcpy(&value, bytes, length);
    return value;
}

static uint64_t submission(uint32_t number) { return AREA + (uint64_t)number * LANE_BYTES; }
static uint64_t completion(uint32_t number) { return submission(number) + 2 * PAGE; }

/* ---- the mediator */

/* The host's address of a page of a guest's; 0 where it is not mapped. */
static uint64_t page_of(const guest *g, uint64_t address) {
    if (address < g->address || address - g->address > g->bytes - PAGE) return 0;
    return g->host + (address - g->address);
}

/* The physical entry of a guest's. */
static uint32_t translate(const guest *g, const uint8_t *entry, uint32_t number, uint8_t *physical) {
    uint64_t block = get(entry + 40, 8), count = get(entry + 48, 2) + 1, one = get(entry + 24, 8), two = get(entry + 32, 8);
    if (entry[0] != READ && entry[0] != WRITE) return INVALID_OPCODE;
    if (entry[1] & 0xc3) return INVALID_FIELD;
    if (get(entry + 4, 4) != 1) return INVALID_NAMESPACE;
    if (block > g->blocks || count > g->blocks - block) return OUT_OF_RANGE;
    if (one % PAGE != 0 || (count * BLOCK > PAGE && two % PAGE != 0) || count * BLOCK > 2 * PAGE) return MISPLACED;
    one = page_of(g, one);
    two = count * BLOCK > PAGE ? page_of(g, two) : 0;
    if (!one || (count * BLOCK > PAGE && !two)) return NOT_MAPPED;
    uint32_t dwords[16] = {entry[0] | number << 16, 1, 0, 0, 0, 0, (uint32_t)one, (uint32_t)(one >> 32), (uint32_t)two, (uint32_t)(two >> 32)};
    block += g->first;
    dwords[10] = (uint32_t)block;
    dwords[11] = (uint32_t)(block >> 32);
    dwords[12] = (uint32_t)(count - 1);
    memcpy(physical, dwords, sizeof dwords);
    return SUCCESS;
}

static void post(host *h, guest *g, uint16_t identifier, uint32_t status) {
    uint32_t dwords[4] = {0, 0, g->head | 1 << 16, identifier | g->phase << 16 | status << 17};
    memcpy(h->memory + g->host + IO_CQ + COMPLETION * (uint64_t)g->posted, dwords, sizeof dwords);
    g->posted = (g->posted + 1) % SLOTS;
    if (g->posted == 0) g->phase ^= 1;
}

static uint32_t take(host *h, uint32_t number) {
    guest *g = &h->guest[number];
    lane *l = &h->lane[number % h->lanes];
    uint32_t done = 0;
    while (g->head != g->tail && l->free) {
        uint8_t entry[ENTRY], physical[ENTRY];
        uint32_t free = (uint32_t)__builtin_ctzll(l->free);
        memcpy(entry, h->memory + g->host + IO_SQ + ENTRY * (uint64_t)g->head, ENTRY);
        g->head = (g->head + 1) % SLOTS;
        uint32_t status = translate(g, entry, free, physical);
        if (status) {
            post(h, g, (uint16_t)get(entry + 2, 2), status);
        } else {
            l->free &= l->free - 1;
            l->tags[free] = (tag){(uint16_t)get(entry + 2, 2), (uint8_t)number};
            memcpy(h->memory + submission(number % h->lanes) + ENTRY * (uint64_t)l->tail, physical, ENTRY);
            l->tail = (l->tail + 1) % RING;
        }
        done++;
    }
    return done;
}

static uint32_t reap(host *h, uint32_t number) {
    lane *l = &h->lane[number];
    uint32_t done = 0;
    for (;; done++) {
        uint8_t bytes[COMPLETION];
        memcpy(bytes, h->memory + completion(number) + COMPLETION * (uint64_t)l->head, COMPLETION);
        if ((bytes[14] & 1u) != l->phase) return done;
        uint32_t of = (uint32_t)get(bytes + 12, 2);
        if (of >= TAGS || l->free >> of & 1) give_up("a completion that names no command");
        guest *g = &h->guest[l->tags[of].guest];
        if ((g->posted + 1) % SLOTS == g->acknowledged) return done;
        post(h, g, l->tags[of].identifier, (uint32_t)get(bytes + 14, 2) >> 1);
        l->free |= UINT64_C(1) << of;
        l->head = (l->head + 1) % RING;
        if (l->head == 0) l->phase ^= 1;
    }
}

static void work(host *h, uint32_t wanted) {
    uint32_t done = 0, more;
    uint64_t from = __rdtsc();
    do {
        more = 0;
        for (uint32_t number = 0; number < h->lanes; number++) more += reap(h, number);
        for (uint32_t number = 0; number < h->guests; number++) more += take(h, number);
        done += more;
    } while (more);
    h->cycles += __rdtsc() - from;
    if (done != wanted) give_up("it did something else");
}

/* ---- guests and drive */

static void send(host *h, guest *g) {
    for (uint32_t k = 0; k < h->depth; k++) {
        uint32_t dwords[16] = {READ | k << 16, 1, 0, 0, 0, 0, DATA + PAGE * k, 0, 0, 0, 8 * (k % 8), 0, 7};
        memcpy(h->memory + g->host + IO_SQ + ENTRY * (uint64_t)g->tail, dwords, sizeof dwords);
        g->tail = (g->tail + 1) % SLOTS;
    }
}

static void complete_all(host *h) {
    for (uint32_t number = 0; number < h->lanes; number++) {
        lane *l = &h->lane[number];
        while (l->taken != l->tail) {
            uint32_t identifier = (uint32_t)get(h->memory + submission(number) + ENTRY * (uint64_t)l->taken + 2, 2);
            l->taken = (l->taken + 1) % RING;
            uint32_t dwords[4] = {0, 0, l->taken | (number + 1) << 16, identifier | l->drive_phase << 16};
            memcpy(h->memory + completion(number) + COMPLETION * (uint64_t)l->posted, dwords, sizeof dwords);
            l->posted = (l->posted + 1) % RING;
            if (l->posted == 0) l->drive_phase ^= 1;
        }
    }
}

/* Nanoseconds a command, of one turn. */
static double turn(host *h, uint32_t rounds) {
    uint32_t commands = h->guests * h->depth;
    h->cycles = 0;
    for (uint32_t round = 0; round < rounds; round++) {
        for (uint32_t k = 0; k < h->guests; k++) send(h, &h->guest[k]);
        work(h, commands);
        complete_all(h);
        work(h, commands);
        for (uint32_t k = 0; k < h->guests; k++) h->guest[k].acknowledged = h->guest[k].posted;
    }
    return (double)h->cycles * nanoseconds_of_a_cycle / ((double)commands * rounds);
}

static void measure(uint32_t guests, uint32_t lanes, uint32_t depth) {
    static host h;
    double best = 0;
    memset(&h, 0, sizeof h);
    h.memory = (uint8_t *)calloc(1, HOST_BYTES);
    if (!h.memory) give_up("out of memory");
    h.guests = guests;
    h.lanes = lanes;
    h.depth = depth;
    for (uint32_t k = 0; k < guests; k++)
        h.guest[k] = (guest){.host = FIRST + (uint64_t)IMAGE * k, .bytes = IMAGE, .first = (uint64_t)BLOCKS * k, .blocks = BLOCKS, .phase = 1};
    for (uint32_t k = 0; k < lanes; k++) h.lane[k] = (lane){.phase = 1, .drive_phase = 1, .free = UINT64_MAX};
    for (int k = 0; k < TURNS; k++) {
        double took = turn(&h, 20000 / (guests * depth) + 1);
        if (best == 0 || took < best) best = took;
    }
    printf("%2u guests, %u lanes, %2u commands each: %4.0f ns a command of a plain program without lists, registers and shares\n", guests, lanes, depth, best);
    free(h.memory);
}

int main(void) {
    calibrate();
    measure(1, 1, 1);
    measure(1, 1, 32);
    measure(16, 8, 1);
    measure(16, 8, 32);
    return 0;
}
