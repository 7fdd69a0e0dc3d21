/* serving.c: what a command costs of the library for C over the host's memory and a drive that completes at once. bench/c.sh time builds and runs it.
 *
 * Guests have Reads of 4 KiB on the way, so many at once, on so many lanes. The mediator's events for them (Take, Submit, Reap, Post) are made by nvmed_step,
 * one by one, and then by nvmed_work, by turns; and it is asked for work where there is none. Time is that of these calls alone, by the processor's counter of
 * cycles: guests' stores and doorbells, and the drive, which moves no data, are left out. Each figure is the least of several turns. */
#define _POSIX_C_SOURCE 200809L
#include "nvmed.h"
#include <stdio.h>
#include <stdlib.h>
#include <string.h>
#include <time.h>
#include <x86intrin.h>

enum { IMAGE = 0x80000, BLOCKS = 64, SLOTS = 64, TURNS = 7, FIRST = 0x100000, AREA = 0x4000000, HOST_BYTES = 0x9000000 };
enum { ADMIN_SQ = 0x10000, ADMIN_CQ = 0x11000, IO_CQ = 0x12000, IO_SQ = 0x13000, DATA = 0x20000 };

typedef struct lane_drive {
    nvmed_lane_rings rings;
    uint32_t head, posted, phase;
} lane_drive;

typedef struct host {
    nvmed mediator;
    uint8_t *memory;
    uint32_t guests, lanes, depth;
    uint32_t tail[16], completed[16];
    lane_drive drive[8];
    uint64_t cycles;
} host;

static double nanoseconds_of_a_cycle;

static void give_up(const char *why) {
    fprintf(stderr, "serving: %s\n", why);
    exit(1);
}

static void calibrate(void) {
    struct timespec from, to;
    clock_gettime(CLOCK_MONOTONIC, &from);
    uint64_t cycles = __rdtsc();
    do clock_gettime(CLOCK_MONOTONIC, &to);
    while ((double)(to.tv_sec - from.tv_sec) * 1e9 + (double)(to.tv_nsec - from.tv_nsec) < 5e7);
    cycles = __rdtsc() - cycles;
    nanoseconds_of_a_cycle = ((double)(to.tv_sec - from.tv_sec) * 1e9 + (double)(to.tv_nsec - from.tv_nsec)) / (double)cycles;
}

/* ---- guests */

static uint8_t *image_of(host *h, uint32_t guest) { return h->memory + FIRST + (uint64_t)guest * IMAGE; }

static void enter(host *h, uint32_t guest, uint32_t at, uint32_t opcode, uint32_t prp1, uint32_t cdw10, uint32_t cdw11, uint32_t cdw12) {
    uint32_t dwords[16] = {opcode, 1, 0, 0, 0, 0, prp1, 0, 0, 0, cdw10, cdw11, cdw12};
    memcpy(image_of(h, guest) + at, dwords, sizeof dwords);
}

static void send(host *h, uint32_t guest) {
    for (uint32_t k = 0; k < h->depth; k++) {
        enter(h, guest, IO_SQ + 64 * h->tail[guest], 2 | k << 16, DATA + 4096 * k, 8 * (k % 8), 0, 7);
        h->tail[guest] = (h->tail[guest] + 1) % SLOTS;
    }
    nvmed_doorbell(&h->mediator, guest, 0x1008, h->tail[guest]);
}

static void acknowledge(host *h, uint32_t guest) {
    h->completed[guest] = (h->completed[guest] + h->depth) % SLOTS;
    nvmed_doorbell(&h->mediator, guest, 0x100c, h->completed[guest]);
}

/* ---- the drive */

static void complete_all(host *h) {
    for (uint32_t lane = 0; lane < h->lanes; lane++) {
        lane_drive *d = &h->drive[lane];
        nvmed_rings(&h->mediator, lane, &d->rings);
        while (d->head != d->rings.tail) {
            uint16_t identifier;
            memcpy(&identifier, h->memory + d->rings.submission + 64 * (uint64_t)d->head + 2, 2);
            d->head = (d->head + 1) % d->rings.entries;
            uint32_t dwords[4] = {0, 0, d->head | (lane + 1) << 16, identifier | d->phase << 16};
            memcpy(h->memory + d->rings.completion + 16 * (uint64_t)d->posted, dwords, sizeof dwords);
            d->posted = (d->posted + 1) % d->rings.entries;
            if (d->posted == 0) d->phase ^= 1;
        }
    }
}

/* ---- the mediator */

static void work(host *h, uint64_t wanted) {
    uint64_t done = 0, from = __rdtsc();
    nvmed_status status = nvmed_work(&h->mediator, NVMED_OF_ALL, 0, 1000000, &done);
    h->cycles += __rdtsc() - from;
    if (status != NVMED_OK || done != wanted) give_up("nvmed_work did something else");
}

static void step(host *h, const nvmed_event *event) {
    if (nvmed_step(&h->mediator, event) != NVMED_OK) give_up("nvmed_step did something else");
}

/* Commands of all guests get their tags in turn: lane 0 has those of its guests first. */
static void by_steps(host *h, int first) {
    uint32_t tags[8] = {0};
    uint64_t from = __rdtsc();
    for (uint32_t guest = 0; guest < h->guests; guest++) {
        uint32_t lane = guest % h->lanes;
        for (uint32_t k = 0; k < h->depth; k++, tags[lane]++) {
            if (first) {
                nvmed_event take = {.kind = NVMED_TAKE, .guest = guest, .queue = 1, .lane = lane};
                nvmed_event submit = {.kind = NVMED_SUBMIT, .lane = lane, .tag = tags[lane]};
                step(h, &take);
                step(h, &submit);
            } else {
                nvmed_event reap = {.kind = NVMED_REAP, .lane = lane};
                nvmed_event post = {.kind = NVMED_POST, .lane = lane, .tag = tags[lane]};
                step(h, &reap);
                step(h, &post);
            }
        }
    }
    h->cycles += __rdtsc() - from;
}

static void open_host(host *h, uint32_t guests, uint32_t lanes, uint32_t depth, uint32_t completions) {
    nvmed_sizes sizes = {HOST_BYTES, AREA, (uint64_t)BLOCKS * 16, lanes};
    uint32_t limits[16];
    nvmed_region regions[16];
    nvmed_extent extents[16];
    memset(h, 0, sizeof *h);
    h->guests = guests;
    h->lanes = lanes;
    h->depth = depth;
    h->memory = (uint8_t *)calloc(1, HOST_BYTES);
    if (!h->memory) give_up("out of memory");
    for (uint32_t g = 0; g < guests; g++) {
        limits[g] = 1024;
        regions[g] = (nvmed_region){g, 0, FIRST + (uint64_t)IMAGE * g, IMAGE};
        extents[g] = (nvmed_extent){g, (uint64_t)BLOCKS * g, BLOCKS};
    }
    if (nvmed_serve(&h->mediator, h->memory, &sizes, limits, guests, regions, guests, extents, guests) != NVMED_OK) give_up("nvmed_serve refused");
    for (uint32_t lane = 0; lane < lanes; lane++) h->drive[lane].phase = 1;
    for (uint32_t g = 0; g < guests; g++) {
        enter(h, g, ADMIN_SQ, 5, IO_CQ, 1 | (completions - 1) << 16, 1, 0);
        enter(h, g, ADMIN_SQ + 64, 1, IO_SQ, 1 | (SLOTS - 1) << 16, 1 | 1 << 16, 0);
        nvmed_reg_write(&h->mediator, g, 0x24, 0x1f001f);
        nvmed_reg_write(&h->mediator, g, 0x28, ADMIN_SQ);
        nvmed_reg_write(&h->mediator, g, 0x30, ADMIN_CQ);
        nvmed_reg_write(&h->mediator, g, 0x14, 0x460001);
        nvmed_doorbell(&h->mediator, g, 0x1000, 2);
    }
    work(h, 2 * (uint64_t)guests);
    for (uint32_t g = 0; g < guests; g++) nvmed_doorbell(&h->mediator, g, 0x1004, 2);
    work(h, 0);
}

static void close_host(host *h) {
    nvmed_free(&h->mediator);
    free(h->memory);
}

/* Nanoseconds a command, of one turn. */
static double turn(host *h, uint32_t rounds, int steps) {
    uint64_t commands = (uint64_t)h->guests * h->depth;
    h->cycles = 0;
    for (uint32_t round = 0; round < rounds; round++) {
        for (uint32_t g = 0; g < h->guests; g++) send(h, g);
        if (steps) by_steps(h, 1);
        else work(h, 2 * commands);
        complete_all(h);
        if (steps) by_steps(h, 0);
        else work(h, 2 * commands);
        for (uint32_t g = 0; g < h->guests; g++) acknowledge(h, g);
    }
    return (double)h->cycles * nanoseconds_of_a_cycle / (double)(commands * rounds);
}

static double least(double a, double b) { return a == 0 || b < a ? b : a; }

/* Nanoseconds of a call of nvmed_work that finds nothing. */
static double idle(host *h) {
    enum { CALLS = 10000 };
    double best = 0;
    for (int k = 0; k < TURNS; k++) {
        h->cycles = 0;
        for (int call = 0; call < CALLS; call++) work(h, 0);
        best = least(best, (double)h->cycles * nanoseconds_of_a_cycle / CALLS);
    }
    return best;
}

static void measure(uint32_t guests, uint32_t lanes, uint32_t depth) {
    static host h;
    double stepped = 0, worked = 0;
    uint32_t rounds = 20000 / (guests * depth) + 1;
    open_host(&h, guests, lanes, depth, SLOTS);
    for (int k = 0; k < TURNS; k++) {
        stepped = least(stepped, turn(&h, rounds, 1));
        worked = least(worked, turn(&h, rounds, 0));
    }
    printf("%2u guests, %u lanes, %2u commands each: nvmed_step %4.0f ns a command, nvmed_work %4.0f, ratio %.2f; nothing to do: %3.0f ns\n", guests, lanes,
           depth, stepped, worked, worked / stepped, idle(&h));
    close_host(&h);
}

/* Guest 1 has one Read at a time, beside guest 0, which has so many commands on each lane that wait for room, but for one; or none. */
static double beside(uint32_t lanes, uint32_t share) {
    static host h;
    double best = 0;
    uint32_t held = share * lanes;
    open_host(&h, 2, lanes, 1, held ? 2 : SLOTS);
    if (held) {
        if (nvmed_share(&h.mediator, 1, 1) != NVMED_OK || nvmed_share(&h.mediator, 0, share) != NVMED_OK) give_up("nvmed_share refused");
        h.depth = held;
        send(&h, 0);
        work(&h, 2 * held);
        complete_all(&h);
        work(&h, held + 1);
        h.depth = 1;
    }
    for (int k = 0; k < TURNS; k++) {
        h.cycles = 0;
        for (uint32_t round = 0; round < 10000; round++) {
            send(&h, 1);
            work(&h, 2);
            complete_all(&h);
            work(&h, 2);
            h.completed[1] = (h.completed[1] + 1) % (held ? 2 : SLOTS);
            nvmed_doorbell(&h.mediator, 1, 0x100c, h.completed[1]);
        }
        best = least(best, (double)h.cycles * nanoseconds_of_a_cycle / 10000);
    }
    close_host(&h);
    return best;
}

int main(void) {
    static const uint32_t guests[] = {1, 16}, lanes[] = {1, 8}, depths[] = {1, 32};
    calibrate();
    for (int g = 0; g < 2; g++)
        for (int l = 0; l < 2; l++)
            for (int d = 0; d < 2; d++)
                if (guests[g] * depths[d] / (guests[g] < lanes[l] ? guests[g] : lanes[l]) <= 64) measure(guests[g], lanes[l], depths[d]);
    printf("a Read beside a guest without commands, and with 62 that wait for room: %.0f and %.0f ns\n", beside(1, 0), beside(1, 63));
    printf("the same on 8 lanes, beside none and beside 55 that wait: %.0f and %.0f ns\n", beside(8, 0), beside(8, 7));
    return 0;
}
