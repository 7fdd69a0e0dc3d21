/* shares.c: that others can't keep a guest from its share of a lane's tags. Of 2 to 16 guests on 1 to 8 lanes one keeps to the rules; the others are hostile,
 * all in one way or each in another: their queue is always full, and the drive keeps their commands; or they never acknowledge a completion; or they reset
 * their controller in each round. The guest that keeps to the rules sends as many commands as its share has room for, and then one call of nvmed_work has to
 * hand all of them to the drive, and another has to complete them. bench/c.sh runs it. */
#include "nvmed.h"
#include <stdio.h>
#include <stdlib.h>
#include <string.h>

enum { IMAGE = 0x80000, BLOCKS = 64, SLOTS = 64, ROUNDS = 6, LANES = 8, GUESTS = 16, TAGS = 64, FIRST = 0x100000, AREA = 0x1000000 };
enum { ADMIN_SQ = 0x10000, ADMIN_CQ = 0x11000, IO_CQ = 0x12000, IO_SQ = 0x13000, DATA = 0x20000, MANY = 1000000 };
/* of a lane's area, the rings and the pages of each tag */
enum { HOST_BYTES = AREA + LANES * 2115 * 4096 };

typedef enum way { FILLS, IGNORES, RESETS, WAYS } way;

/* What the drive knows of a lane: its rings, and the identifiers of the commands that it keeps. */
typedef struct lane_drive {
    nvmed_lane_rings rings;
    uint32_t head, posted, phase, kept;
    uint16_t identifiers[TAGS];
    uint8_t of[TAGS];
} lane_drive;

typedef struct host {
    nvmed mediator;
    uint8_t *memory;
    uint32_t guests, lanes;
    uint32_t tail[GUESTS], acknowledged[GUESTS];
    way ways[GUESTS];
    lane_drive drive[LANES];
} host;

static uint32_t state = 1;

static uint32_t below(uint32_t bound) {
    state = state * 1664525 + 1013904223;
    return (state >> 8) % bound;
}

static void give_up(const char *why) {
    fprintf(stderr, "shares: %s\n", why);
    exit(1);
}

static void expect(nvmed_status status) {
    if (status != NVMED_OK) give_up("a call was refused");
}

/* ---- guests */

static uint8_t *image_of(host *h, uint32_t guest) { return h->memory + FIRST + (uint64_t)guest * IMAGE; }

static void enter(host *h, uint32_t guest, uint32_t at, uint32_t opcode, uint32_t prp1, uint32_t cdw10, uint32_t cdw11, uint32_t cdw12) {
    uint32_t dwords[16] = {opcode, 1, 0, 0, 0, 0, prp1, 0, 0, 0, cdw10, cdw11, cdw12};
    memcpy(image_of(h, guest) + at, dwords, sizeof dwords);
}

/* Sends so many Reads of 4 KiB. */
static void send(host *h, uint32_t guest, uint32_t commands) {
    for (uint32_t k = 0; k < commands; k++) {
        enter(h, guest, IO_SQ + 64 * h->tail[guest], 2 | h->tail[guest] << 16, DATA + 4096 * (k % 16), 8 * (k % 8), 0, 7);
        h->tail[guest] = (h->tail[guest] + 1) % SLOTS;
    }
    (void)nvmed_doorbell(&h->mediator, guest, 0x1008, h->tail[guest]);
}

static void work(host *h) {
    uint64_t done = 0;
    expect(nvmed_work(&h->mediator, NVMED_OF_ALL, 0, MANY, &done));
    if (done == MANY) give_up("nvmed_work had no end");
}

static void bring_up(host *h, uint32_t guest) {
    memset(image_of(h, guest) + ADMIN_CQ, 0, IO_SQ - ADMIN_CQ);
    h->tail[guest] = h->acknowledged[guest] = 0;
    enter(h, guest, ADMIN_SQ, 5, IO_CQ, 1 | (SLOTS - 1) << 16, 1, 0);
    enter(h, guest, ADMIN_SQ + 64, 1, IO_SQ, 1 | (SLOTS - 1) << 16, 1 | 1 << 16, 0);
    (void)nvmed_reg_write(&h->mediator, guest, 0x24, 0x1f001f);
    (void)nvmed_reg_write(&h->mediator, guest, 0x28, ADMIN_SQ);
    (void)nvmed_reg_write(&h->mediator, guest, 0x30, ADMIN_CQ);
    (void)nvmed_reg_write(&h->mediator, guest, 0x14, 0x460001);
    (void)nvmed_doorbell(&h->mediator, guest, 0x1000, 2);
    work(h);
}

/* What a hostile guest does in a round. One that resets while commands are on their way is not ready again before they are completed. */
static void annoy(host *h, uint32_t guest) {
    if (h->ways[guest] == RESETS && below(2) == 0) {
        (void)nvmed_reg_write(&h->mediator, guest, 0x14, 0x460000);
        bring_up(h, guest);
    }
    send(h, guest, below(SLOTS));
}

/* How many completions a guest finds that it hasn't acknowledged, from its place of the round's begin on. */
static uint32_t completions(host *h, uint32_t guest, uint32_t passed) {
    uint32_t found = 0;
    for (uint32_t place = passed; place - passed < SLOTS; place++, found++) {
        uint16_t status;
        memcpy(&status, image_of(h, guest) + IO_CQ + 16 * (place % SLOTS) + 14, 2);
        if ((status & 1) != (place / SLOTS + 1) % 2) break;
        if (status >> 1) give_up("a command failed");
    }
    return found;
}

/* ---- the drive */

/* Takes what is in the rings, and returns how many commands of this guest were there. By its first page a command names its guest. */
static uint32_t fetch(host *h, uint32_t guest) {
    uint32_t found = 0;
    for (uint32_t lane = 0; lane < h->lanes; lane++) {
        lane_drive *d = &h->drive[lane];
        expect(nvmed_rings(&h->mediator, lane, &d->rings));
        while (d->head != d->rings.tail) {
            uint8_t entry[64];
            uint64_t page;
            memcpy(entry, h->memory + d->rings.submission + 64 * (uint64_t)d->head, sizeof entry);
            memcpy(&page, entry + 24, sizeof page);
            if (d->kept == TAGS || page < FIRST || page >= FIRST + (uint64_t)h->guests * IMAGE) give_up("a command that can't be");
            memcpy(&d->identifiers[d->kept], entry + 2, 2);
            d->of[d->kept] = (uint8_t)((page - FIRST) / IMAGE);
            found += d->of[d->kept++] == guest;
            d->head = (d->head + 1) % d->rings.entries;
        }
    }
    return found;
}

static int is_kept(host *h, uint32_t guest) { return guest != h->guests - 1 && (h->ways[guest] == FILLS || (h->ways[guest] == RESETS && below(4) != 0)); }

/* Completes what it doesn't keep. */
static void complete(host *h) {
    for (uint32_t lane = 0; lane < h->lanes; lane++) {
        lane_drive *d = &h->drive[lane];
        uint32_t left = 0;
        for (uint32_t k = 0; k < d->kept; k++) {
            if (is_kept(h, d->of[k])) {
                d->identifiers[left] = d->identifiers[k];
                d->of[left++] = d->of[k];
                continue;
            }
            uint32_t dwords[4] = {0, 0, d->head | (lane + 1) << 16, d->identifiers[k] | d->phase << 16};
            memcpy(h->memory + d->rings.completion + 16 * (uint64_t)d->posted, dwords, sizeof dwords);
            d->posted = (d->posted + 1) % d->rings.entries;
            if (d->posted == 0) d->phase ^= 1;
        }
        d->kept = left;
    }
}

/* ---- a set-up */

static void open_host(host *h, uint32_t guests, uint32_t lanes, uint32_t turn) {
    nvmed_sizes sizes = {HOST_BYTES, AREA, (uint64_t)BLOCKS * GUESTS, lanes};
    uint32_t limits[GUESTS];
    nvmed_region regions[GUESTS];
    nvmed_extent extents[GUESTS];
    uint8_t *memory = h->memory;
    memset(h, 0, sizeof *h);
    h->memory = memory;
    h->guests = guests;
    h->lanes = lanes;
    for (uint32_t g = 0; g < guests; g++) {
        limits[g] = 1024;
        regions[g] = (nvmed_region){g, 0, FIRST + (uint64_t)IMAGE * g, IMAGE};
        extents[g] = (nvmed_extent){g, (uint64_t)BLOCKS * g, BLOCKS};
        h->ways[g] = (way)((turn < WAYS ? turn : turn + g) % WAYS);
    }
    expect(nvmed_serve(&h->mediator, h->memory, &sizes, limits, guests, regions, guests, extents, guests));
    for (uint32_t lane = 0; lane < lanes; lane++) h->drive[lane].phase = 1;
    for (uint32_t g = 0; g < guests; g++) bring_up(h, g);
}

/* Of each lane a guest has one tag for its extent, and the same number of those that are left. */
static uint32_t room(const host *h) {
    uint32_t tags = h->lanes * (1 + (TAGS - h->guests) / h->guests);
    return tags < SLOTS - 1 ? tags : SLOTS - 1;
}

/* Whether each command of the guest that keeps to the rules is with the drive, and then completed, as soon as it can be. */
static int is_served(host *h, uint32_t *passed) {
    uint32_t guest = h->guests - 1, commands = 1 + below(room(h)), found;
    for (uint32_t other = 0; other < guest; other++) annoy(h, other);
    send(h, guest, commands);
    work(h);
    if (fetch(h, guest) != commands) return 0;
    complete(h);
    work(h);
    found = completions(h, guest, *passed);
    *passed += found;
    expect(nvmed_doorbell(&h->mediator, guest, 0x100c, *passed % SLOTS));
    for (uint32_t other = 0; other < guest; other++) {
        if (h->ways[other] != IGNORES) {
            h->acknowledged[other] += completions(h, other, h->acknowledged[other]);
            (void)nvmed_doorbell(&h->mediator, other, 0x100c, h->acknowledged[other] % SLOTS);
        }
    }
    return found == commands;
}

int main(void) {
    static host h;
    uint32_t set_ups = 0, rounds = 0, late = 0;
    h.memory = (uint8_t *)calloc(1, HOST_BYTES);
    if (!h.memory) give_up("out of memory");
    for (uint32_t guests = 2; guests <= GUESTS; guests++)
        for (uint32_t lanes = 1; lanes <= LANES; lanes++)
            for (uint32_t turn = 0; turn < 2 * WAYS; turn++, set_ups++) {
                uint32_t passed = 0;
                open_host(&h, guests, lanes, turn);
                for (int round = 0; round < ROUNDS; round++, rounds++) late += !is_served(&h, &passed);
                nvmed_free(&h.mediator);
            }
    free(h.memory);
    printf("%u set-ups, %u rounds: in %u of them a guest within its share had to wait\n", set_ups, rounds, late);
    return late != 0;
}
