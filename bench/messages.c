/* messages.c: interrupts by messages (MSI, MSI-X). bench/c.sh builds and runs it.
 *
 * A guest is told once by each message: it handles the completions that it finds, and acknowledges them by its queue's head doorbell afterwards. The drive
 * completes a further command in between. Where a message is sent when nvmed_changed says that other vectors are pending, there is none for that further
 * completion: the guest waits for ever. By nvmed_posted there is one. Then single cases are looked at. */
#include "nvmed.h"
#include <stdio.h>
#include <stdlib.h>
#include <string.h>

enum { HOST_BYTES = 0x1000000, AREA = 0x400000, GUEST = 0x100000, BYTES = 0x100000, ROUNDS = 20, SLOTS = 4 };
enum { ADMIN_SQ = 0x10000, ADMIN_CQ = 0x11000, IO_CQ = 0x12000, IO_SQ = 0x13000, ADMIN_SLOTS = 32, VECTOR = 5 };
enum { ADMIN_TAIL = 0x1000, ADMIN_HEAD = 0x1004, TAIL = 0x1008, HEAD = 0x100c };

typedef struct host {
    nvmed mediator;
    uint8_t *memory;
    /* the guest: the tails of its queues, and what it has handled and acknowledged of its completion queue */
    uint32_t admin_tail, tail, head, phase;
    /* the drive */
    uint32_t taken, posted, pass;
    /* the host: what was asked last, and a message that the guest has not looked at */
    nvmed_seen seen;
    nvmed_posted_seen stood;
    int by_posted, message;
} host;

static void give_up(const char *why) {
    fprintf(stderr, "messages: %s\n", why);
    exit(1);
}

static void must(nvmed_status status) {
    if (status != NVMED_OK) give_up("a call was refused");
}

/* The vectors of the guest to signal by nvmed_posted: how many, and whether they are all that of its queue 1. */
static uint32_t posted(host *h) {
    uint16_t vectors[NVMED_VECTORS];
    uint32_t count, own = 0;
    must(nvmed_posted(&h->mediator, 0, &h->stood, vectors, &count));
    for (uint32_t k = 0; k < count; k++) own += vectors[k] == VECTOR;
    return own;
}

/* Whether other vectors are pending than before, and that of queue 1 is. */
static uint32_t changed(host *h) {
    uint16_t vectors[NVMED_VECTORS];
    uint32_t count, guests, own = 0;
    must(nvmed_changed(&h->mediator, &h->seen, &guests));
    must(nvmed_pending(&h->mediator, 0, vectors, &count));
    for (uint32_t k = 0; k < count; k++) own += vectors[k] == VECTOR;
    return guests != 0 && own != 0;
}

/* What a host with messages does after each call. */
static void tell(host *h) {
    if (h->by_posted ? posted(h) : changed(h)) h->message = 1;
}

static void work(host *h) {
    uint64_t done;
    must(nvmed_work(&h->mediator, NVMED_OF_ALL, 0, 1000, &done));
    tell(h);
}

static void doorbell(host *h, uint32_t offset, uint32_t value) {
    must(nvmed_doorbell(&h->mediator, 0, offset, value));
    tell(h);
}

static void register_written(host *h, uint32_t offset, uint32_t value) {
    must(nvmed_reg_write(&h->mediator, 0, offset, value));
    tell(h);
}

static void entry(host *h, uint32_t at, uint32_t first, uint64_t address, uint32_t cdw10, uint32_t cdw11) {
    uint32_t dwords[16] = {first, 1, 0, 0, 0, 0, (uint32_t)address, (uint32_t)(address >> 32), 0, 0, cdw10, cdw11};
    memcpy(h->memory + GUEST + at, dwords, sizeof dwords);
}

static void admin(host *h, uint32_t opcode, uint64_t address, uint32_t cdw10, uint32_t cdw11) {
    entry(h, ADMIN_SQ + 64 * h->admin_tail, opcode | h->admin_tail << 16, address, cdw10, cdw11);
    h->admin_tail = (h->admin_tail + 1) % ADMIN_SLOTS;
}

/* The guest's queue pair 1 is made, as it was before, if it was. */
static void make_queues(host *h) {
    admin(h, 5, IO_CQ, 1 | (SLOTS - 1) << 16, 3 | VECTOR << 16);
    admin(h, 1, IO_SQ, 1 | (SLOTS - 1) << 16, 1 | 1 << 16);
    h->tail = h->head = 0;
    h->phase = 1;
    memset(h->memory + GUEST + IO_CQ, 0, 16 * SLOTS);
}

/* The guest's admin commands are carried out, and acknowledged. */
static void administer(host *h) {
    doorbell(h, ADMIN_TAIL, h->admin_tail);
    work(h);
    doorbell(h, ADMIN_HEAD, h->admin_tail);
}

static void open_host(host *h, int by_posted) {
    nvmed_sizes sizes = {HOST_BYTES, AREA, 4096, 1};
    uint32_t limit = 64;
    nvmed_region region = {0, 0, GUEST, BYTES};
    nvmed_extent extent = {0, 0, 4096};
    memset(h, 0, sizeof *h);
    h->by_posted = by_posted;
    h->pass = 1;
    h->memory = (uint8_t *)calloc(1, HOST_BYTES);
    if (!h->memory) give_up("out of memory");
    must(nvmed_serve(&h->mediator, h->memory, &sizes, &limit, 1, &region, 1, &extent, 1));
    register_written(h, 0x24, (ADMIN_SLOTS - 1) << 16 | (ADMIN_SLOTS - 1));
    register_written(h, 0x28, ADMIN_SQ);
    register_written(h, 0x30, ADMIN_CQ);
    register_written(h, 0x14, 0x460001);
    make_queues(h);
    administer(h);
    h->message = 0;
}

static void close_host(host *h) {
    must(nvmed_free(&h->mediator));
    free(h->memory);
}

/* The guest sends some Flushes. */
static void send(host *h, uint32_t count) {
    for (; count > 0; count--) {
        entry(h, IO_SQ + 64 * h->tail, (uint32_t)h->tail << 16, 0, 0, 0);
        h->tail = (h->tail + 1) % SLOTS;
    }
    doorbell(h, TAIL, h->tail);
    work(h);
}

/* The drive completes the next of them. */
static void complete(host *h) {
    nvmed_lane_rings rings;
    uint16_t identifier;
    must(nvmed_rings(&h->mediator, 0, &rings));
    if (h->taken == rings.tail) give_up("the drive has nothing");
    memcpy(&identifier, h->memory + rings.submission + 64 * (uint64_t)h->taken + 2, 2);
    h->taken = (h->taken + 1) % rings.entries;
    uint32_t dwords[4] = {0, 0, h->taken | 1 << 16, identifier | h->pass << 16};
    memcpy(h->memory + rings.completion + 16 * (uint64_t)h->posted, dwords, sizeof dwords);
    h->posted = (h->posted + 1) % rings.entries;
    if (h->posted == 0) h->pass ^= 1;
    work(h);
}

/* The guest looks at its queue: how many completions it finds. */
static uint32_t found(host *h) {
    uint32_t count = 0, last;
    for (;; count++) {
        memcpy(&last, h->memory + GUEST + IO_CQ + 16 * h->head + 12, 4);
        if ((last >> 16 & 1) != h->phase) return count;
        h->head = (h->head + 1) % SLOTS;
        if (h->head == 0) h->phase ^= 1;
    }
}

/* How many of the completions the guest has found in the end. */
static uint32_t rounds(int by_posted) {
    static host h;
    uint32_t seen = 0;
    open_host(&h, by_posted);
    for (uint32_t round = 0; round < ROUNDS && seen == 2 * round; round++) {
        uint32_t left = 2;
        send(&h, 2);
        complete(&h);
        left--;
        while (h.message) {
            h.message = 0;
            seen += found(&h);
            if (left > 0) {
                complete(&h);
                left--;
            }
            doorbell(&h, HEAD, h.head);
        }
    }
    close_host(&h);
    return seen;
}

static void case_of(const char *name, uint32_t told, uint32_t wanted) {
    printf("%s: %s\n", name, told == wanted ? "as it should be" : "WRONG");
}

/* Each case begins with what the one before left. */
static void cases(void) {
    static host h;
    open_host(&h, 1);
    case_of("nothing was posted", posted(&h), 0);
    send(&h, 3);
    complete(&h);
    h.message = 0;
    case_of("asked again, with nothing between", posted(&h), 0);
    complete(&h);
    case_of("a second completion before the first is acknowledged", (uint32_t)h.message, 1);
    h.message = 0;
    doorbell(&h, HEAD, 1);
    case_of("the first is acknowledged, and the second is not", (uint32_t)h.message, 1);
    h.message = 0;
    doorbell(&h, HEAD, 2);
    case_of("both are", (uint32_t)h.message, 0);
    complete(&h);
    case_of("a third", (uint32_t)h.message, 1);
    doorbell(&h, HEAD, 3);
    h.message = 0;
    send(&h, 3);
    complete(&h);
    complete(&h);
    complete(&h);
    case_of("the queue is full, once round", (uint32_t)h.message, 1);
    doorbell(&h, HEAD, 2);
    h.message = 0;
    admin(&h, 0, 0, 1, 0);
    admin(&h, 4, 0, 1, 0);
    make_queues(&h);
    administer(&h);
    case_of("the queues were made anew", (uint32_t)h.message, 0);
    send(&h, 1);
    complete(&h);
    h.message = 0;
    admin(&h, 0, 0, 1, 0);
    admin(&h, 4, 0, 1, 0);
    make_queues(&h);
    administer(&h);
    case_of("once more, with a completion that is not acknowledged", (uint32_t)h.message, 0);
    send(&h, 1);
    complete(&h);
    case_of("a completion at the same place as before", (uint32_t)h.message, 1);
    h.message = 0;
    register_written(&h, 0x14, 0x460000);
    case_of("the controller is reset", (uint32_t)h.message, 0);
    close_host(&h);
}

int main(void) {
    printf("a message where nvmed_changed says so: %u of %u completions were found\n", rounds(0), 2 * ROUNDS);
    printf("a message where nvmed_posted says so: %u of %u completions were found\n", rounds(1), 2 * ROUNDS);
    cases();
    return 0;
}
