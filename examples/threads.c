/* A host with threads: two guests and their drive, each in a thread of its own, over one mediator.
 *
 * The library has one caller at a time. So a lock is held around each call, and for no longer: guests make and compare their data, and the drive moves
 * it, without the lock. Each guest writes pages to its blocks, several commands at a time, and reads pages back that it wrote at any time before. With
 * the word `time` it also prints how long the lock was held at most. */
#define _POSIX_C_SOURCE 200809L
#include <pthread.h>
#include <stdbool.h>
#include <stdio.h>
#include <stdlib.h>
#include <string.h>
#include <time.h>

#include "nvmed.h"

enum { GUESTS = 2, PAGE = 4096, WORDS = PAGE / 4, PAGE_BLOCKS = PAGE / 512, PAGES = 256 /* of a guest's blocks */ };
enum { HOST_BYTES = 0x1000000, AREA = 0x400000, FIRST = 0x100000, GUEST_BYTES = 0x20000 };
enum { ADMIN_SQ = 0, ADMIN_CQ = 0x1000, IO_SQ = 0x2000, IO_CQ = 0x3000, DATA = 0x10000, ADMIN_SLOTS = 32, SLOTS = 16, BATCH = 8, ROUNDS = 250 };
enum { WRITE = 1, READ = 2, EVENTS = 64 /* of one call, so that the lock is free soon */ };

static uint8_t *memory;
static uint32_t disk[GUESTS * PAGES][WORDS];

/* All of it is used with the lock held. */
static struct {
    pthread_mutex_t lock;
    pthread_cond_t rung;           /* the drive has commands, or all is over */
    pthread_cond_t raised[GUESTS]; /* a guest has completions */
    nvmed mediator;
    nvmed_lane_rings rings; /* what the drive's doorbells have */
    bool over;
    unsigned failures;
    double since[2], most[2]; /* seconds that the lock is held: by the clock, and of processor time */
} host = {.lock = PTHREAD_MUTEX_INITIALIZER, .rung = PTHREAD_COND_INITIALIZER, .raised = {PTHREAD_COND_INITIALIZER, PTHREAD_COND_INITIALIZER}};

/* Notes that the lock was taken, or is about to be given back. */
static void note(bool taken) {
    const clockid_t clocks[2] = {CLOCK_MONOTONIC, CLOCK_THREAD_CPUTIME_ID};
    for (int i = 0; i < 2; i++) {
        struct timespec now;
        clock_gettime(clocks[i], &now);
        double at = (double)now.tv_sec + 1e-9 * (double)now.tv_nsec;
        if (taken) host.since[i] = at;
        else if (at - host.since[i] > host.most[i]) host.most[i] = at - host.since[i];
    }
}

static void take_lock(void) {
    pthread_mutex_lock(&host.lock);
    note(true);
}

static void free_lock(void) {
    note(false);
    pthread_mutex_unlock(&host.lock);
}

static void wait_for(pthread_cond_t *news) {
    note(false);
    pthread_cond_wait(news, &host.lock);
    note(true);
}

static void expect_ok(const char *what, unsigned answer) {
    if (answer == NVMED_OK) return;
    host.failures++;
    printf("%s: answered %x\n", what, answer);
}

/* Does some of what is due, and wakes whoever has something new. Whether there may be more. */
static bool work(void) {
    uint64_t done = 0;
    uint32_t tail = host.rings.tail;
    expect_ok("work", nvmed_work(&host.mediator, NVMED_OF_ALL, 0, EVENTS, &done));
    expect_ok("rings", nvmed_rings(&host.mediator, 0, &host.rings));
    if (host.rings.tail != tail) pthread_cond_signal(&host.rung);
    for (uint32_t g = 0; g < GUESTS; g++) {
        uint16_t vectors[NVMED_VECTORS];
        uint32_t count = 0;
        expect_ok("pending", nvmed_pending(&host.mediator, g, vectors, &count));
        if (count) pthread_cond_signal(&host.raised[g]);
    }
    return done == EVENTS;
}

/* Does all that is due. The lock is free between the calls, so that another thread may come first. */
static void serve(void) {
    for (bool more = true; more;) {
        take_lock();
        more = work();
        free_lock();
    }
}

static uint32_t *words_at(uint64_t address) { return (uint32_t *)(void *)(memory + address); }

/* Posts the completion of an entry, and has the mediator look at it. A real drive takes no lock: it writes the word with the phase tag last. */
static void complete(const uint32_t *entry, uint32_t number, uint32_t head) {
    take_lock();
    uint32_t entries = host.rings.entries, phase = number / entries % 2 == 0;
    const uint32_t completion[4] = {0, 0, head | 1u << 16, entry[0] >> 16 | phase << 16};
    memcpy(words_at(host.rings.completion + 16 * (uint64_t)(number % entries)), completion, sizeof completion);
    free_lock();
    serve();
}

/* The drive: one queue pair, whose entries name a page each. */
static void *run_drive(void *commands) {
    uint32_t entry[16], head = 0;
    for (uint32_t number = 0;; number++) {
        take_lock();
        while (head == host.rings.tail && !host.over) wait_for(&host.rung);
        bool ended = head == host.rings.tail;
        memcpy(entry, words_at(host.rings.submission + 64 * (uint64_t)head), sizeof entry);
        head = (head + 1) % host.rings.entries;
        free_lock();
        *(uint32_t *)commands = number;
        if (ended) return NULL;
        /* the page's memory is its guest's, who leaves it alone meanwhile */
        uint32_t *data = words_at(entry[6]), *page = disk[entry[10] / PAGE_BLOCKS];
        if ((entry[0] & 0xff) == WRITE) memcpy(page, data, PAGE);
        if ((entry[0] & 0xff) == READ) memcpy(data, page, PAGE);
        complete(entry, number, head);
    }
}

/* A guest: its driver, and what it does with its blocks. */
typedef struct guest {
    uint32_t number, random, sent, taken; /* commands that were sent, completions that were taken */
    uint32_t compared, differ, stamp[PAGES]; /* pages read back; what it wrote last, 0 for nothing */
} guest;

static uint32_t *guest_words(const guest *g, uint64_t address) { return words_at(FIRST + g->number * GUEST_BYTES + address); }

/* The pages of a batch. No two are the same. */
static uint32_t page_of(const guest *g, uint32_t i) { return (g->random + 37 * i) % PAGES; }

static void fill(uint32_t *page, uint32_t stamp) {
    for (uint32_t i = 0; i < WORDS; i++) page[i] = stamp + i;
}

static bool has(const uint32_t *page, uint32_t stamp) {
    uint32_t bad = 0;
    for (uint32_t i = 0; i < WORDS; i++) bad |= page[i] ^ (stamp ? stamp + i : 0);
    return !bad;
}

/* A property or a doorbell. */
static void write_register(const guest *g, uint32_t offset, uint32_t value) {
    take_lock();
    if (offset < 0x1000) expect_ok("property", nvmed_reg_write(&host.mediator, g->number, offset, value));
    else expect_ok("doorbell", nvmed_doorbell(&host.mediator, g->number, offset, value));
    free_lock();
    serve();
}

static void put_entry(uint32_t *at, uint32_t opcode, uint32_t prp1, uint32_t cdw10, uint32_t cdw11, uint32_t cdw12) {
    const uint32_t entry[16] = {opcode | 7u << 16, 1, 0, 0, 0, 0, prp1, 0, 0, 0, cdw10, cdw11, cdw12};
    memcpy(at, entry, sizeof entry);
}

/* Waits until the completion of that number is in a queue, as for an interrupt. */
static void await(const guest *g, uint32_t queue, uint32_t slots, uint32_t number) {
    const uint32_t *word = guest_words(g, queue + 16 * (number % slots) + 12);
    take_lock();
    while ((*word >> 16 & 1) != (number / slots % 2 == 0)) wait_for(&host.raised[g->number]);
    expect_ok("a command", *word >> 17);
    free_lock();
}

/* One I/O queue pair. */
static void bring_up(const guest *g) {
    put_entry(guest_words(g, ADMIN_SQ), 0x05, IO_CQ, (SLOTS - 1) << 16 | 1, 3, 0);
    put_entry(guest_words(g, ADMIN_SQ + 64), 0x01, IO_SQ, (SLOTS - 1) << 16 | 1, 1u << 16 | 1, 0);
    write_register(g, 0x24, (ADMIN_SLOTS - 1) << 16 | (ADMIN_SLOTS - 1));
    write_register(g, 0x28, ADMIN_SQ);
    write_register(g, 0x30, ADMIN_CQ);
    write_register(g, 0x14, 0x00460001);
    write_register(g, 0x1000, 2);
    for (uint32_t i = 0; i < 2; i++) await(g, ADMIN_CQ, ADMIN_SLOTS, i);
    write_register(g, 0x1004, 2);
}

/* One command for each page of a batch, all of them at once. */
static void carry_out(guest *g, uint32_t opcode) {
    for (uint32_t i = 0; i < BATCH; i++, g->sent++)
        put_entry(guest_words(g, IO_SQ + 64 * (g->sent % SLOTS)), opcode, DATA + PAGE * i, page_of(g, i) * PAGE_BLOCKS, 0, PAGE_BLOCKS - 1);
    write_register(g, 0x1008, g->sent % SLOTS);
    while (g->taken != g->sent) await(g, IO_CQ, SLOTS, g->taken++);
    write_register(g, 0x100c, g->taken % SLOTS);
}

static void *run_guest(void *of) {
    guest *g = (guest *)of;
    uint32_t *data = guest_words(g, DATA);
    bring_up(g);
    for (uint32_t round = 1; round <= ROUNDS; round++) {
        g->random = g->random * 1103515245 + 12345;
        for (uint32_t i = 0; i < BATCH; i++) fill(data + WORDS * i, g->stamp[page_of(g, i)] = g->number << 31 | round << 20 | page_of(g, i) << 11);
        carry_out(g, WRITE);
        g->random = g->random * 1103515245 + 12345;
        memset(data, 0xee, PAGE * BATCH);
        carry_out(g, READ);
        for (uint32_t i = 0; i < BATCH; i++, g->compared++) g->differ += !has(data + WORDS * i, g->stamp[page_of(g, i)]);
    }
    write_register(g, 0x14, 0);
    return NULL;
}

static bool open_mediator(void) {
    const nvmed_sizes sizes = {HOST_BYTES, AREA, GUESTS * PAGES * PAGE_BLOCKS, 1};
    const uint32_t limits[GUESTS] = {1024, 1024}, blocks = PAGES * PAGE_BLOCKS;
    const nvmed_region regions[GUESTS] = {{0, 0, FIRST, GUEST_BYTES}, {1, 0, FIRST + GUEST_BYTES, GUEST_BYTES}};
    const nvmed_extent extents[GUESTS] = {{0, 0, blocks}, {1, blocks, blocks}};
    memory = (uint8_t *)calloc(1, HOST_BYTES);
    return memory && nvmed_serve(&host.mediator, memory, &sizes, limits, GUESTS, regions, GUESTS, extents, GUESTS) == NVMED_OK;
}

static void report(const guest *g) {
    unsigned kept = 0;
    for (uint32_t i = 0; i < PAGES; i++) kept += has(disk[g->number * PAGES + i], g->stamp[i]);
    printf("guest %u: %u commands, %u pages read back, %u differ; %u of its %d pages on the drive are as it wrote them\n", (unsigned)g->number,
           (unsigned)g->sent, (unsigned)g->compared, (unsigned)g->differ, kept, PAGES);
}

int main(int argc, char **argv) {
    static guest guests[GUESTS] = {{.number = 0, .random = 1}, {.number = 1, .random = 2}};
    pthread_t drive, thread[GUESTS];
    uint32_t commands = 0;
    if (!open_mediator() || pthread_create(&drive, NULL, run_drive, &commands)) return 1;
    for (uint32_t g = 0; g < GUESTS; g++)
        if (pthread_create(&thread[g], NULL, run_guest, &guests[g])) return 1;
    for (uint32_t g = 0; g < GUESTS; g++) pthread_join(thread[g], NULL);
    take_lock();
    host.over = true;
    pthread_cond_signal(&host.rung);
    free_lock();
    pthread_join(drive, NULL);
    for (uint32_t g = 0; g < GUESTS; g++) report(&guests[g]);
    printf("the drive: %u commands\n", (unsigned)commands);
    if (argc == 2 && strcmp(argv[1], "time") == 0)
        printf("the lock: held for %.0f microseconds at most, and for %.0f of processor time\n", 1e6 * host.most[0], 1e6 * host.most[1]);
    expect_ok("free", nvmed_free(&host.mediator));
    free(memory);
    return host.failures != 0;
}
