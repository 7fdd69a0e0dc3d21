/* racing.c: a guest that changes its entries, lists and data while they are read. bench/c.sh builds and runs it.
 *
 * The guest has two processors: one rewrites its submission queue, its PRP and SGL lists and its data all the time, in a thread of its own; the other writes
 * doorbells, in the thread in which the host calls nvmed_work and plays the drive. An honest guest beside it writes, reads, compares and zeroes blocks, and
 * checks what it gets. The drive takes each entry that it finds in the rings apart, and carries it out only where it is right:
 *   - its fields are those of a command of the mediator's;
 *   - its blocks are one guest's, and of the honest guest's only what that has asked for, with that opcode;
 *   - its list is the tag's, and its pages are all of that guest's memory or all of the tag's own.
 * At last the honest guest's memory and blocks, and all other bytes of host and drive but the other guest's and the mediator's, have to be what they must be;
 * and the other guest has no byte of the honest guest's data, neither in its memory nor in its blocks.
 *
 *     racing            what each set-up must have
 *     racing short      fewer rounds, for valgrind
 *     racing counts     prints what raced, too */
#define _POSIX_C_SOURCE 200809L
#include <pthread.h>
#include <stdatomic.h>
#include <stdbool.h>
#include <stdio.h>
#include <stdlib.h>
#include <string.h>

#include "nvmed.h"

enum { GUESTS = 2, RACING = 0, HONEST = 1, LANES = 2, PAGE = 4096, BLOCK = 512, ENTRY = 64, COMPLETION = 16, SLOTS = 64, MOST = 256 /* blocks of a command */, PIECE = 256 };
/* A guest's memory is in parts, which alternate in the host's, with bytes between them that are nobody's. */
enum { PARTS = 4, PART = 0x80000, APART = 0x10000, IMAGE = PARTS * PART, FIRST = 0x100000, AREA = 0x800000, HOST_BYTES = 0x2000000 };
enum { ADMIN_SQ = 0x10000, ADMIN_CQ = 0x11000, IO_CQ = 0x12000, IO_SQ = 0x13000, LISTS = 0x20000, DATA = 0x40000, ROOM = 36 * PAGE /* of a command */ };
/* So are its blocks. */
enum { BLOCKS = 3072, GAP = 64, DISK_BLOCKS = 2 * (BLOCKS + 4 * GAP) + GAP };
enum { TAG_PAGES = 33, TAGS = 64, RING_PAGES = 3, LANE_PAGES = RING_PAGES + TAG_PAGES * TAGS };
enum { FLUSH = 0, WRITE = 1, READ = 2, COMPARE = 5, WRITE_ZEROES = 8, MANAGE = 9 };
enum { AT_ONCE = 8 /* commands of the honest guest */ };
/* Of each set-up: rounds of the honest guest, commands of the racing guest that move data, and rounds at most. A short run is for valgrind. */
static struct {
    uint32_t rounds, raced, most;
} length = {60, 600, 200000};

/* How data are named. */
typedef enum form { BY_PAGES, BY_BLOCKS, BY_PIECES, FORMS } form;

static const uint64_t secret = UINT64_C(0x9d3a51c07be8f264);

typedef struct lane_drive {
    nvmed_lane_rings rings;
    uint32_t head, posted, phase;
} lane_drive;

/* What the honest guest has asked for. */
typedef struct wish {
    uint32_t opcode, first, blocks, offset;
} wish;

typedef struct host {
    nvmed mediator;
    uint8_t *memory, *disk;
    uint8_t *image, *blocks; /* what the honest guest's have to be */
    uint8_t *wanted;         /* of each block of the drive, the opcodes that the honest guest asked for, as bits */
    form form;
    uint32_t extents, tail[GUESTS], seen[GUESTS];
    lane_drive drive[LANES];
    uint64_t direct, bounced; /* commands of the racing guest that the drive got */
    atomic_bool over;
} host;

/* Of all set-ups. */
static struct {
    unsigned entries, blocks, pages, completions, data, memory, disk, leaks;
} wrong;

static void give_up(const char *why) {
    fprintf(stderr, "racing: %s\n", why);
    exit(1);
}

static void expect(nvmed_status status) {
    if (status != NVMED_OK) give_up("a call was refused");
}

static uint64_t pick(uint64_t *state, uint64_t most) {
    uint64_t z = *state += UINT64_C(0x9e3779b97f4a7c15);
    z = (z ^ z >> 30) * UINT64_C(0xbf58476d1ce4e5b9);
    z = (z ^ z >> 27) * UINT64_C(0x94d049bb133111eb);
    return (z ^ z >> 31) % most;
}

static uint64_t turn; /* of the thread of host and drive */

/* ---- where what lies */

static uint64_t part_at(uint32_t guest, uint32_t part) { return FIRST + (uint64_t)(part * GUESTS + guest) * (PART + APART); }

static uint8_t *byte_of(host *h, uint32_t guest, uint64_t address) { return h->memory + part_at(guest, (uint32_t)(address / PART)) + address % PART; }

/* The guest that has this page of the host's memory; GUESTS where none has. */
static uint32_t owner_of_page(uint64_t address) {
    uint64_t place = address - FIRST, part = place / (PART + APART);
    if (address < FIRST || part >= GUESTS * PARTS || place % (PART + APART) >= PART) return GUESTS;
    return (uint32_t)(part % GUESTS);
}

static uint32_t extent_blocks(const host *h) { return BLOCKS / h->extents; }

static uint32_t extent_at(const host *h, uint32_t guest, uint32_t extent) { return GAP + (extent * GUESTS + guest) * (extent_blocks(h) + GAP); }

/* The block of the drive that is a guest's. */
static uint32_t block_of(const host *h, uint32_t guest, uint32_t block) { return extent_at(h, guest, block / extent_blocks(h)) + block % extent_blocks(h); }

/* The guest in one of whose extents all of these blocks are; GUESTS where there is none. */
static uint32_t owner_of_blocks(const host *h, uint64_t first, uint64_t count) {
    for (uint32_t e = 0; e < h->extents; e++)
        for (uint32_t g = 0; g < GUESTS; g++) {
            uint64_t from = extent_at(h, g, e);
            if (first >= from && first - from < extent_blocks(h) && count <= extent_blocks(h) - (first - from)) return g;
        }
    return GUESTS;
}

static uint64_t get(const uint8_t *at, unsigned bytes) {
    uint64_t value = 0;
    memcpy(&value, at, bytes);
    return value;
}

/* ---- the drive */

/* The pages of a transfer. */
typedef struct transfer {
    uint64_t at[TAG_PAGES];
    uint32_t length[TAG_PAGES], count;
} transfer;

static uint64_t pages_of_tag(uint32_t lane, uint32_t tag) { return AREA + PAGE * (LANE_PAGES * (uint64_t)lane + RING_PAGES + TAG_PAGES * tag); }

/* Takes the region pages of an entry apart. False where the list is not the tag's, or no list can be so. */
static bool find_pages(host *h, const uint8_t *entry, uint32_t lane, uint32_t bytes, transfer *t) {
    uint64_t first = get(entry + 24, 8), second = get(entry + 32, 8), list = pages_of_tag(lane, (uint32_t)get(entry + 2, 2));
    uint32_t left = bytes, room = PAGE - (uint32_t)(first % PAGE);
    for (t->count = 0; left > 0; t->count++) {
        uint64_t at = t->count == 0 ? first : second;
        if (t->count == TAG_PAGES) return false;
        if (t->count > 0) {
            room = PAGE;
            if (bytes > 2 * PAGE - first % PAGE) {
                if (second != list) return false;
                at = get(h->memory + list + 8 * (t->count - 1), 8);
            }
            if (at % PAGE) return false;
        }
        t->at[t->count] = at;
        t->length[t->count] = left < room ? left : room;
        left -= t->length[t->count];
    }
    return first % 4 == 0;
}

/* Whether the pages are all of the guest's memory, or all bounce pages of the tag. */
static bool are_the_guests(host *h, const transfer *t, uint32_t guest, uint32_t lane, uint32_t tag) {
    uint64_t bounce = pages_of_tag(lane, tag) + PAGE;
    uint32_t direct = 0, bounced = 0;
    for (uint32_t i = 0; i < t->count; i++) {
        direct += t->at[i] < HOST_BYTES && owner_of_page(t->at[i]) == guest;
        bounced += t->at[i] >= bounce && t->at[i] + t->length[i] <= bounce + PAGE * (TAG_PAGES - 1);
    }
    if (guest == RACING && direct) h->direct++;
    if (guest == RACING && bounced) h->bounced++;
    return direct == t->count || bounced == t->count;
}

/* Whether the honest guest has asked for it. */
static bool is_wanted(const host *h, uint32_t opcode, uint64_t first, uint64_t count) {
    for (uint64_t i = first; i < first + count; i++)
        if (!(h->wanted[i] >> (opcode % 8) & 1)) return false;
    return true;
}

/* Moves data: false where a Compare finds a difference. */
static bool move(host *h, uint32_t opcode, uint8_t *block, const transfer *t) {
    for (uint32_t i = 0; i < t->count; block += t->length[i++]) {
        uint8_t *at = h->memory + t->at[i];
        if (opcode == WRITE) memcpy(block, at, t->length[i]);
        if (opcode == READ) memcpy(at, block, t->length[i]);
        if (opcode == COMPARE && memcmp(at, block, t->length[i])) return false;
    }
    return true;
}

/* Read, Write, Compare and Write Zeroes; the status. */
static uint32_t move_blocks(host *h, uint32_t lane, const uint8_t *entry) {
    uint32_t opcode = entry[0], count = (uint32_t)get(entry + 48, 2) + 1;
    uint64_t first = get(entry + 40, 8);
    uint32_t guest = owner_of_blocks(h, first, count);
    transfer t;
    if (guest == GUESTS || (guest == HONEST && !is_wanted(h, opcode, first, count))) {
        wrong.blocks++;
        return 0x80;
    }
    if (opcode == WRITE_ZEROES) {
        memset(h->disk + first * BLOCK, 0, (size_t)count * BLOCK);
        return 0;
    }
    if (count > MOST || !find_pages(h, entry, lane, count * BLOCK, &t) || !are_the_guests(h, &t, guest, lane, (uint32_t)get(entry + 2, 2))) {
        wrong.pages++;
        return 0x04;
    }
    return move(h, opcode, h->disk + first * BLOCK, &t) ? 0 : 0x285;
}

/* Dataset Management, of the racing guest alone: the ranges lie in the tag's own page, and are that guest's. */
static uint32_t manage(host *h, uint32_t lane, const uint8_t *entry) {
    uint32_t ranges = entry[40] + 1u;
    uint64_t page = pages_of_tag(lane, (uint32_t)get(entry + 2, 2)) + PAGE;
    if (get(entry + 24, 8) != page) {
        wrong.pages++;
        return 0x04;
    }
    for (uint32_t i = 0; i < ranges; i++) {
        uint64_t count = get(h->memory + page + 16 * i + 4, 4), first = get(h->memory + page + 16 * i + 8, 8);
        if (count != 0 && owner_of_blocks(h, first, count) != RACING) {
            wrong.blocks++;
            return 0x80;
        }
        if (entry[44] & 4) memset(h->disk + first * BLOCK, 0, (size_t)count * BLOCK);
    }
    h->bounced++;
    return 0;
}

static uint32_t carry_out(host *h, uint32_t lane, const uint8_t *entry) {
    if (entry[1] != 0 || get(entry + 2, 2) >= TAGS || get(entry + 4, 4) != 1) {
        wrong.entries++;
        return 0x02;
    }
    switch (entry[0]) {
    case FLUSH: return 0;
    case WRITE:
    case READ:
    case COMPARE:
    case WRITE_ZEROES: return move_blocks(h, lane, entry);
    case MANAGE: return manage(h, lane, entry);
    default: wrong.entries++; return 0x01;
    }
}

static void drive_work(host *h) {
    for (uint32_t lane = 0; lane < LANES; lane++) {
        lane_drive *d = &h->drive[lane];
        expect(nvmed_rings(&h->mediator, lane, &d->rings));
        while (d->head != d->rings.tail) {
            uint8_t entry[ENTRY];
            memcpy(entry, h->memory + d->rings.submission + ENTRY * (uint64_t)d->head, sizeof entry);
            d->head = (d->head + 1) % d->rings.entries;
            uint32_t status = carry_out(h, lane, entry);
            uint32_t dwords[4] = {0, 0, d->head | (lane + 1) << 16, (uint32_t)get(entry + 2, 2) | d->phase << 16 | status << 17};
            memcpy(h->memory + d->rings.completion + COMPLETION * (uint64_t)d->posted, dwords, sizeof dwords);
            d->posted = (d->posted + 1) % d->rings.entries;
            if (d->posted == 0) d->phase ^= 1;
        }
    }
}

static void work(host *h) {
    uint64_t done;
    do {
        expect(nvmed_work(&h->mediator, NVMED_OF_ALL, 0, 64, &done));
        drive_work(h);
    } while (done);
}

/* ---- the racing guest */

/* A word of its memory, which the other processor may read at any moment. */
static void store(host *h, uint64_t address, uint64_t value) { *(volatile uint64_t *)(volatile void *)byte_of(h, RACING, address) = value; }

/* A page of its data, or of what may not be named: beyond its memory, the host's and the other's addresses, its own queues. */
static uint64_t some_page(uint64_t *state) {
    switch (pick(state, 128)) {
    case 0: return IMAGE + PAGE * pick(state, 4096);
    case 1: return part_at(HONEST, 0) + PAGE * pick(state, 128);
    case 2: return pick(state, UINT64_MAX);
    default: return DATA + PAGE * pick(state, (IMAGE - DATA) / PAGE);
    }
}

/* A descriptor of a data block, or another one. */
static void some_descriptor(host *h, uint64_t *state, uint64_t at) {
    uint64_t page = some_page(state), length = h->form == BY_BLOCKS ? PAGE : pick(state, 128) ? PIECE : 1 + pick(state, 3000);
    uint64_t kind = pick(state, 128) ? 0 : (uint64_t)pick(state, 5) << 4;
    store(h, at, kind >= 0x20 ? LISTS + PAGE * pick(state, AT_ONCE) : page + (h->form == BY_PIECES ? pick(state, PAGE) : 0));
    store(h, at + 8, (kind >= 0x20 ? 16 * pick(state, 64) : length) | kind << 56);
}

/* Some words of a list. Now and then they change and change back. */
static void rewrite_list(host *h, uint64_t *state) {
    uint64_t at = LISTS + PAGE * pick(state, AT_ONCE);
    for (uint64_t k = 0, first = pick(state, 4) ? 0 : pick(state, 192); k < 64; k++) {
        uint64_t i = first + k;
        if (h->form == BY_PAGES) store(h, at + 8 * i, some_page(state));
        else some_descriptor(h, state, at + 16 * i);
    }
}

/* The words of an entry, one after the other: a slot is never all old or all new. */
static void rewrite_entry(host *h, uint64_t *state) {
    static const uint8_t opcodes[] = {WRITE, WRITE, WRITE, READ, READ, READ, COMPARE, WRITE_ZEROES, MANAGE, FLUSH, 0x7f};
    uint64_t at = IO_SQ + ENTRY * pick(state, SLOTS), list = LISTS + PAGE * pick(state, AT_ONCE);
    uint64_t blocks = 1 + (pick(state, 4) ? pick(state, 32) : pick(state, MOST)), first = pick(state, 20) ? pick(state, BLOCKS) : pick(state, UINT64_MAX);
    uint64_t by_list = h->form == BY_PAGES ? !pick(state, 16) : pick(state, 16) != 0;
    uint64_t count = h->form == BY_PIECES ? blocks * (BLOCK / PIECE) : (blocks + 7) / 8;
    if (h->form == BY_BLOCKS) blocks = 8 * count;
    if (count > 256) count = 256;
    store(h, at + 48, blocks - 1);
    store(h, at + 40, first);
    store(h, at, opcodes[pick(state, sizeof opcodes)] | by_list << 14 | pick(state, 65536) << 16 | UINT64_C(1) << 32);
    if (by_list) {
        store(h, at + 24, list);
        store(h, at + 32, 16 * count | UINT64_C(0x30) << 56);
    } else {
        store(h, at + 24, some_page(state) + (pick(state, 4) ? 0 : 4 * pick(state, 1024)));
        store(h, at + 32, blocks <= 16 ? some_page(state) : list);
    }
    store(h, at + 48, pick(state, 8) ? blocks - 1 : pick(state, 65536));
    store(h, at + 40, pick(state, 8) ? first : BLOCKS - pick(state, 8));
}

static void *rewrite(void *context) {
    host *h = (host *)context;
    uint64_t state = 7;
    while (!atomic_load_explicit(&h->over, memory_order_relaxed)) {
        rewrite_entry(h, &state);
        if (pick(&state, 4) == 0) rewrite_list(h, &state);
        for (uint64_t i = 0, at = DATA + 8 * pick(&state, (IMAGE - DATA) / 8 - 64); i < 16; i++) store(h, at + 8 * i, pick(&state, UINT64_MAX));
    }
    return NULL;
}

static bool is_there(host *h, uint32_t guest) {
    uint32_t seen = h->seen[guest];
    return ((uint32_t)byte_of(h, guest, IO_CQ + COMPLETION * (seen % SLOTS))[14] & 1) == (seen / SLOTS + 1) % 2;
}

/* Its other processor: it takes its completions, whatever they say, and rings for as many entries as there is room for. */
static void ring_racing(host *h) {
    while (is_there(h, RACING)) h->seen[RACING]++;
    (void)nvmed_doorbell(&h->mediator, RACING, 0x100c, h->seen[RACING] % SLOTS);
    while (h->tail[RACING] - h->seen[RACING] < SLOTS - 1 && pick(&turn, 16)) h->tail[RACING]++;
    (void)nvmed_doorbell(&h->mediator, RACING, 0x1008, h->tail[RACING] % SLOTS);
}

/* ---- the honest guest */

/* It stores bytes into its memory, and into the image of what that has to be. */
static void put(host *h, uint64_t address, const void *bytes, size_t length) {
    memcpy(byte_of(h, HONEST, address), bytes, length);
    memcpy(h->image + address, bytes, length);
}

static void put_words(host *h, uint64_t address, uint64_t low, uint64_t high) {
    uint64_t words[2] = {low, high};
    put(h, address, words, sizeof words);
}

/* The list of a command's data, in the form of the set-up: how many entries it has. */
static uint32_t put_list(host *h, uint64_t list, uint64_t at, uint32_t bytes) {
    uint32_t count = 0;
    for (uint32_t left = bytes, length; left > 0; left -= length, at += length, count++) {
        uint32_t row = h->form == BY_PIECES ? 1 + (uint32_t)pick(&turn, 4000) : PAGE - (uint32_t)(at % PAGE);
        length = left < row || count == 255 ? left : row;
        if (h->form != BY_PAGES) put_words(h, list + 16 * count, at, length);
        else if (count > 0) put(h, list + 8 * (count - 1), &at, 8);
    }
    return count;
}

static void put_entry(host *h, uint32_t place, const wish *w) {
    uint64_t at = DATA + ROOM * (uint64_t)place + w->offset, list = LISTS + PAGE * (uint64_t)place, slot = IO_SQ + ENTRY * (uint64_t)(h->tail[HONEST]++ % SLOTS);
    uint64_t words[8] = {w->opcode | (uint64_t)place << 16 | UINT64_C(1) << 32, 0, 0, 0, 0, w->first, w->blocks - 1, 0};
    if (w->opcode != WRITE_ZEROES) {
        uint32_t count = put_list(h, list, at, w->blocks * BLOCK);
        words[3] = h->form == BY_PAGES ? at : list;
        words[4] = h->form != BY_PAGES ? 16 * count | UINT64_C(0x30) << 56 : count < 3 ? at - at % PAGE + PAGE : list;
        if (h->form != BY_PAGES) words[0] |= 1 << 14;
    }
    put(h, slot, words, sizeof words);
}

/* Bytes of the honest guest's memory that cross its parts. */
static bool has_bytes(host *h, uint64_t at, const uint8_t *wanted, uint32_t length) {
    for (uint32_t i = 0, row; i < length; i += row) {
        row = PAGE - (uint32_t)((at + i) % PAGE);
        if (row > length - i) row = length - i;
        if (memcmp(byte_of(h, HONEST, at + i), wanted + i, row)) return false;
    }
    return true;
}

static void put_data(host *h, uint64_t at, const uint8_t *bytes, uint32_t length) {
    for (uint32_t i = 0; i < length; i += 4) put(h, at + i, bytes + i, 4);
}

/* Makes a command's data: for a Write new ones, for a Compare those of the blocks. What its blocks have afterwards is noted at once. */
static void prepare(host *h, uint32_t place, const wish *w) {
    static uint8_t fresh[MOST * BLOCK];
    uint64_t at = DATA + ROOM * (uint64_t)place + w->offset;
    uint8_t *blocks = h->blocks + (size_t)w->first * BLOCK;
    for (uint32_t i = 0; i < w->blocks; i++) h->wanted[block_of(h, HONEST, w->first + i)] |= (uint8_t)(1u << w->opcode % 8);
    if (w->opcode == COMPARE) put_data(h, at, blocks, w->blocks * BLOCK);
    if (w->opcode == WRITE_ZEROES) memset(blocks, 0, (size_t)w->blocks * BLOCK);
    if (w->opcode != WRITE) return;
    for (uint32_t i = 0; i < w->blocks * BLOCK; i += 16) {
        uint64_t words[2] = {secret, pick(&turn, UINT64_MAX)};
        memcpy(fresh + i, words, sizeof words);
    }
    put_data(h, at, fresh, w->blocks * BLOCK);
    memcpy(blocks, fresh, (size_t)w->blocks * BLOCK);
}

/* Takes a completion: it is of a command of this round, and says that all is well. */
static void take_completion(host *h, uint32_t *open) {
    uint32_t seen = h->seen[HONEST]++;
    uint64_t at = IO_CQ + COMPLETION * (uint64_t)(seen % SLOTS);
    const uint8_t *entry = byte_of(h, HONEST, at);
    uint32_t place = (uint32_t)get(entry + 12, 2);
    if (get(entry, 8) || get(entry + 8, 2) >= SLOTS || get(entry + 10, 2) != 1 || get(entry + 14, 2) != (seen / SLOTS + 1) % 2 || place >= AT_ONCE ||
        !(*open >> place & 1))
        wrong.completions++;
    *open &= ~(UINT32_C(1) << place % 32);
    memcpy(h->image + at, entry, COMPLETION);
}

/* What a Read brought has to be what the blocks have. */
static void finish(host *h, uint32_t place, const wish *w) {
    uint64_t at = DATA + ROOM * (uint64_t)place + w->offset;
    const uint8_t *blocks = h->blocks + (size_t)w->first * BLOCK;
    for (uint32_t i = 0; i < w->blocks; i++) h->wanted[block_of(h, HONEST, w->first + i)] = 0;
    if (w->opcode != READ) return;
    wrong.data += !has_bytes(h, at, blocks, w->blocks * BLOCK);
    memcpy(h->image + at, blocks, (size_t)w->blocks * BLOCK);
}

/* Some commands at once, each in blocks and data of its own. */
static void honest_round(host *h) {
    static const uint8_t opcodes[] = {WRITE, WRITE, READ, READ, READ, COMPARE, WRITE_ZEROES};
    wish wishes[AT_ONCE];
    uint32_t open = 0, row = BLOCKS / AT_ONCE;
    for (uint32_t i = 0; i < AT_ONCE; i++) {
        wish *w = &wishes[i];
        *w = (wish){opcodes[pick(&turn, sizeof opcodes)], 0, 1 + (uint32_t)pick(&turn, pick(&turn, 4) ? 24 : MOST), 4 * (uint32_t)pick(&turn, PAGE / 4)};
        w->first = row * i + (uint32_t)pick(&turn, row - w->blocks + 1);
        prepare(h, i, w);
        put_entry(h, i, w);
        open |= UINT32_C(1) << i;
    }
    (void)nvmed_doorbell(&h->mediator, HONEST, 0x1008, h->tail[HONEST] % SLOTS);
    for (uint32_t turns = 0; open && turns < length.most; turns++) {
        ring_racing(h);
        work(h);
        while (is_there(h, HONEST)) take_completion(h, &open);
    }
    if (open) give_up("a command of the honest guest was not completed");
    (void)nvmed_doorbell(&h->mediator, HONEST, 0x100c, h->seen[HONEST] % SLOTS);
    for (uint32_t i = 0; i < AT_ONCE; i++) finish(h, i, &wishes[i]);
}

/* ---- a set-up */

/* What is nobody's has a pattern of its address. */
static uint8_t pattern(uint64_t address) { return (uint8_t)(address * 167 >> 3 ^ address >> 12 ^ 0x5a); }

static void admin_entry(host *h, uint32_t guest, uint32_t at, uint32_t opcode, uint32_t address, uint32_t cdw11) {
    uint32_t dwords[16] = {opcode, 0, 0, 0, 0, 0, address, 0, 0, 0, 1 | (SLOTS - 1) << 16, cdw11};
    memcpy(byte_of(h, guest, at), dwords, sizeof dwords);
}

static void bring_up(host *h, uint32_t guest) {
    admin_entry(h, guest, ADMIN_SQ, 5, IO_CQ, 1);
    admin_entry(h, guest, ADMIN_SQ + ENTRY, 1, IO_SQ, 1 | 1 << 16);
    (void)nvmed_reg_write(&h->mediator, guest, 0x24, 0x1f001f);
    (void)nvmed_reg_write(&h->mediator, guest, 0x28, ADMIN_SQ);
    (void)nvmed_reg_write(&h->mediator, guest, 0x30, ADMIN_CQ);
    (void)nvmed_reg_write(&h->mediator, guest, 0x14, 0x460001);
    (void)nvmed_doorbell(&h->mediator, guest, 0x1000, 2);
    work(h);
    (void)nvmed_doorbell(&h->mediator, guest, 0x1004, 2);
}

static void open_host(host *h, form form, uint32_t extents) {
    nvmed_sizes sizes = {HOST_BYTES, AREA, DISK_BLOCKS, LANES};
    uint32_t limits[GUESTS] = {1024, 1024};
    nvmed_region regions[GUESTS * PARTS];
    nvmed_extent list[GUESTS * 8];
    h->mediator = NVMED_INIT;
    h->form = form;
    h->extents = extents;
    h->direct = h->bounced = 0;
    memset(h->wanted, 0, DISK_BLOCKS);
    memset(h->blocks, 0, (size_t)BLOCKS * BLOCK);
    for (uint64_t i = 0; i < HOST_BYTES; i++) h->memory[i] = owner_of_page(i) < GUESTS ? 0 : pattern(i);
    for (uint32_t i = 0; i < DISK_BLOCKS; i++)
        for (uint32_t k = 0; k < BLOCK; k++) h->disk[i * BLOCK + k] = owner_of_blocks(h, i, 1) < GUESTS ? 0 : pattern(i * BLOCK + k);
    for (uint32_t g = 0; g < GUESTS; g++) {
        h->tail[g] = h->seen[g] = 0;
        for (uint32_t p = 0; p < PARTS; p++) regions[g * PARTS + p] = (nvmed_region){g, (uint64_t)p * PART, part_at(g, p), PART};
        for (uint32_t e = 0; e < extents; e++) list[g * extents + e] = (nvmed_extent){g, extent_at(h, g, e), extent_blocks(h)};
    }
    expect(nvmed_serve(&h->mediator, h->memory, &sizes, limits, GUESTS, regions, GUESTS * PARTS, list, GUESTS * extents));
    for (uint32_t lane = 0; lane < LANES; lane++) h->drive[lane] = (lane_drive){.phase = 1};
    for (uint32_t g = 0; g < GUESTS; g++) bring_up(h, g);
    for (uint32_t p = 0; p < PARTS; p++) memcpy(h->image + (size_t)p * PART, h->memory + part_at(HONEST, p), PART);
}

static bool has_secret(const uint8_t *bytes, size_t length) {
    for (const uint8_t *at = bytes; (at = (const uint8_t *)memchr(at, (int)(secret & 0xff), length - (size_t)(at - bytes))) != NULL; at++) {
        if (length - (size_t)(at - bytes) < 8) return false;
        if (get(at, 8) == secret) return true;
    }
    return false;
}

/* All that is not the racing guest's or the mediator's. */
static void look(host *h) {
    const uint64_t end = AREA + (uint64_t)LANES * LANE_PAGES * PAGE;
    for (uint64_t i = 0; i < HOST_BYTES; i++)
        if (owner_of_page(i) == GUESTS && (i < AREA || i >= end)) wrong.memory += h->memory[i] != pattern(i);
    for (uint32_t p = 0; p < PARTS; p++) {
        wrong.memory += memcmp(h->memory + part_at(HONEST, p), h->image + (size_t)p * PART, PART) != 0;
        wrong.leaks += has_secret(h->memory + part_at(RACING, p), PART);
    }
    for (uint32_t i = 0; i < DISK_BLOCKS; i++)
        for (uint32_t k = 0; k < BLOCK; k++) wrong.disk += owner_of_blocks(h, i, 1) == GUESTS && h->disk[i * BLOCK + k] != pattern(i * BLOCK + k);
    for (uint32_t i = 0; i < BLOCKS; i++) {
        wrong.disk += memcmp(h->disk + (size_t)block_of(h, HONEST, i) * BLOCK, h->blocks + (size_t)i * BLOCK, BLOCK) != 0;
        wrong.leaks += has_secret(h->disk + (size_t)block_of(h, RACING, i) * BLOCK, BLOCK);
    }
}

/* Whether the racing guest's commands reached the drive, in the way that its form has. */
static bool has_raced(const host *h) { return h->form == BY_PIECES ? h->bounced >= length.raced : h->direct >= length.raced; }

static void race(host *h, form form, uint32_t extents) {
    pthread_t other;
    open_host(h, form, extents);
    atomic_store(&h->over, false);
    if (pthread_create(&other, NULL, rewrite, h)) give_up("a thread cannot be made");
    for (uint32_t i = 0; i < length.rounds || (!has_raced(h) && i < length.most); i++) honest_round(h);
    atomic_store(&h->over, true);
    pthread_join(other, NULL);
    if (!has_raced(h)) give_up("the racing guest's commands did not reach the drive");
    look(h);
    nvmed_free(&h->mediator);
}

int main(int argc, char **argv) {
    static host h;
    unsigned set_ups = 0;
    if (argc > 1 && strcmp(argv[1], "short") == 0) length.rounds = 6, length.raced = 20;
    h.memory = (uint8_t *)malloc(HOST_BYTES);
    h.disk = (uint8_t *)malloc((size_t)DISK_BLOCKS * BLOCK);
    h.image = (uint8_t *)malloc(IMAGE);
    h.blocks = (uint8_t *)malloc((size_t)BLOCKS * BLOCK);
    h.wanted = (uint8_t *)malloc(DISK_BLOCKS);
    if (!h.memory || !h.disk || !h.image || !h.blocks || !h.wanted) give_up("out of memory");
    for (uint32_t extents = 1; extents <= 3; extents += 2)
        for (int form = 0; form < FORMS; form++, set_ups++) {
            race(&h, (enum form)form, extents);
            if (argc > 1 && strcmp(argv[1], "counts") == 0) printf("form %d, %u extents: %lu direct, %lu bounced\n", form, (unsigned)extents, (unsigned long)h.direct, (unsigned long)h.bounced);
        }
    printf("%u set-ups with one guest that races and one that is honest\n", set_ups);
    printf("of the drive's entries wrong: %u in their fields, %u in blocks, %u in pages\n", wrong.entries, wrong.blocks, wrong.pages);
    printf("of the honest guest wrong: %u completions, %u Reads; in its memory or nobody's %u, in blocks %u; seen by the other: %u\n", wrong.completions,
           wrong.data, wrong.memory, wrong.disk, wrong.leaks);
    free(h.memory);
    free(h.disk);
    free(h.image);
    free(h.blocks);
    free(h.wanted);
    return (wrong.entries | wrong.blocks | wrong.pages | wrong.completions | wrong.data | wrong.memory | wrong.disk | wrong.leaks) != 0;
}
