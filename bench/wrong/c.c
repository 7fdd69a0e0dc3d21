/* Every call of the library for C with wrong arguments: null pointers, lengths of 0, numbers far out of range, handles without a mediator, set-ups
 * that are refused. Each has to answer one of its statuses, and the mediator has to be as it was. Prints the version of the library, which has to be
 * the header's, and how many calls there were of each other function: a hundred or more, those of nvmed_free on handles that hold nothing. */
#include "calls.h"

static const nvmed_sizes good = {0x1000000, 0x400000, 4096, 1};
static const uint32_t limits[17] = {1024, 1024, 1, 1, 1, 1, 1, 1, 1, 1, 1, 1, 1, 1, 1, 1, 1};
static const nvmed_region regions[1] = {{0, 0, 0x100000, 0x20000}};
static const nvmed_extent extents[1] = {{0, 1000, 64}};

/* A set-up of these sizes, with one guest, which has to be answered so; the handle stays empty. */
static void refused(const char *what, nvmed_status status, nvmed_sizes sizes, nvmed_region region, nvmed_extent extent, uint32_t limit) {
    nvmed m = NVMED_INIT;
    want(what, status, nvmed_new(&m, &sizes, &limit, 1, &region, 1, &extent, 1));
    want(what, NVMED_NO_MEDIATOR, nvmed_free(&m));
}

static void set_ups(void) {
    nvmed_sizes s = good;
    nvmed_region r = regions[0];
    nvmed_extent e = extents[0];
    nvmed m = NVMED_INIT;
    want("no handle", NVMED_NULL, nvmed_new(NULL, &good, limits, 1, regions, 1, extents, 1));
    want("no sizes", NVMED_NULL, nvmed_new(&m, NULL, limits, 1, regions, 1, extents, 1));
    want("no limits", NVMED_NULL, nvmed_new(&m, &good, NULL, 1, regions, 1, extents, 1));
    want("no regions", NVMED_NULL, nvmed_new(&m, &good, limits, 1, NULL, 1, extents, 1));
    want("no extents", NVMED_NULL, nvmed_new(&m, &good, limits, 1, regions, 1, NULL, 1));
    want("17 guests", NVMED_TOO_MANY_GUESTS, nvmed_new(&m, &good, limits, 17, regions, 1, extents, 1));
    want("a guest without extents", NVMED_BAD_SIZE, nvmed_new(&m, &good, limits, 2, regions, 1, extents, 1));
    refused("a limit of 0", NVMED_BAD_SIZE, good, r, e, 0);
    refused("a limit of 4,097", NVMED_BAD_SIZE, good, r, e, 4097);
    for (int i = 0; i < WIDE; i++) {
        s = good, s.lanes = wide[i] == 1 ? 9 : wide[i];
        refused("lanes", NVMED_BAD_SIZE, s, r, e, 1024);
        s = good, s.disk_blocks = wide[i] == 4095 || wide[i] == 4096 ? 0 : wide[i];
        refused("disk", NVMED_BAD_SIZE, s, r, e, 1024);
        s = good, s.mediator = wide[i] > 4096 ? wide[i] : good.mediator + 1 + 2 * wide[i];
        refused("area", NVMED_BAD_SIZE, s, r, e, 1024);
        e = extents[0], e.blocks = wide[i] == 1 || wide[i] == 511 ? 0 : wide[i];
        refused("blocks", NVMED_BAD_SIZE, good, r, e, 1024);
        e = extents[0], e.base = wide[i] < 4033 ? 4096 : wide[i];
        refused("base", NVMED_BAD_SIZE, good, r, e, 1024);
        e = extents[0];
        r = regions[0], r.bytes = wide[i] % 4096 ? wide[i] : 0;
        refused("bytes", NVMED_UNALIGNED, good, r, e, 1024);
        r = regions[0], r.host = 0x1000000 + (wide[i] & 0x7ffffffffffff000);
        refused("host", NVMED_OUTSIDE_HOST, good, r, e, 1024);
        r = regions[0];
    }
    r.host = 0x400000;
    refused("in the area", NVMED_MAPS_MEET, good, r, e, 1024);
    for (int i = 0; i < POWERS; i++) {
        s = good, s.lanes = power(i) - 1 < 8 ? 9 : power(i);
        refused("lanes", NVMED_BAD_SIZE, s, regions[0], e, 1024);
    }
}

/* All calls on a handle that is null, or that holds nothing. */
static void on_nothing(nvmed *m, nvmed_status status) {
    nvmed_event event;
    uint8_t bytes[8] = {0};
    uint32_t word;
    uint64_t done;
    const uint8_t *at;
    memset(&event, 0, sizeof event);
    event.kind = NVMED_REAP;
    want("free", status, nvmed_free(m));
    want("store", status, nvmed_store(m, 0, 0, bytes, sizeof bytes));
    want("load", status, nvmed_load(m, 0, 0, bytes, sizeof bytes));
    want("reg_read", status, nvmed_reg_read(m, 0, 0, &word));
    want("reg_write", status, nvmed_reg_write(m, 0, 0x14, 1));
    want("doorbell", status, nvmed_doorbell(m, 0, 0x1000, 1));
    want("step", status, nvmed_step(m, &event));
    want("due", status, nvmed_due(m, &event, &word));
    want("work", status, nvmed_work(m, NVMED_OF_ALL, 0, 10, &done));
    want("memory", status, nvmed_memory(m, 0, 0, bytes, sizeof bytes, &at, &done));
    want("block", status, nvmed_block(m, 0, &at));
    want("kept", status, nvmed_kept(m, 0, &word));
}

/* Null pointers beside a handle that holds a mediator, and lengths of 0. */
static void nulls(nvmed *m) {
    nvmed_event event;
    uint32_t word;
    uint64_t done;
    const uint8_t *at;
    memset(&event, 0, sizeof event);
    want("store", NVMED_NULL, nvmed_store(m, 0, 0, NULL, 1));
    want("load", NVMED_NULL, nvmed_load(m, 0, 0, NULL, 1));
    want("store of nothing", NVMED_OK, nvmed_store(m, 0, 0, NULL, 0));
    want("load of nothing", NVMED_OK, nvmed_load(m, 0, 0, NULL, 0));
    want("reg_read", NVMED_NULL, nvmed_reg_read(m, 0, 0, NULL));
    want("step", NVMED_NULL, nvmed_step(m, NULL));
    want("due", NVMED_NULL, nvmed_due(m, NULL, &word));
    want("due", NVMED_NULL, nvmed_due(m, &event, NULL));
    want("work", NVMED_NULL, nvmed_work(m, NVMED_OF_ALL, 0, 1, NULL));
    want("memory", NVMED_NULL, nvmed_memory(m, 0, 0, NULL, 1, &at, &done));
    want("memory", NVMED_NULL, nvmed_memory(m, 0, 0, &event, 1, NULL, &done));
    want("memory", NVMED_NULL, nvmed_memory(m, 0, 0, &event, 1, &at, NULL));
    want("block", NVMED_NULL, nvmed_block(m, 0, NULL));
    want("kept", NVMED_NULL, nvmed_kept(m, 0, NULL));
    want("new in a handle in use", NVMED_IN_USE, nvmed_new(m, &good, limits, 1, regions, 1, extents, 1));
    want("work of no scope", NVMED_NO_SUCH, nvmed_work(m, 0, 0, 1, &done));
    want("work of a scope of the future", NVMED_NO_SUCH, nvmed_work(m, 4, 0, 1, &done));
    want("no events of all", NVMED_OK, nvmed_work(m, NVMED_OF_ALL, 0, 0, &done));
    want("a step of no kind", NVMED_NO_SUCH, nvmed_step(m, &event));
}

/* Every number in every place. */
static void numbers_everywhere(nvmed *m) {
    uint8_t bytes[64];
    uint32_t word;
    uint64_t done;
    const uint8_t *at;
    memset(bytes, 0xa5, sizeof bytes);
    for (int i = 0; i < NUMBERS; i++) {
        uint32_t n = numbers[i];
        nvmed_status none = n > 255 ? NVMED_NO_SUCH : NVMED_IGNORED;
        for (int j = 0; n != 0 && j < WIDE; j++) {
            want("store", none, nvmed_store(m, n, wide[j], bytes, sizeof bytes));
            want("load", none, nvmed_load(m, n, wide[j], bytes, sizeof bytes));
            want("memory", none, nvmed_memory(m, n, wide[j], bytes, sizeof bytes, &at, &done));
            want("reg_read", none, nvmed_reg_read(m, n, (uint32_t)wide[j], &word));
            want("reg_write", none, nvmed_reg_write(m, n, (uint32_t)wide[j], 1));
            want("doorbell", none, nvmed_doorbell(m, n, (uint32_t)wide[j], 1));
        }
        any("reg_read", nvmed_reg_read(m, 0, n, &word));
        want("reg_write", NVMED_IGNORED, nvmed_reg_write(m, 0, n | 1, n));
        want("doorbell", NVMED_IGNORED, nvmed_doorbell(m, 0, n, n));
        for (int scope = 1; scope <= 3; scope++)
            want("work", n > 255 && scope != 3 ? NVMED_NO_SUCH : NVMED_OK, nvmed_work(m, (uint32_t)scope, n, n, &done));
        for (uint32_t kind = 0; kind < 14; kind++) {
            nvmed_event event = {kind, n, n, n, n, n, n, n, n, n, n};
            any("step", nvmed_step(m, &event));
            any("due", nvmed_due(m, &event, &word));
        }
    }
    for (int i = 0; i < POWERS; i++) {
        uint64_t p = power(i);
        nvmed_status whole = p <= 0x20000 - sizeof bytes ? NVMED_OK : NVMED_UNMAPPED;
        want("store", whole, nvmed_store(m, 0, p, bytes, sizeof bytes));
        want("load", whole, nvmed_load(m, 0, p, bytes, sizeof bytes));
        want("memory", p < 0x20000 ? NVMED_OK : NVMED_UNMAPPED, nvmed_memory(m, 0, p, bytes, sizeof bytes, &at, &done));
        want("block", p < 4096 ? NVMED_OK : NVMED_NO_SUCH, nvmed_block(m, p, &at));
        want("kept", p < 4096 ? NVMED_OK : NVMED_NO_SUCH, nvmed_kept(m, p, &word));
        any("work", nvmed_work(m, NVMED_OF_LANE, 0, p, &done));
    }
}

/* A view that has to be these bytes, and to lie in the room or not. */
static void view(const char *what, nvmed *m, uint32_t guest, uint64_t address, uint64_t length, uint64_t count, const uint8_t *bytes, int in_room) {
    static uint8_t room[0x80000], loaded[0x80000];
    const uint8_t *at;
    uint64_t shown;
    memset(room, 0x5a, sizeof room);
    want(what, NVMED_OK, nvmed_memory(m, guest, address, room, length, &at, &shown));
    want(what, NVMED_OK, nvmed_load(m, guest, address, loaded, count));
    if (shown != count || (count ? !at || memcmp(at, loaded, count) != 0 || (at == room) != in_room : at != NULL)) {
        wrong++;
        printf("%s: shows %u bytes, not %u, or others\n", what, (unsigned)shown, (unsigned)count);
    }
    if (bytes && (!at || memcmp(at, bytes, count) != 0)) {
        wrong++;
        printf("%s: shows other bytes\n", what);
    }
}

/* Views of two guests' memory. Guest 0's lies in the host in three rows: two regions that touch, one before them, and one behind a gap in its
 * addresses, over the end of a part of the host at 40000h. Guest 1's is a page, which lies behind guest 0's in the host. */
static void views(void) {
    static const nvmed_region rows[5] = {
        {0, 0x2000, 0x8e000, 0x10000}, {1, 0, 0x9f000, 0x1000}, {0, 0, 0xc0000, 0x2000}, {0, 0x12000, 0x9e000, 0x1000}, {0, 0x20000, 0x3f000, 0x2000}};
    static const nvmed_extent blocks[2] = {{0, 0, 8}, {1, 8, 8}};
    static const uint8_t mark[8] = "guest 0", other[8] = "guest 1";
    nvmed m = NVMED_INIT;
    const uint8_t *at;
    uint64_t count;
    uint8_t room[8];
    want("new", NVMED_OK, nvmed_new(&m, &good, limits, 2, rows, 5, blocks, 2));
    view("nothing", &m, 0, 0, 0, 0, NULL, 0);
    view("never written", &m, 0, 0x100, 64, 64, NULL, 1);
    want("store", NVMED_OK, nvmed_store(&m, 0, 0x11ffc, mark, sizeof mark));
    want("store", NVMED_OK, nvmed_store(&m, 0, 0x20ffc, mark, sizeof mark));
    want("store", NVMED_OK, nvmed_store(&m, 1, 0, other, sizeof other));
    view("over regions that touch", &m, 0, 0x11ffc, sizeof mark, sizeof mark, mark, 0);
    view("as far as they go", &m, 0, 0x11ffc, 0x80000, 0x1004, NULL, 0);
    view("of the other guest", &m, 1, 0, 8, 8, other, 0);
    view("as far as its page goes", &m, 1, 0xffc, 8, 4, NULL, 0);
    view("as far as the row goes", &m, 0, 0x1ff8, 64, 8, NULL, 1);
    view("over two parts of the host", &m, 0, 0x20ffc, 8, 8, mark, 1);
    view("in the first of them", &m, 0, 0x20ffc, 4, 4, mark, 0);
    want("in the gap", NVMED_UNMAPPED, nvmed_memory(&m, 0, 0x13000, room, 8, &at, &count));
    want("behind all", NVMED_UNMAPPED, nvmed_memory(&m, 1, 0x1000, room, 8, &at, &count));
    want("free", NVMED_OK, nvmed_free(&m));
}

/* Each kind of event with one number that fits nothing: it is refused where the kind looks at that number, and nowhere else. */
static void looked_at(nvmed *m) {
    enum { GUEST = 1, QUEUE = 2, LANE = 4, TAG = 8, SLOT = 16, STATUS = 32, FIELDS = 6, TOO_HIGH = 65536 };
    static const int looks[13] = {0, GUEST, GUEST | QUEUE | LANE, LANE | TAG, LANE | TAG, LANE | TAG, LANE, LANE | SLOT, LANE | SLOT, LANE | SLOT | STATUS,
                                  0, LANE, LANE | TAG};
    for (uint32_t kind = 1; kind <= 12; kind++)
        for (int i = 0; i < FIELDS; i++) {
            nvmed_event event;
            uint32_t *const fields[FIELDS] = {&event.guest, &event.queue, &event.lane, &event.tag, &event.slot, &event.status};
            uint32_t due = 7;
            int looks_at = looks[kind] >> i & 1;
            memset(&event, 0, sizeof event);
            event.kind = kind;
            *fields[i] = TOO_HIGH;
            want("a number that fits nothing", looks_at ? NVMED_NO_SUCH : NVMED_OK, nvmed_due(m, &event, &due));
            left("due", due == 0);
            if (looks_at) want("a number that fits nothing", NVMED_NO_SUCH, nvmed_step(m, &event));
        }
}

/* After each error what a call would have put is 0 or null, and the bytes of a load are as they were. */
static void outputs(nvmed *m) {
    static const uint32_t guests[3] = {1, 256, 0};
    static const nvmed_status errors[3] = {NVMED_IGNORED, NVMED_NO_SUCH, NVMED_NO_MEDIATOR};
    nvmed nothing = NVMED_INIT;
    uint8_t bytes[8], before[8];
    uint32_t word;
    uint64_t count;
    const uint8_t *at;
    memset(bytes, 0x5a, sizeof bytes);
    memcpy(before, bytes, sizeof bytes);
    for (int i = 0; i < 3; i++) {
        nvmed *of = i == 2 ? &nothing : m;
        word = 7, count = 7, at = bytes;
        want("load", errors[i], nvmed_load(of, guests[i], 0, bytes, sizeof bytes));
        want("reg_read", errors[i], nvmed_reg_read(of, guests[i], 0, &word));
        left("reg_read", word == 0);
        want("memory", errors[i], nvmed_memory(of, guests[i], 0, bytes, sizeof bytes, &at, &count));
        left("memory", at == NULL && count == 0);
    }
    count = 7, at = bytes;
    want("load", NVMED_UNMAPPED, nvmed_load(m, 0, 0x20000 - 4, bytes, sizeof bytes));
    want("memory", NVMED_UNMAPPED, nvmed_memory(m, 0, 0x20000, bytes, sizeof bytes, &at, &count));
    left("memory", at == NULL && count == 0);
    left("load", memcmp(bytes, before, sizeof bytes) == 0);
    word = 7;
    want("no register there", NVMED_OK, nvmed_reg_read(m, 0, 0x40, &word));
    left("no register there", word == 0);
    word = 7;
    want("between two registers", NVMED_IGNORED, nvmed_reg_read(m, 0, 0x0a, &word));
    left("between two registers", word == 0);
    word = 7, count = 7, at = bytes;
    want("work", NVMED_NO_SUCH, nvmed_work(m, 4, 0, 1, &count));
    want("block", NVMED_NO_SUCH, nvmed_block(m, 4096, &at));
    want("kept", NVMED_NO_SUCH, nvmed_kept(m, 4096, &word));
    left("work, block and kept", count == 0 && at == NULL && word == 0);
}

/* The version of the library that is linked has to be the header's. */
static void version(void) {
    uint32_t number = nvmed_version();
    left("version", number == NVMED_VERSION);
    printf("version %u.%u\n", (unsigned)(number >> 16), (unsigned)(number & 0xffff));
}

int main(void) {
    nvmed m = NVMED_INIT;
    version();
    set_ups();
    views();
    on_nothing(NULL, NVMED_NULL);
    on_nothing(&m, NVMED_NO_MEDIATOR);
    want("new", NVMED_OK, nvmed_new(&m, &good, limits, 1, regions, 1, extents, 1));
    nulls(&m);
    looked_at(&m);
    outputs(&m);
    numbers_everywhere(&m);
    want("free", NVMED_OK, nvmed_free(&m));
    want("free again", NVMED_NO_MEDIATOR, nvmed_free(&m));
    on_nothing(&m, NVMED_NO_MEDIATOR);
    return sum_up();
}
