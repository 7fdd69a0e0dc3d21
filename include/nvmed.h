/* nvmed.h: a proved NVMe mediator, as a library. docs/EMBEDDING.md says how it is used.
 *
 * A mediator has guests whose memory lies in the host's, a virtual NVMe controller for each guest, and a physical controller, which the guests share.
 * There are two kinds, by the same calls:
 *   nvmed_serve  The memory and the drive are the host's. The host lends its memory to each call, makes the lanes' rings (nvmed_rings) queues of its
 *                drive, and writes the drive's doorbells. The events of the drive (DEV_TAKE to KEEP) are its own: of them a call returns NO_SUCH.
 *   nvmed_new    Memory and drive are the library's own: a simulation, for tests and first steps.
 *
 * The library is written in Rattle and proved. Each call below names what is proved of it, on a handle that holds a mediator:
 *   SAFE      The call is memory safe, ends, and returns one of the numbers below, whatever numbers and bytes it is given.
 *   EXACT     An event is one step of the definition, whole: the answer, and the world after it.
 *   CONTAINED An event reads and changes nothing of any guest but its owner: no memory, block, register or queue. This holds whatever guests do, and
 *             whichever commands failed. (A guest may see that one of its blocks became kept.)
 *   PRIVATE   What a guest has seen, its memory and its blocks are those of a run of its own commands on a private controller. There are two premises:
 *             none of the guest's physical commands was failed (NVMED_DEV_FAIL; nvmed_work makes none), and the guest is disciplined (below).
 *             A command that was given up (NVMED_GIVE_UP) ends with Internal Error; the private controller may answer so, too. The bytes of a Read
 *             may arrive in its buffer at any time before its completion.
 *             Of a guest for which a premise does not hold PRIVATE says nothing. The other three hold for it, and PRIVATE for the other guests.
 *
 * A command is outstanding from its submission to its completion. It names its entry, until that is taken, its lists, and the buffers that it reads
 * or writes. A guest is disciplined if, in every state since the set-up,
 *   - no byte that an outstanding command writes (of a Read or an Identify) is named a second time, by it or by another one;
 *   - no slot of its completion queues has a byte that an outstanding command names;
 *   - it stores nothing into what an outstanding command names, and loads nothing from what one writes.
 *
 * Where the memory and the drive are the host's (nvmed_serve), the following holds, and no more.
 *
 * Proved: whatever guests and the drive have left in memory when a call begins, the call is safe, ends, and does what the definition's step does with
 * those bytes, as long as nobody else writes there until it returns (IsDone of nv_host). Then it changes nothing of another guest's, depends on nothing of
 * another's, and names nothing of another's to the drive (the_code_is_contained of nv_laws_machine). Proved where a log of the definition's events leads
 * to that moment: what a disciplined guest has seen, and has, is a run of its private controller (IsPromised of nv_host). A host with a real drive, or
 * with guests that run meanwhile, isn't at such a moment at every call.
 *
 *   Every case  SAFE. EXACT of one call: its answer, the mediator and the memory after it are those of the definition's step in every world that has this
 *               mediator and this memory. Of REAP this is said of worlds that events of the definition lead to; in every case its answer follows from the
 *               lane and the completion that is read next. nvmed_work is a row of such steps. CONTAINED of each call, with the bytes that are in memory when
 *               it begins: of the memory, of the tags and their pages, of what is named to the drive. No event has to have led there.
 *   A log       PRIVATE, CONTAINED as of worlds, and EXACT of all calls together, hold of each log of the definition's events that leads to the mediator and
 *               the memory. There is one only where, between two calls, the drive has moved whole blocks, its completions have zeros in DW0, DW1, More and
 *               CRD and the submission queue head that the definition has, deallocated blocks read zeros, each guest wrote its own memory alone, nobody
 *               else wrote, and nothing has changed while a call ran. NVMe lets a drive do otherwise, and guests on other processors store at any time.
 *   Assumed     SAFE, too, needs that nobody else writes while a call runs, or that the compiler reads once what the code reads once: a test of one binary
 *               (bench/single_fetch.py) stands for the second.
 *
 * What C has to keep to, which nothing checks:
 *   - A pointer is null, or points to as much as is said. What is written does not overlap what else is passed, nor what a view showed.
 *   - A handle has one caller at a time, for every call: while a call runs it writes to the handle, even if it changes nothing of the mediator. A handle
 *     may go from thread to thread, with a lock or a join between the calls: that is tested (examples/threads.c), not proved.
 *   - A handle is zero before its first use (NVMED_INIT), and is not copied while it holds a mediator.
 *   - The memory that is lent to nvmed_serve stays there until nvmed_free: host_bytes of address space. Only what regions and the mediator's area name is
 *     written (proved). That nothing else is read, so that the rest may be holes, is tested: no contract speaks of reads.
 *   - malloc, realloc and free come from one allocator. No call is made from a signal handler.
 *
 * For a null pointer a call returns NVMED_NULL and does nothing else. A null pointer with a length of 0 is an empty list. The lines of this file that
 * test pointers, and those that set an output to 0 or to null, are C and not proved; all else is. Nothing aborts, prints, waits, or is kept outside the
 * handle. What a call costs, and that memory which was taken is given back, is tested and not proved.
 */
#ifndef NVMED_H
#define NVMED_H

#include <stddef.h>
#include <stdint.h>

#ifdef __cplusplus
extern "C" {
#endif

/* The version of this interface. Its major number changes when a call or a struct changes or goes: programs must be compiled anew. Its minor number
 * changes when calls are added: programs that were compiled before go on as they are. NVMED_VERSION is both in one number, which may be compared. */
#define NVMED_VERSION_MAJOR 2
#define NVMED_VERSION_MINOR 3
#define NVMED_VERSION (NVMED_VERSION_MAJOR * 65536u + NVMED_VERSION_MINOR)

/* What a call returns. All but NVMED_OK are errors. */
typedef enum nvmed_status {
    NVMED_OK = 0,              /* it was done */
    NVMED_IDLE = 1,            /* there is nothing to do */
    NVMED_BUSY = 2,            /* the lane has too few free tags */
    NVMED_HELD = 3,            /* the completion queue is full */
    NVMED_STALE = 4,           /* the tag is not at that point */
    NVMED_UNMAPPED = 5,        /* not all of these addresses are mapped */
    NVMED_IGNORED = 6,         /* an access that has no effect, or no such guest, queue, lane, tag or slot */
    NVMED_NO_MEMORY = 8,       /* out of memory: nothing has changed, or, of nvmed_work, *done events were made */
    NVMED_TOO_MANY_GUESTS = 9, /* a set-up of more than 16 guests */
    NVMED_RANGES_MEET = 10,    /* two extents have a block in common */
    NVMED_MAPS_MEET = 11,      /* two guests' memories meet in the host, or one and the mediator's area */
    NVMED_BAD_SIZE = 12,       /* a size is beyond its limits, the area or an extent does not fit, or a guest has no extent or more than 8 */
    NVMED_UNALIGNED = 13,      /* a region's addresses or length are no multiple of 4,096, or its length is 0 */
    NVMED_OVERLAP = 14,        /* two regions of a guest have an address in common */
    NVMED_OUTSIDE_HOST = 15,   /* a region leaves the host's memory */
    NVMED_NO_MEDIATOR = 16,    /* the handle holds no mediator */
    NVMED_IN_USE = 17,         /* the handle holds one already */
    NVMED_NO_SUCH = 18,        /* a number that is looked at is above 255 (of a queue 65,535), or no such kind of event, scope, status or block */
    NVMED_NULL = 19,           /* a pointer is null that may not be */
    NVMED_OTHER_MEMORY = 20,   /* the memory that is lent is not as long as the set-up says: the handle's members were changed */
    NVMED_CLOSED = 21,         /* the lane was closed: nothing is taken for it any more */
    NVMED_STRAY = 22           /* a completion of the drive names no command that it has: close the lane */
} nvmed_status;

/* A handle. Its members are the library's, and this header's. */
typedef struct nvmed_handle {
    void *hosted;
} nvmed_handle;

typedef struct nvmed {
    nvmed_handle handle;
    uint8_t *memory; /* the host's memory that is lent to each call, of nvmed_serve */
    uint64_t bytes;  /* its length */
} nvmed;

#ifdef __cplusplus
#define NVMED_INIT nvmed{{nullptr}, nullptr, 0}
#else
#define NVMED_INIT ((nvmed){{0}, 0, 0})
#endif

/* The sizes of a set-up. */
typedef struct nvmed_sizes {
    uint64_t host_bytes;  /* the host's memory: 4,096 to 1,073,741,824 bytes (of nvmed_serve 2^47), a multiple of 4,096 */
    uint64_t mediator;    /* the host address of the mediator's area, a multiple of 4,096; it has 8,663,040 bytes for each lane */
    uint64_t disk_blocks; /* the disk: 1 to 2,097,152 blocks of 512 bytes (of nvmed_serve 2^48) */
    uint64_t lanes;       /* queue pairs of the physical controller: 1 to 8 */
} nvmed_sizes;

/* A region of a guest's memory: whole pages of 4,096 bytes. */
typedef struct nvmed_region {
    uint64_t guest;   /* the guest's number */
    uint64_t address; /* the guest address of its first byte */
    uint64_t host;    /* the host address of its first byte */
    uint64_t bytes;   /* its length */
} nvmed_region;

/* Blocks of the disk in a row. A guest's extents, 1 to 8, are its namespace, in the order in which they are listed. */
typedef struct nvmed_extent {
    uint64_t guest;  /* the guest's number */
    uint64_t base;   /* the disk's block that is its first */
    uint64_t blocks; /* how many, at least 1 */
} nvmed_extent;

/* The events that are no guest's act, and the members of nvmed_event that each looks at. The others may have any value. */
typedef enum nvmed_kind {
    NVMED_ADMIN = 1,    /* guest: one admin command, or its deletion that waits */
    NVMED_TAKE = 2,     /* guest, queue (1 to 8), lane: the queue's front entry gets tags of the lane */
    NVMED_LIST = 3,     /* lane, tag, address, bytes: bytes of the guest's memory are read for the tag's command */
    NVMED_SUBMIT = 4,   /* lane, tag: the command is carried out, as far as the mediator does it */
    NVMED_GIVE_UP = 5,  /* lane, tag: the command, which was not submitted, ends with Internal Error */
    NVMED_DEV_TAKE = 6, /* lane: the physical controller takes the front entry */
    NVMED_DEV_MOVE = 7, /* lane, slot, number: it moves the unit of that number */
    NVMED_DEV_POST = 8, /* lane, slot: it completes the command */
    NVMED_DEV_FAIL = 9, /* lane, slot, status, dnr: it fails the command */
    NVMED_KEEP = 10,    /* number: that block of the disk becomes kept when power is lost */
    NVMED_REAP = 11,    /* lane: the next physical completion ends its tag */
    NVMED_POST = 12     /* lane, tag: the command is completed for its guest */
} nvmed_kind;

typedef struct nvmed_event {
    uint32_t kind; /* enum nvmed_kind */
    uint32_t guest;
    uint32_t queue;
    uint32_t lane;
    uint32_t tag;
    uint32_t slot;
    uint32_t status; /* the status code, plus 256 times the status code type (0 to 7) */
    uint32_t dnr;    /* 0, or else: do not retry */
    uint64_t address;
    uint64_t bytes;
    uint64_t number;
} nvmed_event;

/* A lane's rings, as nvmed_rings reports them. */
typedef struct nvmed_lane_rings {
    uint64_t submission; /* the host address of the submission ring, of entries of 64 bytes */
    uint64_t completion; /* the host address of the completion ring, of entries of 16 bytes */
    uint32_t entries;    /* how many entries each has */
    uint32_t tail;       /* what the submission ring's tail doorbell is to have */
    uint32_t head;       /* what the completion ring's head doorbell is to have */
    uint32_t closed;     /* 1 where the lane was closed, and else 0 */
} nvmed_lane_rings;

/* The most vectors of a guest: one of each of its completion queues, the admin queue's among them. */
enum { NVMED_VECTORS = 9 };

/* The vectors of all guests as nvmed_changed saw them last: all zero before its first call. What they are is the library's own. */
typedef struct nvmed_seen {
    uint32_t vectors[16][NVMED_VECTORS];
} nvmed_seen;

/* Where a completion queue of a guest stood, and the nine of one guest as nvmed_posted saw them last: all zero before its first call. What they are is the
 * library's own. */
typedef struct nvmed_standing {
    uint16_t size, tail, head, phase;
} nvmed_standing;

typedef struct nvmed_posted_seen {
    nvmed_standing queues[NVMED_VECTORS];
} nvmed_posted_seen;

/* Of whom nvmed_work does what is due. */
typedef enum nvmed_scope { NVMED_OF_GUEST = 1, NVMED_OF_LANE = 2, NVMED_OF_ALL = 3 } nvmed_scope;

/* What the library exports. No pointer may be null here: use the calls below, which test them. A slice is its pointer and its length. */
uint32_t nvmed_raw_version(void);
uint32_t nvmed_raw_new(nvmed_handle *, const nvmed_sizes *, const uint32_t *, size_t, const nvmed_region *, size_t, const nvmed_extent *, size_t);
uint32_t nvmed_raw_serve(nvmed_handle *, const nvmed_sizes *, const uint32_t *, size_t, const nvmed_region *, size_t, const nvmed_extent *, size_t,
                         uint8_t *, size_t);
uint32_t nvmed_raw_free(nvmed_handle *);
uint32_t nvmed_raw_store(nvmed_handle *, uint32_t, uint64_t, const uint8_t *, size_t, uint8_t *, size_t);
uint32_t nvmed_raw_load(nvmed_handle *, uint32_t, uint64_t, uint8_t *, size_t, const uint8_t *, size_t);
uint32_t nvmed_raw_reg_read(nvmed_handle *, uint32_t, uint32_t, uint32_t *, uint8_t *, size_t);
uint32_t nvmed_raw_reg_write(nvmed_handle *, uint32_t, uint32_t, uint32_t, uint8_t *, size_t);
uint32_t nvmed_raw_doorbell(nvmed_handle *, uint32_t, uint32_t, uint32_t, uint8_t *, size_t);
uint32_t nvmed_raw_step(nvmed_handle *, const nvmed_event *, uint8_t *, size_t);
uint32_t nvmed_raw_due(nvmed_handle *, const nvmed_event *, uint32_t *, const uint8_t *, size_t);
uint32_t nvmed_raw_work(nvmed_handle *, uint32_t, uint32_t, uint64_t, uint64_t *, uint8_t *, size_t);
uint32_t nvmed_raw_rings(nvmed_handle *, uint32_t, nvmed_lane_rings *);
uint32_t nvmed_raw_pending(nvmed_handle *, uint32_t, uint32_t, uint32_t *);
uint32_t nvmed_raw_seen(nvmed_handle *, uint32_t, uint32_t *, size_t);
uint32_t nvmed_raw_posted(nvmed_handle *, uint32_t, nvmed_standing *, size_t, uint32_t *, size_t);
uint32_t nvmed_raw_share(nvmed_handle *, uint32_t, uint32_t);
uint32_t nvmed_raw_close(nvmed_handle *, uint32_t, uint8_t *, size_t);
uint32_t nvmed_raw_memory(nvmed_handle *, uint32_t, uint64_t, uint8_t *, size_t, const uint8_t **, uint64_t *);
uint32_t nvmed_raw_block(nvmed_handle *, uint64_t, const uint8_t **);
uint32_t nvmed_raw_kept(nvmed_handle *, uint64_t, uint32_t *);

/* An address for a list of no members, which may be null in C. */
static inline const void *nvmed_some(const void *at, uint64_t length) {
    static const uint64_t none = 0;
    return length == 0 ? &none : at;
}

/* The memory that is lent to a call: none of a mediator that has its own. */
static inline uint8_t *nvmed_lent(const nvmed *m) {
    static uint8_t none;
    return m->memory ? m->memory : &none;
}

/* The version of the library that is linked, counted as NVMED_VERSION is. A library serves a program if their major numbers are the same, and its minor
 * number is that of the program's header or a higher one. It takes no handle, needs no memory, and returns no status. SAFE, EXACT (the number of the
 * library is proved; that the macros say the same is tested). Errors: none. */
static inline uint32_t nvmed_version(void) { return nvmed_raw_version(); }

/* Makes the mediator of a set-up, and puts it into a handle that holds none. There are as many guests as limits: limits[g] is the most descriptors
 * that a list of guest g may have, 1 to 4,096. Its regions and extents are those of number g, in their order; those of a number that is no guest's
 * are not looked at. The host's memory and the disk are zero. SAFE, EXACT (the set-up that is opened is the one that these lists spell). It was
 * accepted: no two guests share a byte or a block, and none has a byte of the mediator's area. CONTAINED and PRIVATE hold from here on.
 * Errors: NULL, IN_USE, NO_MEMORY, and TOO_MANY_GUESTS to OUTSIDE_HOST; the handle then holds what it held. */
static inline nvmed_status nvmed_new(nvmed *m, const nvmed_sizes *sizes, const uint32_t *limits, uint64_t guests, const nvmed_region *regions,
                                     uint64_t region_count, const nvmed_extent *extents, uint64_t extent_count) {
    if (!m || !sizes || (!limits && guests) || (!regions && region_count) || (!extents && extent_count)) return NVMED_NULL;
    return (nvmed_status)nvmed_raw_new(&m->handle, sizes, (const uint32_t *)nvmed_some(limits, guests), guests,
                                       (const nvmed_region *)nvmed_some(regions, region_count), region_count,
                                       (const nvmed_extent *)nvmed_some(extents, extent_count), extent_count);
}

/* The same for a host that has the memory and the drive: `memory` is where host address 0 is, of sizes->host_bytes bytes, and the host addresses are
 * those that the drive uses. Guests' regions and the mediator's area lie in it; the rest may be holes. The library keeps no pointer: this header lends
 * the memory to each call. The drive may have any blocks, and the memory any bytes; the lanes' completion rings are cleared. SAFE, EXACT, CONTAINED and
 * PRIVATE as nvmed_new, with what is said above of a host's memory and drive.
 * Each guest has a share of a lane's 64 tags (nvmed_share).
 * Errors: as of nvmed_new; BAD_SIZE, too, where host_bytes is above 2^47 or disk_blocks above 2^48, or the guests have more than 64 extents together.
 * After NO_MEMORY the lanes' completion rings may have been cleared; after every other error no byte of the memory has changed. */
static inline nvmed_status nvmed_serve(nvmed *m, void *memory, const nvmed_sizes *sizes, const uint32_t *limits, uint64_t guests,
                                       const nvmed_region *regions, uint64_t region_count, const nvmed_extent *extents, uint64_t extent_count) {
    nvmed_status status;
    if (!m || !memory || !sizes || (!limits && guests) || (!regions && region_count) || (!extents && extent_count)) return NVMED_NULL;
    if (sizes->host_bytes > (uint64_t)1 << 47) return NVMED_BAD_SIZE;
    status = (nvmed_status)nvmed_raw_serve(&m->handle, sizes, (const uint32_t *)nvmed_some(limits, guests), guests,
                                           (const nvmed_region *)nvmed_some(regions, region_count), region_count,
                                           (const nvmed_extent *)nvmed_some(extents, extent_count), extent_count, (uint8_t *)memory,
                                           sizes->host_bytes);
    if (status == NVMED_OK) {
        m->memory = (uint8_t *)memory;
        m->bytes = sizes->host_bytes;
    }
    return status;
}

/* Gives back the mediator and all memory that it took (that it is all is tested). The handle holds none then, and may be used anew; views end. SAFE.
 * Errors: NULL, NO_MEDIATOR. */
static inline nvmed_status nvmed_free(nvmed *m) {
    if (!m) return NVMED_NULL;
    m->memory = NULL;
    m->bytes = 0;
    return (nvmed_status)nvmed_raw_free(&m->handle);
}

/* A guest stores `length` bytes from its address `address` on. It needs no memory. SAFE, EXACT, CONTAINED, PRIVATE.
 * Errors: NULL, NO_MEDIATOR, NO_SUCH, UNMAPPED (nothing is stored), IGNORED (no such guest). */
static inline nvmed_status nvmed_store(nvmed *m, uint32_t guest, uint64_t address, const void *bytes, uint64_t length) {
    if (!m || (!bytes && length)) return NVMED_NULL;
    return (nvmed_status)nvmed_raw_store(&m->handle, guest, address, (const uint8_t *)nvmed_some(bytes, length), length, nvmed_lent(m), m->bytes);
}

/* A guest loads `length` bytes from its address `address` on. Nothing of the mediator changes. It needs no memory. SAFE, EXACT, CONTAINED, PRIVATE.
 * Errors: as of nvmed_store; then all of `bytes` is as it was. */
static inline nvmed_status nvmed_load(nvmed *m, uint32_t guest, uint64_t address, void *bytes, uint64_t length) {
    uint8_t none = 0;
    if (!m || (!bytes && length)) return NVMED_NULL;
    return (nvmed_status)nvmed_raw_load(&m->handle, guest, address, length ? (uint8_t *)bytes : &none, length, nvmed_lent(m), m->bytes);
}

/* A guest reads the 32 bits of the register at `offset`, a multiple of 4. Where there is no register they are 0. It needs no memory. SAFE, EXACT,
 * CONTAINED, PRIVATE. Errors: NULL, NO_MEDIATOR, NO_SUCH, IGNORED (`offset` is no multiple of 4, or there is no such guest); *value is 0 then. */
static inline nvmed_status nvmed_reg_read(nvmed *m, uint32_t guest, uint32_t offset, uint32_t *value) {
    if (!m || !value) return NVMED_NULL;
    *value = 0;
    return (nvmed_status)nvmed_raw_reg_read(&m->handle, guest, offset, value, nvmed_lent(m), m->bytes);
}

/* A guest writes the 32 bits of the register at `offset`, a multiple of 4. It needs no memory. SAFE, EXACT, CONTAINED, PRIVATE.
 * Errors: NULL, NO_MEDIATOR, NO_SUCH, IGNORED (nothing there can be written, or not now, or there is no such guest). */
static inline nvmed_status nvmed_reg_write(nvmed *m, uint32_t guest, uint32_t offset, uint32_t value) {
    return m ? (nvmed_status)nvmed_raw_reg_write(&m->handle, guest, offset, value, nvmed_lent(m), m->bytes) : NVMED_NULL;
}

/* A guest writes the doorbell at `offset`, 4,096 and up. It needs no memory. SAFE, EXACT, CONTAINED, PRIVATE.
 * Errors: NULL, NO_MEDIATOR, NO_SUCH, IGNORED (no such queue, its controller is not ready, a value that is out of range, or no such guest). */
static inline nvmed_status nvmed_doorbell(nvmed *m, uint32_t guest, uint32_t offset, uint32_t value) {
    return m ? (nvmed_status)nvmed_raw_doorbell(&m->handle, guest, offset, value, nvmed_lent(m), m->bytes) : NVMED_NULL;
}

/* Carries out an event that is no guest's act: that of its kind, with the numbers that the kind looks at. SAFE, EXACT, CONTAINED, PRIVATE. After
 * DEV_FAIL of a guest's command PRIVATE says nothing of that guest. LIST, SUBMIT and DEV_TAKE may need memory; no other kind does.
 * Errors: NULL, NO_MEDIATOR, NO_SUCH, IDLE to IGNORED as the event has it, NO_MEMORY of LIST, SUBMIT and DEV_TAKE alone; and, where the drive is the
 * host's, CLOSED of a TAKE for a lane that was closed, STRAY of a REAP, and OTHER_MEMORY. After each of these nothing has changed. */
static inline nvmed_status nvmed_step(nvmed *m, const nvmed_event *event) {
    return m && event ? (nvmed_status)nvmed_raw_step(&m->handle, event, nvmed_lent(m), m->bytes) : NVMED_NULL;
}

/* Whether an event is one of ADMIN, TAKE, DEV_TAKE, DEV_MOVE, DEV_POST, REAP and POST and would be done now: *due is 1 then, and else 0. Where the
 * drive is the host's, a REAP is due wherever the slot that is read next has the wanted phase tag, so also where its completion is stray: then
 * nvmed_step answers STRAY. Nothing changes. SAFE, EXACT. Errors: NULL, NO_MEDIATOR, NO_SUCH, OTHER_MEMORY; *due is 0 then. */
static inline nvmed_status nvmed_due(nvmed *m, const nvmed_event *event, uint32_t *due) {
    if (!m || !event || !due) return NVMED_NULL;
    *due = 0;
    return (nvmed_status)nvmed_raw_due(&m->handle, event, due, nvmed_lent(m), m->bytes);
}

/* Carries out what is due of a guest (its admin commands; its commands that wait are taken and planned), of a lane (the physical controller's side,
 * completions, and those for guests), or of all (`number` counts for nothing then), `most` events at most: *done is how many there were. Where the
 * answer is OK and *done is less than `most`, nothing of that scope is left to be done; what a full completion queue holds up is not due, nor, of
 * nvmed_serve, is a command for which its guest's share of a lane has no room (nvmed_share). SAFE, EXACT
 * (each event was due, or was wanted for a command's plan, and of that scope; *done counts them; no act, no failure, and with the answer OK no command
 * was given up), CONTAINED, PRIVATE. Of all, a guest gets at most 64 events before the next guest or lane that has something. This order is not proved.
 * Errors: NULL, NO_MEDIATOR, NO_SUCH, OTHER_MEMORY (*done is 0); NO_MEMORY: *done events were made. Then something of that scope is left that may want
 * memory (a list, a command that is handed on, of a simulation an entry that the drive takes); or there was none for the plan of a command: its last
 * event gave that command up, which ends with Internal Error, and the other commands go on at the next call. Of a lane nvmed_serve's mediator never wants
 * any. STRAY, where the drive is the host's: *done events were made, and the next completion of a lane of that scope names no command that the drive has. */
static inline nvmed_status nvmed_work(nvmed *m, uint32_t scope, uint32_t number, uint64_t most, uint64_t *done) {
    if (!m || !done) return NVMED_NULL;
    *done = 0;
    return (nvmed_status)nvmed_raw_work(&m->handle, scope, number, most, done, nvmed_lent(m), m->bytes);
}

/* Where a lane's rings lie and how long they are, for the host's Create I/O Queue commands; what the drive's doorbells are to have, which the host writes
 * where they changed; and whether the lane was closed. SAFE, EXACT.
 * Errors: NULL, NO_MEDIATOR, NO_SUCH (no such lane, or the drive is the library's own); *rings is as it was then. */
static inline nvmed_status nvmed_rings(nvmed *m, uint32_t lane, nvmed_lane_rings *rings) {
    if (!m || !rings) return NVMED_NULL;
    return (nvmed_status)nvmed_raw_rings(&m->handle, lane, rings);
}

/* Which interrupts of a guest are pending: *count of its vectors, of queues in ascending order. A vector is pending where a completion queue has it, the
 * queue's interrupts are enabled, and the queue has completions that the guest has not acknowledged by its doorbell. The admin queue has vector 0.
 * SAFE, EXACT.
 * Errors: NULL, NO_MEDIATOR, NO_SUCH (above 255, or the mediator is a simulation), IGNORED (no such guest); *count is 0 then. */
static inline nvmed_status nvmed_pending(nvmed *m, uint32_t guest, uint16_t vectors[NVMED_VECTORS], uint32_t *count) {
    uint32_t queue, vector = 0;
    nvmed_status status = NVMED_OK;
    if (!m || !vectors || !count) return NVMED_NULL;
    *count = 0;
    for (queue = 0; queue < NVMED_VECTORS && (status == NVMED_OK || status == NVMED_IDLE); queue++) {
        status = (nvmed_status)nvmed_raw_pending(&m->handle, guest, queue, &vector);
        if (status == NVMED_OK) vectors[(*count)++] = (uint16_t)vector;
    }
    return status == NVMED_IDLE ? NVMED_OK : status;
}

/* Of which guests other vectors are pending than when it was called last with *seen: bit g of *guests for guest g. So a host with many idle guests asks
 * once, and then nvmed_pending for those. Each caller has a nvmed_seen of its own, which begins with zeros, and is used with one mediator. It serves
 * level-triggered interrupts: a completion that is posted while its vector is pending changes nothing here (nvmed_posted reports it). SAFE, EXACT (of
 * each guest; the loop over them is a line of this header).
 * Errors: NULL, NO_MEDIATOR, NO_SUCH (the mediator is a simulation); *guests is 0 then, and *seen as it was. */
static inline nvmed_status nvmed_changed(nvmed *m, nvmed_seen *seen, uint32_t *guests) {
    uint32_t guest;
    nvmed_status status = NVMED_OK;
    if (!m || !seen || !guests) return NVMED_NULL;
    *guests = 0;
    for (guest = 0; guest < 16 && (status == NVMED_OK || status == NVMED_IDLE); guest++) {
        status = (nvmed_status)nvmed_raw_seen(&m->handle, guest, seen->vectors[guest], NVMED_VECTORS);
        if (status == NVMED_OK) *guests |= (uint32_t)1 << guest;
    }
    /* the first number that is no guest's ends the loop */
    return status == NVMED_IDLE || status == NVMED_IGNORED ? NVMED_OK : status;
}

/* Which vectors of a guest to signal, for a host whose interrupts are messages (MSI, MSI-X): *count of its vectors, of queues in ascending order, so that one
 * which several queues have may be there more than once. They are those that are pending (nvmed_pending) of queues that stand elsewhere than when it was
 * called last with *seen: completions were posted since, the guest has acknowledged some and others are left, or the queue was made anew. nvmed_changed is
 * not enough for messages: a second completion before the guest has acknowledged the first leaves the set of vectors as it was.
 *
 * Such a host calls it, for each guest, after each nvmed_work and nvmed_step, and for the guest after its nvmed_doorbell and nvmed_reg_write, before the next
 * of these calls; and it signals just these vectors. Then no completion is without a message: one call posts fewer completions to a queue than it has slots,
 * so that the place of the next one is another; and none to a queue that it makes, since the guest has not rung that queue's doorbell yet. A host that leaves
 * calls out may miss one: a queue that went round, or that was deleted and made anew, may stand as before.
 *
 * Each guest has a nvmed_posted_seen of its own, which begins with zeros, and is used with one mediator. It needs no memory. SAFE, EXACT (of each queue; that
 * the vectors are put one behind another is a line of this header).
 * Errors: NULL, NO_MEDIATOR, NO_SUCH (above 255, or the mediator is a simulation), IGNORED (no such guest); *count is 0 then, and *seen as it was. */
static inline nvmed_status nvmed_posted(nvmed *m, uint32_t guest, nvmed_posted_seen *seen, uint16_t vectors[NVMED_VECTORS], uint32_t *count) {
    uint32_t queue, told[NVMED_VECTORS] = {0};
    nvmed_status status;
    if (!m || !seen || !vectors || !count) return NVMED_NULL;
    *count = 0;
    status = (nvmed_status)nvmed_raw_posted(&m->handle, guest, seen->queues, NVMED_VECTORS, told, NVMED_VECTORS);
    for (queue = 0; queue < NVMED_VECTORS; queue++) {
        if (told[queue] != 0) vectors[(*count)++] = (uint16_t)(told[queue] - 1);
    }
    return status;
}

/* Gives a guest a share of `tags` of each lane's 64 tags: nvmed_work takes a command of the guest for a lane only while the guest's tags there, with one
 * for each of its extents, are no more than that. So nvmed_work leaves each guest within its share of a lane where it was, and while no guest has more
 * than its share there, a guest whose share has room has its next command taken (both proved). At the start each guest's share is one tag for each of its
 * extents, and the tags that are left are divided equally. What the guest has already stays its own. NVMED_TAKE is not bound by shares. It needs no
 * memory. SAFE, EXACT.
 * Errors: NULL, NO_MEDIATOR, NO_SUCH (above 255, or the mediator is a simulation), IGNORED (no such guest), BAD_SIZE (`tags` are fewer than the guest has
 * extents, or all shares together would be above 64); nothing has changed then. */
static inline nvmed_status nvmed_share(nvmed *m, uint32_t guest, uint32_t tags) {
    return m ? (nvmed_status)nvmed_raw_share(&m->handle, guest, tags) : NVMED_NULL;
}

/* Closes a lane, where the drive can't be relied on any more. The host has stopped the drive before. Completions that are there are read as long as they
 * name commands; then each command of the lane that is on its way ends with Internal Error, as if the drive had failed it, which the guest may try
 * again. Nothing is taken for the lane from then on; the other lanes go on. To use the drive again the host makes another mediator. It needs no memory.
 * SAFE; in every case nothing changes of the mediator but that lane, and of the memory but the lane's completion ring. Where a log leads to the call,
 * one leads past it: EXACT, CONTAINED, and PRIVATE of guests that had no command there. After a stray completion no log does.
 * Errors: NULL, NO_MEDIATOR, NO_SUCH (no such lane, or the drive is the library's own), OTHER_MEMORY. */
static inline nvmed_status nvmed_close(nvmed *m, uint32_t lane) {
    return m ? (nvmed_status)nvmed_raw_close(&m->handle, lane, nvmed_lent(m), m->bytes) : NVMED_NULL;
}

/* Shows bytes of a guest's memory from its address `address` on, to be read: *at is where the first lies, and *count how many there are. Of `length`
 * bytes they are all that lie in a row in the host from the first on; the next view begins after them. Where the host keeps them in one place they
 * are shown there, and nothing is copied. Where it doesn't (bytes never written, or across one of its parts of 262,144 bytes), they are put into
 * `room`, which has `length` bytes, and *at is `room`. They are there until the next call on the handle but nvmed_load, nvmed_due, nvmed_memory,
 * nvmed_block and nvmed_kept, and as long as the room is left alone. Read only: a byte written there would be a store that is no event.
 * SAFE, EXACT (the bytes, their number, and that *at is the pointer at which the library has them; that they stay there is tested), CONTAINED,
 * PRIVATE. C has to read no further than *count bytes.
 * Errors: NULL, NO_MEDIATOR, NO_SUCH, UNMAPPED (the first is mapped nowhere), IGNORED (no such guest); *at is null then, and *count is 0. With a
 * length of 0 nothing is shown: *at is null, and *count is 0. */
static inline nvmed_status nvmed_memory(nvmed *m, uint32_t guest, uint64_t address, void *room, uint64_t length, const uint8_t **at, uint64_t *count) {
    uint8_t none = 0;
    if (!m || (!room && length) || !at || !count) return NVMED_NULL;
    *at = NULL;
    *count = 0;
    return (nvmed_status)nvmed_raw_memory(&m->handle, guest, address, length ? (uint8_t *)room : &none, length, at, count);
}

/* Where the 512 bytes of a block of the disk lie, to be read. They are there as long as those that nvmed_memory shows. SAFE, EXACT (as nvmed_memory).
 * Errors: NULL, NO_MEDIATOR, NO_SUCH (no such block); *at is null then. */
static inline nvmed_status nvmed_block(nvmed *m, uint64_t block, const uint8_t **at) {
    if (!m || !at) return NVMED_NULL;
    *at = NULL;
    return (nvmed_status)nvmed_raw_block(&m->handle, block, at);
}

/* Whether a block of the disk is kept when power is lost: *kept is 1 then, and else 0. SAFE, EXACT.
 * Errors: NULL, NO_MEDIATOR, NO_SUCH (no such block); *kept is 0 then. */
static inline nvmed_status nvmed_kept(nvmed *m, uint64_t block, uint32_t *kept) {
    if (!m || !kept) return NVMED_NULL;
    *kept = 0;
    return (nvmed_status)nvmed_raw_kept(&m->handle, block, kept);
}

#ifdef __cplusplus
}
#endif

#endif
