//! Each rule of the protocol, broken alone.

use super::*;

/// What a server has to do about it.
#[derive(Clone, Copy, Debug, PartialEq, Eq)]
pub enum Due {
    /// The connection ends.
    End,
    /// A reply with this errno; then the connection goes on.
    Errno(i32),
}

/// A message that breaks one rule, for a device as in [`Device`](nvmed_host::vfio_user::Device) tests: after VERSION.
#[derive(Clone, Debug)]
pub struct Broken {
    /// Which rule.
    pub rule: &'static str,
    pub bytes: Vec<u8>,
    /// So many descriptors go with it.
    pub descriptors: usize,
    pub due: Due,
}

/// The message's number.
pub const ID: u16 = 0x4242;

fn of(rule: &'static str, command: u16, payload: Vec<u8>, descriptors: usize, due: Due) -> Broken {
    Broken {
        rule,
        bytes: message(ID, command, 0, &payload),
        descriptors,
        due,
    }
}

fn header(rule: &'static str, size: u32, flags: u32, due: Due) -> Broken {
    Broken {
        rule,
        bytes: message_of(ID, command::RESET, size, flags, 0, &[]),
        descriptors: 0,
        due,
    }
}

/// Messages that end the connection.
pub fn fatal() -> Vec<Broken> {
    vec![
        header("a size of 0", 0, 0, Due::End),
        header("a size below the header's", 15, 0, Due::End),
        header("a size above the longest message's", (1 << 20) + 33, 0, Due::End),
        header("a size of all ones", u32::MAX, 0, Due::End),
        header("a reply that nobody waits for", 16, REPLY, Due::End),
        header("a kind of message that there is not", 16, 2, Due::End),
        header("all kinds at once", 16, 0xf, Due::End),
        of("VERSION again", command::VERSION, qemu_version_payload(), 0, Due::End),
        of(
            "17 descriptors",
            command::SET_IRQS,
            set_irqs_payload(DATA_EVENTFD | ACTION_TRIGGER, MSIX, 0, 17, &[]),
            17,
            Due::End,
        ),
        of(
            "253 descriptors",
            command::DMA_MAP,
            map_payload(3, 0, 0, 4096),
            253,
            Due::End,
        ),
    ]
}

/// Commands that a server doesn't carry out.
pub fn unsupported() -> Vec<Broken> {
    let e = Due::Errno(libc::EOPNOTSUPP);
    vec![
        of("command 0", 0, Vec::new(), 0, e),
        of("GET_REGION_IO_FDS", command::GET_REGION_IO_FDS, info_payload(), 0, e),
        of("DMA_READ", command::DMA_READ, Payload::new().u64(0).u64(8).0, 0, e),
        of(
            "DMA_WRITE",
            command::DMA_WRITE,
            Payload::new().u64(0).u64(8).u64(0).0,
            0,
            e,
        ),
        of("DIRTY_PAGES", command::DIRTY_PAGES, info_payload(), 0, e),
        of(
            "DEVICE_FEATURE",
            command::FEATURE,
            Payload::new().u32(8).u32(1 << 16 | 1).0,
            0,
            e,
        ),
        of("MIG_DATA_READ", command::MIG_READ, Payload::new().u32(8).u32(8).0, 0, e),
        of(
            "MIG_DATA_WRITE",
            command::MIG_WRITE,
            Payload::new().u32(8).u32(0).0,
            0,
            e,
        ),
        of("command 19", 19, Vec::new(), 0, e),
        of("the last command", u16::MAX, Vec::new(), 0, e),
        of(
            "memory as a file",
            command::DMA_MAP,
            map_payload(3 | 8, 0, 0, 4096),
            1,
            e,
        ),
    ]
}

/// Memory that cannot be mapped or unmapped.
pub fn memory() -> Vec<Broken> {
    let e = Due::Errno(libc::EINVAL);
    let map = |rule, payload, descriptors| of(rule, command::DMA_MAP, payload, descriptors, e);
    let unmap = |rule, payload| of(rule, command::DMA_UNMAP, payload, 0, e);
    let mut short = map_payload(3, 0, 0, 4096);
    short.pop();
    let mut argsz = map_payload(3, 0, 0, 4096);
    argsz[0] = 31;
    let mut unmap_argsz = unmap_payload(0, 0, 4096);
    unmap_argsz[0] = 23;
    let mut unmap_short = unmap_payload(0, 0, 4096);
    unmap_short.pop();
    vec![
        map("a short mapping", short, 1),
        map("a mapping of nothing", Vec::new(), 1),
        map("argsz of a mapping", argsz, 1),
        map("two descriptors of a mapping", map_payload(3, 0, 0, 4096), 2),
        map("neither readable nor writable", map_payload(0, 0, 0, 4096), 1),
        map("a flag of a mapping", map_payload(3 | 16, 0, 0, 4096), 1),
        map("mmap without a descriptor", map_payload(3 | 4, 0, 0, 4096), 0),
        map("an empty mapping", map_payload(3, 0, 0, 0), 1),
        map("half a page", map_payload(3, 0, 0, 2048), 1),
        map("an address within a page", map_payload(3, 0, 512, 4096), 1),
        map("an offset within a page", map_payload(3, 1, 0, 4096), 1),
        map("a mapping that wraps", map_payload(3, 0, u64::MAX - 4095, 8192), 1),
        map(
            "a mapping up to the last address",
            map_payload(3, 0, u64::MAX - 4095, 4096),
            1,
        ),
        map("an offset beyond a file's", map_payload(3, 1 << 63, 0, 4096), 1),
        map("an end beyond a file's", map_payload(3, (1 << 63) - 4096, 0, 8192), 1),
        map("an offset that wraps", map_payload(3, u64::MAX - 4095, 0, 4096), 1),
        unmap("a short unmapping", unmap_short),
        unmap("argsz of an unmapping", unmap_argsz),
        unmap("dirty pages of an unmapping", unmap_payload(1, 0, 4096)),
        unmap("a flag of an unmapping", unmap_payload(4, 0, 4096)),
        unmap("all, and a range", unmap_payload(2, 0, 4096)),
        unmap("all, and an address", unmap_payload(2, 4096, 0)),
        unmap("an empty unmapping", unmap_payload(0, 0, 0)),
        unmap("an unmapping of half a page", unmap_payload(0, 0, 2048)),
        unmap("an unmapping that wraps", unmap_payload(0, u64::MAX - 4095, 8192)),
        of(
            "a descriptor with an unmapping",
            command::DMA_UNMAP,
            unmap_payload(0, 0, 4096),
            1,
            e,
        ),
        of(
            "what was not mapped",
            command::DMA_UNMAP,
            unmap_payload(0, 0x7000_0000, 4096),
            0,
            Due::Errno(libc::ENOENT),
        ),
    ]
}

/// Questions that cannot be answered.
pub fn questions() -> Vec<Broken> {
    let e = Due::Errno(libc::EINVAL);
    let short = |mut payload: Vec<u8>| {
        payload.pop();
        payload
    };
    let argsz = |mut payload: Vec<u8>, value: u8| {
        payload[0] = value;
        payload
    };
    vec![
        of("a short question", command::GET_INFO, short(info_payload()), 0, e),
        of(
            "argsz of the device",
            command::GET_INFO,
            argsz(info_payload(), 15),
            0,
            e,
        ),
        of("a descriptor with a question", command::GET_INFO, info_payload(), 1, e),
        of(
            "a short question of a region",
            command::GET_REGION_INFO,
            short(region_info_payload(32, 0)),
            0,
            e,
        ),
        of(
            "argsz of a region",
            command::GET_REGION_INFO,
            region_info_payload(31, 0),
            0,
            e,
        ),
        of(
            "a region that there is not",
            command::GET_REGION_INFO,
            region_info_payload(32, 9),
            0,
            e,
        ),
        of(
            "the last region",
            command::GET_REGION_INFO,
            region_info_payload(32, u32::MAX),
            0,
            e,
        ),
        of(
            "a short question of interrupts",
            command::GET_IRQ_INFO,
            short(irq_info_payload(2)),
            0,
            e,
        ),
        of(
            "argsz of interrupts",
            command::GET_IRQ_INFO,
            argsz(irq_info_payload(2), 15),
            0,
            e,
        ),
        of(
            "interrupts that there are not",
            command::GET_IRQ_INFO,
            irq_info_payload(5),
            0,
            e,
        ),
        of("a flag that says error", command::RESET, Vec::new(), 0, e).with_flags(ERROR),
        of("a flag that there is not", command::RESET, Vec::new(), 0, e).with_flags(1 << 31),
        of("a descriptor with a reset", command::RESET, Vec::new(), 1, e),
    ]
}

impl Broken {
    /// The same with other flags in its header.
    fn with_flags(mut self, flags: u32) -> Broken {
        self.bytes.splice(8..12, flags.to_ne_bytes());
        self
    }
}

/// Interrupts that cannot be set.
pub fn interrupts() -> Vec<Broken> {
    let set = |rule, flags, index, start, count, data: &[u8], descriptors| {
        of(
            rule,
            command::SET_IRQS,
            set_irqs_payload(flags, index, start, count, data),
            descriptors,
            Due::Errno(libc::EINVAL),
        )
    };
    let (event, none, chosen) = (
        DATA_EVENTFD | ACTION_TRIGGER,
        DATA_NONE | ACTION_TRIGGER,
        DATA_BOOL | ACTION_TRIGGER,
    );
    let mut short = set("short interrupts", none, MSIX, 0, 1, &[], 0);
    short.bytes.pop();
    short.bytes[4] -= 1;
    let mut argsz = set("argsz of interrupts", none, MSIX, 0, 1, &[], 0);
    argsz.bytes[16] = 19;
    let mut bool_argsz = set("argsz without the chosen", chosen, MSIX, 0, 2, &[1, 1], 0);
    bool_argsz.bytes[16] = 21;
    let mut bool_short = set("fewer chosen than said", chosen, MSIX, 0, 3, &[1, 1], 0);
    bool_short.bytes[16] = 23;
    vec![
        short,
        argsz,
        bool_argsz,
        bool_short,
        set("no data", ACTION_TRIGGER, MSIX, 0, 1, &[], 0),
        set("two kinds of data", DATA_NONE | event, MSIX, 0, 1, &[], 0),
        set("all kinds of data", 7 | ACTION_TRIGGER, MSIX, 0, 1, &[1], 0),
        set("no action", DATA_NONE, MSIX, 0, 1, &[], 0),
        set("two actions", none | ACTION_MASK, INTX, 0, 1, &[], 0),
        set("all actions", DATA_NONE | 56, INTX, 0, 1, &[], 0),
        set("a flag of interrupts", none | 64, MSIX, 0, 1, &[], 0),
        set("a kind that there is not", none, 5, 0, 1, &[], 0),
        set("a kind of which there are none", none, 1, 0, 1, &[], 0),
        set("a vector too many", none, MSIX, 0, 10, &[], 0),
        set("a vector beyond", none, MSIX, 9, 1, &[], 0),
        set("vectors that wrap", none, MSIX, u32::MAX, 2, &[], 0),
        set("all vectors that there could be", none, MSIX, 0, u32::MAX, &[], 0),
        set("fewer descriptors", event, MSIX, 0, 3, &[], 2),
        set("more descriptors", event, MSIX, 0, 2, &[], 3),
        set("descriptors with no data", none, MSIX, 0, 1, &[], 1),
        set("descriptors with the chosen", chosen, MSIX, 0, 1, &[1], 1),
        set("no vectors, with eventfds", event, MSIX, 0, 0, &[], 0),
        set("no vectors, from one on", none, MSIX, 1, 0, &[], 0),
        set("no vectors, chosen", chosen, MSIX, 0, 0, &[], 0),
        set("no vectors, masked", DATA_NONE | ACTION_MASK, INTX, 0, 0, &[], 0),
        set("a mask of what has none", DATA_NONE | ACTION_MASK, MSIX, 0, 1, &[], 0),
        set(
            "an unmask of what has none",
            DATA_NONE | ACTION_UNMASK,
            MSIX,
            0,
            1,
            &[],
            0,
        ),
    ]
}

/// Accesses that cannot be.
pub fn accesses() -> Vec<Broken> {
    let e = Due::Errno(libc::EINVAL);
    let read = |rule, payload| of(rule, command::REGION_READ, payload, 0, e);
    let write = |rule, payload| of(rule, command::REGION_WRITE, payload, 0, e);
    let multi = |rule, payload| of(rule, command::WRITE_MULTI, payload, 0, e);
    let short = |mut payload: Vec<u8>| {
        payload.pop();
        payload
    };
    let patch = |mut payload: Vec<u8>, at: usize, value: u8| {
        payload[at] = value;
        payload
    };
    let two: Vec<u8> = write_multi_payload(&[(0, 0, &[1, 2, 3, 4]), (0, 8, &[1])]);
    vec![
        read("a short read", short(access_payload(0, 0, 4))),
        read("a read of nothing", access_payload(0, 0, 0)),
        read("a read of too much", access_payload(0, 0, (1 << 20) + 1)),
        read("a read of all ones", access_payload(0, 0, u32::MAX)),
        read("a read beyond the region", access_payload(CONFIG, 253, 4)),
        read("a read far beyond", access_payload(CONFIG, u64::MAX, 4)),
        read("a read that wraps", access_payload(CONFIG, u64::MAX - 3, 4)),
        read("a read of no region", access_payload(9, 0, 4)),
        read("a read of an empty region", access_payload(1, 0, 4)),
        of(
            "a descriptor with a read",
            command::REGION_READ,
            access_payload(CONFIG, 0, 4),
            1,
            e,
        ),
        write("a short write", short(access_payload(0, 0, 4))),
        write("a write without its data", access_payload(0, 0, 4)),
        write("a write with less data", short(write_payload(0, 0, &[0; 4]))),
        write(
            "a write with more data",
            Payload(write_payload(0, 0, &[0; 4])).bytes(&[0]).0,
        ),
        write("a write of nothing", write_payload(0, 0, &[])),
        write("a write beyond the region", write_payload(CONFIG, 253, &[0; 4])),
        write("a write that wraps", write_payload(CONFIG, u64::MAX - 3, &[0; 4])),
        write("a write of no region", write_payload(u32::MAX, 0, &[0; 4])),
        of(
            "a descriptor with a write",
            command::REGION_WRITE,
            write_payload(CONFIG, 4, &[0; 4]),
            1,
            e,
        ),
        multi("several writes of no length", Vec::new()),
        multi("no writes", write_multi_payload(&[])),
        multi("writes without data", short(two.clone())),
        multi("more writes than said", patch(two.clone(), 0, 1)),
        multi("fewer writes than said", patch(two.clone(), 0, 3)),
        multi("so many writes that they wrap", patch(two.clone(), 7, 0x80)),
        multi("one of several is empty", patch(two.clone(), 8 + 12, 0)),
        multi("one of several is long", patch(two.clone(), 8 + 12, 9)),
        multi("one of several is beyond", patch(two, 8 + 24 + 3, 1)),
    ]
}

/// All that is answered by an error.
pub fn refused() -> Vec<Broken> {
    [unsupported(), memory(), questions(), interrupts(), accesses()].concat()
}
