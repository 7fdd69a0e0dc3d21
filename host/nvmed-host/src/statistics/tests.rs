use super::*;

fn entry(opcode: u8, first: u64, more: u16) -> [u8; ENTRY_BYTES] {
    let mut entry = [0xa5; ENTRY_BYTES];
    entry[0] = opcode;
    entry[40..48].copy_from_slice(&first.to_le_bytes());
    entry[48..50].copy_from_slice(&more.to_le_bytes());
    entry
}

/// Two guests whose extents alternate.
fn owners() -> Owners {
    Owners::new([(1, 1 << 47, 10), (0, 100, 10), (1, 110, 10), (0, 120, 10)])
}

fn count(commands: u64, blocks: u64) -> Count {
    Count {
        commands,
        bytes: 512 * blocks,
    }
}

#[test]
fn blocks_have_owners() {
    let owners = owners();
    let of = |block| owners.of(block);
    assert_eq!(
        [
            of(0),
            of(99),
            of(130),
            of((1 << 47) - 1),
            of((1 << 47) + 10),
            of(u64::MAX)
        ],
        [None; 6]
    );
    assert_eq!([of(100), of(109), of(120), of(129)], [Some(0); 4]);
    assert_eq!([of(110), of(119), of(1 << 47), of((1 << 47) + 9)], [Some(1); 4]);
    assert_eq!(Owners::default().of(0), None);
    assert_eq!(Owners::new([(7, u64::MAX, 1)]).of(u64::MAX), Some(7));
}

#[test]
fn commands_are_counted_for_their_guest() {
    let mut s = Statistics::new(owners(), 2);
    s.count(&entry(0x02, 100, 0));
    s.count(&entry(0x02, 109, 0));
    s.count(&entry(0x01, 120, 7));
    s.count(&entry(0x05, 129, 0));
    s.count(&entry(0x08, 110, 9));
    s.count(&entry(0x01, (1 << 47) + 9, 255));
    s.count(&entry(0x02, 110, 0xffff)); // the most blocks that an entry may name
    let zero = GuestCounts {
        reads: count(2, 2),
        writes: count(1, 8),
        compares: count(1, 1),
        zeroes: count(0, 0),
    };
    let one = GuestCounts {
        reads: count(1, 65536),
        writes: count(1, 256),
        compares: count(0, 0),
        zeroes: count(1, 10),
    };
    assert_eq!(
        (s.guest(0), s.guest(1), s.guest(2), s.others()),
        (zero, one, GuestCounts::default(), 0)
    );
    let taken = s.take();
    assert_eq!(
        taken.to_string(),
        "guest 0: 2 reads of 1024 bytes, 1 writes of 4096 bytes, 1 compares of 512 bytes, 0 write zeroes of 0 bytes; \
         guest 1: 1 reads of 33554432 bytes, 1 writes of 131072 bytes, 0 compares of 0 bytes, 1 write zeroes of 5120 bytes; 0 others"
    );
    assert_eq!(
        (s.guest(0), s.guest(1), s.others()),
        (GuestCounts::default(), GuestCounts::default(), 0)
    );
    s.count(&entry(0x02, 110, 0));
    assert_eq!(s.guest(1).reads, count(1, 1));
}

/// Flush and Dataset Management; blocks that are no guest's; an opcode that there is not; an owner beyond the guests.
#[test]
fn others() {
    let mut s = Statistics::new(owners(), 1);
    for entry in [
        entry(0, 100, 0),
        entry(9, 100, 0),
        entry(2, 99, 0),
        entry(2, 130, 0),
        entry(2, u64::MAX, 0xffff),
        entry(0xff, 100, 0),
    ] {
        s.count(&entry);
    }
    assert_eq!(s.others(), 6);
    s.count(&entry(2, 110, 0));
    assert_eq!((s.others(), s.guest(0)), (7, GuestCounts::default()));
}

#[test]
fn counts_stay_at_their_most() {
    let mut s = Statistics::new(owners(), 2);
    let most = Count {
        commands: u64::MAX,
        bytes: u64::MAX,
    };
    s.guests[0].writes = most;
    s.others = u64::MAX;
    s.count(&entry(1, 100, 3));
    s.count(&entry(0, 0, 0));
    assert_eq!((s.guest(0).writes, s.others()), (most, u64::MAX));
}
