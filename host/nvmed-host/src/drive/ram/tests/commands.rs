//! What commands do, and how they are refused.

use super::*;

const READ: u8 = 2;
const WRITE: u8 = 1;
const COMPARE: u8 = 5;
const ZEROES: u8 = 8;
const MANAGE: u8 = 9;
const FAILED_COMPARE: u16 = 0x285;

fn pattern(i: usize) -> u8 {
    (i * 7 + i / 512) as u8
}

#[test]
fn blocks_are_written_and_read_where_their_pages_are() {
    let mut rig = Rig::usual();
    let memory = Arc::clone(&rig.memory);
    // Write of block 5, and a Read of it to an offset.
    memory.fill(DATA, 512, 0x11);
    assert_eq!(rig.run(entry(WRITE, DATA, 0, 5, 0)), 0);
    assert_eq!(rig.run(entry(READ, DATA + 0x1004, 0, 5, 0)), 0);
    assert_eq!(
        memory.get(DATA + 0x1003, 514),
        [vec![0xee], vec![0x11; 512], vec![0xee]].concat()
    );
    // Read of blocks 4 to 6 across two pages, the second by PRP2.
    assert_eq!(rig.run(entry(READ, DATA + 0x1fc0, HIGH, 4, 2)), 0);
    let seen = [memory.get(DATA + 0x1fc0, 64), memory.get(HIGH, 1472)].concat();
    assert_eq!(seen, [vec![0; 512], vec![0x11; 512], vec![0; 512]].concat());
    assert_eq!(
        (memory.get(DATA + 0x2000, 1), memory.get(HIGH + 1472, 1)),
        (vec![0xee], vec![0xee])
    );
}

#[test]
fn lists_of_two_pages_are_followed() {
    let mut rig = Rig::usual();
    let memory = Arc::clone(&rig.memory);
    // 128 KiB at an offset of 512: 33 pages, with a list that begins at 0xff8 of a page: one entry of it, then the next page.
    let bytes = (0..131_072).map(pattern).collect::<Vec<_>>();
    memory.put(DATA + 0x200, &bytes);
    memory.put64(LIST + 0xff8, LIST + 0x1000);
    for i in 0..32 {
        memory.put64(LIST + 0x1000 + 8 * i, DATA + 0x1000 * (i + 1));
    }
    assert_eq!(rig.run(entry(WRITE, DATA + 0x200, LIST + 0xff8, 700, 255)), 0);
    assert_eq!(rig.run(entry(COMPARE, DATA + 0x200, LIST + 0xff8, 700, 255)), 0);
    memory.put(DATA + 0x200 + 131_071, &[pattern(131_071).wrapping_add(1)]);
    assert_eq!(
        rig.run(entry(COMPARE, DATA + 0x200, LIST + 0xff8, 700, 255)),
        FAILED_COMPARE
    );
    // A list that begins 8 bytes before: the last entry of its page is a page of data, since it is the only one left.
    memory.put64(LIST + 0xff0, DATA + 0x1000);
    memory.put64(LIST + 0xff8, DATA + 0x2000);
    assert_eq!(rig.run(entry(READ, DATA, LIST + 0xff0, 700, 23)), 0);
    assert_eq!(memory.get(DATA, 12288), bytes[..12288]);
    // Two pages, the second of which PRP2 names itself.
    memory.fill(DATA, 4096, 0);
    memory.fill(HIGH, 4096, 0);
    assert_eq!(rig.run(entry(READ, DATA, HIGH, 700, 15)), 0);
    assert_eq!([memory.get(DATA, 4096), memory.get(HIGH, 4096)].concat(), bytes[..8192]);
}

/// Writes blocks 700 to 955 with bytes that are not zero.
fn filled() -> RamRig {
    let mut rig = Rig::usual();
    rig.memory.fill(DATA, 0x20000, 0x77);
    for i in 0..31 {
        rig.memory.put64(LIST + 8 * i, DATA + 0x1000 * (i + 1));
    }
    assert_eq!(rig.run(entry(WRITE, DATA, LIST, 700, 255)), 0);
    rig.memory.fill(DATA, 0x20000, 0);
    rig
}

fn is_zero(rig: &mut RamRig, block: u64) -> bool {
    match rig.run(entry(COMPARE, DATA, 0, block, 0)) {
        0 => true,
        FAILED_COMPARE => false,
        other => panic!("Compare has status {other:#x}"),
    }
}

fn zeros(rig: &mut RamRig, from: u64, to: u64) -> Vec<u64> {
    (from..to).filter(|block| is_zero(rig, *block)).collect()
}

#[test]
fn zeros_are_where_write_zeroes_says() {
    let mut rig = filled();
    assert_eq!(rig.run(entry(ZEROES, 0, 0, 701, 0)), 0);
    assert_eq!(zeros(&mut rig, 699, 704), [699, 701]);
    assert_eq!(rig.run(entry(ZEROES, 0, 0, 710, 19 | FORCED)), 0);
    assert_eq!(zeros(&mut rig, 705, 735), (710..730).collect::<Vec<_>>());
    // More blocks than a Write may have.
    assert_eq!(rig.run(entry(ZEROES, 0, 0, 0, BLOCKS as u32 - 1)), 0);
    assert_eq!(zeros(&mut rig, 698, 960).len(), 262);
}

fn put_range(rig: &RamRig, at: u64, first: u64, blocks: u32) {
    rig.memory.put32(at, 0xffff_ffff);
    rig.memory.put32(at + 4, blocks);
    rig.memory.put64(at + 8, first);
}

const DEALLOCATE: u64 = 4 << 32;

#[test]
fn dataset_management_deallocates_what_its_ranges_name() {
    let mut rig = filled();
    let memory = Arc::clone(&rig.memory);
    put_range(&rig, DATA + 0x1ff0, 703, 2);
    put_range(&rig, HIGH + 0x1000, 1024, 0);
    assert_eq!(
        rig.run(entry(MANAGE, DATA + 0x1ff0, HIGH + 0x1000, DEALLOCATE | 1, 0)),
        0
    );
    assert_eq!(zeros(&mut rig, 700, 708), [703, 704]);
    // Not deallocated: nothing happens, also of ranges that are nowhere. Deallocated: refused, and nothing happens.
    put_range(&rig, HIGH + 0x1000, 1025, 0);
    assert_eq!(rig.run(entry(MANAGE, HIGH + 0x1000, 0, 0, 0)), 0);
    put_range(&rig, DATA + 0x1ff0, 705, 2);
    assert_eq!(
        rig.run(entry(MANAGE, DATA + 0x1ff0, HIGH + 0x1000, DEALLOCATE | 1, 0)),
        0x4080
    );
    assert_eq!(zeros(&mut rig, 704, 708), [704]);
    // 256 ranges, of which the last is of use; the other attributes have no effect.
    memory.fill(HIGH, 4096, 0);
    put_range(&rig, HIGH + 0xff0, 705, 1);
    assert_eq!(rig.run(entry(MANAGE, HIGH, 0, (3 << 32) | 255, 0)), 0);
    assert_eq!(zeros(&mut rig, 704, 708), [704]);
    assert_eq!(rig.run(entry(MANAGE, HIGH, 0, DEALLOCATE | 255, 0)), 0);
    assert_eq!(zeros(&mut rig, 704, 708), [704, 705]);
    // Ranges that overlap and touch.
    for (i, (first, blocks)) in [(720, 10), (725, 2), (728, 6), (734, 1), (740, 1), (720, 1)]
        .into_iter()
        .enumerate()
    {
        put_range(&rig, HIGH + 16 * i as u64, first, blocks);
    }
    assert_eq!(rig.run(entry(MANAGE, HIGH, 0, DEALLOCATE | 5, 0)), 0);
    assert_eq!(zeros(&mut rig, 719, 745), (720..735).chain([740]).collect::<Vec<_>>());
}

#[test]
fn overlapping_ranges_become_few() {
    use crate::drive::command::{merged, Extent};
    let extents = |list: &[(u64, u64)]| {
        list.iter()
            .map(|(from, to)| Extent { from: *from, to: *to })
            .collect::<Vec<_>>()
    };
    assert_eq!(merged(vec![]), []);
    assert_eq!(merged(extents(&[(5, 5), (7, 9)])), extents(&[(7, 9)]));
    assert_eq!(merged(extents(&[(0, 10); 256])), extents(&[(0, 10)]));
    assert_eq!(
        merged(extents(&[(4, 6), (0, 2), (2, 3), (9, 12), (5, 7), (10, 11)])),
        extents(&[(9, 12), (4, 7), (0, 3)])
    );
}

#[test]
fn flush_takes_both_namespace_identifiers() {
    let mut rig = Rig::usual();
    assert_eq!(rig.run(entry(0, 0, 0, 0, 0)), 0);
    assert_eq!(
        rig.run(Entry {
            namespace: u32::MAX,
            ..Entry::default()
        }),
        0
    );
    assert_eq!(rig.run(entry(WRITE, DATA, 0, 3, FORCED)), 0);
    assert_eq!(rig.run(entry(READ, DATA, 0, 3, FORCED)), 0);
    assert!(rig.drive.check().is_ok());
    assert_eq!(rig.drive.describe(), "simulated, 1024 blocks in memory");
    rig.close().expect("a clean end");
}

#[test]
fn bad_entries_are_refused_and_move_nothing() {
    let e = entry;
    let of = |flags, namespace| Entry {
        flags,
        namespace,
        ..entry(READ, DATA, 0, 0, 0)
    };
    let bad = [
        (e(3, DATA, 0, 0, 0), 0x4001),
        (e(0xff, DATA, 0, 0, 0), 0x4001),
        (of(1, 1), 0x4002),
        (of(2, 1), 0x4002),
        (of(0x40, 1), 0x4002),
        (of(0x80, 1), 0x4002),
        (of(0, 0), 0x400b),
        (of(0, 2), 0x400b),
        (of(0, u32::MAX), 0x400b),
        (Entry::default(), 0x400b),
        (e(READ, DATA, 0, 0, 256), 0x4002),
        (e(WRITE, DATA, 0, 0, 0xffff), 0x4002),
        (e(READ, DATA, 0, 1024, 0), 0x4080),
        (e(READ, DATA, 0, 1023, 1), 0x4080),
        (e(WRITE, DATA, 0, u64::MAX, 0), 0x4080),
        (e(COMPARE, DATA, 0, u64::MAX, 255), 0x4080),
        (e(ZEROES, 0, 0, 1000, 24), 0x4080),
        (e(ZEROES, 0, 0, u64::MAX - 4, 0xffff), 0x4080),
        (e(READ, DATA + 1, 0, 0, 0), 0x4013),
        (e(READ, DATA + 2, 0, 0, 0), 0x4013),
        (e(READ, DATA + 0xfe00, DATA + 4, 0, 7), 0x4013),
        (e(READ, DATA + 0xfe00, DATA + 8, 0, 7), 0x4013),
        (e(READ, DATA, LIST + 4, 0, 255), 0x4013),
        (e(READ, LOW - 512, 0, 0, 0), 0x4004),
        (e(READ, 0x8fe04, 0x90000, 0, 0), 0x4004),
        (e(WRITE, 0x90000, 0, 0, 0), 0x4004),
        (e(WRITE, 0x90000, DATA, 0, 0), 0x4004),
        (e(WRITE, u64::MAX - 510, 0, 0, 0), 0x4013),
        (e(WRITE, !511, 0, 0, 0), 0x4004),
        (e(READ, DATA, 0x9a000, 0, 15), 0x4004),
        (e(READ, DATA, 0x9a000, 0, 255), 0x4004),
        (e(READ, DATA, LIST, 0, 255), 0x4013),
        (e(READ, DATA, LIST + 0x1000, 0, 255), 0x4004),
        (e(READ, DATA, LIST + 0xff8, 0, 255), 0x4013),
        (e(MANAGE, 0x90000, 0, DEALLOCATE, 0), 0x4004),
        (e(MANAGE, DATA + 0xff8, 0x90000, DEALLOCATE | 255, 0), 0x4004),
    ];
    let mut rig = Rig::usual();
    for i in 0..32 {
        // An offset in the list; a page outside of the window; the next page of the list, with an offset.
        rig.memory
            .put64(LIST + 8 * i, DATA + 0x1000 * (i + 1) + if i == 20 { 8 } else { 0 });
        rig.memory.put64(
            LIST + 0x1000 + 8 * i,
            if i == 30 { 0x9a000 } else { DATA + 0x1000 * (i + 1) },
        );
    }
    rig.memory.put64(LIST + 0xff8, LIST + 0x1008);
    for (i, (entry, status)) in bad.into_iter().enumerate() {
        let before = rig.memory.get(DATA, (1 << 20) - DATA as usize);
        assert_eq!(rig.run(entry), status, "entry {i}: {entry:?}");
        assert!(rig.memory.get(DATA, before.len()) == before, "entry {i}");
    }
    assert_eq!(zeros_of_whole_drive(&mut rig), BLOCKS as usize);
}

fn zeros_of_whole_drive(rig: &mut RamRig) -> usize {
    rig.memory.fill(DATA, 512, 0);
    zeros(rig, 0, BLOCKS).len()
}

#[test]
fn memory_that_is_gone_is_a_transfer_error() {
    let mut rig = Rig::usual();
    rig.put(&entry(WRITE, DATA, 0, 0, 0));
    rig.memory.keep(&[(LOW, 0x4000)]);
    rig.ring();
    assert_eq!(rig.wait().1, 0x4004);
    // The rings themselves: that is the end of the drive.
    rig.put(&entry(0, 0, 0, 0, 0));
    rig.ring();
    rig.memory.keep(&[(LOW, 0x1000)]);
    let error = rig.drive.work(AMPLE).expect_err("no rings");
    assert_eq!(error.to_string(), "the rings of queue 1 have lost their memory");
}
