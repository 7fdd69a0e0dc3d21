//! Which set-ups are refused, and by which error: of the library and of the stub alike.

#![allow(clippy::unwrap_used)]

mod common;

use common::*;
use nvmed::{Error, Extent, GuestSetUp, HostMemory, Mediator, Region};
use std::sync::Arc;
use vm_memory::MmapRegion;

fn region(address: u64, host: u64, bytes: u64) -> Region {
    Region { address, host, bytes }
}

fn extent(base: u64, blocks: u64) -> Extent {
    Extent { base, blocks }
}

#[test]
fn a_set_up_that_is_good_is_served_and_its_memory_comes_back() {
    let memory = memory(HOST_BYTES);
    let m = Mediator::serve(Arc::clone(&memory), &set_up()).unwrap();
    assert_eq!(m.memory().base(), memory.as_ptr());
    assert!(format!("{m:?}").contains(&HOST_BYTES.to_string()));
    let back = m.end();
    assert_eq!(Arc::strong_count(&memory), 2);
    drop(Mediator::serve(back, &set_up()).unwrap());
    assert_eq!(Arc::strong_count(&memory), 1, "the memory goes with the mediator");
}

#[test]
fn sizes_have_limits() {
    assert_eq!(refused(|s| s.mediator += 1), Error::BadSize);
    assert_eq!(refused(|s| s.mediator = HOST_BYTES - area_of(1) + 4096), Error::BadSize);
    assert_eq!(refused(|s| s.mediator = u64::MAX - 4095), Error::BadSize);
    assert_eq!(refused(|s| s.disk_blocks = 0), Error::BadSize);
    assert_eq!(refused(|s| s.disk_blocks = (1 << 48) + 1), Error::BadSize);
    assert_eq!(refused(|s| s.lanes = 0), Error::BadSize);
    assert_eq!(refused(|s| s.lanes = 9), Error::BadSize);
    assert_eq!(refused(|s| s.lanes = u32::MAX), Error::BadSize);
    for descriptors in [0, 4097] {
        assert_eq!(refused(|s| s.guests[1].descriptors = descriptors), Error::BadSize);
    }
}

#[test]
fn extents_are_each_guests_own() {
    assert_eq!(refused(|s| s.guests[1].extents.clear()), Error::BadSize);
    assert_eq!(refused(|s| s.guests[1].extents[0].blocks = 0), Error::BadSize);
    assert_eq!(refused(|s| s.guests[1].extents[0].blocks += 1), Error::BadSize);
    assert_eq!(
        refused(|s| s.guests[1].extents[0] = extent(u64::MAX, 2)),
        Error::BadSize
    );
    assert_eq!(refused(|s| s.guests[1].extents[0].base -= 1), Error::RangesMeet);
    let nine = |s: &mut nvmed::SetUp| s.guests[0].extents = (0..9).map(|base| extent(base, 1)).collect();
    assert_eq!(refused(nine), Error::BadSize);
}

#[test]
fn guests_are_sixteen_at_most() {
    let many = |s: &mut nvmed::SetUp| {
        let guest = |n| GuestSetUp {
            extents: vec![extent(n, 1)],
            ..GuestSetUp::default()
        };
        s.guests = (0..17).map(guest).collect();
    };
    assert_eq!(refused(many), Error::TooManyGuests);
}

#[test]
fn regions_are_whole_pages_of_the_host_and_meet_nothing() {
    let with = |r: Region| refused(move |s| s.guests[0].regions.push(r));
    assert_eq!(with(region(0x10_0000, 1, 4096)), Error::Unaligned);
    assert_eq!(with(region(0x10_0001, 0, 4096)), Error::Unaligned);
    assert_eq!(with(region(0x10_0000, 0, 4095)), Error::Unaligned);
    assert_eq!(with(region(0x10_0000, 0, 0)), Error::Unaligned);
    assert_eq!(with(region(0x1000, 0, 4096)), Error::Overlap);
    assert_eq!(with(region(0x10_0000, HOST_BYTES, 4096)), Error::OutsideHost);
    assert_eq!(with(region(0x10_0000, u64::MAX - 4095, 4096)), Error::OutsideHost);
    assert_eq!(with(region(0x10_0000, GUEST_AT[1], 4096)), Error::MapsMeet);
    assert_eq!(with(region(0x10_0000, AREA, 4096)), Error::MapsMeet);
}

#[test]
fn memory_has_the_length_that_the_set_up_says() {
    assert_eq!(refused(|s| s.host_bytes -= 4096), Error::OtherMemory);
    assert_eq!(refused(|s| s.host_bytes += 4096), Error::OtherMemory);
}

/// Memory with a hole, or with nothing at all.
struct Odd {
    memory: MmapRegion,
    hole: u64,
    empty: bool,
}

// SAFETY: `has` says less than the mapping has. The length is wrong only where the pointer is null, which `serve` refuses.
unsafe impl HostMemory for Odd {
    fn base(&self) -> *mut u8 {
        if self.empty {
            std::ptr::null_mut()
        } else {
            self.memory.base()
        }
    }

    fn len(&self) -> u64 {
        HostMemory::len(&self.memory)
    }

    fn has(&self, host: u64, bytes: u64) -> bool {
        self.memory.has(host, bytes) && !(host..host + bytes).contains(&self.hole)
    }
}

#[test]
fn a_region_in_a_hole_is_refused_before_the_library_sees_it() {
    let odd = |hole, empty| Odd {
        memory: MmapRegion::new(HOST_BYTES as usize).unwrap(),
        hole,
        empty,
    };
    let answer = |hole| Mediator::serve(odd(hole, false), &set_up()).map(|_| ());
    let there = |host, bytes| Err(Error::NotThere { host, bytes });
    assert_eq!(answer(0), Ok(()));
    assert_eq!(answer(GUEST_AT[1] + GUEST_BYTES - 1), there(GUEST_AT[1], GUEST_BYTES));
    assert_eq!(answer(AREA + area_of(1) - 1), there(AREA, area_of(1)));
    let none = Mediator::serve(odd(0, true), &set_up()).map(|_| ());
    assert_eq!(none, there(0, HOST_BYTES));
}

#[test]
fn a_row_that_is_too_long_is_refused() {
    struct Long(MmapRegion);
    // SAFETY: `has` says what the mapping has. The row is too long, which `serve` refuses.
    unsafe impl HostMemory for Long {
        fn base(&self) -> *mut u8 {
            self.0.base()
        }
        fn len(&self) -> u64 {
            (1 << 47) + 4096
        }
        fn has(&self, host: u64, bytes: u64) -> bool {
            self.0.has(host, bytes)
        }
    }
    let long = Long(MmapRegion::new(4096).unwrap());
    assert_eq!(Mediator::serve(long, &set_up()).map(|_| ()), Err(Error::BadSize));
}

#[test]
fn each_error_has_words_for_users() {
    let mut words: Vec<String> = [
        refused(|s| s.lanes = 0),
        refused(|s| s.host_bytes = 0),
        Error::NotThere {
            host: 0x1000,
            bytes: 0x2000,
        },
        Error::Unknown(99),
        Error::Stray,
    ]
    .iter()
    .map(ToString::to_string)
    .collect();
    assert!(words[2].contains("0x1000") && words[2].contains("0x2000") && words[3].contains("99"));
    assert!(words.iter().all(|line| line.len() > 20 && !line.contains('\n')));
    words.dedup();
    assert_eq!(words.len(), 5);
}
