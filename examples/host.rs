//! Two guests share a drive: each writes its block 5, and reads it back. A small host in Rust, over what the library exports: the calls of nvmed.h are
//! inline, and not in the archive. A slice is passed as its pointer and its length, which is not null even for an empty one.
use std::ptr::null_mut;

#[repr(C)]
struct Handle(*mut u8);
#[repr(C)]
struct Sizes { host_bytes: u64, mediator: u64, disk_blocks: u64, lanes: u64 }
#[repr(C)]
struct Region { guest: u64, address: u64, host: u64, bytes: u64 }
#[repr(C)]
struct Extent { guest: u64, base: u64, blocks: u64 }

extern "C" {
    fn nvmed_raw_version() -> u32;
    fn nvmed_raw_new(m: &mut Handle, sizes: &Sizes, limits: *const u32, guests: usize, regions: *const Region, region_count: usize,
                     extents: *const Extent, extent_count: usize) -> u32;
    fn nvmed_raw_free(m: &mut Handle) -> u32;
    fn nvmed_raw_store(m: &mut Handle, guest: u32, address: u64, bytes: *const u8, length: usize, lent: *mut u8, size: usize) -> u32;
    fn nvmed_raw_load(m: &mut Handle, guest: u32, address: u64, bytes: *mut u8, length: usize, lent: *const u8, size: usize) -> u32;
    fn nvmed_raw_reg_write(m: &mut Handle, guest: u32, offset: u32, value: u32, lent: *mut u8, size: usize) -> u32;
    fn nvmed_raw_doorbell(m: &mut Handle, guest: u32, offset: u32, value: u32, lent: *mut u8, size: usize) -> u32;
    fn nvmed_raw_work(m: &mut Handle, scope: u32, number: u32, most: u64, done: &mut u64, lent: *mut u8, size: usize) -> u32;
}

/// No memory is lent: this mediator has its own.
fn none() -> *mut u8 { std::ptr::NonNull::dangling().as_ptr() }

/// A mediator, which is given back when it is dropped. A move of it leaves no copy of the handle.
struct Mediator(Handle);

impl Mediator {
    fn new(sizes: &Sizes, limits: &[u32], regions: &[Region], extents: &[Extent]) -> Self {
        let (l, r, e) = (limits, regions, extents);
        let mut m = Mediator(Handle(null_mut()));
        assert_eq!(unsafe { nvmed_raw_new(&mut m.0, sizes, l.as_ptr(), l.len(), r.as_ptr(), r.len(), e.as_ptr(), e.len()) }, 0);
        m
    }
    fn store(&mut self, guest: u32, at: u64, bytes: &[u8]) {
        assert_eq!(unsafe { nvmed_raw_store(&mut self.0, guest, at, bytes.as_ptr(), bytes.len(), none(), 0) }, 0);
    }
    fn load<const N: usize>(&mut self, guest: u32, at: u64) -> [u8; N] {
        let mut bytes = [0; N];
        assert_eq!(unsafe { nvmed_raw_load(&mut self.0, guest, at, bytes.as_mut_ptr(), N, none(), 0) }, 0);
        bytes
    }
    /// Sends the entry of a slot of queue 0 or 1 by that queue's doorbell, does what is due (scope 3), and returns the completion's status.
    fn send(&mut self, guest: u32, queue: u32, slot: u32, entry: [u32; 12]) -> u32 {
        let [sq, cq] = [[0x10000, 0x11000], [0x13000, 0x12000]][queue as usize];
        self.store(guest, sq + 64 * u64::from(slot), &entry.map(u32::to_le_bytes).concat());
        assert_eq!(unsafe { nvmed_raw_doorbell(&mut self.0, guest, 0x1000 + 8 * queue, slot + 1, none(), 0) }, 0);
        assert_eq!(unsafe { nvmed_raw_work(&mut self.0, 3, 0, 100_000, &mut 0, none(), 0) }, 0);
        let last = u32::from_le_bytes(self.load(guest, cq + 16 * u64::from(slot) + 12));
        assert_eq!(last >> 16 & 1, 1, "the command was not completed");
        last >> 17 & 0x7ff
    }
}

impl Drop for Mediator {
    fn drop(&mut self) { unsafe { nvmed_raw_free(&mut self.0) }; }
}

fn main() {
    println!("version {}.{}", unsafe { nvmed_raw_version() } >> 16, unsafe { nvmed_raw_version() } & 0xffff);
    let sizes = Sizes { host_bytes: 0x1000000, mediator: 0x400000, disk_blocks: 4096, lanes: 1 };
    let regions = [0, 1].map(|guest| Region { guest, address: 0, host: 0x100000 * (guest + 1), bytes: 0x20000 });
    let extents = [0, 1].map(|guest| Extent { guest, base: 1000 * (guest + 1), blocks: 64 });
    let mut m = Mediator::new(&sizes, &[1024; 2], &regions, &extents);
    for guest in [0, 1] {
        for (offset, value) in [(0x24, 0x001f001f), (0x28, 0x10000), (0x30, 0x11000), (0x14, 0x00460001)] {
            assert_eq!(unsafe { nvmed_raw_reg_write(&mut m.0, guest, offset, value, none(), 0) }, 0);
        }
        let cq = m.send(guest, 0, 0, [0x05, 0, 0, 0, 0, 0, 0x12000, 0, 0, 0, 15 << 16 | 1, 1]);
        let sq = m.send(guest, 0, 1, [0x01, 0, 0, 0, 0, 0, 0x13000, 0, 0, 0, 15 << 16 | 1, 1 << 16 | 1]);
        m.store(guest, 0x3000, format!("of guest {guest}").as_bytes());
        let write = m.send(guest, 1, 0, [0x01, 1, 0, 0, 0, 0, 0x3000, 0, 0, 0, 5, 0]);
        println!("guest {guest}: its queues are created with {cq:x} {sq:x}, Write of block 5: {write:x}");
    }
    for guest in [0, 1] {
        let read = m.send(guest, 1, 1, [0x02, 1, 0, 0, 0, 0, 0x4000, 0, 0, 0, 5, 0]);
        println!("guest {guest}: Read of block 5: {read:x}, {:?}", String::from_utf8_lossy(&m.load::<10>(guest, 0x4000)));
    }
}
