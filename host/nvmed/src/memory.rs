//! The memory of the host, as the library sees it.

use std::sync::Arc;
use vm_memory::bitmap::Bitmap;
use vm_memory::{GuestRegionMmap, MmapRegion};

/// The host's memory: a row of address space, in which guests' memories and the mediator's area lie. A byte's host address is its distance from the
/// first; the drive has to use the same addresses. The rest of the row may be holes.
///
/// It is implemented for mappings of `vm-memory` ([`MmapRegion`], [`GuestRegionMmap`]), for an `Arc`, a `Box` or a reference of one that is, and by
/// [`Mappings`](crate::Mappings) for whole machines' memories. So who has these needs no `unsafe` code.
///
/// # Safety
///
/// Who implements it promises of each value, from its making to its end, wherever it is moved to and whichever thread asks:
///
/// - [`base`](Self::base) and [`len`](Self::len) always return the same, `base` is not null, and `len` bytes from `base` on are below 2^63 as addresses.
/// - Where [`has`](Self::has) has returned true for some bytes, these may be read and written by plain accesses from any thread until the value's end.
///   What is mapped there may be replaced by other memory, as `mmap` with `MAP_FIXED` does it, as long as no access in between meets a hole. A mapped
///   file that is cut off, and a file system that is full, end such an access with the signal `SIGBUS`: that is for the program to prevent, or to catch.
/// - No reference (`&`, `&mut`) of Rust to any of these bytes is there, nor is one of them part of what `malloc` gives out. Others read and write them by
///   raw pointers or volatile accesses alone, as `vm-memory` does. These may happen at any time: guests and drives change bytes while a call of the
///   library runs. The library reads each byte that a guest or the drive may change once, and what it does with it is safe whatever it is; that the
///   compiled library keeps to this is a test of its own (`bench/single_fetch.py`), since no compiler's rules say so.
pub unsafe trait HostMemory: Send {
    /// Where the byte of host address 0 is, or would be if it is a hole.
    fn base(&self) -> *mut u8;

    /// How many bytes the row has, up to 2^47, with its holes.
    fn len(&self) -> u64;

    /// Whether all of these bytes are there, to be read and written until the end of this value. [`Mediator::serve`](crate::Mediator::serve) asks for
    /// each region and for the mediator's area. As it is given here it says that the row has no holes.
    fn has(&self, host: u64, bytes: u64) -> bool {
        host.checked_add(bytes).is_some_and(|end| end <= self.len())
    }

    /// Whether the row has no byte.
    fn is_empty(&self) -> bool {
        self.len() == 0
    }
}

// SAFETY: the Arc keeps the same value, which keeps these promises, until the last Arc's end. `Send` of the Arc is asked for by `M: Sync`.
unsafe impl<M: HostMemory + Sync + ?Sized> HostMemory for Arc<M> {
    fn base(&self) -> *mut u8 {
        (**self).base()
    }

    fn len(&self) -> u64 {
        (**self).len()
    }

    fn has(&self, host: u64, bytes: u64) -> bool {
        (**self).has(host, bytes)
    }
}

// SAFETY: the box has the value, which keeps these promises, until its own end.
unsafe impl<M: HostMemory + ?Sized> HostMemory for Box<M> {
    fn base(&self) -> *mut u8 {
        (**self).base()
    }

    fn len(&self) -> u64 {
        (**self).len()
    }

    fn has(&self, host: u64, bytes: u64) -> bool {
        (**self).has(host, bytes)
    }
}

// SAFETY: the value, which keeps these promises, outlives the reference.
unsafe impl<M: HostMemory + Sync + ?Sized> HostMemory for &M {
    fn base(&self) -> *mut u8 {
        (**self).base()
    }

    fn len(&self) -> u64 {
        (**self).len()
    }

    fn has(&self, host: u64, bytes: u64) -> bool {
        (**self).has(host, bytes)
    }
}

/// Whether a mapping has these bytes, and they may be read and written.
pub(crate) fn is_in<B: Bitmap>(mapping: &MmapRegion<B>, from: u64, bytes: u64) -> bool {
    let access = libc_prot::READ | libc_prot::WRITE;
    let length = mapping.size() as u64;
    mapping.prot() & access == access && from.checked_add(bytes).is_some_and(|end| end <= length)
}

/// What `mmap` is told of accesses, on Linux.
mod libc_prot {
    pub(super) const READ: i32 = 1;
    pub(super) const WRITE: i32 = 2;
}

// SAFETY: the mapping's address and size never change, and it is there until the region's end (that of `build_raw` by the word of who made it). `has` is
// false unless it may be read and written. `vm-memory` gives no references to its bytes, but volatile slices and raw pointers. Its bitmap of pages that
// are dirty does not learn of the library's writes.
unsafe impl<B: Bitmap + Send> HostMemory for MmapRegion<B> {
    fn base(&self) -> *mut u8 {
        self.as_ptr()
    }

    fn len(&self) -> u64 {
        self.size() as u64
    }

    fn has(&self, host: u64, bytes: u64) -> bool {
        is_in(self, host, bytes)
    }
}

// SAFETY: it is its mapping, which keeps these promises.
unsafe impl<B: Bitmap + Send> HostMemory for GuestRegionMmap<B> {
    fn base(&self) -> *mut u8 {
        self.as_ptr()
    }

    fn len(&self) -> u64 {
        self.size() as u64
    }

    fn has(&self, host: u64, bytes: u64) -> bool {
        is_in(self, host, bytes)
    }
}

#[cfg(test)]
mod tests {
    use super::*;
    use vm_memory::GuestAddress;

    fn row(bytes: usize) -> MmapRegion {
        MmapRegion::new(bytes).unwrap()
    }

    #[test]
    fn a_mapping_has_its_bytes_and_no_others() {
        let memory = row(0x2000);
        assert_eq!((memory.base(), HostMemory::len(&memory)), (memory.as_ptr(), 0x2000));
        assert!(memory.has(0, 0x2000) && memory.has(0x2000, 0) && memory.has(0x1fff, 1));
        assert!(!memory.has(0x1fff, 2) && !memory.has(u64::MAX, 2) && !memory.has(0, 0x2001));
        assert!(!memory.is_empty());
    }

    #[test]
    fn a_mapping_that_may_not_be_written_has_no_bytes() {
        let flags = 0x22; // MAP_PRIVATE | MAP_ANONYMOUS
        for (prot, has) in [(0, false), (1, false), (2, false), (3, true)] {
            let memory: MmapRegion = MmapRegion::build(None, 0x1000, prot, flags).unwrap();
            assert_eq!(memory.has(0, 0x1000), has, "{prot}");
        }
    }

    #[test]
    fn what_holds_memory_is_that_memory() {
        fn told(memory: impl HostMemory) -> (usize, u64, bool, bool) {
            let (has, none) = (memory.has(0, 0x1000), memory.has(0x1000, 1));
            (memory.base() as usize, memory.len(), has, none)
        }
        let memory = Arc::new(row(0x1000));
        let wanted = (memory.as_ptr() as usize, 0x1000, true, false);
        assert_eq!(told(&*memory), wanted);
        assert_eq!(told(Arc::clone(&memory)), wanted);
        let boxed: Box<dyn HostMemory> = Box::new(memory);
        assert_eq!(told(boxed), wanted);
        let region = GuestRegionMmap::new(row(0x1000), GuestAddress(0x5000)).unwrap();
        assert_eq!(told(&region), (region.as_ptr() as usize, 0x1000, true, false));
    }
}
