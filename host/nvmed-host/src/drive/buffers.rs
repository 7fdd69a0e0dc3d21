#![forbid(unsafe_code)]
//! The buffers of operations that the kernel carries out: a command's own memory, or pages of the program's own that stand for it.

use std::io;

use vm_memory::mmap::MmapRegion;
use vm_memory::{VolatileMemory, VolatileSlice};

use super::prp::{Places, SharedMemory};

/// The bytes of a command's own memory from the byte `from` of them on, in order; those that follow each other are one slice. `None` where some have no
/// memory any more.
pub fn own_slices<'a, M: SharedMemory + ?Sized>(
    places: &Places,
    from: u32,
    memory: &'a M,
) -> Option<Vec<VolatileSlice<'a>>> {
    let mut runs: Vec<(u64, usize)> = Vec::with_capacity(8);
    for part in places.part(from, u32::MAX) {
        match runs.last_mut() {
            // Both have memory, but perhaps in two pieces that touch.
            Some((host, bytes))
                if *host + *bytes as u64 == part.host
                    && memory.slice(*host, *bytes + part.bytes as usize).is_some() =>
            {
                *bytes += part.bytes as usize;
            }
            _ => runs.push((part.host, part.bytes as usize)),
        }
    }
    runs.into_iter()
        .map(|(host, bytes)| memory.slice(host, bytes))
        .collect()
}

/// Aligned memory of the program's own: as much as a command moves at most.
#[derive(Debug)]
pub struct Pages(MmapRegion);

impl Pages {
    /// So many bytes.
    pub const BYTES: u32 = 131_072;

    /// New ones.
    ///
    /// # Errors
    ///
    /// There is no memory for them.
    pub fn new() -> io::Result<Pages> {
        MmapRegion::new(Self::BYTES as usize)
            .map(Pages)
            .map_err(io::Error::other)
    }

    /// `bytes` of them, at least 1, from `from` on.
    pub fn slice(&self, from: u32, bytes: u32) -> Option<VolatileSlice<'_>> {
        self.0
            .get_slice(from as usize, bytes as usize)
            .ok()
            .filter(|slice| !slice.is_empty())
    }
}

/// Calls `copy` with each slice and the pages of the program's own that stand for it.
pub fn copy_in_order(slices: &[VolatileSlice<'_>], pages: &Pages, copy: impl Fn(VolatileSlice<'_>, VolatileSlice<'_>)) {
    let mut from = 0;
    for slice in slices {
        if let Some(page) = pages.slice(from, slice.len() as u32) {
            copy(*slice, page);
        }
        from += slice.len() as u32;
    }
}

/// Whether the slices have what the pages have.
pub fn are_the_same(slices: &[VolatileSlice<'_>], pages: &Pages) -> bool {
    let (mut own, mut there) = (Vec::new(), Vec::new());
    let mut from = 0;
    slices.iter().all(|slice| {
        let Some(page) = pages.slice(from, slice.len() as u32) else {
            return false;
        };
        own.resize(slice.len(), 0);
        there.resize(slice.len(), 0);
        slice.copy_to(&mut own[..]);
        page.copy_to(&mut there[..]);
        from += slice.len() as u32;
        own == there
    })
}
