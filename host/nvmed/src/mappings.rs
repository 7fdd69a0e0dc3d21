//! Memories of whole machines, as `vm-memory` has them, in the place of a row of the host's.

use crate::memory::{is_in, HostMemory};
use crate::{Extent, GuestSetUp, Region, SetUp, AREA_BYTES_PER_LANE};
use vm_memory::bitmap::{Bitmap, BS};
use vm_memory::mmap::{MmapRegionError, NewBitmap};
use vm_memory::{
    GuestMemory, GuestMemoryMmap, GuestMemoryRegion, GuestRegionMmap, MmapRegion, VolatileMemory, VolatileSlice,
};

/// The memories of machines ([`GuestMemoryMmap`]), and an area for the mediator. Where they lie in this process they stay: the row of host addresses
/// begins with the lowest mapping, and what is between two of them is a hole.
///
/// That serves a drive that this process simulates ([`slice`](Self::slice)), and one behind an I/O MMU that is given these addresses
/// ([`pieces`](Self::pieces)).
#[derive(Debug)]
pub struct Mappings<B: Bitmap = ()> {
    guests: Vec<GuestMemoryMmap<B>>,
    area: MmapRegion<B>,
    lanes: u32,
    base: usize,
    bytes: u64,
}

const PAGE: usize = 4096;

impl<B: NewBitmap + 'static> Mappings<B> {
    /// The memories of guests 0, 1 and so on, and an area for so many lanes, which is mapped here.
    ///
    /// # Errors
    ///
    /// Where the area can't be mapped. Whether regions are of whole pages of 4,096 bytes, [`Mediator::serve`](crate::Mediator::serve) looks at.
    pub fn new(guests: Vec<GuestMemoryMmap<B>>, lanes: u32) -> Result<Self, MmapRegionError> {
        let wanted = u64::from(lanes).saturating_mul(AREA_BYTES_PER_LANE);
        let area = MmapRegion::new(usize::try_from(wanted).map_err(|_| MmapRegionError::InvalidOffsetLength)?)?;
        let mut mappings = Mappings {
            guests,
            area,
            lanes,
            base: 0,
            bytes: 0,
        };
        let ends = |piece: &MmapRegion<B>| (piece.as_ptr() as usize, piece.as_ptr() as usize + piece.size());
        let (mut from, mut to) = ends(&mappings.area);
        for piece in mappings.mapped() {
            let (start, end) = ends(piece);
            from = from.min(start);
            to = to.max(end);
        }
        mappings.base = from;
        mappings.bytes = (to - from).next_multiple_of(PAGE) as u64;
        Ok(mappings)
    }
}

impl<B: Bitmap + 'static> Mappings<B> {
    /// The memories of the guests, in their order.
    pub fn guests(&self) -> &[GuestMemoryMmap<B>] {
        &self.guests
    }

    /// The host address of the mediator's area: what [`SetUp::mediator`](crate::SetUp::mediator) is to be.
    pub fn area(&self) -> u64 {
        self.host_of(&self.area)
    }

    /// The regions of a guest, for [`GuestSetUp::regions`](crate::GuestSetUp::regions): none where there is no such guest.
    pub fn regions(&self, guest: usize) -> Vec<Region> {
        let of = |region: &GuestRegionMmap<B>| Region {
            address: region.start_addr().0,
            host: self.host_of(region),
            bytes: region.size() as u64,
        };
        self.guests
            .get(guest)
            .map_or_else(Vec::new, |memory| memory.iter().map(of).collect())
    }

    /// The set-up of a mediator over this memory and a drive of so many blocks of 512 bytes: each guest has all of its memory, and the extents that `extents`
    /// says for its number. All else is as [`GuestSetUp::default`] has it.
    pub fn set_up(&self, disk_blocks: u64, extents: impl Fn(usize) -> Vec<Extent>) -> SetUp {
        let guest = |number| GuestSetUp {
            regions: self.regions(number),
            extents: extents(number),
            ..GuestSetUp::default()
        };
        SetUp {
            host_bytes: self.bytes,
            mediator: self.area(),
            disk_blocks,
            lanes: self.lanes,
            guests: (0..self.guests.len()).map(guest).collect(),
        }
    }

    /// The bytes of this host address and those after it, for a drive that this process simulates; `None` unless all lie in one mapping.
    pub fn slice(&self, host: u64, bytes: usize) -> Option<VolatileSlice<'_, BS<'_, B>>> {
        let (piece, offset) = self.find(host, bytes as u64)?;
        piece.get_slice(usize::try_from(offset).ok()?, bytes).ok()
    }

    /// The host address and the length of each mapping, for an I/O MMU that is to let the drive reach them, and nothing else.
    pub fn pieces(&self) -> Vec<(u64, u64)> {
        self.mapped()
            .map(|piece| (self.host_of(piece), piece.size() as u64))
            .collect()
    }

    /// All mappings.
    fn mapped(&self) -> impl Iterator<Item = &MmapRegion<B>> {
        let guests = self
            .guests
            .iter()
            .flat_map(|memory| memory.iter().map(|region| &**region));
        guests.chain(std::iter::once(&self.area))
    }

    /// The mapping that has all of these bytes, and the place of the first there.
    fn find(&self, host: u64, bytes: u64) -> Option<(&MmapRegion<B>, u64)> {
        self.mapped().find_map(|piece| {
            let offset = host.checked_sub(self.host_of(piece))?;
            is_in(piece, offset, bytes).then_some((piece, offset))
        })
    }

    fn host_of(&self, piece: &MmapRegion<B>) -> u64 {
        (piece.as_ptr() as usize - self.base) as u64
    }
}

// SAFETY: `base` and `bytes` are never changed, and the lowest mapping, which begins at `base`, is not at null. Mappings of a process of x86-64 lie
// below 2^47. All mappings are kept in this value: a `GuestMemoryMmap` shares its regions by `Arc`, and they are never unmapped before. `has` is true for
// bytes of one mapping alone, which may be read and written. `vm-memory` gives no references to them, and they are no part of what `malloc` gives out,
// which has mappings of its own.
unsafe impl<B: Bitmap + Send + Sync + 'static> HostMemory for Mappings<B> {
    fn base(&self) -> *mut u8 {
        std::ptr::with_exposed_provenance_mut(self.base)
    }

    fn len(&self) -> u64 {
        self.bytes
    }

    fn has(&self, host: u64, bytes: u64) -> bool {
        self.find(host, bytes).is_some()
    }
}

#[cfg(test)]
mod tests;
