#![forbid(unsafe_code)]
//! What a mediator is made from.

use crate::sys;

/// A set-up: the host's memory, the drive, and the guests, which are numbered from 0 in their order.
#[derive(Debug, Clone, PartialEq, Eq)]
pub struct SetUp {
    /// How many bytes of address space the host's memory has: a multiple of 4,096, up to 2^47, and as many as
    /// [`HostMemory::len`](crate::HostMemory::len) says.
    pub host_bytes: u64,
    /// The host address of the mediator's area, a multiple of 4,096. It has [`AREA_BYTES_PER_LANE`](crate::AREA_BYTES_PER_LANE) bytes for each lane,
    /// of which no guest has one.
    pub mediator: u64,
    /// How many blocks of 512 bytes the drive has: 1 to 2^48.
    pub disk_blocks: u64,
    /// How many queue pairs of the drive are the mediator's: 1 to 8.
    pub lanes: u32,
    /// The guests: 1 to 16, with at most 64 extents together.
    pub guests: Vec<GuestSetUp>,
}

/// What a guest is given.
#[derive(Debug, Clone, PartialEq, Eq)]
pub struct GuestSetUp {
    /// How many descriptors a scatter gather list of the guest may have: 1 to 4,096.
    pub descriptors: u32,
    /// The guest's memory: no two regions have a guest address in common.
    pub regions: Vec<Region>,
    /// The guest's namespace: one to eight extents, in their order. No two extents of a set-up have a block in common.
    pub extents: Vec<Extent>,
}

impl Default for GuestSetUp {
    /// A guest with 1,024 descriptors, and no memory and no blocks yet.
    fn default() -> Self {
        GuestSetUp {
            descriptors: 1024,
            regions: Vec::new(),
            extents: Vec::new(),
        }
    }
}

/// Bytes in a row of a guest's memory, and where they lie in the host's. All three numbers are multiples of 4,096.
#[derive(Debug, Clone, Copy, PartialEq, Eq)]
pub struct Region {
    /// The guest address of the first byte.
    pub address: u64,
    /// The host address of the first byte.
    pub host: u64,
    /// How many bytes, at least 4,096.
    pub bytes: u64,
}

/// Blocks in a row of the drive.
#[derive(Debug, Clone, Copy, PartialEq, Eq)]
pub struct Extent {
    /// The number of the first block of 512 bytes.
    pub base: u64,
    /// How many blocks, at least 1.
    pub blocks: u64,
}

impl Extent {
    /// So many blocks, from the block `base` on.
    pub fn new(base: u64, blocks: u64) -> Self {
        Extent { base, blocks }
    }
}

/// A set-up in the lists that the library takes.
pub(crate) struct Lists {
    pub(crate) sizes: sys::Sizes,
    pub(crate) limits: Vec<u32>,
    pub(crate) regions: Vec<sys::Region>,
    pub(crate) extents: Vec<sys::Extent>,
}

impl Lists {
    pub(crate) fn of(set_up: &SetUp) -> Self {
        let numbered = || (0_u64..).zip(&set_up.guests);
        Lists {
            sizes: sys::Sizes {
                host_bytes: set_up.host_bytes,
                mediator: set_up.mediator,
                disk_blocks: set_up.disk_blocks,
                lanes: u64::from(set_up.lanes),
            },
            limits: set_up.guests.iter().map(|guest| guest.descriptors).collect(),
            regions: numbered()
                .flat_map(|(guest, own)| own.regions.iter().map(move |r| region_of(guest, r)))
                .collect(),
            extents: numbered()
                .flat_map(|(guest, own)| own.extents.iter().map(move |e| extent_of(guest, e)))
                .collect(),
        }
    }
}

fn region_of(guest: u64, region: &Region) -> sys::Region {
    sys::Region {
        guest,
        address: region.address,
        host: region.host,
        bytes: region.bytes,
    }
}

fn extent_of(guest: u64, extent: &Extent) -> sys::Extent {
    sys::Extent {
        guest,
        base: extent.base,
        blocks: extent.blocks,
    }
}

#[cfg(test)]
mod tests {
    use super::*;

    #[test]
    fn lists_have_each_guest_by_its_number() {
        let of = |n: u64| GuestSetUp {
            descriptors: n as u32,
            regions: vec![
                Region {
                    address: n,
                    host: n,
                    bytes: n
                };
                n as usize
            ],
            extents: vec![Extent { base: n, blocks: n }; 2],
        };
        let lists = Lists::of(&SetUp {
            host_bytes: 9,
            mediator: 8,
            disk_blocks: 7,
            lanes: 6,
            guests: (0..4).map(of).collect(),
        });
        let sizes = &lists.sizes;
        assert_eq!(
            (sizes.host_bytes, sizes.mediator, sizes.disk_blocks, sizes.lanes),
            (9, 8, 7, 6)
        );
        assert_eq!(lists.limits, [0, 1, 2, 3]);
        let guests = |n: &sys::Region| n.guest;
        assert_eq!(lists.regions.iter().map(guests).collect::<Vec<_>>(), [1, 2, 2, 3, 3, 3]);
        assert!(lists
            .regions
            .iter()
            .all(|r| (r.address, r.host, r.bytes) == (r.guest, r.guest, r.guest)));
        assert_eq!(
            lists.extents.iter().map(|e| e.guest).collect::<Vec<_>>(),
            [0, 0, 1, 1, 2, 2, 3, 3]
        );
        assert!(lists.extents.iter().all(|e| (e.base, e.blocks) == (e.guest, e.guest)));
    }
}
