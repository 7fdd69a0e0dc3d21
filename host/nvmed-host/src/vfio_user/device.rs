//! What a device is: its regions and interrupts. From it the client's questions are answered, and its accesses are checked.

#![forbid(unsafe_code)]

use std::os::fd::OwnedFd;
use std::sync::Arc;

use nix::errno::Errno;

use super::request::IrqAction;
use super::wire::{Refusal, RegionInfoReply, ReplyBody, SetIrqsRequest, PAGE_BYTES};

/// A part of a region.
#[derive(Clone, Copy, Debug, PartialEq, Eq)]
pub struct Area {
    /// The first byte in the region, a multiple of 4,096.
    pub offset: u64,
    /// So many, a multiple of 4,096, not 0.
    pub bytes: u64,
}

/// How a region can be mapped by the client.
#[derive(Clone, Debug)]
pub struct Mapping {
    /// The file.
    pub file: Arc<OwnedFd>,
    /// Where the region begins in it, a multiple of 4,096.
    pub offset: u64,
    /// The parts that can be mapped; none: all of the region.
    pub areas: Vec<Area>,
}

/// A region.
#[derive(Clone, Debug, Default)]
pub struct Region {
    /// Its bytes; 0: there is no such region.
    pub bytes: u64,
    /// It can be read.
    pub readable: bool,
    /// It can be written.
    pub writable: bool,
    /// It can be mapped.
    pub mapping: Option<Mapping>,
}

impl Region {
    /// A region that isn't there.
    pub fn none() -> Region {
        Region::default()
    }

    /// A region that is read and written by messages.
    pub fn of(bytes: u64) -> Region {
        Region {
            bytes,
            readable: true,
            writable: true,
            mapping: None,
        }
    }

    /// The same, and parts of it can be mapped.
    pub fn mapped(bytes: u64, mapping: Mapping) -> Region {
        Region {
            mapping: Some(mapping),
            ..Region::of(bytes)
        }
    }

    fn flags(&self, mappable: bool) -> u32 {
        u32::from(self.readable) | u32::from(self.writable) << 1 | u32::from(mappable) << 2
    }
}

/// A kind of interrupts.
#[derive(Clone, Copy, Debug, Default, PartialEq, Eq)]
pub struct Irq {
    /// So many; 0: there are none of this kind.
    pub count: u32,
    /// They can be signalled by eventfds.
    pub eventfd: bool,
    /// They can be masked and unmasked by messages.
    pub maskable: bool,
    /// One that was triggered is masked until the client unmasks it.
    pub automasked: bool,
    /// They are set up as a set.
    pub noresize: bool,
}

impl Irq {
    /// A kind of which there are none.
    pub const NONE: Irq = Irq {
        count: 0,
        eventfd: false,
        maskable: false,
        automasked: false,
        noresize: false,
    };

    fn flags(&self) -> u32 {
        [self.eventfd, self.maskable, self.automasked, self.noresize]
            .iter()
            .enumerate()
            .fold(0, |flags, (bit, set)| flags | u32::from(*set) << bit)
    }
}

/// Indexes of a PCI device's regions (`VFIO_PCI_*_REGION_INDEX`).
pub mod pci_region {
    /// BAR0
    pub const BAR0: u32 = 0;
    /// The expansion ROM
    pub const ROM: u32 = 6;
    /// Configuration space
    pub const CONFIG: u32 = 7;
    /// Regions of a PCI device
    pub const COUNT: usize = 9;
}

/// Indexes of a PCI device's kinds of interrupts (`VFIO_PCI_*_IRQ_INDEX`).
pub mod pci_irq {
    /// The interrupt pin
    pub const INTX: u32 = 0;
    /// MSI
    pub const MSI: u32 = 1;
    /// MSI-X
    pub const MSIX: u32 = 2;
    /// Errors
    pub const ERR: u32 = 3;
    /// The device is asked back
    pub const REQ: u32 = 4;
    /// Kinds of a PCI device
    pub const COUNT: usize = 5;
}

/// Why there can't be such a device. The caller's fault.
#[derive(Clone, Copy, Debug, PartialEq, Eq, thiserror::Error)]
pub enum DeviceError {
    /// Too many regions or kinds of interrupts.
    #[error("a device has at most {LIST_MAX} regions and kinds of interrupts")]
    Count,
    /// A mapping that cannot be.
    #[error("region {0}: what can be mapped is not of whole pages, or not in the region")]
    Mapping(usize),
}

/// Most regions, kinds of interrupts, and areas of a region.
pub const LIST_MAX: usize = 64;

/// A device: what it has, by index.
#[derive(Debug, Default)]
pub struct Device {
    regions: Vec<Region>,
    irqs: Vec<Irq>,
}

impl Device {
    /// A device with regions and kinds of interrupts, by index.
    pub fn new(regions: Vec<Region>, irqs: Vec<Irq>) -> Result<Device, DeviceError> {
        if regions.len() > LIST_MAX || irqs.len() > LIST_MAX {
            return Err(DeviceError::Count);
        }
        match regions.iter().position(|region| !mapping_is_good(region)) {
            Some(index) => Err(DeviceError::Mapping(index)),
            None => Ok(Device { regions, irqs }),
        }
    }

    /// The regions, by index.
    pub fn regions(&self) -> &[Region] {
        &self.regions
    }

    /// The kinds of interrupts, by index.
    pub fn irqs(&self) -> &[Irq] {
        &self.irqs
    }

    pub(super) fn info(&self) -> ReplyBody<'static> {
        ReplyBody::Info {
            regions: self.regions.len() as u32,
            irqs: self.irqs.len() as u32,
        }
    }

    /// What is said of a region, and the descriptor that goes with it. `descriptors`: the client takes one.
    pub(super) fn region_info(
        &self,
        index: u32,
        room: u32,
        descriptors: bool,
    ) -> Result<(RegionInfoReply<'_>, Option<Arc<OwnedFd>>), Refusal> {
        let region = self.region(index)?;
        let mapping = region.mapping.as_ref().filter(|_| descriptors);
        let info = RegionInfoReply {
            index,
            flags: region.flags(mapping.is_some()),
            bytes: region.bytes,
            offset: mapping.map_or(0, |mapping| mapping.offset),
            areas: mapping.map_or(&[], |mapping| &mapping.areas),
            room,
        };
        let file = mapping
            .filter(|_| info.is_whole())
            .map(|mapping| Arc::clone(&mapping.file));
        Ok((info, file))
    }

    pub(super) fn irq_info(&self, index: u32) -> Result<ReplyBody<'static>, Refusal> {
        let irq = self.irq(index)?;
        Ok(ReplyBody::IrqInfo {
            index,
            flags: irq.flags(),
            count: irq.count,
        })
    }

    /// Checks a read or write of so many bytes.
    pub(super) fn check_access(&self, index: u32, offset: u64, count: usize, write: bool) -> Result<(), Refusal> {
        let region = self.region(index)?;
        let end = offset.checked_add(count as u64);
        if end.is_none_or(|end| end > region.bytes) {
            return Err(Refusal::invalid("an access beyond its region"));
        }
        if !(if write { region.writable } else { region.readable }) {
            return Err(Refusal {
                errno: Errno::EPERM,
                why: "an access that its region does not allow",
            });
        }
        Ok(())
    }

    /// Checks that the interrupts are there and can do what is asked.
    pub(super) fn check_irqs(&self, request: &SetIrqsRequest) -> Result<(), Refusal> {
        let irq = self.irq(request.index)?;
        if request
            .start
            .checked_add(request.count)
            .is_none_or(|end| end > irq.count)
        {
            return Err(Refusal::invalid("interrupts that the device has not"));
        }
        if request.action != IrqAction::Trigger && !irq.maskable {
            return Err(Refusal::invalid("interrupts that cannot be masked by messages"));
        }
        if request.data == super::wire::IrqSelection::Eventfds && !irq.eventfd {
            return Err(Refusal::invalid("interrupts that have no eventfds"));
        }
        Ok(())
    }

    fn region(&self, index: u32) -> Result<&Region, Refusal> {
        self.regions
            .get(index as usize)
            .ok_or(Refusal::invalid("a region that the device has not"))
    }

    fn irq(&self, index: u32) -> Result<&Irq, Refusal> {
        self.irqs
            .get(index as usize)
            .ok_or(Refusal::invalid("a kind of interrupts that the device has not"))
    }
}

fn mapping_is_good(region: &Region) -> bool {
    let Some(mapping) = &region.mapping else { return true };
    let whole = Area {
        offset: 0,
        bytes: region.bytes,
    };
    let areas = if mapping.areas.is_empty() {
        std::slice::from_ref(&whole)
    } else {
        &mapping.areas
    };
    let in_region = |area: &Area| {
        area.bytes != 0
            && area.bytes % PAGE_BYTES == 0
            && area.offset % PAGE_BYTES == 0
            && area
                .offset
                .checked_add(area.bytes)
                .is_some_and(|end| end <= region.bytes)
    };
    let in_file = mapping
        .offset
        .checked_add(region.bytes)
        .is_some_and(|end| end <= i64::MAX as u64);
    mapping.offset % PAGE_BYTES == 0 && in_file && areas.len() <= LIST_MAX && areas.iter().all(in_region)
}
