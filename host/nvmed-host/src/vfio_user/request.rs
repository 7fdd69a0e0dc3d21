//! What a client asks of the device, in types, and how it is answered.

#![forbid(unsafe_code)]

use std::os::fd::OwnedFd;

use nix::errno::Errno;

/// A request that the device's owner answers. Regions, ranges and kinds of interrupts are those of the [`Device`](super::Device): they were checked.
#[derive(Debug)]
pub enum Request {
    /// The device may use memory. It meets no other memory that is mapped.
    DmaMap(DmaMap),
    /// The device may use memory no longer.
    DmaUnmap(DmaUnmap),
    /// Bytes of a region are read: answered by [`Answer::Data`].
    RegionRead(RegionRead),
    /// Bytes of a region are written.
    RegionWrite(RegionWrite),
    /// Several writes, one after the other; there is at least one.
    WriteMulti(Vec<SmallWrite>),
    /// Interrupts are set up, masked or triggered.
    SetIrqs(SetIrqs),
    /// The device is reset.
    Reset,
}

/// Memory that the device may use from now on. All numbers are multiples of 4,096.
#[derive(Debug)]
pub struct DmaMap {
    /// Where it begins for the device. `address + bytes` is below 2^64.
    pub address: u64,
    /// Its length, not 0.
    pub bytes: u64,
    /// Where it begins in the file. `offset + bytes` is at most 2^63 - 1.
    pub offset: u64,
    /// The device may read it.
    pub readable: bool,
    /// The device may write it.
    pub writable: bool,
    /// The file, of which nothing is known. QEMU has none for ROM, the VGA's memory and the device's own pages.
    pub fd: Option<OwnedFd>,
}

/// Memory that the device may use no longer.
#[derive(Clone, Copy, Debug, PartialEq, Eq)]
pub struct DmaUnmap {
    /// Where it begins for the device: that of an earlier [`DmaMap`].
    pub address: u64,
    /// Its length: that of the same one.
    pub bytes: u64,
    /// Everything that is mapped; the others are 0 then.
    pub all: bool,
}

/// A read of a region.
#[derive(Clone, Copy, Debug, PartialEq, Eq)]
pub struct RegionRead {
    /// The region.
    pub region: u32,
    /// The first byte.
    pub offset: u64,
    /// So many, 1 to 2^20.
    pub count: u32,
}

/// A write of a region.
#[derive(Clone, Debug, PartialEq, Eq)]
pub struct RegionWrite {
    /// The region.
    pub region: u32,
    /// The first byte.
    pub offset: u64,
    /// The bytes, 1 to 2^20.
    pub data: Vec<u8>,
}

/// A write of 1 to 8 bytes.
#[derive(Clone, Copy, Debug, PartialEq, Eq)]
pub struct SmallWrite {
    /// The region.
    pub region: u32,
    /// The first byte.
    pub offset: u64,
    bytes: [u8; 8],
    count: u8,
}

impl SmallWrite {
    /// A write of the first `count` of some bytes, 1 to 8.
    pub fn new(region: u32, offset: u64, bytes: [u8; 8], count: u32) -> Option<SmallWrite> {
        (1..=8).contains(&count).then_some(SmallWrite {
            region,
            offset,
            bytes,
            count: count as u8,
        })
    }

    /// The bytes.
    pub fn data(&self) -> &[u8] {
        self.bytes.get(..usize::from(self.count)).unwrap_or_default()
    }
}

/// What is done to interrupts of a kind: to those from `start` on, `count` of them.
#[derive(Debug)]
pub struct SetIrqs {
    /// The kind, as in `VFIO_PCI_*_IRQ_INDEX`.
    pub index: u32,
    /// The first one.
    pub start: u32,
    /// So many. Where it is 0, all of the kind are taken away: `start` is 0, and the action and data are `Trigger` and `None`.
    pub count: u32,
    /// What is done.
    pub action: IrqAction,
    /// With which data.
    pub data: IrqData,
}

impl SetIrqs {
    /// Whether all interrupts of the kind are taken away.
    pub fn disables_all(&self) -> bool {
        self.count == 0
    }
}

/// What is done to interrupts.
#[derive(Clone, Copy, Debug, PartialEq, Eq)]
pub enum IrqAction {
    /// They are masked; with eventfds: those are signalled where the guest masks them.
    Mask,
    /// They are unmasked; with eventfds: those are signalled where the guest unmasks them.
    Unmask,
    /// They are triggered; with eventfds: those are signalled where the device triggers them.
    Trigger,
}

/// The data of [`SetIrqs`].
#[derive(Debug)]
pub enum IrqData {
    /// The action is done to each.
    None,
    /// The action is done to those that are true; there are as many as the count.
    Bools(Vec<bool>),
    /// Descriptors, as many as the count, of which nothing is known; or none: then those that there were are taken away.
    Eventfds(Vec<OwnedFd>),
}

/// What a request is answered. The reply of a posted request isn't sent.
#[derive(Clone, Copy, Debug, PartialEq, Eq)]
pub enum Answer<'a> {
    /// It was done. Not for [`Request::RegionRead`].
    Done,
    /// The bytes of a [`Request::RegionRead`], as many as it asked for.
    Data(&'a [u8]),
    /// It was not done.
    Refused(Errno),
}

/// Says which request is answered. There is at most one at a time, and until it is answered there is no other.
#[derive(Debug, PartialEq, Eq)]
#[must_use = "a request that is not answered keeps all others waiting"]
pub struct Ticket {
    pub(super) number: u64,
    pub(super) posted: bool,
}

impl Ticket {
    /// Whether the client waits for no reply. The request is to be answered all the same.
    pub fn is_posted(&self) -> bool {
        self.posted
    }
}
