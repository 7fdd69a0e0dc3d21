#![forbid(unsafe_code)]
//! What a guest's machine has to say of its memory.
//!
//! A client of vfio-user says by DMA_MAP where parts of the machine's memory lie: guest addresses, a length, and an offset in a file. The mediator was given
//! the guest's regions at the start, and where the machine has other ones a command of the guest would reach other bytes than the guest means. So each
//! part is compared: guest addresses in one region, that region's offset, that file, and the right to write.

use std::fmt;
use std::ops::Range;

use super::file::Identity;
use super::PAGE;
use crate::machine::{self, Machine, RamRegion, LEGACY_HOLE};

/// What a DMA_MAP with a descriptor says.
#[derive(Clone, Copy, Debug, PartialEq, Eq)]
pub struct MapRequest {
    /// The guest address of its first byte.
    pub address: u64,
    /// Its length in bytes.
    pub bytes: u64,
    /// Where its first byte lies in the file.
    pub offset: u64,
    /// Whether the device may read it.
    pub readable: bool,
    /// Whether the device may write it.
    pub writable: bool,
}

/// A part of a guest's memory that is as it has to be.
#[derive(Clone, Copy, Debug, PartialEq, Eq)]
pub struct Part {
    /// The guest address of its first byte.
    pub address: u64,
    /// The host address of that byte.
    pub host: u64,
    /// Its length in bytes.
    pub bytes: u64,
}

/// The most parts that are noted apart from each other: a machine's memory comes in a few.
const MOST_PARTS: usize = 1024;

/// How much at the end of the low region of a q35 may be missing: firmware takes it for system management mode (TSEG), and hides it from devices.
const TSEG_MOST: u64 = 64 << 20;

/// Why a part of memory is refused: what the client says, and what the machine should look like.
#[derive(Clone, Copy, Debug, PartialEq, Eq)]
pub struct Refusal {
    what: Difference,
    map: MapRequest,
    machine: Machine,
    memory: u64,
}

/// In what a part differs from the expected regions.
#[derive(Clone, Copy, Debug, PartialEq, Eq)]
pub enum Difference {
    /// Its length is 0, or an address, offset or length is no multiple of 4,096.
    NoPages,
    /// Not all of it lies in one of the machine's regions.
    Outside,
    /// It lies elsewhere in the file than the machine's region.
    Offset {
        /// Where it should lie.
        expected: u64,
    },
    /// It is of another file than the guest's memory.
    OtherFile,
    /// It may not be read or written.
    Rights,
    /// The memory comes in more parts than a machine has.
    TooManyParts,
}

impl Refusal {
    /// In what the part differs.
    pub fn difference(&self) -> Difference {
        self.what
    }
}

impl std::error::Error for Refusal {}

impl fmt::Display for Refusal {
    fn fmt(&self, to: &mut fmt::Formatter<'_>) -> fmt::Result {
        let m = &self.map;
        write!(
            to,
            "memory of {:#x} bytes at {:#x} (offset {:#x}) ",
            m.bytes, m.address, m.offset
        )?;
        match self.what {
            Difference::NoPages => return write!(to, "is not of whole pages: is there an emulated I/O MMU? It has to go"),
            Difference::OtherFile => {
                return write!(to, "is of another file than the guest's: the machine has to have all of its memory from one file, and no other")
            }
            Difference::Rights => return write!(to, "cannot be read and written by the device: it needs a backend with share=on"),
            Difference::TooManyParts => return write!(to, "comes after {MOST_PARTS} other parts: a machine has a few"),
            Difference::Outside => write!(to, "is no part of a machine")?,
            Difference::Offset { expected } => write!(to, "should be at the offset {expected:#x}, as in a machine")?,
        }
        write!(
            to,
            " of type {} with -m {}B, whose memory lies at",
            self.machine, self.memory
        )?;
        for (i, r) in machine::regions(self.machine, self.memory).iter().enumerate() {
            let and = if i > 0 { " and" } else { "" };
            write!(to, "{and} {:#x} to {:#x}", r.address, r.address.saturating_add(r.bytes))?;
        }
        write!(
            to,
            ": give it as much with -m, and the type that the line 'machine' says, without an emulated I/O MMU"
        )
    }
}

/// The memory that a guest's machine has to show, and how much of it has been shown on this connection.
#[derive(Clone, Debug)]
pub struct Expected {
    machine: Machine,
    bytes: u64,
    regions: Vec<RamRegion>,
    host: u64,
    file: Option<Identity>,
    shown: Ranges,
    complete: bool,
    without_file: bool,
}

impl Expected {
    /// Of a guest with `bytes` bytes of memory, which lie at the host address `host` in a row. `file` is the guest's file, or `None` as long as it is not
    /// known: then each file is as good as another.
    pub fn new(machine: Machine, bytes: u64, host: u64, file: Option<Identity>) -> Self {
        let regions = machine::regions(machine, bytes);
        Self {
            machine,
            bytes,
            regions,
            host,
            file,
            shown: Ranges::default(),
            complete: false,
            without_file: false,
        }
    }

    /// Says which file is the guest's, or that none is any more.
    pub fn set_file(&mut self, file: Option<Identity>) {
        self.file = file;
    }

    /// Compares a part with the regions. `file` is the identity of its descriptor.
    ///
    /// A part may be read only where the machine's legacy hole lies: there a chipset write-protects the BIOS's copies.
    ///
    /// Errors: the first difference that there is.
    pub fn holds(&self, map: &MapRequest, file: Identity) -> Result<Part, Refusal> {
        let refuse = |what| {
            Err(Refusal {
                what,
                map: *map,
                machine: self.machine,
                memory: self.bytes,
            })
        };
        if map.bytes == 0 || [map.address, map.bytes, map.offset].iter().any(|n| n % PAGE != 0) {
            return refuse(Difference::NoPages);
        }
        let Some(region) = self.regions.iter().find(|r| r.has(map.address, map.bytes)) else {
            return refuse(Difference::Outside);
        };
        let expected = region.offset + (map.address - region.address);
        if self.file.is_some_and(|own| own != file) {
            return refuse(Difference::OtherFile);
        }
        if map.offset != expected {
            return refuse(Difference::Offset { expected });
        }
        let in_hole = LEGACY_HOLE.contains(&map.address) && map.bytes <= LEGACY_HOLE.end - map.address;
        if !map.readable || !(map.writable || in_hole) {
            return refuse(Difference::Rights);
        }
        Ok(Part {
            address: map.address,
            host: self.host + expected,
            bytes: map.bytes,
        })
    }

    /// Notes that a part was shown.
    ///
    /// Errors: [`Difference::TooManyParts`].
    pub fn note(&mut self, part: &Part) -> Result<(), Refusal> {
        if self.complete {
            return Ok(());
        }
        if !self.shown.add(part.address..part.address.saturating_add(part.bytes)) {
            let offset = part.host.saturating_sub(self.host);
            let map = MapRequest {
                address: part.address,
                bytes: part.bytes,
                offset,
                readable: true,
                writable: true,
            };
            return Err(Refusal {
                what: Difference::TooManyParts,
                map,
                machine: self.machine,
                memory: self.bytes,
            });
        }
        self.complete = self.missing().is_none();
        Ok(())
    }

    /// Whether all of the machine's memory has been shown since [`Expected::restart`]: what a machine has taken away again since counts, too. The hole
    /// for VGA and BIOS doesn't count, nor what the firmware of a q35 hides at the end of the low region.
    pub fn is_complete(&self) -> bool {
        self.complete
    }

    /// The first guest addresses that have not been shown, for a message: `None` where all have.
    pub fn missing(&self) -> Option<Range<u64>> {
        self.regions.iter().find_map(|region| self.missing_of(region))
    }

    /// Notes that a part was shown without a descriptor: ROM and the like, or RAM that QEMU shares with nobody, which is remembered for a message.
    pub fn note_without_file(&mut self, address: u64, bytes: u64) {
        let end = address.saturating_add(bytes);
        let in_ram = |r: &RamRegion| address < r.address.saturating_add(r.bytes) && r.address < end;
        let in_hole = address >= LEGACY_HOLE.start && end <= LEGACY_HOLE.end;
        self.without_file |= !in_hole && self.regions.iter().any(in_ram);
    }

    /// Words for the operator on what is missing, and what to do: `None` where nothing is.
    pub fn waits_for(&self) -> Option<String> {
        let Range { start, end } = self.missing()?;
        let advice = if self.without_file {
            format!(
                "it comes without a file: give QEMU '-object memory-backend-memfd,id=m,share=on,size={}' and '-machine memory-backend=m'",
                self.bytes
            )
        } else {
            format!("it needs a machine of type {} with -m {}B", self.machine, self.bytes)
        };
        Some(format!(
            "the machine does not show its memory from {start:#x} to {end:#x}: {advice}"
        ))
    }

    /// Begins anew, for the next connection.
    pub fn restart(&mut self) {
        self.shown = Ranges::default();
        self.complete = false;
        self.without_file = false;
    }

    fn missing_of(&self, region: &RamRegion) -> Option<Range<u64>> {
        let mut at = region.address;
        let end = region.address.saturating_add(region.bytes);
        let tseg = if self.machine == Machine::Q35 && region.address == 0 {
            TSEG_MOST.min(region.bytes / 2)
        } else {
            0
        };
        while at < end {
            if LEGACY_HOLE.contains(&at) {
                at = LEGACY_HOLE.end;
                continue;
            }
            match self.shown.end_of(at) {
                Some(next) => at = next,
                None if at >= end - tseg => return None,
                None => return Some(at..self.shown.next_after(at).unwrap_or(end).min(end)),
            }
        }
        None
    }
}

/// Ranges of addresses that do not touch, in ascending order.
#[derive(Clone, Debug, Default)]
struct Ranges(Vec<Range<u64>>);

impl Ranges {
    /// Adds a range, and joins what touches it. `false` where there would be too many: nothing is added then.
    fn add(&mut self, new: Range<u64>) -> bool {
        let from = self.0.partition_point(|r| r.end < new.start);
        let to = self.0.partition_point(|r| r.start <= new.end);
        let touched = self.0.get(from..to).unwrap_or_default();
        if touched.is_empty() && self.0.len() >= MOST_PARTS {
            return false;
        }
        let start = touched.first().map_or(new.start, |r| r.start.min(new.start));
        let end = touched.last().map_or(new.end, |r| r.end.max(new.end));
        self.0.splice(from..to.max(from), std::iter::once(start..end));
        true
    }

    /// The end of the range that has an address.
    fn end_of(&self, address: u64) -> Option<u64> {
        self.0.iter().find(|r| r.contains(&address)).map(|r| r.end)
    }

    /// The begin of the first range after an address.
    fn next_after(&self, address: u64) -> Option<u64> {
        self.0.iter().find(|r| r.start > address).map(|r| r.start)
    }
}

#[cfg(test)]
mod tests;
