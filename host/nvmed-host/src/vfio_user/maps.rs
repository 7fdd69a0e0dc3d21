//! The memory that the client has mapped for the device: ranges that do not meet.

#![forbid(unsafe_code)]

use std::collections::BTreeMap;

use nix::errno::Errno;

use super::wire::Refusal;

/// Most ranges at a time: the default of `max_dma_maps`.
pub const MAPS_MAX: usize = 65535;

/// Ranges of the device's addresses, by their first.
#[derive(Debug, Default)]
pub struct Maps {
    bytes_at: BTreeMap<u64, u64>,
}

impl Maps {
    /// Whether a range can be added. `address + bytes` is below 2^64.
    pub fn check_new(&self, address: u64, bytes: u64) -> Result<(), Refusal> {
        let end = address.saturating_add(bytes);
        let before = self.bytes_at.range(..end).next_back();
        if before.is_some_and(|(start, bytes)| start.saturating_add(*bytes) > address) {
            return Err(Refusal {
                errno: Errno::EEXIST,
                why: "a mapping over one that is there",
            });
        }
        if self.bytes_at.len() >= MAPS_MAX {
            return Err(Refusal {
                errno: Errno::ENOSPC,
                why: "more mappings than there may be",
            });
        }
        Ok(())
    }

    /// Whether there is exactly this range.
    pub fn check_there(&self, address: u64, bytes: u64) -> Result<(), Refusal> {
        match self.bytes_at.get(&address) {
            Some(there) if *there == bytes => Ok(()),
            _ => Err(Refusal {
                errno: Errno::ENOENT,
                why: "an unmapping of what was not mapped as such",
            }),
        }
    }

    /// Adds a range that was checked.
    pub fn add(&mut self, address: u64, bytes: u64) {
        self.bytes_at.insert(address, bytes);
    }

    /// Removes a range that was checked.
    pub fn remove(&mut self, address: u64) {
        self.bytes_at.remove(&address);
    }

    /// Removes all.
    pub fn clear(&mut self) {
        self.bytes_at.clear();
    }

    /// Ranges.
    pub fn len(&self) -> usize {
        self.bytes_at.len()
    }
}
