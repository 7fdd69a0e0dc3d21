#![forbid(unsafe_code)]
//! What the drive was given for each guest.
//!
//! It is counted from the entries in the lanes' rings: each names blocks, and each block is one guest's. What the mediator answers by itself, such as a
//! refused command, is in no entry. A Flush names no block, and the ranges of a Dataset Management are not read: these are counted together, for no
//! guest. A guest's command on two extents is two.

#[cfg(test)]
mod tests;

use std::fmt;

/// Bytes of a submission queue entry.
pub const ENTRY_BYTES: usize = 64;
/// Bytes of a block.
const BLOCK: u64 = 512;

/// Commands that name blocks in a row (NVM Command Set Specification, "NVM Command Set Commands").
#[derive(Clone, Copy, Debug, PartialEq, Eq)]
pub enum Kind {
    /// Opcode 02h.
    Read,
    /// Opcode 01h.
    Write,
    /// Opcode 05h.
    Compare,
    /// Opcode 08h.
    WriteZeroes,
}

/// The blocks that an entry names.
#[derive(Clone, Copy, Debug, PartialEq, Eq)]
pub struct Named {
    /// By which command.
    pub kind: Kind,
    /// The first block.
    pub first: u64,
    /// How many: 1 to 65,536.
    pub blocks: u64,
}

/// The blocks in a row that an entry names, or `None` where it is another command. The entry may have any bytes.
pub fn named(entry: &[u8; ENTRY_BYTES]) -> Option<Named> {
    let [opcode, .., _, _] = *entry;
    let kind = match opcode {
        0x01 => Kind::Write,
        0x02 => Kind::Read,
        0x05 => Kind::Compare,
        0x08 => Kind::WriteZeroes,
        _ => return None,
    };
    let field = |at: usize, bytes: usize| {
        let bytes = entry.iter().skip(at).take(bytes).rev();
        bytes.fold(0, |value, &byte| value << 8 | u64::from(byte))
    };
    Some(Named {
        kind,
        first: field(40, 8),
        blocks: field(48, 2) + 1,
    })
}

/// Whose the drive's blocks are.
#[derive(Clone, Debug, Default)]
pub struct Owners {
    /// First block, how many, and the guest: in ascending order, none meets another.
    extents: Vec<(u64, u64, usize)>,
}

impl Owners {
    /// The owners of extents that don't meet: each a guest, its first block and how many there are.
    pub fn new(extents: impl IntoIterator<Item = (usize, u64, u64)>) -> Self {
        let mut extents: Vec<_> = extents
            .into_iter()
            .map(|(guest, base, blocks)| (base, blocks, guest))
            .collect();
        extents.sort_unstable();
        Self { extents }
    }

    /// The guest whose block it is.
    pub fn of(&self, block: u64) -> Option<usize> {
        let after = self.extents.partition_point(|&(base, ..)| base <= block);
        let &(base, blocks, guest) = self.extents.get(after.checked_sub(1)?)?;
        (block - base < blocks).then_some(guest)
    }
}

/// How many commands of a kind, and how many bytes they name.
#[derive(Clone, Copy, Debug, Default, PartialEq, Eq)]
pub struct Count {
    /// Commands.
    pub commands: u64,
    /// Bytes.
    pub bytes: u64,
}

impl Count {
    fn add(&mut self, bytes: u64) {
        self.commands = self.commands.saturating_add(1);
        self.bytes = self.bytes.saturating_add(bytes);
    }
}

/// A guest's counts.
#[derive(Clone, Copy, Debug, Default, PartialEq, Eq)]
pub struct GuestCounts {
    /// Reads.
    pub reads: Count,
    /// Writes.
    pub writes: Count,
    /// Compares.
    pub compares: Count,
    /// Write Zeroes.
    pub zeroes: Count,
}

impl fmt::Display for GuestCounts {
    fn fmt(&self, f: &mut fmt::Formatter<'_>) -> fmt::Result {
        let Self {
            reads,
            writes,
            compares,
            zeroes,
        } = self;
        write!(
            f,
            "{} reads of {} bytes, {} writes of {} bytes, ",
            reads.commands, reads.bytes, writes.commands, writes.bytes
        )?;
        write!(f, "{} compares of {} bytes, ", compares.commands, compares.bytes)?;
        write!(f, "{} write zeroes of {} bytes", zeroes.commands, zeroes.bytes)
    }
}

/// The counts of all guests. Shown, they are one line.
#[derive(Clone, Debug, Default)]
pub struct Statistics {
    owners: Owners,
    guests: Vec<GuestCounts>,
    others: u64,
}

impl Statistics {
    /// Counts of so many guests.
    pub fn new(owners: Owners, guests: usize) -> Self {
        Self {
            owners,
            guests: vec![GuestCounts::default(); guests],
            others: 0,
        }
    }

    /// Counts an entry that the drive is given.
    pub fn count(&mut self, entry: &[u8; ENTRY_BYTES]) {
        let named = named(entry).and_then(|named| Some((named, self.owners.of(named.first)?)));
        match named.and_then(|(named, guest)| Some((named, self.guests.get_mut(guest)?))) {
            Some((named, counts)) => {
                let count = match named.kind {
                    Kind::Read => &mut counts.reads,
                    Kind::Write => &mut counts.writes,
                    Kind::Compare => &mut counts.compares,
                    Kind::WriteZeroes => &mut counts.zeroes,
                };
                count.add(named.blocks * BLOCK);
            }
            None => self.others = self.others.saturating_add(1),
        }
    }

    /// The counts of a guest.
    pub fn guest(&self, guest: usize) -> GuestCounts {
        self.guests.get(guest).copied().unwrap_or_default()
    }

    /// Commands of no guest: Flush, Dataset Management, and what names blocks that nobody has.
    pub fn others(&self) -> u64 {
        self.others
    }

    /// Takes the counts and begins anew.
    pub fn take(&mut self) -> Self {
        let fresh = Self::new(self.owners.clone(), self.guests.len());
        std::mem::replace(self, fresh)
    }
}

impl fmt::Display for Statistics {
    fn fmt(&self, f: &mut fmt::Formatter<'_>) -> fmt::Result {
        for (guest, counts) in self.guests.iter().enumerate() {
            write!(f, "guest {guest}: {counts}; ")?;
        }
        write!(f, "{} others", self.others)
    }
}
