//! Figures of guests: how many commands the drive has answered, of which kind, with how many bytes, and how long they took.
//!
//! They are of the entries in the lanes' rings. So a guest's command that lies on two extents is two, and what the mediator answers by itself, such as a
//! refused command, is none. The mediator's thread writes them, and nobody waits for anybody: they may be of different moments.

#![forbid(unsafe_code)]

mod histogram;
mod json;
mod prometheus;
#[cfg(test)]
mod tests;

use std::time::Duration;

pub use histogram::{Counter, Histogram, Times};
pub use json::json;
pub use prometheus::prometheus;

/// Bytes of a block.
const BLOCK: u32 = 512;
/// Bytes of an entry of a submission ring.
const ENTRY: usize = 64;

/// What a command does (NVM Command Set Specification, "NVM Command Set Commands").
#[derive(Clone, Copy, Debug, Default, PartialEq, Eq)]
pub enum Kind {
    /// Opcode 02h.
    Read,
    /// Opcode 01h.
    Write,
    /// Opcode 00h.
    Flush,
    /// Opcode 05h.
    Compare,
    /// Opcode 08h.
    WriteZeroes,
    /// Opcode 09h.
    DatasetManagement,
    /// Another one: the mediator gives none such to the drive.
    #[default]
    Other,
}

impl Kind {
    /// All kinds.
    pub const ALL: [Self; 7] = [
        Self::Read,
        Self::Write,
        Self::Flush,
        Self::Compare,
        Self::WriteZeroes,
        Self::DatasetManagement,
        Self::Other,
    ];

    /// Its name, in JSON and in labels.
    #[must_use]
    pub fn name(self) -> &'static str {
        match self {
            Self::Read => "read",
            Self::Write => "write",
            Self::Flush => "flush",
            Self::Compare => "compare",
            Self::WriteZeroes => "write_zeroes",
            Self::DatasetManagement => "dataset_management",
            Self::Other => "other",
        }
    }

    fn of(opcode: u8) -> Self {
        match opcode {
            0x00 => Self::Flush,
            0x01 => Self::Write,
            0x02 => Self::Read,
            0x05 => Self::Compare,
            0x08 => Self::WriteZeroes,
            0x09 => Self::DatasetManagement,
            _ => Self::Other,
        }
    }

    /// Whether its blocks are moved between the drive and memory.
    fn moves(self) -> bool {
        matches!(self, Self::Read | Self::Write | Self::Compare)
    }

    /// Whose times are counted together.
    fn group(self) -> Group {
        match self {
            Self::Read => Group::Read,
            Self::Write => Group::Write,
            _ => Group::Other,
        }
    }
}

/// Kinds whose times are counted together.
#[derive(Clone, Copy, Debug, PartialEq, Eq)]
pub enum Group {
    /// Reads.
    Read,
    /// Writes.
    Write,
    /// All others.
    Other,
}

impl Group {
    /// All groups.
    pub const ALL: [Self; 3] = [Self::Read, Self::Write, Self::Other];

    /// Its name, in JSON and in labels.
    #[must_use]
    pub fn name(self) -> &'static str {
        match self {
            Self::Read => "read",
            Self::Write => "write",
            Self::Other => "other",
        }
    }
}

/// What of an entry is counted.
#[derive(Clone, Copy, Debug, Default, PartialEq, Eq)]
pub struct Command {
    /// What it does.
    pub kind: Kind,
    /// Bytes that it moves between the drive and memory.
    pub bytes: u32,
}

impl Command {
    /// That of an entry, which may have any bytes.
    #[must_use]
    pub fn of(entry: &[u8; ENTRY]) -> Self {
        let kind = Kind::of(entry[0]);
        // NLB of dword 12, a 0's based value
        let blocks = u32::from(u16::from_le_bytes([entry[48], entry[49]])) + 1;
        Self {
            kind,
            bytes: if kind.moves() { blocks * BLOCK } else { 0 },
        }
    }
}

/// The counts of a kind.
#[derive(Debug, Default)]
pub struct KindFigures {
    /// Commands that have ended.
    pub commands: Counter,
    /// Those of them that ended with an error.
    pub errors: Counter,
    /// Bytes that the others moved.
    pub bytes: Counter,
}

/// The figures of a guest.
#[derive(Debug, Default)]
pub struct GuestFigures {
    kinds: [KindFigures; Kind::ALL.len()],
    times: [Histogram; Group::ALL.len()],
    /// Eventfds of the client that were written. The guest's thread writes it.
    pub interrupts: Counter,
}

impl GuestFigures {
    /// The counts of a kind.
    #[must_use]
    pub fn of(&self, kind: Kind) -> &KindFigures {
        let [read, write, flush, compare, zeroes, dataset, other] = &self.kinds;
        match kind {
            Kind::Read => read,
            Kind::Write => write,
            Kind::Flush => flush,
            Kind::Compare => compare,
            Kind::WriteZeroes => zeroes,
            Kind::DatasetManagement => dataset,
            Kind::Other => other,
        }
    }

    /// The times of a group: from the moment at which a command was taken to that at which its completion was read.
    #[must_use]
    pub fn times(&self, group: Group) -> &Histogram {
        let [read, write, other] = &self.times;
        match group {
            Group::Read => read,
            Group::Write => write,
            Group::Other => other,
        }
    }

    /// A command has ended, with an error or without. `None`: the drive was given up, and has not answered.
    pub fn note(&self, command: Command, error: bool, time: Option<Duration>) {
        let counts = self.of(command.kind);
        counts.commands.add(1);
        if error {
            counts.errors.add(1);
        } else {
            counts.bytes.add(command.bytes.into());
        }
        if let Some(time) = time {
            self.times(command.kind.group()).note(time);
        }
    }
}
