#![forbid(unsafe_code)]
//! What the drive asks of the kernel.

use std::io;

use vm_memory::VolatileSlice;

use crate::drive::buffers::{own_slices, Pages};
use crate::drive::command::{Kind, Transfer};
use crate::drive::prp::SharedMemory;
use crate::drive::ring::Ring;

/// Bytes of a sector, which is a block of the drive.
pub const SECTOR: u32 = 512;

/// A command that moves bytes, on its way.
#[derive(Debug)]
pub struct Move {
    /// The lane that it came from.
    pub lane: usize,
    /// Its identifier.
    pub command: u16,
    /// What is moved, and how much of it was.
    pub transfer: Box<Transfer>,
    /// The aligned pages that stand for the command's own, where these do not fit the device or are not to be written.
    pub pages: Option<Pages>,
    /// How often it was tried without coming further.
    pub tries: u32,
}

impl Move {
    /// Whether bytes go to the file.
    pub fn writes(&self) -> bool {
        self.transfer.kind == Kind::Write
    }

    /// The bytes in memory that are still to be moved, in order; those that follow each other are one slice. `None` where some have no memory any more.
    pub fn slices<'a, M: SharedMemory + ?Sized>(&'a self, memory: &'a M) -> Option<Vec<VolatileSlice<'a>>> {
        match &self.pages {
            Some(pages) => {
                let (from, end) = (self.transfer.done, self.transfer.places.bytes());
                Some(vec![pages.slice(from, end.checked_sub(from)?)?])
            }
            None => own_slices(&self.transfer.places, self.transfer.done, memory),
        }
    }
}

/// How bytes are made zero.
#[derive(Clone, Copy, Debug, PartialEq, Eq)]
pub enum Zeroing {
    /// Their room is given back (`FALLOC_FL_PUNCH_HOLE`).
    GivingBack,
    /// They keep their room (`FALLOC_FL_ZERO_RANGE`).
    InPlace,
    /// Zeros are written: at most [`MOST_ZEROS`](crate::drive::uring::MOST_ZEROS).
    Writing,
}

/// An operation.
#[derive(Debug)]
pub enum Work {
    /// Bytes are moved between the file and memory. Its result is how many were.
    Move(Move),
    /// What was written before is made durable (`fdatasync`). Its result is 0.
    Sync,
    /// Bytes are made zero. Its result is how many were where they are written, and else 0, which stands for all.
    Zero {
        /// The first byte.
        from: u64,
        /// How many.
        bytes: u64,
        /// How.
        by: Zeroing,
    },
}

/// Carries operations out on a file. No call waits for the file but [`Ring::finish`] and [`FileRing::sync`].
pub trait FileRing: Ring<Work = Work> {
    /// Makes all that was written durable, and waits for that.
    ///
    /// # Errors
    ///
    /// What the device says.
    fn sync(&self) -> io::Result<()>;

    /// Bytes that the file has, where that can be known without a wait.
    fn length(&self) -> io::Result<Option<u64>>;
}
