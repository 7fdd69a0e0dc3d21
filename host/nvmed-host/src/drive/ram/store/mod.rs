#![deny(unsafe_code)]
//! Where a simulated drive keeps its bytes: memory, or a file.

mod calls;
mod dirty;
mod file;
mod memory;
mod room;

#[cfg(test)]
pub(super) mod faulty;

use std::io;
use std::time::Duration;

use vm_memory::VolatileSlice;

pub use file::FileStore;
pub use memory::MemoryStore;

/// Whether a call may wait for a device.
#[derive(Clone, Copy, Debug, PartialEq, Eq)]
pub enum Wait {
    /// It may: it is made in a thread of the drive's own.
    Allowed,
    /// It may not: [`io::ErrorKind::WouldBlock`] says that it would.
    Never,
}

/// Bytes that survive the drive, or at least the commands. Offsets and lengths are within its length, which the caller has checked.
///
/// Calls come from several threads at once. Those on the same bytes take effect in any order, and each block of 512 bytes that a call moves may be seen
/// by another in part: that is what NVMe allows of commands that are outstanding together.
pub trait Store: Send + Sync {
    /// Whether calls may wait for a device. Where not, all of them are made in the mediator's thread.
    fn waits(&self) -> bool;

    /// Copies the bytes from `offset` on into `places`.
    ///
    /// # Errors
    ///
    /// `EFAULT` where a place has lost its memory, [`io::ErrorKind::UnexpectedEof`] where the store was cut off, `WouldBlock`, or what the device says.
    /// Places may have been written in part then.
    fn read(&self, offset: u64, places: &[VolatileSlice<'_>], wait: Wait) -> io::Result<()>;

    /// Copies `places` over the bytes from `offset` on.
    ///
    /// # Errors
    ///
    /// As [`Store::read`]. Bytes may have been written in part then.
    fn write(&self, offset: u64, places: &[VolatileSlice<'_>], wait: Wait) -> io::Result<()>;

    /// Makes the bytes zero. Without `gives_back` they may keep their room; with it their room is given back where that can be, now or later. It may wait.
    ///
    /// # Errors
    ///
    /// What the device says.
    fn zero(&self, offset: u64, bytes: u64, gives_back: bool) -> io::Result<()>;

    /// The first byte from `offset` on, below `end`, that may be other than zero; `end` where there is none.
    fn next_data(&self, offset: u64, end: u64) -> u64;

    /// The first byte after `offset`, below `end`, that is known to be zero, where `offset` is of [`Store::next_data`]; `end` where none is.
    fn next_hole(&self, _offset: u64, end: u64) -> u64 {
        end
    }

    /// Whether zeros have kept room that is to be given back.
    fn keeps_room(&self) -> bool {
        false
    }

    /// Gives back a piece of it, and says how long that took; writes wait meanwhile. `None` where somebody has written since the last call, or nothing is left.
    fn give_back(&self) -> Option<Duration> {
        None
    }

    /// Gives back what zeros have kept, for so long at most. Nobody writes any more.
    fn give_all_back(&self, _most: Duration) {}

    /// Makes all that was written and made zero before this call durable. It is called by one thread at a time.
    ///
    /// # Errors
    ///
    /// What the device says of any write since the last call; a second call may not say it again.
    fn sync(&self) -> io::Result<()>;

    /// Copies `places` over the bytes from `offset` on, which were just written, and makes these durable. It is called by the thread that syncs.
    ///
    /// # Errors
    ///
    /// As [`Store::sync`].
    fn write_durably(&self, offset: u64, places: &[VolatileSlice<'_>]) -> io::Result<()>;

    /// Whether the store is as it was opened; otherwise what happened to it, in words.
    fn check(&self) -> Result<(), String>;

    /// A few words on where the bytes are.
    fn describe(&self) -> &str;
}
