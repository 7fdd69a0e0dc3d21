#![forbid(unsafe_code)]
//! What a drive asks of the kernel, and what it is told: io_uring, or what stands for it in tests and fails where it is told to.

use std::io;
use std::os::fd::BorrowedFd;
use std::time::Duration;

/// Carries operations out, several at a time and in any order. No call waits for them but [`Ring::finish`].
pub trait Ring: Send {
    /// An operation.
    type Work;

    /// Whether another operation can be begun.
    fn has_room(&self) -> bool;

    /// Takes an operation over.
    ///
    /// # Errors
    ///
    /// It cannot be begun, and comes back: `EFAULT` where a place in memory is gone, `EBUSY` where there is no room.
    fn begin(&mut self, work: Self::Work) -> Result<(), (Self::Work, io::Error)>;

    /// Hands over to the kernel what was begun. False where the kernel takes the rest later, so that this is to be called again.
    ///
    /// # Errors
    ///
    /// The kernel takes no operations at all.
    fn submit(&mut self) -> io::Result<bool>;

    /// An operation that has ended, and what became of it: the kernel's number for it, or an error.
    fn next(&mut self) -> Option<(Self::Work, io::Result<u32>)>;

    /// Becomes readable where operations have ended.
    fn wake(&self) -> BorrowedFd<'_>;

    /// Waits until nothing is under way, and drops it. False where that takes longer.
    fn finish(&mut self, most: Duration) -> bool;
}
