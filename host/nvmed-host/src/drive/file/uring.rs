#![allow(unsafe_code)]
//! The kernel's io_uring for a file.

use std::fs::File;
use std::io;
use std::os::fd::{AsRawFd, BorrowedFd, RawFd};
use std::os::unix::fs::FileTypeExt;
use std::sync::Arc;
use std::time::Duration;

use io_uring::{cqueue, opcode, squeue, types};
use nix::fcntl::Flock;

use super::ring::{FileRing, Work, Zeroing};
use crate::drive::ring::Ring;
use crate::drive::uring::{Lasting, Uring, Vector};
use crate::drive::DriveError;

/// A file that is locked.
struct Locked(Flock<File>);

impl AsRawFd for Locked {
    fn as_raw_fd(&self) -> RawFd {
        self.0.as_raw_fd()
    }
}

/// A ring for one file.
pub struct FileUring<M: Lasting>(Uring<squeue::Entry, cqueue::Entry, Work, Locked, M>);

impl<M: Lasting> FileUring<M> {
    /// A ring of the kernel for this file, whose flags lack `O_NONBLOCK`.
    ///
    /// # Errors
    ///
    /// The kernel refuses io_uring.
    pub fn new(file: Flock<File>, memory: Arc<M>) -> Result<Self, DriveError> {
        Uring::new(Locked(file), memory, "take 'drive ram SIZE FILE'").map(Self)
    }
}

/// The entry for an operation on a file. What it names in memory is the vector.
fn entry<M: Lasting>(work: &Work, memory: &M, file: types::Fd, vector: &mut Vector) -> io::Result<squeue::Entry> {
    Ok(match work {
        Work::Move(moved) => {
            let slices = moved
                .slices(memory)
                .ok_or_else(|| io::Error::from_raw_os_error(libc::EFAULT))?;
            vector.name(&slices);
            let offset = moved.transfer.offset + u64::from(moved.transfer.done);
            let (first, count) = (vector.first(), vector.count());
            if moved.writes() {
                let flags = if moved.transfer.forced { libc::RWF_DSYNC } else { 0 };
                opcode::Writev::new(file, first, count)
                    .offset(offset)
                    .rw_flags(flags)
                    .build()
            } else {
                opcode::Readv::new(file, first, count).offset(offset).build()
            }
        }
        Work::Sync => opcode::Fsync::new(file).flags(types::FsyncFlags::DATASYNC).build(),
        Work::Zero {
            from,
            bytes,
            by: Zeroing::Writing,
        } => {
            vector.name_zeros(*bytes);
            opcode::Writev::new(file, vector.first(), vector.count())
                .offset(*from)
                .build()
        }
        Work::Zero { from, bytes, by } => {
            let mode = match by {
                Zeroing::GivingBack => libc::FALLOC_FL_PUNCH_HOLE,
                Zeroing::InPlace | Zeroing::Writing => libc::FALLOC_FL_ZERO_RANGE,
            };
            opcode::Fallocate::new(file, *bytes)
                .offset(*from)
                .mode(mode | libc::FALLOC_FL_KEEP_SIZE)
                .build()
        }
    })
}

impl<M: Lasting> Ring for FileUring<M> {
    type Work = Work;

    fn has_room(&self) -> bool {
        self.0.has_room()
    }

    fn begin(&mut self, work: Work) -> Result<(), (Work, io::Error)> {
        let entry = |work: &Work, memory: &M, file, vector: &mut Vector, user| {
            entry(work, memory, file, vector).map(|entry| entry.user_data(user))
        };
        // SAFETY: the entry names the vector alone, which names the memory, pages that a move owns, which are mapped memory apart from it, or the zeros,
        // which are read only.
        unsafe { self.0.begin(work, entry) }
    }

    fn submit(&mut self) -> io::Result<bool> {
        self.0.submit()
    }

    fn next(&mut self) -> Option<(Work, io::Result<u32>)> {
        self.0.next()
    }

    fn wake(&self) -> BorrowedFd<'_> {
        self.0.wake()
    }

    fn finish(&mut self, most: Duration) -> bool {
        self.0.finish(most)
    }
}

impl<M: Lasting> FileRing for FileUring<M> {
    fn sync(&self) -> io::Result<()> {
        loop {
            match self.0.file().0.sync_data() {
                Err(error) if error.kind() == io::ErrorKind::Interrupted => {}
                synced => return synced,
            }
        }
    }

    fn length(&self) -> io::Result<Option<u64>> {
        let about = self.0.file().0.metadata()?;
        Ok((!about.file_type().is_block_device()).then_some(about.len()))
    }
}
