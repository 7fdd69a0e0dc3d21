#![forbid(unsafe_code)]
//! A guest's doorbells in a shared page: a memfd that the client of vfio-user maps as a part of BAR0 (a sparse mmap).
//!
//! A guest's store is a plain store into the page, without a message. Each word of the page that has no news is all ones, which no doorbell can have as
//! a value, so a value that equals the one before, or is for a queue made anew, is not missed.

#[cfg(test)]
mod tests;

use std::fs::File;
use std::os::fd::{AsFd, BorrowedFd};
use std::sync::atomic::{AtomicU32, Ordering};

use nix::errno::Errno;
use nix::fcntl::{fcntl, FcntlArg, SealFlag};
use nix::sys::memfd::{memfd_create, MemFdCreateFlag};
use vm_memory::mmap::MmapRegionError;
use vm_memory::{FileOffset, MmapRegion, VolatileMemory, VolatileMemoryError};

use crate::pci::{BAR_BYTES, DOORBELLS};

/// Doorbells of a guest: of the submission and the completion queue of the admin queues and eight more pairs.
pub const COUNT: usize = 18;
/// Bytes of the page: the length of the sparse mmap.
pub const PAGE_BYTES: u64 = 0x1000;
/// What stands in a word that nobody has written since it was taken last.
const QUIET: u32 = u32::MAX;

/// Why there is no page.
#[derive(Debug, thiserror::Error)]
pub enum PageError {
    /// No file in memory can be made or sealed.
    #[error("no memory file for the doorbells: {0}")]
    File(Errno),
    /// It has not the wanted size.
    #[error("no memory file for the doorbells: {0}")]
    Size(#[from] std::io::Error),
    /// It cannot be mapped.
    #[error("the doorbells cannot be mapped: {0}")]
    Map(#[from] MmapRegionError),
    /// The mapping is not as it has to be.
    #[error("the doorbells cannot be reached: {0}")]
    Reach(#[from] VolatileMemoryError),
}

/// A page of doorbells. The file has the size of BAR0, and the page lies where it lies there, so the file's offset is that of BAR0.
///
/// A client keeps what it has mapped. So each connection has a page of its own. The file is sealed: nobody can change its size. Its words may have any
/// value at any time, those of doorbells and the others, which are never looked at.
#[derive(Debug)]
pub struct Page {
    region: MmapRegion<()>,
}

impl Page {
    /// A page in which nothing is written.
    pub fn new() -> Result<Self, PageError> {
        let flags = MemFdCreateFlag::MFD_CLOEXEC | MemFdCreateFlag::MFD_ALLOW_SEALING;
        let file = File::from(memfd_create(c"nvmed doorbells", flags).map_err(PageError::File)?);
        file.set_len(BAR_BYTES)?;
        let seals = SealFlag::F_SEAL_SHRINK | SealFlag::F_SEAL_GROW | SealFlag::F_SEAL_SEAL;
        fcntl(std::os::fd::AsRawFd::as_raw_fd(&file), FcntlArg::F_ADD_SEALS(seals)).map_err(PageError::File)?;
        let region = MmapRegion::from_file(FileOffset::new(file, DOORBELLS), PAGE_BYTES as usize)?;
        let page = Self { region };
        for at in (0..PAGE_BYTES as usize).step_by(4) {
            page.region
                .get_atomic_ref::<AtomicU32>(at)?
                .store(QUIET, Ordering::SeqCst);
        }
        Ok(page)
    }

    /// The file, which the client maps from [`DOORBELLS`] on, [`PAGE_BYTES`] long.
    pub fn file(&self) -> Option<BorrowedFd<'_>> {
        self.region.file_offset().map(|file| file.file().as_fd())
    }

    /// Takes what was written since the last time: pairs of an offset in BAR0 and a value, of each doorbell the value that was written last, in ascending
    /// order of offsets. Each doorbell is looked at when the iterator reaches it. It is cheap where nothing was written.
    ///
    /// What comes before a write of CC is to be taken before that is carried out, and what a reset makes void is to be taken and dropped.
    pub fn take(&self) -> impl Iterator<Item = (u32, u32)> + '_ {
        (0..COUNT).filter_map(|i| {
            let word = self.region.get_atomic_ref::<AtomicU32>(4 * i).ok()?;
            if word.load(Ordering::Relaxed) == QUIET {
                return None;
            }
            let value = word.swap(QUIET, Ordering::AcqRel);
            (value != QUIET).then_some((DOORBELLS as u32 + 4 * i as u32, value))
        })
    }

    /// Drops what was written, as a reset does.
    pub fn clear(&self) {
        self.take().for_each(drop);
    }
}
