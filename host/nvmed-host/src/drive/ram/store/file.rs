#![forbid(unsafe_code)]
//! Bytes in a regular file, by system calls at offsets: a file that is cut off gives an error, no signal.

use std::fs::{File, OpenOptions};
use std::io;
use std::os::fd::{AsFd, AsRawFd, RawFd};
use std::os::unix::fs::{MetadataExt, OpenOptionsExt as _};
use std::path::{Path, PathBuf};
use std::sync::atomic::{AtomicBool, AtomicU64, Ordering};
use std::time::{Duration, Instant};

use nix::fcntl::{fallocate, FallocateFlags, Flock};
use nix::sys::statfs::{fstatfs, TMPFS_MAGIC};
use nix::sys::statvfs::fstatvfs;
use nix::unistd::{lseek, Whence};
use vm_memory::VolatileSlice;

use super::calls::{self, Way};
use super::dirty::{Dirty, CHUNK};
use super::room::{Hole, Room};
use super::{Store, Wait};
use crate::drive::command::Extent;
use crate::drive::image::{lock, open_without_times};
use crate::drive::DriveError;

/// Chunks that a sync may hand to the device at once.
const FEW_CHUNKS: usize = 2;
/// Room is given back in pieces that are to take so long at most: a write that comes meanwhile waits for one.
const HOLE_TIME: Duration = Duration::from_millis(1);
/// Bytes of such a piece.
const FIRST_HOLE: u64 = 1 << 16;
const LARGEST_HOLE: u64 = 1 << 24;
const SMALLEST_HOLE: u64 = 1 << 12;
/// Zeros, for file systems without holes.
static ZEROS: [u8; 65536] = [0; 65536];

/// A store in a file, which is locked as long as it is open.
pub struct FileStore {
    file: Flock<File>,
    words: String,
    bytes: u64,
    waits: bool,
    dirty: Dirty,
    /// Whether the file system writes parts of a file back.
    writes_back: AtomicBool,
    /// Whether the file system takes reads and writes that may not wait.
    reads_at_once: AtomicBool,
    writes_at_once: AtomicBool,
    /// Whether it can punch holes, and make bytes zero that keep their room.
    has_holes: AtomicBool,
    has_zeros: AtomicBool,
    /// What is to be given back, and in pieces of how many bytes.
    room: Room,
    hole: AtomicU64,
}

impl FileStore {
    /// Opens the image `path` for this process alone. A new one is created, and its folder is synced; one that is too short becomes longer. Nothing is
    /// allocated: what was not written reads as zeros.
    ///
    /// # Errors
    ///
    /// In words where the file cannot be created, opened, locked or made so long, or is no regular file. A file that was created for it is gone then.
    pub fn open(path: &Path, bytes: u64) -> Result<FileStore, DriveError> {
        let (file, is_new) = open_or_create(path)?;
        let opened = Self::prepare(path, file, bytes, is_new);
        if opened.is_err() && is_new {
            // It was created a moment ago, is empty, and nothing else was said of it.
            let _ = std::fs::remove_file(path);
        }
        opened
    }

    fn prepare(path: &Path, file: File, bytes: u64, is_new: bool) -> Result<FileStore, DriveError> {
        let refused = |what: &str, error: &dyn std::fmt::Display| {
            DriveError::Unusable(format!("{}: {what}: {error}", path.display()))
        };
        let about = file.metadata().map_err(|e| refused("cannot be looked at", &e))?;
        if !about.is_file() {
            return Err(DriveError::Unusable(format!(
                "{}: is no regular file; name a file for the drive's image",
                path.display()
            )));
        }
        let file = lock(file).map_err(|e| refused("is used already, by this program or another", &e))?;
        if about.len() < bytes {
            file.set_len(bytes)
                .map_err(|e| refused(&format!("cannot become {bytes} bytes long"), &e))?;
        }
        if is_new || about.len() < bytes {
            file.sync_all().map_err(|e| refused("cannot be made durable", &e))?;
        }
        if is_new {
            let folder = folder_of(path);
            sync_folder(&folder).map_err(|e| refused("its folder cannot be made durable", &e))?;
        }
        warn_of_little_room(path, &file, about.blocks().saturating_mul(512), bytes);
        let in_memory = fstatfs(&*file)
            .map(|about| about.filesystem_type() == TMPFS_MAGIC)
            .unwrap_or(false);
        let words = format!(
            "in {}{}",
            path.display(),
            if in_memory { ", which lies in memory" } else { "" }
        );
        Ok(FileStore {
            file,
            words,
            bytes,
            waits: !in_memory,
            dirty: Dirty::new(bytes),
            writes_back: AtomicBool::new(!in_memory),
            reads_at_once: AtomicBool::new(true),
            writes_at_once: AtomicBool::new(true),
            has_holes: AtomicBool::new(true),
            // Not on tmpfs, where even a look for holes takes long.
            has_zeros: AtomicBool::new(!in_memory),
            room: Room::default(),
            hole: AtomicU64::new(FIRST_HOLE),
        })
    }

    fn fd(&self) -> RawFd {
        self.file.as_raw_fd()
    }

    fn move_all(&self, way: Way, offset: u64, places: &[VolatileSlice<'_>], flags: i32) -> io::Result<()> {
        calls::move_all(self.file.as_fd(), way, offset, places, flags)
    }

    /// Moves the bytes without waiting, or says that it would wait.
    fn move_at_once(&self, way: Way, offset: u64, places: &[VolatileSlice<'_>]) -> io::Result<()> {
        let able = if way == Way::Read {
            &self.reads_at_once
        } else {
            &self.writes_at_once
        };
        if !self.waits {
            return self.move_all(way, offset, places, 0);
        }
        if !able.load(Ordering::Relaxed) {
            return Err(io::ErrorKind::WouldBlock.into());
        }
        match self.move_all(way, offset, places, libc::RWF_NOWAIT) {
            Err(error) if error.raw_os_error() == Some(libc::EOPNOTSUPP) => {
                able.store(false, Ordering::Relaxed);
                Err(io::ErrorKind::WouldBlock.into())
            }
            // Whether the file ends here, or its bytes have to be fetched first, the call that may wait finds out.
            Err(error) if error.kind() == io::ErrorKind::UnexpectedEof => Err(io::ErrorKind::WouldBlock.into()),
            moved => moved,
        }
    }

    /// Calls `fallocate` in this way, unless the file system was found not to have it. Returns whether it was done.
    fn allocate(&self, able: &AtomicBool, way: FallocateFlags, offset: u64, bytes: u64) -> io::Result<bool> {
        let (from, length) = (
            i64::try_from(offset).map_err(io::Error::other)?,
            i64::try_from(bytes).map_err(io::Error::other)?,
        );
        while able.load(Ordering::Relaxed) {
            match fallocate(self.fd(), way | FallocateFlags::FALLOC_FL_KEEP_SIZE, from, length) {
                Ok(()) => return Ok(true),
                Err(nix::Error::EINTR) => {}
                Err(nix::Error::EOPNOTSUPP) => able.store(false, Ordering::Relaxed),
                Err(error) => return Err(error.into()),
            }
        }
        Ok(false)
    }

    /// Makes bytes zero that keep their room, which is noted where it is to be given back. False where the file system can't, or has no room for that.
    fn zero_in_place(&self, range: Extent, gives_back: bool) -> io::Result<bool> {
        let is_noted = gives_back && self.has_holes.load(Ordering::Relaxed);
        if is_noted {
            self.room.add(range);
        }
        let way = FallocateFlags::FALLOC_FL_ZERO_RANGE;
        let zeroed = match self.allocate(&self.has_zeros, way, range.from, range.to - range.from) {
            Err(error) if is_full(&error) => Ok(false),
            zeroed => zeroed,
        };
        if is_noted && !matches!(zeroed, Ok(true)) {
            self.room.forget(range);
        }
        zeroed
    }

    /// Gives room back. Where that fails it is kept: the bytes are zero.
    fn punch(&self, hole: &Hole<'_>) {
        let Extent { from, to } = hole.range;
        let way = FallocateFlags::FALLOC_FL_PUNCH_HOLE;
        let _kept = self.allocate(&self.has_holes, way, from, to - from);
    }

    /// Calls `write`, which writes these bytes. Where there is no room for them what zeros have kept is given back, as far as it takes.
    fn write_with_room(&self, range: Extent, mut write: impl FnMut() -> io::Result<()>) -> io::Result<()> {
        loop {
            let writing = self.room.begin_write(range, Wait::Allowed);
            let written = write();
            drop(writing);
            match written {
                Err(error) if is_full(&error) => match self.room.begin_hole(LARGEST_HOLE, Wait::Allowed) {
                    Some(hole) => self.punch(&hole),
                    None => return Err(error),
                },
                written => return written,
            }
        }
    }

    /// Writes without waiting, or says that it would wait.
    fn write_at_once(&self, offset: u64, places: &[VolatileSlice<'_>]) -> io::Result<()> {
        if !self.waits {
            return self.move_at_once(Way::Write, offset, places);
        }
        let Some(_writing) = self.room.begin_write(range_of(offset, places), Wait::Never) else {
            return Err(io::ErrorKind::WouldBlock.into());
        };
        match self.move_at_once(Way::Write, offset, places) {
            // The call that may wait can make room.
            Err(error) if is_full(&error) => Err(io::ErrorKind::WouldBlock.into()),
            written => written,
        }
    }

    /// Writes chunks back, one after another. A sync that finds much to write hands all of it to the device at once, and whatever others need of that
    /// device then waits behind it.
    fn write_back(&self, chunks: &[u64]) -> io::Result<()> {
        for offset in chunks {
            if !self.writes_back.load(Ordering::Relaxed) {
                return Ok(());
            }
            match calls::write_back(self.file.as_fd(), *offset, CHUNK) {
                Ok(()) => {}
                Err(error) if error.kind() == io::ErrorKind::Interrupted => {}
                Err(error)
                    if matches!(
                        error.raw_os_error(),
                        Some(libc::EINVAL | libc::ENOSYS | libc::EOPNOTSUPP)
                    ) =>
                {
                    self.writes_back.store(false, Ordering::Relaxed);
                }
                Err(error) => return Err(error),
            }
        }
        Ok(())
    }

    fn write_zeros(&self, offset: u64, bytes: u64) -> io::Result<()> {
        let mut at = offset;
        let end = offset + bytes;
        while at < end {
            let length = (end - at).min(ZEROS.len() as u64) as usize;
            let zeros = ZEROS.get(..length).unwrap_or_default();
            std::os::unix::fs::FileExt::write_all_at(&*self.file, zeros, at)?;
            at += length as u64;
        }
        Ok(())
    }
}

/// The bytes of the file that stand for all bytes of `places`.
fn range_of(offset: u64, places: &[VolatileSlice<'_>]) -> Extent {
    Extent {
        from: offset,
        to: offset + places.iter().map(|place| place.len() as u64).sum::<u64>(),
    }
}

/// Whether the file system has no room left, for anybody or for this user.
fn is_full(error: &io::Error) -> bool {
    matches!(error.raw_os_error(), Some(libc::ENOSPC | libc::EDQUOT))
}

/// Opens the image, or creates it, and says whether it is new.
fn open_or_create(path: &Path) -> Result<(File, bool), DriveError> {
    let refused =
        |error: io::Error| DriveError::Unusable(format!("{}: cannot be opened or created: {error}", path.display()));
    let open = |new: bool| {
        let mut options = OpenOptions::new();
        options.read(true).write(true).create_new(new).mode(0o600);
        open_without_times(&mut options, path, 0)
    };
    match open(false) {
        Ok(file) => Ok((file, false)),
        Err(error) if error.kind() == io::ErrorKind::NotFound => match open(true) {
            Ok(file) => Ok((file, true)),
            // Somebody was faster.
            Err(error) if error.kind() == io::ErrorKind::AlreadyExists => {
                open(false).map(|file| (file, false)).map_err(refused)
            }
            Err(error) => Err(refused(error)),
        },
        Err(error) => Err(refused(error)),
    }
}

/// Makes a folder's entries durable, where its file system has such a thing.
fn sync_folder(folder: &Path) -> io::Result<()> {
    match File::open(folder)?.sync_all() {
        Err(error) if error.raw_os_error() == Some(libc::EINVAL) => Ok(()),
        synced => synced,
    }
}

fn folder_of(path: &Path) -> PathBuf {
    match path.parent() {
        Some(folder) if !folder.as_os_str().is_empty() => folder.to_path_buf(),
        _ => PathBuf::from("."),
    }
}

/// Says it where the file system has less room than the image may come to need.
fn warn_of_little_room(path: &Path, file: &File, allocated: u64, bytes: u64) {
    let Ok(about) = fstatvfs(file) else { return };
    let free = about.blocks_available().saturating_mul(about.fragment_size());
    let wanted = bytes.saturating_sub(allocated);
    if free < wanted {
        tracing::warn!(
            "{}: may come to need {wanted} bytes more, and {free} are free: guests' writes fail when none are left",
            path.display()
        );
    }
}

impl Store for FileStore {
    fn waits(&self) -> bool {
        self.waits
    }

    fn read(&self, offset: u64, places: &[VolatileSlice<'_>], wait: Wait) -> io::Result<()> {
        match wait {
            Wait::Allowed => self.move_all(Way::Read, offset, places, 0),
            Wait::Never => self.move_at_once(Way::Read, offset, places),
        }
    }

    fn write(&self, offset: u64, places: &[VolatileSlice<'_>], wait: Wait) -> io::Result<()> {
        let range = range_of(offset, places);
        let written = match wait {
            Wait::Allowed => self.write_with_room(range, || self.move_all(Way::Write, offset, places, 0)),
            Wait::Never => self.write_at_once(offset, places),
        };
        self.dirty.mark(range.from, range.to - range.from);
        written
    }

    fn zero(&self, offset: u64, bytes: u64, gives_back: bool) -> io::Result<()> {
        let to = offset.checked_add(bytes).ok_or(io::ErrorKind::InvalidInput)?;
        // It is quicker than a hole, and writes go on meanwhile.
        if self.has_zeros.load(Ordering::Relaxed) && self.zero_in_place(Extent { from: offset, to }, gives_back)? {
            return Ok(());
        }
        if self.allocate(&self.has_holes, FallocateFlags::FALLOC_FL_PUNCH_HOLE, offset, bytes)? {
            return Ok(());
        }
        self.write_zeros(offset, bytes)
    }

    fn next_data(&self, offset: u64, end: u64) -> u64 {
        let Ok(from) = i64::try_from(offset) else { return offset };
        match lseek(self.fd(), from, Whence::SeekData) {
            Ok(at) => u64::try_from(at).unwrap_or(offset).clamp(offset, end),
            Err(nix::Error::ENXIO) => end,
            Err(_) => offset,
        }
    }

    fn next_hole(&self, offset: u64, end: u64) -> u64 {
        let Ok(from) = i64::try_from(offset) else { return end };
        let at = lseek(self.fd(), from, Whence::SeekHole).ok();
        at.and_then(|at| u64::try_from(at).ok())
            .filter(|at| *at > offset)
            .map_or(end, |at| at.min(end))
    }

    fn keeps_room(&self) -> bool {
        !self.room.is_empty()
    }

    fn give_back(&self) -> Option<Duration> {
        let most = self.hole.load(Ordering::Relaxed);
        let hole = self.room.begin_hole(most, Wait::Never)?;
        let begin = Instant::now();
        self.punch(&hole);
        let taken = begin.elapsed();
        let most = if taken > HOLE_TIME { most / 2 } else { 2 * most };
        self.hole
            .store(most.clamp(SMALLEST_HOLE, LARGEST_HOLE), Ordering::Relaxed);
        Some(taken)
    }

    fn give_all_back(&self, most: Duration) {
        let begin = Instant::now();
        while begin.elapsed() < most {
            let Some(hole) = self.room.begin_hole(LARGEST_HOLE, Wait::Allowed) else {
                return;
            };
            self.punch(&hole);
        }
    }

    fn sync(&self) -> io::Result<()> {
        let chunks = self.dirty.take();
        if chunks.len() > FEW_CHUNKS {
            self.write_back(&chunks)?;
        }
        loop {
            match self.file.sync_data() {
                Err(error) if error.kind() == io::ErrorKind::Interrupted => {}
                synced => return synced,
            }
        }
    }

    fn write_durably(&self, offset: u64, places: &[VolatileSlice<'_>]) -> io::Result<()> {
        let _writing = self.room.begin_write(range_of(offset, places), Wait::Allowed);
        self.move_all(Way::Write, offset, places, libc::RWF_DSYNC)
    }

    fn check(&self) -> Result<(), String> {
        match self.file.metadata() {
            Ok(about) if about.len() < self.bytes => Err(format!(
                "the image was cut off: it has {} bytes of the drive's {}",
                about.len(),
                self.bytes
            )),
            Ok(_) => Ok(()),
            Err(error) => Err(format!("the image cannot be looked at: {error}")),
        }
    }

    fn describe(&self) -> &str {
        &self.words
    }
}

#[cfg(test)]
mod tests;
