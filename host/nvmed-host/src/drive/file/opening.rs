#![forbid(unsafe_code)]
//! What is looked at before a file or a block device becomes a drive.

use std::fs::{self, File, FileType};
use std::io::{Seek, SeekFrom};
use std::os::fd::{AsFd, AsRawFd};
use std::os::unix::fs::{FileTypeExt, MetadataExt};
use std::path::Path;

use nix::fcntl::{fcntl, FcntlArg, Flock, OFlag};

use super::ring::SECTOR;
use crate::drive::entry::BLOCK_BYTES;
use crate::drive::image::{open_alone, INSTEAD};
use crate::drive::prp::PAGE_BYTES;
use crate::drive::DriveError;
use crate::memory::status;

/// The bit of `statx` by which a file says what direct I/O needs.
const STATX_DIOALIGN: u32 = 0x2000;

/// What the drive knows of it.
#[derive(Debug)]
pub struct About {
    /// What it is, and its path.
    pub words: String,
    /// Its blocks of 512 bytes: at least 1.
    pub blocks: u64,
    /// The alignment of buffers in memory: a power of two up to 4,096.
    pub alignment: u64,
    /// Whether it is a file that has room for all of its bytes, which it is to keep.
    pub keeps_room: bool,
}

/// A file or a block device that can be a drive.
#[derive(Debug)]
pub struct Opened {
    /// The file, locked, for direct I/O.
    pub file: Flock<File>,
    /// The rest.
    pub about: About,
}

impl Opened {
    /// Opens `path`, and looks whether it can be a drive of at least `needed` blocks.
    ///
    /// # Errors
    ///
    /// In words, with what to do where that is known.
    pub fn at(path: &Path, needed: u64) -> Result<Opened, DriveError> {
        let refused = |what: &str, error: &dyn std::fmt::Display| unusable(path, &format!("{what}: {error}"));
        let before = fs::metadata(path)
            .map_err(|e| refused("cannot be looked at", &e))?
            .file_type();
        let kind = kind_of(before).ok_or_else(|| unusable(path, "is neither a regular file nor a block device"))?;
        let mut file = open_alone(path, before).map_err(|what| unusable(path, &what))?;
        let about = file.metadata().map_err(|e| refused("cannot be looked at", &e))?;
        if about.file_type() != before {
            return Err(unusable(path, "was replaced while it was opened"));
        }
        // Operations on a descriptor that may not wait would fail where they have to.
        fcntl(file.as_raw_fd(), FcntlArg::F_SETFL(OFlag::O_DIRECT | noatime(&file)))
            .map_err(|e| refused("cannot be read and written directly", &e))?;
        let bytes = file.seek(SeekFrom::End(0)).map_err(|e| refused("has no length", &e))?;
        let blocks = bytes / BLOCK_BYTES;
        if blocks < needed.max(1) {
            return Err(unusable(
                path,
                &format!("has {blocks} blocks of {BLOCK_BYTES} bytes, and the extents need {needed}"),
            ));
        }
        let alignment = alignment_of(path, &file)?;
        let words = format!("{kind} {}", path.display());
        Ok(Opened {
            file,
            about: About {
                words,
                blocks,
                alignment,
                keeps_room: before.is_file() && about.blocks().saturating_mul(512) >= bytes,
            },
        })
    }
}

fn unusable(path: &Path, what: &str) -> DriveError {
    DriveError::Unusable(format!("{}: {what}", path.display()))
}

fn kind_of(kind: FileType) -> Option<&'static str> {
    if kind.is_file() {
        Some("the file")
    } else if kind.is_block_device() {
        Some("the block device")
    } else {
        None
    }
}

/// The flag `O_NOATIME` where the file was opened with it.
fn noatime(file: &File) -> OFlag {
    match fcntl(file.as_raw_fd(), FcntlArg::F_GETFL) {
        Ok(flags) => OFlag::from_bits_truncate(flags) & OFlag::O_NOATIME,
        Err(_) => OFlag::empty(),
    }
}

/// The alignment of buffers in memory.
fn alignment_of(path: &Path, file: &File) -> Result<u64, DriveError> {
    let about = status(file.as_fd(), STATX_DIOALIGN)
        .map_err(|error| unusable(path, &format!("does not say what direct I/O needs: {error}")))?;
    let said = (about.stx_mask & STATX_DIOALIGN != 0).then_some((about.stx_dio_mem_align, about.stx_dio_offset_align));
    fitting(said).map_err(|what| unusable(path, &what))
}

/// The alignment in memory, of what the file says of direct I/O: this alignment, and the bytes of which offsets and lengths are multiples.
fn fitting(said: Option<(u32, u32)>) -> Result<u64, String> {
    match said {
        None => Err(format!(
            "its file system, or a kernel before 6.1, does not say what direct I/O needs; {INSTEAD}"
        )),
        Some((0, _) | (_, 0)) => Err(format!("has no direct I/O; {INSTEAD}")),
        Some((_, sector)) if SECTOR % sector != 0 => Err(format!(
            "has sectors of {sector} bytes, of which guests' blocks of {SECTOR} would be parts; {INSTEAD}"
        )),
        Some((memory, _)) if !memory.is_power_of_two() || u64::from(memory) > PAGE_BYTES => Err(format!(
            "wants buffers aligned to {memory} bytes, more than a page; {INSTEAD}"
        )),
        Some((memory, _)) => Ok(u64::from(memory)),
    }
}

#[cfg(test)]
mod tests {
    use super::*;

    #[test]
    fn what_does_not_fit_is_refused_with_a_reason() {
        for (memory, sector) in [(4, 512), (512, 512), (4096, 512), (1, 1), (512, 256)] {
            assert_eq!(fitting(Some((memory, sector))), Ok(u64::from(memory)));
        }
        for (said, words) in [
            (None, "does not say what direct I/O needs"),
            (Some((0, 0)), "has no direct I/O"),
            (Some((512, 0)), "has no direct I/O"),
            (
                Some((4096, 4096)),
                "has sectors of 4096 bytes, of which guests' blocks of 512 would be parts",
            ),
            (Some((512, 520)), "has sectors of 520 bytes"),
            (Some((8192, 512)), "wants buffers aligned to 8192 bytes"),
            (Some((96, 512)), "wants buffers aligned to 96 bytes"),
        ] {
            let refused = fitting(said).expect_err("it does not fit");
            assert!(
                refused.contains(words) && refused.contains("'drive ram SIZE FILE'"),
                "{refused}"
            );
        }
    }
}
