//! The file that is a guest's memory.

use std::fs::OpenOptions;
use std::io;
use std::mem::MaybeUninit;
use std::os::fd::{AsFd, AsRawFd, BorrowedFd, OwnedFd};
use std::os::unix::fs::{MetadataExt, OpenOptionsExt};
use std::path::{Path, PathBuf};
use std::sync::{Mutex, PoisonError};

use nix::errno::Errno;
use nix::fcntl::{fcntl, FcntlArg, Flock, FlockArg, OFlag, SealFlag};
use nix::sys::memfd::{memfd_create, MemFdCreateFlag};
use nix::unistd::ftruncate;

use super::PAGE;

/// Which file a descriptor is of: two descriptors with the same identity are of one file.
#[derive(Clone, Copy, Debug, PartialEq, Eq, Hash)]
pub struct Identity {
    /// The device of its file system.
    pub device: u64,
    /// Its inode there.
    pub inode: u64,
}

impl Identity {
    /// The identity of a descriptor's file. What the kernel knows of the file counts, and no file system is asked: so nobody can make this wait.
    ///
    /// Errors: those of `statx`.
    pub fn of(file: BorrowedFd<'_>) -> io::Result<Self> {
        let about = status(file, WANTED)?;
        Ok(Self {
            device: libc::makedev(about.stx_dev_major, about.stx_dev_minor),
            inode: about.stx_ino,
        })
    }
}

/// What is asked of a file here.
const WANTED: u32 = libc::STATX_INO | libc::STATX_SIZE | libc::STATX_TYPE;

/// What the kernel knows of a descriptor's file, of the fields that the bits `STATX_..` of `wanted` name; those that it knew are in `stx_mask`.
///
/// Errors: those of `statx`.
pub(crate) fn status(file: BorrowedFd<'_>, wanted: u32) -> io::Result<libc::statx> {
    let mut about = MaybeUninit::<libc::statx>::zeroed();
    let flags = libc::AT_EMPTY_PATH | libc::AT_STATX_DONT_SYNC;
    // SAFETY: the path is an empty text that ends with a NUL, and `about` has room for the answer and lives through the call.
    let result = unsafe { libc::statx(file.as_raw_fd(), c"".as_ptr(), flags, wanted, about.as_mut_ptr()) };
    if result != 0 {
        return Err(io::Error::last_os_error());
    }
    // SAFETY: it was zeroed, which is a value of this struct of integers, and filled by the kernel.
    Ok(unsafe { about.assume_init() })
}

/// Whether a file that comes from a client is taken although it can be cut off (`trust` of the configuration).
#[derive(Clone, Copy, Debug, Default, PartialEq, Eq)]
pub enum Trust {
    /// Only a file that can be sealed, or is sealed, against being made shorter.
    #[default]
    Sealed,
    /// Any regular file. Where it is cut off the guest is given up at the next access, and whoever can write it can do so.
    Any,
}

/// Why a file is no memory of a guest. Each is one line that says what to do, where something can be done.
#[derive(Debug, thiserror::Error)]
pub enum FileError {
    /// The kernel makes no file of memory.
    #[error("a file of memory of {bytes} bytes cannot be made: {error}")]
    Make {
        /// Its length.
        bytes: u64,
        /// What the kernel said.
        error: io::Error,
    },
    /// A named file cannot be opened or made.
    #[error("{path}: cannot open: {error}")]
    Open {
        /// Its path.
        path: PathBuf,
        /// What the kernel said.
        error: io::Error,
    },
    /// It is a folder, a device, a pipe or the like.
    #[error("{name}: is no regular file")]
    NotRegular {
        /// Its path, or what it is.
        name: String,
    },
    /// Another guest, another program or the drive has it, by this name or another.
    #[error("{name}: is used already, by this name or another")]
    Used {
        /// Its path, or what it is.
        name: String,
    },
    /// It has another length than the guest's memory.
    #[error("{path}: has {has} bytes, not {wanted}: remove it, or say 'memory {has}'")]
    Length {
        /// Its path.
        path: PathBuf,
        /// The file's length.
        has: u64,
        /// The guest's memory.
        wanted: u64,
    },
    /// An empty file cannot be made as long as the guest's memory.
    #[error("{path}: cannot have {bytes} bytes: {error}")]
    Grow {
        /// Its path.
        path: PathBuf,
        /// The guest's memory.
        bytes: u64,
        /// What the kernel said.
        error: io::Error,
    },
    /// A client's file ends before the guest's memory does.
    #[error("the machine's memory is a file of {has} bytes, and the guest has {wanted}: give the machine as much memory as the line 'guest' says")]
    Short {
        /// The file's length.
        has: u64,
        /// The guest's memory.
        wanted: u64,
    },
    /// A client's descriptor can't be written, or the file is sealed against it.
    #[error("the machine's memory cannot be written by others: it needs a backend with share=on")]
    ReadOnly,
    /// A client's file cannot be sealed, and is not trusted.
    #[error(
        "the machine's memory cannot be sealed against being cut off ({0}): give it a 'memory-backend-memfd', or say 'trust' of the guest"
    )]
    Unsealed(Errno),
    /// The kernel says nothing of a descriptor.
    #[error("a file of memory cannot be looked at: {0}")]
    Look(io::Error),
}

/// Files that are a guest's memory, or the drive's, in this process.
static CLAIMED: Mutex<Vec<Identity>> = Mutex::new(Vec::new());

/// A file that is one's own in this process until this is dropped, by whichever names and descriptors others come.
#[derive(Debug)]
struct Claim(Identity);

impl Claim {
    fn new(file: Identity) -> Option<Self> {
        let mut claimed = CLAIMED.lock().unwrap_or_else(PoisonError::into_inner);
        if claimed.contains(&file) {
            return None;
        }
        claimed.push(file);
        Some(Self(file))
    }
}

impl Drop for Claim {
    fn drop(&mut self) {
        let mut claimed = CLAIMED.lock().unwrap_or_else(PoisonError::into_inner);
        claimed.retain(|file| *file != self.0);
    }
}

/// A file that is a guest's memory, or the drive's: made here, named, or a client's. As long as this value is there no second one is of the same file,
/// and where the file could be locked no other program's.
#[derive(Debug)]
pub struct GuestFile {
    file: Held,
    bytes: u64,
    claim: Claim,
}

#[derive(Debug)]
enum Held {
    Plain(OwnedFd),
    Locked(Flock<OwnedFd>),
}

impl GuestFile {
    /// Makes a file of `bytes` zeros without a name, whose length nobody can change. It takes memory once it is written.
    ///
    /// Errors: [`FileError::Make`].
    pub fn make(bytes: u64) -> Result<Self, FileError> {
        let failed = |error: io::Error| FileError::Make { bytes, error };
        let flags = MemFdCreateFlag::MFD_CLOEXEC | MemFdCreateFlag::MFD_ALLOW_SEALING;
        let fd = memfd_create(c"nvmed", flags).map_err(|e| failed(e.into()))?;
        let length = i64::try_from(bytes).map_err(|_| failed(Errno::EFBIG.into()))?;
        ftruncate(&fd, length).map_err(|e| failed(e.into()))?;
        let seals = SealFlag::F_SEAL_SHRINK | SealFlag::F_SEAL_GROW | SealFlag::F_SEAL_SEAL;
        fcntl(fd.as_raw_fd(), FcntlArg::F_ADD_SEALS(seals)).map_err(|e| failed(e.into()))?;
        let claim = Identity::of(fd.as_fd()).map_err(failed)?;
        let claim = Claim::new(claim).ok_or_else(|| failed(Errno::EEXIST.into()))?;
        Ok(Self {
            file: Held::Plain(fd),
            bytes,
            claim,
        })
    }

    /// Opens a named file of `bytes` bytes and locks it. It is made where there is none, and made longer where it is empty: no page is allocated. Its
    /// name is followed through folders' links, but the file itself is no link.
    ///
    /// Errors: [`FileError::Open`], [`FileError::NotRegular`], [`FileError::Used`], [`FileError::Length`], [`FileError::Grow`], [`FileError::Look`].
    /// A file that is refused is as it was; where it was not there an empty one may be left.
    pub fn named(path: &Path, bytes: u64) -> Result<Self, FileError> {
        let name = path.display().to_string();
        let file = OpenOptions::new()
            .read(true)
            .write(true)
            .create(true)
            .truncate(false)
            .mode(0o600)
            .custom_flags(OFlag::O_NONBLOCK.bits() | OFlag::O_NOFOLLOW.bits())
            .open(path)
            .map_err(|error| FileError::Open {
                path: path.into(),
                error,
            })?;
        let about = file.metadata().map_err(FileError::Look)?;
        if !about.is_file() {
            return Err(FileError::NotRegular { name });
        }
        let identity = Identity {
            device: about.dev(),
            inode: about.ino(),
        };
        let claim = Claim::new(identity).ok_or_else(|| FileError::Used { name: name.clone() })?;
        let file =
            Flock::lock(OwnedFd::from(file), FlockArg::LockExclusiveNonblock).map_err(|_| FileError::Used { name })?;
        // the length counts once the lock is held
        let has = status(file.as_fd(), WANTED).map_err(FileError::Look)?.stx_size;
        if has == 0 {
            grow(file.as_fd(), bytes).map_err(|error| FileError::Grow {
                path: path.into(),
                bytes,
                error,
            })?;
        } else if has != bytes {
            return Err(FileError::Length {
                path: path.into(),
                has,
                wanted: bytes,
            });
        }
        Ok(Self {
            file: Held::Locked(file),
            bytes,
            claim,
        })
    }

    /// Opens a named file that has to be there, whatever its length: such as the one that another program has made for its own memory.
    ///
    /// Errors: as of [`GuestFile::named`]; [`FileError::Length`] where it is empty.
    pub fn existing(path: &Path) -> Result<Self, FileError> {
        let about = std::fs::symlink_metadata(path).map_err(|error| FileError::Open {
            path: path.into(),
            error,
        })?;
        if !about.is_file() {
            return Err(FileError::NotRegular {
                name: path.display().to_string(),
            });
        }
        if about.len() == 0 {
            return Err(FileError::Length {
                path: path.into(),
                has: 0,
                wanted: PAGE,
            });
        }
        Self::named(path, about.len())
    }

    /// Takes the file of a client's descriptor for `bytes` bytes of memory, and seals it against being made shorter. The descriptor has to be for reading
    /// and writing.
    ///
    /// Errors: [`FileError::ReadOnly`], [`FileError::Unsealed`], [`FileError::NotRegular`], [`FileError::Short`], [`FileError::Used`],
    /// [`FileError::Look`]. The descriptor is closed then. Of a file that is neither memory nor trusted nothing is asked.
    pub fn adopt(file: OwnedFd, bytes: u64, trust: Trust) -> Result<Self, FileError> {
        let name = || String::from("the machine's memory");
        let mode = fcntl(file.as_raw_fd(), FcntlArg::F_GETFL).map_err(|e| FileError::Look(e.into()))?;
        if mode & libc::O_ACCMODE != libc::O_RDWR {
            return Err(FileError::ReadOnly);
        }
        match seal(file.as_fd()) {
            Ok(seals) if seals.intersects(SealFlag::F_SEAL_WRITE | SealFlag::F_SEAL_FUTURE_WRITE) => {
                return Err(FileError::ReadOnly);
            }
            Err(error) if trust == Trust::Sealed => return Err(FileError::Unsealed(error)),
            _ => {}
        }
        let about = status(file.as_fd(), WANTED).map_err(FileError::Look)?;
        if u32::from(about.stx_mode) & libc::S_IFMT != libc::S_IFREG {
            return Err(FileError::NotRegular { name: name() });
        }
        if about.stx_size < bytes {
            return Err(FileError::Short {
                has: about.stx_size,
                wanted: bytes,
            });
        }
        let identity = Identity::of(file.as_fd()).map_err(FileError::Look)?;
        let claim = Claim::new(identity).ok_or_else(|| FileError::Used { name: name() })?;
        let file = lock_anew(file).map_err(|_| FileError::Used { name: name() })?;
        Ok(Self { file, bytes, claim })
    }

    /// Which file it is.
    pub fn identity(&self) -> Identity {
        self.claim.0
    }

    /// Bytes of the guest's memory: the file has as many, or more.
    pub fn bytes(&self) -> u64 {
        self.bytes
    }
}

impl AsFd for GuestFile {
    fn as_fd(&self) -> BorrowedFd<'_> {
        match &self.file {
            Held::Plain(fd) => fd.as_fd(),
            Held::Locked(fd) => fd.as_fd(),
        }
    }
}

fn grow(file: BorrowedFd<'_>, bytes: u64) -> io::Result<()> {
    let length = i64::try_from(bytes).map_err(|_| io::Error::from(Errno::EFBIG))?;
    ftruncate(file, length).map_err(io::Error::from)
}

/// Seals a file against being made shorter, unless it is already. Its seals then.
fn seal(file: BorrowedFd<'_>) -> Result<SealFlag, Errno> {
    let seals = |fd: BorrowedFd<'_>| fcntl(fd.as_raw_fd(), FcntlArg::F_GET_SEALS).map(SealFlag::from_bits_truncate);
    if !seals(file)?.contains(SealFlag::F_SEAL_SHRINK) {
        fcntl(file.as_raw_fd(), FcntlArg::F_ADD_SEALS(SealFlag::F_SEAL_SHRINK))?;
    }
    seals(file)
}

/// Locks a client's file. A lock belongs to whoever has the same open file, and the client has: so the file is opened anew where it can be (it needs
/// /proc, and the right to open the file). `Err` where another program has the lock.
fn lock_anew(file: OwnedFd) -> Result<Held, Errno> {
    let path = format!("/proc/self/fd/{}", file.as_raw_fd());
    let opened = OpenOptions::new()
        .read(true)
        .write(true)
        .custom_flags(OFlag::O_NONBLOCK.bits())
        .open(path);
    match opened {
        Ok(own) => match Flock::lock(OwnedFd::from(own), FlockArg::LockExclusiveNonblock) {
            Ok(locked) => Ok(Held::Locked(locked)),
            Err((_, Errno::EWOULDBLOCK)) => Err(Errno::EWOULDBLOCK),
            Err(_) => Ok(Held::Plain(file)),
        },
        Err(_) => Ok(Held::Plain(file)),
    }
}

#[cfg(test)]
mod tests;
