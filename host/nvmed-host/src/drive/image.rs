#![forbid(unsafe_code)]
//! How a file or a device that has a drive's bytes is opened and locked.

use std::fs::{File, FileType, OpenOptions};
use std::io;
use std::os::fd::AsRawFd;
use std::os::unix::fs::{FileTypeExt, OpenOptionsExt};
use std::path::Path;
use std::time::{Duration, Instant};

use nix::fcntl::{fcntl, FcntlArg, Flock, FlockArg};

/// How long a file that somebody has is waited for. What a program had under way that was killed has it for a moment longer than that program lives.
const LOCK_WAIT: Duration = Duration::from_secs(2);
/// Between two tries.
const LOCK_PAUSE: Duration = Duration::from_millis(20);
/// What to do without direct I/O.
pub const INSTEAD: &str = "'drive ram SIZE FILE' goes without it";

/// Opens a file with these options and flags of `open`. Where it is a pipe or a terminal that is not waited for.
///
/// # Errors
///
/// Those of `open`.
pub fn open_without_times(options: &mut OpenOptions, path: &Path, flags: i32) -> io::Result<File> {
    let mut open = |more| {
        options
            .custom_flags(libc::O_NONBLOCK | libc::O_NOCTTY | flags | more)
            .open(path)
    };
    // A Read that notes its time in the file may wait for the file system's log. A file of another owner can't be opened without that.
    match open(libc::O_NOATIME) {
        Err(error) if error.raw_os_error() == Some(libc::EPERM) => open(0),
        opened => opened,
    }
}

/// Locks the file against others that lock it by `flock`, and by `fcntl` as QEMU does.
///
/// # Errors
///
/// Somebody has locked it, or the file system has no locks.
pub fn lock(file: File) -> io::Result<Flock<File>> {
    let file = Flock::lock(file, FlockArg::LockExclusiveNonblock).map_err(|(_, error)| io::Error::from(error))?;
    let whole = libc::flock {
        l_type: libc::F_WRLCK as libc::c_short,
        l_whence: libc::SEEK_SET as libc::c_short,
        l_start: 0,
        l_len: 0,
        l_pid: 0,
    };
    fcntl(file.as_raw_fd(), FcntlArg::F_OFD_SETLK(&whole))?;
    Ok(file)
}

/// Opens a file or a block device, of which this is the kind, for direct I/O and for this program alone. Where somebody has it that is tried for a moment.
///
/// # Errors
///
/// In words that follow its path.
pub fn open_alone(path: &Path, kind: FileType) -> Result<Flock<File>, String> {
    let end = Instant::now() + LOCK_WAIT;
    loop {
        let error = match open(path, kind).and_then(lock) {
            Ok(file) => return Ok(file),
            Err(error) => error,
        };
        let what = match error.raw_os_error() {
            Some(libc::EAGAIN | libc::EBUSY) if Instant::now() < end => {
                std::thread::sleep(LOCK_PAUSE);
                continue;
            }
            Some(libc::EAGAIN) => "is used already, by this program or another",
            Some(libc::EBUSY) => "is used already, as a file system that is mounted or by another program",
            Some(libc::EINVAL) => "has no direct I/O; 'drive ram SIZE FILE' goes without it",
            _ => "cannot be opened",
        };
        return Err(format!("{what}: {error}"));
    }
}

/// Opens it once. A block device that the kernel uses itself, or that somebody has for himself, is refused.
fn open(path: &Path, kind: FileType) -> io::Result<File> {
    let alone = if kind.is_block_device() { libc::O_EXCL } else { 0 };
    let mut options = OpenOptions::new();
    options.read(true).write(true);
    open_without_times(&mut options, path, libc::O_DIRECT | alone)
}
