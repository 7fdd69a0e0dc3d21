#![allow(unsafe_code)]
//! System calls on files that the standard library does not have: bytes go between a file and many places in memory that others write, and a part of a
//! file is written back.

use std::io;
use std::os::fd::{AsRawFd, BorrowedFd};

use vm_memory::VolatileSlice;

use crate::drive::prp::FEW_PLACES;

/// Places that one system call takes: more than a command of 128 KiB has.
const MOST_PLACES: usize = 40;

/// Which way bytes go.
#[derive(Clone, Copy, Debug, PartialEq, Eq)]
pub enum Way {
    /// From the file into memory.
    Read,
    /// From memory into the file.
    Write,
}

/// Moves all bytes of `places`, in order, from or to the file's byte `offset` and those after it, in as many calls as it takes. `flags` are those of
/// `preadv2` and `pwritev2`.
///
/// # Errors
///
/// What the system says; [`io::ErrorKind::UnexpectedEof`] where the file ends before, [`io::ErrorKind::WriteZero`] where a write makes no progress. Some
/// bytes may have been moved then.
pub fn move_all(
    file: BorrowedFd<'_>,
    way: Way,
    offset: u64,
    places: &[VolatileSlice<'_>],
    flags: i32,
) -> io::Result<()> {
    in_calls(way, offset, places, |at, group, skip| {
        if group.len() <= FEW_PLACES {
            move_some::<FEW_PLACES>(file, way, at, group, skip, flags)
        } else {
            move_some::<MOST_PLACES>(file, way, at, group, skip, flags)
        }
    })
}

/// Calls `some` with an offset in the file, places, and how many of their bytes are moved already, until all are.
fn in_calls<'a>(
    way: Way,
    offset: u64,
    places: &[VolatileSlice<'a>],
    mut some: impl FnMut(u64, &[VolatileSlice<'a>], usize) -> io::Result<usize>,
) -> io::Result<()> {
    let mut at = offset;
    for group in places.chunks(MOST_PLACES) {
        let total = group.iter().map(|place| place.len()).sum::<usize>();
        let mut done = 0;
        while done < total {
            match some(at, group, done) {
                Ok(0) if way == Way::Read => return Err(io::ErrorKind::UnexpectedEof.into()),
                Ok(0) => return Err(io::ErrorKind::WriteZero.into()),
                Ok(moved) => {
                    done += moved;
                    at += moved as u64;
                }
                Err(error) if error.kind() == io::ErrorKind::Interrupted => {}
                Err(error) => return Err(error),
            }
        }
    }
    Ok(())
}

/// One system call: moves bytes between the file from `at` on and `places`, `N` at most, without the first `skip` bytes of these. Returns how many were moved.
fn move_some<const N: usize>(
    file: BorrowedFd<'_>,
    way: Way,
    at: u64,
    places: &[VolatileSlice<'_>],
    skip: usize,
    flags: i32,
) -> io::Result<usize> {
    let at = libc::off_t::try_from(at).map_err(io::Error::other)?;
    let mut vector = [libc::iovec {
        iov_base: std::ptr::null_mut(),
        iov_len: 0,
    }; N];
    let mut count = 0;
    let mut skip = skip;
    for place in places {
        if skip >= place.len() {
            skip -= place.len();
            continue;
        }
        let Some(slot) = vector.get_mut(count) else { break };
        let rest = place.offset(skip).map_err(io::Error::other)?;
        *slot = libc::iovec {
            iov_base: rest.ptr_guard_mut().as_ptr().cast(),
            iov_len: rest.len(),
        };
        skip = 0;
        count += 1;
    }
    let (file, vector, count) = (file.as_raw_fd(), vector.as_ptr(), count as libc::c_int);
    // SAFETY: the first `count` elements of the vector are pointers and lengths of volatile slices, which are valid for reads and writes as long as
    // `places` is borrowed, and to which no reference exists: others write them at any time. The kernel accesses these bytes alone, and gives EFAULT where
    // a page has lost its file. The kernel reads the vector only.
    let moved = unsafe {
        match way {
            Way::Read => libc::preadv2(file, vector, count, at, flags),
            Way::Write => libc::pwritev2(file, vector, count, at, flags),
        }
    };
    usize::try_from(moved).map_err(|_| io::Error::last_os_error())
}

/// Writes a part of a file back to its device, and waits for that. It makes nothing durable: neither what the file system knows of the blocks, nor the
/// device's cache.
///
/// # Errors
///
/// What the system says: as for `fdatasync`, an error of any write to the file may be said here, and is not said again.
pub fn write_back(file: BorrowedFd<'_>, offset: u64, bytes: u64) -> io::Result<()> {
    let (from, length) = (
        i64::try_from(offset).map_err(io::Error::other)?,
        i64::try_from(bytes).map_err(io::Error::other)?,
    );
    let all = libc::SYNC_FILE_RANGE_WAIT_BEFORE | libc::SYNC_FILE_RANGE_WRITE | libc::SYNC_FILE_RANGE_WAIT_AFTER;
    // SAFETY: the call takes numbers alone, and the descriptor is open as long as `file` is borrowed.
    let status = unsafe { libc::sync_file_range(file.as_raw_fd(), from, length, all) };
    if status == 0 {
        Ok(())
    } else {
        Err(io::Error::last_os_error())
    }
}

#[cfg(test)]
mod tests {
    use super::*;

    /// Two places of 300 and 212 bytes, and what the calls said, one after another; what they were given.
    fn scripted(way: Way, answers: Vec<io::Result<usize>>) -> (io::Result<()>, Vec<(u64, usize)>) {
        let (mut first, mut second) = ([0u8; 300], [0u8; 212]);
        let places = [
            VolatileSlice::from(&mut first[..]),
            VolatileSlice::from(&mut second[..]),
        ];
        let mut answers = answers.into_iter();
        let mut asked = Vec::new();
        let moved = in_calls(way, 1000, &places, |at, group, skip| {
            assert_eq!(group.len(), 2);
            asked.push((at, skip));
            answers.next().expect("one more answer")
        });
        assert!(answers.next().is_none());
        (moved, asked)
    }

    #[test]
    fn short_and_interrupted_calls_go_on() {
        let interrupted = || Err(io::ErrorKind::Interrupted.into());
        let (moved, asked) = scripted(Way::Write, vec![Ok(1), interrupted(), Ok(299), interrupted(), Ok(212)]);
        assert!(moved.is_ok());
        assert_eq!(asked, [(1000, 0), (1001, 1), (1001, 1), (1300, 300), (1300, 300)]);
    }

    #[test]
    fn errors_and_ends_are_told_apart() {
        let kind = |way, answers| scripted(way, answers).0.expect_err("an error").kind();
        assert_eq!(kind(Way::Read, vec![Ok(511), Ok(0)]), io::ErrorKind::UnexpectedEof);
        assert_eq!(kind(Way::Write, vec![Ok(0)]), io::ErrorKind::WriteZero);
        assert_eq!(
            kind(Way::Write, vec![Ok(5), Err(io::ErrorKind::StorageFull.into())]),
            io::ErrorKind::StorageFull
        );
    }

    #[test]
    fn bytes_go_where_they_belong() {
        use std::os::fd::AsFd;
        let file =
            nix::sys::memfd::memfd_create(c"bytes", nix::sys::memfd::MemFdCreateFlag::MFD_CLOEXEC).expect("a file");
        let mut from = (0..100).map(|i| vec![i as u8; 100]).collect::<Vec<_>>();
        let places = from
            .iter_mut()
            .map(|bytes| VolatileSlice::from(&mut bytes[..]))
            .collect::<Vec<_>>();
        move_all(file.as_fd(), Way::Write, 50, &places, 0).expect("written");
        let mut to = vec![0xee; 10_000];
        move_all(file.as_fd(), Way::Read, 50, &[VolatileSlice::from(&mut to[..])], 0).expect("read");
        assert!(to.chunks(100).enumerate().all(|(i, bytes)| bytes == vec![i as u8; 100]));
        // 5 bytes too far.
        let error = move_all(file.as_fd(), Way::Read, 55, &[VolatileSlice::from(&mut to[..])], 0).expect_err("the end");
        assert_eq!(error.kind(), io::ErrorKind::UnexpectedEof);
        assert!(move_all(
            file.as_fd(),
            Way::Read,
            u64::MAX,
            &[VolatileSlice::from(&mut to[..])],
            0
        )
        .is_err());
    }

    /// Memory whose file was cut off is an error of the call, and no signal.
    #[test]
    fn memory_that_is_gone_is_an_error() {
        use std::fs::File;
        use std::os::fd::AsFd;
        use vm_memory::{FileOffset, VolatileMemory};
        let memfd = |name| {
            File::from(
                nix::sys::memfd::memfd_create(name, nix::sys::memfd::MemFdCreateFlag::MFD_CLOEXEC).expect("a file"),
            )
        };
        let (image, guest) = (memfd(c"image"), memfd(c"guest"));
        image.set_len(8192).expect("a length");
        guest.set_len(8192).expect("a length");
        let region: vm_memory::mmap::MmapRegion =
            vm_memory::mmap::MmapRegion::from_file(FileOffset::new(guest.try_clone().expect("a file"), 0), 8192)
                .expect("memory");
        guest.set_len(4096).expect("a length");
        let places = [region.get_slice(4096, 512).expect("a slice")];
        for way in [Way::Read, Way::Write] {
            let error = move_all(image.as_fd(), way, 0, &places, 0).expect_err("no memory");
            assert_eq!(error.raw_os_error(), Some(libc::EFAULT));
        }
    }
}
