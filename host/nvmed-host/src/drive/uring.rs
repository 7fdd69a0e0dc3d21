#![allow(unsafe_code)]
//! The kernel's io_uring. What an operation reads and writes is kept here from the moment at which the kernel may know of it until it has ended.

use std::io;
use std::os::fd::{AsRawFd, BorrowedFd};
use std::sync::Arc;
use std::time::{Duration, Instant};

use io_uring::{cqueue, squeue, IoUring};
use nix::poll::{poll, PollFd, PollFlags, PollTimeout};
use vm_memory::VolatileSlice;

use super::prp::SharedMemory;
use super::DriveError;
use crate::memory::Window;

/// Memory whose addresses can be given to the kernel.
///
/// # Safety
///
/// What [`SharedMemory::slice`] has once given stays memory of this process at that address, to which nobody makes a reference, until the value is dropped;
/// it may be replaced by other such memory.
pub unsafe trait Lasting: SharedMemory + 'static {}

// SAFETY: a piece of the window keeps its place until the window is dropped, and its bytes are given out as volatile slices alone.
unsafe impl Lasting for Window {}

/// Operations that are under way at most: as many as 8 lanes have tags.
const MOST: u32 = 512;
/// How long a ring that is dropped waits for what is under way.
const DROP_WAIT: Duration = Duration::from_secs(10);
/// Bytes of zeros that one operation writes at most.
pub const MOST_ZEROS: u64 = 65536;

/// Zeros that are written.
#[repr(align(4096))]
struct Zeros([u8; MOST_ZEROS as usize]);
static ZEROS: Zeros = Zeros([0; MOST_ZEROS as usize]);

/// What an operation names of memory.
#[derive(Default)]
pub struct Vector(Vec<libc::iovec>);

// SAFETY: the pointers are handed to the kernel alone, and point to memory that stays, whichever thread has the vector.
unsafe impl Send for Vector {}

impl Vector {
    /// Names these places, and nothing else.
    pub fn name(&mut self, places: &[VolatileSlice<'_>]) {
        self.0.clear();
        self.0.extend(places.iter().map(|place| libc::iovec {
            iov_base: place.ptr_guard_mut().as_ptr().cast(),
            iov_len: place.len(),
        }));
    }

    /// Names so many zeros, [`MOST_ZEROS`] at most, which are to be read only.
    pub fn name_zeros(&mut self, bytes: u64) {
        self.0.clear();
        self.0.push(libc::iovec {
            iov_base: ZEROS.0.as_ptr().cast_mut().cast(),
            iov_len: bytes.min(MOST_ZEROS) as usize,
        });
    }

    /// The address of the first element.
    pub fn first(&self) -> *const libc::iovec {
        self.0.as_ptr()
    }

    /// How many elements there are.
    pub fn count(&self) -> u32 {
        self.0.len() as u32
    }
}

/// Why there is no ring, and what to do.
fn refused(error: &io::Error, instead: &str) -> DriveError {
    DriveError::Unusable(format!(
        "the kernel refuses io_uring ({error}): 'sysctl kernel.io_uring_disabled' has to be 0, and the limits of a container or a unit have to let it \
         through; or {instead}"
    ))
}

/// An operation that is under way, and the vector that it names.
struct Slot<W> {
    work: Option<W>,
    vector: Vector,
}

/// A ring with operations `W` on the file `F`, by entries `S` and completions `C`.
pub struct Uring<S: squeue::EntryMarker, C: cqueue::EntryMarker, W, F: AsRawFd, M: Lasting> {
    ring: IoUring<S, C>,
    file: Arc<F>,
    memory: Arc<M>,
    slots: Vec<Slot<W>>,
    free: Vec<usize>,
}

impl<S: squeue::EntryMarker, C: cqueue::EntryMarker, W, F: AsRawFd, M: Lasting> Uring<S, C, W, F, M> {
    /// A ring of the kernel for this file, whose flags lack `O_NONBLOCK`: operations that may not wait would fail where they have to.
    ///
    /// # Errors
    ///
    /// The kernel refuses io_uring; `instead` says what the operator may do without it.
    pub fn new(file: F, memory: Arc<M>, instead: &str) -> Result<Self, DriveError> {
        let slot = |_| Slot {
            work: None,
            vector: Vector::default(),
        };
        Ok(Self {
            ring: IoUring::builder()
                .build(MOST)
                .map_err(|error| refused(&error, instead))?,
            file: Arc::new(file),
            memory,
            slots: (0..MOST).map(slot).collect(),
            free: (0..MOST as usize).collect(),
        })
    }

    /// The file.
    pub fn file(&self) -> &F {
        &self.file
    }

    /// Operations that are under way.
    fn under_way(&self) -> usize {
        self.slots.len() - self.free.len()
    }

    /// As of [`Ring::has_room`](super::ring::Ring::has_room).
    pub fn has_room(&self) -> bool {
        !self.free.is_empty()
    }

    /// Takes an operation over. `entry` makes its entry for the file's descriptor, with the user data that it is given.
    ///
    /// # Errors
    ///
    /// As of [`Ring::begin`](super::ring::Ring::begin), and those of `entry`.
    ///
    /// # Safety
    ///
    /// All memory that the entry names is the vector, or what that names: this ring's memory, memory that the operation owns apart from its own value, or
    /// static memory. Nobody has a reference to what the kernel writes of it, which is no static memory. The entry's user data is what `entry` was given.
    pub unsafe fn begin(
        &mut self,
        work: W,
        entry: impl FnOnce(&W, &M, io_uring::types::Fd, &mut Vector, u64) -> io::Result<S>,
    ) -> Result<(), (W, io::Error)> {
        let busy = || io::Error::from_raw_os_error(libc::EBUSY);
        let Some(index) = self.free.pop() else {
            return Err((work, busy()));
        };
        let Some(slot) = self.slots.get_mut(index) else {
            return Err((work, busy()));
        };
        let file = io_uring::types::Fd(self.file.as_raw_fd());
        let work = slot.work.insert(work);
        let pushed = entry(work, &self.memory, file, &mut slot.vector, index as u64).and_then(|entry| {
            // SAFETY: what the entry names stays until its completion was taken, or for ever (`drop`): the vector and the operation are the slot's, which
            // nobody else has meanwhile, and this ring keeps the memory. The descriptor is the ring's own file.
            unsafe { self.ring.submission().push(&entry) }.map_err(|_full| busy())
        });
        match pushed.map_err(|error| (slot.work.take(), error)) {
            Err((Some(work), error)) => {
                self.free.push(index);
                Err((work, error))
            }
            _ => Ok(()),
        }
    }

    /// As of [`Ring::submit`](super::ring::Ring::submit).
    ///
    /// # Errors
    ///
    /// The kernel takes no operations at all.
    pub fn submit(&mut self) -> io::Result<bool> {
        if self.ring.submission().is_empty() {
            return Ok(true);
        }
        match self.ring.submit() {
            Ok(_) => {}
            Err(error) if matches!(error.raw_os_error(), Some(libc::EINTR | libc::EAGAIN | libc::EBUSY)) => {}
            Err(error) => return Err(error),
        }
        Ok(self.ring.submission().is_empty())
    }

    /// As of [`Ring::next`](super::ring::Ring::next).
    pub fn next(&mut self) -> Option<(W, io::Result<u32>)> {
        if self.under_way() == 0 {
            return None;
        }
        let ended: cqueue::Entry = self.ring.completion().next()?.into();
        let index = usize::try_from(ended.user_data()).ok()?;
        let work = self.slots.get_mut(index)?.work.take()?;
        self.free.push(index);
        let result = u32::try_from(ended.result()).map_err(|_| io::Error::from_raw_os_error(-ended.result()));
        Some((work, result))
    }

    /// As of [`Ring::wake`](super::ring::Ring::wake).
    pub fn wake(&self) -> BorrowedFd<'_> {
        // SAFETY: the descriptor is the ring's, which is open as long as it is borrowed here.
        unsafe { BorrowedFd::borrow_raw(self.ring.as_raw_fd()) }
    }

    /// As of [`Ring::finish`](super::ring::Ring::finish).
    pub fn finish(&mut self, most: Duration) -> bool {
        let end = Instant::now() + most;
        while self.under_way() > 0 {
            if self.submit().is_err() {
                return false;
            }
            while self.next().is_some() {}
            let left = end.saturating_duration_since(Instant::now());
            if self.under_way() > 0 && left.is_zero() {
                return false;
            }
            if self.under_way() > 0 {
                let mut fds = [PollFd::new(self.wake(), PollFlags::POLLIN)];
                // An interruption is a round more.
                let _woken = poll(&mut fds, PollTimeout::from(left.as_millis().clamp(1, 100) as u16));
            }
        }
        true
    }
}

impl<S: squeue::EntryMarker, C: cqueue::EntryMarker, W, F: AsRawFd, M: Lasting> Drop for Uring<S, C, W, F, M> {
    /// What the kernel does not end in time keeps its memory, and the file with its lock, for ever.
    fn drop(&mut self) {
        if !self.finish(DROP_WAIT) {
            std::mem::forget(std::mem::take(&mut self.slots));
            std::mem::forget(Arc::clone(&self.memory));
            std::mem::forget(Arc::clone(&self.file));
        }
    }
}

#[cfg(test)]
mod tests {
    use super::*;

    // SAFETY: the region of these tests is there until it is dropped, and given out as volatile slices alone.
    unsafe impl Lasting for crate::drive::testing::Memory {}

    #[test]
    fn a_kernel_without_io_uring_is_told_in_one_sentence() {
        for error in [libc::EPERM, libc::ENOSYS] {
            let said = refused(&io::Error::from_raw_os_error(error), "take a walk").to_string();
            assert!(said.starts_with("the kernel refuses io_uring ("), "{said}");
            assert!(
                said.contains("kernel.io_uring_disabled") && !said.contains('\n'),
                "{said}"
            );
            assert!(said.ends_with("; or take a walk"), "{said}");
        }
    }
}
