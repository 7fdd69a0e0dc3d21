//! Waking a thread that sleeps in `poll`, and not writing to its descriptor where it does not sleep.

#![forbid(unsafe_code)]

use std::io;
use std::os::fd::{AsFd, AsRawFd, BorrowedFd, RawFd};
use std::sync::atomic::{fence, AtomicBool, Ordering};

use nix::errno::Errno;
use nix::sys::eventfd::{EfdFlags, EventFd};

/// An eventfd of this program's own, with a flag that says whether its thread sleeps or is about to.
///
/// The sleeper calls [`Bell::lie_down`], looks once more whether there is something to do, and only then waits for the descriptor. Whoever gives it something
/// to do calls [`Bell::ring`] afterwards. So one of the two sees the other, and no wake-up is lost.
#[derive(Debug)]
pub struct Bell {
    asleep: AtomicBool,
    event: EventFd,
}

impl Bell {
    /// A bell of a thread that is awake.
    ///
    /// # Errors
    ///
    /// There are no descriptors left.
    pub fn new() -> io::Result<Self> {
        let flags = EfdFlags::EFD_CLOEXEC | EfdFlags::EFD_NONBLOCK;
        let event = EventFd::from_flags(flags).map_err(io::Error::from)?;
        Ok(Self {
            asleep: AtomicBool::new(false),
            event,
        })
    }

    /// The sleeper is about to sleep: it is to look once more for what there is to do.
    pub fn lie_down(&self) {
        self.asleep.store(true, Ordering::SeqCst);
        fence(Ordering::SeqCst);
    }

    /// The sleeper is awake, and takes what woke it.
    pub fn get_up(&self) {
        if !self.asleep.swap(false, Ordering::SeqCst) {
            self.drain();
        }
    }

    /// Wakes the sleeper, where it sleeps. To be called after what it is woken for was put where it looks.
    pub fn ring(&self) {
        fence(Ordering::SeqCst);
        if self.asleep.load(Ordering::SeqCst) && self.asleep.swap(false, Ordering::SeqCst) {
            self.strike();
        }
    }

    /// The descriptor that becomes readable when it rings.
    #[must_use]
    pub fn fd(&self) -> BorrowedFd<'_> {
        self.event.as_fd()
    }

    /// Makes the descriptor readable, whether the thread sleeps or not. An eventfd that is full is readable already.
    fn strike(&self) {
        while matches!(self.event.write(1), Err(Errno::EINTR)) {}
    }

    fn drain(&self) {
        while matches!(self.event.read(), Err(Errno::EINTR)) {}
    }
}

impl AsRawFd for Bell {
    fn as_raw_fd(&self) -> RawFd {
        self.event.as_fd().as_raw_fd()
    }
}

#[cfg(test)]
mod tests {
    use super::*;
    use nix::poll::{poll, PollFd, PollFlags, PollTimeout};
    use std::sync::atomic::AtomicU32;
    use std::sync::Arc;

    fn is_readable(bell: &Bell) -> bool {
        let mut fds = [PollFd::new(bell.fd(), PollFlags::POLLIN)];
        poll(&mut fds, PollTimeout::ZERO).unwrap() == 1
    }

    #[test]
    fn rings_only_where_the_thread_sleeps() {
        let bell = Bell::new().unwrap();
        bell.ring();
        assert!(!is_readable(&bell));
        bell.lie_down();
        bell.ring();
        bell.ring();
        assert!(is_readable(&bell));
        bell.get_up();
        assert!(!is_readable(&bell));
        bell.ring();
        assert!(!is_readable(&bell));
    }

    #[test]
    fn getting_up_by_itself_leaves_nothing() {
        let bell = Bell::new().unwrap();
        bell.lie_down();
        bell.get_up();
        bell.ring();
        assert!(!is_readable(&bell));
    }

    #[test]
    fn no_wake_up_is_lost() {
        const ROUNDS: u32 = 20_000;
        let bell = Arc::new(Bell::new().unwrap());
        let given = Arc::new(AtomicU32::new(0));
        let (other_bell, other_given) = (Arc::clone(&bell), Arc::clone(&given));
        let giver = std::thread::spawn(move || {
            for _ in 0..ROUNDS {
                other_given.fetch_add(1, Ordering::Release);
                other_bell.ring();
            }
        });
        let mut seen = 0;
        while seen < ROUNDS {
            bell.lie_down();
            if given.load(Ordering::Acquire) == seen {
                let mut fds = [PollFd::new(bell.fd(), PollFlags::POLLIN)];
                assert_eq!(poll(&mut fds, 5_000u16).unwrap(), 1, "a wake-up was lost at {seen}");
            }
            bell.get_up();
            seen = given.load(Ordering::Acquire);
        }
        giver.join().unwrap();
    }
}
