#![forbid(unsafe_code)]
//! What the mediator's thread tells a guest's thread of interrupts.

use std::os::fd::{AsFd, BorrowedFd};
use std::sync::atomic::{AtomicU32, Ordering};

use nix::errno::Errno;
use nix::sys::eventfd::{EfdFlags, EventFd};

use super::VectorSet;

/// The bit that says that the level of INTx has changed.
const LEVEL: u32 = 1 << 31;

/// What was published since the last [`Signals::take`].
#[derive(Clone, Copy, Debug, Default, PartialEq, Eq)]
pub struct News {
    /// The vectors that were posted.
    pub posted: VectorSet,
    /// The vectors that are pending, as published last.
    pub pending: VectorSet,
}

/// Shared by the mediator's thread, which publishes, and a guest's thread, which takes. Neither waits for the other.
#[derive(Debug)]
pub struct Signals {
    news: AtomicU32,
    pending: AtomicU32,
    wake: EventFd,
}

impl Signals {
    /// Nothing is posted or pending. It fails where no eventfd can be had.
    pub fn new() -> Result<Self, Errno> {
        let wake = EventFd::from_value_and_flags(0, EfdFlags::EFD_CLOEXEC | EfdFlags::EFD_NONBLOCK)?;
        Ok(Self {
            news: AtomicU32::new(0),
            pending: AtomicU32::new(0),
            wake,
        })
    }

    /// Of the mediator's thread: which vectors were posted since the last call (pending, and their queue has changed), and which are pending now. To be
    /// called after each turn in which queues of the guest may have changed. What is pending and was not counts as posted. The guest's thread is woken where there was nothing to take before.
    pub fn publish(&self, posted: VectorSet, pending: VectorSet) {
        let pending = pending | posted;
        let before = VectorSet::from_bits(self.pending.swap(pending.bits().into(), Ordering::AcqRel) as u16);
        let level = if before.is_empty() == pending.is_empty() {
            0
        } else {
            LEVEL
        };
        let news = u32::from((posted | pending & !before).bits()) | level;
        if news != 0 && self.news.fetch_or(news, Ordering::AcqRel) == 0 {
            // The counter is never full: it is one of a few at most. Where the write failed, the next look would still take the news.
            let _ = self.wake.write(1);
        }
    }

    /// Of the guest's thread: takes what was published.
    pub fn take(&self) -> News {
        let _ = self.wake.read();
        let posted = VectorSet::from_bits(self.news.swap(0, Ordering::AcqRel) as u16);
        News {
            posted,
            pending: self.pending(),
        }
    }

    /// The vectors that are pending, as published last.
    pub fn pending(&self) -> VectorSet {
        VectorSet::from_bits(self.pending.load(Ordering::Acquire) as u16)
    }

    /// A descriptor that is readable while there may be something to take. It never blocks.
    pub fn wake(&self) -> BorrowedFd<'_> {
        self.wake.as_fd()
    }
}
