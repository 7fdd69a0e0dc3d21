//! News that the mediator's thread or the program's has for a guest's. Telling them never waits.

#![forbid(unsafe_code)]

use std::io;
use std::os::fd::BorrowedFd;
use std::sync::atomic::{AtomicU32, Ordering};

use nix::errno::Errno;
use nix::sys::eventfd::{EfdFlags, EventFd};
use std::os::fd::AsFd;

const RUN_OUT: u32 = 1 << 0;
const CUT_OFF: u32 = 1 << 1;
const STOP: u32 = 1 << 2;

/// What a guest's thread is told. Each is told once.
#[derive(Clone, Copy, Debug, Default, PartialEq, Eq)]
pub struct News {
    /// After the end of a connection all of its commands have run out: nothing accesses the guest's memory any more.
    pub run_out: bool,
    /// An access of the guest's memory faulted: its file was cut off.
    pub cut_off: bool,
    /// The program ends.
    pub stop: bool,
}

/// A set of news, with a descriptor that is readable while there are some.
#[derive(Debug)]
pub struct Outbox {
    news: AtomicU32,
    event: EventFd,
}

impl Outbox {
    /// One without news.
    ///
    /// # Errors
    ///
    /// There are no descriptors left.
    pub fn new() -> io::Result<Self> {
        let flags = EfdFlags::EFD_CLOEXEC | EfdFlags::EFD_NONBLOCK;
        let event = EventFd::from_flags(flags).map_err(io::Error::from)?;
        Ok(Self {
            news: AtomicU32::new(0),
            event,
        })
    }

    /// See [`News::run_out`].
    pub fn run_out(&self) {
        self.tell(RUN_OUT);
    }

    /// See [`News::cut_off`].
    pub fn cut_off(&self) {
        self.tell(CUT_OFF);
    }

    /// See [`News::stop`].
    pub fn stop(&self) {
        self.tell(STOP);
    }

    /// What there is, by the guest's thread.
    #[must_use]
    pub fn take(&self) -> News {
        while matches!(self.event.read(), Err(Errno::EINTR)) {}
        let news = self.news.swap(0, Ordering::SeqCst);
        News {
            run_out: news & RUN_OUT != 0,
            cut_off: news & CUT_OFF != 0,
            stop: news & STOP != 0,
        }
    }

    /// The descriptor that is readable while there are news.
    #[must_use]
    pub fn fd(&self) -> BorrowedFd<'_> {
        self.event.as_fd()
    }

    /// The descriptor is written where there were no news: else it is readable already, or its reader has not taken them yet.
    fn tell(&self, news: u32) {
        if self.news.fetch_or(news, Ordering::SeqCst) == 0 {
            while matches!(self.event.write(1), Err(Errno::EINTR)) {}
        }
    }
}

#[cfg(test)]
mod tests {
    use super::*;
    use nix::poll::{poll, PollFd, PollFlags};
    use std::sync::Arc;

    #[test]
    fn news_are_taken_once() {
        let outbox = Outbox::new().unwrap();
        assert_eq!(outbox.take(), News::default());
        outbox.run_out();
        outbox.run_out();
        outbox.cut_off();
        outbox.stop();
        let all = News {
            run_out: true,
            cut_off: true,
            stop: true,
        };
        assert_eq!(outbox.take(), all);
        assert_eq!(outbox.take(), News::default());
    }

    #[test]
    fn none_is_lost() {
        const ROUNDS: u32 = 20_000;
        let outbox = Arc::new(Outbox::new().unwrap());
        let told = Arc::new(AtomicU32::new(0));
        let (other, other_told) = (Arc::clone(&outbox), Arc::clone(&told));
        let teller = std::thread::spawn(move || {
            for _ in 0..ROUNDS {
                other_told.fetch_add(1, Ordering::SeqCst);
                other.run_out();
            }
            other.stop();
        });
        let mut seen = 0;
        loop {
            let mut fds = [PollFd::new(outbox.fd(), PollFlags::POLLIN)];
            assert_eq!(poll(&mut fds, 5_000u16).unwrap(), 1, "a wake-up was lost");
            let news = outbox.take();
            seen = told.load(Ordering::SeqCst).max(seen);
            if news.stop {
                break;
            }
        }
        teller.join().unwrap();
        assert_eq!(seen, ROUNDS);
    }
}
