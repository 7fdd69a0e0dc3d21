#![forbid(unsafe_code)]
//! Interrupts of a guest: which of the client's eventfds are written, and when.
//!
//! The mediator's thread says which vectors were posted and which are pending ([`Signals::publish`]). The guest's thread takes that, and what the client
//! asks for (SET_IRQS of vfio-user, and the bits of configuration space), and writes the eventfds ([`Interrupts`]). A message interrupt is sent for each
//! vector that was posted. What was posted while its vector was masked, switched off or without an eventfd is not kept apart: when the vector is there
//! again, it is sent where it is pending. So none is lost, and some are sent that tell a guest nothing new.

mod logic;
mod signals;
#[cfg(test)]
mod tests;

use std::os::fd::{AsFd, AsRawFd, BorrowedFd, OwnedFd};
use std::sync::Arc;

use nix::errno::Errno;
use nix::fcntl::{fcntl, readlink, FcntlArg, OFlag};
use nix::poll::{poll, PollFd, PollFlags, PollTimeout};

pub use logic::{Control, VectorSet};
use logic::{Due, Logic};
pub use signals::{News, Signals};

/// Vectors of a guest: one for each of its completion queues, the admin queue's among them.
pub const VECTORS: usize = 9;

/// Why a request of the client is refused, or an interrupt cannot be delivered.
#[derive(Clone, Copy, Debug, PartialEq, Eq, thiserror::Error)]
pub enum InterruptError {
    /// A descriptor is of another kind.
    #[error("a descriptor that came for an interrupt is no eventfd; the client has to send eventfds")]
    NotAnEventfd,
    /// Vectors that there are not.
    #[error("vectors {start} to {start}+{count} were named, but there are {VECTORS}")]
    NoSuchVector {
        /// The first vector of the request.
        start: u32,
        /// How many.
        count: u32,
    },
    /// An eventfd cannot be set up or written. The client's connection is to be given up.
    #[error("an eventfd of the client cannot be used: {0}")]
    Unusable(Errno),
    /// The client made an eventfd block, and a signal ended the wait. The client's connection is to be given up.
    #[error("the client filled an eventfd and made it block")]
    Held,
}

impl InterruptError {
    /// Whether the client's connection is to be given up. Else the request is refused, and nothing has changed.
    pub fn is_fatal(&self) -> bool {
        matches!(self, Self::Unusable(_) | Self::Held)
    }
}

/// An eventfd of the client.
#[derive(Debug)]
struct Notifier(OwnedFd);

impl Notifier {
    /// Takes a descriptor that has to be an eventfd: any other kind of file may block, or do anything when it is written. Linux says in /proc what it is.
    fn adopt(fd: OwnedFd) -> Result<Self, InterruptError> {
        let path = format!("/proc/self/fd/{}", fd.as_raw_fd());
        if readlink(path.as_str()).is_ok_and(|kind| kind == "anon_inode:[eventfd]") {
            let flags = fcntl(fd.as_raw_fd(), FcntlArg::F_GETFL).map_err(InterruptError::Unusable)?;
            let flags = OFlag::from_bits_retain(flags) | OFlag::O_NONBLOCK;
            fcntl(fd.as_raw_fd(), FcntlArg::F_SETFL(flags)).map_err(InterruptError::Unusable)?;
            Ok(Self(fd))
        } else {
            Err(InterruptError::NotAnEventfd)
        }
    }

    fn is_ready(&self, wanted: PollFlags) -> bool {
        let mut fds = [PollFd::new(self.0.as_fd(), wanted)];
        poll(&mut fds, PollTimeout::ZERO) == Ok(1) && fds.first().and_then(|fd| fd.revents()) == Some(wanted)
    }

    /// An eventfd that is full has been signalled.
    ///
    /// The file is the client's, too. One that fills it and makes it block, both between the look and the write here, holds up the calling thread, which
    /// is this guest's alone, until somebody reads it or a signal comes whose handler doesn't restart the write.
    fn signal(&self) -> Result<(), InterruptError> {
        if !self.is_ready(PollFlags::POLLOUT) {
            return Ok(());
        }
        match nix::unistd::write(&self.0, &1u64.to_ne_bytes()) {
            Ok(_) | Err(Errno::EAGAIN) => Ok(()),
            Err(Errno::EINTR) => Err(InterruptError::Held),
            Err(errno) => Err(InterruptError::Unusable(errno)),
        }
    }

    /// Takes its count: whether it was signalled.
    fn take(&self) -> Result<bool, InterruptError> {
        if !self.is_ready(PollFlags::POLLIN) {
            return Ok(false);
        }
        match nix::unistd::read(self.0.as_raw_fd(), &mut [0; 8]) {
            Ok(_) => Ok(true),
            Err(Errno::EAGAIN) => Ok(false),
            Err(Errno::EINTR) => Err(InterruptError::Held),
            Err(errno) => Err(InterruptError::Unusable(errno)),
        }
    }
}

/// The interrupts of a guest: owned by the guest's thread. Dropped descriptors are closed there.
#[derive(Debug)]
pub struct Interrupts {
    signals: Arc<Signals>,
    logic: Logic,
    vectors: [Option<Notifier>; VECTORS],
    intx: Option<Notifier>,
    resample: Option<Notifier>,
    sent: u64,
}

/// The vectors of a request, where there are such.
fn range(start: u32, count: usize) -> Result<std::ops::Range<usize>, InterruptError> {
    let end = usize::try_from(start)
        .ok()
        .and_then(|start| start.checked_add(count))
        .filter(|&end| end <= VECTORS);
    let refused = InterruptError::NoSuchVector {
        start,
        count: u32::try_from(count).unwrap_or(u32::MAX),
    };
    end.map(|end| end - count..end).ok_or(refused)
}

impl Interrupts {
    /// No eventfd, and all of configuration space's bits as after a reset.
    pub fn new(signals: Arc<Signals>) -> Self {
        Self {
            signals,
            logic: Logic::default(),
            vectors: [const { None }; VECTORS],
            intx: None,
            resample: None,
            sent: 0,
        }
    }

    /// Delivers what the mediator's thread has published: to be called when [`Signals::wake`] is readable.
    pub fn deliver(&mut self) -> Result<(), InterruptError> {
        let due = self.logic.news(self.signals.take());
        self.send(due)
    }

    /// Configuration space says something new.
    pub fn set_control(&mut self, control: Control) -> Result<(), InterruptError> {
        self.change(|logic| logic.set_control(control))
    }

    /// The client is gone: its descriptors are closed, and the masks and bits are as at first.
    pub fn reset(&mut self) {
        *self = Self {
            sent: self.sent,
            ..Self::new(Arc::clone(&self.signals))
        };
    }

    /// Whether INTx is wanted: the level of the interrupt, for the status register of configuration space.
    pub fn level(&self) -> bool {
        !self.signals.pending().is_empty()
    }

    /// How many eventfds were written.
    pub fn sent(&self) -> u64 {
        self.sent
    }

    /// SET_IRQS of MSI-X with DATA_EVENTFD and ACTION_TRIGGER: vectors from `start` on have these eventfds from now on; `None` is none. A vector that is
    /// pending is signalled anew. Where one descriptor is refused, nothing has changed.
    pub fn set_vectors(&mut self, start: u32, eventfds: Vec<Option<OwnedFd>>) -> Result<(), InterruptError> {
        let range = range(start, eventfds.len())?;
        let adopted = eventfds
            .into_iter()
            .map(|fd| fd.map(Notifier::adopt).transpose())
            .collect::<Result<Vec<_>, _>>()?;
        let absent = range
            .clone()
            .zip(&adopted)
            .filter(|(_, fd)| fd.is_none())
            .map(|(v, _)| v)
            .collect();
        let present = range
            .clone()
            .zip(&adopted)
            .filter(|(_, fd)| fd.is_some())
            .map(|(v, _)| v)
            .collect();
        // what was posted before goes to the eventfds that were there
        self.deliver()?;
        for (place, fd) in self.vectors.iter_mut().skip(range.start).zip(adopted) {
            *place = fd;
        }
        let due = self.logic.replace_vectors(present, absent);
        self.send(due)
    }

    /// SET_IRQS of MSI-X with DATA_NONE, ACTION_TRIGGER and count 0: no vector has an eventfd.
    pub fn disable_vectors(&mut self) {
        self.vectors = [const { None }; VECTORS];
        self.logic.disable_vectors();
    }

    /// SET_IRQS of MSI-X with ACTION_MASK or ACTION_UNMASK.
    pub fn mask_vectors(&mut self, start: u32, count: u32, masked: bool) -> Result<(), InterruptError> {
        let vectors = range(start, usize::try_from(count).unwrap_or(usize::MAX))?.collect();
        self.change(|logic| logic.mask_vectors(vectors, masked))
    }

    /// SET_IRQS of MSI-X with DATA_NONE or DATA_BOOL, ACTION_TRIGGER and a count: signals these vectors, as a test of the client's.
    pub fn trigger_vectors(&mut self, start: u32, count: u32) -> Result<(), InterruptError> {
        let vectors = range(start, usize::try_from(count).unwrap_or(usize::MAX))?.collect();
        self.send(Due { vectors, intx: false })
    }

    /// SET_IRQS of INTx with DATA_EVENTFD and ACTION_TRIGGER. Without a descriptor, as with DATA_NONE and count 0, INTx is off, and unmasked when it is
    /// set up again. A level that is raised is signalled anew.
    pub fn set_intx(&mut self, eventfd: Option<OwnedFd>) -> Result<(), InterruptError> {
        let adopted = eventfd.map(Notifier::adopt).transpose()?;
        self.deliver()?;
        if adopted.is_none() {
            self.resample = None;
        }
        self.intx = adopted;
        let due = self.logic.replace_intx(self.intx.is_some());
        self.send(due)
    }

    /// SET_IRQS of INTx with ACTION_MASK or ACTION_UNMASK. Unmasked, a level that is still raised is signalled again.
    pub fn mask_intx(&mut self, masked: bool) -> Result<(), InterruptError> {
        self.change(|logic| logic.mask_intx(masked))
    }

    /// SET_IRQS of INTx with DATA_EVENTFD and ACTION_UNMASK: signals of this eventfd unmask INTx.
    pub fn set_resample(&mut self, eventfd: Option<OwnedFd>) -> Result<(), InterruptError> {
        self.resample = eventfd.map(Notifier::adopt).transpose()?;
        Ok(())
    }

    /// SET_IRQS of INTx with DATA_NONE or DATA_BOOL, ACTION_TRIGGER and a count: signals INTx, as a test of the client's.
    pub fn trigger_intx(&mut self) -> Result<(), InterruptError> {
        self.send(Due {
            vectors: VectorSet::default(),
            intx: true,
        })
    }

    /// The eventfd whose readability is to be followed by [`Interrupts::resampled`].
    pub fn resample(&self) -> Option<BorrowedFd<'_>> {
        self.resample.as_ref().map(|fd| fd.0.as_fd())
    }

    /// The eventfd of [`Interrupts::resample`] can be read: INTx is unmasked where it was signalled.
    pub fn resampled(&mut self) -> Result<(), InterruptError> {
        match &self.resample {
            Some(fd) if fd.take()? => self.mask_intx(false),
            _ => Ok(()),
        }
    }

    /// What was published before a change is delivered as before it. What is published later is delivered as after it.
    fn change(&mut self, change: impl FnOnce(&mut Logic) -> Due) -> Result<(), InterruptError> {
        self.deliver()?;
        let due = change(&mut self.logic);
        self.send(due)
    }

    fn send(&mut self, due: Due) -> Result<(), InterruptError> {
        let intx = self.intx.as_ref().filter(|_| due.intx);
        let vectors = self
            .vectors
            .iter()
            .enumerate()
            .filter(|&(v, _)| due.vectors.contains(v))
            .filter_map(|(_, fd)| fd.as_ref());
        for fd in vectors.chain(intx) {
            fd.signal()?;
            self.sent += 1;
        }
        Ok(())
    }
}
