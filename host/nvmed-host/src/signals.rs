//! Signals that end the program cleanly: SIGTERM, SIGINT and SIGHUP, as a descriptor that becomes readable.

#[cfg(test)]
mod tests;

use std::os::fd::{AsFd, BorrowedFd};

use nix::errno::Errno;
use nix::sys::signal::{signal, SigHandler, SigSet, Signal};
use nix::sys::signalfd::{SfdFlags, SignalFd};

/// The signals that end the program.
pub const ENDING: [Signal; 3] = [Signal::SIGTERM, Signal::SIGINT, Signal::SIGHUP];

/// The signals that end the program, blocked in all threads and taken here.
#[derive(Debug)]
pub struct Signals {
    fd: SignalFd,
}

impl Signals {
    /// Takes the signals over: to be called once, before other threads are started, which have this thread's mask.
    ///
    /// What the program's parent has set up is undone: all signals but those three are unblocked, SIGCHLD has its default action again (where it is
    /// ignored, children leave no status), and SIGPIPE is ignored. The three end the program even where the parent ignored them, as `nohup` does with
    /// SIGHUP. Children that are started with `std::process::Command` have an empty mask and the default action of SIGPIPE.
    pub fn take_over() -> Result<Self, Errno> {
        let ending = SigSet::from_iter(ENDING);
        let fd = SignalFd::with_flags(&ending, SfdFlags::SFD_CLOEXEC | SfdFlags::SFD_NONBLOCK)?;
        ending.thread_set_mask()?;
        for (which, action) in actions() {
            // SAFETY: no function becomes a handler: the actions are the default one and to ignore. The actions before are not used.
            unsafe { signal(which, action) }?;
        }
        Ok(Self { fd })
    }

    /// The signal that has come, or `None`.
    pub fn take(&self) -> Result<Option<Signal>, Errno> {
        let came = self.fd.read_signal()?;
        Ok(came
            .and_then(|info| i32::try_from(info.ssi_signo).ok())
            .and_then(|number| Signal::try_from(number).ok()))
    }

    /// A descriptor that is readable when a signal has come.
    pub fn wake(&self) -> BorrowedFd<'_> {
        self.fd.as_fd()
    }
}

/// A signal that is ignored and blocked may be thrown away, so the three have their default action, which a blocked signal doesn't take.
fn actions() -> impl Iterator<Item = (Signal, SigHandler)> {
    let defaults = ENDING
        .into_iter()
        .chain([Signal::SIGCHLD])
        .map(|which| (which, SigHandler::SigDfl));
    defaults.chain([(Signal::SIGPIPE, SigHandler::SigIgn)])
}
