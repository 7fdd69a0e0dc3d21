//! A drive that fails: it is stopped in a thread of its own, and guests' registers are answered meanwhile.

#![forbid(unsafe_code)]

use std::io;
use std::thread::{Builder, JoinHandle};
use std::time::{Duration, Instant};

use crate::drive::{Drive, DriveError};

/// How long the drive may be silent while it has commands.
pub const SILENCE: Duration = Duration::from_secs(30);
/// How long a drive that has failed may take to stop. Then it is given up as it is.
const STOPPING: Duration = Duration::from_secs(15);
/// How long guests have to see what became of their commands, before the program ends.
const ANSWERED: Duration = Duration::from_secs(1);

/// Why the drive cannot be relied on any more.
#[derive(Debug, thiserror::Error)]
pub enum Failure {
    /// It said so, or broke the rules.
    #[error("{0}")]
    Drive(#[from] DriveError),
    /// It completed a command that it does not have.
    #[error("it completed a command on lane {0} that it does not have")]
    Stray(usize),
    /// It does not answer.
    #[error("it has not answered for {} seconds on lane {0}", SILENCE.as_secs())]
    Silent(usize),
}

/// The drive, as long as there is one.
pub enum Disk {
    /// It works.
    Good(Box<dyn Drive>),
    /// It is being stopped, since that time. There is no thread where none was to be had.
    Stopping(Option<JoinHandle<Result<(), DriveError>>>, Instant),
    /// It was stopped or given up, at that time.
    Gone(Instant),
}

/// What became of a drive that was being stopped.
#[derive(Debug, PartialEq, Eq)]
pub enum Stopped {
    /// Nothing yet, or nothing new.
    No,
    /// It has stopped now: its lanes are to be closed. What there is to say of it, if it did not stop well.
    Now(Option<String>),
}

impl Disk {
    /// The drive, if it works.
    pub fn good(&mut self) -> Option<&mut (dyn Drive + 'static)> {
        match self {
            Self::Good(drive) => Some(drive.as_mut()),
            _ => None,
        }
    }

    /// Begins to stop the drive.
    pub fn stop(&mut self, now: Instant) {
        if let Self::Good(drive) = std::mem::replace(self, Self::Gone(now)) {
            *self = Self::Stopping(close(drive).ok(), now);
        }
    }

    /// Looks whether the drive that is being stopped has stopped.
    pub fn look(&mut self, now: Instant) -> Stopped {
        let Self::Stopping(thread, since) = self else {
            return Stopped::No;
        };
        let finished = thread.as_ref().is_none_or(JoinHandle::is_finished);
        if !finished && now.saturating_duration_since(*since) < STOPPING {
            return Stopped::No;
        }
        let words = match thread.take() {
            Some(thread) if finished => match thread.join() {
                Ok(Ok(())) => None,
                Ok(Err(error)) => Some(error.to_string()),
                Err(_panic) => Some("it could not be stopped: its thread has ended by itself".to_owned()),
            },
            Some(_hung) => Some(format!("it could not be stopped for {} seconds", STOPPING.as_secs())),
            None => Some("it could not be stopped: there is no thread to be had".to_owned()),
        };
        *self = Self::Gone(now);
        Stopped::Now(words)
    }

    /// Whether the guests of a drive that is gone have had their answers.
    pub fn is_over(&self, now: Instant) -> bool {
        matches!(self, Self::Gone(since) if now.saturating_duration_since(*since) >= ANSWERED)
    }
}

/// Closes a drive in a thread of its own.
///
/// # Errors
///
/// There is no thread to be had; the drive is dropped then.
pub fn close(drive: Box<dyn Drive>) -> io::Result<JoinHandle<Result<(), DriveError>>> {
    Builder::new()
        .name("drive-close".to_owned())
        .spawn(move || drive.close())
}

#[cfg(test)]
mod tests;
