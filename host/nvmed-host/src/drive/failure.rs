#![forbid(unsafe_code)]
//! Errors of what has a drive's bytes: the status that fits each, and those after which the drive takes no more writes.

use std::io;
use std::sync::atomic::{AtomicU32, Ordering};
use std::sync::OnceLock;

use super::entry::Status;

/// Why the drive takes no more writes, once there is a reason: it is kept for ever.
#[derive(Debug, Default)]
pub struct Failure {
    reason: OnceLock<String>,
    /// Kinds of errors that were reported, a bit each.
    reported: AtomicU32,
}

impl Failure {
    /// The reason, if there is one.
    pub fn reason(&self) -> Option<&str> {
        self.reason.get().map(String::as_str)
    }

    /// Keeps the first reason, and reports it.
    pub fn keep(&self, reason: String) {
        if self.reason.set(reason).is_ok() {
            if let Some(reason) = self.reason() {
                tracing::error!(
                    "the drive takes no more writes, and what was written since its last flush may be lost: {reason}"
                );
            }
        }
    }

    /// The status of a command that changes blocks, or of one that reads, which failed by this error of the bytes that `place` describes.
    pub fn status_of(&self, changes: bool, error: &io::Error, place: &str) -> Status {
        match error.raw_os_error() {
            // The guest's memory is no more.
            Some(libc::EFAULT) => return Status::TRANSFER_ERROR,
            Some(libc::ENODEV | libc::ENXIO | libc::ESHUTDOWN) => {
                self.keep(format!("{place}: the device is gone: {error}"));
                return Status::NOT_READY_FOR_EVER;
            }
            Some(libc::ENOSPC | libc::EDQUOT | libc::EFBIG) if changes => {
                self.report(What::Room, error);
                return Status::CAPACITY_EXCEEDED;
            }
            _ => {}
        }
        if error.kind() == io::ErrorKind::UnexpectedEof {
            self.keep(format!("{place}: the image was cut off"));
        }
        self.report(if changes { What::Write } else { What::Read }, error);
        if changes {
            Status::WRITE_FAULT
        } else {
            Status::READ_ERROR
        }
    }

    /// The status of a command for which something could not be made durable. Nobody knows what was lost: the error is kept.
    pub fn lost(&self, error: &io::Error, place: &str) -> Status {
        self.keep(format!("{place}: {error}"));
        Status::WRITE_FAULT_FOR_EVER
    }

    /// What the end of a drive says.
    ///
    /// # Errors
    ///
    /// Where there is a reason.
    pub fn verdict(&self) -> Result<(), super::DriveError> {
        match self.reason() {
            None => Ok(()),
            Some(reason) => Err(super::DriveError::Failed(format!(
                "the drive has lost writes, look at its image: {reason}"
            ))),
        }
    }

    /// Words that a description of the drive ends with.
    pub fn words(&self) -> &'static str {
        match self.reason() {
            None => "",
            Some(_) => "; it takes no more writes",
        }
    }

    /// Reports that the kernel has failed a command, the first time.
    pub fn command_failed(&self, error: &io::Error) {
        self.report(What::Command, error);
    }

    /// Reports an error of a command, the first of its kind.
    fn report(&self, what: What, error: &io::Error) {
        let bit = 1 << what as u32;
        if self.reported.fetch_or(bit, Ordering::Relaxed) & bit == 0 {
            tracing::error!(
                "the drive cannot {}: {error}; further errors of this kind are answered and not reported",
                what.words()
            );
        }
    }
}

/// What failed.
#[derive(Clone, Copy, Debug, PartialEq, Eq)]
enum What {
    Read,
    Write,
    Room,
    Command,
}

impl What {
    fn words(self) -> &'static str {
        match self {
            What::Read => "read its image",
            What::Write => "write its image",
            What::Room => "write its image, which has no room to grow",
            What::Command => "be given a command by the kernel",
        }
    }
}
