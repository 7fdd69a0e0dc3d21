#![forbid(unsafe_code)]
//! What the kernel and the drive say of a command, and what the guest is told.

use std::io;

use crate::drive::entry::Status;

/// Bits of a status that are carried over: status code, its type, and Do Not Retry. More and the command's retry delay (CRD) point to what a guest cannot
/// have of this drive: its log of errors, and its delays.
const CARRIED: u16 = 0x47ff;
/// The type of a status in its bits 10:8, and the type Path Related Status: the host's own kernel makes these for a command that it has ended itself.
const TYPE: u16 = 0x700;
const PATH_RELATED: u16 = 0x300;
/// Type and code of a status.
const CODE: u16 = 0x7ff;
/// Command Abort Requested, and Command Aborted due to SQ Deletion: the host's own kernel asked for that, and no guest.
const ABORTED: [u16; 2] = [0x07, 0x08];

/// What became of a command.
#[derive(Debug)]
pub enum Answer {
    /// The drive has completed it, or the kernel has ended it in the drive's place.
    Completed(Status),
    /// Nothing was done, and it may be made again.
    Again(io::Error),
    /// The kernel has failed it: what the guest is told, and what the kernel said.
    Failed(Status, io::Error),
    /// The device is gone.
    Gone(io::Error),
}

impl Answer {
    /// The answer that the kernel's number stands for: a status as in a completion without its phase tag, or an error.
    pub fn of(result: io::Result<u32>) -> Answer {
        let error = match result.map(u16::try_from) {
            Ok(Ok(status)) if status >> 15 == 0 => return Answer::Completed(carried(status)),
            Ok(_) => return Answer::Failed(Status::INTERNAL_ERROR, io::ErrorKind::InvalidData.into()),
            Err(error) => error,
        };
        match error.raw_os_error() {
            Some(libc::EAGAIN) => Answer::Again(error),
            Some(libc::ENODEV | libc::ENXIO | libc::ESHUTDOWN) => Answer::Gone(error),
            Some(libc::EFAULT) => Answer::Failed(Status::TRANSFER_ERROR, error),
            Some(libc::EACCES | libc::EPERM) => Answer::Failed(Status::DENIED, error),
            // Among them EINTR: the kernel has reset the controller, and the command may have been carried out or not.
            _ => Answer::Failed(Status::INTERNAL_ERROR, error),
        }
    }
}

fn carried(status: u16) -> Status {
    if status & TYPE == PATH_RELATED || ABORTED.contains(&(status & CODE)) {
        return Status::INTERNAL_ERROR;
    }
    let status = Status::from_bits(status & CARRIED);
    if status.is_good() {
        Status::GOOD
    } else {
        status
    }
}

#[cfg(test)]
mod tests {
    use super::*;

    fn told(result: io::Result<u32>) -> u16 {
        match Answer::of(result) {
            Answer::Completed(status) | Answer::Failed(status, _) => status.bits(),
            other => panic!("{other:?}"),
        }
    }

    fn error(number: i32) -> io::Result<u32> {
        Err(io::Error::from_raw_os_error(number))
    }

    #[test]
    fn a_status_is_the_drives_own() {
        for (said, expected) in [
            (0, 0),
            (0x281, 0x281),
            (0x285, 0x285),
            (0x4002, 0x4002),
            (0x4080, 0x4080),
            (0x04, 0x04),
            (0x7c0, 0x7c0),
            // More, and a retry delay
            (0x3a81, 0x281),
            (0x7fff, 0x47ff),
            // no error, whatever the other bits say
            (0x7800, 0),
            // those of the host's kernel
            (0x370, 6),
            (0x4371, 6),
            (0x303, 6),
            (0x07, 6),
            (0x4008, 6),
            (0x107, 0x107),
            // none that NVMe has
            (0x8000, 6),
            (0x1_0000, 6),
            (u32::MAX, 6),
        ] {
            assert_eq!(told(Ok(said)), expected, "{said:#x}");
        }
    }

    #[test]
    fn each_error_has_a_status() {
        use libc::{EACCES, EBUSY, EFAULT, EINTR, EINVAL, EIO, ENOMEM, EOPNOTSUPP, EPERM, ETIMEDOUT};
        for (said, expected) in [
            (EFAULT, 0x4004),
            (EACCES, 0x4015),
            (EPERM, 0x4015),
            (EINTR, 6),
            (EIO, 6),
            (EBUSY, 6),
            (EINVAL, 6),
            (ENOMEM, 6),
            (EOPNOTSUPP, 6),
            (ETIMEDOUT, 6),
            (i32::MAX, 6),
        ] {
            assert_eq!(told(error(said)), expected, "{said}");
        }
        assert!(matches!(Answer::of(error(libc::EAGAIN)), Answer::Again(_)));
        for gone in [libc::ENODEV, libc::ENXIO, libc::ESHUTDOWN] {
            assert!(matches!(Answer::of(error(gone)), Answer::Gone(_)));
        }
    }
}
