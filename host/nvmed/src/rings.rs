#![forbid(unsafe_code)]
//! The queues of the drive that are the mediator's.

use crate::sys;

/// A lane's rings, which the host makes an I/O queue pair of its drive, and the values that the drive's doorbells are to have.
#[derive(Debug, Clone, Copy, PartialEq, Eq)]
pub struct Rings {
    /// The host address of the submission ring, of entries of 64 bytes.
    pub submission: u64,
    /// The host address of the completion ring, of entries of 16 bytes.
    pub completion: u64,
    /// How many entries each ring has.
    pub entries: u32,
    /// What the submission ring's tail doorbell is to have, below `entries`.
    pub tail: u32,
    /// What the completion ring's head doorbell is to have, below `entries`.
    pub head: u32,
    /// Whether the lane was closed.
    pub closed: bool,
}

impl Rings {
    pub(crate) fn of(raw: &sys::LaneRings) -> Self {
        Rings {
            submission: raw.submission,
            completion: raw.completion,
            entries: raw.entries,
            tail: raw.tail,
            head: raw.head,
            closed: raw.closed != 0,
        }
    }
}
