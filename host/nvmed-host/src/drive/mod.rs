//! Drives: physical NVMe controllers with a pair of queues for each lane, whatever plays them.
//!
//! The lanes' rings, lists and data lie in the [`Window`](crate::memory::Window). The mediator writes and reads them; the mediator's thread rings the
//! doorbells here. No call waits for a controller but those that open one: what takes long goes on in threads of the drive's own.

mod buffers;
mod command;
pub mod entry;
mod failure;
pub mod file;
mod image;
mod lane;
mod lanes;
pub mod nvme;
pub mod opening;
pub mod passthrough;
pub mod prp;
pub mod qtest;
pub mod ram;
pub mod reached;
mod ring;
mod uring;
pub mod vfio;

#[cfg(test)]
mod testing;

use std::os::fd::BorrowedFd;

/// Host addresses that a drive can reach: from `from` on, below `to`.
#[derive(Clone, Copy, Debug, PartialEq, Eq)]
pub struct Reach {
    /// The first address.
    pub from: u64,
    /// The first address after it that cannot be reached.
    pub to: u64,
}

/// The rings of a lane, as the mediator has them: host addresses and lengths in entries.
#[derive(Clone, Copy, Debug, PartialEq, Eq)]
pub struct LaneRings {
    /// Host address of the submission ring, of entries of 64 bytes.
    pub submission: u64,
    /// Host address of the completion ring, of entries of 16 bytes.
    pub completion: u64,
    /// Entries of each ring.
    pub entries: u32,
}

/// Why a drive can't be used, or can't be used any more. Each is for ever: the drive is to be closed.
#[derive(Debug, thiserror::Error)]
pub enum DriveError {
    /// It cannot be opened, or isn't as it has to be.
    #[error("{0}")]
    Unusable(String),
    /// It showed a fatal status, is gone, or broke the rules.
    #[error("{0}")]
    Failed(String),
}

/// What a call of [`Drive::work`] did.
#[derive(Clone, Copy, Debug, Default, PartialEq, Eq)]
pub struct Progress {
    /// Completions that were written into rings by this call.
    pub completed: u32,
    /// Whether there is more to do at once: the budget was used up.
    pub more: bool,
}

/// How much a simulated drive may do in one call of [`Drive::work`].
#[derive(Clone, Copy, Debug)]
pub struct Budget {
    /// Commands that may be begun.
    pub commands: u32,
    /// Bytes that may be moved or cleared; the last command may go a page beyond it.
    pub bytes: u64,
}

/// A drive.
pub trait Drive: Send {
    /// Creates the lanes' queues: once, before the doorbells. It may wait for the controller.
    fn create_lanes(&mut self, lanes: &[LaneRings]) -> Result<(), DriveError>;

    /// Rings the submission doorbell of a lane: its ring was filled up to `tail`.
    fn ring_submission(&mut self, lane: usize, tail: u32) -> Result<(), DriveError>;

    /// Rings the completion doorbell of a lane: its ring was emptied up to `head`.
    fn ring_completion(&mut self, lane: usize, head: u32) -> Result<(), DriveError>;

    /// Carries out commands within the budget, where the drive is simulated. A real drive works by itself and has nothing to do here.
    fn work(&mut self, budget: Budget) -> Result<Progress, DriveError>;

    /// Looks once a second whether the drive still works. It never waits.
    fn check(&mut self) -> Result<(), DriveError>;

    /// A descriptor that becomes readable where completions may have come, or `None` where the drive is to be polled while it has commands.
    fn wake(&self) -> Option<BorrowedFd<'_>>;

    /// Takes what made [`Drive::wake`] readable.
    fn woken(&mut self) {}

    /// How a drive that hangs is dealt with, where it can be.
    fn recover(&mut self) -> Option<&mut dyn nvme::Recover> {
        None
    }

    /// One line on the drive, for the operator.
    fn describe(&self) -> String;

    /// Stops the drive and makes what was written durable. It may wait for the drive, so it is called in a thread of its own or at the very end. After it
    /// the drive makes no access of the window, as far as it can be stopped.
    fn close(self: Box<Self>) -> Result<(), DriveError>;
}
