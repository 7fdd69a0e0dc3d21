//! The driver's side of a physical NVMe controller: it is reset, enabled with an admin queue of its own, looked at, and given one pair of I/O queues for
//! each lane. What the controller says is not trusted: each property, each field of Identify that is used and each admin completion is checked, and each
//! wait has a limit. Completions of lanes are the mediator's.
//!
//! Opening and closing wait. In between nothing does: [`Controller::work`] and [`Controller::check`] take what has come and go on with what is to be done,
//! so a controller that hangs holds up nobody. It is aborted and reset, and its commands end with Internal Error, before the drive is given up.
//!
//! The admin queue and a page for data lie in [`ADMIN_BYTES`] of the window that nothing else may use.

pub mod access;
mod admin;
pub(super) mod bytes;
mod command;
mod controller;
mod event;
#[cfg(test)]
pub(crate) mod fake;
mod found;
pub mod identify;
mod lane;
pub mod memory;
mod physical;
#[cfg(test)]
mod tests;

pub use access::{Access, Capabilities};
pub use admin::{ADMIN_BYTES, ADMIN_WAIT};
pub use controller::{Controller, ABORT_AFTER, MOST_LANES, RESETS, RESET_AFTER, RESET_SPAN, SHUTDOWN_WAIT, TRANSFER};
pub use event::Event;
pub use found::{Found, Needs};
pub use memory::DriveMemory;
pub use physical::Physical;

use super::DriveError;
use std::time::Duration;

/// How a controller that hangs is dealt with. A drive does all of it by itself in `check`; these are for who wants it sooner. None of them waits.
///
/// While a reset goes on the mediator may go on, too: what it puts into a ring is kept aside and reaches the controller afterwards. So its thread has to
/// ring the submission doorbells after each of its steps, before it calls `work` or `check` of the drive.
pub trait Recover {
    /// How long the oldest command of a lane has waited for its completion, or `None` where it has none.
    fn oldest(&self, lane: usize) -> Option<Duration>;

    /// Asks the controller to abort the commands of a lane.
    fn abort(&mut self, lane: usize) -> Result<(), DriveError>;

    /// Begins a reset of the controller: its commands end with Internal Error, and the lanes go on afterwards.
    fn reset(&mut self) -> Result<(), DriveError>;

    /// Whether a reset goes on. Then `work` is to be called again and again.
    fn is_recovering(&self) -> bool;
}

impl<A: Access> Recover for Controller<A> {
    fn oldest(&self, lane: usize) -> Option<Duration> {
        Controller::oldest(self, lane).map(Duration::from_millis)
    }

    fn abort(&mut self, lane: usize) -> Result<(), DriveError> {
        Controller::abort(self, lane)
    }

    fn reset(&mut self) -> Result<(), DriveError> {
        Controller::reset(self)
    }

    fn is_recovering(&self) -> bool {
        Controller::is_recovering(self)
    }
}
