//! A physical controller as a drive, whichever way it is reached.

#![forbid(unsafe_code)]

use std::os::fd::BorrowedFd;

use super::{Access, Controller, Recover};
use crate::drive::{Budget, Drive, DriveError, LaneRings, Progress};

/// A physical controller, and what it is reached by. Each is a [`Drive`].
pub trait Physical: Send {
    /// Accesses of its properties.
    type Access: Access + 'static;

    /// The controller.
    fn controller(&self) -> &Controller<Self::Access>;

    /// The controller, to be used.
    fn controller_mut(&mut self) -> &mut Controller<Self::Access>;

    /// Takes what its connection has to say, before the controller is looked at. It never waits.
    fn hear(&mut self) -> Result<(), DriveError> {
        Ok(())
    }

    /// Looks once a second for what its connection says of the drive itself. It never waits.
    fn hear_of_failures(&mut self) -> Result<(), DriveError> {
        Ok(())
    }

    /// The descriptor of its interrupts, where it has some: else it is polled.
    fn interrupt(&self) -> Option<BorrowedFd<'_>> {
        None
    }

    /// Takes what made that readable.
    fn take_interrupt(&mut self) {}

    /// Where it is, for the operator.
    fn place(&self) -> String;

    /// After it was closed: keeps it from all accesses of the window.
    fn silence(&mut self) -> Result<(), DriveError>;
}

impl<T: Physical> Drive for T {
    fn create_lanes(&mut self, lanes: &[LaneRings]) -> Result<(), DriveError> {
        self.controller_mut().create_lanes(lanes)
    }

    fn ring_submission(&mut self, lane: usize, tail: u32) -> Result<(), DriveError> {
        self.controller_mut().ring_submission(lane, tail)
    }

    fn ring_completion(&mut self, lane: usize, head: u32) -> Result<(), DriveError> {
        self.controller_mut().ring_completion(lane, head)
    }

    fn work(&mut self, _budget: Budget) -> Result<Progress, DriveError> {
        self.hear()?;
        self.controller_mut().work()?;
        Ok(Progress::default())
    }

    fn check(&mut self) -> Result<(), DriveError> {
        self.hear()?;
        self.hear_of_failures()?;
        self.controller_mut().check()
    }

    /// While a reset goes on the drive is to be polled.
    fn wake(&self) -> Option<BorrowedFd<'_>> {
        self.interrupt().filter(|_| !self.controller().is_recovering())
    }

    fn woken(&mut self) {
        self.take_interrupt();
    }

    fn recover(&mut self) -> Option<&mut dyn Recover> {
        Some(self.controller_mut())
    }

    fn describe(&self) -> String {
        let polled = if self.interrupt().is_some() { "" } else { ", polled" };
        format!("{}: {}{polled}", self.place(), self.controller().found())
    }

    fn close(mut self: Box<Self>) -> Result<(), DriveError> {
        let closed = self.controller_mut().close();
        let silent = self.silence();
        closed.and(silent)
    }
}
