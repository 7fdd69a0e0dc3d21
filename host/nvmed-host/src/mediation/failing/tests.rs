//! Drives that are stopped, each in its own way.

use std::sync::mpsc::{channel, Receiver};
use std::thread;

use super::*;
use crate::drive::{Budget, LaneRings, Progress};

/// What a drive does when it is closed.
enum Close {
    Well,
    WithAnError,
    /// It panics, as no drive should.
    ByItself,
    /// It waits until it is let go.
    Late(Receiver<()>),
}

struct Closing(Close);

impl Drive for Closing {
    fn create_lanes(&mut self, _lanes: &[LaneRings]) -> Result<(), DriveError> {
        Ok(())
    }

    fn ring_submission(&mut self, _lane: usize, _tail: u32) -> Result<(), DriveError> {
        Ok(())
    }

    fn ring_completion(&mut self, _lane: usize, _head: u32) -> Result<(), DriveError> {
        Ok(())
    }

    fn work(&mut self, _budget: Budget) -> Result<Progress, DriveError> {
        Ok(Progress::default())
    }

    fn check(&mut self) -> Result<(), DriveError> {
        Ok(())
    }

    fn wake(&self) -> Option<std::os::fd::BorrowedFd<'_>> {
        None
    }

    fn describe(&self) -> String {
        String::new()
    }

    fn close(self: Box<Self>) -> Result<(), DriveError> {
        match self.0 {
            Close::Well => Ok(()),
            Close::WithAnError => Err(DriveError::Failed("it does not flush".to_owned())),
            Close::ByItself => panic!("a drive that panics"),
            Close::Late(gate) => {
                let _open = gate.recv();
                Ok(())
            }
        }
    }
}

fn stopping(close: Close, now: Instant) -> Disk {
    let mut disk = Disk::Good(Box::new(Closing(close)));
    assert!(disk.good().is_some() && matches!(disk.look(now), Stopped::No));
    disk.stop(now);
    assert!(disk.good().is_none());
    disk
}

/// Looks until it has stopped, with a clock that stands still.
fn stopped(disk: &mut Disk, now: Instant) -> Option<String> {
    for _ in 0..10_000 {
        if let Stopped::Now(words) = disk.look(now) {
            return words;
        }
        thread::sleep(Duration::from_millis(1));
    }
    panic!("it does not stop");
}

#[test]
fn what_became_of_a_drive_has_words() {
    let now = Instant::now();
    for (close, words) in [
        (Close::Well, None),
        (Close::WithAnError, Some("it does not flush")),
        (
            Close::ByItself,
            Some("it could not be stopped: its thread has ended by itself"),
        ),
    ] {
        let mut disk = stopping(close, now);
        let found = stopped(&mut disk, now);
        assert_eq!(found.is_some(), words.is_some(), "{found:?}");
        assert!(found.unwrap_or_default().contains(words.unwrap_or_default()));
        // once
        assert_eq!(disk.look(now), Stopped::No);
        assert!(!disk.is_over(now) && disk.is_over(now + ANSWERED));
    }
}

#[test]
fn a_drive_that_does_not_stop_is_given_up() {
    let now = Instant::now();
    let (open, gate) = channel();
    let mut disk = stopping(Close::Late(gate), now);
    assert_eq!(disk.look(now + STOPPING - Duration::from_millis(1)), Stopped::No);
    assert!(!disk.is_over(now + STOPPING));
    let words = "it could not be stopped for 15 seconds".to_owned();
    assert_eq!(disk.look(now + STOPPING), Stopped::Now(Some(words)));
    // a second stop, and a second look, change nothing
    disk.stop(now + STOPPING);
    assert_eq!(disk.look(now + STOPPING), Stopped::No);
    assert!(disk.is_over(now + STOPPING + ANSWERED));
    drop(open);
}

/// There was no thread to be had.
#[test]
fn a_drive_that_could_not_be_stopped_at_all() {
    let now = Instant::now();
    let mut disk = Disk::Stopping(None, now);
    let Stopped::Now(Some(words)) = disk.look(now) else {
        panic!("nothing is said of it")
    };
    assert_eq!(words, "it could not be stopped: there is no thread to be had");
}
