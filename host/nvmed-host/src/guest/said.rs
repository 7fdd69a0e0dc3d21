//! Lines on a guest: its client can cause as many as it likes, so that some a second are enough.

#![forbid(unsafe_code)]

use std::fmt::Display;
use std::time::{Duration, Instant};

/// Lines on a guest in a second.
const MOST: u32 = 8;
const SECOND: Duration = Duration::from_secs(1);

/// Says lines on a guest.
#[derive(Debug)]
pub struct Lines {
    guest: usize,
    since: Instant,
    said: u32,
}

impl Lines {
    /// For the guest of that number.
    pub fn new(guest: usize) -> Self {
        Self {
            guest,
            since: Instant::now(),
            said: 0,
        }
    }

    /// A line on what goes well.
    pub fn say(&mut self, words: impl Display) {
        if self.may() {
            tracing::info!("guest {}: {words}", self.guest);
        }
    }

    /// A line on what went wrong.
    pub fn warn(&mut self, words: impl Display) {
        if self.may() {
            tracing::warn!("guest {}: {words}", self.guest);
        }
    }

    /// Whether a line may be said now. What was left out in the second before is counted.
    fn may(&mut self) -> bool {
        let now = Instant::now();
        if now.saturating_duration_since(self.since) >= SECOND {
            self.count();
            self.since = now;
        }
        self.said = self.said.saturating_add(1);
        self.said <= MOST
    }

    /// Says how many lines were left out.
    pub fn count(&mut self) {
        if let more @ 1.. = self.said.saturating_sub(MOST) {
            tracing::warn!("guest {}: {more} lines like these more", self.guest);
        }
        self.said = 0;
    }
}

#[cfg(test)]
mod tests {
    use super::*;

    #[test]
    fn some_lines_a_second() {
        let mut lines = Lines::new(3);
        let said = (0..100).filter(|_| lines.may()).count();
        assert_eq!(said, MOST as usize);
        assert_eq!(lines.said, 100);
        lines.since = lines.since.checked_sub(SECOND).unwrap();
        assert!(lines.may());
        assert_eq!(lines.said, 1);
        lines.say("words");
        lines.warn("words");
        lines.count();
        assert_eq!(lines.said, 0);
    }
}
