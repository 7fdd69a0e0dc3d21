#![forbid(unsafe_code)]
//! The queue of lines, and the thread that writes them.

use std::collections::{BTreeMap, VecDeque};
use std::os::fd::{AsFd, OwnedFd};
use std::sync::{Condvar, Mutex, MutexGuard, PoisonError};
use std::time::{Duration, Instant};

use nix::errno::Errno;
use nix::poll::{poll, PollFd, PollFlags, PollTimeout};
use tracing::Level;

use super::own_line;

/// Lines that a guest has in a window of time.
const GUEST_LINES: u32 = 8;
const WINDOW: Duration = Duration::from_secs(1);
/// Guests whose lines are counted. The lines of those beyond count as the last one's.
const GUESTS: u64 = 256;

/// The lines of a guest in the window that began last.
#[derive(Debug)]
struct Limit {
    since: Instant,
    lines: u32,
    more: u64,
}

#[derive(Debug, Default)]
struct State {
    lines: VecDeque<String>,
    /// Lines that found no room since the last report.
    dropped: u64,
    limits: BTreeMap<u64, Limit>,
    /// The thread has a line in hand.
    writing: bool,
}

#[derive(Debug)]
pub(super) struct Queue {
    room: usize,
    state: Mutex<State>,
    filled: Condvar,
    written: Condvar,
}

impl State {
    /// That lines were dropped is told in their place: after those before them, and before the next one that finds room.
    fn put(&mut self, room: usize, line: String) {
        let wanted = if self.dropped > 0 { 2 } else { 1 };
        if self.lines.len() + wanted > room {
            self.dropped = self.dropped.saturating_add(1);
            return;
        }
        let report = self.report();
        self.lines.extend(report);
        self.lines.push_back(line);
    }

    /// What is to be told of lines that were dropped.
    fn report(&mut self) -> Option<String> {
        let dropped = std::mem::take(&mut self.dropped);
        let line = || {
            own_line(
                Level::WARN,
                None,
                format_args!("{dropped} lines were dropped: nobody read them in time"),
            )
        };
        (dropped > 0).then(line)
    }

    /// Whether a guest has a line left.
    fn allow(&mut self, guest: u64, now: Instant) -> bool {
        let fresh = Limit {
            since: now,
            lines: 0,
            more: 0,
        };
        let limit = self.limits.entry(guest.min(GUESTS)).or_insert(fresh);
        let allowed = limit.lines < GUEST_LINES;
        if allowed {
            limit.lines += 1;
        } else {
            limit.more += 1;
        }
        allowed
    }

    /// Ends the windows that are over, and says what they left out.
    fn end_windows(&mut self, room: usize, now: Instant) {
        let mut over = Vec::new();
        self.limits.retain(|&guest, limit| {
            let goes_on = now.saturating_duration_since(limit.since) < WINDOW;
            if !goes_on && limit.more > 0 {
                over.push((guest, limit.more));
            }
            goes_on
        });
        for (guest, more) in over {
            self.put(
                room,
                own_line(Level::WARN, Some(guest), format_args!("{more} lines like these more")),
            );
        }
    }

    /// The next line to be written.
    fn next(&mut self) -> Option<String> {
        self.lines.pop_front().or_else(|| self.report())
    }
}

impl Queue {
    pub(super) fn new(room: usize) -> Self {
        Self {
            room,
            state: Mutex::default(),
            filled: Condvar::new(),
            written: Condvar::new(),
        }
    }

    fn lock(&self) -> MutexGuard<'_, State> {
        self.state.lock().unwrap_or_else(PoisonError::into_inner)
    }

    /// Puts a line into the queue, if there is room for it, and its guest has not had its share of lines.
    pub(super) fn put(&self, guest: Option<u64>, now: Instant, line: impl FnOnce() -> String) {
        let mut state = self.lock();
        state.end_windows(self.room, now);
        if guest.is_none_or(|guest| state.allow(guest, now)) {
            state.put(self.room, line());
        }
        drop(state);
        self.filled.notify_one();
    }

    /// Waits until all lines are written: whether they are.
    pub(super) fn flush(&self, bound: Duration) -> bool {
        let (mut state, end) = (self.lock(), Instant::now() + bound);
        state.end_windows(self.room, Instant::now() + WINDOW);
        self.filled.notify_one();
        while state.writing || !state.lines.is_empty() || state.dropped > 0 {
            let left = end.saturating_duration_since(Instant::now());
            if left.is_zero() {
                return false;
            }
            state = self
                .written
                .wait_timeout(state, left)
                .unwrap_or_else(PoisonError::into_inner)
                .0;
        }
        true
    }

    /// Takes a line, and waits for one. While windows go on, it looks at them again.
    fn take(&self) -> String {
        let mut state = self.lock();
        loop {
            state.end_windows(self.room, Instant::now());
            if let Some(line) = state.next() {
                state.writing = true;
                return line;
            }
            state = if state.limits.is_empty() {
                self.filled.wait(state).unwrap_or_else(PoisonError::into_inner)
            } else {
                self.filled
                    .wait_timeout(state, WINDOW)
                    .unwrap_or_else(PoisonError::into_inner)
                    .0
            };
        }
    }

    /// Writes lines for ever. What cannot be written is lost.
    pub(super) fn write_to(&self, output: &OwnedFd) {
        loop {
            let line = self.take();
            write_all(output, line.as_bytes());
            self.lock().writing = false;
            self.written.notify_all();
        }
    }
}

/// The descriptor may be somebody else's, too, who made it non-blocking.
fn write_all(output: &OwnedFd, mut bytes: &[u8]) {
    while !bytes.is_empty() {
        match nix::unistd::write(output, bytes) {
            Ok(0) => return,
            Ok(written) => bytes = bytes.get(written..).unwrap_or_default(),
            Err(Errno::EINTR) => {}
            Err(Errno::EAGAIN) => {
                let _ = poll(
                    &mut [PollFd::new(output.as_fd(), PollFlags::POLLOUT)],
                    PollTimeout::NONE,
                );
            }
            Err(_) => return,
        }
    }
}

#[cfg(test)]
mod tests {
    use super::*;

    fn put(queue: &Queue, guest: Option<u64>, now: Instant, line: &str) {
        queue.put(guest, now, || line.to_owned());
    }

    fn lines(queue: &Queue) -> Vec<String> {
        let mut state = queue.lock();
        std::iter::from_fn(|| state.next()).collect()
    }

    #[test]
    fn a_full_queue_drops_and_says_so() {
        let (queue, now) = (Queue::new(3), Instant::now());
        for line in ["a", "b", "c", "d", "e"] {
            put(&queue, None, now, line);
        }
        let told = "WARN  2 lines were dropped: nobody read them in time\n";
        let got = lines(&queue);
        assert_eq!(got[..3], ["a", "b", "c"]);
        assert!(got.len() == 4 && got[3].ends_with(told));
        for line in ["a", "b", "c", "d", "e"] {
            put(&queue, None, now, line);
        }
        let take = || queue.lock().lines.pop_front();
        assert_eq!(take(), Some("a".into()));
        put(&queue, None, now, "f"); // there is no room for the report and this one
        assert_eq!((take(), take()), (Some("b".into()), Some("c".into())));
        put(&queue, None, now, "g");
        let got = lines(&queue);
        assert!(got.len() == 2 && got[0].contains("WARN  3 lines were dropped") && got[1] == "g");
        put(&queue, None, now, "h");
        assert_eq!(lines(&queue), ["h"]);
    }

    #[test]
    fn a_guest_has_so_many_lines_a_second() {
        let (queue, now) = (Queue::new(100), Instant::now());
        for i in 0..20 {
            put(&queue, Some(1), now + WINDOW * i / 40, "one");
        }
        put(&queue, Some(2), now, "two");
        put(&queue, None, now, "none");
        let first = lines(&queue);
        assert_eq!(first.iter().filter(|l| *l == "one").count(), 8);
        assert_eq!(
            first.iter().filter(|l| *l != "one").collect::<Vec<_>>(),
            ["two", "none"]
        );
        put(&queue, Some(1), now + WINDOW, "one");
        let then = lines(&queue);
        assert!(then.len() == 2 && then[0].ends_with("guest 1: 12 lines like these more\n") && then[1] == "one");
    }

    #[test]
    fn guests_of_any_number_need_a_bound_of_memory() {
        let (queue, now) = (Queue::new(10), Instant::now());
        for guest in 0..10_000 {
            put(&queue, Some(guest), now, "");
        }
        assert_eq!(queue.lock().limits.len(), 257);
    }
}
