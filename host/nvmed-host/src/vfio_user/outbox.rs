//! Replies that wait to be sent.

#![forbid(unsafe_code)]

use std::collections::VecDeque;
use std::os::fd::{AsFd, BorrowedFd, OwnedFd};
use std::sync::Arc;

use super::wire::MESSAGE_MAX;

/// Most bytes of replies that wait: two of the longest.
pub const UNSENT_MAX: usize = 2 * MESSAGE_MAX;

#[derive(Debug)]
struct Frame {
    bytes: Vec<u8>,
    sent: usize,
    descriptor: Option<Arc<OwnedFd>>,
}

/// Replies that wait to be sent, in order.
#[derive(Debug, Default)]
pub struct Outbox {
    frames: VecDeque<Frame>,
    bytes: usize,
}

impl Outbox {
    /// Adds a reply, and a descriptor that goes with its first byte. Where there are too many that wait, it says false and adds nothing.
    #[must_use]
    pub fn push(&mut self, bytes: Vec<u8>, descriptor: Option<Arc<OwnedFd>>) -> bool {
        if bytes.len() > UNSENT_MAX - self.bytes {
            return false;
        }
        self.bytes += bytes.len();
        self.frames.push_back(Frame {
            bytes,
            sent: 0,
            descriptor,
        });
        true
    }

    /// What is to be sent next in one `sendmsg`.
    pub fn front(&self) -> Option<(&[u8], Option<BorrowedFd<'_>>)> {
        let frame = self.frames.front()?;
        let rest = frame.bytes.get(frame.sent..).unwrap_or_default();
        Some((rest, frame.descriptor.as_ref().map(|descriptor| descriptor.as_fd())))
    }

    /// Says that so many bytes of it were sent, with its descriptor.
    pub fn sent(&mut self, count: usize) {
        let Some(frame) = self.frames.front_mut() else { return };
        let count = count.min(frame.bytes.len() - frame.sent);
        frame.sent += count;
        frame.descriptor = None;
        self.bytes -= count;
        if frame.sent == frame.bytes.len() {
            self.frames.pop_front();
        }
    }
}
