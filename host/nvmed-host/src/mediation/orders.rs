//! What an operator asks of the mediator's thread: words of memory, which that thread looks at in each turn. Nobody waits here.

#![forbid(unsafe_code)]

use std::sync::atomic::{AtomicBool, AtomicU64, Ordering};
use std::sync::Arc;

use super::limits::Limit;
use super::wake::Bell;

/// The limits of a guest, 0 where there is none.
#[derive(Debug, Default)]
struct Words {
    iops: AtomicU64,
    bytes: AtomicU64,
}

impl Words {
    fn get(&self) -> Limit {
        let word = |word: &AtomicU64| Some(word.load(Ordering::SeqCst)).filter(|&rate| rate != 0);
        Limit {
            iops: word(&self.iops),
            bytes: word(&self.bytes),
        }
    }

    fn set(&self, limit: Limit) {
        self.iops.store(limit.iops.unwrap_or(0), Ordering::SeqCst);
        self.bytes.store(limit.bytes.unwrap_or(0), Ordering::SeqCst);
    }
}

/// What is asked for.
#[derive(Debug)]
pub struct Orders {
    drain: AtomicBool,
    limits: Vec<Words>,
    /// How often something was asked for, modulo 2^64.
    changes: AtomicU64,
    bell: Arc<Bell>,
}

impl Orders {
    /// Nothing is asked for but these limits of guests, by their numbers. `bell` is that of the mediator's thread.
    #[must_use]
    pub fn new(bell: Arc<Bell>, limits: &[Limit]) -> Self {
        let words = limits.iter().map(|&limit| {
            let words = Words::default();
            words.set(limit);
            words
        });
        Self {
            drain: AtomicBool::new(false),
            limits: words.collect(),
            // the thread has seen none of them
            changes: AtomicU64::new(1),
            bell,
        }
    }

    fn change(&self) {
        self.changes.fetch_add(1, Ordering::SeqCst);
        self.bell.ring();
    }

    /// How often something was asked for.
    #[must_use]
    pub fn changes(&self) -> u64 {
        self.changes.load(Ordering::SeqCst)
    }

    /// No commands of guests are to be taken, or they are to be taken again.
    pub fn drain(&self, on: bool) {
        if self.drain.swap(on, Ordering::SeqCst) != on {
            self.change();
        }
    }

    /// Whether no commands of guests are to be taken.
    #[must_use]
    pub fn is_draining(&self) -> bool {
        self.drain.load(Ordering::SeqCst)
    }

    /// Gives a guest limits.
    pub fn set_limit(&self, guest: usize, limit: Limit) {
        if let Some(words) = self.limits.get(guest) {
            words.set(limit);
            self.change();
        }
    }

    /// The limits of a guest.
    #[must_use]
    pub fn limit(&self, guest: usize) -> Limit {
        self.limits.get(guest).map(Words::get).unwrap_or_default()
    }
}
