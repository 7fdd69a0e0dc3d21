//! A stub in the place of the library, for tests of programs over it. It is no mediator: it moves no byte between guests and a drive.
//!
//! It refuses the set-ups that the library refuses, keeps a few registers of each guest (`CSTS.RDY` follows `CC.EN`), takes doorbells of controllers that
//! are ready, and records its calls. What [`Mediator::work`](crate::Mediator::work) does a test says beforehand: [`Control::plan`] queues a [`Turn`],
//! and each call of `work` carries out one.

pub(crate) mod calls;
mod refusals;
mod state;
#[cfg(test)]
mod tests;

use crate::{Event, Scope, WorkEnd};
use state::{Shared, State};
use std::sync::{Arc, MutexGuard, PoisonError};

/// A call that the stub got, as it was answered: `good` says whether it was done.
#[derive(Debug, Clone, Copy, PartialEq, Eq)]
#[allow(missing_docs)]
pub enum Call {
    RegRead {
        guest: u32,
        offset: u32,
        good: bool,
    },
    RegWrite {
        guest: u32,
        offset: u32,
        value: u32,
        good: bool,
    },
    Doorbell {
        guest: u32,
        offset: u32,
        value: u32,
        good: bool,
    },
    Work {
        scope: Scope,
        most: u64,
        done: u64,
    },
    Step {
        event: Event,
        good: bool,
    },
    Share {
        guest: u32,
        tags: u32,
        good: bool,
    },
    CloseLane {
        lane: u32,
        good: bool,
    },
    Store {
        guest: u32,
        address: u64,
        bytes: u64,
        good: bool,
    },
    Load {
        guest: u32,
        address: u64,
        bytes: u64,
        good: bool,
    },
}

/// A completion that was posted into a guest's completion queue.
#[derive(Debug, Clone, Copy, PartialEq, Eq)]
pub struct Post {
    /// The guest.
    pub guest: u32,
    /// Its completion queue, 0 to 8.
    pub queue: u32,
    /// The vector of the queue.
    pub vector: u16,
}

/// What one call of `work` does.
#[derive(Debug, Clone, PartialEq, Eq)]
pub struct Turn {
    /// How many events it reports, if `most` is not less.
    pub done: u64,
    /// How it ends.
    pub end: WorkEnd,
    /// Lanes, and the values that their tails have then.
    pub tails: Vec<(u32, u32)>,
    /// Lanes, and the values that their heads have then.
    pub heads: Vec<(u32, u32)>,
    /// Completions that are posted.
    pub posts: Vec<Post>,
    /// Guests whose controllers' commands have run out after a reset ([`Control::hold_ready`]).
    pub run_out: Vec<u32>,
}

impl Default for Turn {
    /// One event without effect.
    fn default() -> Self {
        Turn {
            done: 1,
            end: WorkEnd::Done,
            tails: Vec::new(),
            heads: Vec::new(),
            posts: Vec::new(),
            run_out: Vec::new(),
        }
    }
}

/// A test's hand on a stub. It may be used from any thread, and after the mediator's end.
#[derive(Debug, Clone)]
pub struct Control(Shared);

impl Control {
    fn state(&self) -> MutexGuard<'_, State> {
        self.0.lock().unwrap_or_else(PoisonError::into_inner)
    }

    /// Queues what a later call of `work` does. Where nothing is queued it does nothing.
    pub fn plan(&self, turn: Turn) {
        self.state().turns.push_back(turn);
    }

    /// How many turns are queued.
    pub fn planned(&self) -> usize {
        self.state().turns.len()
    }

    /// Posts a completion at once, as if a call of `work` had done it.
    pub fn post(&self, post: Post) {
        self.state().post(&post);
    }

    /// The calls since this was asked last: the latest 65,536 of them.
    pub fn take_calls(&self) -> Vec<Call> {
        self.state().calls.drain(..).collect()
    }

    /// Gives a guest's register a value. `CC` and `CSTS` are 14h and 1Ch.
    pub fn set_register(&self, guest: u32, offset: u32, value: u32) {
        self.state().set_register(guest, offset, value);
    }

    /// Whether the guest's controller stays ready after `CC.EN` = 0, as while its commands run out, until a turn says that they have, or `hold` is false.
    pub fn hold_ready(&self, guest: u32, hold: bool) {
        self.state().hold_ready(guest, hold);
    }

    /// The share of tags of each guest.
    pub fn shares(&self) -> Vec<u32> {
        self.state().guests.iter().map(|guest| guest.share).collect()
    }

    /// Whether the mediator was freed.
    pub fn is_freed(&self) -> bool {
        self.state().freed
    }
}

/// The hand on the stub of a handle.
pub(crate) fn control_of(handle: &crate::sys::Handle) -> Control {
    Control(Arc::clone(calls::shared(handle)))
}
