//! The mediator as this program's loop sees it: the calls of [`nvmed::Mediator`] that it makes, so that tests can have a mediator of their own.

#![forbid(unsafe_code)]

use nvmed::{Event, HostMemory, Mediator, Scope, Seen, Vectors, WorkEnd};

use crate::drive::LaneRings;
use crate::interrupts::VectorSet;

/// Whose events are made.
#[derive(Clone, Copy, Debug, PartialEq, Eq)]
pub enum Of {
    /// A guest's: its admin commands; its commands that wait are taken, planned and put into the lanes' rings.
    Guest(usize),
    /// A lane's: the drive's completions, and those for guests.
    Lane(usize),
}

/// What a call of [`Side::work`] did.
#[derive(Clone, Copy, Debug, PartialEq, Eq)]
pub struct Worked {
    /// Events that were made.
    pub done: u64,
    /// Why there were no more.
    pub end: WorkEnd,
}

/// A lane's rings, and what the drive's doorbells are to have.
#[derive(Clone, Copy, Debug, PartialEq, Eq)]
pub struct Rings {
    /// Where they lie.
    pub at: LaneRings,
    /// The tail of the submission ring.
    pub tail: u32,
    /// The head of the completion ring.
    pub head: u32,
}

/// A mediator for guests and lanes that are numbered from 0. A guest can choose vectors that it has not, which are left out of sets.
pub trait Side: Send {
    /// The 32 bits of a guest's register.
    fn read(&mut self, guest: usize, offset: u32) -> u32;

    /// Writes them. A write that the controller ignores is ignored.
    fn write(&mut self, guest: usize, offset: u32, value: u32);

    /// Writes a guest's doorbell, at its offset in BAR0. Whether there is such a doorbell, and the value is in range.
    fn doorbell(&mut self, guest: usize, offset: u32, value: u32) -> bool;

    /// Makes events that are due, `most` at most.
    fn work(&mut self, of: Of, most: u64) -> Worked;

    /// Carries out one admin command of a guest, or the deletion of a queue that waits, and takes nothing of its I/O queues. Whether there was one.
    fn admin(&mut self, guest: usize) -> bool;

    /// A lane's rings, or `None` where there is no such lane.
    fn rings(&mut self, lane: usize) -> Option<Rings>;

    /// The vectors that are pending.
    fn pending(&mut self, guest: usize) -> VectorSet;

    /// The vectors whose queues got completions since the last call, or a doorbell that leaves some.
    fn posted(&mut self, guest: usize) -> VectorSet;

    /// Closes a lane: what was on its way ends with Internal Error. The drive was stopped before.
    fn close_lane(&mut self, lane: usize);
}

/// The mediator of the library.
pub struct Library<M: HostMemory> {
    mediator: Mediator<M>,
    seen: Seen,
}

impl<M: HostMemory> Library<M> {
    /// One that is set up.
    pub fn new(mediator: Mediator<M>) -> Self {
        Self {
            mediator,
            seen: Seen::new(),
        }
    }
}

/// Numbers of guests and lanes are small.
fn number(of: usize) -> u32 {
    u32::try_from(of).unwrap_or(u32::MAX)
}

/// The set of those vectors that a function of 16 vectors or fewer can have.
fn set(vectors: &Vectors) -> VectorSet {
    let bits = vectors.iter().filter(|&v| v < 16).fold(0, |set, v| set | 1 << v);
    VectorSet::from_bits(bits)
}

impl<M: HostMemory> Side for Library<M> {
    fn read(&mut self, guest: usize, offset: u32) -> u32 {
        self.mediator.reg_read(number(guest), offset).unwrap_or(0)
    }

    fn write(&mut self, guest: usize, offset: u32, value: u32) {
        // the controller ignores what cannot be written, as NVMe has it
        let _ignored = self.mediator.reg_write(number(guest), offset, value);
    }

    fn doorbell(&mut self, guest: usize, offset: u32, value: u32) -> bool {
        self.mediator.doorbell(number(guest), offset, value).is_ok()
    }

    fn work(&mut self, of: Of, most: u64) -> Worked {
        let scope = match of {
            Of::Guest(guest) => Scope::Guest(number(guest)),
            Of::Lane(lane) => Scope::Lane(number(lane)),
        };
        let worked = self.mediator.work(scope, most);
        Worked {
            done: worked.done,
            end: worked.end,
        }
    }

    fn admin(&mut self, guest: usize) -> bool {
        let guest = number(guest);
        self.mediator.step(&Event::Admin { guest }).is_ok()
    }

    fn rings(&mut self, lane: usize) -> Option<Rings> {
        let rings = self.mediator.rings(number(lane)).ok()?;
        Some(Rings {
            at: LaneRings {
                submission: rings.submission,
                completion: rings.completion,
                entries: rings.entries,
            },
            tail: rings.tail,
            head: rings.head,
        })
    }

    fn pending(&mut self, guest: usize) -> VectorSet {
        self.mediator
            .pending(number(guest))
            .map_or_else(|_none| VectorSet::default(), |v| set(&v))
    }

    fn posted(&mut self, guest: usize) -> VectorSet {
        self.mediator
            .posted(number(guest), &mut self.seen)
            .map_or_else(|_none| VectorSet::default(), |v| set(&v))
    }

    fn close_lane(&mut self, lane: usize) {
        // a lane that is not there has nothing to be closed
        let _none = self.mediator.close_lane(number(lane));
    }
}
