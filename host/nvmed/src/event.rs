#![forbid(unsafe_code)]
//! What the mediator does by itself: one event, or all that is due.

use crate::sys;

/// An event that is no guest's act, for hosts that choose an order of their own ([`Mediator::step`](crate::Mediator::step)). Others call
/// [`Mediator::work`](crate::Mediator::work), which makes those that are due.
///
/// The interface for C has five more, of a simulated drive; over the memory and the drive of a host there are none of these.
#[derive(Debug, Clone, Copy, PartialEq, Eq)]
pub enum Event {
    /// One admin command of a guest, or its deletion that waits.
    Admin {
        /// The guest.
        guest: u32,
    },
    /// The front entry of a guest's I/O queue gets tags of a lane.
    Take {
        /// The guest.
        guest: u32,
        /// The I/O queue, 1 to 8.
        queue: u32,
        /// The lane.
        lane: u32,
    },
    /// Bytes of a guest's memory, of a list, are read for a tag's command.
    List {
        /// The lane.
        lane: u32,
        /// The tag.
        tag: u32,
        /// The guest address of the first byte.
        address: u64,
        /// How many bytes.
        bytes: u64,
    },
    /// A tag's command is carried out, as far as the mediator does it: its entries are in the lane's ring then.
    Submit {
        /// The lane.
        lane: u32,
        /// The tag.
        tag: u32,
    },
    /// A tag's command, which was not submitted, ends with Internal Error.
    GiveUp {
        /// The lane.
        lane: u32,
        /// The tag.
        tag: u32,
    },
    /// The next completion of the drive ends its tag.
    Reap {
        /// The lane.
        lane: u32,
    },
    /// A tag's command is completed for its guest.
    Post {
        /// The lane.
        lane: u32,
        /// The tag.
        tag: u32,
    },
}

impl Event {
    /// The event as C names it: `enum nvmed_kind`, and the members that this kind looks at.
    pub(crate) fn raw(self) -> sys::Event {
        let none = sys::Event::default();
        match self {
            Event::Admin { guest } => sys::Event { kind: 1, guest, ..none },
            Event::Take { guest, queue, lane } => sys::Event {
                kind: 2,
                guest,
                queue,
                lane,
                ..none
            },
            Event::List {
                lane,
                tag,
                address,
                bytes,
            } => sys::Event {
                kind: 3,
                lane,
                tag,
                address,
                bytes,
                ..none
            },
            Event::Submit { lane, tag } => sys::Event {
                kind: 4,
                lane,
                tag,
                ..none
            },
            Event::GiveUp { lane, tag } => sys::Event {
                kind: 5,
                lane,
                tag,
                ..none
            },
            Event::Reap { lane } => sys::Event { kind: 11, lane, ..none },
            Event::Post { lane, tag } => sys::Event {
                kind: 12,
                lane,
                tag,
                ..none
            },
        }
    }
}

/// Of whom [`Mediator::work`](crate::Mediator::work) does what is due.
#[derive(Debug, Clone, Copy, PartialEq, Eq)]
pub enum Scope {
    /// A guest: its admin commands, and its commands that wait, which are taken and planned.
    Guest(u32),
    /// A lane: its completions, and those for guests.
    Lane(u32),
    /// All guests and lanes. A guest gets at most 64 events before the next guest or lane that has something.
    All,
}

impl Scope {
    /// The scope as C names it: `enum nvmed_scope`, and the number of the guest or lane.
    pub(crate) fn raw(self) -> (u32, u32) {
        match self {
            Scope::Guest(number) => (1, number),
            Scope::Lane(number) => (2, number),
            Scope::All => (3, 0),
        }
    }
}

/// What a call of [`Mediator::work`](crate::Mediator::work) did.
#[derive(Debug, Clone, Copy, PartialEq, Eq)]
#[must_use]
pub struct Work {
    /// How many events it made.
    pub done: u64,
    /// Why it made no more.
    pub end: WorkEnd,
}

/// Why a call of [`Mediator::work`](crate::Mediator::work) ended.
#[derive(Debug, Clone, Copy, PartialEq, Eq)]
pub enum WorkEnd {
    /// It made as many events as it was to make at most; or fewer, and nothing of that scope is left to be done.
    Done,
    /// There was no memory (`malloc`) for what is left, or for the plan of a command: that was given up then, and ends with Internal Error. The other
    /// commands go on at the next call.
    OutOfMemory,
    /// A completion of the drive names no command that it has. The drive can't be relied on: stop it, and close its lanes
    /// ([`Mediator::close_lane`](crate::Mediator::close_lane)).
    Stray,
}

#[cfg(test)]
mod tests {
    use super::*;

    #[test]
    fn an_event_has_the_kind_of_the_header_and_its_members_alone() {
        let members = |e: Event| {
            let raw = e.raw();
            assert_eq!((raw.slot, raw.status, raw.dnr, raw.number), (0, 0, 0, 0));
            [
                raw.kind,
                raw.guest,
                raw.queue,
                raw.lane,
                raw.tag,
                raw.address as u32,
                raw.bytes as u32,
            ]
        };
        assert_eq!(members(Event::Admin { guest: 3 }), [1, 3, 0, 0, 0, 0, 0]);
        assert_eq!(
            members(Event::Take {
                guest: 3,
                queue: 4,
                lane: 5
            }),
            [2, 3, 4, 5, 0, 0, 0]
        );
        let list = Event::List {
            lane: 5,
            tag: 6,
            address: 7,
            bytes: 8,
        };
        assert_eq!(members(list), [3, 0, 0, 5, 6, 7, 8]);
        assert_eq!(members(Event::Submit { lane: 5, tag: 6 }), [4, 0, 0, 5, 6, 0, 0]);
        assert_eq!(members(Event::GiveUp { lane: 5, tag: 6 }), [5, 0, 0, 5, 6, 0, 0]);
        assert_eq!(members(Event::Reap { lane: 5 }), [11, 0, 0, 5, 0, 0, 0]);
        assert_eq!(members(Event::Post { lane: 5, tag: 6 }), [12, 0, 0, 5, 6, 0, 0]);
    }

    #[test]
    fn a_scope_has_the_number_of_the_header() {
        assert_eq!(Scope::Guest(7).raw(), (1, 7));
        assert_eq!(Scope::Lane(5).raw(), (2, 5));
        assert_eq!(Scope::All.raw(), (3, 0));
    }
}
