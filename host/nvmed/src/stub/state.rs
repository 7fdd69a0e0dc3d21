#![forbid(unsafe_code)]
//! What a stub keeps.

use super::{Call, Post, Turn};
use crate::interrupts::VECTORS;
use crate::setup::Lists;
use crate::sys;
use crate::AREA_BYTES_PER_LANE;
use std::collections::{BTreeMap, VecDeque};
use std::sync::{Arc, Mutex};

pub(super) type Shared = Arc<Mutex<State>>;

/// How many calls are kept.
const CALLS: usize = 65_536;
/// Tags of a lane.
const TAGS: u32 = 64;
/// Slots of a ring, and the bytes of a submission ring in whole pages.
const RING_SLOTS: u32 = 65;
const RING_BYTES: u64 = 8192;

const CC: u32 = 0x14;
const CSTS: u32 = 0x1c;
const READY: u32 = 1;

#[derive(Debug, Default)]
pub(super) struct Guest {
    pub(super) extents: u32,
    pub(super) share: u32,
    pub(super) registers: BTreeMap<u32, u32>,
    pub(super) holds: bool,
    /// The vector of each completion queue that has completions which were not acknowledged.
    pub(super) pending: [Option<u16>; VECTORS],
    /// How often each completion queue has changed.
    pub(super) changes: [u64; VECTORS],
    pub(super) regions: Vec<(u64, u64, u64)>,
}

impl Guest {
    /// Of each queue that has changed since it was seen the vector that is pending, counted from 1; and keeps what is there.
    pub(super) fn posted(&self, seen: &mut [sys::Standing], vectors: &mut [u32]) {
        let queues = self.changes.iter().zip(&self.pending);
        for ((changes, pending), (last, vector)) in queues.zip(seen.iter_mut().zip(vectors)) {
            let [size, tail, head, phase] = [0, 16, 32, 48].map(|from| (changes >> from) as u16);
            let now = sys::Standing {
                size,
                tail,
                head,
                phase,
            };
            let news = pending.filter(|_| now != *last);
            *vector = news.map_or(0, |raised| u32::from(raised) + 1);
            *last = now;
        }
    }
}

#[derive(Debug)]
pub(super) struct State {
    pub(super) guests: Vec<Guest>,
    pub(super) lanes: Vec<sys::LaneRings>,
    pub(super) turns: VecDeque<Turn>,
    pub(super) calls: VecDeque<Call>,
    pub(super) freed: bool,
}

impl State {
    pub(super) fn of(lists: &Lists) -> Self {
        let own = |guest: usize| Guest {
            extents: lists.extents.iter().filter(|e| e.guest == guest as u64).count() as u32,
            regions: lists
                .regions
                .iter()
                .filter(|r| r.guest == guest as u64)
                .map(|r| (r.address, r.host, r.bytes))
                .collect(),
            ..Guest::default()
        };
        let mut guests: Vec<Guest> = (0..lists.limits.len()).map(own).collect();
        let least: u32 = guests.iter().map(|guest| guest.extents).sum();
        let part = TAGS.saturating_sub(least) / (guests.len() as u32).max(1);
        for guest in &mut guests {
            guest.share = guest.extents + part;
        }
        State {
            guests,
            lanes: (0..lists.sizes.lanes)
                .map(|lane| rings_at(lists.sizes.mediator, lane))
                .collect(),
            turns: VecDeque::new(),
            calls: VecDeque::new(),
            freed: false,
        }
    }

    pub(super) fn note(&mut self, call: Call) {
        if self.calls.len() == CALLS {
            self.calls.pop_front();
        }
        self.calls.push_back(call);
    }

    pub(super) fn register(&self, guest: u32, offset: u32) -> Option<u32> {
        let guest = self.guests.get(guest as usize)?;
        (offset % 4 == 0).then(|| guest.registers.get(&offset).copied().unwrap_or(0))
    }

    pub(super) fn set_register(&mut self, guest: u32, offset: u32, value: u32) {
        if let Some(guest) = self.guests.get_mut(guest as usize) {
            guest.registers.insert(offset, value);
        }
    }

    /// A guest's write: `CSTS` can't be written, and follows `CC.EN`.
    pub(super) fn write_register(&mut self, guest: u32, offset: u32, value: u32) -> bool {
        let Some(guest) = self.guests.get_mut(guest as usize) else {
            return false;
        };
        if offset % 4 != 0 || offset == CSTS || offset >= 0x1000 {
            return false;
        }
        guest.registers.insert(offset, value);
        if offset == CC {
            if value & 1 != 0 {
                guest.registers.insert(CSTS, READY);
            } else {
                guest.pending = [None; VECTORS];
                guest.changes.iter_mut().for_each(|changes| *changes += 1);
                if !guest.holds {
                    guest.registers.insert(CSTS, 0);
                }
            }
        }
        true
    }

    pub(super) fn hold_ready(&mut self, guest: u32, hold: bool) {
        if let Some(guest) = self.guests.get_mut(guest as usize) {
            guest.holds = hold;
            if !hold && guest.registers.get(&CC).copied().unwrap_or(0) & 1 == 0 {
                guest.registers.insert(CSTS, 0);
            }
        }
    }

    /// A doorbell of a controller that is ready: that of a completion queue's head acknowledges what is there.
    pub(super) fn doorbell(&mut self, guest: u32, offset: u32) -> bool {
        let Some(guest) = self.guests.get_mut(guest as usize) else {
            return false;
        };
        let index = offset.wrapping_sub(0x1000) / 4;
        let queue = index as usize / 2;
        let ready = [CC, CSTS]
            .iter()
            .all(|at| guest.registers.get(at).copied().unwrap_or(0) & 1 != 0);
        if offset < 0x1000 || offset % 4 != 0 || queue >= VECTORS || !ready {
            return false;
        }
        if let (1, Some(pending), Some(changes)) =
            (index % 2, guest.pending.get_mut(queue), guest.changes.get_mut(queue))
        {
            *pending = None;
            *changes += 1;
        }
        true
    }

    pub(super) fn post(&mut self, post: &Post) {
        let Some(guest) = self.guests.get_mut(post.guest as usize) else {
            return;
        };
        let queue = post.queue as usize;
        if let (Some(pending), Some(changes)) = (guest.pending.get_mut(queue), guest.changes.get_mut(queue)) {
            *pending = Some(post.vector);
            *changes += 1;
        }
    }

    /// Carries out the next turn: how many events it reports, and the status.
    pub(super) fn work(&mut self, most: u64) -> (u64, u32) {
        let Some(turn) = self.turns.pop_front() else {
            return (0, 0);
        };
        for &(lane, tail) in &turn.tails {
            if let Some(rings) = self.lanes.get_mut(lane as usize) {
                rings.tail = tail % RING_SLOTS;
            }
        }
        for &(lane, head) in &turn.heads {
            if let Some(rings) = self.lanes.get_mut(lane as usize) {
                rings.head = head % RING_SLOTS;
            }
        }
        for post in &turn.posts {
            self.post(post);
        }
        for &guest in &turn.run_out {
            self.hold_ready(guest, false);
        }
        (turn.done.min(most), super::calls::status_of(turn.end))
    }

    /// Gives a share, or says why not.
    pub(super) fn share(&mut self, guest: u32, tags: u32) -> u32 {
        use crate::error::status;
        let Some(own) = self.guests.get(guest as usize) else {
            return status::IGNORED;
        };
        let all: u32 = self.guests.iter().map(|guest| guest.share).sum();
        if tags < own.extents || (all - own.share).saturating_add(tags) > TAGS {
            return status::BAD_SIZE;
        }
        if let Some(own) = self.guests.get_mut(guest as usize) {
            own.share = tags;
        }
        status::OK
    }

    /// The host address of these bytes of a guest, where they lie in one region.
    pub(super) fn host_of(&self, guest: u32, address: u64, bytes: u64) -> Option<u64> {
        let regions = &self.guests.get(guest as usize)?.regions;
        regions.iter().find_map(|&(from, host, length)| {
            let offset = address.checked_sub(from)?;
            (offset.checked_add(bytes)? <= length).then_some(host + offset)
        })
    }
}

fn rings_at(area: u64, lane: u64) -> sys::LaneRings {
    let submission = area + lane * AREA_BYTES_PER_LANE;
    sys::LaneRings {
        submission,
        completion: submission + RING_BYTES,
        entries: RING_SLOTS,
        ..sys::LaneRings::default()
    }
}
