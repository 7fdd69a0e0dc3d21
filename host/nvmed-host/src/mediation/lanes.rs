//! The lanes between mediator and drive: doorbells, and whose commands the drive has.
//!
//! A guest's work and a lane's work are calls of their own, so each entry that a guest's work puts into a ring is that guest's, a Flush and a Dataset Management
//! among them. What the drive writes is not trusted: a completion with another identifier makes the counts wrong for a while, and nothing else.

#![forbid(unsafe_code)]

use std::sync::Arc;
use std::time::{Duration, Instant};

use vm_memory::Bytes;

use super::side::{Rings, Side};
use crate::board::Board;
use crate::drive::{Drive, DriveError, LaneRings};
use crate::figures::Command;
use crate::memory::Window;

/// Bytes of an entry of a submission ring, and of one of a completion ring (NVMe Base, "Queue Entry Size").
pub const ENTRY: usize = 64;
const COMPLETION: usize = 16;
/// Identifiers of commands in a lane: those of its tags.
const IDENTIFIERS: usize = 64;
/// Where the dword lies in a completion that has the identifier and the status.
const DWORD_3: u64 = 12;

/// A lane, as the drive was told of it last.
#[derive(Debug)]
struct Lane {
    at: LaneRings,
    /// What the mediator's rings have.
    tail: u32,
    head: u32,
    /// What the drive's doorbells have.
    told_tail: u32,
    told_head: u32,
    /// Commands that the drive has.
    flying: u32,
    /// When it last answered, or got the first of these.
    since: Instant,
    /// Whose they are: the guest's number and 1, or 0.
    owners: [u8; IDENTIFIERS],
    /// What they do, and when they were taken.
    commands: [(Command, Instant); IDENTIFIERS],
}

/// What came to the drive.
#[derive(Clone, Copy, Debug, Default, PartialEq, Eq)]
pub struct Sent {
    /// Entries.
    pub commands: u64,
    /// Bytes that they move.
    pub bytes: u64,
}

/// All lanes.
#[derive(Debug)]
pub struct Lanes {
    lanes: Vec<Lane>,
    window: Arc<Window>,
    /// Commands that the drive has of each guest.
    counts: Vec<u32>,
    board: Arc<Board>,
}

/// From one place of a ring to another.
fn steps(from: u32, to: u32, entries: u32) -> u32 {
    if entries == 0 {
        return 0;
    }
    let (from, to) = (from % entries, to % entries);
    (to + entries - from) % entries
}

impl Lane {
    fn new(rings: Rings, now: Instant) -> Self {
        Self {
            at: rings.at,
            tail: rings.tail,
            head: rings.head,
            told_tail: rings.tail,
            told_head: rings.head,
            flying: 0,
            since: now,
            owners: [0; IDENTIFIERS],
            commands: [(Command::default(), now); IDENTIFIERS],
        }
    }
}

impl Lanes {
    /// The lanes of a mediator with so many guests.
    pub fn new(side: &mut dyn Side, lanes: usize, window: Arc<Window>, board: Arc<Board>, now: Instant) -> Self {
        let lanes = (0..lanes)
            .map_while(|lane| side.rings(lane))
            .map(|rings| Lane::new(rings, now));
        Self {
            lanes: lanes.collect(),
            window,
            counts: vec![0; board.guests.len()],
            board,
        }
    }

    /// How many there are.
    #[must_use]
    pub fn len(&self) -> usize {
        self.lanes.len()
    }

    /// Whether there is none.
    #[must_use]
    pub fn is_empty(&self) -> bool {
        self.lanes.is_empty()
    }

    /// The rings, for the drive's queues.
    #[must_use]
    pub fn rings(&self) -> Vec<LaneRings> {
        self.lanes.iter().map(|lane| lane.at).collect()
    }

    /// Looks for the entries that the work of `guest` has put into the rings by now, and shows each to `seen`. What they are together.
    pub fn note_sent(
        &mut self,
        side: &mut dyn Side,
        guest: usize,
        now: Instant,
        seen: &mut dyn FnMut(&[u8; ENTRY]),
    ) -> Sent {
        let mut sent = Sent::default();
        let owner = u8::try_from(guest + 1).unwrap_or(0);
        for (number, lane) in self.lanes.iter_mut().enumerate() {
            let Some(rings) = side.rings(number) else {
                continue;
            };
            let entries = lane.at.entries;
            for i in 0..steps(lane.tail, rings.tail, entries) {
                let at = u64::from((lane.tail + i) % entries) * ENTRY as u64;
                let mut entry = [0; ENTRY];
                read(&self.window, lane.at.submission + at, &mut entry);
                let identifier = usize::from(u16::from_le_bytes([entry[2], entry[3]])) % IDENTIFIERS;
                give(&mut lane.owners, &mut self.counts, identifier, owner);
                let command = Command::of(&entry);
                if let Some(place) = lane.commands.get_mut(identifier) {
                    *place = (command, now);
                }
                lane.flying += 1;
                sent.commands += 1;
                sent.bytes += u64::from(command.bytes);
                seen(&entry);
            }
            lane.tail = rings.tail;
        }
        sent
    }

    /// Looks for the completions that the work of a lane has read. The drive does not write over them before its doorbell is rung.
    pub fn note_answered(&mut self, side: &mut dyn Side, number: usize, now: Instant) {
        let (Some(lane), Some(rings)) = (self.lanes.get_mut(number), side.rings(number)) else {
            return;
        };
        let entries = lane.at.entries;
        let answered = steps(lane.head, rings.head, entries);
        for i in 0..answered {
            let at = u64::from((lane.head + i) % entries) * COMPLETION as u64;
            let mut dword = [0; 4];
            read(&self.window, lane.at.completion + at + DWORD_3, &mut dword);
            let identifier = usize::from(u16::from_le_bytes([dword[0], dword[1]])) % IDENTIFIERS;
            // the lowest bit is the phase tag
            let error = u16::from_le_bytes([dword[2], dword[3]]) >> 1 != 0;
            let owner = give(&mut lane.owners, &mut self.counts, identifier, 0);
            let guest = owner.and_then(|guest| self.board.guests.get(guest));
            if let (Some(shown), Some((command, taken))) = (guest, lane.commands.get(identifier)) {
                let time = now.saturating_duration_since(*taken);
                shown.figures.note(*command, error, Some(time));
            }
        }
        if let Some(shown) = self.board.lanes.get(number) {
            shown.commands.add(answered.into());
        }
        if answered != 0 {
            lane.head = rings.head;
            lane.flying = lane.flying.saturating_sub(answered);
            lane.since = now;
        }
        if lane.flying == 0 {
            forget(&mut lane.owners, &mut self.counts);
        }
    }

    /// Rings the drive's doorbells that are to have another value.
    ///
    /// # Errors
    ///
    /// Those of the drive.
    pub fn ring(&mut self, drive: &mut dyn Drive, now: Instant) -> Result<(), DriveError> {
        for (number, lane) in self.lanes.iter_mut().enumerate() {
            if lane.told_head != lane.head {
                lane.told_head = lane.head;
                drive.ring_completion(number, lane.head)?;
            }
            if lane.told_tail != lane.tail {
                if lane.flying == steps(lane.told_tail, lane.tail, lane.at.entries) {
                    lane.since = now;
                }
                lane.told_tail = lane.tail;
                drive.ring_submission(number, lane.tail)?;
            }
        }
        Ok(())
    }

    /// Whether the drive has commands.
    #[must_use]
    pub fn are_flying(&self) -> bool {
        self.lanes.iter().any(|lane| lane.flying != 0)
    }

    /// Whether the drive has a command of the guest.
    #[must_use]
    pub fn have(&self, guest: usize) -> bool {
        self.counts.get(guest).is_some_and(|&count| count != 0)
    }

    /// Shows how many commands of each lane and of each guest the drive has.
    pub fn show(&self) {
        for (lane, shown) in self.lanes.iter().zip(&self.board.lanes) {
            shown.show_flying(lane.flying);
        }
        for (&count, shown) in self.counts.iter().zip(&self.board.guests) {
            shown.show_flying(count);
        }
    }

    /// A lane whose commands the drive has not answered for as long as that, or longer.
    #[must_use]
    pub fn silent(&self, now: Instant, limit: Duration) -> Option<usize> {
        self.lanes
            .iter()
            .position(|lane| lane.flying != 0 && now.saturating_duration_since(lane.since) >= limit)
    }

    /// The drive is being opened or reset: its time for answers begins anew.
    pub fn excuse(&mut self, now: Instant) {
        for lane in &mut self.lanes {
            lane.since = now;
        }
    }

    /// The drive is gone, and with it what it had.
    pub fn forget(&mut self) {
        for lane in &mut self.lanes {
            lane.flying = 0;
            for (owner, (command, _)) in lane.owners.iter().zip(&lane.commands) {
                let guest = usize::from(*owner).checked_sub(1);
                if let Some(shown) = guest.and_then(|guest| self.board.guests.get(guest)) {
                    shown.figures.note(*command, true, None);
                }
            }
            forget(&mut lane.owners, &mut self.counts);
        }
    }
}

/// The bytes of a ring: zeros where the window has none, which no ring of the mediator's does.
fn read(window: &Window, host: u64, into: &mut [u8]) {
    if let Some(slice) = window.slice(host, into.len()) {
        // all of them are there: the slice is as long
        let _whole = slice.read_slice(into, 0);
    }
}

/// The command of that identifier is `owner`'s from now on. Whose it was before.
fn give(owners: &mut [u8; IDENTIFIERS], counts: &mut [u32], identifier: usize, owner: u8) -> Option<usize> {
    let place = owners.get_mut(identifier)?;
    let before = usize::from(std::mem::replace(place, owner)).checked_sub(1);
    if let Some(count) = before.and_then(|guest| counts.get_mut(guest)) {
        *count = count.saturating_sub(1);
    }
    if let Some(count) = usize::from(owner)
        .checked_sub(1)
        .and_then(|guest| counts.get_mut(guest))
    {
        *count += 1;
    }
    before
}

fn forget(owners: &mut [u8; IDENTIFIERS], counts: &mut [u32]) {
    for identifier in 0..IDENTIFIERS {
        give(owners, counts, identifier, 0);
    }
}
