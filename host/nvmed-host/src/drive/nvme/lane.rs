#![forbid(unsafe_code)]
//! A lane's pair of I/O queues: how far both sides are, which commands the controller has, and how the rings go on after a reset.
//!
//! The mediator owns the rings and goes round in them. A controller that was reset begins at their first entries. So after a reset:
//!
//! 1. What the controller had is completed here, with Internal Error, as a controller would do it. The mediator answers its guests.
//! 2. When the mediator has taken all of it, the queues are created anew, and Flushes of this module bring the controller to the places and the phase
//!    tag where the mediator is. The completion ring is filled before so that none of this looks like a completion to the mediator.
//! 3. What the mediator has put into the ring meanwhile was kept aside; it is put back, and the doorbell is rung.

use super::command::ENTRY_BYTES;
use super::memory::{load, load32, store, store32, DriveMemory};
use crate::drive::{DriveError, LaneRings};

/// Milliseconds that the Flushes after a reset may take without one of them being completed.
pub const ALIGN_WAIT: u64 = 60_000;

/// Identifier of the Flushes after a reset, and that of entries which are no completion at all.
const FLUSH_ID: u16 = 0xfffe;
const NO_ID: u16 = 0xffff;

/// Internal Error, which may be tried again: status field of a completion, without the phase tag.
const INTERNAL_ERROR: u32 = 0x06;

/// A command that the controller has.
#[derive(Clone, Copy, Debug, PartialEq, Eq)]
pub struct Pending {
    /// Its identifier.
    pub id: u16,
    /// When its doorbell was rung, in milliseconds.
    pub since: u64,
    /// Whether an Abort was asked for it.
    pub aborted: bool,
    /// It was there at the reset.
    old: bool,
}

/// How far the controller is led after a reset.
#[derive(Clone, Copy, Debug)]
struct Walk {
    to_submit: u32,
    to_complete: u32,
    tail: u32,
    head: u32,
    phase: bool,
    since: u64,
}

/// Doorbells that are to be rung.
#[derive(Clone, Copy, Debug, Default, PartialEq, Eq)]
pub struct Bells {
    /// Of the submission queue.
    pub tail: Option<u32>,
    /// Of the completion queue.
    pub head: Option<u32>,
}

/// A lane.
#[derive(Debug)]
pub struct Lane {
    /// The rings, as the mediator has them.
    pub rings: LaneRings,
    /// Identifier of both queues.
    pub pair: u16,
    tail: u32,
    head: u32,
    /// The phase tag of the completion at `head`.
    phase: bool,
    pending: Vec<Pending>,
    /// The controller has the queues, and doorbells reach it.
    live: bool,
    /// Where the mediator was in the submission ring at the reset.
    resume: u32,
    stash: Vec<[u8; ENTRY_BYTES]>,
    walk: Option<Walk>,
}

fn failed<T>(words: String) -> Result<T, DriveError> {
    Err(DriveError::Failed(words))
}

impl Lane {
    /// A lane whose queues were created just now.
    pub fn new(rings: LaneRings, pair: u16) -> Self {
        Self {
            rings,
            pair,
            tail: 0,
            head: 0,
            phase: true,
            pending: Vec::new(),
            live: true,
            resume: 0,
            stash: Vec::new(),
            walk: None,
        }
    }

    /// Commands that wait longer than so many milliseconds, and for which no Abort was asked. They are marked.
    pub fn take_overdue(&mut self, now: u64, limit: u64) -> Vec<u16> {
        let overdue = |p: &&mut Pending| !p.aborted && now.saturating_sub(p.since) > limit;
        let mark = |p: &mut Pending| {
            p.aborted = true;
            p.id
        };
        self.pending.iter_mut().filter(overdue).map(mark).collect()
    }

    /// Milliseconds that the oldest command has waited.
    pub fn oldest(&self, now: u64) -> Option<u64> {
        self.pending.iter().map(|p| now.saturating_sub(p.since)).max()
    }

    fn check(&self, what: &str, value: u32) -> Result<(), DriveError> {
        if value < self.rings.entries {
            return Ok(());
        }
        failed(format!(
            "the {what} doorbell of lane {} cannot say {value} of {} slots",
            self.pair - 1,
            self.rings.entries
        ))
    }

    fn next(&self, at: u32) -> u32 {
        if at + 1 == self.rings.entries {
            0
        } else {
            at + 1
        }
    }

    fn entry(&self, at: u32) -> u64 {
        self.rings.submission + u64::from(at) * ENTRY_BYTES as u64
    }

    fn completion(&self, at: u32) -> u64 {
        self.rings.completion + u64::from(at) * 16
    }

    /// The ring was filled up to `tail`: the new commands are noted, or kept aside while a reset goes on. The doorbell is to be rung where it says so.
    pub fn submitted(&mut self, memory: &dyn DriveMemory, tail: u32, now: u64) -> Result<bool, DriveError> {
        self.check("submission", tail)?;
        while self.tail != tail {
            let place = self.entry(self.tail);
            let id = if self.live {
                (load32(memory, place)? >> 16) as u16
            } else {
                let mut entry = [0u8; ENTRY_BYTES];
                load(memory, place, &mut entry)?;
                self.stash.push(entry);
                u16::from_le_bytes([entry[2], entry[3]])
            };
            if self.pending.len() >= self.rings.entries as usize {
                return failed(format!(
                    "lane {} has more commands than its ring has slots",
                    self.pair - 1
                ));
            }
            self.pending.push(Pending {
                id,
                since: now,
                aborted: false,
                old: false,
            });
            self.tail = self.next(self.tail);
        }
        Ok(self.live)
    }

    /// The ring was emptied up to `head`: the commands that were completed there are no longer pending. The doorbell is to be rung where it says so.
    pub fn emptied(&mut self, memory: &dyn DriveMemory, head: u32) -> Result<bool, DriveError> {
        self.check("completion", head)?;
        while self.head != head {
            let id = load32(memory, self.completion(self.head) + 12)? as u16;
            if let Some(place) = self.pending.iter().position(|p| p.id == id) {
                self.pending.remove(place);
            }
            self.head = self.next(self.head);
            if self.head == 0 {
                self.phase = !self.phase;
            }
        }
        Ok(self.live)
    }

    /// A reset begins: doorbells no longer reach the controller.
    pub fn hold(&mut self) {
        if self.live {
            self.live = false;
            self.resume = self.tail;
        }
    }

    /// Completes with Internal Error what the controller had. It has to be disabled, so that it writes no more.
    pub fn fail_pending(&mut self, memory: &dyn DriveMemory) -> Result<(), DriveError> {
        let first_new = self.pending.len().saturating_sub(self.stash.len());
        self.pending.iter_mut().take(first_new).for_each(|p| p.old = true);
        let mut left: Vec<u16> = self.pending.iter().filter(|p| p.old).map(|p| p.id).collect();
        let (mut at, mut phase, mut steps) = (self.head, self.phase, 0);
        loop {
            let last = load32(memory, self.completion(at) + 12)?;
            if (last >> 16 & 1 == 1) != phase {
                break;
            }
            left.retain(|id| *id != last as u16);
            (at, phase) = self.after(at, phase);
            steps += 1;
            if steps >= self.rings.entries {
                return failed(format!("the completion ring of lane {} has no end", self.pair - 1));
            }
        }
        if u64::from(steps) + left.len() as u64 >= u64::from(self.rings.entries) {
            return failed(format!(
                "the completion ring of lane {} has no room for its commands",
                self.pair - 1
            ));
        }
        for id in left {
            let queue = self.resume & 0xffff | u32::from(self.pair) << 16;
            store(memory, self.completion(at), &[0u8; 8])?;
            store32(memory, self.completion(at) + 8, queue)?;
            store32(
                memory,
                self.completion(at) + 12,
                u32::from(id) | INTERNAL_ERROR << 17 | u32::from(phase) << 16,
            )?;
            (at, phase) = self.after(at, phase);
        }
        Ok(())
    }

    fn after(&self, at: u32, phase: bool) -> (u32, bool) {
        let next = self.next(at);
        (next, phase ^ (next == 0))
    }

    /// Whether the mediator has taken all completions of commands that were there at the reset.
    pub fn is_drained(&self) -> bool {
        !self.pending.iter().any(|p| p.old)
    }

    /// Before the queues are created anew: fills the completion ring with entries that are no completions, neither for the mediator nor for
    /// [`Lane::lead`], and counts the Flushes that are needed.
    pub fn prepare(&mut self, memory: &dyn DriveMemory, now: u64) -> Result<(), DriveError> {
        if self.head != self.resume {
            return failed(format!(
                "the rings of lane {} are not in step: {} and {}",
                self.pair - 1,
                self.resume,
                self.head
            ));
        }
        let mut nothing = [0u8; 16];
        let last = u32::from(NO_ID) | u32::from(!self.phase) << 16;
        nothing[12..].copy_from_slice(&last.to_le_bytes());
        for at in 0..self.rings.entries {
            store(memory, self.completion(at), &nothing)?;
        }
        let count = if self.phase {
            self.head
        } else {
            self.rings.entries + self.head
        };
        self.walk = Some(Walk {
            to_submit: count,
            to_complete: count,
            tail: 0,
            head: 0,
            phase: true,
            since: now,
        });
        Ok(())
    }

    /// Leads the controller to where the mediator is, a step: takes Flushes that were completed and gives new ones. `None` where it is there; then what
    /// was kept aside lies in the ring again, and doorbells reach the controller.
    pub fn lead(&mut self, memory: &dyn DriveMemory, now: u64) -> Result<(Option<()>, Bells), DriveError> {
        let Some(mut walk) = self.walk else {
            return Ok((None, Bells::default()));
        };
        let mut bells = Bells::default();
        while walk.to_complete > walk.to_submit {
            let last = load32(memory, self.completion(walk.head) + 12)?;
            if (last >> 16 & 1 == 1) != walk.phase || last as u16 != FLUSH_ID {
                break;
            }
            (walk.head, walk.phase) = self.after(walk.head, walk.phase);
            walk.to_complete -= 1;
            walk.since = now;
            bells.head = Some(walk.head);
        }
        let mut flush = [0u8; ENTRY_BYTES];
        flush[2..4].copy_from_slice(&FLUSH_ID.to_le_bytes());
        flush[4] = 1;
        while walk.to_submit > 0 && walk.to_complete - walk.to_submit < self.rings.entries - 1 {
            store(memory, self.entry(walk.tail), &flush)?;
            walk.tail = self.next(walk.tail);
            walk.to_submit -= 1;
            bells.tail = Some(walk.tail);
        }
        self.walk = Some(walk);
        if walk.to_complete == 0 {
            bells.tail = self.go_on(memory, now)?;
            return Ok((None, bells));
        }
        if now.saturating_sub(walk.since) > ALIGN_WAIT {
            return failed(format!(
                "the controller did not answer Flush on lane {} within {ALIGN_WAIT} ms after a reset",
                self.pair - 1
            ));
        }
        Ok((Some(()), bells))
    }

    /// Puts back what was kept aside; the tail that is to be rung, where there was something.
    fn go_on(&mut self, memory: &dyn DriveMemory, now: u64) -> Result<Option<u32>, DriveError> {
        let mut at = self.resume;
        for entry in std::mem::take(&mut self.stash) {
            store(memory, self.entry(at), &entry)?;
            at = self.next(at);
        }
        self.walk = None;
        self.live = true;
        self.pending.iter_mut().for_each(|p| p.since = now);
        Ok((at != self.resume).then_some(at))
    }
}
