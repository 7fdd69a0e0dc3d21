#![forbid(unsafe_code)]
//! A lane's rings, as the controller has them (NVM Express Base Specification, "Queue Pairs" and "Phase Tag").

use super::entry::{Completion, Status, Submission, COMPLETION_BYTES, SUBMISSION_BYTES};
use super::prp::{SharedMemory, PAGE_BYTES};
use super::{DriveError, LaneRings};

/// A submission ring and its completion ring.
#[derive(Debug)]
pub struct Lane {
    rings: LaneRings,
    queue: u16,
    /// Of the submission ring: the next entry to take, and the doorbell.
    head: u32,
    tail: u32,
    /// Of the completion ring: the next slot to write, the doorbell, and the phase tag of this round.
    posted: u32,
    acknowledged: u32,
    phase: bool,
    /// Commands that were taken and have no completion.
    outstanding: u32,
}

impl Lane {
    /// Lane `lane` with these rings; its completion ring is zeroed.
    ///
    /// # Errors
    ///
    /// Where the rings are not of 2 to 65,536 entries in whole pages of memory, or where there are too many lanes.
    pub fn new<M: SharedMemory + ?Sized>(memory: &M, lane: usize, rings: LaneRings) -> Result<Lane, DriveError> {
        let bad = || {
            DriveError::Unusable(format!(
                "the rings of lane {lane} are not of 2 to 65536 entries in whole pages of the window"
            ))
        };
        let queue = lane.checked_add(1).and_then(|n| u16::try_from(n).ok());
        let queue = queue.ok_or_else(|| DriveError::Unusable(format!("there can be no lane {lane}")))?;
        let entries = rings.entries as usize;
        if !(2..=65536).contains(&entries) || rings.submission % PAGE_BYTES != 0 || rings.completion % PAGE_BYTES != 0 {
            return Err(bad());
        }
        memory
            .slice(rings.submission, entries * SUBMISSION_BYTES)
            .ok_or_else(bad)?;
        let completions = memory
            .slice(rings.completion, entries * COMPLETION_BYTES)
            .ok_or_else(bad)?;
        completions.copy_from(&vec![0u8; entries * COMPLETION_BYTES]);
        Ok(Lane {
            rings,
            queue,
            head: 0,
            tail: 0,
            posted: 0,
            acknowledged: 0,
            phase: true,
            outstanding: 0,
        })
    }

    /// The submission doorbell.
    ///
    /// # Errors
    ///
    /// Where the ring has no entry `tail`.
    pub fn ring_submission(&mut self, tail: u32) -> Result<(), DriveError> {
        if tail >= self.rings.entries {
            return Err(DriveError::Failed(format!(
                "the submission doorbell of queue {} cannot say {tail}",
                self.queue
            )));
        }
        self.tail = tail;
        Ok(())
    }

    /// The completion doorbell.
    ///
    /// # Errors
    ///
    /// Where no completion before `head` was written that is not acknowledged yet.
    pub fn ring_completion(&mut self, head: u32) -> Result<(), DriveError> {
        if head >= self.rings.entries
            || self.distance(self.acknowledged, head) > self.distance(self.acknowledged, self.posted)
        {
            return Err(DriveError::Failed(format!(
                "the completion doorbell of queue {} cannot say {head}",
                self.queue
            )));
        }
        self.acknowledged = head;
        Ok(())
    }

    /// Whether a command can be taken: there is one, and its completion will have a slot.
    pub fn has_next(&self) -> bool {
        let used = self.distance(self.acknowledged, self.posted) + self.outstanding;
        self.head != self.tail && used + 1 < self.rings.entries
    }

    /// Takes the next command, if there is one and its completion will have a slot.
    ///
    /// # Errors
    ///
    /// Where the ring has lost its memory.
    pub fn take<M: SharedMemory + ?Sized>(&mut self, memory: &M) -> Result<Option<Submission>, DriveError> {
        if !self.has_next() {
            return Ok(None);
        }
        let slot = self.rings.submission + u64::from(self.head) * SUBMISSION_BYTES as u64;
        let entry = memory
            .slice(slot, SUBMISSION_BYTES)
            .and_then(|at| Submission::fetch(&at))
            .ok_or_else(|| self.lost())?;
        self.head = self.after(self.head);
        self.outstanding += 1;
        Ok(Some(entry))
    }

    /// Writes the completion of a command that was taken.
    ///
    /// # Errors
    ///
    /// Where the ring has lost its memory.
    pub fn post<M: SharedMemory + ?Sized>(
        &mut self,
        memory: &M,
        command: u16,
        status: Status,
    ) -> Result<(), DriveError> {
        let slot = self.rings.completion + u64::from(self.posted) * COMPLETION_BYTES as u64;
        let completion = Completion {
            head: self.head as u16,
            queue: self.queue,
            command,
            status,
        };
        let at = memory.slice(slot, COMPLETION_BYTES).ok_or_else(|| self.lost())?;
        if !completion.write(&at, self.phase) {
            return Err(self.lost());
        }
        self.posted = self.after(self.posted);
        self.phase ^= self.posted == 0;
        self.outstanding = self.outstanding.saturating_sub(1);
        Ok(())
    }

    fn after(&self, slot: u32) -> u32 {
        if slot + 1 < self.rings.entries {
            slot + 1
        } else {
            0
        }
    }

    /// Slots from `from` on until `to`.
    fn distance(&self, from: u32, to: u32) -> u32 {
        if to >= from {
            to - from
        } else {
            self.rings.entries - from + to
        }
    }

    fn lost(&self) -> DriveError {
        DriveError::Failed(format!("the rings of queue {} have lost their memory", self.queue))
    }
}
