#![forbid(unsafe_code)]
//! The lanes of a drive that takes its commands from their rings itself.

use super::entry::{Status, Submission};
use super::lane::Lane;
use super::prp::SharedMemory;
use super::{DriveError, LaneRings};

/// All lanes of a drive. Commands are taken from them in turn.
#[derive(Debug, Default)]
pub struct Lanes {
    lanes: Vec<Lane>,
    /// The lane whose turn it is.
    next: usize,
}

impl Lanes {
    /// Makes the lanes, once.
    ///
    /// # Errors
    ///
    /// There are lanes already, or none are asked for; and those of [`Lane::new`].
    pub fn create<M: SharedMemory + ?Sized>(&mut self, memory: &M, lanes: &[LaneRings]) -> Result<(), DriveError> {
        if !self.lanes.is_empty() {
            return Err(DriveError::Unusable("the drive has its lanes already".to_owned()));
        }
        if lanes.is_empty() {
            return Err(DriveError::Unusable("a drive needs at least one lane".to_owned()));
        }
        let created = lanes
            .iter()
            .enumerate()
            .map(|(i, rings)| Lane::new(memory, i, *rings))
            .collect::<Result<Vec<_>, _>>()?;
        self.lanes = created;
        Ok(())
    }

    /// The submission doorbell of a lane.
    ///
    /// # Errors
    ///
    /// Where there is no such lane, and those of [`Lane::ring_submission`].
    pub fn ring_submission(&mut self, lane: usize, tail: u32) -> Result<(), DriveError> {
        self.lane(lane)?.ring_submission(tail)
    }

    /// The completion doorbell of a lane.
    ///
    /// # Errors
    ///
    /// Where there is no such lane, and those of [`Lane::ring_completion`].
    pub fn ring_completion(&mut self, lane: usize, head: u32) -> Result<(), DriveError> {
        self.lane(lane)?.ring_completion(head)
    }

    /// The next command of the lanes in turn, and its lane.
    ///
    /// # Errors
    ///
    /// Where a ring has lost its memory.
    pub fn take<M: SharedMemory + ?Sized>(&mut self, memory: &M) -> Result<Option<(usize, Submission)>, DriveError> {
        let count = self.lanes.len();
        for _ in 0..count {
            let lane = self.next;
            self.next = (lane + 1) % count;
            let Some(rings) = self.lanes.get_mut(lane) else {
                continue;
            };
            if let Some(entry) = rings.take(memory)? {
                return Ok(Some((lane, entry)));
            }
        }
        Ok(None)
    }

    /// Writes the completion of a command that was taken from a lane.
    ///
    /// # Errors
    ///
    /// Where there is no such lane, or its ring has lost its memory.
    pub fn post<M: SharedMemory + ?Sized>(
        &mut self,
        memory: &M,
        lane: usize,
        command: u16,
        status: Status,
    ) -> Result<(), DriveError> {
        self.lane(lane)?.post(memory, command, status)
    }

    /// Whether a command can be taken.
    pub fn has_next(&self) -> bool {
        self.lanes.iter().any(Lane::has_next)
    }

    fn lane(&mut self, lane: usize) -> Result<&mut Lane, DriveError> {
        self.lanes
            .get_mut(lane)
            .ok_or_else(|| DriveError::Failed(format!("there is no lane {lane}")))
    }
}
