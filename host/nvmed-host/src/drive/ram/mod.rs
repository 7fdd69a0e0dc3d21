#![deny(unsafe_code)]
//! A simulated physical controller: it carries out the entries of lanes' rings on blocks in memory or in a file.
//!
//! Nothing that a ring, a list or data can say makes it do anything but answer with a status of the NVMe specifications. Each submission entry, list entry
//! and range is read once; data is there before its completion, and a completion's phase tag last.
//!
//! Commands are begun in the order of the rings, from lanes in turn, and may end in any order. What moves little is carried out at once. What takes long
//! goes on piece by piece, in turn with the others of its kind, and takes at most half of a turn from new commands; so no guest's command waits for
//! another's to end. A store that may wait for a device has threads for all that may wait: reads of what is not in the page cache, writes, zeros, and
//! what is made durable. The thread that calls [`Drive::work`] waits for none of them, and for no lock.
//!
//! Durability:
//!
//! | The drive is in | Flush is completed when | a forced write (FUA) is completed when | what is left after |
//! |---|---|---|---|
//! | memory | at once | it is carried out | the program's end: nothing |
//! | a file of a tmpfs | at once | it is carried out | the program's end: all that was completed; the machine's: nothing |
//! | a file of a disk | all writes that were completed before it came are durable (`fdatasync`) | its blocks are durable (`RWF_DSYNC`, or `fdatasync` after zeros) | SIGKILL: all that was completed; the machine's end: what was flushed or forced |
//!
//! Deallocated blocks of a file are made zero in place where that can be, and their room is given back while nobody writes.
//!
//! The first error while something is made durable is kept: from then on writes and flushes fail with Write Fault, since nobody knows what the device has
//! lost, and blocks can still be read. The same holds for an image that was cut off.

mod carry;
mod store;
mod threads;

#[cfg(test)]
mod tests;

use std::collections::VecDeque;
use std::os::fd::BorrowedFd;
use std::path::Path;
use std::sync::Arc;
use std::time::Duration;

use self::carry::{Carrier, Outcome};
use self::store::{FileStore, MemoryStore, Store, Wait};
use self::threads::{Task, Threads};
use super::command::Step;
use super::entry::{Status, Submission, BLOCK_BYTES};
use super::failure::Failure;
use super::lanes::Lanes;
use super::prp::SharedMemory;
use super::{Budget, Drive, DriveError, LaneRings, Progress};

/// Blocks that a drive has at most: 64 TiB.
pub const MOST_BLOCKS_OF_DRIVE: u64 = 1 << 37;
/// Bytes that a transfer moves at most, if it is carried out when it is taken.
const SMALL: u64 = 16384;
/// Bytes of a command that are moved, or made zero, before the next one has its turn.
const PIECE: u64 = 1 << 17;

/// How long the end of a drive is put off to give room back.
const LAST: Duration = Duration::from_secs(1);

/// A simulated drive over the memory `M`: the window, or what stands for it in tests.
pub struct RamDrive<M> {
    memory: Arc<M>,
    store: Arc<dyn Store>,
    blocks: u64,
    failure: Arc<Failure>,
    threads: Threads<M>,
    lanes: Lanes,
    /// Commands that go on in this thread.
    jobs: VecDeque<Task>,
}

impl<M: SharedMemory + 'static> RamDrive<M> {
    /// A drive of `blocks` blocks of 512 bytes, 1 to 2^37, in memory. It is gone with the program.
    ///
    /// # Errors
    ///
    /// Where there are too many or no blocks, or no addresses for them.
    pub fn in_memory(memory: Arc<M>, blocks: u64) -> Result<RamDrive<M>, DriveError> {
        let bytes = bytes_of(blocks)?;
        let store = MemoryStore::new(bytes)
            .map_err(|e| DriveError::Unusable(format!("there is no memory for the drive's {bytes} bytes: {e}")))?;
        RamDrive::over(memory, blocks, Arc::new(store))
    }

    /// A drive of `blocks` blocks of 512 bytes, 1 to 2^37, in the file `image`, which is created where it is not there, and becomes longer where it is too
    /// short. Room is allocated when blocks are written. The file is locked until the drive is closed.
    ///
    /// # Errors
    ///
    /// Where there are too many or no blocks, or where the file cannot be opened, locked, or made so long, or is no regular file. A file that was not there
    /// is not there then.
    pub fn in_file(memory: Arc<M>, blocks: u64, image: &Path) -> Result<RamDrive<M>, DriveError> {
        let store = FileStore::open(image, bytes_of(blocks)?)?;
        RamDrive::over(memory, blocks, Arc::new(store))
    }

    /// A drive over any store.
    fn over(memory: Arc<M>, blocks: u64, store: Arc<dyn Store>) -> Result<RamDrive<M>, DriveError> {
        let failure = Arc::new(Failure::default());
        let threads = Threads::start(Arc::clone(&memory), Arc::clone(&store), Arc::clone(&failure))
            .map_err(|e| DriveError::Unusable(format!("there are no threads for the drive: {e}")))?;
        Ok(RamDrive {
            memory,
            store,
            blocks,
            failure,
            threads,
            lanes: Lanes::default(),
            jobs: VecDeque::new(),
        })
    }

    fn post(&mut self, turn: &mut Turn, lane: usize, command: u16, status: Status) -> Result<(), DriveError> {
        self.lanes.post(&*self.memory, lane, command, status)?;
        turn.completed += 1;
        Ok(())
    }

    /// Begins a command: it is refused, carried out, given to the threads, or becomes a job.
    fn begin(&mut self, turn: &mut Turn, lane: usize, entry: &Submission) -> Result<(), DriveError> {
        let command = entry.command();
        let step = match Step::of(entry, &*self.memory, self.blocks) {
            Err(status) => return self.post(turn, lane, command, status),
            Ok(None) => return self.post(turn, lane, command, Status::GOOD),
            Ok(Some(step)) => step,
        };
        let (at_once, may_wait) = match &step {
            Step::Transfer(transfer) => (
                u64::from(transfer.places.bytes()) <= SMALL.min(turn.bytes),
                transfer.forced,
            ),
            Step::Clear(_) => (false, true),
            Step::Sync => (true, true),
        };
        let task = Task { lane, command, step };
        if may_wait && self.store.waits() {
            self.give(turn, task)?;
        } else if at_once {
            self.go_on(turn, task)?;
        } else {
            self.jobs.push_back(task);
        }
        Ok(())
    }

    /// Goes on with a command for a piece.
    fn go_on(&mut self, turn: &mut Turn, mut task: Task) -> Result<(), DriveError> {
        let carrier = Carrier {
            memory: &*self.memory,
            store: &*self.store,
            failure: &self.failure,
        };
        let (outcome, used) = carrier.advance(&mut task.step, PIECE.min(turn.bytes), Wait::Never);
        turn.bytes = turn.bytes.saturating_sub(used);
        match outcome {
            Outcome::Done(mut status) => {
                if status.is_good() && task.step.is_forced() {
                    let synced = carrier.sync();
                    status = if task.step.changes() { synced } else { status };
                }
                self.post(turn, task.lane, task.command, status)?;
            }
            Outcome::More => self.jobs.push_back(task),
            Outcome::WouldWait => self.give(turn, task)?,
        }
        Ok(())
    }

    /// Gives a command to the threads.
    fn give(&mut self, turn: &mut Turn, task: Task) -> Result<(), DriveError> {
        let (lane, command) = (task.lane, task.command);
        if self.threads.give(task) {
            return Ok(());
        }
        self.post(turn, lane, command, Status::INTERNAL_ERROR)
    }
}

/// What is left of a turn's budget.
struct Turn {
    commands: u32,
    bytes: u64,
    completed: u32,
}

fn bytes_of(blocks: u64) -> Result<u64, DriveError> {
    if (1..=MOST_BLOCKS_OF_DRIVE).contains(&blocks) {
        Ok(blocks * BLOCK_BYTES)
    } else {
        Err(DriveError::Unusable(format!(
            "a drive has 1 to 2^37 blocks of 512 bytes, not {blocks}"
        )))
    }
}

impl<M: SharedMemory + 'static> Drive for RamDrive<M> {
    fn create_lanes(&mut self, lanes: &[LaneRings]) -> Result<(), DriveError> {
        self.lanes.create(&*self.memory, lanes)
    }

    fn ring_submission(&mut self, lane: usize, tail: u32) -> Result<(), DriveError> {
        self.lanes.ring_submission(lane, tail)
    }

    fn ring_completion(&mut self, lane: usize, head: u32) -> Result<(), DriveError> {
        self.lanes.ring_completion(lane, head)
    }

    fn work(&mut self, budget: Budget) -> Result<Progress, DriveError> {
        let mut turn = Turn {
            commands: budget.commands,
            bytes: budget.bytes,
            completed: 0,
        };
        while let Some(finished) = self.threads.collect() {
            self.post(&mut turn, finished.lane, finished.command, finished.status)?;
        }
        while turn.commands > 0 && turn.bytes > if self.jobs.is_empty() { 0 } else { budget.bytes / 2 } {
            let Some((lane, entry)) = self.lanes.take(&*self.memory)? else {
                break;
            };
            turn.commands -= 1;
            self.begin(&mut turn, lane, &entry)?;
        }
        while turn.bytes > 0 {
            let Some(task) = self.jobs.pop_front() else { break };
            self.go_on(&mut turn, task)?;
        }
        let more = !self.jobs.is_empty() || self.lanes.has_next();
        Ok(Progress {
            completed: turn.completed,
            more,
        })
    }

    /// An image that was cut off, or that cannot be reached, is reported here; from then on writes fail, and the drive still answers.
    fn check(&mut self) -> Result<(), DriveError> {
        if self.failure.reason().is_none() {
            if let Err(words) = self.store.check() {
                self.failure.keep(format!("{}: {words}", self.store.describe()));
            }
        }
        Ok(())
    }

    fn wake(&self) -> Option<BorrowedFd<'_>> {
        Some(self.threads.wake())
    }

    fn woken(&mut self) {
        self.threads.woken();
    }

    fn describe(&self) -> String {
        let (place, failed) = (self.store.describe(), self.failure.words());
        format!("simulated, {} blocks {place}{failed}", self.blocks)
    }

    fn close(mut self: Box<Self>) -> Result<(), DriveError> {
        self.threads.end();
        self.store.give_all_back(LAST);
        if self.failure.reason().is_none() {
            if let Err(error) = self.store.sync() {
                self.failure.keep(format!("{}: {error}", self.store.describe()));
            }
        }
        self.failure.verdict()
    }
}
