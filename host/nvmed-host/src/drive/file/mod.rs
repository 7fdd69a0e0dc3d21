#![deny(unsafe_code)]
//! A file or a block device as the drive, by io_uring and direct I/O (`O_DIRECT`).
//!
//! The pages that a command's PRP entries name are the buffers of its operation: nothing is copied. Where they are not aligned as the device wants it, and
//! for Compare, the bytes go by pages of the program's own. The mediator's thread hands operations over and takes their ends; the kernel makes them, in
//! threads of its own where they wait.
//!
//! What the drive does:
//!
//! | Command | Operation |
//! |---|---|
//! | Read, Write, Compare | a vectored read or write; a forced Write with `RWF_DSYNC`, a forced Read or Compare after `fdatasync` |
//! | Flush | `fdatasync`; those that come while one is under way share the next |
//! | Write Zeroes, Dataset Management | `fallocate`, piece by piece, one at a time, of ranges that were merged; where the file system has none, zeros are written |
//!
//! A file that has room for all of its bytes when it is opened keeps it: its deallocated blocks are made zero in place.
//!
//! A command that comes only so far goes on from there, and one that was interrupted is made again, some times. A device that is gone is answered with
//! Namespace Not Ready, and ends all writes; so does each error by which something could not be made durable.

mod opening;
mod ring;
mod uring;

#[cfg(test)]
mod tests;

use std::collections::VecDeque;
use std::io;
use std::os::fd::BorrowedFd;
use std::path::Path;
use std::sync::Arc;
use std::time::Duration;

use vm_memory::VolatileSlice;

use self::opening::Opened;
use self::ring::{FileRing, Move, Work, Zeroing, SECTOR};
use self::uring::FileUring;
use super::buffers::{are_the_same, copy_in_order, own_slices, Pages};
use super::command::{Clearing, Extent, Kind, Step, Transfer};
use super::entry::{Status, Submission, BLOCK_BYTES};
use super::failure::Failure;
use super::lanes::Lanes;
use super::prp::{SharedMemory, PAGE_BYTES};
use super::uring::MOST_ZEROS;
use super::{Budget, Drive, DriveError, LaneRings, Progress};

pub use super::uring::Lasting;

/// Bytes that are made zero before others have their turn.
const PIECE: u64 = 1 << 22;
/// How often an operation is made again that comes no further.
const TRIES: u32 = 8;
/// Pages of the program's own that are kept for the next command.
const KEPT_PAGES: usize = 16;
/// How long the end of a drive waits for what is under way.
const CLOSE_WAIT: Duration = Duration::from_secs(30);

/// A drive on a file or a block device, by the memory `M` and the ring `R`.
pub struct FileDrive<M, R> {
    memory: Arc<M>,
    ring: R,
    /// In which the file is, in words; its blocks; and the alignment in memory that its device wants.
    words: String,
    blocks: u64,
    alignment: u64,
    failure: Failure,
    lanes: Lanes,
    /// Moves that go on, or are made again, once there is room.
    again: VecDeque<Move>,
    syncs: Syncs,
    clears: Clears,
    pages: Vec<Pages>,
}

/// A command that waits until all that was written before is durable.
#[derive(Debug)]
struct Waiter {
    lane: usize,
    command: u16,
    /// What is read then.
    then: Option<Move>,
}

/// Flushes, and what waits for them, too.
#[derive(Debug, Default)]
struct Syncs {
    /// Those that the operation serves that is under way, if one is.
    under_way: Option<Vec<Waiter>>,
    /// Those that wait for the next.
    wanted: Vec<Waiter>,
    tries: u32,
}

/// A command that makes blocks zero.
#[derive(Debug)]
struct Clear {
    lane: usize,
    command: u16,
    clearing: Clearing,
    tries: u32,
}

/// All of these.
#[derive(Debug)]
struct Clears {
    /// The one of which a piece is under way, and how that is made zero.
    under_way: Option<(Clear, Zeroing)>,
    /// Those that wait for their turn.
    waiting: VecDeque<Clear>,
    /// Whether room is given back, which the file system can, and whether it makes bytes zero in place.
    gives_back: bool,
    in_place: bool,
}

/// What is left of a turn's budget, and what it did.
struct Turn {
    commands: u32,
    bytes: u64,
    completed: u32,
}

impl<M: Lasting> FileDrive<M, FileUring<M>> {
    /// A drive on the file or block device `path`, which has at least `needed` blocks of 512 bytes. It is locked until the drive is closed; its length
    /// stays as it is.
    ///
    /// # Errors
    ///
    /// In words where it cannot be opened, is used by others, is too short, has no direct I/O of 512 bytes, or where the kernel refuses io_uring.
    pub fn open(memory: Arc<M>, path: &Path, needed: u64) -> Result<Self, DriveError> {
        let opened = Opened::at(path, needed)?;
        let ring = FileUring::new(opened.file, Arc::clone(&memory))?;
        Ok(Self::over(memory, ring, opened.about))
    }
}

impl<M: SharedMemory + 'static, R: FileRing> FileDrive<M, R> {
    /// A drive over any ring.
    fn over(memory: Arc<M>, ring: R, about: opening::About) -> Self {
        Self {
            memory,
            ring,
            words: about.words,
            blocks: about.blocks,
            alignment: about.alignment,
            failure: Failure::default(),
            lanes: Lanes::default(),
            again: VecDeque::new(),
            syncs: Syncs::default(),
            clears: Clears {
                under_way: None,
                waiting: VecDeque::new(),
                gives_back: !about.keeps_room,
                in_place: true,
            },
            pages: Vec::new(),
        }
    }

    fn post(&mut self, turn: &mut Turn, lane: usize, command: u16, status: Status) -> Result<(), DriveError> {
        self.lanes.post(&*self.memory, lane, command, status)?;
        turn.completed += 1;
        Ok(())
    }

    /// Begins a command.
    fn take(&mut self, turn: &mut Turn, lane: usize, entry: &Submission) -> Result<(), DriveError> {
        let command = entry.command();
        let step = match Step::of(entry, &*self.memory, self.blocks) {
            Err(status) => return self.post(turn, lane, command, status),
            Ok(None) => return self.post(turn, lane, command, Status::GOOD),
            Ok(Some(step)) => step,
        };
        if (step.changes() || matches!(step, Step::Sync)) && self.failure.reason().is_some() {
            return self.post(turn, lane, command, Status::WRITE_FAULT_FOR_EVER);
        }
        match step {
            Step::Sync => self.syncs.wanted.push(Waiter {
                lane,
                command,
                then: None,
            }),
            Step::Clear(clearing) => self.clears.waiting.push_back(Clear {
                lane,
                command,
                clearing,
                tries: 0,
            }),
            Step::Transfer(transfer) => {
                let forced = transfer.forced;
                let moved = match self.prepare(turn, lane, command, transfer) {
                    Ok(moved) => moved,
                    Err(status) => return self.post(turn, lane, command, status),
                };
                if forced && !moved.writes() {
                    self.syncs.wanted.push(Waiter {
                        lane,
                        command,
                        then: Some(moved),
                    });
                } else {
                    self.begin_move(turn, moved)?;
                }
            }
        }
        Ok(())
    }

    /// Finds the buffers of a transfer: the command's own, or pages of the program's own.
    fn prepare(&mut self, turn: &mut Turn, lane: usize, command: u16, transfer: Transfer) -> Result<Move, Status> {
        let bytes = u64::from(transfer.places.bytes());
        turn.bytes = turn.bytes.saturating_sub(bytes);
        let slices = own_slices(&transfer.places, 0, &*self.memory).ok_or(Status::TRANSFER_ERROR)?;
        let pages = if transfer.kind != Kind::Compare && self.are_aligned(&slices) {
            None
        } else {
            let pages = match self.pages.pop() {
                Some(pages) => pages,
                None => Pages::new().map_err(|_no_memory| Status::INTERNAL_ERROR)?,
            };
            if transfer.changes() {
                copy_in_order(&slices, &pages, |own, page| own.copy_to_volatile_slice(page));
            }
            Some(pages)
        };
        Ok(Move {
            lane,
            command,
            transfer: Box::new(transfer),
            pages,
            tries: 0,
        })
    }

    /// Whether the device can move these slices itself.
    fn are_aligned(&self, slices: &[VolatileSlice<'_>]) -> bool {
        slices.iter().all(|slice| {
            let address = slice.ptr_guard().as_ptr() as usize as u64;
            address % self.alignment == 0 && slice.len() % SECTOR as usize == 0
        })
    }

    fn begin_move(&mut self, turn: &mut Turn, moved: Move) -> Result<(), DriveError> {
        match self.ring.begin(Work::Move(moved)) {
            Err((Work::Move(moved), error)) => self.end_move(turn, moved, Err(error)),
            _ => Ok(()),
        }
    }

    /// Begins what waits, as far as there is room.
    fn begin_waiting(&mut self, turn: &mut Turn) -> Result<(), DriveError> {
        while self.ring.has_room() {
            let Some(moved) = self.again.pop_front() else { break };
            self.begin_move(turn, moved)?;
        }
        if self.ring.has_room() && self.syncs.under_way.is_none() && !self.syncs.wanted.is_empty() {
            self.syncs.under_way = Some(std::mem::take(&mut self.syncs.wanted));
            if let Err((_, error)) = self.ring.begin(Work::Sync) {
                self.end_sync(turn, Err(error))?;
            }
        }
        while self.ring.has_room() && self.clears.under_way.is_none() {
            let Some(clear) = self.clears.waiting.pop_front() else {
                break;
            };
            self.begin_clear(turn, clear)?;
        }
        Ok(())
    }

    /// Begins a piece of a command that makes blocks zero.
    fn begin_clear(&mut self, turn: &mut Turn, clear: Clear) -> Result<(), DriveError> {
        if self.failure.reason().is_some() {
            return self.post(turn, clear.lane, clear.command, Status::WRITE_FAULT_FOR_EVER);
        }
        let Some(Extent { from, to }) = clear.clearing.left.last().copied() else {
            return self.post(turn, clear.lane, clear.command, Status::GOOD);
        };
        let by = self.clears.way(clear.clearing.gives_back);
        let bytes = (to - from).min(piece(from, by));
        self.clears.under_way = Some((clear, by));
        match self.ring.begin(Work::Zero { from, bytes, by }) {
            Err((_, error)) => self.end_clear(turn, bytes, Err(error)),
            Ok(()) => Ok(()),
        }
    }

    /// Takes the end of an operation.
    fn end(&mut self, turn: &mut Turn, work: Work, result: io::Result<u32>) -> Result<(), DriveError> {
        match work {
            Work::Move(moved) => self.end_move(turn, moved, result),
            Work::Sync => self.end_sync(turn, result),
            Work::Zero { bytes, .. } => self.end_clear(turn, bytes, result),
        }
    }

    fn end_move(&mut self, turn: &mut Turn, mut moved: Move, result: io::Result<u32>) -> Result<(), DriveError> {
        let all = moved.transfer.places.bytes();
        let result = match result {
            Err(error) if may_be_made_again(&error) && moved.tries < TRIES => Ok(None),
            Err(error) => Err(error),
            Ok(0) => Err(nothing_moved(&moved)),
            Ok(bytes) => Ok(Some(bytes)),
        };
        let status = match result {
            Ok(bytes) => {
                let done = moved.transfer.done.saturating_add(bytes.unwrap_or(0)).min(all);
                // What goes on is aligned, too.
                let unit = SECTOR.max(self.alignment as u32);
                let done = if done == all { done } else { done / unit * unit };
                moved.tries = if done > moved.transfer.done { 0 } else { moved.tries + 1 };
                moved.transfer.done = moved.transfer.done.max(done);
                if done < all && moved.tries <= TRIES {
                    self.again.push_back(moved);
                    return Ok(());
                }
                if done < all {
                    // It ends within a sector, again and again.
                    self.failed_move(&moved, &nothing_moved(&moved))
                } else {
                    self.moved(turn, &moved)
                }
            }
            Err(error) => self.failed_move(&moved, &error),
        };
        if let Some(pages) = moved.pages {
            if self.pages.len() < KEPT_PAGES {
                self.pages.push(pages);
            }
        }
        self.post(turn, moved.lane, moved.command, status)
    }

    /// The status of a move whose bytes all are where they belong, or in pages of the program's own.
    fn moved(&self, turn: &mut Turn, moved: &Move) -> Status {
        if moved.writes() && moved.transfer.forced && self.failure.reason().is_some() {
            return Status::WRITE_FAULT_FOR_EVER;
        }
        let Some(pages) = &moved.pages else { return Status::GOOD };
        turn.bytes = turn.bytes.saturating_sub(u64::from(moved.transfer.places.bytes()));
        let Some(slices) = own_slices(&moved.transfer.places, 0, &*self.memory) else {
            return Status::TRANSFER_ERROR;
        };
        match moved.transfer.kind {
            Kind::Write => Status::GOOD,
            Kind::Read => {
                copy_in_order(&slices, pages, |own, page| page.copy_to_volatile_slice(own));
                Status::GOOD
            }
            Kind::Compare if are_the_same(&slices, pages) => Status::GOOD,
            Kind::Compare => Status::COMPARE_FAILURE,
        }
    }

    fn failed_move(&self, moved: &Move, error: &io::Error) -> Status {
        let writes = moved.writes();
        let own = matches!(
            error.raw_os_error(),
            Some(
                libc::EFAULT | libc::ENOSPC | libc::EDQUOT | libc::EFBIG | libc::ENODEV | libc::ENXIO | libc::ESHUTDOWN
            )
        );
        if writes && moved.transfer.forced && !own {
            // It may be what was written before that could not be made durable.
            return self.failure.lost(error, &self.words);
        }
        self.failure.status_of(writes, error, &self.words)
    }

    fn end_sync(&mut self, turn: &mut Turn, result: io::Result<u32>) -> Result<(), DriveError> {
        let waiters = self.syncs.under_way.take().unwrap_or_default();
        let status = match result {
            Err(error) if may_be_made_again(&error) && self.syncs.tries < TRIES => {
                self.syncs.tries += 1;
                self.syncs.wanted.splice(0..0, waiters);
                return Ok(());
            }
            Err(error) => self.failure.lost(&error, &self.words),
            Ok(_) if self.failure.reason().is_some() => Status::WRITE_FAULT_FOR_EVER,
            Ok(_) => Status::GOOD,
        };
        self.syncs.tries = 0;
        for waiter in waiters {
            match waiter.then {
                // A drive that cannot make blocks durable still says what it has.
                Some(moved) => self.again.push_back(moved),
                None => self.post(turn, waiter.lane, waiter.command, status)?,
            }
        }
        Ok(())
    }

    fn end_clear(&mut self, turn: &mut Turn, bytes: u64, result: io::Result<u32>) -> Result<(), DriveError> {
        let Some((mut clear, by)) = self.clears.under_way.take() else {
            return Ok(());
        };
        let cleared = match (result, by) {
            (Ok(_), Zeroing::GivingBack | Zeroing::InPlace) => Ok(bytes),
            (Ok(0), Zeroing::Writing) => Err(io::ErrorKind::WriteZero.into()),
            (Ok(written), Zeroing::Writing) => Ok(u64::from(written / SECTOR * SECTOR).min(bytes)),
            (Err(error), _) if self.clears.is_without(by, &error) => Ok(0),
            (Err(error), _) if may_be_made_again(&error) => Ok(0),
            (Err(error), _) => Err(error),
        };
        let status = match cleared {
            Ok(0) if clear.tries >= TRIES => {
                let error = io::ErrorKind::WriteZero.into();
                self.failure.status_of(true, &error, &self.words)
            }
            Ok(cleared) => {
                clear.tries = if cleared == 0 { clear.tries + 1 } else { 0 };
                if !clear.clearing.advance(cleared) {
                    self.clears.waiting.push_back(clear);
                    return Ok(());
                }
                if clear.clearing.forced {
                    self.syncs.wanted.push(Waiter {
                        lane: clear.lane,
                        command: clear.command,
                        then: None,
                    });
                    return Ok(());
                }
                Status::GOOD
            }
            Err(error) => self.failure.status_of(true, &error, &self.words),
        };
        self.post(turn, clear.lane, clear.command, status)
    }
}

impl Clears {
    /// How bytes are made zero now.
    fn way(&self, gives_back: bool) -> Zeroing {
        match (gives_back && self.gives_back, self.in_place) {
            (true, _) => Zeroing::GivingBack,
            (false, true) => Zeroing::InPlace,
            (false, false) => Zeroing::Writing,
        }
    }

    /// Whether the error says that the file system has no such way; from now on there is another.
    fn is_without(&mut self, by: Zeroing, error: &io::Error) -> bool {
        if error.raw_os_error() != Some(libc::EOPNOTSUPP) {
            return false;
        }
        match by {
            Zeroing::GivingBack => self.gives_back = false,
            Zeroing::InPlace => self.in_place = false,
            Zeroing::Writing => return false,
        }
        true
    }
}

/// Bytes of the piece that begins with `from`: its end is aligned.
fn piece(from: u64, by: Zeroing) -> u64 {
    let most = if by == Zeroing::Writing { MOST_ZEROS } else { PIECE };
    most - from % PAGE_BYTES
}

/// Errors that say nothing of the bytes.
fn may_be_made_again(error: &io::Error) -> bool {
    matches!(error.raw_os_error(), Some(libc::EINTR | libc::EAGAIN))
}

/// What it means that no byte was moved.
fn nothing_moved(moved: &Move) -> io::Error {
    if moved.writes() {
        io::ErrorKind::WriteZero.into()
    } else {
        io::ErrorKind::UnexpectedEof.into()
    }
}

impl<M: SharedMemory + 'static, R: FileRing> Drive for FileDrive<M, R> {
    fn create_lanes(&mut self, lanes: &[LaneRings]) -> Result<(), DriveError> {
        self.lanes.create(&*self.memory, lanes)
    }

    fn ring_submission(&mut self, lane: usize, tail: u32) -> Result<(), DriveError> {
        self.lanes.ring_submission(lane, tail)
    }

    fn ring_completion(&mut self, lane: usize, head: u32) -> Result<(), DriveError> {
        self.lanes.ring_completion(lane, head)
    }

    fn work(&mut self, budget: Budget) -> Result<Progress, DriveError> {
        let mut turn = Turn {
            commands: budget.commands,
            bytes: budget.bytes,
            completed: 0,
        };
        let mut are_left = true;
        while turn.bytes > 0 {
            let Some((work, result)) = self.ring.next() else {
                are_left = false;
                break;
            };
            self.end(&mut turn, work, result)?;
        }
        self.begin_waiting(&mut turn)?;
        while turn.commands > 0 && turn.bytes > 0 && self.ring.has_room() {
            let Some((lane, entry)) = self.lanes.take(&*self.memory)? else {
                break;
            };
            turn.commands -= 1;
            self.take(&mut turn, lane, &entry)?;
        }
        self.begin_waiting(&mut turn)?;
        let submitted = self
            .ring
            .submit()
            .map_err(|error| DriveError::Failed(format!("the kernel takes no more operations: {error}")))?;
        let can_go_on = self.ring.has_room() && (self.lanes.has_next() || !self.again.is_empty());
        Ok(Progress {
            completed: turn.completed,
            more: are_left || can_go_on || !submitted,
        })
    }

    /// A file that was cut off is reported here; from then on writes fail, and the drive still answers.
    fn check(&mut self) -> Result<(), DriveError> {
        if self.failure.reason().is_none() {
            let needed = self.blocks * BLOCK_BYTES;
            match self.ring.length() {
                Ok(Some(bytes)) if bytes < needed => self.failure.keep(format!(
                    "{}: the image was cut off: it has {bytes} bytes of the drive's {needed}",
                    self.words
                )),
                Ok(_) => {}
                Err(error) => self
                    .failure
                    .keep(format!("{}: it cannot be looked at: {error}", self.words)),
            }
        }
        Ok(())
    }

    fn wake(&self) -> Option<BorrowedFd<'_>> {
        Some(self.ring.wake())
    }

    fn describe(&self) -> String {
        format!("{} blocks in {}{}", self.blocks, self.words, self.failure.words())
    }

    fn close(mut self: Box<Self>) -> Result<(), DriveError> {
        if !self.ring.finish(CLOSE_WAIT) {
            self.failure.keep(format!(
                "{}: operations have not ended within {CLOSE_WAIT:?}",
                self.words
            ));
        } else if self.failure.reason().is_none() {
            if let Err(error) = self.ring.sync() {
                self.failure.keep(format!("{}: {error}", self.words));
            }
        }
        self.failure.verdict()
    }
}
