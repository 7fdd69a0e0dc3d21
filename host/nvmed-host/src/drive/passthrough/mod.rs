#![deny(unsafe_code)]
//! A namespace that the kernel's own driver drives, as the drive: its generic character device (`/dev/ng0n1`), by io_uring's passthrough commands.
//!
//! A physical command is that drive's own command, with its own status. The pages that its PRP entries name are its buffers. The kernel translates their
//! addresses, and copies bytes only where the device cannot reach them. The mediator's thread hands commands over and takes their ends.
//!
//! What the drive lacks is done in another way ([`abilities`]): Compare by a Read into pages of the program's own, Write Zeroes by Writes of zeros, and
//! Dataset Management by Write Zeroes, or Writes of zeros, of ranges that were merged. What is made zero so goes piece by piece, one at a time.
//!
//! A device that is gone is answered with Namespace Not Ready, and ends all writes.

mod abilities;
mod answer;
mod kernel;
mod opening;
mod request;

#[cfg(test)]
mod tests;

use std::collections::VecDeque;
use std::io;
use std::os::fd::BorrowedFd;
use std::path::Path;
use std::sync::Arc;
use std::time::{Duration, Instant};

use nix::poll::{poll, PollFd, PollFlags, PollTimeout};

use self::abilities::Abilities;
use self::answer::Answer;
use self::kernel::NamespaceUring;
use self::opening::{About, Opened};
use self::request::{Aim, Data, NamespaceRing, Origin, Request, Work};
use super::buffers::{are_the_same, own_slices, Pages};
use super::command::{check, Clearing, Dataset, Extent, Kind, Step};
use super::entry::{opcode, Status, Submission};
use super::failure::Failure;
use super::lanes::Lanes;
use super::prp::{Places, SharedMemory};
use super::uring::Lasting;
use super::{Budget, Drive, DriveError, LaneRings, Progress};

/// How often a command is made again of which the kernel says that it was not made.
const TRIES: u32 = 8;
/// Pages of the program's own that are kept for the next command.
const KEPT_PAGES: usize = 16;
/// How long a command of the program's own is waited for, when the drive is opened or closed. The kernel ends it after twice [`kernel::COMMAND_WAIT`].
const OWN_WAIT: Duration = Duration::from_secs(25);
/// How long the end of a drive waits for what is under way.
const CLOSE_WAIT: Duration = Duration::from_secs(30);

/// A drive on a namespace, by the memory `M` and the ring `R`.
pub struct PassthroughDrive<M, R> {
    memory: Arc<M>,
    ring: R,
    /// What it is, in words; its blocks; and what it can do.
    words: String,
    blocks: u64,
    abilities: Abilities,
    failure: Failure,
    /// The device is gone.
    is_gone: bool,
    lanes: Lanes,
    /// Commands that are made again once there is room.
    again: VecDeque<Work>,
    /// The command that makes blocks zero of which a piece is under way, and those that wait for their turn.
    clearing: Option<Clear>,
    waiting: VecDeque<Clear>,
    pages: Vec<Pages>,
}

/// A lane's command that makes blocks zero piece by piece.
#[derive(Debug)]
struct Clear {
    origin: Origin,
    clearing: Clearing,
}

/// What is left of a turn's budget, and what it did.
struct Turn {
    commands: u32,
    bytes: u64,
    completed: u32,
}

impl<M: Lasting> PassthroughDrive<M, NamespaceUring<M>> {
    /// A drive on the namespace whose generic character device is `path`, such as `/dev/ng0n1`, which has at least `needed` blocks of 512 bytes. Nobody else
    /// has its block device until the drive is closed.
    ///
    /// # Errors
    ///
    /// In words where it is no such device, its block device is used by others, where it is not as it has to be, or where the kernel refuses the commands.
    pub fn open(memory: Arc<M>, path: &Path, needed: u64) -> Result<Self, DriveError> {
        let opened = Opened::at(path, needed)?;
        let ring = NamespaceUring::new(opened.files, opened.about.namespace, Arc::clone(&memory))?;
        let mut drive = Self::over(memory, ring, opened.about);
        drive.try_out()?;
        Ok(drive)
    }
}

impl<M: SharedMemory + 'static, R: NamespaceRing> PassthroughDrive<M, R> {
    /// A drive over any ring.
    fn over(memory: Arc<M>, ring: R, about: About) -> Self {
        Self {
            memory,
            ring,
            words: about.words,
            blocks: about.blocks,
            abilities: about.abilities,
            failure: Failure::default(),
            is_gone: false,
            lanes: Lanes::default(),
            again: VecDeque::new(),
            clearing: None,
            waiting: VecDeque::new(),
            pages: Vec::new(),
        }
    }

    /// Makes a Read and a Flush: whether the kernel lets this program's commands through. What the drive says of them is not looked at.
    fn try_out(&mut self) -> Result<(), DriveError> {
        let pages = self
            .take_pages()
            .map_err(|_status| DriveError::Unusable(String::from("there is no memory for a Read")))?;
        let read = Request::read(0, 1, Data::Pages(pages, 512));
        for (name, request) in [("Read", read), ("Flush", Request::flush())] {
            let error = match self.make_alone(request, OWN_WAIT) {
                Ok(Answer::Completed(_)) => continue,
                Ok(Answer::Failed(_, error) | Answer::Gone(error) | Answer::Again(error)) => error,
                Err(error) => error,
            };
            return Err(DriveError::Unusable(format!(
                "{}: {}",
                self.words,
                refusal(name, &error)
            )));
        }
        Ok(())
    }

    /// Makes a command while nothing else is under way, and waits for it.
    fn make_alone(&mut self, request: Request, most: Duration) -> io::Result<Answer> {
        let end = Instant::now() + most;
        let mut work = Work::new(Aim::Own, request);
        loop {
            self.ring.begin(work).map_err(|(_, error)| error)?;
            let (ended, result) = self.wait_for_one(end)?;
            match Answer::of(result) {
                Answer::Again(_) if ended.tries < TRIES => work = ended,
                answer => return Ok(answer),
            }
            work.tries += 1;
        }
    }

    /// Waits for the next end of a command.
    fn wait_for_one(&mut self, end: Instant) -> io::Result<(Work, io::Result<u32>)> {
        loop {
            self.ring.submit()?;
            if let Some(ended) = self.ring.next() {
                return Ok(ended);
            }
            let left = end.saturating_duration_since(Instant::now());
            if left.is_zero() {
                return Err(io::ErrorKind::TimedOut.into());
            }
            let mut fds = [PollFd::new(self.ring.wake(), PollFlags::POLLIN)];
            // An interruption is a round more.
            let _woken = poll(&mut fds, PollTimeout::from(left.as_millis().clamp(1, 100) as u16));
        }
    }

    fn post(&mut self, turn: &mut Turn, origin: Origin, status: Status) -> Result<(), DriveError> {
        self.lanes.post(&*self.memory, origin.lane, origin.command, status)?;
        turn.completed += 1;
        Ok(())
    }

    /// Begins a lane's command.
    fn take(&mut self, turn: &mut Turn, lane: usize, entry: &Submission) -> Result<(), DriveError> {
        let origin = Origin {
            lane,
            command: entry.command(),
        };
        match self.plan(origin, entry) {
            Err(status) => self.post(turn, origin, status),
            Ok(Plan::Nothing) => self.post(turn, origin, Status::GOOD),
            Ok(Plan::Make(work)) => self.begin(turn, work),
            Ok(Plan::Clear(clearing)) => {
                self.waiting.push_back(Clear { origin, clearing });
                Ok(())
            }
        }
    }

    /// Checks a lane's command, and finds how it is carried out.
    fn plan(&mut self, origin: Origin, entry: &Submission) -> Result<Plan, Status> {
        if entry.opcode() == opcode::DATASET_MANAGEMENT {
            return self.plan_dataset(origin, entry);
        }
        let step = match Step::of(entry, &*self.memory, self.blocks)? {
            Some(step) => step,
            None => return Ok(Plan::Nothing),
        };
        self.admit(step.changes() || matches!(step, Step::Sync))?;
        Ok(match step {
            Step::Sync => Plan::make(Aim::Command(origin), Request::flush()),
            Step::Transfer(transfer) if transfer.kind == Kind::Compare && !self.abilities.compare => {
                let data = Data::Pages(self.take_pages()?, transfer.places.bytes());
                let read = Request::of(entry, opcode::READ, data);
                Plan::make(Aim::Compare(origin, Box::new(transfer.places)), read)
            }
            Step::Transfer(transfer) => {
                let request = Request::of(entry, entry.opcode(), Data::Own(transfer.places));
                Plan::make(Aim::Command(origin), request)
            }
            Step::Clear(clearing) => match self.abilities.write_zeroes {
                Some(most) if entry.blocks() <= most => {
                    let mut request = Request::of(entry, entry.opcode(), Data::None);
                    if !self.abilities.deallocates_zeroes {
                        request.keep_allocated();
                    }
                    Plan::make(Aim::Command(origin), request)
                }
                _ => Plan::Clear(clearing),
            },
        })
    }

    fn plan_dataset(&mut self, origin: Origin, entry: &Submission) -> Result<Plan, Status> {
        check(entry)?;
        let dataset = Dataset::of(entry, &*self.memory)?;
        let clearing = dataset.clearing(self.blocks)?;
        self.admit(clearing.is_some())?;
        let is_admitted = self.abilities.dataset.is_some_and(|limits| limits.admit(&dataset));
        Ok(match clearing {
            _ if is_admitted => {
                let request = Request::of(entry, entry.opcode(), Data::Own(dataset.places));
                Plan::make(Aim::Command(origin), request)
            }
            Some(clearing) => Plan::Clear(clearing),
            None => Plan::Nothing,
        })
    }

    /// Whether a command is begun that changes blocks, or makes what was written durable, or does neither.
    fn admit(&self, changes: bool) -> Result<(), Status> {
        if changes && self.failure.reason().is_some() {
            return Err(Status::WRITE_FAULT_FOR_EVER);
        }
        Ok(())
    }

    fn take_pages(&mut self) -> Result<Pages, Status> {
        match self.pages.pop() {
            Some(pages) => Ok(pages),
            None => Pages::new().map_err(|_no_memory| Status::INTERNAL_ERROR),
        }
    }

    fn begin(&mut self, turn: &mut Turn, work: Work) -> Result<(), DriveError> {
        match self.ring.begin(work) {
            Ok(()) => Ok(()),
            Err((work, error)) => self.end(turn, work, Err(error)),
        }
    }

    /// Begins what waits, as far as there is room.
    fn begin_waiting(&mut self, turn: &mut Turn) -> Result<(), DriveError> {
        while self.ring.has_room() {
            let Some(work) = self.again.pop_front() else { break };
            self.begin(turn, work)?;
        }
        while self.ring.has_room() && self.clearing.is_none() {
            let Some(clear) = self.waiting.pop_front() else { break };
            self.begin_clear(turn, clear)?;
        }
        Ok(())
    }

    /// Begins a piece of a command that makes blocks zero.
    fn begin_clear(&mut self, turn: &mut Turn, clear: Clear) -> Result<(), DriveError> {
        if self.failure.reason().is_some() {
            return self.post(turn, clear.origin, Status::WRITE_FAULT_FOR_EVER);
        }
        let Some(Extent { from, to }) = clear.clearing.left.last().copied() else {
            return self.post(turn, clear.origin, Status::GOOD);
        };
        let bytes = (to - from).min(self.abilities.piece());
        let to = from + bytes;
        let by = self.abilities.zeroing(clear.clearing.gives_back);
        let request = Request::clear(Extent { from, to }, by, clear.clearing.forced);
        self.clearing = Some(clear);
        self.begin(turn, Work::new(Aim::Clear(bytes), request))
    }

    /// Takes the end of a command.
    fn end(&mut self, turn: &mut Turn, mut work: Work, result: io::Result<u32>) -> Result<(), DriveError> {
        let status = match Answer::of(result) {
            Answer::Again(_) if work.tries < TRIES => {
                work.tries += 1;
                self.again.push_back(work);
                return Ok(());
            }
            Answer::Completed(status) => status,
            // Where it has several paths, and none is left, the kernel says something else.
            Answer::Failed(Status::INTERNAL_ERROR, error) if self.is_gone => self.gone(&error),
            Answer::Gone(error) => self.gone(&error),
            Answer::Failed(status, error) => {
                self.failure.command_failed(&error);
                status
            }
            Answer::Again(error) => {
                self.failure.command_failed(&error);
                Status::INTERNAL_ERROR
            }
        };
        match work.aim {
            Aim::Own => Ok(()),
            Aim::Command(origin) => self.post(turn, origin, status),
            Aim::Clear(bytes) => self.end_clear(turn, bytes, status),
            Aim::Compare(origin, places) => {
                let Data::Pages(pages, _) = work.request.data else {
                    return self.post(turn, origin, Status::INTERNAL_ERROR);
                };
                let status = if status.is_good() {
                    turn.bytes = turn.bytes.saturating_sub(u64::from(places.bytes()));
                    self.compared(&places, &pages)
                } else {
                    status
                };
                if self.pages.len() < KEPT_PAGES {
                    self.pages.push(pages);
                }
                self.post(turn, origin, status)
            }
        }
    }

    /// The status of a command for a device that is gone.
    fn gone(&mut self, why: &dyn std::fmt::Display) -> Status {
        self.is_gone = true;
        self.failure.keep(format!("{}: the device is gone: {why}", self.words));
        Status::NOT_READY_FOR_EVER
    }

    /// The status of a Compare of these places with what was read.
    fn compared(&self, places: &Places, pages: &Pages) -> Status {
        match own_slices(places, 0, &*self.memory) {
            None => Status::TRANSFER_ERROR,
            Some(slices) if are_the_same(&slices, pages) => Status::GOOD,
            Some(_) => Status::COMPARE_FAILURE,
        }
    }

    fn end_clear(&mut self, turn: &mut Turn, bytes: u64, status: Status) -> Result<(), DriveError> {
        let Some(mut clear) = self.clearing.take() else {
            return Ok(());
        };
        if status.is_good() && !clear.clearing.advance(bytes) {
            self.waiting.push_back(clear);
            return Ok(());
        }
        self.post(turn, clear.origin, status)
    }

    /// Makes durable what was written, and waits for that.
    fn flush_at_the_end(&mut self) {
        let said = match self.make_alone(Request::flush(), OWN_WAIT) {
            Ok(Answer::Completed(status)) if status.is_good() => return,
            Ok(Answer::Completed(status)) => format!("a Flush ended with status {:#x}", status.bits()),
            Ok(Answer::Failed(_, error) | Answer::Again(error) | Answer::Gone(error)) | Err(error) => {
                format!("a Flush failed: {error}")
            }
        };
        self.failure.keep(format!("{}: {said}", self.words));
    }
}

/// How a lane's command is carried out.
enum Plan {
    /// There is nothing to do.
    Nothing,
    /// By one command of the drive's.
    Make(Work),
    /// By commands that make blocks zero.
    Clear(Clearing),
}

impl Plan {
    fn make(aim: Aim, request: Request) -> Plan {
        Plan::Make(Work::new(aim, request))
    }
}

/// Why the kernel does not let a command through when the drive is opened, and what to do.
fn refusal(name: &str, error: &io::Error) -> String {
    let why = match error.raw_os_error() {
        Some(libc::EACCES | libc::EPERM) => {
            "without the right CAP_SYS_ADMIN it lets them through from Linux 6.2 on, where the drive has the log 'Commands Supported and Effects', and the \
             device can be read and written"
        }
        Some(libc::EOPNOTSUPP | libc::ENOTTY | libc::EINVAL) => "it has passthrough commands from Linux 5.19 on",
        _ => "look at the kernel's log",
    };
    format!("the kernel refuses a {name}: {error}; {why}")
}

impl<M: SharedMemory + 'static, R: NamespaceRing> Drive for PassthroughDrive<M, R> {
    fn create_lanes(&mut self, lanes: &[LaneRings]) -> Result<(), DriveError> {
        self.lanes.create(&*self.memory, lanes)
    }

    fn ring_submission(&mut self, lane: usize, tail: u32) -> Result<(), DriveError> {
        self.lanes.ring_submission(lane, tail)
    }

    fn ring_completion(&mut self, lane: usize, head: u32) -> Result<(), DriveError> {
        self.lanes.ring_completion(lane, head)
    }

    fn work(&mut self, budget: Budget) -> Result<Progress, DriveError> {
        let mut turn = Turn {
            commands: budget.commands,
            bytes: budget.bytes,
            completed: 0,
        };
        let mut are_left = true;
        while turn.bytes > 0 {
            let Some((work, result)) = self.ring.next() else {
                are_left = false;
                break;
            };
            self.end(&mut turn, work, result)?;
        }
        self.begin_waiting(&mut turn)?;
        while turn.commands > 0 && self.ring.has_room() {
            let Some((lane, entry)) = self.lanes.take(&*self.memory)? else {
                break;
            };
            turn.commands -= 1;
            self.take(&mut turn, lane, &entry)?;
        }
        self.begin_waiting(&mut turn)?;
        let submitted = self
            .ring
            .submit()
            .map_err(|error| DriveError::Failed(format!("the kernel takes no more commands: {error}")))?;
        let can_go_on = self.ring.has_room() && (self.lanes.has_next() || !self.again.is_empty());
        Ok(Progress {
            completed: turn.completed,
            more: are_left || can_go_on || !submitted,
        })
    }

    /// A namespace that is gone, or has become smaller, is reported here; from then on writes fail, and the drive still answers.
    fn check(&mut self) -> Result<(), DriveError> {
        if self.failure.reason().is_none() {
            let said = match self.ring.blocks() {
                Ok(blocks) if blocks >= self.blocks => return Ok(()),
                Ok(0) => {
                    self.gone(&"it has no blocks any more");
                    return Ok(());
                }
                Ok(blocks) => format!("it has {blocks} blocks of the drive's {}", self.blocks),
                Err(error) => format!("it cannot be looked at: {error}"),
            };
            self.failure.keep(format!("{}: {said}", self.words));
        }
        Ok(())
    }

    fn wake(&self) -> Option<BorrowedFd<'_>> {
        Some(self.ring.wake())
    }

    fn describe(&self) -> String {
        format!("{}{}{}", self.words, self.abilities.words(), self.failure.words())
    }

    fn close(mut self: Box<Self>) -> Result<(), DriveError> {
        if !self.ring.finish(CLOSE_WAIT) {
            let words = format!("{}: commands have not ended within {CLOSE_WAIT:?}", self.words);
            self.failure.keep(words);
        } else if self.failure.reason().is_none() {
            self.flush_at_the_end();
        }
        self.failure.verdict()
    }
}
