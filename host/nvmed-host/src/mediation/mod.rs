//! The mediator's thread: it has the mediator and the drive, and carries out what guests ask for.
//!
//! It never waits for a guest, its process or the drive. Guests' threads ask by bounded queues ([`mailbox`]), doorbells come by these or by pages of memory, and
//! answers are words of memory ([`outbox`]). It sleeps where nothing is due, on a descriptor of its own and on the drive's.

#![forbid(unsafe_code)]

pub mod client;
pub mod failing;
pub mod lanes;
pub mod limits;
pub mod mailbox;
pub mod orders;
pub mod outbox;
pub mod pace;
pub mod side;
pub mod wake;

use std::os::fd::AsFd;
use std::sync::atomic::{AtomicBool, Ordering};
use std::sync::Arc;
use std::time::{Duration, Instant};

use nix::poll::{ppoll, PollFd, PollFlags};
use nix::sys::prctl;
use nix::sys::time::TimeSpec;
use nvmed::WorkEnd;

use crate::board::{Board, DriveState, Phase};
use crate::drive::{Budget, Drive, DriveError};
use crate::interrupts::Signals;
use crate::memory::Window;
use client::Client;
use failing::{Disk, Failure, Stopped, SILENCE};
use lanes::{Lanes, Sent};
use orders::Orders;
use pace::{Pace, Waiting, TICK};
use side::{Of, Side};
use wake::Bell;

/// Events of one call of the mediator.
const EVENTS: u64 = 64;
/// After so long guests' accesses are looked at again.
const SLICE: Duration = Duration::from_millis(2);
/// What a simulated drive may do before the others are looked at.
const BUDGET: Budget = Budget {
    commands: 64,
    bytes: 1 << 20,
};
/// How late a timer of this thread may be, in nanoseconds.
const SLACK: u64 = 1_000;

/// A guest's ends of its queues.
pub struct Post {
    /// What it asks for.
    pub mailbox: mailbox::Receiver,
    /// What it is told.
    pub outbox: Arc<outbox::Outbox>,
    /// Its interrupts.
    pub signals: Arc<Signals>,
    /// What its version register says.
    pub version: u32,
}

/// What the mediator's thread is made from.
pub struct Parts<S: Side> {
    /// The mediator.
    pub side: S,
    /// How many lanes it has.
    pub lanes: usize,
    /// The memory in which the lanes' rings lie.
    pub window: Arc<Window>,
    /// The drive, whose lanes have not been created yet.
    pub drive: Box<dyn Drive>,
    /// The guests, in their order.
    pub posts: Vec<Post>,
    /// The thread's bell, which the mailboxes ring.
    pub bell: Arc<Bell>,
    /// What an operator asks for, by that bell.
    pub orders: Arc<Orders>,
    /// Where the thread shows what it is at.
    pub board: Arc<Board>,
    /// For so long after its last event the thread goes on without a pause, where that helps.
    pub spin: Duration,
    /// What each second is counted for, if it is.
    pub counts: Option<Box<dyn Counts>>,
}

/// Counts what the drive is given.
pub trait Counts: Send {
    /// An entry of a guest.
    fn note(&mut self, guest: usize, entry: &[u8; lanes::ENTRY]);
    /// A second is over.
    fn tick(&mut self);
}

/// How the thread ended.
pub enum End {
    /// It was asked to. The drive is to be closed.
    Stopped(Option<Box<dyn Drive>>),
    /// The drive has failed, and guests were answered.
    DriveFailed,
}

/// Asks a thread to end, such as the mediator's.
#[derive(Clone, Debug)]
pub struct Stop {
    asked: Arc<AtomicBool>,
    bell: Arc<Bell>,
}

impl Stop {
    /// Asks a thread with this bell.
    #[must_use]
    pub fn new(bell: Arc<Bell>) -> Self {
        Self {
            asked: Arc::new(AtomicBool::new(false)),
            bell,
        }
    }

    /// Asks it.
    pub fn ask(&self) {
        self.asked.store(true, Ordering::SeqCst);
        self.bell.ring();
    }

    /// Whether it was asked.
    #[must_use]
    pub fn is_asked(&self) -> bool {
        self.asked.load(Ordering::SeqCst)
    }
}

/// The mediator, the drive, and the guests as they are asked for.
pub struct Mediation<S: Side> {
    side: S,
    lanes: Lanes,
    disk: Disk,
    clients: Vec<Client>,
    bell: Arc<Bell>,
    stop: Stop,
    orders: Arc<Orders>,
    board: Arc<Board>,
    counts: Option<Box<dyn Counts>>,
    pace: Pace,
    /// No commands of guests are taken any more.
    draining: bool,
    /// What was asked for until now was heeded.
    heeded: u64,
    /// More is due at once.
    due: bool,
    /// Of a lane more may be due.
    busy: bool,
    /// Guests were told something since the thread last let others run.
    told: bool,
    /// The drive is being reset.
    recovering: bool,
    /// When the drive was checked last.
    ticked: Instant,
    /// Faults of memory that were told.
    faults: u32,
}

impl<S: Side> Mediation<S> {
    /// Creates the drive's queues. It may wait for the drive.
    ///
    /// # Errors
    ///
    /// Those of the drive. It is closed then.
    pub fn new(mut parts: Parts<S>) -> Result<Self, DriveError> {
        let now = Instant::now();
        let board = Arc::clone(&parts.board);
        let lanes = Lanes::new(&mut parts.side, parts.lanes, parts.window, board, now);
        if let Err(error) = parts.drive.create_lanes(&lanes.rings()) {
            // the first error is the one that counts
            let _second = parts.drive.close();
            return Err(error);
        }
        let clients = (0..).zip(parts.posts);
        Ok(Self {
            side: parts.side,
            lanes,
            disk: Disk::Good(parts.drive),
            clients: clients
                .map(|(number, post)| Client::new(number, post, Arc::clone(&parts.board)))
                .collect(),
            stop: Stop::new(Arc::clone(&parts.bell)),
            bell: parts.bell,
            orders: parts.orders,
            board: parts.board,
            counts: parts.counts,
            pace: Pace::new(parts.spin, now),
            draining: false,
            heeded: 0,
            due: false,
            busy: false,
            told: false,
            recovering: false,
            ticked: now,
            faults: crate::memory::fault::all(),
        })
    }

    /// What asks the thread to end.
    #[must_use]
    pub fn stop(&self) -> Stop {
        self.stop.clone()
    }

    /// Until the thread is asked to end, or the drive has failed and guests were answered.
    pub fn run(mut self) -> End {
        // where that is refused timers are later, and nothing else
        let _late = prctl::set_timerslack(SLACK);
        loop {
            if self.stop.is_asked() {
                return End::Stopped(match self.disk {
                    Disk::Good(drive) => Some(drive),
                    _ => None,
                });
            }
            let now = Instant::now();
            self.turn(now);
            if self.disk.is_over(now) {
                return End::DriveFailed;
            }
            self.rest(now);
        }
    }

    /// Carries out what guests ask for, and what is due, for some milliseconds at most.
    fn turn(&mut self, now: Instant) {
        self.heed(now);
        let recovering = self.recovering;
        let stirred = self.listen();
        let opened = self.clients.iter().filter_map(Client::opens).any(|until| until <= now);
        let result = if stirred || opened || self.due || self.recovering || self.lanes.are_flying() {
            self.work(now)
        } else {
            Ok((false, now))
        };
        let result = result.and_then(|(worked, end)| {
            if stirred || worked {
                let sent = self.clients.iter_mut().map(Client::take_sent).max();
                self.pace.note(now, end, sent.unwrap_or(0));
                self.show();
            }
            self.tick(now)
        });
        if let Err(failure) = result {
            self.give_up(&failure, now);
        }
        self.look_at_failed(now);
        self.note_ends();
        self.note_faults();
        if recovering != self.recovering {
            self.show();
        }
        self.show_phase();
    }

    /// Whether the operator asks for something that was not heeded yet.
    fn is_ordered(&self) -> bool {
        self.orders.changes() != self.heeded
    }

    /// What the operator asks for.
    fn heed(&mut self, now: Instant) {
        if !self.is_ordered() {
            return;
        }
        self.heeded = self.orders.changes();
        self.draining = self.orders.is_draining();
        self.due = true;
        for client in &mut self.clients {
            client.set_drain(self.draining);
            client.set_limit(&mut self.side, self.orders.limit(client.number()), now);
        }
    }

    /// Shows what the thread is at.
    fn show(&self) {
        self.lanes.show();
        self.board.drive.show_state(match self.disk {
            Disk::Good(_) if self.recovering => DriveState::Reset,
            Disk::Good(_) => DriveState::Good,
            _ => DriveState::Failed,
        });
    }

    /// Shows whether commands are taken. All that were taken have run out where the guests' are with the drive, and the drive has none.
    fn show_phase(&self) {
        let phase = if !self.draining {
            Phase::Running
        } else if self.busy || self.lanes.are_flying() || !self.clients.iter().all(Client::is_quiet) {
            Phase::Draining
        } else {
            Phase::Drained
        };
        self.board.show_phase(phase, self.heeded);
    }

    /// What guests ask for. Whether there was something.
    fn listen(&mut self) -> bool {
        let mut any = false;
        for client in &mut self.clients {
            any |= client.listen(&mut self.side, &self.lanes, self.busy);
        }
        any
    }

    /// Carries out what is due, until nothing is or the slice is over. Whether something was done, and when the last of it was.
    fn work(&mut self, begin: Instant) -> Result<(bool, Instant), Failure> {
        let mut any = false;
        let mut now = begin;
        loop {
            let done = self.pass(now)?;
            self.due = done;
            if !done {
                return Ok((any, now));
            }
            any = true;
            now = later(begin);
            if now.saturating_duration_since(begin) >= SLICE {
                return Ok((any, now));
            }
        }
    }

    /// Each guest gets a piece of work, then the drive, then each lane.
    fn pass(&mut self, now: Instant) -> Result<bool, Failure> {
        let guests = self.work_guests(now)?;
        let (drive, more) = self.work_drive(now)?;
        // what the drive has answered meanwhile was answered by now
        let now = if self.lanes.are_flying() { later(now) } else { now };
        let lanes = self.work_lanes(now)?;
        if lanes {
            self.ring(now)?;
        }
        for client in &mut self.clients {
            if lanes {
                client.note_room();
            }
            client.tell(&mut self.side, guests || lanes);
        }
        self.told |= guests || lanes;
        Ok(guests || drive || more || lanes)
    }

    fn work_guests(&mut self, now: Instant) -> Result<bool, Failure> {
        let mut any = false;
        for client in &mut self.clients {
            if !client.is_due() {
                continue;
            }
            let guest = client.number();
            loop {
                let most = client.events(now, EVENTS);
                if most == 0 {
                    if client.has_admin() {
                        let done = self.side.admin(guest);
                        any |= done;
                        client.note_admin(done);
                    }
                    break;
                }
                let worked = self.side.work(Of::Guest(guest), most);
                let mut sent = Sent::default();
                if worked.done != 0 {
                    any = true;
                    let counts = &mut self.counts;
                    sent = self.lanes.note_sent(&mut self.side, guest, now, &mut |entry| {
                        if let Some(counts) = counts {
                            counts.note(guest, entry);
                        }
                    });
                }
                let cut = worked.done >= most;
                // where there was no memory for what is left it is tried again, with the next event or second
                let more = cut || worked.end == WorkEnd::OutOfMemory;
                any |= client.note_worked(&mut self.side, sent, now, more);
                if worked.end == WorkEnd::Stray {
                    return Err(Failure::Stray(0));
                }
                if !(cut && client.is_finishing()) {
                    break;
                }
            }
        }
        Ok(any)
    }

    fn ring(&mut self, now: Instant) -> Result<(), Failure> {
        match self.disk.good() {
            Some(drive) => Ok(self.lanes.ring(drive, now)?),
            None => Ok(()),
        }
    }

    /// The drive gets its doorbells, and does its part where it is simulated. Whether it did something, and whether there is more.
    fn work_drive(&mut self, now: Instant) -> Result<(bool, bool), Failure> {
        let Some(drive) = self.disk.good() else {
            return Ok((false, false));
        };
        self.lanes.ring(drive, now)?;
        if !self.lanes.are_flying() && !self.recovering {
            return Ok((false, false));
        }
        let progress = drive.work(BUDGET)?;
        if self.recovering {
            self.recovering = drive.recover().is_some_and(|it| it.is_recovering());
        }
        Ok((progress.completed != 0, progress.more))
    }

    fn work_lanes(&mut self, now: Instant) -> Result<bool, Failure> {
        let mut any = false;
        self.busy = false;
        for lane in 0..self.lanes.len() {
            let worked = self.side.work(Of::Lane(lane), EVENTS);
            if worked.done != 0 {
                any = true;
                self.lanes.note_answered(&mut self.side, lane, now);
            }
            self.busy |= worked.done >= EVENTS;
            if worked.end == WorkEnd::Stray && self.disk.good().is_some() {
                return Err(Failure::Stray(lane));
            }
        }
        Ok(any)
    }

    /// Once a second the drive is looked at.
    fn tick(&mut self, now: Instant) -> Result<(), Failure> {
        if now.saturating_duration_since(self.ticked) < TICK {
            return Ok(());
        }
        self.ticked = now;
        self.show();
        if let Some(counts) = &mut self.counts {
            counts.tick();
        }
        // what there was no memory for is tried again
        self.due = true;
        // a drive that is being reset keeps aside what its doorbells say
        self.ring(now)?;
        let Some(drive) = self.disk.good() else { return Ok(()) };
        drive.check()?;
        self.recovering = drive.recover().is_some_and(|it| it.is_recovering());
        if self.recovering {
            // it has limits of its own
            self.lanes.excuse(now);
        }
        match self.lanes.silent(now, SILENCE) {
            Some(lane) => Err(Failure::Silent(lane)),
            None => Ok(()),
        }
    }

    /// The drive cannot be relied on any more: it is stopped, in a thread of its own.
    fn give_up(&mut self, failure: &Failure, now: Instant) {
        if self.disk.good().is_some() {
            tracing::error!("the drive: {failure}");
            self.disk.stop(now);
            self.show();
        }
    }

    /// Once it has stopped, what it had ends with an error.
    fn look_at_failed(&mut self, now: Instant) {
        if let Stopped::Now(words) = self.disk.look(now) {
            if let Some(words) = words {
                tracing::error!("the drive: {words}");
            }
            for lane in 0..self.lanes.len() {
                self.side.close_lane(lane);
                if let Some(shown) = self.board.lanes.get(lane) {
                    shown.close();
                }
            }
            self.lanes.forget();
            for client in &mut self.clients {
                client.note_room();
            }
            self.due = true;
        }
    }

    fn note_ends(&mut self) {
        for client in &mut self.clients {
            client.note_end(&mut self.side);
        }
    }

    /// An access of a guest's memory has met a file that was cut off: each guest's thread looks whether it was its own.
    fn note_faults(&mut self) {
        let faults = crate::memory::fault::all();
        if faults != self.faults {
            self.faults = faults;
            for client in &self.clients {
                client.outbox().cut_off();
            }
        }
    }

    /// Waits until there is something to do.
    fn rest(&mut self, now: Instant) {
        let pause = self.pause(now);
        if pause.is_zero() {
            // the guest's thread that tells its client may have no other processor
            if std::mem::take(&mut self.told) {
                std::thread::yield_now();
            }
            std::hint::spin_loop();
            return;
        }
        self.told = false;
        self.bell.lie_down();
        if self.clients.iter().any(Client::has_mail) || self.stop.is_asked() || self.is_ordered() {
            self.bell.get_up();
            return;
        }
        if self.sleep(pause) {
            if let Some(drive) = self.disk.good() {
                drive.woken();
            }
        }
        self.bell.get_up();
    }

    /// Sleeps, but no longer than that. Whether the drive's descriptor is readable.
    fn sleep(&mut self, pause: Duration) -> bool {
        let wake = match &self.disk {
            Disk::Good(drive) => drive.wake(),
            _ => None,
        };
        let bell = self.bell.fd();
        let mut fds = [
            PollFd::new(bell.as_fd(), PollFlags::POLLIN),
            PollFd::new(wake.unwrap_or(bell), PollFlags::POLLIN),
        ];
        // an interruption by a signal is a turn more
        let _woken = ppoll(&mut fds, Some(TimeSpec::from_duration(pause)), None);
        wake.is_some() && fds.get(1).and_then(|fd| fd.any()).unwrap_or(false)
    }

    fn pause(&self, now: Instant) -> Duration {
        let (wakes, stopping) = match &self.disk {
            Disk::Good(drive) => (drive.wake().is_some(), false),
            Disk::Stopping(..) => (true, true),
            Disk::Gone(_) => (true, true),
        };
        let waiting = Waiting {
            due: self.due || self.clients.iter().any(Client::has_more),
            polled: self.recovering || self.lanes.are_flying() && !wakes,
            looked: self.clients.iter().any(Client::is_looked_at),
        };
        let opens = self.clients.iter().filter_map(Client::opens).min();
        let held = opens.map_or(Duration::MAX, |until| until.saturating_duration_since(now));
        let pause = self.pace.longest(waiting, now).min(held);
        if stopping {
            pause.min(Duration::from_millis(20))
        } else {
            pause
        }
    }
}

/// The time now, which is not before that one.
fn later(than: Instant) -> Instant {
    Instant::now().max(than)
}

#[cfg(test)]
mod tests;
