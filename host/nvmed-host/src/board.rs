//! What the program's threads show of what they are at: words of memory, each written by one thread and read by that of the control socket.
//!
//! Neither side waits for the other. Words are read one after the other, so that two of them may be of different moments.

#![forbid(unsafe_code)]

use std::io;
use std::sync::atomic::{AtomicBool, AtomicU32, AtomicU64, AtomicU8, Ordering};
use std::sync::{Arc, OnceLock};

use crate::figures::{Counter, GuestFigures};
use crate::mediation::wake::Bell;

/// What a guest is at.
#[derive(Clone, Copy, Debug, Default, PartialEq, Eq)]
pub enum GuestState {
    /// Nobody is connected.
    #[default]
    Waiting,
    /// A client is connected, and the controller is not enabled.
    Connected,
    /// The controller is enabled.
    Enabled,
    /// The connection is over, and its commands have not run out yet.
    Ending,
    /// The controller shows a fatal status, or the guest's memory cannot be had again for a next client.
    Failed,
    /// Nobody will connect any more.
    Ended,
}

impl GuestState {
    /// All of them.
    pub const ALL: [Self; 6] = [
        Self::Waiting,
        Self::Connected,
        Self::Enabled,
        Self::Ending,
        Self::Failed,
        Self::Ended,
    ];

    /// Its name, for the operator.
    #[must_use]
    pub fn name(self) -> &'static str {
        match self {
            Self::Waiting => "waiting",
            Self::Connected => "connected",
            Self::Enabled => "enabled",
            Self::Ending => "ending",
            Self::Failed => "failed",
            Self::Ended => "ended",
        }
    }
}

/// What the drive is at.
#[derive(Clone, Copy, Debug, Default, PartialEq, Eq)]
pub enum DriveState {
    /// It is being opened.
    #[default]
    Opening,
    /// It works.
    Good,
    /// Its controller is being reset.
    Reset,
    /// It has failed, for good.
    Failed,
}

impl DriveState {
    /// All of them.
    pub const ALL: [Self; 4] = [Self::Opening, Self::Good, Self::Reset, Self::Failed];

    /// Its name, for the operator.
    #[must_use]
    pub fn name(self) -> &'static str {
        match self {
            Self::Opening => "opening",
            Self::Good => "good",
            Self::Reset => "reset",
            Self::Failed => "failed",
        }
    }
}

/// Whether guests' commands are taken.
#[derive(Clone, Copy, Debug, Default, PartialEq, Eq)]
pub enum Phase {
    /// They are.
    #[default]
    Running,
    /// They are not any more, and some that were taken have not run out.
    Draining,
    /// They are not, and all that were taken have run out.
    Drained,
}

impl Phase {
    const ALL: [Self; 3] = [Self::Running, Self::Draining, Self::Drained];

    /// Its name, for the operator.
    #[must_use]
    pub fn name(self) -> &'static str {
        match self {
            Self::Running => "running",
            Self::Draining => "draining",
            Self::Drained => "drained",
        }
    }
}

/// One of a few values, as a word of memory: its place among all of them.
#[derive(Debug, Default)]
struct Word(AtomicU8);

impl Word {
    fn show(&self, place: u8) {
        self.0.store(place, Ordering::Release);
    }

    fn of<T: Copy + Default>(&self, all: &[T]) -> T {
        let place = usize::from(self.0.load(Ordering::Acquire));
        all.get(place).copied().unwrap_or_default()
    }
}

/// How a guest has ended.
const GOES_ON: u8 = 0;
const ENDED: u8 = 1;
const FAILED: u8 = 2;

/// What is shown of a guest.
#[derive(Debug, Default)]
pub struct GuestBoard {
    /// As the mediator's thread sees it.
    state: Word,
    /// As the guest's thread sees its end.
    end: AtomicU8,
    flying: AtomicU32,
    /// Its figures.
    pub figures: GuestFigures,
}

impl GuestBoard {
    /// What the guest is at.
    #[must_use]
    pub fn state(&self) -> GuestState {
        match self.end.load(Ordering::Acquire) {
            GOES_ON => self.state.of(&GuestState::ALL),
            FAILED => GuestState::Failed,
            _ => GuestState::Ended,
        }
    }

    /// Of the mediator's thread: what it is at.
    pub fn show_state(&self, state: GuestState) {
        self.state.show(state as u8);
    }

    /// Of the guest's thread: its memory cannot be had again.
    pub fn fail(&self) {
        self.end.store(FAILED, Ordering::Release);
    }

    /// Of the guest's thread: nobody will connect any more. A guest that has failed stays so.
    pub fn end(&self) {
        let _failed = self
            .end
            .compare_exchange(GOES_ON, ENDED, Ordering::AcqRel, Ordering::Acquire);
    }

    /// Entries of the guest that the drive has.
    #[must_use]
    pub fn flying(&self) -> u32 {
        self.flying.load(Ordering::Relaxed)
    }

    /// Of the mediator's thread: how many entries of the guest the drive has.
    pub fn show_flying(&self, entries: u32) {
        self.flying.store(entries, Ordering::Relaxed);
    }
}

/// What is shown of a lane.
#[derive(Debug, Default)]
pub struct LaneBoard {
    flying: AtomicU32,
    closed: AtomicBool,
    /// Commands that the drive has answered.
    pub commands: Counter,
}

impl LaneBoard {
    /// Entries that the drive has.
    #[must_use]
    pub fn flying(&self) -> u32 {
        self.flying.load(Ordering::Relaxed)
    }

    /// Of the mediator's thread: how many entries the drive has.
    pub fn show_flying(&self, entries: u32) {
        self.flying.store(entries, Ordering::Relaxed);
    }

    /// Whether nothing is taken for it any more.
    #[must_use]
    pub fn is_closed(&self) -> bool {
        self.closed.load(Ordering::Relaxed)
    }

    /// Of the mediator's thread: nothing is taken for it any more.
    pub fn close(&self) {
        self.closed.store(true, Ordering::Relaxed);
    }
}

/// What is shown of the drive.
#[derive(Debug, Default)]
pub struct DriveBoard {
    state: Word,
    words: OnceLock<String>,
}

impl DriveBoard {
    /// What it is at. Until it was opened that is [`DriveState::Opening`], or [`DriveState::Failed`].
    #[must_use]
    pub fn state(&self) -> DriveState {
        match self.state.of(&DriveState::ALL) {
            DriveState::Failed => DriveState::Failed,
            _ if self.words.get().is_none() => DriveState::Opening,
            // the mediator's thread has shown nothing yet
            DriveState::Opening => DriveState::Good,
            state => state,
        }
    }

    /// Of the mediator's thread: what it is at.
    pub fn show_state(&self, state: DriveState) {
        self.state.show(state as u8);
    }

    /// The line on the drive, once it was opened.
    #[must_use]
    pub fn words(&self) -> Option<&str> {
        self.words.get().map(String::as_str)
    }

    /// Of the program's thread: the drive was opened, and this is the line on it.
    pub fn open(&self, words: &str) {
        let _first = self.words.set(words.to_owned());
    }
}

/// What is shown of the program.
#[derive(Debug)]
pub struct Board {
    phase: Word,
    /// How many of the operator's orders are in what is shown.
    heeded: AtomicU64,
    /// The drive.
    pub drive: DriveBoard,
    /// The lanes, by their numbers.
    pub lanes: Vec<LaneBoard>,
    /// The guests, by their numbers.
    pub guests: Vec<GuestBoard>,
    reader: Arc<Bell>,
}

impl Board {
    /// A board for so many lanes and guests.
    ///
    /// # Errors
    ///
    /// There are no descriptors left.
    pub fn new(lanes: usize, guests: usize) -> io::Result<Self> {
        Ok(Self {
            phase: Word::default(),
            heeded: AtomicU64::new(0),
            drive: DriveBoard::default(),
            lanes: (0..lanes).map(|_| LaneBoard::default()).collect(),
            guests: (0..guests).map(|_| GuestBoard::default()).collect(),
            reader: Arc::new(Bell::new()?),
        })
    }

    /// Whether guests' commands are taken.
    #[must_use]
    pub fn phase(&self) -> Phase {
        self.phase.of(&Phase::ALL)
    }

    /// Whether guests' commands are taken, once so many of the operator's orders were heeded; `None` before.
    #[must_use]
    pub fn phase_after(&self, orders: u64) -> Option<Phase> {
        // the phase is shown before
        let heeded = self.heeded.load(Ordering::Acquire);
        (heeded == orders).then(|| self.phase())
    }

    /// Of the mediator's thread: whether guests' commands are taken, after so many of the operator's orders. A reader that waits for a change is woken.
    pub fn show_phase(&self, phase: Phase, orders: u64) {
        if phase != self.phase() || orders != self.heeded.load(Ordering::Relaxed) {
            self.phase.show(phase as u8);
            self.heeded.store(orders, Ordering::Release);
            self.reader.ring();
        }
    }

    /// The bell of the thread that reads the board.
    #[must_use]
    pub fn reader(&self) -> &Arc<Bell> {
        &self.reader
    }
}

#[cfg(test)]
mod tests {
    use super::*;

    #[test]
    fn each_state_is_shown() {
        let board = Board::new(2, 1).unwrap();
        let guest = &board.guests[0];
        assert_eq!(guest.state(), GuestState::Waiting);
        for state in GuestState::ALL {
            guest.show_state(state);
            assert_eq!(guest.state(), state);
        }
        for phase in Phase::ALL {
            board.show_phase(phase, 7);
            assert_eq!(board.phase(), phase);
            assert_eq!(board.phase_after(7), Some(phase));
            assert_eq!(board.phase_after(8), None);
        }
        let names = GuestState::ALL.map(GuestState::name);
        assert!(names
            .iter()
            .all(|name| names.iter().filter(|other| *other == name).count() == 1));
    }

    #[test]
    fn a_drive_is_being_opened_until_its_words_are_there() {
        let board = Board::new(1, 1).unwrap();
        board.drive.show_state(DriveState::Good);
        assert_eq!(board.drive.state(), DriveState::Opening);
        board.drive.show_state(DriveState::Failed);
        assert_eq!(board.drive.state(), DriveState::Failed);
        board.drive.open("a drive");
        for (shown, state) in [
            (DriveState::Opening, DriveState::Good),
            (DriveState::Good, DriveState::Good),
            (DriveState::Reset, DriveState::Reset),
            (DriveState::Failed, DriveState::Failed),
        ] {
            board.drive.show_state(shown);
            assert_eq!(board.drive.state(), state);
        }
        assert_eq!(board.drive.words(), Some("a drive"));
    }

    #[test]
    fn a_guest_that_has_failed_stays_so() {
        let board = Board::new(1, 2).unwrap();
        board.guests[0].fail();
        board.guests[0].end();
        board.guests[1].end();
        for (guest, state) in board.guests.iter().zip([GuestState::Failed, GuestState::Ended]) {
            guest.show_state(GuestState::Enabled);
            assert_eq!(guest.state(), state);
        }
    }
}
