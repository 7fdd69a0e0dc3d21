//! The loop over a mediator and a drive of the tests' own.

mod operator;

use std::collections::HashMap;
use std::os::fd::BorrowedFd;
use std::sync::{Arc, Mutex, MutexGuard};
use std::thread::{self, JoinHandle};

use vm_memory::Bytes;

use super::limits::Limit;
use super::mailbox::{mailbox, Access, Sender};
use super::outbox::Outbox;
use super::side::{Rings, Worked};
use super::*;
use crate::doorbells::Page;
use crate::drive::nvme::Recover;
use crate::drive::{LaneRings, Progress};
use crate::figures::Kind;
use crate::interrupts::VectorSet;
use crate::pci::VERSION_1_3;

const CC: u32 = 0x14;
const CSTS: u32 = 0x1c;
const TAIL_0: u32 = 0x1000;
const TAIL_1: u32 = 0x1008;
const AT: LaneRings = LaneRings {
    submission: 0x1000,
    completion: 0x3000,
    entries: 65,
};

/// What a drive does.
#[derive(Clone, Copy, Debug, Default, PartialEq, Eq)]
enum Manner {
    #[default]
    Answers,
    Silent,
    FailsAtDoorbell,
    FailsAtCheck,
    Strays,
    /// It fails at a doorbell, and takes a while to stop.
    FailsAndHangs,
    RefusesLanes,
    /// It answers nothing, since it is being reset.
    IsReset,
}

#[derive(Default)]
struct State {
    log: Vec<String>,
    cc: HashMap<usize, u32>,
    /// Commands of a guest that were rung and not taken, and those that were taken.
    waiting: HashMap<usize, u32>,
    taken: HashMap<usize, u32>,
    /// Admin commands of a guest that were rung.
    admin: HashMap<usize, u32>,
    owners: Vec<usize>,
    tail: u32,
    head: u32,
    completed: u32,
    posted: HashMap<usize, u16>,
    manner: Manner,
    closed: bool,
    lanes_closed: bool,
    /// CSTS.CFS.
    fatal: bool,
}

#[derive(Clone)]
struct Fake {
    state: Arc<Mutex<State>>,
    window: Arc<Window>,
}

impl Fake {
    fn new(manner: Manner) -> Self {
        let window = Window::reserve(0x10000).unwrap();
        window.map_zeros(0x1000, 0x8000).unwrap();
        let state = State {
            manner,
            ..State::default()
        };
        Self {
            state: Arc::new(Mutex::new(state)),
            window,
        }
    }

    fn state(&self) -> MutexGuard<'_, State> {
        self.state.lock().unwrap()
    }
}

impl Side for Fake {
    fn read(&mut self, guest: usize, offset: u32) -> u32 {
        let state = self.state();
        let enabled = state.cc.get(&guest).copied().unwrap_or(0) & 1;
        match offset {
            CC => state.cc.get(&guest).copied().unwrap_or(0),
            CSTS if state.fatal => 2,
            CSTS => enabled | u32::from(state.taken.get(&guest).copied().unwrap_or(0) != 0),
            other => other,
        }
    }

    fn write(&mut self, guest: usize, offset: u32, value: u32) {
        let mut state = self.state();
        state.log.push(format!("write {guest} {offset:#x} {value:#x}"));
        if offset == CC {
            state.cc.insert(guest, value);
            if value & 1 == 0 {
                state.waiting.insert(guest, 0);
            }
        }
    }

    fn doorbell(&mut self, guest: usize, offset: u32, value: u32) -> bool {
        let mut state = self.state();
        state.log.push(format!("doorbell {guest} {offset:#x} {value}"));
        if offset == TAIL_1 {
            *state.waiting.entry(guest).or_default() += 1;
        }
        if offset == TAIL_0 {
            *state.admin.entry(guest).or_default() += 1;
        }
        true
    }

    fn work(&mut self, of: Of, most: u64) -> Worked {
        assert!((1..=EVENTS).contains(&most));
        let mut state = self.state();
        let end = WorkEnd::Done;
        match of {
            Of::Guest(guest) => {
                let mut done = state.admin.remove(&guest).unwrap_or(0).into();
                while done < most && !state.lanes_closed && state.waiting.get(&guest).copied().unwrap_or(0) > 0 {
                    *state.waiting.entry(guest).or_default() -= 1;
                    *state.taken.entry(guest).or_default() += 1;
                    let mut entry = [0; 64];
                    entry[0] = 2;
                    entry[2] = state.owners.len() as u8 % 64;
                    state.owners.push(guest);
                    let at = AT.submission + u64::from(state.tail) * 64;
                    self.window.slice(at, 64).unwrap().write_slice(&entry, 0).unwrap();
                    state.tail = (state.tail + 1) % AT.entries;
                    done += 1;
                }
                Worked { done, end }
            }
            Of::Lane(_) => {
                if state.manner == Manner::Strays && state.completed > 0 && !state.lanes_closed {
                    let end = WorkEnd::Stray;
                    return Worked { done: 0, end };
                }
                let mut done = 0;
                while state.completed > 0 || (state.lanes_closed && !state.owners.is_empty()) {
                    let guest = state.owners.remove(0);
                    state.completed = state.completed.saturating_sub(1);
                    state.head = (state.head + 1) % AT.entries;
                    *state.taken.entry(guest).or_default() -= 1;
                    *state.posted.entry(guest).or_default() |= 2;
                    done += 1;
                }
                Worked { done, end }
            }
        }
    }

    fn admin(&mut self, guest: usize) -> bool {
        let mut state = self.state();
        let admin = state.admin.entry(guest).or_default();
        let was = *admin != 0;
        *admin -= u32::from(was);
        was
    }

    fn rings(&mut self, lane: usize) -> Option<Rings> {
        let state = self.state();
        (lane == 0).then_some(Rings {
            at: AT,
            tail: state.tail,
            head: state.head,
        })
    }

    fn pending(&mut self, _guest: usize) -> VectorSet {
        VectorSet::default()
    }

    fn posted(&mut self, guest: usize) -> VectorSet {
        VectorSet::from_bits(self.state().posted.remove(&guest).unwrap_or(0))
    }

    fn close_lane(&mut self, _lane: usize) {
        let mut state = self.state();
        assert!(state.closed, "a lane is closed once the drive has stopped");
        state.lanes_closed = true;
    }
}

impl Drive for Fake {
    fn create_lanes(&mut self, lanes: &[LaneRings]) -> Result<(), DriveError> {
        match (lanes, self.state().manner) {
            ([lane], Manner::Answers | Manner::Silent) => {
                assert_eq!(lane.entries, 65);
                Ok(())
            }
            (_, Manner::RefusesLanes) => Err(DriveError::Unusable("it has no queues".to_owned())),
            _ => Ok(()),
        }
    }

    fn ring_submission(&mut self, _lane: usize, tail: u32) -> Result<(), DriveError> {
        let mut state = self.state();
        state.log.push(format!("tail {tail}"));
        match state.manner {
            Manner::FailsAtDoorbell | Manner::FailsAndHangs => Err(DriveError::Failed("it is gone".to_owned())),
            Manner::Silent | Manner::IsReset => Ok(()),
            _ => {
                state.completed = state.owners.len() as u32;
                Ok(())
            }
        }
    }

    fn ring_completion(&mut self, _lane: usize, head: u32) -> Result<(), DriveError> {
        self.state().log.push(format!("head {head}"));
        Ok(())
    }

    fn work(&mut self, _budget: Budget) -> Result<Progress, DriveError> {
        Ok(Progress::default())
    }

    fn check(&mut self) -> Result<(), DriveError> {
        match self.state().manner {
            Manner::FailsAtCheck => Err(DriveError::Failed("a fatal status".to_owned())),
            _ => Ok(()),
        }
    }

    fn wake(&self) -> Option<BorrowedFd<'_>> {
        None
    }

    fn recover(&mut self) -> Option<&mut dyn Recover> {
        Some(self)
    }

    fn describe(&self) -> String {
        "a fake".to_owned()
    }

    fn close(self: Box<Self>) -> Result<(), DriveError> {
        let hangs = self.state().manner == Manner::FailsAndHangs;
        if hangs {
            thread::sleep(Duration::from_millis(300));
        }
        self.state().closed = true;
        Ok(())
    }
}

impl Recover for Fake {
    fn oldest(&self, _lane: usize) -> Option<Duration> {
        None
    }

    fn abort(&mut self, _lane: usize) -> Result<(), DriveError> {
        Ok(())
    }

    fn reset(&mut self) -> Result<(), DriveError> {
        Ok(())
    }

    fn is_recovering(&self) -> bool {
        self.state().manner == Manner::IsReset
    }
}

/// A mediator's thread with guests.
struct Rig {
    fake: Fake,
    orders: Arc<Orders>,
    board: Arc<Board>,
    guests: Vec<Sender>,
    outboxes: Vec<Arc<Outbox>>,
    signals: Vec<Arc<Signals>>,
    mediation: Option<Mediation<Fake>>,
    stop: Stop,
}

impl Rig {
    fn new(manner: Manner, guests: usize) -> Self {
        let fake = Fake::new(manner);
        let bell = Arc::new(Bell::new().unwrap());
        let mut rig = (Vec::new(), Vec::new(), Vec::new(), Vec::new());
        for _ in 0..guests {
            let (sender, receiver) = mailbox(Arc::clone(&bell));
            let outbox = Arc::new(Outbox::new().unwrap());
            let signals = Arc::new(Signals::new().unwrap());
            rig.0.push(sender);
            rig.1.push(Arc::clone(&outbox));
            rig.2.push(Arc::clone(&signals));
            rig.3.push(Post {
                mailbox: receiver,
                outbox,
                signals,
                version: VERSION_1_3,
            });
        }
        let orders = Arc::new(Orders::new(Arc::clone(&bell), &vec![Limit::default(); guests]));
        let board = Arc::new(Board::new(1, guests).unwrap());
        let mediation = Mediation::new(Parts {
            side: fake.clone(),
            lanes: 1,
            window: Arc::clone(&fake.window),
            drive: Box::new(fake.clone()),
            posts: rig.3,
            bell,
            orders: Arc::clone(&orders),
            board: Arc::clone(&board),
            spin: Duration::from_micros(50),
            counts: None,
        })
        .unwrap();
        Self {
            fake,
            orders,
            board,
            guests: rig.0,
            outboxes: rig.1,
            signals: rig.2,
            stop: mediation.stop(),
            mediation: Some(mediation),
        }
    }

    fn start(&mut self) -> JoinHandle<End> {
        let mediation = self.mediation.take().unwrap();
        thread::spawn(move || mediation.run())
    }

    fn turn(&mut self, now: Instant) {
        self.mediation.as_mut().unwrap().turn(now);
    }

    /// Commands of a guest that were rung and not taken.
    fn waiting(&self, guest: usize) -> u32 {
        self.fake.state().waiting.get(&guest).copied().unwrap_or(0)
    }

    /// The same of its admin commands.
    fn admin(&self, guest: usize) -> u32 {
        self.fake.state().admin.get(&guest).copied().unwrap_or(0)
    }

    fn log(&self) -> Vec<String> {
        std::mem::take(&mut self.fake.state().log)
    }

    fn send(&mut self, guest: usize, accesses: &[Access]) {
        for access in accesses {
            self.guests[guest].send(*access).unwrap();
        }
    }

    fn enable(&mut self, guest: usize) {
        self.guests[guest].connect(None).unwrap();
        self.send(guest, &[Access::Master(true), write_cc(1)]);
    }
}

fn write_cc(value: u32) -> Access {
    Access::Write { offset: CC, value }
}

const RING: Access = Access::Doorbell {
    offset: TAIL_1,
    value: 1,
};
const ADMIN: Access = Access::Doorbell {
    offset: TAIL_0,
    value: 1,
};

#[test]
fn a_command_goes_to_the_drive_and_comes_back_in_one_turn() {
    let mut rig = Rig::new(Manner::Answers, 2);
    rig.enable(1);
    rig.send(1, &[RING]);
    rig.turn(Instant::now());
    let log = rig.log();
    assert_eq!(log[log.len() - 3..], ["doorbell 1 0x1008 1", "tail 1", "head 1"]);
    assert_eq!(rig.signals[1].take().posted.bits(), 2);
    assert!(rig.signals[0].take().posted.is_empty());
}

#[test]
fn registers_are_answered_and_a_stop_is_heard() {
    let mut rig = Rig::new(Manner::Answers, 1);
    let thread = rig.start();
    rig.enable(0);
    assert_eq!(rig.guests[0].read(0x24).unwrap(), 0x24);
    thread::sleep(Duration::from_millis(30));
    assert_eq!(rig.guests[0].read(8).unwrap(), VERSION_1_3);
    rig.stop.ask();
    assert!(matches!(thread.join().unwrap(), End::Stopped(Some(_))));
    assert!(rig.guests[0].read(0x24).is_err());
}

#[test]
fn the_page_is_taken_before_a_write_of_cc_and_a_message() {
    let mut rig = Rig::new(Manner::Answers, 1);
    let page = Arc::new(Page::new().unwrap());
    rig.guests[0].connect(Some(Arc::clone(&page))).unwrap();
    rig.send(0, &[Access::Master(true), write_cc(1)]);
    rig.turn(Instant::now());
    rig.log();
    ring_page(&page, 0, 5);
    rig.send(0, &[write_cc(0), write_cc(1)]);
    rig.turn(Instant::now());
    assert_eq!(
        rig.log(),
        ["doorbell 0 0x1000 5", "write 0 0x14 0x0", "write 0 0x14 0x1"]
    );
    ring_page(&page, 0, 6);
    rig.send(
        0,
        &[Access::Doorbell {
            offset: 0x1000,
            value: 7,
        }],
    );
    rig.turn(Instant::now());
    assert_eq!(rig.log(), ["doorbell 0 0x1000 6", "doorbell 0 0x1000 7"]);
}

/// A guest's store into its doorbell page.
fn ring_page(page: &Page, doorbell: usize, value: u32) {
    let file = std::fs::File::from(page.file().unwrap().try_clone_to_owned().unwrap());
    std::os::unix::fs::FileExt::write_all_at(&file, &value.to_le_bytes(), 0x1000 + 4 * doorbell as u64).unwrap();
}

#[test]
fn without_bus_master_enable_nothing_is_taken() {
    let mut rig = Rig::new(Manner::Answers, 1);
    rig.guests[0].connect(None).unwrap();
    rig.send(0, &[write_cc(1), RING]);
    rig.turn(Instant::now());
    assert_eq!(rig.fake.state().waiting[&0], 1);
    rig.send(0, &[Access::Master(true)]);
    rig.turn(Instant::now());
    assert_eq!(rig.fake.state().waiting[&0], 0);
    assert_eq!(rig.signals[0].take().posted.bits(), 2);
    rig.send(0, &[Access::Master(false), RING]);
    rig.turn(Instant::now());
    assert_eq!(rig.fake.state().waiting[&0], 1);
}

#[test]
fn a_shutdown_waits_for_its_own_commands_alone() {
    let mut rig = Rig::new(Manner::Silent, 2);
    rig.enable(0);
    rig.enable(1);
    rig.send(1, &[RING]);
    rig.turn(Instant::now());
    let shut = 1 | 1 << 14;
    rig.send(0, &[write_cc(shut)]);
    rig.send(1, &[write_cc(shut)]);
    rig.turn(Instant::now());
    let thread = rig.start();
    assert_eq!(rig.guests[0].read(CSTS).unwrap() >> 2 & 3, 2, "complete");
    assert_eq!(rig.guests[1].read(CSTS).unwrap() >> 2 & 3, 1, "occurring");
    rig.stop.ask();
    thread.join().unwrap();
}

#[test]
fn a_connections_end_is_told_once_its_commands_have_run_out() {
    let mut rig = Rig::new(Manner::Silent, 2);
    rig.enable(0);
    rig.enable(1);
    rig.send(0, &[RING]);
    rig.turn(Instant::now());
    rig.send(0, &[Access::Disconnect]);
    rig.send(1, &[Access::Disconnect]);
    rig.turn(Instant::now());
    assert!(rig.outboxes[1].take().run_out);
    assert!(!rig.outboxes[0].take().run_out);
    rig.fake.state().completed = 1;
    rig.turn(Instant::now());
    assert!(rig.outboxes[0].take().run_out);
    assert!(!rig.outboxes[1].take().run_out);
    assert!(rig.signals[0].take().posted.is_empty(), "nobody is connected");
}

fn fails(manner: Manner, at_least: Duration) {
    let mut rig = Rig::new(manner, 1);
    let begin = Instant::now();
    let thread = rig.start();
    rig.enable(0);
    rig.send(0, &[RING]);
    while !thread.is_finished() && begin.elapsed() < Duration::from_secs(10) {
        let asked = Instant::now();
        let _value = rig.guests[0].read(0x24);
        assert!(
            asked.elapsed() < Duration::from_secs(1),
            "registers are answered meanwhile"
        );
        thread::sleep(Duration::from_millis(5));
    }
    assert!(matches!(thread.join().unwrap(), End::DriveFailed), "{manner:?}");
    assert!(begin.elapsed() >= at_least, "guests have a second");
    let state = rig.fake.state();
    assert!(state.closed && state.lanes_closed, "{manner:?}");
    assert!(rig.board.lanes[0].is_closed());
    let reads = rig.board.guests[0].figures.of(Kind::Read);
    // one drive fails after its answer
    let errors = u64::from(manner != Manner::FailsAtCheck);
    assert_eq!((reads.commands.get(), reads.errors.get()), (1, errors), "{manner:?}");
    rig.board.drive.open("a drive");
    assert_eq!(rig.board.drive.state(), DriveState::Failed);
    assert_eq!(
        state.taken.get(&0).copied().unwrap_or(0),
        0,
        "its commands were answered"
    );
}

#[test]
fn a_drive_that_fails_is_closed_and_guests_are_answered() {
    let threads = [
        (Manner::FailsAtDoorbell, 1_000),
        (Manner::FailsAtCheck, 1_000),
        (Manner::Strays, 1_000),
        (Manner::FailsAndHangs, 1_300),
    ]
    .map(|(manner, least)| thread::spawn(move || fails(manner, Duration::from_millis(least))));
    for thread in threads {
        thread.join().unwrap();
    }
}

#[test]
fn a_silent_drive_is_found() {
    let mut rig = Rig::new(Manner::Silent, 1);
    rig.enable(0);
    rig.send(0, &[RING]);
    let begin = Instant::now();
    rig.turn(begin);
    rig.turn(begin + SILENCE - Duration::from_secs(1));
    thread::sleep(Duration::from_millis(50));
    assert!(!rig.fake.state().closed);
    rig.turn(begin + SILENCE + Duration::from_secs(1));
    thread::sleep(Duration::from_millis(50));
    rig.turn(begin + SILENCE + Duration::from_secs(1));
    assert!(rig.fake.state().closed && rig.fake.state().lanes_closed);
    rig.turn(begin + SILENCE + Duration::from_secs(1));
    assert_eq!(rig.fake.state().taken[&0], 0);
}

/// Its time for answers begins anew where the reset ends.
#[test]
fn a_drive_that_is_being_reset_is_not_found_silent() {
    let mut rig = Rig::new(Manner::Silent, 1);
    rig.enable(0);
    rig.send(0, &[RING]);
    let begin = Instant::now();
    rig.turn(begin);
    rig.fake.state().manner = Manner::IsReset;
    let end = begin + 3 * SILENCE;
    rig.turn(begin + SILENCE + Duration::from_secs(1));
    rig.turn(end);
    rig.fake.state().manner = Manner::Silent;
    rig.turn(end + SILENCE - Duration::from_secs(1));
    thread::sleep(Duration::from_millis(50));
    rig.turn(end + SILENCE - Duration::from_secs(1));
    assert!(!rig.fake.state().closed);
    rig.turn(end + SILENCE + Duration::from_secs(1));
    let patience = Instant::now();
    while !rig.fake.state().closed {
        assert!(patience.elapsed() < Duration::from_secs(20));
        thread::sleep(Duration::from_millis(5));
    }
}

#[test]
fn a_drive_that_refuses_its_queues_is_closed() {
    let fake = Fake::new(Manner::RefusesLanes);
    let bell = Arc::new(Bell::new().unwrap());
    let made = Mediation::new(Parts {
        side: fake.clone(),
        lanes: 1,
        window: Arc::clone(&fake.window),
        drive: Box::new(fake.clone()),
        posts: Vec::new(),
        orders: Arc::new(Orders::new(Arc::clone(&bell), &[])),
        board: Arc::new(Board::new(1, 0).unwrap()),
        bell,
        spin: Duration::ZERO,
        counts: None,
    });
    assert_eq!(made.err().unwrap().to_string(), "it has no queues");
    assert!(fake.state().closed);
}

#[test]
fn an_idle_thread_sleeps() {
    let mut rig = Rig::new(Manner::Answers, 1);
    rig.enable(0);
    rig.turn(Instant::now());
    let mediation = rig.mediation.as_mut().unwrap();
    let later = Instant::now() + Duration::from_millis(100);
    assert_eq!(mediation.pause(later), TICK, "messages wake it: nothing is looked at");
    rig.guests[0].connect(Some(Arc::new(Page::new().unwrap()))).unwrap();
    rig.send(0, &[write_cc(1)]);
    rig.turn(Instant::now());
    let mediation = rig.mediation.as_mut().unwrap();
    let later = Instant::now() + Duration::from_millis(100);
    assert_eq!(mediation.pause(later), pace::LOOK, "a page is looked at");
    rig.send(0, &[write_cc(0)]);
    rig.turn(Instant::now());
    let mediation = rig.mediation.as_mut().unwrap();
    let later = Instant::now() + Duration::from_millis(100);
    assert_eq!(mediation.pause(later), TICK, "its controller is disabled");
}

#[test]
fn entries_are_counted_for_their_guest() {
    struct Seen(Arc<Mutex<Vec<(usize, u8)>>>);
    impl Counts for Seen {
        fn note(&mut self, guest: usize, entry: &[u8; lanes::ENTRY]) {
            self.0.lock().unwrap().push((guest, entry[0]));
        }
        fn tick(&mut self) {
            self.0.lock().unwrap().push((usize::MAX, 0));
        }
    }
    let seen = Arc::new(Mutex::new(Vec::new()));
    let mut rig = Rig::new(Manner::Answers, 2);
    rig.mediation.as_mut().unwrap().counts = Some(Box::new(Seen(Arc::clone(&seen))));
    rig.enable(0);
    rig.enable(1);
    rig.send(1, &[RING, RING]);
    rig.send(0, &[RING]);
    rig.turn(Instant::now());
    rig.turn(Instant::now() + TICK);
    assert_eq!(*seen.lock().unwrap(), [(0, 2), (1, 2), (1, 2), (usize::MAX, 0)]);
}
