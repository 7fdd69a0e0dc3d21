use std::sync::mpsc::{channel, Receiver, Sender};
use std::sync::{Arc, Mutex};
use std::time::{Duration, Instant};

use nix::poll::{poll, PollFd, PollFlags};

use super::*;

const RINGS: LaneRings = LaneRings {
    submission: 0x1000,
    completion: 0x3000,
    entries: 65,
};
const BUDGET: Budget = Budget {
    commands: 64,
    bytes: 1 << 20,
};

/// What was asked of the drive.
type Log = Arc<Mutex<Vec<String>>>;

struct Fake {
    log: Log,
    event: EventFd,
    no_lanes: bool,
}

impl Fake {
    fn note(&self, words: &str) {
        self.log.lock().unwrap().push(words.to_owned());
    }
}

impl Drive for Fake {
    fn create_lanes(&mut self, lanes: &[LaneRings]) -> Result<(), DriveError> {
        self.note(&format!("{} lanes", lanes.len()));
        if self.no_lanes {
            return Err(DriveError::Unusable("no lanes".to_owned()));
        }
        Ok(())
    }

    fn ring_submission(&mut self, lane: usize, tail: u32) -> Result<(), DriveError> {
        self.note(&format!("tail {lane} {tail}"));
        Ok(())
    }

    fn ring_completion(&mut self, lane: usize, head: u32) -> Result<(), DriveError> {
        self.note(&format!("head {lane} {head}"));
        Ok(())
    }

    fn work(&mut self, _budget: Budget) -> Result<Progress, DriveError> {
        Ok(Progress {
            completed: 3,
            more: true,
        })
    }

    fn check(&mut self) -> Result<(), DriveError> {
        Err(DriveError::Failed("checked".to_owned()))
    }

    fn wake(&self) -> Option<BorrowedFd<'_>> {
        Some(self.event.as_fd())
    }

    fn woken(&mut self) {
        self.note("woken");
    }

    fn recover(&mut self) -> Option<&mut dyn Recover> {
        None
    }

    fn describe(&self) -> String {
        "a fake".to_owned()
    }

    fn close(self: Box<Self>) -> Result<(), DriveError> {
        self.note("closed");
        Err(DriveError::Failed("the close".to_owned()))
    }
}

/// A drive of two lanes whose opening goes on when the sender says so; what becomes of it; and what it was asked.
struct Bench {
    drive: Box<OpeningDrive>,
    go: Sender<Result<(), DriveError>>,
    told: Receiver<Result<String, DriveError>>,
    log: Log,
}

impl Bench {
    fn new(no_lanes: bool) -> Self {
        let log = Log::default();
        let (go, gone) = channel::<Result<(), DriveError>>();
        let (tell, told) = channel();
        let theirs = Arc::clone(&log);
        let open: Open = Box::new(move || {
            gone.recv().unwrap()?;
            Ok(Box::new(Fake {
                log: theirs,
                event: EventFd::new().unwrap(),
                no_lanes,
            }))
        });
        let tell: Tell = Box::new(move |result| tell.send(result).unwrap());
        let drive = Box::new(OpeningDrive::new(open, tell).unwrap());
        Self { drive, go, told, log }
    }

    fn begun() -> Self {
        let mut bench = Self::new(false);
        bench.drive.create_lanes(&[RINGS, RINGS]).unwrap();
        bench
    }

    fn log(&self) -> Vec<String> {
        std::mem::take(&mut self.log.lock().unwrap())
    }

    fn told(&self) -> Result<String, DriveError> {
        self.told.recv_timeout(Duration::from_secs(10)).unwrap()
    }

    /// Waits for the descriptor that wakes the mediator.
    fn await_wake(&self) {
        let mut fds = [PollFd::new(self.drive.wake().unwrap(), PollFlags::POLLIN)];
        assert_eq!(poll(&mut fds, 10_000u16).unwrap(), 1, "nothing woke the mediator");
    }
}

#[test]
fn doorbells_wait_for_the_drive() {
    let mut bench = Bench::begun();
    let drive = &mut bench.drive;
    let begin = Instant::now();
    drive.ring_submission(1, 3).unwrap();
    drive.ring_submission(1, 5).unwrap();
    drive.ring_completion(0, 2).unwrap();
    assert_eq!(drive.work(BUDGET).unwrap(), Progress::default());
    drive.check().unwrap();
    drive.woken();
    assert_eq!(drive.describe(), "being opened");
    let recover = drive.recover().unwrap();
    assert!(recover.is_recovering() && recover.oldest(0).is_none());
    recover.abort(0).unwrap();
    recover.reset().unwrap();
    assert!(drive.ring_submission(2, 0).is_err() && drive.ring_completion(2, 0).is_err());
    assert!(begin.elapsed() < Duration::from_secs(5), "nothing waited");

    bench.go.send(Ok(())).unwrap();
    assert_eq!(bench.told().unwrap(), "a fake");
    bench.await_wake();
    bench.drive.woken();
    assert_eq!(bench.log(), ["2 lanes"]);
    let drive = &mut bench.drive;
    assert_eq!(drive.work(BUDGET).unwrap().completed, 3);
    drive.ring_submission(1, 6).unwrap();
    drive.ring_completion(1, 1).unwrap();
    drive.woken();
    assert!(drive.recover().is_none() && drive.wake().is_some());
    assert_eq!(drive.check().unwrap_err().to_string(), "checked");
    assert_eq!(drive.describe(), "a fake");
    assert!(drive.create_lanes(&[RINGS]).is_err(), "once");
}

#[test]
fn the_last_doorbells_come_first() {
    let mut bench = Bench::begun();
    bench.drive.ring_submission(1, 5).unwrap();
    bench.drive.ring_completion(0, 2).unwrap();
    bench.go.send(Ok(())).unwrap();
    bench.await_wake();
    bench.drive.ring_submission(0, 9).unwrap();
    assert_eq!(bench.log(), ["2 lanes", "head 0 2", "tail 1 5", "tail 0 9"]);
    assert_eq!(bench.drive.close().unwrap_err().to_string(), "the close");
    assert_eq!(bench.log.lock().unwrap()[..], ["closed"]);
}

#[test]
fn a_drive_that_is_not_opened() {
    let mut bench = Bench::begun();
    bench.drive.ring_submission(0, 1).unwrap();
    bench
        .go
        .send(Err(DriveError::Unusable("it is too small".to_owned())))
        .unwrap();
    assert_eq!(bench.told().unwrap_err().to_string(), "it is too small");
    bench.await_wake();
    for _ in 0..3 {
        bench.drive.check().unwrap();
        assert_eq!(bench.drive.work(BUDGET).unwrap(), Progress::default());
        bench.drive.ring_submission(0, 2).unwrap();
    }
    assert!(bench.drive.recover().unwrap().is_recovering());
    bench.drive.close().unwrap();
    assert!(bench.log.lock().unwrap().is_empty());
}

#[test]
fn lanes_that_cannot_be_created_close_the_drive() {
    let mut bench = Bench::new(true);
    bench.drive.create_lanes(&[RINGS]).unwrap();
    bench.go.send(Ok(())).unwrap();
    assert_eq!(bench.told().unwrap_err().to_string(), "no lanes");
    assert_eq!(bench.log(), ["1 lanes", "closed"]);
    bench.drive.close().unwrap();
}

#[test]
fn an_opening_that_nobody_waits_for_any_more() {
    // the end waits for the drive, and closes it
    let bench = Bench::begun();
    let go = bench.go.clone();
    let later = std::thread::spawn(move || {
        std::thread::sleep(Duration::from_millis(50));
        go.send(Ok(())).unwrap();
    });
    assert_eq!(bench.drive.close().unwrap_err().to_string(), "the close");
    later.join().unwrap();
    // a drive that was never begun is not opened
    let bench = Bench::new(false);
    bench.drive.close().unwrap();
    assert!(bench.log.lock().unwrap().is_empty());
    // one that comes after all is closed
    let bench = Bench::begun();
    drop(bench.drive);
    bench.go.send(Ok(())).unwrap();
    assert_eq!(
        bench.told.recv_timeout(Duration::from_secs(10)).unwrap().unwrap(),
        "a fake"
    );
    assert_eq!(bench.log.lock().unwrap()[..], ["2 lanes", "closed"]);
}

#[test]
fn an_opening_that_does_not_end() {
    let bench = Bench::begun();
    let begin = Instant::now();
    let said = bench.drive.close_within(Duration::from_millis(30)).unwrap_err();
    assert!(said.to_string().contains("still being opened"), "{said}");
    assert!(begin.elapsed() < Duration::from_secs(5));
}

/// A fault of this program: the mediator sees a drive that never comes, and nothing waits for it.
#[test]
fn a_thread_that_ends_by_itself() {
    let mut bench = Bench::begun();
    drop(bench.go);
    let begin = Instant::now();
    while !matches!(bench.drive.state, State::Failed) {
        bench.drive.check().unwrap();
        assert!(begin.elapsed() < Duration::from_secs(10));
        std::thread::sleep(Duration::from_millis(1));
    }
    assert!(
        bench.told.recv_timeout(Duration::from_secs(10)).is_err(),
        "nothing was told"
    );
    bench.drive.close().unwrap();
}
