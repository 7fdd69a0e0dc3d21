#![forbid(unsafe_code)]
//! A controller in memory plays the drive.

mod fuzz;
mod opening;
mod recovery;
mod running;

use std::sync::{Arc, Mutex, MutexGuard};

use super::fake::{Fake, FakeAccess, Fault, TestMemory};
use super::{Controller, Needs};
use crate::drive::{DriveError, LaneRings};

const MEMORY: u64 = 1 << 20;
const ADMIN: u64 = 0x10000;
const RINGS: u64 = 0x20000;

/// A fake, its memory and how it is opened.
struct Bench {
    memory: Arc<TestMemory>,
    fake: Arc<Mutex<Fake>>,
    bar_bytes: u32,
    needs: Needs,
}

impl Bench {
    fn new() -> Self {
        let memory = TestMemory::new(0x10000, MEMORY);
        memory.fill(0xa5);
        let fake = Arc::new(Mutex::new(Fake::new(memory.clone())));
        let needs = Needs {
            admin: ADMIN,
            blocks: 4096,
            lanes: 2,
            interrupts: false,
        };
        Self {
            memory,
            fake,
            bar_bytes: 0x2000,
            needs,
        }
    }

    fn with(change: impl FnOnce(&mut Fake)) -> Self {
        let bench = Self::new();
        change(&mut bench.fake());
        bench
    }

    fn fake(&self) -> MutexGuard<'_, Fake> {
        self.fake.lock().unwrap()
    }

    /// What the fake is like at this moment.
    fn seen(&self) -> Fake {
        self.fake().clone()
    }

    fn controller(&self) -> Controller<FakeAccess> {
        let access = FakeAccess {
            fake: self.fake.clone(),
            bytes: self.bar_bytes,
        };
        Controller::new(access, self.memory.clone(), self.needs)
    }

    fn open(&self) -> Controller<FakeAccess> {
        let mut controller = self.controller();
        controller.open().unwrap();
        controller
    }

    /// Opened, with its lanes.
    fn running(&self) -> Controller<FakeAccess> {
        let mut controller = self.open();
        let lanes: Vec<LaneRings> = (0..self.needs.lanes).map(rings).collect();
        controller.create_lanes(&lanes).unwrap();
        controller.work().unwrap();
        controller
    }
}

fn rings(lane: u32) -> LaneRings {
    let at = RINGS + 0x4000 * u64::from(lane);
    LaneRings {
        submission: at,
        completion: at + 0x2000,
        entries: 65,
    }
}

fn words<T>(result: Result<T, DriveError>) -> String {
    result.err().map(|why| why.to_string()).unwrap_or_default()
}

/// What is wrong with the fake is refused, with a part of the message, and the controller is left disabled.
fn refused(bench: &Bench, part: &str) {
    let mut controller = bench.controller();
    let said = words(controller.open());
    assert!(said.contains(part), "{said:?} has no {part:?}");
    let (time, enabled) = {
        let fake = bench.fake();
        assert_eq!(fake.violations, 0, "{part}");
        assert!(fake.time < 400_000);
        (fake.time, fake.cc & 1 == 1 || fake.csts & 1 == 1)
    };
    let excused = matches!(bench.seen().fault, Fault::NeverDisabled | Fault::Access) || bench.seen().gone;
    assert!(excused || !enabled, "{part}");
    controller.close().unwrap();
    assert_eq!(bench.seen().time, time);
}

fn bad(part: &str, change: impl FnOnce(&mut Fake)) {
    refused(&Bench::with(change), part);
}
