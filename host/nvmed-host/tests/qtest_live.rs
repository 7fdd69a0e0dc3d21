//! QEMU's controller by qtest, with a real QEMU: `nvmed-host/tests/qtest-live` starts it and runs this test, which is ignored without it.
//!
//! `NVMED_QTEST` is the socket; `NVMED_AREA` and `NVMED_GUEST` are files of 32 MiB, which are QEMU's RAM in this order; `NVMED_IMAGE` is its disk. Data of
//! the test lie in the first file, and at last in the second. `NVMED_QEMU` is QEMU's process, which is stopped for a while.

#![allow(clippy::unwrap_used, clippy::expect_used, clippy::panic)]

mod lanes;
#[path = "lanes/resets.rs"]
mod resets;

use std::fs::File;
use std::os::fd::AsFd;
use std::os::unix::fs::FileExt;
use std::path::PathBuf;
use std::sync::Arc;
use std::time::{Duration, Instant};

use nix::sys::signal::{kill, Signal};
use nix::unistd::Pid;
use nvmed_host::drive::nvme::Needs;
use nvmed_host::drive::qtest::QtestDrive;
use nvmed_host::drive::{Drive, DriveError};
use nvmed_host::memory::Window;

use lanes::{blocks, more, pattern, Bench, BUDGET, DATA, FROM};
use resets::resets;

const PART: u64 = 0x200_0000;
const LOW: u64 = 0x10_0000;
fn path(name: &str) -> PathBuf {
    std::env::var_os(name).expect(name).into()
}

fn needs(blocks: u64) -> Needs {
    Needs {
        admin: FROM,
        blocks,
        lanes: 2,
        interrupts: false,
    }
}

fn open(window: &Arc<Window>, blocks: u64) -> Result<QtestDrive, DriveError> {
    QtestDrive::open(&path("NVMED_QTEST"), window.clone(), needs(blocks))
}

#[test]
#[ignore = "it needs a QEMU: nvmed-host/tests/qtest-live"]
fn lanes_of_a_real_controller() {
    let window = Window::reserve(2 * PART).unwrap();
    for (name, host, from) in [("NVMED_AREA", LOW, LOW), ("NVMED_GUEST", PART, 0)] {
        let file = File::options().read(true).write(true).open(path(name)).unwrap();
        window.map_file(host, PART - from, file.as_fd(), from).unwrap();
    }
    // a drive that is too small is refused, and the controller can be opened after that
    let said = open(&window, 1 << 40).err().unwrap().to_string();
    assert!(said.contains("and the extents end at block 1099511627776"), "{said}");
    let drive = Box::new(open(&window, 2048).unwrap());
    println!("{}", drive.describe());
    let mut b = Bench::new(window, drive);
    blocks(&mut b);
    let image = File::open(path("NVMED_IMAGE")).unwrap();
    for lane in 0..2u64 {
        let mut block = [0; 512];
        image.read_exact_at(&mut block, (5 + lane) * 512).unwrap();
        assert_eq!(block.to_vec(), pattern(lane));
    }
    more(&mut b);
    resets(&mut b);
    stop(&mut b);
    // into the other file, across the border of both
    assert_eq!(b.run(0, 2, PART - 512, PART, 5, 1), 0);
    assert_eq!(b.get(PART - 512, 512), pattern(0));
    assert_eq!(b.get(PART, 512), pattern(1));
    b.drive.close().unwrap();
}

/// QEMU stands still: nobody waits for it, and it goes on.
fn stop(b: &mut Bench) {
    let qemu = Pid::from_raw(std::env::var("NVMED_QEMU").unwrap().parse().unwrap());
    kill(qemu, Signal::SIGSTOP).unwrap();
    let (mut longest, begin) = (Duration::ZERO, Instant::now());
    let mut given = 0;
    while begin.elapsed() < Duration::from_secs(3) {
        let before = Instant::now();
        if given < 60 {
            b.give(0, 2, DATA, 0, given, 0);
            b.ring(0);
            given += 1;
        }
        b.drive.work(BUDGET).unwrap();
        b.drive.check().unwrap();
        longest = longest.max(before.elapsed());
        std::thread::sleep(Duration::from_millis(1));
    }
    kill(qemu, Signal::SIGCONT).unwrap();
    for _ in 0..given {
        assert_eq!(b.wait(0).1, 0);
    }
    println!("QEMU stood still: the longest turn took {longest:?}");
    assert!(longest < Duration::from_millis(100));
    b.drive.check().unwrap();
}
