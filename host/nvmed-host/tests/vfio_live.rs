//! A controller by VFIO, tried for real: two lanes, blocks written and read back, resets, and a data pointer to where the window has no memory, which the
//! kernel has to report as a fault of the I/O MMU.
//! `nvmed-host/tests/vfio-live` runs it in a virtual machine; it is ignored without it.
//!
//! `NVMED_VFIO` is the address, such as `0000:00:04.0`. Its blocks 5, 6 and 100 to 355 are overwritten.

#![allow(clippy::unwrap_used, clippy::expect_used, clippy::panic)]

mod lanes;
#[path = "lanes/resets.rs"]
mod resets;

use std::fs::OpenOptions;
use std::io::{ErrorKind, Read};
use std::os::unix::fs::OpenOptionsExt;
use std::time::{Duration, Instant};

use lanes::{blocks, more, Bench, BUDGET, DATA, FROM};
use nvmed_host::drive::nvme::Needs;
use nvmed_host::drive::vfio::VfioDrive;
use nvmed_host::memory::Window;
use resets::resets;

/// Data of the test end here.
const END: u64 = FROM + 0x30_0000;
const OUTSIDE: u64 = 0x200_0000;

fn needs(blocks: u64) -> Needs {
    Needs {
        admin: FROM,
        blocks,
        lanes: 2,
        interrupts: false,
    }
}

#[test]
#[ignore = "it needs a controller: nvmed-host/tests/vfio-live"]
fn lanes_of_a_real_controller() {
    let address = std::env::var("NVMED_VFIO").expect("NVMED_VFIO");
    for reach in VfioDrive::reaches(&address).unwrap() {
        println!("can translate {:#x} to {:#x}", reach.from, reach.to);
    }
    let window = Window::reserve(OUTSIDE + 0x1000).unwrap();
    window.map_zeros(FROM, DATA - FROM).unwrap();
    window.map_zeros(DATA, END - DATA).unwrap();
    // a drive that is too small is refused, and the controller can be opened after that
    let said = VfioDrive::open(&address, window.clone(), needs(1 << 40))
        .err()
        .unwrap()
        .to_string();
    assert!(said.contains("and the extents end at block 1099511627776"), "{said}");
    let drive = VfioDrive::open(&address, window.clone(), needs(2048)).unwrap();
    let mut b = Bench::new(window.clone(), Box::new(drive));
    println!("{}", b.drive.describe());
    blocks(&mut b);
    more(&mut b);
    interrupts(&mut b);
    resets(&mut b);
    // memory that is in no piece when the drive is opened: the I/O MMU keeps the controller from it; the status is the controller's choice
    window.map_zeros(OUTSIDE, 0x1000).unwrap();
    b.put(OUTSIDE, &[0x5a; 0x1000]);
    let before = faults_at(OUTSIDE);
    let status = b.run(0, 2, OUTSIDE, 0, 5, 0);
    println!("Read to {OUTSIDE:#x}, outside of the window: status {status:#06x}");
    assert_eq!(b.get(OUTSIDE, 0x1000), [0x5a; 0x1000]);
    let begin = Instant::now();
    while faults_at(OUTSIDE) == before {
        assert!(
            begin.elapsed() < Duration::from_secs(10),
            "the I/O MMU has seen no fault"
        );
        std::thread::sleep(Duration::from_millis(50));
    }
    println!("the I/O MMU's faults there: {}", faults_at(OUTSIDE) - before);
    assert_eq!(b.run(1, 2, DATA, 0, 5, 0), 0);
    for _ in 0..3 {
        b.drive.check().unwrap();
        b.drive.work(BUDGET).unwrap();
    }
    b.drive.close().unwrap();
}

/// How many faults of an I/O MMU at that address the kernel's log has: of Intel's, or of AMD's.
fn faults_at(address: u64) -> usize {
    let mut log = OpenOptions::new()
        .read(true)
        .custom_flags(nix::libc::O_NONBLOCK)
        .open("/dev/kmsg")
        .expect("the kernel's log");
    let place = format!("{address:#x} ");
    let mut faults = 0;
    let mut record = [0; 8192];
    loop {
        let length = match log.read(&mut record) {
            Ok(length) => length,
            // records were lost before the next one
            Err(error) if error.kind() == ErrorKind::BrokenPipe => continue,
            Err(error) if error.kind() == ErrorKind::WouldBlock => return faults,
            Err(error) => panic!("the kernel's log: {error}"),
        };
        let text = String::from_utf8_lossy(&record[..length]);
        let is_fault = text.contains("DMAR: ") && text.contains("fault addr") || text.contains("IO_PAGE_FAULT");
        faults += usize::from(is_fault && text.contains(&place));
    }
}

/// Each completion makes the descriptor readable.
fn interrupts(b: &mut Bench) {
    if b.drive.wake().is_none() {
        println!("it has no message interrupts");
        return;
    }
    b.drive.woken();
    let begin = Instant::now();
    for i in 0..100 {
        b.give(i % 2, 2, DATA, 0, i as u64, 0);
        b.ring(i % 2);
        let mut polled = [nix::poll::PollFd::new(
            b.drive.wake().unwrap(),
            nix::poll::PollFlags::POLLIN,
        )];
        assert_eq!(nix::poll::poll(&mut polled, 5000u16).unwrap(), 1, "no interrupt came");
        b.drive.woken();
        assert_eq!(b.take(i % 2).unwrap().1, 0);
    }
    println!("100 Reads by interrupts: {:?}", begin.elapsed());
    std::thread::sleep(Duration::from_millis(1));
}
