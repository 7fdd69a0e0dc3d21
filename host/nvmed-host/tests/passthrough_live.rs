//! A namespace that the kernel drives, tried for real: two lanes, each command, commands on their way at the same time, a reset of the controller by the
//! kernel, a process without rights, and a controller that goes.
//! `bench/vm.sh nvme` runs it in a virtual machine; it is ignored without one.
//!
//! `NVMED_NAMESPACE` is the generic device, such as `/dev/ng0n1`, and `NVMED_CONTROLLER` the controller's folder, such as `/sys/class/nvme/nvme0`;
//! `NVMED_BAD_BLOCK`, if it is there, is a block that cannot be read. The first 2,048 blocks are overwritten. The tests are run one by one, by their names.

#![allow(clippy::unwrap_used, clippy::expect_used, clippy::panic)]

mod lanes;

use std::fs::{self, File};
use std::os::unix::fs::{FileExt, OpenOptionsExt};
use std::path::{Path, PathBuf};
use std::sync::Arc;
use std::time::{Duration, Instant};

use nix::unistd::{chown, setresgid, setresuid, Gid, Uid};
use nvmed_host::drive::passthrough::PassthroughDrive;
use nvmed_host::drive::{Drive, DriveError};
use nvmed_host::memory::Window;

use lanes::{blocks, more, Bench, BUDGET, DATA, FROM, LISTS};

/// Data of the test end here.
const END: u64 = FROM + 0x30_0000;
const BLOCKS: u64 = 2048;
const FLUSH: u8 = 0;
const WRITE: u8 = 1;
const READ: u8 = 2;
const COMPARE: u8 = 5;
const ZEROES: u8 = 8;
const RANGES: u8 = 9;
/// Force Unit Access, and Deallocate of a Write Zeroes.
const FORCED: u32 = 1 << 30;
const DEALLOCATE: u32 = 1 << 25;

fn path() -> PathBuf {
    std::env::var_os("NVMED_NAMESPACE").expect("NVMED_NAMESPACE").into()
}

fn block_path() -> PathBuf {
    let path = path();
    let name = path.file_name().unwrap().to_str().unwrap();
    path.with_file_name(name.replace("ng", "nvme"))
}

fn controller() -> PathBuf {
    std::env::var_os("NVMED_CONTROLLER").expect("NVMED_CONTROLLER").into()
}

fn window() -> Arc<Window> {
    let window = Window::reserve(END).unwrap();
    window.map_zeros(FROM, END - FROM).unwrap();
    window
}

fn open(window: &Arc<Window>, blocks: u64) -> Result<Box<dyn Drive>, DriveError> {
    Ok(Box::new(PassthroughDrive::open(Arc::clone(window), &path(), blocks)?))
}

fn bench() -> Bench {
    let window = window();
    let drive = open(&window, BLOCKS).unwrap();
    println!("{}", drive.describe());
    Bench::new(window, drive)
}

/// What the kernel reads of the block device, not by its cache.
fn on_the_device(block: u64, bytes: usize) -> Vec<u8> {
    let file = File::options()
        .read(true)
        .custom_flags(nix::libc::O_DIRECT)
        .open(block_path())
        .unwrap();
    let mut page = vec![0u8; bytes + 8192];
    let skip = page.as_ptr().align_offset(4096);
    let page = &mut page[skip..skip + bytes.next_multiple_of(4096)];
    file.read_exact_at(page, block * 512).unwrap();
    page[..bytes].to_vec()
}

/// Each command, with what it does to blocks and memory.
fn commands(b: &mut Bench) {
    // Compare is the drive's own, and so is its status
    b.put(DATA, &[0x5a; 0x1000]);
    assert_eq!(b.run(0, WRITE, DATA, 0, 16, 7 | FORCED), 0);
    assert_eq!(b.run(1, COMPARE, DATA, 0, 16, 7), 0);
    b.put(DATA + 0xfff, &[0x5b]);
    assert_eq!(b.run(1, COMPARE, DATA, 0, 16, 7) & 0x7ff, 0x285);
    assert_eq!(on_the_device(16, 4096), [0x5a; 4096]);
    // from an address that is aligned to 4 bytes, over three pages
    let data: Vec<u8> = (0..8192u32).map(|i| (i * 5 + i / 256) as u8).collect();
    b.put(DATA + 0x204, &data[..0xdfc]);
    b.put(DATA + 0x8000, &data[0xdfc..0x1dfc]);
    b.put(DATA + 0x4000, &data[0x1dfc..]);
    b.put(LISTS, &(DATA + 0x8000).to_le_bytes());
    b.put(LISTS + 8, &(DATA + 0x4000).to_le_bytes());
    assert_eq!(b.run(0, WRITE, DATA + 0x204, LISTS, 40, 15), 0);
    assert_eq!(on_the_device(40, 8192), data);
    assert_eq!(b.run(1, READ, DATA + 0x1_0000, DATA + 0x1_1000, 40, 15), 0);
    assert_eq!(b.get(DATA + 0x1_0000, 8192), data);
    // zeros, with deallocation and without; ranges
    for (flags, first) in [(0, 40), (DEALLOCATE | FORCED, 44)] {
        assert_eq!(b.run(0, ZEROES, 0, 0, first, 3 | flags), 0);
    }
    assert_eq!(on_the_device(40, 4096), [0; 4096]);
    assert_eq!(on_the_device(48, 4096), data[4096..]);
    let mut ranges = [0u8; 32];
    ranges[4] = 4;
    ranges[8] = 48;
    ranges[20] = 4;
    ranges[24] = 16;
    b.put(DATA, &ranges);
    assert_eq!(b.run(1, RANGES, DATA, 0, 4 << 32 | 1, 0), 0);
    assert_eq!(on_the_device(48, 2048), [0; 2048]);
    assert_eq!(on_the_device(16, 2048), [0; 2048]);
    assert_eq!(on_the_device(20, 2048), [0x5a; 2048]);
    assert_eq!(b.run(0, FLUSH, 0, 0, 0, 0), 0);
}

/// A block that cannot be read, and those beside it: the status is the drive's.
fn bad_block(b: &mut Bench) {
    let Ok(bad) = std::env::var("NVMED_BAD_BLOCK") else {
        return;
    };
    let bad: u64 = bad.parse().unwrap();
    let status = b.run(0, READ, DATA, 0, bad, 0);
    println!("a block that cannot be read: status {status:#x}");
    assert_eq!(status & 0x7ff, 0x281);
    assert_eq!(b.run(1, READ, DATA, DATA + 0x1000, bad - 8, 15) & 0x7ff, 0x281);
    assert_eq!(b.run(0, READ, DATA, 0, bad - 8, 7), 0);
    assert_eq!(b.run(1, READ, DATA, 0, bad + 8, 7), 0);
}

/// Sixty commands of each lane at the same time, each with bytes of its own.
fn at_once(b: &mut Bench) {
    for round in 0..20u64 {
        for i in 0..120u64 {
            b.put(DATA + 0x1000 * i, &[(round + i) as u8; 4096]);
            b.give(i as usize % 2, WRITE, DATA + 0x1000 * i, 0, 8 * i, 7);
        }
        collect(b, 60);
        for i in 0..120u64 {
            b.put(DATA + 0x1000 * i, &[0xee; 4096]);
            b.give(i as usize % 2, READ, DATA + 0x1000 * i, 0, 8 * i, 7);
        }
        collect(b, 60);
        for i in 0..120u64 {
            assert_eq!(b.get(DATA + 0x1000 * i, 4096), [(round + i) as u8; 4096]);
        }
    }
}

/// Rings both lanes, and takes so many completions of each: all are good.
fn collect(b: &mut Bench, count: usize) {
    (0..2).for_each(|lane| b.ring(lane));
    for lane in 0..2 {
        for _ in 0..count {
            assert_eq!(b.wait(lane).1, 0);
        }
    }
}

/// Each completion makes the descriptor readable.
fn wakes(b: &mut Bench) {
    let begin = Instant::now();
    for i in 0..100 {
        b.give(i % 2, READ, DATA, 0, i as u64, 0);
        b.ring(i % 2);
        let seen = loop {
            b.drive.work(BUDGET).unwrap();
            if let Some(seen) = b.take(i % 2) {
                break seen;
            }
            let mut polled = [nix::poll::PollFd::new(
                b.drive.wake().unwrap(),
                nix::poll::PollFlags::POLLIN,
            )];
            match nix::poll::poll(&mut polled, 5000u16) {
                Ok(count) => assert_eq!(count, 1, "nothing woke"),
                Err(error) => assert_eq!(error, nix::errno::Errno::EINTR),
            }
            b.drive.woken();
        };
        assert_eq!(seen.1, 0);
    }
    println!("100 Reads by wakes: {:?}", begin.elapsed());
}

#[test]
#[ignore = "it needs a namespace: bench/vm.sh nvme"]
fn lanes_of_a_namespace() {
    let window = window();
    let said = open(&window, 1 << 40).err().unwrap().to_string();
    assert!(said.contains("and the extents end at block 1099511627776"), "{said}");
    // somebody has it
    let claim = || {
        File::options()
            .read(true)
            .custom_flags(nix::libc::O_EXCL)
            .open(block_path())
    };
    let claimed = claim().unwrap();
    let said = open(&window, BLOCKS).err().unwrap().to_string();
    assert!(
        said.contains("its block device is used already, as a file system that is mounted"),
        "{said}"
    );
    drop(claimed);
    // what somebody else has in the block device's cache is on the drive before the guests have it
    let other = File::options().write(true).open(block_path()).unwrap();
    other.write_all_at(&[0x33; 4096], 1600 * 512).unwrap();
    let mut b = bench();
    assert_eq!(b.run(0, READ, DATA, 0, 1600, 7), 0);
    assert_eq!(b.get(DATA, 4096), [0x33; 4096]);
    assert_eq!(
        claim().expect_err("it is the drive's").raw_os_error(),
        Some(nix::libc::EBUSY)
    );
    let said = open(&window, BLOCKS).err().unwrap().to_string();
    assert!(said.contains("its block device is used already"), "{said}");
    // the block device is none itself
    let said = PassthroughDrive::open(Arc::clone(&window), &block_path(), 1)
        .err()
        .unwrap()
        .to_string();
    assert!(said.contains("'drive file' takes a block device"), "{said}");
    blocks(&mut b);
    more(&mut b);
    commands(&mut b);
    bad_block(&mut b);
    at_once(&mut b);
    wakes(&mut b);
    b.drive.check().unwrap();
    b.drive.close().unwrap();
    claim().expect("nobody has it any more");
}

/// Takes all completions of both lanes, so many of each, and counts those with Internal Error. Others are good.
fn failures(b: &mut Bench, count: usize, limit: Duration) -> u32 {
    let begin = Instant::now();
    let (mut left, mut failed) = (2 * count, 0);
    while left > 0 {
        assert!(begin.elapsed() < limit, "{left} commands have not ended");
        b.drive.work(BUDGET).unwrap();
        b.drive.check().unwrap();
        for lane in 0..2 {
            while let Some((_, status)) = b.take(lane) {
                assert!(status == 0 || status == 6, "{status:#x}");
                failed += u32::from(status == 6);
                left -= 1;
            }
        }
        std::thread::sleep(Duration::from_millis(1));
    }
    failed
}

/// A drive that needs a quarter of a second for a Read. The kernel resets its controller while commands are on their way, or finds that they take too long,
/// and then resets it by itself: they end well or with Internal Error, and the drive goes on.
#[test]
#[ignore = "it needs a namespace: bench/vm.sh nvme"]
fn a_slow_drive_is_reset() {
    let mut b = bench();
    let give = |b: &mut Bench, count: usize| {
        for i in 0..2 * count {
            b.give(i % 2, READ, DATA + 0x1000 * i as u64, 0, 8 * i as u64, 7);
        }
        (0..2).for_each(|lane| b.ring(lane));
        b.drive.work(BUDGET).unwrap();
        b.drive.work(BUDGET).unwrap();
    };
    give(&mut b, 20);
    std::thread::sleep(Duration::from_millis(700));
    fs::write(controller().join("reset_controller"), "1").unwrap();
    let failed = failures(&mut b, 20, Duration::from_secs(40));
    println!("a reset: {failed} commands ended with Internal Error");
    assert!(failed > 0);
    blocks(&mut b);
    // 30 s of Reads
    let begin = Instant::now();
    give(&mut b, 60);
    let failed = failures(&mut b, 60, Duration::from_secs(90));
    println!(
        "{failed} commands ended with Internal Error, the last after {:?}",
        begin.elapsed()
    );
    assert!(failed > 0 && begin.elapsed() > Duration::from_secs(18));
    blocks(&mut b);
    b.drive.check().unwrap();
    b.drive.close().unwrap();
}

/// A process of another user, without rights, whose devices these are.
#[test]
#[ignore = "it needs a namespace: bench/vm.sh nvme"]
fn without_rights() {
    let (user, group) = (Uid::from_raw(1000), Gid::from_raw(1000));
    let refused = |path: &Path| {
        let said = open(&window(), BLOCKS).err().unwrap().to_string();
        assert!(
            said.contains("cannot be opened: Permission denied"),
            "{}: {said}",
            path.display()
        );
    };
    chown(&path(), Some(user), Some(group)).unwrap();
    setresgid(group, group, group).unwrap();
    setresuid(user, user, Uid::from_raw(0)).unwrap();
    refused(&block_path());
    setresuid(user, Uid::from_raw(0), Uid::from_raw(0)).unwrap();
    chown(&block_path(), Some(user), Some(group)).unwrap();
    setresuid(user, user, user).unwrap();
    assert!(
        setresuid(user, Uid::from_raw(0), user).is_err(),
        "it has no rights any more"
    );
    let mut b = bench();
    blocks(&mut b);
    commands(&mut b);
    b.drive.close().unwrap();
}

/// The controller is taken away: a guest is told that its namespace is not ready, and nothing is written any more.
#[test]
#[ignore = "it needs a namespace: bench/vm.sh nvme"]
fn a_controller_that_goes() {
    let mut b = bench();
    blocks(&mut b);
    fs::write(controller().join("device/remove"), "1").unwrap();
    b.drive.check().unwrap();
    assert_eq!(b.run(0, READ, DATA, 0, 5, 0), 0x4082);
    assert_eq!(b.run(1, WRITE, DATA, 0, 5, 0), 0x4280);
    assert_eq!(b.run(0, FLUSH, 0, 0, 0, 0), 0x4280);
    println!("{}", b.drive.describe());
    let said = b.drive.close().unwrap_err().to_string();
    assert!(said.contains("the device is gone"), "{said}");
    assert!(!path().exists());
}
