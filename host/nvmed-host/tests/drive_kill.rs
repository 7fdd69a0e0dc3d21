//! A process with a drive in a file is killed at any moment: its image has what was flushed, and can be used again.

#![allow(clippy::expect_used)]

use std::io::{BufRead, BufReader, Write};
use std::path::{Path, PathBuf};
use std::process::{Command, Stdio};
use std::sync::Arc;
use std::time::{Duration, Instant};

use nix::poll::{poll, PollFd, PollFlags, PollTimeout};
use nvmed_host::drive::file::FileDrive;
use nvmed_host::drive::ram::RamDrive;
use nvmed_host::drive::{Budget, Drive, DriveError, LaneRings};
use nvmed_host::memory::Window;
use vm_memory::{Bytes, VolatileSlice};

const BLOCKS: u64 = 4096;
const RINGS: LaneRings = LaneRings {
    submission: 0,
    completion: 0x2000,
    entries: 65,
};
const DATA: u64 = 0x10000;
const BYTES: u64 = 1 << 20;
const IMAGE: &str = "NVMED_TEST_KILLED_IMAGE";
const KIND: &str = "NVMED_TEST_KILLED_KIND";

/// Kinds of drives in files.
#[derive(Clone, Copy, Debug, PartialEq, Eq)]
enum Kind {
    /// `drive ram SIZE FILE`
    Ram,
    /// `drive file PATH`
    File,
}

impl Kind {
    fn open(self, memory: Arc<Window>, image: &Path) -> Result<Box<dyn Drive>, DriveError> {
        Ok(match self {
            Kind::Ram => Box::new(RamDrive::in_file(memory, BLOCKS, image)?),
            Kind::File => Box::new(FileDrive::open(memory, image, BLOCKS)?),
        })
    }
}

fn memory() -> Arc<Window> {
    let memory = Window::reserve(BYTES).expect("addresses");
    memory.map_zeros(0, BYTES).expect("memory");
    memory
}

struct Driver {
    memory: Arc<Window>,
    drive: Box<dyn Drive>,
    tail: u32,
    head: u32,
    phase: bool,
}

impl Driver {
    fn open(kind: Kind, image: &Path) -> Driver {
        let memory = memory();
        let mut drive = kind.open(Arc::clone(&memory), image).expect("a drive");
        drive.create_lanes(&[RINGS]).expect("lanes");
        Driver {
            memory,
            drive,
            tail: 0,
            head: 0,
            phase: true,
        }
    }

    /// All of the memory.
    fn all(&self) -> VolatileSlice<'_> {
        self.memory.slice(0, BYTES as usize).expect("memory")
    }

    fn put(&mut self, opcode: u8, prp1: u64, first: u64, d12: u32) {
        let mut entry = [0; 64];
        entry[0] = opcode;
        entry[4] = 1;
        entry[24..32].copy_from_slice(&prp1.to_le_bytes());
        entry[40..48].copy_from_slice(&first.to_le_bytes());
        entry[48..52].copy_from_slice(&d12.to_le_bytes());
        self.all()
            .write_slice(&entry, self.tail as usize * 64)
            .expect("in memory");
        self.tail = (self.tail + 1) % RINGS.entries;
    }

    fn wait(&mut self, count: usize) {
        self.drive.ring_submission(0, self.tail).expect("a doorbell");
        for _ in 0..count {
            loop {
                let more = self
                    .drive
                    .work(Budget {
                        commands: 64,
                        bytes: 1 << 20,
                    })
                    .expect("work")
                    .more;
                let at = RINGS.completion as usize + self.head as usize * 16 + 12;
                let last: u32 = self.all().read_obj(at).expect("in memory");
                if (last >> 16 & 1 != 0) == self.phase {
                    assert_eq!(last >> 17, 0, "a status");
                    break;
                }
                if !more {
                    let wake = self.drive.wake().expect("a descriptor");
                    poll(&mut [PollFd::new(wake, PollFlags::POLLIN)], PollTimeout::from(1000u16)).expect("poll");
                    self.drive.woken();
                }
            }
            self.head = (self.head + 1) % RINGS.entries;
            self.phase ^= self.head == 0;
            self.drive.ring_completion(0, self.head).expect("a doorbell");
        }
    }
}

/// Which block the version `version` goes to: each block has versions in ascending order.
fn block_of(version: u64) -> u64 {
    version * 7 % BLOCKS
}

/// The process that is killed: it writes versions 1, 2, and so on, flushes now and then or forces the write, and says up to which all are durable.
#[test]
#[ignore = "it is run by the other test, as a process of its own"]
fn child() {
    let Some(image) = std::env::var_os(IMAGE) else { return };
    let is_ram = std::env::var_os(KIND).is_some_and(|kind| kind == "Ram");
    let mut driver = Driver::open(if is_ram { Kind::Ram } else { Kind::File }, Path::new(&image));
    let mut said = std::io::stdout().lock();
    let mut version = 0u64;
    let mut durable = 0;
    loop {
        let forced = version % 16 == 8;
        let count = if forced { 1 } else { 1 + version % 7 };
        for i in 0..count {
            version += 1;
            let page = DATA + 0x1000 * i;
            driver
                .all()
                .write_slice(&version.to_le_bytes().repeat(64), page as usize)
                .expect("in memory");
            driver.put(1, page, block_of(version), if forced { 1 << 30 } else { 0 });
        }
        driver.wait(count as usize);
        if forced {
            writeln!(said, "forced {version}").expect("a reader");
        }
        if version - durable > 20 {
            driver.put(0, 0, 0, 0);
            driver.wait(1);
            durable = version;
            writeln!(said, "flushed {version}").expect("a reader");
        }
    }
}

/// Reads lines for some time, kills the process, and reads the rest; the versions that are durable.
fn killed_after(time: Duration, kind: Kind, image: &Path) -> Vec<u64> {
    let mut child = Command::new(std::env::current_exe().expect("this program"))
        .args(["child", "--exact", "--ignored", "--nocapture"])
        .env(IMAGE, image)
        .env(KIND, format!("{kind:?}"))
        .stdout(Stdio::piped())
        .spawn()
        .expect("a process");
    let lines = BufReader::new(child.stdout.take().expect("a pipe")).lines();
    let reader = std::thread::spawn(move || {
        let mut flushed = 0;
        let mut forced = Vec::new();
        for line in lines.map_while(Result::ok) {
            // The test harness writes before, perhaps in the same line; the last line may have been cut off.
            let mut words = line.split_whitespace().rev();
            let Some(Ok(version)) = words.next().map(str::parse::<u64>) else {
                continue;
            };
            match words.next() {
                Some("flushed") => flushed = version,
                Some("forced") => forced.push(version),
                _ => {}
            }
        }
        (1..=flushed)
            .chain(forced.into_iter().filter(|version| *version > flushed))
            .collect::<Vec<_>>()
    });
    std::thread::sleep(time);
    child.kill().expect("SIGKILL");
    child.wait().expect("its end");
    reader.join().expect("lines")
}

struct Folder(PathBuf);

impl Drop for Folder {
    fn drop(&mut self) {
        let _ = std::fs::remove_dir_all(&self.0);
    }
}

fn what_was_flushed_survives_sigkill(kind: Kind) {
    let folder = Folder(std::env::temp_dir().join(format!("nvmed-kill-{kind:?}-{}", std::process::id())));
    std::fs::create_dir(&folder.0).expect("a folder");
    let begin = Instant::now();
    for round in 0..6u64 {
        let image = folder.0.join(format!("image{round}"));
        if kind == Kind::File {
            let file = std::fs::File::create(&image).expect("a file");
            file.set_len(BLOCKS * 512).expect("a length");
            if let Err(error) = kind.open(memory(), &image) {
                let said = error.to_string();
                assert!(said.contains("direct I/O") || said.contains("io_uring"), "{said}");
                println!("left out: {said}");
                return;
            }
        }
        let durable = killed_after(Duration::from_millis(60 + 47 * round), kind, &image);
        if !image.exists() {
            assert!(durable.is_empty());
            continue;
        }
        let mut floor = vec![0; BLOCKS as usize];
        for version in &durable {
            floor[block_of(*version) as usize] = *version;
        }
        let mut driver = Driver::open(kind, &image);
        for block in 0..BLOCKS {
            driver.put(2, DATA, block, 0);
            driver.wait(1);
            let mut words = [0u64; 64];
            for (i, word) in words.iter_mut().enumerate() {
                *word = driver.all().read_obj(DATA as usize + 8 * i).expect("in memory");
            }
            for word in words {
                let floor = floor[block as usize];
                assert!(
                    word >= floor && (word == 0 || block_of(word) == block),
                    "block {block} has {word}, and {floor} was durable"
                );
            }
        }
        driver.drive.close().expect("a clean end");
        println!("round {round}: {} versions were durable", durable.len());
    }
    assert!(begin.elapsed() < Duration::from_secs(120));
}

#[test]
fn what_was_flushed_survives_sigkill_on_a_simulated_drive() {
    what_was_flushed_survives_sigkill(Kind::Ram);
}

#[test]
fn what_was_flushed_survives_sigkill_in_a_file() {
    what_was_flushed_survives_sigkill(Kind::File);
}
