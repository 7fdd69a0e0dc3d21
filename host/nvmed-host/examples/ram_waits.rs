//! How long a guest's commands wait while another guest's long commands go on, on the simulated drive, and on that in a file.
//!
//!     cargo run --release --example ram_waits -- [FILE [direct|allocated]]
//!
//! Both guests' commands come by the same lane. One thread rings doorbells and lets the drive work, as the mediator's thread does; the times are from the
//! doorbell to the completion of commands of 4 KiB. Without FILE the drive is in memory; FILE is created and removed again. With a further word it is that of
//! `drive file`, by io_uring and direct I/O, else that of `drive ram`; with `allocated` the file has all of its room. The drive has 488 MiB.
//!
//! A machine with other work lets threads wait for a processor. What the thread of this process that waited longest for one has waited meanwhile is taken off.

use std::collections::HashMap;
use std::fs::File;
use std::os::fd::AsRawFd;
use std::os::unix::fs::FileExt;
use std::path::PathBuf;
use std::sync::Arc;
use std::time::{Duration, Instant};

use nix::poll::{poll, PollFd, PollFlags, PollTimeout};
use nix::sys::time::TimeValLike;
use nvmed_host::drive::file::{FileDrive, Lasting};
use nvmed_host::drive::prp::SharedMemory;
use nvmed_host::drive::ram::RamDrive;
use nvmed_host::drive::{Budget, Drive, LaneRings};
use vm_memory::mmap::MmapRegion;
use vm_memory::{Bytes, VolatileMemory, VolatileSlice};

type Failure = Box<dyn std::error::Error>;

const RINGS: LaneRings = LaneRings {
    submission: 0,
    completion: 0x2000,
    entries: 65,
};
const LIST: u64 = 0x3000;
const RANGES: u64 = 0x4000;
const VICTIM: u64 = 0x5000;
const DATA: u64 = 0x10000;
const MEMORY: usize = 1 << 20;
/// Of the first guest: 488 MiB; the second has 4 MiB behind it.
const FIRST: u64 = 488 << 11;
const BLOCKS: u64 = FIRST + (4 << 11);
const TURN: Budget = Budget {
    commands: 64,
    bytes: 1 << 20,
};

struct Memory(MmapRegion);

impl Memory {
    fn all(&self) -> VolatileSlice<'_> {
        self.0.as_volatile_slice()
    }
}

impl SharedMemory for Memory {
    fn slice(&self, host: u64, len: usize) -> Option<VolatileSlice<'_>> {
        self.0.get_slice(usize::try_from(host).ok()?, len).ok()
    }
}

// SAFETY: the region keeps its place until it is dropped, and its bytes are given out as volatile slices alone.
unsafe impl Lasting for Memory {}

/// How long each thread of this process has waited for a processor, by the kernel's files.
struct Delays(Vec<File>);

impl Delays {
    fn of_threads() -> Result<Self, Failure> {
        let threads = std::fs::read_dir("/proc/self/task")?;
        let files = threads.map(|thread| File::open(thread?.path().join("schedstat")));
        Ok(Self(files.collect::<Result<_, _>>()?))
    }

    fn read(&self) -> Result<Vec<Duration>, Failure> {
        let mut text = [0; 64];
        let mut delays = Vec::with_capacity(self.0.len());
        for file in &self.0 {
            let length = file.read_at(&mut text, 0)?;
            let second = std::str::from_utf8(&text[..length])?.split_whitespace().nth(1);
            delays.push(Duration::from_nanos(second.ok_or("a thread without times")?.parse()?));
        }
        Ok(delays)
    }
}

/// When a command was put, and what threads had waited until then.
struct Begun(Instant, Vec<Duration>);

impl Begun {
    /// The time since then, without what the thread that waited longest for a processor has waited.
    fn elapsed(&self, delays: &Delays) -> Result<Duration, Failure> {
        let elapsed = self.0.elapsed();
        if self.1.is_empty() {
            return Ok(elapsed);
        }
        let waited = delays.read()?.into_iter().zip(&self.1);
        let longest = waited.map(|(now, then)| now.saturating_sub(*then)).max();
        Ok(elapsed.saturating_sub(longest.unwrap_or_default()))
    }
}

/// The driver's side of the lane.
struct Driver {
    memory: Arc<Memory>,
    drive: Box<dyn Drive>,
    tail: u32,
    head: u32,
    phase: bool,
    last: u16,
    begun: HashMap<u16, Begun>,
    delays: Delays,
    /// Whether the times of commands count now.
    is_measured: bool,
    /// Whether the last turn left something to do at once.
    more: bool,
}

impl Driver {
    fn put(&mut self, opcode: u8, prp1: u64, prp2: u64, first: u64, d12: u32) -> Result<u16, Failure> {
        self.last = self.last.wrapping_add(1);
        while self.begun.contains_key(&self.last) {
            self.last = self.last.wrapping_add(1);
        }
        let mut entry = [0; 64];
        entry[0] = opcode;
        entry[2..4].copy_from_slice(&self.last.to_le_bytes());
        entry[4] = 1;
        entry[24..32].copy_from_slice(&prp1.to_le_bytes());
        entry[32..40].copy_from_slice(&prp2.to_le_bytes());
        entry[40..48].copy_from_slice(&first.to_le_bytes());
        entry[48..52].copy_from_slice(&d12.to_le_bytes());
        self.memory.all().write_slice(&entry, self.tail as usize * 64)?;
        self.tail = (self.tail + 1) % RINGS.entries;
        let delays = if self.is_measured {
            self.delays.read()?
        } else {
            Vec::new()
        };
        self.begun.insert(self.last, Begun(Instant::now(), delays));
        Ok(self.last)
    }

    fn ring(&mut self) -> Result<(), Failure> {
        Ok(self.drive.ring_submission(0, self.tail)?)
    }

    /// Lets the drive work once, and sleeps where it has nothing to do.
    fn turn(&mut self) -> Result<Vec<(u16, Duration)>, Failure> {
        let progress = self.drive.work(TURN)?;
        self.more = progress.more;
        let mut seen = Vec::new();
        loop {
            let last: u32 = self
                .memory
                .all()
                .read_obj(RINGS.completion as usize + self.head as usize * 16 + 12)?;
            if (last >> 16 & 1 != 0) != self.phase {
                break;
            }
            if last >> 17 != 0 {
                return Err(format!("a command has the status {:#x}", last >> 17).into());
            }
            self.head = (self.head + 1) % RINGS.entries;
            self.phase ^= self.head == 0;
            let begun = self.begun.remove(&(last as u16)).ok_or("a completion of no command")?;
            seen.push((last as u16, begun.elapsed(&self.delays)?));
        }
        self.drive.ring_completion(0, self.head)?;
        if seen.is_empty() && !progress.more {
            if let Some(wake) = self.drive.wake() {
                poll(&mut [PollFd::new(wake, PollFlags::POLLIN)], PollTimeout::from(1000u16))?;
            }
            self.drive.woken();
        }
        Ok(seen)
    }

    fn wait(&mut self) -> Result<(), Failure> {
        while !self.begun.is_empty() {
            self.turn()?;
        }
        Ok(())
    }

    /// Writes all blocks of the first guest.
    fn fill(&mut self) -> Result<(), Failure> {
        for first in (0..FIRST).step_by(256) {
            while self.begun.len() > 32 {
                self.turn()?;
            }
            self.put(1, DATA, LIST, first, 255)?;
            self.ring()?;
        }
        self.wait()
    }

    /// Runs the victim's commands, one after another, until the others are done; the longest of each opcode.
    fn measure(&mut self, what: &str, opcodes: &[(u8, &str)]) -> Result<(), Failure> {
        self.is_measured = true;
        let begin = Instant::now();
        self.ring()?;
        let others = self.begun.len();
        let mut longest = vec![Duration::ZERO; opcodes.len()];
        let mut waiting: HashMap<u16, usize> = HashMap::new();
        let mut count = 0;
        let mut done = 0;
        while done < others {
            if !self.more && waiting.is_empty() {
                std::thread::sleep(Duration::from_micros(100));
            }
            for (i, (opcode, _)) in opcodes.iter().enumerate() {
                if !waiting.values().any(|other| *other == i) {
                    let command = self.put(*opcode, VICTIM, 0, FIRST + (count * 8) % (4 << 11), 7)?;
                    waiting.insert(command, i);
                    count += 1;
                }
            }
            self.ring()?;
            for (command, time) in self.turn()? {
                match waiting.remove(&command) {
                    Some(i) => longest[i] = longest[i].max(time),
                    None => done += 1,
                }
            }
        }
        let whole = begin.elapsed();
        self.is_measured = false;
        self.wait()?;
        let times = opcodes
            .iter()
            .zip(longest)
            .map(|((_, name), time)| format!("{name} {:.3} ms", time.as_secs_f64() * 1e3));
        println!(
            "{what}: {:.1} ms; of {count} others the longest {}",
            whole.as_secs_f64() * 1e3,
            times.collect::<Vec<_>>().join(", ")
        );
        Ok(())
    }
}

/// Processor time of this process, of all its threads.
fn processor_time() -> Result<Duration, Failure> {
    let used = nix::sys::resource::getrusage(nix::sys::resource::UsageWho::RUSAGE_SELF)?;
    let both = used.user_time() + used.system_time();
    Ok(Duration::from_micros(u64::try_from(both.num_microseconds())?))
}

/// What a command of 4 KiB costs, where 16 are outstanding: processor time of the whole process, with the driver's side of it.
fn cost(driver: &mut Driver, what: &str, opcode: u8) -> Result<(), Failure> {
    const COMMANDS: u64 = 100_000;
    let begin = processor_time()?;
    for i in 0..COMMANDS {
        while driver.begun.len() >= 16 {
            driver.turn()?;
        }
        driver.put(opcode, VICTIM, 0, (i * 7919 % (FIRST / 8)) * 8, 7)?;
        driver.ring()?;
    }
    driver.wait()?;
    let each = (processor_time()? - begin).as_secs_f64() * 1e6 / COMMANDS as f64;
    println!("{what} of 4 KiB, 16 outstanding: {each:.2} us of processor time each");
    Ok(())
}

fn main() -> Result<(), Failure> {
    let image = std::env::args_os().nth(1).map(PathBuf::from);
    let kind = std::env::args_os().nth(2);
    let memory = Arc::new(Memory(MmapRegion::new(MEMORY)?));
    for i in 0..31u64 {
        memory
            .all()
            .write_obj(DATA + 0x1000 * (i + 1), (LIST + 8 * i) as usize)?;
    }
    memory.all().write_slice(&[0x5a; 0x20000], DATA as usize)?;
    for i in 0..256u64 {
        memory
            .all()
            .write_obj(FIRST as u32 - i as u32, (RANGES + 16 * i + 4) as usize)?;
        memory.all().write_obj(i, (RANGES + 16 * i + 8) as usize)?;
    }
    let mut drive: Box<dyn Drive> = match &image {
        None => Box::new(RamDrive::in_memory(Arc::clone(&memory), BLOCKS)?),
        Some(path) if kind.is_some() => {
            let file = File::create_new(path)?;
            file.set_len(BLOCKS * 512)?;
            if kind.is_some_and(|word| word == "allocated") {
                nix::fcntl::fallocate(
                    file.as_raw_fd(),
                    nix::fcntl::FallocateFlags::empty(),
                    0,
                    i64::try_from(BLOCKS * 512)?,
                )?;
            }
            Box::new(FileDrive::open(Arc::clone(&memory), path, BLOCKS)?)
        }
        Some(path) => Box::new(RamDrive::in_file(Arc::clone(&memory), BLOCKS, path)?),
    };
    println!("{}", drive.describe());
    drive.create_lanes(&[RINGS])?;
    let (tail, head, phase, last) = (0, 0, true, 0);
    let mut driver = Driver {
        memory,
        drive,
        tail,
        head,
        phase,
        last,
        begun: HashMap::new(),
        delays: Delays::of_threads()?,
        is_measured: false,
        more: false,
    };
    let few: &[(u8, &str)] = &[(2, "Read"), (1, "Write")];
    for dirty in [false, true] {
        let how = if dirty { "dirty" } else { "durable" };
        for (what, count) in [("Dataset Management of 256 ranges", 1), ("62 of them", 62)] {
            driver.fill()?;
            if !dirty {
                driver.put(0, 0, 0, 0, 0)?;
                driver.ring()?;
                driver.wait()?;
            }
            for _ in 0..count {
                driver.put(9, RANGES, 0, 4 << 32 | 255, 0)?;
            }
            driver.measure(&format!("{what}, {how} blocks"), few)?;
        }
        driver.fill()?;
        if !dirty {
            driver.put(0, 0, 0, 0, 0)?;
            driver.ring()?;
            driver.wait()?;
        }
        for i in 0..62 {
            driver.put(8, 0, 0, i % 15 * 65536, 0xffff)?;
        }
        driver.measure(&format!("62 Write Zeroes of 32 MiB, {how} blocks"), few)?;
    }
    driver.fill()?;
    driver.put(0, 0, 0, 0, 0)?;
    driver.measure("Flush of 488 MiB", few)?;
    driver.fill()?;
    for first in (0..60 * 256).step_by(256) {
        driver.put(1, DATA, LIST, first, 255)?;
    }
    driver.measure("60 Writes of 128 KiB", few)?;
    driver.put(2, VICTIM, 0, 0, 7)?;
    driver.measure("a Read of 4 KiB", few)?;
    cost(&mut driver, "Reads", 2)?;
    cost(&mut driver, "Writes", 1)?;
    let begin = Instant::now();
    driver.drive.close()?;
    println!("close: {:.1} ms", begin.elapsed().as_secs_f64() * 1e3);
    if let Some(path) = image {
        std::fs::remove_file(path)?;
    }
    Ok(())
}
