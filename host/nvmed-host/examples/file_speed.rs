//! How many commands a guest gets through in a second on `drive file`, without a machine, beside fio on the same file with the same engine and depth.
//!
//!     file_speed PROGRAM FILE [SECONDS [ROUNDS]]
//!
//! PROGRAM is `nvmed-host` over the library. FILE is a file or a block device for direct I/O, whose bytes are overwritten, up to 1 GiB of them. Each job goes on
//! for SECONDS (2), by fio and by the guest in turn, ROUNDS times (3). The guest is a client of vfio-user: it rings doorbells in the shared page, and waits for
//! interrupts. Printed are the medians, and the percents that the guest's are of fio's. Both need the machine for themselves.

#[path = "../tests/client/mod.rs"]
mod client;
#[path = "../tests/guest/mod.rs"]
mod guest;

use std::collections::HashMap;
use std::error::Error;
use std::ffi::OsString;
use std::fs;
use std::os::fd::AsFd;
use std::path::Path;
use std::process::{Child, Command};
use std::time::{Duration, Instant};

use guest::{Folder, Guest, BYTES};
use nix::poll::{poll, PollFd, PollFlags};

type Failure = Box<dyn Error>;

/// How long the program and its answers are waited for, in milliseconds.
const PATIENCE: u16 = 10_000;
/// Bytes of the file that are used at most.
const MOST: u64 = 1 << 30;
/// Where the guest has lists of pages, one for each command on its way, and data.
const LISTS: u64 = 0x10_0000;
const DATA: u64 = 0x20_0000;
const PAGE: u64 = 0x1000;
/// Commands that one of the guest's queues has on their way at most.
const MOST_OF_QUEUE: usize = 32;

/// What is measured.
#[derive(Clone, Copy, Debug)]
struct Job {
    writes: bool,
    /// Pages of a command, of 4 KiB.
    pages: u64,
    depth: usize,
}

const JOBS: [Job; 8] = [
    Job::new(false, 1, 1),
    Job::new(false, 1, 16),
    Job::new(false, 1, 128),
    Job::new(true, 1, 1),
    Job::new(true, 1, 16),
    Job::new(true, 1, 128),
    Job::new(false, 32, 8),
    Job::new(true, 32, 8),
];

impl Job {
    const fn new(writes: bool, pages: u64, depth: usize) -> Self {
        Self { writes, pages, depth }
    }

    fn name(self) -> String {
        let kind = if self.writes { "Writes" } else { "Reads" };
        format!("{kind} of {} KiB, {} on their way", 4 * self.pages, self.depth)
    }

    /// Commands a second by fio.
    fn by_fio(self, file: &Path, bytes: u64, seconds: u64) -> Result<f64, Failure> {
        let kind = if self.writes { "write" } else { "read" };
        let output = fio(file, bytes)
            .arg(format!("--rw=rand{kind}"))
            .arg(format!("--bs={}k", 4 * self.pages))
            .arg(format!("--iodepth={}", self.depth))
            .args(["--time_based", "--norandommap", &format!("--runtime={seconds}")])
            .output()?;
        if !output.status.success() {
            return Err(String::from_utf8_lossy(&output.stderr).into_owned().into());
        }
        let said: serde_json::Value = serde_json::from_slice(&output.stdout)?;
        let count = &said["jobs"][0][kind]["iops"];
        Ok(count.as_f64().ok_or("fio has said no number")?)
    }
}

fn fio(file: &Path, bytes: u64) -> Command {
    let mut command = Command::new("fio");
    command
        .args([
            "--name=job",
            "--ioengine=io_uring",
            "--direct=1",
            "--thread",
            "--output-format=json",
        ])
        .arg(format!("--filename={}", file.display()))
        .arg(format!("--size={bytes}"));
    command
}

/// The program, which ends with this value.
struct Program(Child);

impl Drop for Program {
    fn drop(&mut self) {
        // one that has ended cannot be ended again
        let _ended = self.0.kill();
        let _waited = self.0.wait();
    }
}

impl Program {
    fn start(program: &Path, folder: &Folder, file: &Path, bytes: u64) -> Result<Self, Failure> {
        let configuration = folder.path("configuration");
        let text = format!(
            "drive file {}\nlanes 4\nguest 0 memory {BYTES}\nextent 0 0 {}\nlisten 0 {}\n",
            file.display(),
            bytes / 512,
            folder.path("g0").display()
        );
        fs::write(&configuration, text)?;
        Ok(Self(Command::new(program).arg(configuration).spawn()?))
    }
}

/// A guest that connects once the program listens, with four pairs of queues.
fn connect(socket: &Path) -> Result<Guest, Failure> {
    let begin = Instant::now();
    let mut guest = loop {
        match Guest::connect(socket) {
            Ok(guest) => break guest,
            Err(error) if begin.elapsed() > Duration::from_millis(u64::from(PATIENCE)) => return Err(error.into()),
            Err(_) => std::thread::sleep(Duration::from_millis(5)),
        }
    };
    guest.bring_up()?;
    for _ in 1..4 {
        guest.create_pair()?;
    }
    Ok(guest)
}

/// A guest's commands of a job.
struct Load<'a> {
    guest: &'a mut Guest,
    job: Job,
    /// Of the file: how many places there are for a command.
    places: u64,
    random: u64,
    /// Data and lists that no command has, and those of commands on their way by their identifiers.
    free: Vec<u64>,
    under_way: HashMap<u16, u64>,
    done: u64,
}

impl Load<'_> {
    /// Puts a command at any place into a queue.
    fn put(&mut self, queue: usize) -> Result<(), Failure> {
        let slot = self.free.pop().ok_or("there are too many commands")?;
        self.random = self
            .random
            .wrapping_mul(6_364_136_223_846_793_005)
            .wrapping_add(1_442_695_040_888_963_407);
        let block = (self.random >> 33) % self.places * self.job.pages * 8;
        let mut entry = [0; 64];
        entry[0] = if self.job.writes { 1 } else { 2 };
        entry[4] = 1;
        entry[24..32].copy_from_slice(&(DATA + PAGE * self.job.pages * slot).to_le_bytes());
        entry[32..40].copy_from_slice(&(LISTS + PAGE * slot).to_le_bytes());
        entry[40..48].copy_from_slice(&block.to_le_bytes());
        entry[48..52].copy_from_slice(&(8 * self.job.pages as u32 - 1).to_le_bytes());
        let id = self.guest.put_entry(queue, entry)?;
        self.under_way.insert(id, slot);
        Ok(())
    }

    /// Takes what a queue has completed: how many commands.
    fn take(&mut self, queue: usize) -> Result<usize, Failure> {
        let mut taken = 0;
        while let Some(done) = self.guest.take(queue)? {
            if done.status != 0 {
                return Err(format!("a command ended with status {:#x}", done.status).into());
            }
            self.free
                .push(self.under_way.remove(&done.id).ok_or("a stray completion")?);
            taken += 1;
        }
        if taken != 0 {
            self.guest.ring(queue, true)?;
        }
        Ok(taken)
    }

    /// Waits until a queue of these has interrupted.
    fn wait(&self, queues: usize) -> Result<(), Failure> {
        let vectors = self.guest.vectors.get(1..=queues).ok_or("there are too few vectors")?;
        let mut fds: Vec<PollFd> = vectors
            .iter()
            .map(|it| PollFd::new(it.as_fd(), PollFlags::POLLIN))
            .collect();
        if poll(&mut fds, PATIENCE)? == 0 {
            return Err("an interrupt was lost".into());
        }
        for (vector, fd) in vectors.iter().zip(&fds) {
            if fd.any() == Some(true) {
                vector.read()?;
            }
        }
        Ok(())
    }

    /// Commands a second.
    fn run(&mut self, span: Duration) -> Result<f64, Failure> {
        let queues = self.job.depth.div_ceil(MOST_OF_QUEUE);
        for i in 0..self.job.depth {
            self.put(1 + i % queues)?;
        }
        let begin = Instant::now();
        for queue in 1..=queues {
            self.guest.ring(queue, false)?;
        }
        while !self.under_way.is_empty() {
            self.wait(queues)?;
            let is_over = begin.elapsed() >= span;
            for queue in 1..=queues {
                let taken = self.take(queue)?;
                self.done += taken as u64;
                if taken != 0 && !is_over {
                    for _ in 0..taken {
                        self.put(queue)?;
                    }
                    self.guest.ring(queue, false)?;
                }
            }
        }
        Ok(self.done as f64 / begin.elapsed().as_secs_f64())
    }
}

fn by_guest(job: Job, guest: &mut Guest, bytes: u64, seconds: u64) -> Result<f64, Failure> {
    let slots = 0..job.depth as u64;
    for slot in slots.clone() {
        let data = DATA + PAGE * job.pages * slot;
        let list: Vec<u8> = (1..job.pages)
            .flat_map(|page| (data + PAGE * page).to_le_bytes())
            .collect();
        guest.memory.write(LISTS + PAGE * slot, &list)?;
    }
    let mut load = Load {
        guest,
        job,
        places: bytes / (PAGE * job.pages),
        random: 7,
        free: slots.collect(),
        under_way: HashMap::new(),
        done: 0,
    };
    load.run(Duration::from_secs(seconds))
}

fn median(mut numbers: Vec<f64>) -> f64 {
    numbers.sort_by(f64::total_cmp);
    numbers.get(numbers.len() / 2).copied().unwrap_or(0.0)
}

fn main() -> Result<(), Failure> {
    let words: Vec<OsString> = std::env::args_os().skip(1).collect();
    let [program, file, numbers @ ..] = words.as_slice() else {
        return Err("file_speed PROGRAM FILE [SECONDS [ROUNDS]]".into());
    };
    let numbers = numbers.iter().map(|it| it.to_str().unwrap_or_default().parse());
    let numbers: Vec<u64> = numbers.collect::<Result<_, _>>()?;
    let seconds = numbers.first().copied().unwrap_or(2);
    let rounds = numbers.get(1).copied().unwrap_or(3);
    let file = Path::new(file);
    let bytes = std::io::Seek::seek(&mut fs::File::open(file)?, std::io::SeekFrom::End(0))?.min(MOST) / (32 * PAGE)
        * (32 * PAGE);
    if bytes == 0 {
        return Err("the file has less than 128 KiB".into());
    }
    // holes, and room that was never written, are faster
    if !fio(file, bytes)
        .args(["--rw=write", "--bs=1m", "--end_fsync=1"])
        .output()?
        .status
        .success()
    {
        return Err("fio cannot write the file".into());
    }
    let folder = Folder::new("speed");
    let _program = Program::start(Path::new(program), &folder, file, bytes)?;
    let mut guest = connect(&folder.path("g0"))?;
    for job in JOBS {
        let (mut fios, mut guests) = (Vec::new(), Vec::new());
        for _ in 0..rounds {
            fios.push(job.by_fio(file, bytes, seconds)?);
            guests.push(by_guest(job, &mut guest, bytes, seconds)?);
        }
        let (fio, guest) = (median(fios), median(guests));
        println!(
            "{}: {fio:.0} a second by fio, {guest:.0} by the guest: {:.0} percent",
            job.name(),
            100.0 * guest / fio
        );
    }
    Ok(())
}
