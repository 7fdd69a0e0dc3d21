//! What a guest's commands of 4 KiB cost the program, without a machine: processor time of its threads for each, and how many there are in a second.
//!
//!     command_cost PROGRAM IMAGE [PAUSE [DEPTH]]
//!
//! PROGRAM is `nvmed-host` over the library, IMAGE the file for its drive, which is created and removed again. The guest waits for interrupts, and does PAUSE
//! microseconds (30) of work for each command, as a machine does. DEPTH commands are on their way, or 1 and 16. With three processors or more the program has
//! the last one, and the guest the first one. First it says what the figures of `nvmed_host::figures` take of that, as the best of many rounds, so that other
//! work on the machine does not count.

#[path = "../tests/client/mod.rs"]
mod client;
#[path = "../tests/guest/mod.rs"]
mod guest;

use std::collections::HashMap;
use std::error::Error;
use std::ffi::OsString;
use std::fs;
use std::hint::black_box;
use std::io;
use std::path::{Path, PathBuf};
use std::process::{Child, Command};
use std::time::{Duration, Instant};

use guest::{Folder, Guest, BYTES, MIB};
use nix::sched::{sched_getaffinity, sched_setaffinity, CpuSet};
use nix::unistd::Pid;
use nvmed_host::figures::GuestFigures;

type Failure = Box<dyn Error>;

/// How long each measurement goes on.
const SPAN: Duration = Duration::from_secs(3);
/// How long the program and its answers are waited for.
const PATIENCE: Duration = Duration::from_secs(10);
/// Blocks of the guest, and of a command.
const BLOCKS: u32 = 24 * 2048;
const EACH: u32 = 8;
/// Where the guest has its data: a page for each command on its way.
const DATA: u64 = 0x10_0000;

const WRITE: u8 = 1;
const READ: u8 = 2;

/// The program, which ends with this value.
struct Program(Child);

impl Drop for Program {
    fn drop(&mut self) {
        // one that has ended cannot be ended again
        let _ended = self.0.kill();
        let _waited = self.0.wait();
    }
}

/// Processor time of the program's threads, by their folders in `/proc`, and their names.
type Times = HashMap<PathBuf, (String, Duration)>;

impl Program {
    fn start(program: &Path, folder: &Folder, image: &Path) -> Result<Self, Failure> {
        let configuration = folder.path("configuration");
        let text = format!(
            "drive ram {} {}\nguest 0 memory {BYTES}\nextent 0 0 {BLOCKS}\nlisten 0 {}\n",
            32 * MIB,
            image.display(),
            folder.path("g0").display()
        );
        fs::write(&configuration, text)?;
        Ok(Self(Command::new(program).arg(configuration).spawn()?))
    }

    fn threads(&self) -> Result<Vec<PathBuf>, Failure> {
        let folder = format!("/proc/{}/task", self.0.id());
        let paths = fs::read_dir(folder)?.map(|thread| thread.map(|it| it.path()));
        Ok(paths.collect::<io::Result<_>>()?)
    }

    fn times(&self) -> Result<Times, Failure> {
        let mut times = Times::new();
        for thread in self.threads()? {
            let name = fs::read_to_string(thread.join("comm"))?.trim().to_owned();
            let stat = fs::read_to_string(thread.join("schedstat"))?;
            let first = stat.split_whitespace().next().ok_or("a thread without times")?;
            let time = Duration::from_nanos(first.parse()?);
            times.insert(thread, (name, time));
        }
        Ok(times)
    }

    /// Puts the program and this process on processors of their own.
    fn keep_apart(&self) -> Result<(), Failure> {
        let allowed = sched_getaffinity(Pid::from_raw(0))?;
        let all: Vec<usize> = (0..CpuSet::count())
            .filter(|&cpu| allowed.is_set(cpu) == Ok(true))
            .collect();
        let (Some(&first), Some(&last), true) = (all.first(), all.last(), all.len() >= 3) else {
            return Ok(());
        };
        for thread in self.threads()? {
            let number = thread.file_name().and_then(|it| it.to_str()).ok_or("no number")?;
            pin(Pid::from_raw(number.parse()?), last)?;
        }
        pin(Pid::from_raw(0), first)
    }
}

fn pin(thread: Pid, processor: usize) -> Result<(), Failure> {
    let mut set = CpuSet::new();
    set.set(processor)?;
    Ok(sched_setaffinity(thread, &set)?)
}

/// The least nanoseconds that `work` takes, of rounds of so many calls.
fn least(mut work: impl FnMut(u32)) -> f64 {
    const CALLS: u32 = 10_000;
    let rounds = (0..200).map(|_| {
        let begin = Instant::now();
        (0..CALLS).for_each(&mut work);
        begin.elapsed()
    });
    rounds.min().unwrap_or_default().as_nanos() as f64 / f64::from(CALLS)
}

/// What is done for a command's figures when it is taken, and when it has ended; and a reading of the clock, of which each round has one more.
fn measure_figures() {
    let figures = GuestFigures::default();
    let mut taken = [(nvmed_host::figures::Command::default(), Instant::now()); 64];
    let (now, mut entry) = (Instant::now(), [0; 64]);
    let command = least(|call| {
        entry[0] = 1 + (call & 1) as u8;
        entry[48] = call as u8;
        let place = &mut taken[call as usize % 64];
        *place = (nvmed_host::figures::Command::of(black_box(&entry)), now);
        let later = black_box(now + Duration::from_nanos(u64::from(call) << 8));
        figures.note(place.0, false, Some(later.saturating_duration_since(place.1)));
    });
    let clock = least(|_call| {
        black_box(Instant::now().max(now));
    });
    println!("Figures: {command:.1} ns a command, and {clock:.1} ns for the clock, once in a round with commands");
}

/// A guest that connects once the program listens.
fn connect(socket: &Path) -> Result<Guest, Failure> {
    let begin = Instant::now();
    loop {
        match Guest::connect(socket) {
            Ok(guest) => return Ok(guest),
            Err(error) if begin.elapsed() > PATIENCE => return Err(error.into()),
            Err(_) => std::thread::sleep(Duration::from_millis(5)),
        }
    }
}

/// A guest with so many commands on their way, until the time is over.
struct Load {
    opcode: u8,
    pause: Duration,
    /// Where the next command goes: any sequence that isn't one block after the other.
    place: u32,
    done: u64,
    interrupts: u64,
}

impl Load {
    fn send(&mut self, guest: &mut Guest) -> Result<(), Failure> {
        self.place = self.place.wrapping_mul(1_664_525).wrapping_add(1_013_904_223);
        let block = (self.place >> 8) % (BLOCKS / EACH) * EACH;
        let page = DATA + 0x1000 * u64::from(self.place >> 28);
        guest.put(1, self.opcode, page, [block, 0, EACH - 1])?;
        Ok(guest.ring(1, false)?)
    }

    /// Takes what has been completed: how many commands.
    fn take(&mut self, guest: &mut Guest) -> Result<u32, Failure> {
        let mut taken = 0;
        while let Some(done) = guest.take(1)? {
            if done.status != 0 {
                return Err(format!("a command ended with status {:#x}", done.status).into());
            }
            taken += 1;
        }
        if taken != 0 {
            guest.ring(1, true)?;
        }
        Ok(taken)
    }

    /// The guest's work for one command.
    fn work(&self) {
        let begin = Instant::now();
        while begin.elapsed() < self.pause {
            std::hint::spin_loop();
        }
    }

    /// A machine takes interrupts while it works, and goes on with what it was at.
    fn run(&mut self, guest: &mut Guest, depth: u32) -> Result<Duration, Failure> {
        let begin = Instant::now();
        let mut ready = depth;
        while begin.elapsed() < SPAN {
            let patience = if ready == 0 { PATIENCE } else { Duration::ZERO };
            if client::wait_for(&guest.vectors[1], patience)? != 0 {
                self.interrupts += 1;
                ready += self.take(guest)?;
            } else if ready == 0 {
                return Err("an interrupt was lost".into());
            }
            if ready != 0 {
                ready -= 1;
                self.work();
                self.send(guest)?;
                self.done += 1;
            }
        }
        let taken = begin.elapsed();
        while ready != depth {
            if client::wait_for(&guest.vectors[1], PATIENCE)? == 0 {
                return Err("an interrupt was lost".into());
            }
            ready += self.take(guest)?;
        }
        Ok(taken)
    }
}

fn measure(program: &Program, guest: &mut Guest, name: &str, load: Load, depth: u32) -> Result<(), Failure> {
    let mut load = load;
    let before = program.times()?;
    let taken = load.run(guest, depth)?;
    let after = program.times()?;
    let micros = |time: Duration| time.as_secs_f64() * 1e6;
    let mut all = Duration::ZERO;
    let mut each = String::new();
    for (thread, (name, time)) in &after {
        let earlier = before.get(thread).map_or(Duration::ZERO, |(_, time)| *time);
        let used = time.saturating_sub(earlier);
        all += used;
        if used * 1000 > taken {
            each += &format!(", {name} {:.2}", micros(used) / load.done as f64);
        }
    }
    println!(
        "{name}, {depth} on their way: {:.0} a second, {:.2} us of processor time each{each}; {:.1} an interrupt",
        load.done as f64 / taken.as_secs_f64(),
        micros(all) / load.done as f64,
        load.done as f64 / load.interrupts as f64
    );
    Ok(())
}

fn main() -> Result<(), Failure> {
    let words: Vec<OsString> = std::env::args_os().skip(1).collect();
    let [program, image, numbers @ ..] = words.as_slice() else {
        return Err("command_cost PROGRAM IMAGE [PAUSE [DEPTH]]".into());
    };
    let numbers = numbers.iter().map(|it| it.to_str().unwrap_or_default().parse());
    let numbers: Vec<u32> = numbers.collect::<Result<_, _>>()?;
    let (pause, depths) = match numbers.as_slice() {
        [] => (30, vec![1, 16]),
        [pause] => (*pause, vec![1, 16]),
        [pause, depths @ ..] => (*pause, depths.to_vec()),
    };
    if depths.iter().any(|depth| !(1..=16).contains(depth)) {
        return Err("DEPTH is 1 to 16".into());
    }
    measure_figures();
    let folder = Folder::new("cost");
    let program = Program::start(Path::new(program), &folder, Path::new(image))?;
    let mut guest = connect(&folder.path("g0"))?;
    guest.bring_up()?;
    program.keep_apart()?;
    for (name, opcode) in [("Reads", READ), ("Writes", WRITE)] {
        for &depth in &depths {
            let load = Load {
                opcode,
                pause: Duration::from_micros(u64::from(pause)),
                place: 7,
                done: 0,
                interrupts: 0,
            };
            measure(&program, &mut guest, name, load, depth)?;
        }
    }
    drop(program);
    Ok(fs::remove_file(image)?)
}
