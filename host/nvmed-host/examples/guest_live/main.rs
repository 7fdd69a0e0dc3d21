//! A guest of `nvmed-host` without a machine: it speaks to the program as a guest's QEMU does.
//!
//!     guest_live works SOCKET [MEMORY]           blocks written, read back and compared by two pairs of queues
//!     guest_live reads SOCKET BLOCKS [MEMORY]    all its blocks, into the file BLOCKS
//!     guest_live hostile SOCKET SEED [MEMORY]    random commands, registers, doorbells and resets, and random bytes into its queues all the while, until
//!                                                SIGTERM comes; then the same as `works`
//!     guest_live endless SOCKET [MEMORY]         queues full of Reads whose scatter gather list names itself, until SIGTERM comes
//!     guest_live resets SOCKET [MEMORY]          Reads of a slow drive are ended by a reset, and by going away: once that is over, none gets into the memory
//!     guest_live busy SOCKET [MEMORY]            a drive that always has Reads, until SIGTERM comes
//!     guest_live shuts SOCKET [MEMORY]           the controller is brought up, and shut down
//!     guest_live stops SOCKET [MEMORY]           a message that is not ended: the connection is lost
//!
//! The program listens at SOCKET, or will soon. MEMORY is the file that the configuration names for the guest, or so many MiB (32) of a file of its own, which
//! has no name. The guest's blocks 5, 6 and 100 to 355 are overwritten by `works`, all of them by `hostile`. `bench/vm.sh` starts it.

#[path = "../../tests/client/mod.rs"]
mod client;
#[path = "../../tests/guest/mod.rs"]
mod guest;
mod hostile;
mod late;

use std::cell::Cell;
use std::error::Error;
use std::fs::{File, OpenOptions};
use std::io::{self, Read, Write};
use std::path::Path;
use std::process::ExitCode;
use std::thread::sleep;
use std::time::{Duration, Instant};

use client::{Client, Memory, BAR0, CONFIG, MSIX};
use guest::{Bells, Guest, MIB};
use hostile::Rounds;
use nvmed_host::signals::Signals;

type Failure = Box<dyn Error>;

/// How long a socket is waited for.
const CONNECT: Duration = Duration::from_secs(30);
const PAUSE: Duration = Duration::from_micros(500);
/// The program ends a connection with half a message after 10 s.
const STALL: Duration = Duration::from_secs(20);

const PAGE: u64 = 0x1000;
const LISTS: u64 = 0x18_0000;
const DATA: u64 = 0x20_0000;
/// Blocks of a large Read, 32 pages.
const CHUNK: u64 = 256;
/// Commands that a queue takes.
const FLIGHT: u64 = 63;

const FLUSH: u8 = 0;
const WRITE: u8 = 1;
const READ: u8 = 2;
const COMPARE: u8 = 5;
const IDENTIFY: u8 = 6;
/// Code and type of a status.
const STATUS: u16 = 0x7ff;
const OUT_OF_RANGE: u16 = 0x80;
const COMPARE_FAILURE: u16 = 0x285;

/// Says what is wrong where a thing is not as it should be.
fn demand(good: bool, what: impl Into<String>) -> Result<(), Failure> {
    if good {
        Ok(())
    } else {
        Err(what.into().into())
    }
}

/// SIGTERM, and whether it has come.
struct Stopping(Signals, Cell<bool>);

impl Stopping {
    fn has_come(&self) -> bool {
        if matches!(self.0.take(), Ok(Some(_)) | Err(_)) {
            self.1.set(true);
        }
        self.1.get()
    }
}

/// The guest's memory: the file with that name, or one of its own with so many MiB.
fn memory(word: Option<&str>) -> io::Result<Memory> {
    let word = word.unwrap_or("32");
    if let Ok(mebibytes) = word.parse::<u64>() {
        return Memory::new(mebibytes * MIB);
    }
    let file = OpenOptions::new().read(true).write(true).open(word)?;
    let bytes = file.metadata()?.len();
    Ok(Memory { file, bytes })
}

fn connect(socket: &Path, memory: Memory) -> io::Result<Guest> {
    let begin = Instant::now();
    loop {
        match Client::connect(socket) {
            Ok(client) => return Guest::on(client, memory, Bells::Page),
            Err(error) if begin.elapsed() > CONNECT => return Err(error),
            Err(_) => sleep(Duration::from_millis(10)),
        }
    }
}

/// Interrupts and bus mastering as after a start, whatever was done to them.
fn set_up_function(guest: &mut Guest) -> io::Result<()> {
    guest.client.disable_irqs(MSIX)?;
    guest.client.enable_msix(&guest.vectors)?;
    guest.client.write(CONFIG, 4, &[6, 0])?;
    guest.client.write(CONFIG, 0x42, &[8, 0x80])
}

/// The controller, with two pairs of queues.
fn bring_up(guest: &mut Guest) -> io::Result<()> {
    guest.set_cc(0)?;
    guest.bring_up()?;
    guest.create_pair().map(|_| ())
}

fn shut_down(guest: &mut Guest) -> Result<(), Failure> {
    guest.set_cc(0x0046_4001)?;
    let begin = Instant::now();
    while guest.client.read_u32(BAR0, 0x1c)? >> 2 & 3 != 2 {
        demand(
            begin.elapsed() < Duration::from_secs(10),
            "the shutdown is not complete",
        )?;
        sleep(PAUSE);
    }
    Ok(())
}

fn entry_of(opcode: u8, prp: [u64; 2], block: u64, blocks: u64) -> [u8; 64] {
    let mut entry = [0; 64];
    entry[0] = opcode;
    entry[4] = 1;
    entry[24..32].copy_from_slice(&prp[0].to_le_bytes());
    entry[32..40].copy_from_slice(&prp[1].to_le_bytes());
    entry[40..48].copy_from_slice(&block.to_le_bytes());
    entry[48..52].copy_from_slice(&(blocks.saturating_sub(1) as u32).to_le_bytes());
    entry
}

/// A command to its end: code and type of its status.
fn run(guest: &mut Guest, queue: usize, entry: [u8; 64]) -> Result<u16, Failure> {
    let id = guest.put_entry(queue, entry)?;
    guest.ring(queue, false)?;
    let done = guest.await_done(queue)?;
    demand(done.id == id, "a completion is another command's")?;
    Ok(done.status & STATUS)
}

/// The list of a data pointer to pages that follow one another, at LISTS.
fn put_list(guest: &Guest, first: u64, pages: u64) -> io::Result<()> {
    let list: Vec<u8> = (0..pages)
        .flat_map(|page| (first + page * PAGE).to_le_bytes())
        .collect();
    guest.memory.write(LISTS, &list)
}

fn works(guest: &mut Guest) -> Result<(), Failure> {
    bring_up(guest)?;
    for (queue, block) in [(1, 5), (2, 6)] {
        let bytes: Vec<u8> = (0..512_usize).map(|i| (i * 3 + queue - 1) as u8).collect();
        guest.memory.write(DATA, &bytes)?;
        guest.memory.write(DATA + PAGE, &[0; 512])?;
        let write = run(guest, queue, entry_of(WRITE, [DATA, 0], block, 1))?;
        let read = run(guest, queue, entry_of(READ, [DATA + PAGE, 0], block, 1))?;
        demand(write == 0 && read == 0, format!("block {block}: {write:#x}, {read:#x}"))?;
        demand(guest.memory.read(DATA + PAGE, 512)? == bytes, "a block has other bytes")?;
        demand(run(guest, queue, entry_of(FLUSH, [0, 0], 0, 0))? == 0, "Flush")?;
    }
    // 128 KiB by a list, from the middle of a page, written by one queue and read by the other one to another place
    let bytes: Vec<u8> = (0..131_072_usize).map(|i| (i * 7 + i / 512) as u8).collect();
    guest.memory.write(DATA + 0x200, &bytes)?;
    put_list(guest, DATA + PAGE, 32)?;
    let write = run(guest, 1, entry_of(WRITE, [DATA + 0x200, LISTS], 100, CHUNK))?;
    put_list(guest, DATA + 0x10_1000, 32)?;
    let read = run(guest, 2, entry_of(READ, [DATA + 0x10_0200, LISTS], 100, CHUNK))?;
    demand(write == 0 && read == 0, format!("128 KiB: {write:#x}, {read:#x}"))?;
    demand(
        guest.memory.read(DATA + 0x10_0200, bytes.len())? == bytes,
        "128 KiB have other bytes",
    )?;
    let beyond = run(guest, 1, entry_of(READ, [DATA, 0], 1 << 40, 1))?;
    demand(beyond == OUT_OF_RANGE, format!("a block beyond the end: {beyond:#x}"))?;
    let begin = Instant::now();
    let mut longest = Duration::ZERO;
    for i in 0..300 {
        let one = Instant::now();
        let status = run(guest, 1 + i % 2, entry_of(READ, [DATA, 0], i as u64, 1))?;
        demand(status == 0, format!("Read {i}: {status:#x}"))?;
        longest = longest.max(one.elapsed());
    }
    let (all, longest) = (begin.elapsed().as_millis(), longest.as_millis());
    println!("300 Reads, one at a time: {all} ms, the longest: {longest} ms");
    // block 5 is what the first queue has written
    let mut bytes: Vec<u8> = (0..512_usize).map(|i| (i * 3) as u8).collect();
    guest.memory.write(DATA, &bytes)?;
    let same = run(guest, 2, entry_of(COMPARE, [DATA, 0], 5, 1))?;
    bytes[511] ^= 1;
    guest.memory.write(DATA, &bytes)?;
    let other = run(guest, 2, entry_of(COMPARE, [DATA, 0], 5, 1))?;
    demand(
        same == 0 && other == COMPARE_FAILURE,
        format!("Compare: {same:#x}, {other:#x}"),
    )?;
    shut_down(guest)
}

fn reads(guest: &mut Guest, path: &str) -> Result<(), Failure> {
    let mut file = File::create(path)?;
    bring_up(guest)?;
    demand(guest.admin(IDENTIFY, DATA, [0; 3])?.status == 0, "Identify")?;
    let mut size = [0; 8];
    size.copy_from_slice(&guest.memory.read(DATA, 8)?);
    let blocks = u64::from_le_bytes(size);
    put_list(guest, DATA + PAGE, CHUNK / 8 - 1)?;
    for at in (0..blocks).step_by(CHUNK as usize) {
        let count = CHUNK.min(blocks - at);
        let second = if count > 16 { LISTS } else { DATA + PAGE };
        let queue = 1 + (at / CHUNK % 2) as usize;
        let status = run(guest, queue, entry_of(READ, [DATA, second], at, count))?;
        demand(status == 0, format!("Read of block {at}: {status:#x}"))?;
        file.write_all(&guest.memory.read(DATA, count as usize * 512)?)?;
    }
    shut_down(guest)
}

/// The connection has to stand all of it, and the controller to work before it and after it.
fn hostile(guest: &mut Guest, seed: u64, stopping: &Stopping) -> Result<(), Failure> {
    works(guest)?;
    let counts = Rounds::new(guest, seed)?.play(guest, &|| stopping.has_come())?;
    println!("{counts}");
    set_up_function(guest)?;
    works(guest)
}

/// An access of a register, by which the longest one is known.
fn look(guest: &mut Guest, longest: &mut Duration) -> io::Result<()> {
    let begin = Instant::now();
    guest.client.read_u32(BAR0, 0x1c)?;
    *longest = begin.elapsed().max(*longest);
    Ok(())
}

/// Reads whose data pointer is a segment of a scatter gather list, of one descriptor, which is that of the same segment.
fn endless(guest: &mut Guest, stopping: &Stopping) -> Result<(), Failure> {
    let (mut rounds, mut longest) = (0, Duration::ZERO);
    let segment = [LISTS, 16 | 0x20 << 56];
    bring_up(guest)?;
    guest.memory.write(LISTS, &segment.map(u64::to_le_bytes).concat())?;
    let mut entry = entry_of(READ, segment, 0, 1);
    entry[1] = 0x40;
    while !stopping.has_come() {
        for queue in [1, 2] {
            for _ in 0..FLIGHT {
                guest.put_entry(queue, entry)?;
            }
            guest.ring(queue, false)?;
        }
        for queue in [1, 2] {
            let mut left = FLIGHT;
            while left > 0 && !stopping.has_come() {
                if guest.take(queue)?.is_some() {
                    left -= 1;
                } else {
                    look(guest, &mut longest)?;
                    sleep(PAUSE);
                }
            }
            guest.ring(queue, true)?;
        }
        rounds += 1;
    }
    println!("{rounds} rounds, the longest access: {} ms", longest.as_millis());
    Ok(())
}

/// Sends a part of a message, and no more: it loses its connection.
fn stops(guest: &Guest) -> Result<(), Failure> {
    let message = client::message(
        0,
        client::command::REGION_READ,
        0,
        &client::access_payload(CONFIG, 0, 4),
    );
    guest.client.send_bytes(&message[..16], &[])?;
    guest.client.socket.set_read_timeout(Some(STALL))?;
    match (&guest.client.socket).read(&mut [0]) {
        Ok(0) => Ok(()),
        Err(error) if error.kind() == io::ErrorKind::ConnectionReset => Ok(()),
        other => Err(format!("the connection goes on: {other:?}").into()),
    }
}

fn main() -> ExitCode {
    let words: Vec<String> = std::env::args().skip(1).collect();
    let words: Vec<&str> = words.iter().map(String::as_str).collect();
    let (mode, socket, word, file) = match words[..] {
        [mode @ ("reads" | "hostile"), socket, word, ref rest @ ..] if rest.len() < 2 => {
            (mode, socket, word, rest.first())
        }
        [mode, socket, ref rest @ ..] if rest.len() < 2 => (mode, socket, "", rest.first()),
        _ => return ExitCode::from(2),
    };
    match play(mode, Path::new(socket), word, file.copied()) {
        Ok(()) => ExitCode::SUCCESS,
        Err(error) => {
            eprintln!("guest_live: {error}");
            ExitCode::FAILURE
        }
    }
}

fn play(mode: &str, socket: &Path, word: &str, file: Option<&str>) -> Result<(), Failure> {
    let stopping = Stopping(Signals::take_over()?, Cell::new(false));
    let mut guest = connect(socket, memory(file)?)?;
    match mode {
        "works" => works(&mut guest),
        "reads" => reads(&mut guest, word),
        "hostile" => hostile(&mut guest, word.parse()?, &stopping),
        "endless" => endless(&mut guest, &stopping),
        "resets" => late::resets(guest, socket, file),
        "busy" => late::busy(&mut guest, &stopping),
        "shuts" => bring_up(&mut guest)
            .map_err(Failure::from)
            .and_then(|()| shut_down(&mut guest)),
        "stops" => stops(&guest),
        _ => Err(format!("{mode}: is no mode").into()),
    }
}
