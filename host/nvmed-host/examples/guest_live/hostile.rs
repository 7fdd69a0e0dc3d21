//! What a hostile guest does: rounds of random commands, registers, doorbells, interrupts and resets, while a thread writes random bytes into its queues. It
//! keeps to vfio-user, so that its connection has to stand all of it.

use std::fmt;
use std::io;
use std::os::unix::fs::FileExt;
use std::sync::atomic::{AtomicBool, AtomicU64, Ordering};
use std::thread::{self, sleep};
use std::time::Duration;

use crate::client::hostile::Random;
use crate::client::{ACTION_MASK, ACTION_TRIGGER, ACTION_UNMASK, BAR0, CONFIG, MSIX};
use crate::guest::Guest;
use crate::set_up_function;

/// The admin queues and four pairs of I/O queues, each of a page or less.
const QUEUES: u64 = 5;
const SLOTS: u32 = 64;
const PAGE: u64 = 0x1000;
const SUBMISSIONS: u64 = 0x10_0000;
const COMPLETIONS: u64 = SUBMISSIONS + QUEUES * PAGE;
const LISTS: u64 = COMPLETIONS + QUEUES * PAGE;
const LIST_PAGES: u64 = 8;
const SCRIBBLED: u64 = LISTS + LIST_PAGES * PAGE - SUBMISSIONS;
const DATA: u64 = 0x20_0000;

/// What is done in a round.
const ACTIONS: usize = 400;
/// Bytes that are scribbled at a time.
const BURST: u64 = 64;
const BREAK: Duration = Duration::from_micros(200);
/// Looks at CSTS until another thing is done.
const LOOKS: usize = 100;

const CC: u64 = 0x14;
const CSTS: u64 = 0x1c;
const AQA: u64 = 0x24;
const PROPERTIES: usize = 0x40;
const BAR_BYTES: usize = 0x4000;
const ENABLE: u32 = 0x0046_0001;
const CREATE_SQ: u8 = 1;
const CREATE_CQ: u8 = 5;
/// Flush, Write, Read, Compare, Write Zeroes, Dataset Management.
const KNOWN: [u8; 6] = [0, 1, 2, 5, 8, 9];
/// About the blocks that a guest has.
const BLOCKS: u64 = 65_600;

/// A hostile guest's rounds, and what it has done in them.
pub struct Rounds {
    random: Random,
    seed: u64,
    tails: [u32; QUEUES as usize],
    rounds: u64,
    commands: u64,
    scribbled: u64,
    messages: u64,
}

impl fmt::Display for Rounds {
    fn fmt(&self, f: &mut fmt::Formatter<'_>) -> fmt::Result {
        let (rounds, commands) = (self.rounds, self.commands);
        write!(
            f,
            "{rounds} rounds, {commands} commands, {} bytes scribbled, {} messages",
            self.scribbled, self.messages
        )
    }
}

/// An error reply is an answer, too.
fn answered<T>(result: io::Result<T>) -> io::Result<()> {
    match result {
        Err(error) if error.raw_os_error() == Some(libc::EINVAL) => Ok(()),
        other => other.map(|_| ()),
    }
}

impl Rounds {
    /// Rounds that a seed decides.
    pub fn new(guest: &Guest, seed: u64) -> io::Result<Self> {
        if guest.memory.bytes < 2 * DATA {
            return Err(io::Error::new(
                io::ErrorKind::InvalidInput,
                "the guest's memory is too small",
            ));
        }
        Ok(Self {
            random: Random::new(seed),
            seed,
            tails: [0; QUEUES as usize],
            rounds: 0,
            commands: 0,
            scribbled: 0,
            messages: 0,
        })
    }

    /// Round after round until it is to stop, while a thread scribbles.
    pub fn play(mut self, guest: &mut Guest, stopping: &dyn Fn() -> bool) -> io::Result<Self> {
        let file = guest.memory.file.try_clone()?;
        let (ending, scribbled) = (AtomicBool::new(false), AtomicU64::new(0));
        let mut random = Random::new(!self.seed);
        let played = thread::scope(|scope| {
            scope.spawn(|| {
                while !ending.load(Ordering::Relaxed) {
                    for _ in 0..BURST {
                        let at = SUBMISSIONS + random.below(SCRIBBLED as usize) as u64;
                        if file.write_all_at(&[random.next() as u8], at).is_ok() {
                            scribbled.fetch_add(1, Ordering::Relaxed);
                        }
                    }
                    sleep(BREAK);
                }
            });
            let mut played = Ok(());
            while played.is_ok() && !stopping() {
                played = self.round(guest);
            }
            ending.store(true, Ordering::Relaxed);
            played
        });
        self.scribbled = scribbled.into_inner();
        played.map(|()| self)
    }

    fn below(&mut self, most: u64) -> u64 {
        self.random.below(most as usize) as u64
    }

    /// Any number, but a small one in so many of a hundred cases.
    fn number(&mut self, small: usize, most: u64) -> u64 {
        if self.random.chance(small) {
            self.below(most)
        } else {
            self.random.next()
        }
    }

    /// An address: most are of the guest's memory, in whole dwords; some are of its queues, some any.
    fn address(&mut self, guest: &Guest) -> u64 {
        if self.random.chance(5) {
            return self.random.next();
        }
        if self.random.chance(10) {
            return SUBMISSIONS + self.below(SCRIBBLED);
        }
        let page = DATA + self.below((guest.memory.bytes - DATA) / PAGE) * PAGE;
        if self.random.chance(70) {
            page
        } else {
            page + self.below(PAGE / 4) * 4
        }
    }

    /// A command of the NVM command set, or another; it names a few blocks of the guest's, or any number of any.
    fn io_entry(&mut self, guest: &Guest) -> [u8; 64] {
        let mut entry = [0; 64];
        entry[0] = if self.random.chance(90) {
            *self.random.pick(&KNOWN)
        } else {
            self.random.next() as u8
        };
        entry[1] = if self.random.chance(80) {
            0
        } else {
            self.random.next() as u8
        };
        let namespace = if self.random.chance(95) {
            1
        } else {
            self.random.next() as u32
        };
        let list = if self.random.chance(50) {
            self.address(guest)
        } else {
            LISTS + self.below(LIST_PAGES) * PAGE
        };
        entry[4..8].copy_from_slice(&namespace.to_le_bytes());
        entry[24..32].copy_from_slice(&self.address(guest).to_le_bytes());
        entry[32..40].copy_from_slice(&list.to_le_bytes());
        entry[40..48].copy_from_slice(&self.number(95, BLOCKS).to_le_bytes());
        entry[48..52].copy_from_slice(&(self.number(95, 256) as u32).to_le_bytes());
        entry
    }

    fn admin_entry(&mut self, guest: &Guest) -> [u8; 64] {
        let mut entry = [0; 64];
        entry[0] = self.below(16) as u8;
        entry[24..32].copy_from_slice(&self.address(guest).to_le_bytes());
        for word in entry[40..].chunks_exact_mut(4) {
            word.copy_from_slice(&(self.number(80, SLOTS.into()) as u32).to_le_bytes());
        }
        entry
    }

    /// Any doorbell: in the page, or by a message.
    fn bell(&mut self, guest: &mut Guest, number: u64, value: u32) -> io::Result<()> {
        if self.random.chance(80) {
            return guest.bell(number, value);
        }
        self.messages += 1;
        guest.client.post_u32(BAR0, PAGE + 4 * number, value)
    }

    /// Puts an entry into the queue. The identifier is random: two commands may have the same.
    fn send(&mut self, guest: &mut Guest, queue: u64, mut entry: [u8; 64]) -> io::Result<()> {
        entry[2] = self.below(SLOTS.into()) as u8;
        let Some(tail) = self.tails.get_mut(queue as usize) else {
            return Ok(());
        };
        guest
            .memory
            .write(SUBMISSIONS + queue * PAGE + 64 * u64::from(*tail), &entry)?;
        *tail = (*tail + 1) % SLOTS;
        let tail = *tail;
        self.commands += 1;
        self.bell(guest, 2 * queue, tail)
    }

    /// Whether the controller becomes ready doesn't matter: all else goes on.
    fn enable(&mut self, guest: &mut Guest) -> io::Result<()> {
        set_up_function(guest)?;
        let registers = [SUBMISSIONS as u32, 0, COMPLETIONS as u32, 0];
        guest.client.post_u32(BAR0, CC, 0)?;
        guest.client.post_u32(BAR0, AQA, (SLOTS - 1) << 16 | (SLOTS - 1))?;
        for (at, value) in (0..).zip(registers) {
            guest.client.post_u32(BAR0, AQA + 4 + 4 * at, value)?;
        }
        guest.client.post_u32(BAR0, CC, ENABLE)?;
        self.messages += 10;
        for _ in 0..LOOKS {
            self.messages += 1;
            if guest.client.read_u32(BAR0, CSTS)? & 1 != 0 {
                break;
            }
        }
        Ok(())
    }

    /// Completion queue and submission queue of a pair, as a driver creates them.
    fn create_pair(&mut self, guest: &mut Guest, queue: u64) -> io::Result<()> {
        let interrupts = self.below(2) as u32;
        let size = (SLOTS - 1) << 16 | queue as u32;
        for (opcode, address, word) in [
            (CREATE_CQ, COMPLETIONS, (queue as u32) << 16 | interrupts << 1 | 1),
            (CREATE_SQ, SUBMISSIONS, (queue as u32) << 16 | 1),
        ] {
            let mut entry = [0; 64];
            entry[0] = opcode;
            entry[24..32].copy_from_slice(&(address + queue * PAGE).to_le_bytes());
            entry[40..44].copy_from_slice(&size.to_le_bytes());
            entry[44..48].copy_from_slice(&word.to_le_bytes());
            self.send(guest, 0, entry)?;
        }
        Ok(())
    }

    /// An access of any length, at a place that suits it.
    fn access(&mut self, guest: &mut Guest, region: u32, space: usize, longest: usize) -> io::Result<()> {
        let length = 1 << self.random.below(longest);
        let at = (self.random.below(space / length) * length) as u64;
        self.messages += 1;
        if self.random.chance(50) {
            return answered(guest.client.read(region, at, length as u32));
        }
        let bytes = self.random.next().to_le_bytes();
        answered(guest.client.write(region, at, bytes.get(..length).unwrap_or_default()))
    }

    /// Most of what it does is a command; completion queues are emptied by guess.
    fn act(&mut self, guest: &mut Guest) -> io::Result<()> {
        let queue = 1 + self.below(QUEUES - 1);
        match self.random.below(1000) {
            0..700 => {
                let entry = self.io_entry(guest);
                self.send(guest, queue, entry)
            }
            700..760 => {
                let entry = self.admin_entry(guest);
                self.send(guest, 0, entry)
            }
            kind @ 760..940 => {
                let head = self.below(SLOTS.into()) as u32;
                self.bell(guest, 2 * if kind < 800 { 0 } else { queue } + 1, head)
            }
            940..960 => {
                let (number, value) = (self.below(2 * QUEUES + 2), self.random.next() as u32);
                self.bell(guest, number, value)
            }
            960..985 => {
                let space = if self.random.chance(70) { PROPERTIES } else { BAR_BYTES };
                self.access(guest, BAR0, space, 4)
            }
            985..992 => {
                self.access(guest, CONFIG, 256, 3)?;
                set_up_function(guest)
            }
            992..998 => {
                self.messages += 1;
                let action = *self.random.pick(&[ACTION_MASK, ACTION_UNMASK, ACTION_TRIGGER]);
                let vector = self.below(9) as u32;
                answered(guest.client.act_on_irq(MSIX, vector, action))
            }
            _ => {
                self.messages += 1;
                guest.client.reset()?;
                set_up_function(guest)
            }
        }
    }

    fn round(&mut self, guest: &mut Guest) -> io::Result<()> {
        self.tails = [0; QUEUES as usize];
        self.enable(guest)?;
        for queue in 1..QUEUES {
            self.create_pair(guest, queue)?;
        }
        for _ in 0..ACTIONS {
            self.act(guest)?;
            if self.random.chance(50) {
                sleep(BREAK);
            }
        }
        self.rounds += 1;
        Ok(())
    }
}
