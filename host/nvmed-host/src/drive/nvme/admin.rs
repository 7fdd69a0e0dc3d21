#![forbid(unsafe_code)]
//! The admin queues: commands are put, completions are taken when they come, and each one is checked. Nothing waits here.

use super::access::property::DOORBELLS;
use super::access::Access;
use super::bytes::{get16, get32};
use super::command::{Command, ENTRY_BYTES};
use super::memory::{clear, load, load32, store, DriveMemory, PAGE};
use crate::drive::DriveError;

/// Bytes of the window that the admin queues need: a page each for submission queue, completion queue and data.
pub const ADMIN_BYTES: u64 = 3 * PAGE;
/// Entries of each admin queue.
pub const ADMIN_ENTRIES: u32 = 16;
/// Milliseconds that the controller has for an admin command.
pub const ADMIN_WAIT: u64 = 10_000;
/// Bytes of an entry of a completion queue.
pub const COMPLETION_BYTES: u64 = 16;

/// A command that the controller has.
#[derive(Clone, Copy, Debug)]
struct Outstanding {
    id: u16,
    command: Command,
    /// When it was given; an asynchronous event request has all the time.
    since: u64,
}

/// A completion, checked: it is that of a command that was outstanding.
#[derive(Clone, Copy, Debug, PartialEq, Eq)]
pub struct Answer {
    /// The command that it completes.
    pub command: Command,
    /// Dword 0.
    pub result: u32,
    /// Status code type in bits 10 to 8, status code in bits 7 to 0; 0 is success.
    pub status: u16,
}

impl Answer {
    /// What a message says of a refused command.
    pub fn refusal(&self) -> String {
        let (kind, code) = (self.status >> 8 & 7, self.status & 0xff);
        format!(
            "the controller refused {}: status code type {kind}, status code {code:#04x}",
            self.command.name()
        )
    }
}

/// The admin queues in their three pages of the window.
#[derive(Debug)]
pub struct AdminQueue {
    base: u64,
    stride: u32,
    tail: u32,
    head: u32,
    /// How far the controller has taken entries from the submission queue, as it said last.
    fetched: u32,
    phase: bool,
    last_id: u16,
    outstanding: Vec<Outstanding>,
}

fn failed<T>(words: String) -> Result<T, DriveError> {
    Err(DriveError::Failed(words))
}

fn next(at: u32) -> u32 {
    (at + 1) % ADMIN_ENTRIES
}

/// How far it is from one place of the ring to another.
fn distance(from: u32, to: u32) -> u32 {
    (to + ADMIN_ENTRIES - from) % ADMIN_ENTRIES
}

impl AdminQueue {
    /// Queues at host address `base`, with doorbells `stride` bytes apart. They are to be cleared before they are used.
    pub fn new(base: u64, stride: u32) -> Self {
        Self {
            base,
            stride,
            tail: 0,
            head: 0,
            fetched: 0,
            phase: true,
            last_id: 0,
            outstanding: Vec::new(),
        }
    }

    /// Host address of the page for data.
    pub fn data(&self) -> u64 {
        self.base + 2 * PAGE
    }

    /// Clears the pages; nothing is outstanding. The controller has to be disabled.
    pub fn clear(&mut self, memory: &dyn DriveMemory) -> Result<(), DriveError> {
        (self.tail, self.head, self.fetched, self.phase) = (0, 0, 0, true);
        self.outstanding.clear();
        clear(memory, self.base, ADMIN_BYTES)
    }

    fn new_id(&mut self) -> u16 {
        loop {
            self.last_id = self.last_id.wrapping_add(1);
            if !self.outstanding.iter().any(|o| o.id == self.last_id) {
                return self.last_id;
            }
        }
    }

    /// Gives a command to the controller. The page for data is cleared before, where the command has some.
    pub fn ask(
        &mut self,
        access: &mut dyn Access,
        memory: &dyn DriveMemory,
        command: Command,
    ) -> Result<(), DriveError> {
        if self.outstanding.len() >= ADMIN_ENTRIES as usize - 1 {
            return failed("the admin queue is full".into());
        }
        if command.gives_data() {
            clear(memory, self.data(), PAGE)?;
        }
        let id = self.new_id();
        let entry = command.entry(id, self.data());
        store(memory, self.base + u64::from(self.tail) * ENTRY_BYTES as u64, &entry)?;
        self.tail = next(self.tail);
        self.outstanding.push(Outstanding {
            id,
            command,
            since: access.now(),
        });
        access.write(DOORBELLS, self.tail)
    }

    /// Takes the next completion, where one has come.
    pub fn take(&mut self, access: &mut dyn Access, memory: &dyn DriveMemory) -> Result<Option<Answer>, DriveError> {
        let at = self.base + PAGE + u64::from(self.head) * COMPLETION_BYTES;
        let last = load32(memory, at + 12)?;
        if (last >> 16 & 1 == 1) != self.phase {
            return Ok(None);
        }
        let mut entry = [0u8; 12];
        load(memory, at, &mut entry)?;
        let answer = self.check(last, &entry)?;
        self.head = next(self.head);
        if self.head == 0 {
            self.phase = !self.phase;
        }
        access.write(DOORBELLS + self.stride, self.head)?;
        Ok(Some(answer))
    }

    /// Checks a completion: its identifier, its queue, and the head that it says.
    fn check(&mut self, last: u32, entry: &[u8; 12]) -> Result<Answer, DriveError> {
        let (id, queue, head) = ((last & 0xffff) as u16, get16(entry, 10), u32::from(get16(entry, 8)));
        let Some(place) = self.outstanding.iter().position(|o| o.id == id) else {
            return failed(format!(
                "the controller completed admin command {id}, which it does not have"
            ));
        };
        let command = self.outstanding.swap_remove(place).command;
        let name = command.name();
        if queue != 0 {
            return failed(format!(
                "the controller completed {name} for queue {queue}, not for the admin queue"
            ));
        }
        if head >= ADMIN_ENTRIES || distance(self.fetched, head) > distance(self.fetched, self.tail) {
            return failed(format!(
                "the controller completed {name} with head {head} of the admin queue, not {} to {}",
                self.fetched, self.tail
            ));
        }
        self.fetched = head;
        Ok(Answer {
            command,
            result: get32(entry, 0),
            status: (last >> 17 & 0x7ff) as u16,
        })
    }

    /// A command that was not answered in time. Asynchronous event requests have no limit.
    pub fn late(&self, now: u64) -> Option<Command> {
        let late = |o: &&Outstanding| o.command != Command::Event && now.saturating_sub(o.since) > ADMIN_WAIT;
        self.outstanding.iter().find(late).map(|o| o.command)
    }
}
