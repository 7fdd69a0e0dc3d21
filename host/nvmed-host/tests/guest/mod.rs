//! A guest for tests: an NVMe driver over a client of vfio-user, with its memory in a file that it shares.
#![allow(dead_code, clippy::unwrap_used, clippy::expect_used, clippy::panic)]

use std::fs::File;
use std::io;
use std::os::fd::AsFd;
use std::path::{Path, PathBuf};
use std::sync::atomic::{AtomicU32, Ordering};
use std::time::{Duration, Instant};

use nix::sys::eventfd::EventFd;
use nvmed_host::config::Config;
use nvmed_host::host::Host;
use vm_memory::{FileOffset, MmapRegion, VolatileMemory};

use crate::client::{self, Client, Memory, Range, BAR0, CONFIG};

pub const MIB: u64 = 1 << 20;
/// Bytes of a guest's memory.
pub const BYTES: u64 = 16 * MIB;

const CC: u64 = 0x14;
const CSTS: u64 = 0x1c;
const ENABLE: u32 = 0x0046_0001;
const ENTRIES: u32 = 64;
/// Where the doorbells lie in BAR0, and in the file of their page.
const BELLS: u64 = 0x1000;

/// Whether the library is a mediator: the stub is none.
pub fn is_real() -> bool {
    !matches!(nvmed::LIBRARY, nvmed::Library::Stub | nvmed::Library::Missing)
}

/// A folder of a test's own.
pub struct Folder(pub PathBuf);

impl Folder {
    pub fn new(name: &str) -> Self {
        let path = std::env::temp_dir().join(format!("nvmed-{name}-{}", std::process::id()));
        let _ = std::fs::remove_dir_all(&path);
        std::fs::create_dir_all(&path).unwrap();
        Self(path)
    }

    pub fn path(&self, name: &str) -> PathBuf {
        self.0.join(name)
    }
}

impl Drop for Folder {
    fn drop(&mut self) {
        let _ = std::fs::remove_dir_all(&self.0);
    }
}

/// A file for `drive file` in the folder, of 32,768 blocks; `None` where the kernel or the file system lets no file be one.
pub fn drive_file(folder: &Folder) -> Option<PathBuf> {
    let path = folder.path("drive");
    File::create(&path).unwrap().set_len(16 * MIB).unwrap();
    let window = nvmed_host::memory::Window::reserve(4096).unwrap();
    let opened = nvmed_host::drive::file::FileDrive::open(window, &path, 1);
    let Err(error) = opened else { return Some(path) };
    let said = error.to_string();
    assert!(said.contains("direct I/O") || said.contains("io_uring"), "{said}");
    println!("left out: {said}");
    None
}

/// A configuration with so many guests of 2,048 blocks each, which listen at `gN` in the folder, and further lines.
pub fn configuration(folder: &Folder, guests: usize, more: &str) -> String {
    let mut text = String::from("drive ram 16M\n");
    for guest in 0..guests {
        let socket = folder.path(&format!("g{guest}"));
        text += &format!("guest {guest} memory {BYTES}\nextent {guest} {} 2048\n", guest * 4096);
        text += &format!("listen {guest} {}\n", socket.display());
    }
    text + more
}

/// The program in this process.
pub fn host(text: &str) -> Host {
    Host::begin(&Config::parse(text.as_bytes()).unwrap(), false).unwrap()
}

/// A queue pair.
struct Queue {
    submission: u64,
    completion: u64,
    tail: u32,
    head: u32,
    phase: u8,
}

impl Queue {
    fn at(submission: u64) -> Self {
        Self {
            submission,
            completion: submission + 0x1000,
            tail: 0,
            head: 0,
            phase: 1,
        }
    }
}

/// How doorbells are rung.
#[derive(Clone, Copy, PartialEq, Eq, Debug)]
pub enum Bells {
    Page,
    Messages,
}

/// A completion: its identifier and its status without the phase tag.
#[derive(Clone, Copy, Debug, PartialEq, Eq)]
pub struct Done {
    pub id: u16,
    pub status: u16,
}

/// A guest with its controller.
pub struct Guest {
    pub client: Client,
    pub memory: Memory,
    pub vectors: Vec<EventFd>,
    page: Option<MmapRegion>,
    queues: Vec<Queue>,
    next: u16,
    /// Whether each completion is to have an interrupt.
    pub interrupts: bool,
}

/// Maps the page of doorbells. A doorbell is one store, as a processor makes it: a write of the file may store byte after byte.
fn map_bells(file: File) -> io::Result<MmapRegion> {
    MmapRegion::from_file(FileOffset::new(file, BELLS), 0x1000).map_err(io::Error::other)
}

/// The memory of a machine of that size.
pub fn ranges(bytes: u64) -> [Range; 1] {
    [Range {
        address: 0,
        offset: 0,
        bytes,
    }]
}

impl Guest {
    /// Connects with memory of its own, as QEMU does, and enables MSI-X. Its controller is not enabled yet.
    pub fn connect(socket: &Path) -> io::Result<Self> {
        Self::connect_with(socket, Memory::new(BYTES)?, Bells::Page)
    }

    pub fn connect_with(socket: &Path, memory: Memory, bells: Bells) -> io::Result<Self> {
        Self::on(Client::connect(socket)?, memory, bells)
    }

    /// The same with a connection that is there.
    pub fn on(mut client: Client, memory: Memory, bells: Bells) -> io::Result<Self> {
        let found = client.start_as_qemu(&memory, &ranges(memory.bytes))?;
        let page = found.regions.into_iter().next().and_then(|bar| bar.descriptor);
        let page = page.filter(|_| bells == Bells::Page).map(File::from).map(map_bells);
        let vectors = client::eventfds(9)?;
        client.write(CONFIG, 4, &[6, 0])?;
        client.enable_msix(&vectors)?;
        client.write(CONFIG, 0x42, &[8, 0x80])?;
        Ok(Self {
            client,
            memory,
            vectors,
            page: page.transpose()?,
            queues: Vec::new(),
            next: 0,
            interrupts: true,
        })
    }

    /// Waits until CSTS.RDY is as said.
    pub fn await_ready(&mut self, ready: u32) -> io::Result<()> {
        let begin = Instant::now();
        while self.client.read_u32(BAR0, CSTS)? & 1 != ready {
            if begin.elapsed() > Duration::from_secs(10) {
                return Err(io::ErrorKind::TimedOut.into());
            }
        }
        Ok(())
    }

    /// Enables the controller and creates an I/O queue pair with vector 1.
    pub fn bring_up(&mut self) -> io::Result<()> {
        self.enable()?;
        self.create_pair().map(|_| ())
    }

    /// Creates the next I/O queue pair, whose vector has its number: that number.
    pub fn create_pair(&mut self) -> io::Result<usize> {
        let number = self.queues.len();
        let submission = 0x2_0000 + 0x2000 * (number as u64 - 1);
        self.memory.write(submission, &[0; 0x2000])?;
        let word = number as u32;
        let size = (ENTRIES - 1) << 16 | word;
        let created = self.admin(5, submission + 0x1000, [size, word << 16 | 3, 0])?;
        assert_eq!(created.status, 0, "a completion queue");
        let created = self.admin(1, submission, [size, word << 16 | 1, 0])?;
        assert_eq!(created.status, 0, "a submission queue");
        self.queues.push(Queue::at(submission));
        Ok(number)
    }

    /// Deletes an I/O queue pair, whatever it has, and creates it anew.
    pub fn create_anew(&mut self, number: usize) -> io::Result<()> {
        let word = number as u32;
        for opcode in [0, 4] {
            assert_eq!(self.admin(opcode, 0, [word, 0, 0])?.status, 0, "a deletion");
        }
        let later = self.queues.split_off(number);
        self.create_pair()?;
        self.queues.extend(later.into_iter().skip(1));
        Ok(())
    }

    /// Enables the controller, with an admin queue.
    pub fn enable(&mut self) -> io::Result<()> {
        self.await_ready(0)?;
        self.memory.write(0x1_0000, &[0; 0x2000])?;
        self.queues = vec![Queue::at(0x1_0000)];
        for (offset, value) in [
            (0x24, (ENTRIES - 1) << 16 | (ENTRIES - 1)),
            (0x28, 0x1_0000),
            (0x2c, 0),
            (0x30, 0x1_1000),
            (0x34, 0),
            (CC, ENABLE),
        ] {
            self.client.post_u32(BAR0, offset, value)?;
        }
        self.await_ready(1)
    }

    pub fn set_cc(&mut self, value: u32) -> io::Result<()> {
        self.client.post_u32(BAR0, CC, value)
    }

    /// Puts a command into a queue without ringing its doorbell. Its identifier.
    pub fn put(&mut self, queue: usize, opcode: u8, prp1: u64, words: [u32; 3]) -> io::Result<u16> {
        let mut entry = [0; 64];
        entry[0] = opcode;
        entry[4] = u8::from(queue != 0 || opcode == 6);
        entry[24..32].copy_from_slice(&prp1.to_le_bytes());
        for (place, word) in entry[40..].chunks_exact_mut(4).zip(words) {
            place.copy_from_slice(&word.to_le_bytes());
        }
        self.put_entry(queue, entry)
    }

    /// Puts any entry into a queue, with the next identifier, which is the result.
    pub fn put_entry(&mut self, queue: usize, mut entry: [u8; 64]) -> io::Result<u16> {
        self.next = self.next.wrapping_add(1);
        let id = self.next;
        entry[2..4].copy_from_slice(&id.to_le_bytes());
        let q = &mut self.queues[queue];
        self.memory.write(q.submission + 64 * u64::from(q.tail), &entry)?;
        q.tail = (q.tail + 1) % ENTRIES;
        Ok(id)
    }

    /// Rings a queue's doorbell: of submissions, or of completions.
    pub fn ring(&mut self, queue: usize, completions: bool) -> io::Result<()> {
        let q = &self.queues[queue];
        let value = if completions { q.head } else { q.tail };
        self.bell(2 * queue as u64 + u64::from(completions), value)
    }

    /// Writes any doorbell, numbered from 0.
    pub fn bell(&mut self, number: u64, value: u32) -> io::Result<()> {
        let offset = 4 * number;
        match &self.page {
            Some(page) => {
                let bell = page.get_atomic_ref::<AtomicU32>(offset as usize);
                bell.map_err(io::Error::other)?.store(value, Ordering::SeqCst);
                Ok(())
            }
            None => self.client.post_u32(BAR0, BELLS + offset, value),
        }
    }

    /// The next completion that is there.
    pub fn take(&mut self, queue: usize) -> io::Result<Option<Done>> {
        let q = &mut self.queues[queue];
        let entry = self.memory.read(q.completion + 16 * u64::from(q.head), 16)?;
        if entry[14] & 1 != q.phase {
            return Ok(None);
        }
        q.head += 1;
        if q.head == ENTRIES {
            q.head = 0;
            q.phase ^= 1;
        }
        Ok(Some(Done {
            id: u16::from_le_bytes([entry[12], entry[13]]),
            status: u16::from_le_bytes([entry[14], entry[15]]) >> 1,
        }))
    }

    /// Waits for the next completion, by its interrupt, and acknowledges it.
    pub fn await_done(&mut self, queue: usize) -> io::Result<Done> {
        let begin = Instant::now();
        loop {
            if let Some(done) = self.take(queue)? {
                self.ring(queue, true)?;
                return Ok(done);
            }
            let left = Duration::from_secs(10).saturating_sub(begin.elapsed());
            if left.is_zero() {
                return Err(io::ErrorKind::TimedOut.into());
            }
            if self.interrupts {
                if client::wait_for(&self.vectors[queue], left)? == 0 {
                    return Err(io::Error::new(io::ErrorKind::TimedOut, "an interrupt was lost"));
                }
            } else {
                std::thread::sleep(Duration::from_micros(100));
            }
        }
    }

    /// A command of a queue, to its end.
    pub fn command(&mut self, queue: usize, opcode: u8, prp1: u64, words: [u32; 3]) -> io::Result<Done> {
        let id = self.put(queue, opcode, prp1, words)?;
        self.ring(queue, false)?;
        let done = self.await_done(queue)?;
        assert_eq!(done.id, id);
        Ok(done)
    }

    pub fn admin(&mut self, opcode: u8, prp1: u64, words: [u32; 3]) -> io::Result<Done> {
        self.command(0, opcode, prp1, words)
    }

    /// Writes 8 blocks that have these bytes.
    pub fn write_blocks(&mut self, block: u32, byte: u8) -> io::Result<Done> {
        self.memory.write(0x10_0000, &[byte; 4096])?;
        self.command(1, 1, 0x10_0000, [block, 0, 7])
    }

    /// Reads 8 blocks.
    pub fn read_blocks(&mut self, block: u32) -> io::Result<Vec<u8>> {
        self.memory.write(0x20_0000, &[0xee; 4096])?;
        let done = self.command(1, 2, 0x20_0000, [block, 0, 7])?;
        assert_eq!(done.status, 0);
        self.memory.read(0x20_0000, 4096)
    }

    /// The longest of so many reads of blocks.
    pub fn longest_read(&mut self, reads: usize) -> io::Result<Duration> {
        let mut longest = Duration::ZERO;
        for _ in 0..reads {
            let begin = Instant::now();
            let done = self.command(1, 2, 0x20_0000, [0, 0, 7])?;
            assert_eq!(done.status, 0);
            longest = longest.max(begin.elapsed());
        }
        Ok(longest)
    }

    /// Maps the guest's memory from a file of another kind, as a whole.
    pub fn map_file(client: &mut Client, file: &File, bytes: u64) -> io::Result<()> {
        let [range] = ranges(bytes);
        client.map(range, Some(file.as_fd()))
    }
}
