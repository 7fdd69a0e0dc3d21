//! What the tests of drives have in common: memory with pieces, the driver's side of a lane, a file's folder, random numbers, and commands beside a plain
//! model. Expected completions are written out by hand from the NVMe specifications.

use std::fs;
use std::os::fd::AsFd;
use std::path::PathBuf;
use std::sync::atomic::{AtomicU32, Ordering};
use std::sync::{Arc, Mutex};
use std::time::{Duration, Instant};

use nix::poll::{poll, PollFd, PollFlags, PollTimeout};
use vm_memory::mmap::MmapRegion;
use vm_memory::{Bytes, VolatileMemory, VolatileSlice};

use super::prp::SharedMemory;
use super::{Budget, Drive, DriveError, LaneRings, Progress};

/// Where things are in the memory of these tests.
pub const LOW: u64 = 0x10000;
pub const SQ: u64 = 0x10000;
pub const CQ: u64 = 0x12000;
pub const DATA: u64 = 0x20000;
pub const LIST: u64 = 0x60000;
pub const HIGH: u64 = 0x98000;
/// Entries of the first lane's rings, and the drive's blocks.
pub const ENTRIES: u32 = 65;
pub const BLOCKS: u64 = 1024;
/// A budget that no test uses up.
pub const AMPLE: Budget = Budget {
    commands: 1000,
    bytes: 1 << 40,
};

/// Memory with pieces, as the window has them.
pub struct Memory {
    region: MmapRegion,
    pieces: Mutex<Vec<(u64, u64)>>,
}

impl Memory {
    /// Memory from host address 0 on, of which the pieces (address, bytes) are there.
    pub fn new(bytes: usize, pieces: &[(u64, u64)]) -> Arc<Memory> {
        let region = MmapRegion::new(bytes).expect("memory");
        Arc::new(Memory {
            region,
            pieces: Mutex::new(pieces.to_vec()),
        })
    }

    /// Two pieces: the first from 0x10000 to 0x90000, the second of two pages from 0x98000 on.
    pub fn usual() -> Arc<Memory> {
        let memory = Memory::new(1 << 20, &[(LOW, 0x80000), (HIGH, 0x2000)]);
        memory.fill(0, 1 << 20, 0xee);
        memory
    }

    /// From now on nothing has memory but these pieces.
    pub fn keep(&self, pieces: &[(u64, u64)]) {
        *self.pieces.lock().expect("lock") = pieces.to_vec();
    }

    fn all(&self, host: u64, len: usize) -> VolatileSlice<'_> {
        self.region.get_slice(host as usize, len).expect("in the region")
    }

    pub fn fill(&self, host: u64, len: usize, byte: u8) {
        self.put(host, &vec![byte; len]);
    }

    pub fn put(&self, host: u64, bytes: &[u8]) {
        self.all(host, bytes.len()).copy_from(bytes);
    }

    pub fn put64(&self, host: u64, value: u64) {
        self.put(host, &value.to_le_bytes());
    }

    pub fn put32(&self, host: u64, value: u32) {
        self.put(host, &value.to_le_bytes());
    }

    pub fn get(&self, host: u64, len: usize) -> Vec<u8> {
        let mut bytes = vec![0; len];
        self.all(host, len).copy_to(&mut bytes);
        bytes
    }

    pub fn get32(&self, host: u64) -> u32 {
        self.all(host, 4).read_obj(0).expect("in the region")
    }
}

impl SharedMemory for Memory {
    fn slice(&self, host: u64, len: usize) -> Option<VolatileSlice<'_>> {
        let end = host.checked_add(len as u64)?;
        let pieces = self.pieces.lock().expect("lock");
        let is_there = len > 0 && pieces.iter().any(|(from, bytes)| *from <= host && end <= from + bytes);
        is_there.then(|| self.all(host, len))
    }
}

/// A submission entry, by the fields that matter.
#[derive(Clone, Copy, Debug, Default)]
pub struct Entry {
    pub opcode: u8,
    pub flags: u8,
    pub namespace: u32,
    pub prp1: u64,
    pub prp2: u64,
    /// Dwords 10 and 11.
    pub first: u64,
    pub d12: u32,
}

/// The FUA bit of dword 12.
pub const FORCED: u32 = 1 << 30;

/// An entry for namespace 1.
pub fn entry(opcode: u8, prp1: u64, prp2: u64, first: u64, d12: u32) -> Entry {
    Entry {
        opcode,
        flags: 0,
        namespace: 1,
        prp1,
        prp2,
        first,
        d12,
    }
}

/// A drive with the driver's side of one lane.
pub struct Rig<D> {
    pub memory: Arc<Memory>,
    pub drive: Box<D>,
    pub lane: usize,
    pub rings: LaneRings,
    pub tail: u32,
    pub head: u32,
    pub phase: bool,
    command: u16,
}

/// The usual rings.
pub const RINGS: LaneRings = LaneRings {
    submission: SQ,
    completion: CQ,
    entries: ENTRIES,
};

impl<D: Drive + 'static> Rig<D> {
    pub fn new(memory: Arc<Memory>, drive: D) -> Self {
        let mut drive = Box::new(drive);
        drive.create_lanes(&[RINGS]).expect("lanes");
        Rig {
            memory,
            drive,
            lane: 0,
            rings: RINGS,
            tail: 0,
            head: 0,
            phase: true,
            command: 0xfff0,
        }
    }

    /// Puts an entry into the ring and returns its command identifier.
    pub fn put(&mut self, entry: &Entry) -> u16 {
        self.command = self.command.wrapping_add(1);
        let mut bytes = [0; 64];
        bytes[0] = entry.opcode;
        bytes[1] = entry.flags;
        bytes[2..4].copy_from_slice(&self.command.to_le_bytes());
        bytes[4..8].copy_from_slice(&entry.namespace.to_le_bytes());
        bytes[24..32].copy_from_slice(&entry.prp1.to_le_bytes());
        bytes[32..40].copy_from_slice(&entry.prp2.to_le_bytes());
        bytes[40..48].copy_from_slice(&entry.first.to_le_bytes());
        bytes[48..52].copy_from_slice(&entry.d12.to_le_bytes());
        self.memory
            .put(self.rings.submission + 64 * u64::from(self.tail), &bytes);
        self.tail = (self.tail + 1) % self.rings.entries;
        self.command
    }

    /// Rings the submission doorbell for all entries that were put.
    pub fn ring(&mut self) {
        self.drive.ring_submission(self.lane, self.tail).expect("a doorbell");
    }

    /// The next completion, if it is there: command identifier and status field without the phase tag. Its place is given back.
    pub fn reap(&mut self) -> Option<(u16, u16)> {
        let at = self.rings.completion + 16 * u64::from(self.head);
        let last = self.memory.get32(at + 12);
        if (last >> 16 & 1 != 0) != self.phase {
            return None;
        }
        assert_eq!(self.memory.get(at, 8), [0; 8]);
        assert_eq!(self.memory.get32(at + 8) >> 16, self.lane as u32 + 1);
        self.head = (self.head + 1) % self.rings.entries;
        self.phase ^= self.head == 0;
        self.drive.ring_completion(self.lane, self.head).expect("a doorbell");
        Some((last as u16, (last >> 17) as u16))
    }

    /// Works until a completion is there.
    pub fn wait(&mut self) -> (u16, u16) {
        let deadline = Instant::now() + Duration::from_secs(20);
        loop {
            let more = self.drive.work(AMPLE).expect("work").more;
            if let Some(seen) = self.reap() {
                return seen;
            }
            assert!(Instant::now() < deadline, "no completion in 20 s");
            if !more {
                self.sleep();
            }
        }
    }

    /// Sleeps until the drive wakes its driver.
    pub fn sleep(&mut self) {
        let fd = self.drive.wake().expect("a descriptor");
        poll(
            &mut [PollFd::new(fd.as_fd(), PollFlags::POLLIN)],
            PollTimeout::from(1000u16),
        )
        .expect("poll");
        self.drive.woken();
    }

    /// Carries out one command and returns its status field without the phase tag.
    pub fn run(&mut self, entry: Entry) -> u16 {
        let command = self.put(&entry);
        self.ring();
        let (seen, status) = self.wait();
        assert_eq!(seen, command);
        status
    }

    pub fn close(self) -> Result<(), DriveError> {
        let drive: Box<dyn Drive> = self.drive;
        drive.close()
    }
}

/// A generator of pseudo-random numbers (xorshift64*).
pub struct Random(u64);

impl Random {
    pub fn new(seed: u64) -> Random {
        Random(seed.wrapping_mul(0x9e37_79b9_7f4a_7c15) | 1)
    }

    pub fn next(&mut self) -> u64 {
        self.0 ^= self.0 >> 12;
        self.0 ^= self.0 << 25;
        self.0 ^= self.0 >> 27;
        self.0.wrapping_mul(0x2545_f491_4f6c_dd1d)
    }

    pub fn below(&mut self, end: u64) -> u64 {
        self.next() % end
    }
}

/// A folder of its own, which is removed with it.
pub struct Folder(PathBuf);

impl Folder {
    pub fn new() -> Folder {
        static COUNT: AtomicU32 = AtomicU32::new(0);
        let name = format!(
            "nvmed-ram-{}-{}",
            std::process::id(),
            COUNT.fetch_add(1, Ordering::Relaxed)
        );
        let path = std::env::temp_dir().join(name);
        fs::create_dir(&path).expect("a folder");
        Folder(path)
    }

    pub fn file(&self, name: &str) -> PathBuf {
        self.0.join(name)
    }
}

impl Drop for Folder {
    fn drop(&mut self) {
        let _ = fs::remove_dir_all(&self.0);
    }
}

/// Commands one after another, with good data pointers, leave the same bytes in memory and on the drive as a plain model: `rounds` of them, of which one of
/// `forced` has FUA.
pub fn does_what_a_plain_model_does<D: Drive + 'static>(
    mut rig: Rig<D>,
    random: &mut Random,
    rounds: u32,
    forced: u64,
) {
    let mut disk = vec![0u8; BLOCKS as usize * 512];
    for i in 0..32u64 {
        rig.memory.put64(LIST + 8 * i, DATA + 0x1000 * (i + 1));
    }
    for round in 0..rounds {
        let count = 1 + random.below(256);
        let first = random.below(BLOCKS - count + 1);
        let bytes = first as usize * 512..(first + count) as usize * 512;
        let offset = [0, 512 * random.below(8), 4 * random.below(1024)][random.below(3) as usize];
        let at = DATA + offset;
        let is_long = offset + 512 * count > 0x2000;
        let prp2 = if is_long { LIST } else { DATA + 0x1000 };
        let fua = if random.below(forced) == 0 { FORCED } else { 0 };
        let d12 = (count as u32 - 1) | fua;
        match random.below(5) {
            0 => {
                let deallocate = (random.below(2) as u32) << 25;
                assert_eq!(rig.run(entry(8, 0, 0, first, d12 | deallocate)), 0);
                disk[bytes].fill(0);
            }
            1 => {
                assert_eq!(rig.run(entry(2, at, prp2, first, d12)), 0);
                assert!(rig.memory.get(at, bytes.len()) == disk[bytes]);
            }
            2 => {
                let same = rig.memory.get(at, bytes.len()) == disk[bytes.clone()];
                let expected = if same { 0 } else { 0x285 };
                assert_eq!(rig.run(entry(5, at, prp2, first, count as u32 - 1)), expected);
            }
            3 => {
                rig.memory.put32(HIGH + 4, count as u32);
                rig.memory.put64(HIGH + 8, first);
                assert_eq!(rig.run(entry(9, HIGH, 0, 4 << 32, 0)), 0);
                disk[bytes].fill(0);
            }
            _ => {
                rig.memory.fill(DATA + random.below(0x1f000), 0x1000, round as u8);
                assert_eq!(rig.run(entry(1, at, prp2, first, d12)), 0);
                disk[bytes.clone()].copy_from_slice(&rig.memory.get(at, bytes.len()));
            }
        }
    }
    rig.close().expect("a clean end");
}

/// Where lists and data of these tests lie: commands may overwrite each other's.
const ROOM: u64 = 0x60000;

/// An address that is good, or nearly so.
fn address(random: &mut Random) -> u64 {
    let good = DATA + random.below(ROOM / 8) * 8;
    match random.below(16) {
        0 => random.next(),
        1 => HIGH + random.below(0x3000),
        2 => LOW.wrapping_sub(random.below(0x2000)),
        3 => u64::MAX - random.below(0x2000),
        4 => good + random.below(8),
        5..=10 => good & !0xfff,
        _ => good,
    }
}

fn random_entry(random: &mut Random) -> Entry {
    let opcodes = [1, 1, 2, 2, 5, 8, 9, 9, 0];
    let opcode = match random.below(20) {
        0 => random.next() as u8,
        _ => opcodes[random.below(opcodes.len() as u64) as usize],
    };
    let first = match random.below(12) {
        0 => random.next(),
        1 => BLOCKS - random.below(300),
        _ if opcode == 9 => random.below(256) | random.below(8) << 32,
        _ => random.below(BLOCKS),
    };
    let blocks = match random.below(8) {
        0 => random.next() as u32 & 0xffff,
        1 => random.below(600) as u32,
        _ => random.below(64) as u32,
    };
    Entry {
        opcode,
        flags: if random.below(30) == 0 { random.next() as u8 } else { 0 },
        namespace: if random.below(30) == 0 { random.next() as u32 } else { 1 },
        prp1: address(random),
        prp2: address(random),
        first,
        d12: blocks | (random.next() as u32 & 0xffff_0000),
    }
}

/// Fills a page of the room with what may be a list of pages or of ranges.
fn scribble<D: Drive + 'static>(rig: &Rig<D>, random: &mut Random) {
    let page = DATA + random.below(ROOM / 0x1000) * 0x1000;
    for i in 0..512 {
        let word = match random.below(4) {
            0 => random.below(BLOCKS),
            1 => random.below(64) << 32,
            _ => address(random),
        };
        rig.memory.put64(page + 8 * i, word);
    }
}

/// Random entries, lists and ranges: each command is completed once, whatever they say. `each` is called before each of the rounds.
pub fn survives_random_commands<D: Drive + 'static>(
    rig: &mut Rig<D>,
    random: &mut Random,
    rounds: u32,
    mut each: impl FnMut(&mut Random),
) {
    let mut outstanding = Vec::new();
    let mut statuses = [0u32; 0x800];
    for _ in 0..rounds {
        each(random);
        if random.below(4) == 0 {
            scribble(rig, random);
        }
        if outstanding.len() < 60 {
            let entry = random_entry(random);
            outstanding.push(rig.put(&entry));
        }
        if random.below(3) == 0 {
            rig.ring();
        }
        let budget = Budget {
            commands: random.below(8) as u32,
            bytes: random.below(200_000),
        };
        rig.drive.work(budget).expect("work");
        rig.drive.woken();
        while random.below(8) != 0 {
            let Some((command, status)) = rig.reap() else { break };
            let index = outstanding
                .iter()
                .position(|other| *other == command)
                .expect("a command that is outstanding");
            outstanding.swap_remove(index);
            statuses[usize::from(status & 0x7ff)] += 1;
        }
    }
    rig.ring();
    while !outstanding.is_empty() {
        let (command, status) = rig.wait();
        outstanding.retain(|other| *other != command);
        statuses[usize::from(status & 0x7ff)] += 1;
    }
    // All kinds of answers came: the inputs reach every check.
    for status in [0, 1, 2, 4, 0xb, 0x13, 0x80, 0x285] {
        assert!(statuses[status] > 0, "no status {status:#x}");
    }
    assert_eq!(rig.drive.work(AMPLE).expect("work"), Progress::default());
}
