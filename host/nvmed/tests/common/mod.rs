//! A host for tests: two guests, a tiny drive, and the guests' drivers.
#![allow(dead_code)]

use nvmed::{Extent, GuestSetUp, Mediator, Region, Rings, Scope, SetUp, WorkEnd, AREA_BYTES_PER_LANE};
use std::sync::Arc;
use vm_memory::{Bytes, MmapRegion, VolatileMemory};

pub const HOST_BYTES: u64 = 0x180_0000;
pub const AREA: u64 = 0x40_0000;
pub const GUEST_BYTES: u64 = 0x2_0000;
pub const GUEST_AT: [u64; 2] = [0x10_0000, 0x20_0000];
pub const BLOCKS: u64 = 64;

const ADMIN_SQ: u64 = 0x1_0000;
const ADMIN_CQ: u64 = 0x1_1000;
const IO_CQ: u64 = 0x1_2000;
const IO_SQ: u64 = 0x1_3000;
pub const DATA: u64 = 0x4000;
pub const VECTOR: u16 = 3;

pub type Memory = Arc<MmapRegion>;

/// Memory of that length, with other bytes than zeros.
pub fn memory(bytes: u64) -> Memory {
    let memory = MmapRegion::new(bytes as usize).unwrap();
    let slice = memory.as_volatile_slice();
    for at in (0..bytes).step_by(4096) {
        slice.write_slice(&[0xee; 4096], at as usize).unwrap();
    }
    Arc::new(memory)
}

/// Two guests, each with a half of the drive.
pub fn set_up() -> SetUp {
    let half = BLOCKS / 2;
    let guest = |number: u64| GuestSetUp {
        descriptors: 1024,
        regions: vec![Region {
            address: 0,
            host: GUEST_AT[number as usize],
            bytes: GUEST_BYTES,
        }],
        extents: vec![Extent {
            base: number * half,
            blocks: half,
        }],
    };
    SetUp {
        host_bytes: HOST_BYTES,
        mediator: AREA,
        disk_blocks: BLOCKS,
        lanes: 1,
        guests: vec![guest(0), guest(1)],
    }
}

/// A drive of 64 blocks, which carries out Reads and Writes within a page.
pub struct Drive {
    pub memory: Memory,
    pub blocks: Vec<[u8; 512]>,
    head: u32,
    posted: u32,
    phase: u32,
    /// What it adds to the identifiers of commands that it completes.
    pub lie: u16,
    /// Whether it moves blocks, or completes commands alone.
    pub moves: bool,
}

impl Drive {
    pub fn new(memory: Memory) -> Self {
        Drive {
            memory,
            blocks: vec![[0; 512]; BLOCKS as usize],
            head: 0,
            posted: 0,
            phase: 1,
            lie: 0,
            moves: true,
        }
    }

    /// Carries out what was rung for: whether there was something.
    pub fn work(&mut self, rings: &Rings) -> bool {
        let moved = self.head != rings.tail;
        while self.head != rings.tail {
            let mut entry = [0; 64];
            let at = rings.submission + 64 * u64::from(self.head);
            self.slice().read_slice(&mut entry, at as usize).unwrap();
            self.head = (self.head + 1) % rings.entries;
            if self.moves {
                self.carry_out(&entry);
            }
            self.complete(rings, &entry);
        }
        moved
    }

    fn slice(&self) -> vm_memory::VolatileSlice<'_> {
        self.memory.as_volatile_slice()
    }

    fn carry_out(&mut self, entry: &[u8; 64]) {
        let (at, first) = (dword(entry, 24) as usize, dword(entry, 40) as usize);
        for i in 0..=(dword(entry, 48) as usize & 0xffff) {
            let mut block = self.blocks[first + i];
            let place = at + 512 * i;
            match entry[0] {
                0x01 => self.slice().read_slice(&mut block, place).unwrap(),
                0x02 => self.slice().write_slice(&block, place).unwrap(),
                _ => {}
            }
            self.blocks[first + i] = block;
        }
    }

    fn complete(&mut self, rings: &Rings, entry: &[u8; 64]) {
        let id = u32::from((dword(entry, 0) >> 16) as u16 ^ self.lie);
        let words = [0, 0, self.head | 1 << 16, id | self.phase << 16];
        let at = rings.completion + 16 * u64::from(self.posted);
        self.slice().write_slice(&bytes_of(&words), at as usize).unwrap();
        self.posted = (self.posted + 1) % rings.entries;
        if self.posted == 0 {
            self.phase ^= 1;
        }
    }
}

/// A guest's driver: it stores into its memory by itself.
pub struct Guest {
    pub number: u32,
    pub memory: Memory,
    sent: u32,
}

impl Guest {
    pub fn new(number: u32, memory: Memory) -> Self {
        Guest {
            number,
            memory,
            sent: 0,
        }
    }

    fn at(&self, address: u64) -> usize {
        (GUEST_AT[self.number as usize] + address) as usize
    }

    pub fn put(&self, address: u64, bytes: &[u8]) {
        self.memory
            .as_volatile_slice()
            .write_slice(bytes, self.at(address))
            .unwrap();
    }

    pub fn get(&self, address: u64, bytes: usize) -> Vec<u8> {
        let mut room = vec![0; bytes];
        self.memory
            .as_volatile_slice()
            .read_slice(&mut room, self.at(address))
            .unwrap();
        room
    }

    /// Enables the controller, and makes an I/O queue pair of 16 slots, whose completion queue has vector 3.
    pub fn bring_up(&mut self, m: &mut Mediator<Memory>) {
        self.put(ADMIN_CQ, &[0; 0x20 * 16]);
        self.put(IO_CQ, &[0; 16 * 16]);
        self.sent = 0;
        self.put(
            ADMIN_SQ,
            &entry(0x05, IO_CQ, [15 << 16 | 1, u32::from(VECTOR) << 16 | 3, 0]),
        );
        self.put(ADMIN_SQ + 64, &entry(0x01, IO_SQ, [15 << 16 | 1, 1 << 16 | 1, 0]));
        m.reg_write(self.number, 0x24, 0x001f_001f).unwrap();
        m.reg_write(self.number, 0x28, ADMIN_SQ as u32).unwrap();
        m.reg_write(self.number, 0x30, ADMIN_CQ as u32).unwrap();
        m.reg_write(self.number, 0x14, 0x0046_0001).unwrap();
        m.doorbell(self.number, 0x1000, 2).unwrap();
        assert_eq!(m.work(Scope::Guest(self.number), 1000).end, WorkEnd::Done);
        for slot in 0..2 {
            assert_eq!(
                dword(&self.get(ADMIN_CQ + 16 * slot, 16), 12) >> 16,
                1,
                "an admin command failed"
            );
        }
        m.doorbell(self.number, 0x1004, 2).unwrap();
    }

    /// Submits a command of one page at most, at `DATA`.
    pub fn send(&mut self, m: &mut Mediator<Memory>, opcode: u32, block: u32, blocks: u32) {
        let at = IO_SQ + 64 * u64::from(self.sent % 16);
        self.put(at, &entry(opcode, DATA, [block, 0, blocks - 1]));
        self.sent += 1;
        m.doorbell(self.number, 0x1008, self.sent % 16).unwrap();
    }

    /// The status of the last command, if it is completed.
    pub fn status(&self) -> Option<u32> {
        let last = self.sent - 1;
        let completion = self.get(IO_CQ + 16 * u64::from(last % 16), 16);
        let phase = 1 ^ ((last / 16) & 1);
        let word = dword(&completion, 12);
        (word >> 16 & 1 == phase).then_some(word >> 17)
    }

    pub fn acknowledge(&self, m: &mut Mediator<Memory>) {
        m.doorbell(self.number, 0x100c, self.sent % 16).unwrap();
    }
}

/// Does what is due, of the guests and the drive, until nothing is: how the last call ended.
pub fn run(m: &mut Mediator<Memory>, drive: &mut Drive) -> WorkEnd {
    loop {
        let work = m.work(Scope::All, 64);
        let moved = drive.work(&m.rings(0).unwrap());
        if work.end != WorkEnd::Done || work.done == 0 && !moved {
            return work.end;
        }
    }
}

pub fn entry(opcode: u32, prp1: u64, words: [u32; 3]) -> Vec<u8> {
    let mut all = [0; 16];
    all[0] = opcode | 7 << 16;
    all[1] = 1;
    all[6] = prp1 as u32;
    all[10..13].copy_from_slice(&words);
    bytes_of(&all)
}

pub fn bytes_of(words: &[u32]) -> Vec<u8> {
    words.iter().flat_map(|word| word.to_le_bytes()).collect()
}

pub fn dword(bytes: &[u8], at: usize) -> u32 {
    u32::from_le_bytes(bytes[at..at + 4].try_into().unwrap())
}

/// A set-up with its memory, and what a call of `serve` says of it after a change.
pub fn refused(change: impl FnOnce(&mut SetUp)) -> nvmed::Error {
    let mut set_up = set_up();
    change(&mut set_up);
    Mediator::serve(memory(HOST_BYTES), &set_up).map(|_| ()).unwrap_err()
}

pub fn area_of(lanes: u64) -> u64 {
    lanes * AREA_BYTES_PER_LANE
}
