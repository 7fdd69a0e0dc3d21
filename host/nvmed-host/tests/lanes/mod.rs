//! Two lanes of a drive that is tried for real: Writes, Reads, refused commands and resets, by rings and data pointers.

#![allow(clippy::unwrap_used, clippy::expect_used, clippy::panic)]

use std::sync::Arc;
use std::time::{Duration, Instant};

use nvmed_host::drive::{Budget, Drive, LaneRings};
use nvmed_host::memory::Window;
use vm_memory::Bytes;

/// All that is used lies from here on: admin pages, rings, lists, and data of 2 MiB.
pub const FROM: u64 = 0x100_0000;
pub const RINGS: u64 = FROM + 0x1_0000;
pub const LISTS: u64 = FROM + 0xf_0000;
pub const DATA: u64 = FROM + 0x10_0000;
pub const SLOTS: u32 = 65;
pub const BUDGET: Budget = Budget {
    commands: 64,
    bytes: 1 << 20,
};

pub struct Lane {
    pub rings: LaneRings,
    pub tail: u32,
    pub head: u32,
    pub phase: bool,
}

pub struct Bench {
    pub window: Arc<Window>,
    pub drive: Box<dyn Drive>,
    pub lanes: Vec<Lane>,
    pub command: u16,
}

impl Bench {
    /// A drive that was opened, with its lanes.
    pub fn new(window: Arc<Window>, mut drive: Box<dyn Drive>) -> Self {
        let lanes = (0..2u64).map(|i| LaneRings {
            submission: RINGS + 0x1_0000 * i,
            completion: RINGS + 0x1_0000 * i + 0x2000,
            entries: SLOTS,
        });
        let rings: Vec<LaneRings> = lanes.collect();
        drive.create_lanes(&rings).unwrap();
        drive.work(BUDGET).unwrap();
        let lane = |rings: &LaneRings| Lane {
            rings: *rings,
            tail: 0,
            head: 0,
            phase: true,
        };
        let lanes = rings.iter().map(lane).collect();
        Self {
            window,
            drive,
            lanes,
            command: 0,
        }
    }

    pub fn put(&self, host: u64, bytes: &[u8]) {
        self.window
            .slice(host, bytes.len())
            .unwrap()
            .write_slice(bytes, 0)
            .unwrap();
    }

    pub fn get(&self, host: u64, len: usize) -> Vec<u8> {
        let mut bytes = vec![0; len];
        self.window.slice(host, len).unwrap().read_slice(&mut bytes, 0).unwrap();
        bytes
    }

    /// Puts an entry into a lane's ring, without a doorbell.
    pub fn give(&mut self, lane: usize, opcode: u8, prp1: u64, prp2: u64, block: u64, count: u32) -> u16 {
        self.command = (self.command + 1) % 0x7fff;
        let mut entry = [0u8; 64];
        entry[0] = opcode;
        entry[2..4].copy_from_slice(&self.command.to_le_bytes());
        entry[4] = 1;
        entry[24..32].copy_from_slice(&prp1.to_le_bytes());
        entry[32..40].copy_from_slice(&prp2.to_le_bytes());
        entry[40..48].copy_from_slice(&block.to_le_bytes());
        entry[48..52].copy_from_slice(&count.to_le_bytes());
        let it = &self.lanes[lane];
        self.put(it.rings.submission + 64 * u64::from(it.tail), &entry);
        self.lanes[lane].tail = (self.lanes[lane].tail + 1) % SLOTS;
        self.command
    }

    pub fn ring(&mut self, lane: usize) {
        self.drive.ring_submission(lane, self.lanes[lane].tail).unwrap();
    }

    /// The next completion: identifier and status.
    pub fn take(&mut self, lane: usize) -> Option<(u16, u16)> {
        let it = &self.lanes[lane];
        let entry = self.get(it.rings.completion + 16 * u64::from(it.head), 16);
        if (entry[14] & 1 == 1) != it.phase {
            return None;
        }
        assert_eq!(u16::from_le_bytes([entry[10], entry[11]]), lane as u16 + 1);
        let it = &mut self.lanes[lane];
        it.head = (it.head + 1) % SLOTS;
        it.phase ^= it.head == 0;
        self.drive.ring_completion(lane, self.lanes[lane].head).unwrap();
        Some((
            u16::from_le_bytes([entry[12], entry[13]]),
            u16::from_le_bytes([entry[14], entry[15]]) >> 1,
        ))
    }

    pub fn wait(&mut self, lane: usize) -> (u16, u16) {
        let begin = Instant::now();
        loop {
            if let Some(done) = self.take(lane) {
                return done;
            }
            self.drive.work(BUDGET).unwrap();
            assert!(begin.elapsed() < Duration::from_secs(10), "no completion");
            std::thread::sleep(Duration::from_micros(100));
        }
    }

    /// The status of a command.
    pub fn run(&mut self, lane: usize, opcode: u8, prp1: u64, prp2: u64, block: u64, count: u32) -> u16 {
        let id = self.give(lane, opcode, prp1, prp2, block, count);
        self.ring(lane);
        let (done, status) = self.wait(lane);
        assert_eq!(done, id);
        status
    }
}

pub fn pattern(lane: u64) -> Vec<u8> {
    (0..512u64).map(|i| (i * 3 + lane) as u8).collect()
}

/// Each lane writes a block and reads it back.
pub fn blocks(b: &mut Bench) {
    for lane in 0..2u64 {
        b.put(DATA, &pattern(lane));
        b.put(DATA + 0x1000, &[0; 512]);
        assert_eq!(b.run(lane as usize, 1, DATA, 0, 5 + lane, 0), 0);
        assert_eq!(b.run(lane as usize, 2, DATA + 0x1000, 0, 5 + lane, 0), 0);
        assert_eq!(b.get(DATA + 0x1000, 512), pattern(lane));
        assert_eq!(b.run(lane as usize, 0, 0, 0, 0, 0), 0);
    }
}

/// 128 KiB by a list of 32 entries, written on one lane and read on the other; a block past the end; and many Reads.
pub fn more(b: &mut Bench) {
    let data: Vec<u8> = (0..131_072u32).map(|i| (i * 7 + i / 512) as u8).collect();
    b.put(DATA + 0x200, &data);
    for i in 0..32u64 {
        b.put(LISTS + 8 * i, &(DATA + 0x1000 * (i + 1)).to_le_bytes());
        b.put(
            LISTS + 0x1000 + 8 * i,
            &(DATA + 0x10_0000 + 0x1000 * (i + 1)).to_le_bytes(),
        );
    }
    assert_eq!(b.run(0, 1, DATA + 0x200, LISTS, 100, 255), 0);
    assert_eq!(b.run(1, 2, DATA + 0x10_0200, LISTS + 0x1000, 100, 255), 0);
    assert_eq!(b.get(DATA + 0x10_0200, 131_072), data);
    assert_eq!(b.run(0, 2, DATA, 0, 1 << 40, 0) & 0x7ff, 0x80); // LBA Out of Range
    let begin = Instant::now();
    for i in 0..300 {
        assert_eq!(b.run(i as usize % 2, 2, DATA, 0, i, 0), 0);
    }
    println!("300 Reads, one at a time: {:?}", begin.elapsed());
    b.drive.check().unwrap();
}
