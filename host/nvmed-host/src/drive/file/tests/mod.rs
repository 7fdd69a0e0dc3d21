//! Tests of a drive in a file. Expected completions are written out by hand from the NVMe specifications.

mod fake;
mod faults;
mod order;
mod real;

use super::*;
use crate::drive::ring::Ring;
use crate::drive::testing::*;

use self::fake::{Asked, Call, Control, FakeRing, Fault};

pub const READ: u8 = 2;
pub const WRITE: u8 = 1;
pub const COMPARE: u8 = 5;
pub const ZEROES: u8 = 8;
pub const FLUSH: u8 = 0;
/// Write Fault, do not retry: what a drive says that takes no more writes.
pub const FOR_EVER: u16 = 0x4280;
/// Deallocate, of Write Zeroes.
pub const DEALLOCATE: u32 = 1 << 25;

pub type FakeRig = Rig<FileDrive<Memory, FakeRing>>;

/// A drive of 1,024 blocks over the ring for tests, whose device wants buffers in memory aligned like this.
pub fn fake_aligned(alignment: u64) -> (FakeRig, Control) {
    let memory = Memory::usual();
    let (ring, control) = FakeRing::new(Arc::clone(&memory), BLOCKS);
    let about = opening::About {
        words: "a ring for tests".to_owned(),
        blocks: BLOCKS,
        alignment,
        keeps_room: false,
    };
    let drive = FileDrive::over(Arc::clone(&memory), ring, about);
    (Rig::new(memory, drive), control)
}

/// The same where buffers are aligned to 4 bytes.
pub fn fake() -> (FakeRig, Control) {
    fake_aligned(4)
}

/// A range of Dataset Management, in the memory's second piece.
pub fn put_range<D: Drive + 'static>(rig: &Rig<D>, at: u64, first: u64, blocks: u32) {
    rig.memory.put64(HIGH + 16 * at, u64::from(blocks) << 32);
    rig.memory.put64(HIGH + 16 * at + 8, first);
}
