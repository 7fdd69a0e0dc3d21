//! Tests of a namespace that the kernel drives, without one. Expected completions and dwords are written out by hand from the NVMe specifications.

mod commands;
mod fake;
mod faults;
mod fuzz;
mod real;

use super::*;
use crate::drive::nvme::identify::{ControllerPage, Limits, NamespacePage};
use crate::drive::ring::Ring;
use crate::drive::testing::*;

use self::fake::{Asked, Control, FakeRing, Fault, From};

pub const FLUSH: u8 = 0;
pub const WRITE: u8 = 1;
pub const READ: u8 = 2;
pub const COMPARE: u8 = 5;
pub const ZEROES: u8 = 8;
pub const RANGES: u8 = 9;
/// Write Fault, do not retry: what a drive says that takes no more writes.
pub const FOR_EVER: u16 = 0x4280;
/// Deallocate, of Write Zeroes.
pub const DEALLOCATE: u32 = 1 << 25;
/// Deallocate, of Dataset Management, in the upper half of what is dwords 10 and 11.
pub const AD: u64 = 4 << 32;

pub type FakeRig = Rig<PassthroughDrive<Memory, FakeRing>>;

/// Pages of a drive that has all commands.
pub fn all() -> (ControllerPage, NamespacePage, Limits) {
    let controller = ControllerPage {
        compare: true,
        deallocate: true,
        write_zeroes: true,
        ..ControllerPage::default()
    };
    let namespace = NamespacePage {
        blocks: BLOCKS,
        deallocated_are_zeros: true,
        zeroes_deallocate: true,
    };
    (controller, namespace, Limits::default())
}

/// A drive of 1,024 blocks over the ring for tests, which says this of itself.
pub fn drive_with(
    pages: (ControllerPage, NamespacePage, Limits),
) -> (Arc<Memory>, PassthroughDrive<Memory, FakeRing>, Control) {
    let memory = Memory::usual();
    let (ring, control) = FakeRing::new(Arc::clone(&memory), BLOCKS);
    let (controller, namespace, limits) = pages;
    let about = About {
        words: "a namespace for tests".to_owned(),
        namespace: 7,
        blocks: BLOCKS,
        abilities: Abilities::of(&controller, &namespace, Some(&limits)),
    };
    let drive = PassthroughDrive::over(Arc::clone(&memory), ring, about);
    (memory, drive, control)
}

/// The same with the driver's side of a lane.
pub fn fake_with(pages: (ControllerPage, NamespacePage, Limits)) -> (FakeRig, Control) {
    let (memory, drive, control) = drive_with(pages);
    (Rig::new(memory, drive), control)
}

/// A drive that has all commands.
pub fn fake() -> (FakeRig, Control) {
    fake_with(all())
}

/// Drives that lack one command, or several.
pub fn lacking() -> Vec<(ControllerPage, NamespacePage, Limits)> {
    let mut drives = Vec::new();
    for lack in 0..32u32 {
        let (mut controller, mut namespace, mut limits) = all();
        controller.compare = lack & 1 == 0;
        controller.write_zeroes = lack & 2 == 0;
        controller.deallocate = lack & 4 == 0;
        namespace.deallocated_are_zeros = lack & 8 == 0;
        if lack & 16 != 0 {
            limits.write_zeroes_blocks = Some(24);
            limits.range_blocks = Some(40);
        }
        drives.push((controller, namespace, limits));
    }
    drives
}

/// A range of Dataset Management, in the memory's second piece.
pub fn put_range<D: Drive + 'static>(rig: &Rig<D>, at: u64, first: u64, blocks: u32) {
    rig.memory.put64(HIGH + 16 * at, u64::from(blocks) << 32);
    rig.memory.put64(HIGH + 16 * at + 8, first);
}
