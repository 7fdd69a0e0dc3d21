//! Tests of the simulated drive. Expected completions are written out by hand from the NVMe specifications.

mod commands;
mod crash;
mod faults;
mod fuzz;
mod image;
mod rings;
mod waits;

use std::sync::Arc;
use std::time::{Duration, Instant};

use vm_memory::VolatileSlice;

use super::store::Store;
use super::*;
use crate::drive::testing::*;

/// The usual drive behind the driver's side of a lane.
pub type RamRig = Rig<RamDrive<Memory>>;

impl RamRig {
    /// The usual drive in memory.
    pub fn usual() -> Self {
        let memory = Memory::usual();
        let drive = RamDrive::in_memory(Arc::clone(&memory), BLOCKS).expect("a drive");
        Rig::new(memory, drive)
    }

    /// A drive over a store.
    pub fn over(store: Arc<dyn Store>, blocks: u64) -> Self {
        let memory = Memory::usual();
        let drive = RamDrive::over(Arc::clone(&memory), blocks, store).expect("a drive");
        Rig::new(memory, drive)
    }
}
