//! A small host: two machines' memories, as `vm-memory` has them, share a drive that lies in memory. Each machine writes its block 5 and reads it back. A
//! real host has virtual processors in the place of `send`, and the queues of a drive in the place of `carry_out`.

use nvmed::{DriveLane, Entry, Extent, Mappings, Mediator};
use std::error::Error;
use vm_memory::{Bytes, GuestAddress, GuestMemoryMmap};

const BLOCK: usize = 512;
/// Where a machine has its data, and where it reads them back.
const DATA: u32 = 0x4000;
const BACK: u32 = 0x5000;

type Blocks = Vec<[u8; BLOCK]>;

/// Carries out a Read or a Write of one block: its status.
fn carry_out(blocks: &mut Blocks, memory: &Mappings, entry: &Entry) -> u16 {
    let block = blocks.get_mut(entry.first_block() as usize);
    let (Some(block), Some(data)) = (block, memory.slice(entry.prp1(), BLOCK)) else {
        return 0x80; // LBA Out of Range
    };
    if entry.opcode() == 1 {
        data.copy_to(block);
    } else {
        data.copy_from(block);
    }
    0
}

struct Host {
    mediator: Mediator<Mappings>,
    lane: DriveLane,
    blocks: Blocks,
}

impl Host {
    /// A machine stores an entry of its queue 0 or 1 and rings the doorbell; it is served; it takes the completion.
    fn send(&mut self, guest: u32, queue: u32, slot: u32, entry: [u32; 12]) -> Result<(), Box<dyn Error>> {
        let memory = self.memory(guest);
        let (submission, completion) = [(0x10000, 0x11000), (0x13000, 0x12000)][queue as usize];
        memory.write_obj(entry, GuestAddress(submission + 64 * u64::from(slot)))?;
        self.mediator.doorbell(guest, 0x1000 + 8 * queue, slot + 1)?;
        let blocks = &mut self.blocks;
        let drive = |memory: &Mappings, entry: &Entry| carry_out(blocks, memory, entry);
        self.mediator.pump(&mut self.lane, drive)?;
        let done: [u32; 4] = memory.read_obj(GuestAddress(completion + 16 * u64::from(slot)))?;
        self.mediator.doorbell(guest, 0x1004 + 8 * queue, slot + 1)?;
        let (opcode, status) = (entry[0], done[3] >> 17);
        println!("machine {guest}: opcode {opcode:x} of queue {queue}: status {status:x}");
        Ok(())
    }

    fn memory(&self, guest: u32) -> GuestMemoryMmap {
        self.mediator.memory().guests()[guest as usize].clone()
    }

    /// A machine enables its controller, makes an I/O queue pair of 16 slots, and writes its block 5, then reads it: what it sees.
    fn drive_machine(&mut self, guest: u32) -> Result<String, Box<dyn Error>> {
        for (offset, value) in [(0x24, 0x1f_001f), (0x28, 0x10000), (0x30, 0x11000), (0x14, 0x46_0001)] {
            self.mediator.reg_write(guest, offset, value)?;
        }
        let memory = self.memory(guest);
        memory.write_slice(format!("of machine {guest}").as_bytes(), GuestAddress(DATA.into()))?;
        // Create I/O Completion Queue, Create I/O Submission Queue, Write, Read
        let queue = 15 << 16 | 1;
        self.send(guest, 0, 0, [5, 0, 0, 0, 0, 0, 0x12000, 0, 0, 0, queue, 1])?;
        self.send(guest, 0, 1, [1, 0, 0, 0, 0, 0, 0x13000, 0, 0, 0, queue, 1 << 16 | 1])?;
        self.send(guest, 1, 0, [1, 1, 0, 0, 0, 0, DATA, 0, 0, 0, 5, 0])?;
        self.send(guest, 1, 1, [2, 1, 0, 0, 0, 0, BACK, 0, 0, 0, 5, 0])?;
        let mut seen = [0; 12];
        memory.read_slice(&mut seen, GuestAddress(BACK.into()))?;
        Ok(String::from_utf8_lossy(&seen).into())
    }
}

fn main() -> Result<(), Box<dyn Error>> {
    if let Some(line) = nvmed::LIBRARY.warning() {
        eprintln!("{line}");
    }
    let memory = || GuestMemoryMmap::from_ranges(&[(GuestAddress(0), 1 << 20)]);
    let mappings = Mappings::new(vec![memory()?, memory()?], 1)?;
    let set_up = mappings.set_up(200, |guest| vec![Extent::new(100 * guest as u64, 64)]);
    let mut host = Host {
        mediator: Mediator::serve(mappings, &set_up)?,
        lane: DriveLane::new(0),
        blocks: vec![[0; BLOCK]; 200],
    };
    for guest in [0, 1] {
        println!("machine {guest} sees {:?}", host.drive_machine(guest)?);
    }
    for block in [5, 105] {
        let bytes = &host.blocks[block][..12];
        println!("block {block} of the drive: {:?}", String::from_utf8_lossy(bytes));
    }
    Ok(())
}
