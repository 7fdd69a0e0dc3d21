//! A drive that this process simulates by its side of a lane.
#![cfg(not(feature = "stub"))]
#![allow(clippy::unwrap_used)]

use nvmed::{DriveLane, Entry, Error, Extent, Mappings, Mediator};
use vm_memory::{Bytes, GuestAddress, GuestMemoryMmap};

const BACK: u32 = 0x9000;

/// A guest of 2 MiB, with a controller that is enabled and an I/O queue pair of 64 slots.
struct Host {
    mediator: Mediator<Mappings>,
    lane: DriveLane,
    memory: GuestMemoryMmap,
    seen: Vec<Entry>,
    status: u16,
}

impl Host {
    fn new() -> Self {
        let memory = GuestMemoryMmap::from_ranges(&[(GuestAddress(0), 2 << 20)]).unwrap();
        let mappings = Mappings::new(vec![memory.clone()], 1).unwrap();
        let set_up = mappings.set_up(4096, |_| vec![Extent::new(1000, 3000)]);
        let mut host = Host {
            mediator: Mediator::serve(mappings, &set_up).unwrap(),
            lane: DriveLane::new(0),
            memory,
            seen: Vec::new(),
            status: 0,
        };
        for (offset, value) in [(0x24, 0x3f_003f), (0x28, 0x10000), (0x30, 0x11000), (0x14, 0x46_0001)] {
            host.mediator.reg_write(0, offset, value).unwrap();
        }
        let queue = 63 << 16 | 1;
        host.put(0, 0, [5, 0, 0, 0, 0, 0, 0x12000, 0, 0, 0, queue, 1]);
        host.put(0, 1, [1, 0, 0, 0, 0, 0, 0x13000, 0, 0, 0, queue, 1 << 16 | 1]);
        host.mediator.doorbell(0, 0x1000, 2).unwrap();
        host.pump().unwrap();
        host
    }

    fn put(&self, queue: usize, slot: u32, entry: [u32; 12]) {
        let at = [0x10000, 0x13000][queue] + 64 * u64::from(slot);
        self.memory.write_obj(entry, GuestAddress(at)).unwrap();
    }

    /// The status of the completion in a slot, where it has this phase.
    fn status(&self, slot: u64, phase: u32) -> Option<u32> {
        let done: [u32; 4] = self.memory.read_obj(GuestAddress(0x12000 + 16 * slot)).unwrap();
        (done[3] >> 16 & 1 == phase).then_some(done[3] >> 17)
    }

    /// Fills what is read with the number of its command.
    fn pump(&mut self) -> Result<(), Error> {
        let (seen, status) = (&mut self.seen, self.status);
        self.mediator.pump(&mut self.lane, |memory, entry| {
            let data = memory.slice(entry.prp1(), 512).unwrap();
            data.copy_from(&[seen.len() as u8; 512]);
            seen.push(*entry);
            status
        })
    }
}

#[test]
fn commands_go_round_the_rings() {
    let mut host = Host::new();
    assert!(host.seen.is_empty(), "no admin command is the drive's");
    // the lane's rings have 65 slots, the guest's 64: each round of these begins elsewhere in those
    for round in 0..5u32 {
        for slot in 0..64 {
            let block = 64 * round + slot;
            host.put(1, slot, [2, 1, 0, 0, 0, 0, BACK, 0, 0, 0, block, 0]);
            host.mediator.doorbell(0, 0x1008, (slot + 1) % 64).unwrap();
            host.pump().unwrap();
            assert_eq!(
                host.status(slot.into(), round & 1 ^ 1),
                Some(0),
                "round {round}, slot {slot}"
            );
            host.mediator.doorbell(0, 0x100c, (slot + 1) % 64).unwrap();
            let entry = host.seen.last().unwrap();
            assert_eq!(
                (entry.opcode(), entry.first_block(), entry.blocks()),
                (2, u64::from(1000 + block), 1)
            );
            let byte: u8 = host.memory.read_obj(GuestAddress(BACK.into())).unwrap();
            assert_eq!(u32::from(byte), block & 0xff);
        }
    }
    assert_eq!(host.seen.len(), 5 * 64);
}

#[test]
fn many_at_once_and_a_status() {
    let mut host = Host::new();
    host.status = 0x281; // Unrecovered Read Error
    for slot in 0..63 {
        host.put(1, slot, [2, 1, 0, 0, 0, 0, BACK, 0, 0, 0, slot, 0]);
    }
    host.mediator.doorbell(0, 0x1008, 63).unwrap();
    host.pump().unwrap();
    for slot in 0..63 {
        assert_eq!(host.status(slot, 1), Some(0x281), "slot {slot}");
    }
    host.pump().unwrap();
    assert_eq!(host.seen.len(), 63);
}

#[test]
fn what_is_wrong_is_an_error() {
    let mut host = Host::new();
    let mut other = DriveLane::new(1);
    assert_eq!(host.mediator.pump(&mut other, |_, _| 0), Err(Error::NoSuch));
    // a completion of a command that the drive was not given
    let rings = host.mediator.rings(0).unwrap();
    let last = 7u32 | 1 << 16;
    let place = host.mediator.memory().slice(rings.completion, 16).unwrap();
    place.write_obj([0, 0, 1, last], 0).unwrap();
    assert_eq!(host.pump(), Err(Error::Stray));
}
