#![forbid(unsafe_code)]
//! Commands of the drive's own, as the kernel is given them (`struct nvme_uring_cmd` and `struct nvme_passthru_cmd` of `linux/nvme_ioctl.h`).

use std::io;

use vm_memory::VolatileSlice;

use crate::drive::buffers::{own_slices, Pages};
use crate::drive::command::Extent;
use crate::drive::entry::{opcode, Submission, BLOCK_BYTES};
use crate::drive::nvme::bytes::put;
use crate::drive::prp::{Places, SharedMemory};
use crate::drive::ring::Ring;

/// Bytes of either struct.
pub const STRUCT_BYTES: usize = 72;
/// Bit Deallocate of dword 12 of a Write Zeroes, and bit Force Unit Access.
const DEALLOCATE: u32 = 1 << 25;
const FORCED: u32 = 1 << 30;

/// Where the bytes of a command are.
#[derive(Debug)]
pub enum Data {
    /// It has none.
    None,
    /// In the command's own memory.
    Own(Places),
    /// The first so many, at least 1, of pages of the program's own.
    Pages(Pages, u32),
    /// So many zeros, which the drive reads: at most [`MOST_ZEROS`](crate::drive::uring::MOST_ZEROS).
    Zeros(u32),
}

impl Data {
    /// The bytes in memory, in order; those that follow each other are one slice. `None` where some have no memory any more. Zeros are none of them.
    pub fn slices<'a, M: SharedMemory + ?Sized>(&'a self, memory: &'a M) -> Option<Vec<VolatileSlice<'a>>> {
        match self {
            Data::None | Data::Zeros(_) => Some(Vec::new()),
            Data::Own(places) => own_slices(places, 0, memory),
            Data::Pages(pages, bytes) => pages.slice(0, *bytes).map(|slice| vec![slice]),
        }
    }
}

/// A command of the drive's own, for its namespace.
#[derive(Debug)]
pub struct Request {
    /// The opcode.
    pub opcode: u8,
    /// Dwords 10 to 15.
    pub dwords: [u32; 6],
    /// Its bytes.
    pub data: Data,
}

impl Request {
    /// What the entry says, by this opcode, with these bytes.
    pub fn of(entry: &Submission, opcode: u8, data: Data) -> Request {
        Request {
            opcode,
            dwords: entry.dwords(),
            data,
        }
    }

    /// A Read of so many blocks, 1 to 65,536, from the first on.
    pub fn read(first: u64, blocks: u32, data: Data) -> Request {
        Request::of_blocks(opcode::READ, first, blocks, data)
    }

    /// A Flush.
    pub fn flush() -> Request {
        Request {
            opcode: opcode::FLUSH,
            dwords: [0; 6],
            data: Data::None,
        }
    }

    /// Makes the blocks of these bytes zero, 1 to 65,536: by Write Zeroes, or where it has no such command by a Write of zeros.
    pub fn clear(extent: Extent, by: Zeroing, forced: bool) -> Request {
        let (first, bytes) = (extent.from / BLOCK_BYTES, extent.to - extent.from);
        let blocks = (bytes / BLOCK_BYTES) as u32;
        let mut request = match by {
            Zeroing::Command { .. } => Request::of_blocks(opcode::WRITE_ZEROES, first, blocks, Data::None),
            Zeroing::Writes => Request::of_blocks(opcode::WRITE, first, blocks, Data::Zeros(bytes as u32)),
        };
        request.set(DEALLOCATE, by == Zeroing::Command { deallocates: true });
        request.set(FORCED, forced);
        request
    }

    fn of_blocks(opcode: u8, first: u64, blocks: u32, data: Data) -> Request {
        let [low, high] = [first as u32, (first >> 32) as u32];
        Request {
            opcode,
            dwords: [low, high, blocks.wrapping_sub(1) & 0xffff, 0, 0, 0],
            data,
        }
    }

    /// A Write Zeroes asks for no deallocation any more.
    pub fn keep_allocated(&mut self) {
        self.set(DEALLOCATE, false);
    }

    /// Sets or clears a bit of dword 12.
    fn set(&mut self, bit: u32, is_set: bool) {
        let [_, _, twelve, ..] = &mut self.dwords;
        *twelve = if is_set { *twelve | bit } else { *twelve & !bit };
    }

    /// The struct for the namespace, with the vector of so many elements at this address, and a limit in milliseconds.
    pub fn bytes(&self, namespace: u32, address: u64, elements: u32, milliseconds: u32) -> [u8; STRUCT_BYTES] {
        let mut bytes = [0; STRUCT_BYTES];
        put(&mut bytes, 0, &[self.opcode]);
        put(&mut bytes, 4, &namespace.to_le_bytes());
        put(&mut bytes, 24, &address.to_le_bytes());
        put(&mut bytes, 36, &elements.to_le_bytes());
        for (at, dword) in (40..).step_by(4).zip(self.dwords) {
            put(&mut bytes, at, &dword.to_le_bytes());
        }
        put(&mut bytes, 64, &milliseconds.to_le_bytes());
        bytes
    }
}

/// How blocks are made zero.
#[derive(Clone, Copy, Debug, PartialEq, Eq)]
pub enum Zeroing {
    /// By Write Zeroes.
    Command {
        /// It asks for deallocation.
        deallocates: bool,
    },
    /// By Writes of zeros.
    Writes,
}

/// The lane that a command came from, and its identifier.
#[derive(Clone, Copy, Debug, PartialEq, Eq)]
pub struct Origin {
    /// The lane.
    pub lane: usize,
    /// The identifier.
    pub command: u16,
}

/// What a command of the drive's is for.
#[derive(Debug)]
pub enum Aim {
    /// It is a lane's command: its end is that one's.
    Command(Origin),
    /// It reads what a lane's Compare compares with these places.
    Compare(Origin, Box<Places>),
    /// It makes so many bytes zero for the lane's command that has its turn.
    Clear(u64),
    /// It is the program's own.
    Own,
}

/// A command on its way.
#[derive(Debug)]
pub struct Work {
    /// What it is for.
    pub aim: Aim,
    /// The command.
    pub request: Request,
    /// How often it was made in vain.
    pub tries: u32,
}

impl Work {
    /// A command that was not made yet.
    pub fn new(aim: Aim, request: Request) -> Work {
        Work { aim, request, tries: 0 }
    }
}

/// Carries commands out on a namespace. The result of one is the status that the drive gave it, or an error of the kernel's.
pub trait NamespaceRing: Ring<Work = Work> {
    /// Blocks of 512 bytes that the namespace has now: 0 where it is gone.
    ///
    /// # Errors
    ///
    /// That cannot be known.
    fn blocks(&self) -> io::Result<u64>;
}

#[cfg(test)]
mod tests {
    use super::*;

    /// The places of fields are those of `linux/nvme_ioctl.h`, written out by hand.
    #[test]
    fn fields_are_where_linux_says() {
        let request = Request {
            opcode: 0x09,
            dwords: [
                0x1010_1010,
                0x1111_1111,
                0x1212_1212,
                0x1313_1313,
                0x1414_1414,
                0x1515_1515,
            ],
            data: Data::None,
        };
        let bytes = request.bytes(0xa1a2_a3a4, 0xb1b2_b3b4_b5b6_b7b8, 0xc1c2_c3c4, 0xd1d2_d3d4);
        let mut expected = vec![9, 0, 0, 0, 0xa4, 0xa3, 0xa2, 0xa1];
        expected.extend([0; 16]); // dwords 2 and 3, metadata
        expected.extend([0xb8, 0xb7, 0xb6, 0xb5, 0xb4, 0xb3, 0xb2, 0xb1]);
        expected.extend([0, 0, 0, 0, 0xc4, 0xc3, 0xc2, 0xc1]); // bytes of metadata, elements
        for dword in 0x10..=0x15 {
            expected.extend([dword; 4]);
        }
        expected.extend([0xd4, 0xd3, 0xd2, 0xd1, 0, 0, 0, 0]);
        assert_eq!(bytes[..], expected[..]);
    }

    #[test]
    fn commands_that_make_zero_name_their_blocks() {
        let extent = Extent {
            from: 0x1_0000_0002 * 512,
            to: 0x1_0000_0012 * 512,
        };
        let made = |by, forced| {
            let request = Request::clear(extent, by, forced);
            (request.opcode, request.dwords)
        };
        let command = |deallocates| Zeroing::Command { deallocates };
        assert_eq!(made(command(false), false), (8, [2, 1, 15, 0, 0, 0]));
        assert_eq!(made(command(true), true), (8, [2, 1, 15 | 1 << 25 | 1 << 30, 0, 0, 0]));
        assert_eq!(made(Zeroing::Writes, false), (1, [2, 1, 15, 0, 0, 0]));
        assert_eq!(made(Zeroing::Writes, true), (1, [2, 1, 15 | 1 << 30, 0, 0, 0]));
        let all = Extent {
            from: 0,
            to: 65536 * 512,
        };
        assert_eq!(Request::clear(all, command(false), false).dwords[2], 0xffff);
    }
}
