#![forbid(unsafe_code)]
//! Entries of I/O queues as they lie in the lanes' rings: submission entries of the NVM command set and completion entries.
//!
//! Sources: NVM Express Base Specification, "Submission Queue Entry" (64 bytes), "Completion Queue Entry" (16 bytes) and "Status Field"; NVM Command Set
//! Specification, "NVM Command Set Commands". All fields are little-endian. A [`Submission`] is a private copy: whatever the ring's bytes do later, its
//! fields stay as they were fetched.

use std::sync::atomic::Ordering;

use vm_memory::{Bytes, VolatileSlice};

/// Bytes of a submission entry.
pub const SUBMISSION_BYTES: usize = 64;
/// Bytes of a completion entry.
pub const COMPLETION_BYTES: usize = 16;
/// Bytes of a logical block.
pub const BLOCK_BYTES: u64 = 512;
/// Blocks that a Read, Write or Compare of a lane may move: 128 KiB.
pub const MOST_BLOCKS: u32 = 256;
/// Bytes of a range of Dataset Management.
pub const RANGE_BYTES: usize = 16;
/// The namespace that the lanes' commands name.
pub const NAMESPACE: u32 = 1;
/// The namespace identifier that stands for all namespaces.
pub const ALL_NAMESPACES: u32 = u32::MAX;

/// Opcodes of I/O commands (NVM Command Set Specification, "Opcodes for NVM Commands").
pub mod opcode {
    /// Flush.
    pub const FLUSH: u8 = 0x00;
    /// Write.
    pub const WRITE: u8 = 0x01;
    /// Read.
    pub const READ: u8 = 0x02;
    /// Compare.
    pub const COMPARE: u8 = 0x05;
    /// Write Zeroes.
    pub const WRITE_ZEROES: u8 = 0x08;
    /// Dataset Management.
    pub const DATASET_MANAGEMENT: u8 = 0x09;
}

/// The status of a completion: status code in bits 7:0, its type in bits 10:8, do not retry in bit 14 (Base Specification, "Status Field", without the
/// phase tag).
#[derive(Clone, Copy, Debug, PartialEq, Eq, Hash)]
pub struct Status(u16);

impl Status {
    /// Bit "do not retry": the same command would fail in the same way.
    const DO_NOT_RETRY: u16 = 1 << 14;

    /// Successful Completion.
    pub const GOOD: Status = Status(0);
    /// Invalid Command Opcode.
    pub const INVALID_OPCODE: Status = Status(Self::DO_NOT_RETRY | 0x01);
    /// Invalid Field in Command.
    pub const INVALID_FIELD: Status = Status(Self::DO_NOT_RETRY | 0x02);
    /// Data Transfer Error: an address that is nowhere.
    pub const TRANSFER_ERROR: Status = Status(Self::DO_NOT_RETRY | 0x04);
    /// Internal Error.
    pub const INTERNAL_ERROR: Status = Status(0x06);
    /// Invalid Namespace or Format.
    pub const INVALID_NAMESPACE: Status = Status(Self::DO_NOT_RETRY | 0x0b);
    /// PRP Offset Invalid.
    pub const PRP_OFFSET_INVALID: Status = Status(Self::DO_NOT_RETRY | 0x13);
    /// Operation Denied: the command lacks a right.
    pub const DENIED: Status = Status(Self::DO_NOT_RETRY | 0x15);
    /// LBA Out of Range.
    pub const OUT_OF_RANGE: Status = Status(Self::DO_NOT_RETRY | 0x80);
    /// Capacity Exceeded: the drive's image has no room left where it lies. There may be some later.
    pub const CAPACITY_EXCEEDED: Status = Status(0x81);
    /// Namespace Not Ready of a drive that is gone.
    pub const NOT_READY_FOR_EVER: Status = Status(Self::DO_NOT_RETRY | 0x82);
    /// Write Fault: the data could not be committed to the media.
    pub const WRITE_FAULT: Status = Status(0x280);
    /// Write Fault of a drive that takes no more writes.
    pub const WRITE_FAULT_FOR_EVER: Status = Status(Self::DO_NOT_RETRY | 0x280);
    /// Unrecovered Read Error.
    pub const READ_ERROR: Status = Status(0x281);
    /// Compare Failure: the bytes differ.
    pub const COMPARE_FAILURE: Status = Status(0x285);

    /// The status of bits 14:0 of `bits`.
    pub const fn from_bits(bits: u16) -> Status {
        Status(bits & 0x7fff)
    }

    /// Bits 14:0 as above; bit 15 is 0.
    pub const fn bits(self) -> u16 {
        self.0
    }

    /// Whether the command succeeded.
    pub const fn is_good(self) -> bool {
        self.0 & 0x7ff == 0
    }
}

/// A submission entry, copied out of a ring.
#[derive(Clone, Copy, Debug, PartialEq, Eq)]
pub struct Submission([u8; SUBMISSION_BYTES]);

impl Submission {
    /// The entry with these bytes.
    pub const fn new(bytes: [u8; SUBMISSION_BYTES]) -> Submission {
        Submission(bytes)
    }

    /// Copies the entry that `at` begins with, once. `None` where `at` has fewer than 64 bytes.
    pub fn fetch(at: &VolatileSlice<'_>) -> Option<Submission> {
        let mut bytes = [0; SUBMISSION_BYTES];
        (at.copy_to(&mut bytes) == SUBMISSION_BYTES).then_some(Submission(bytes))
    }

    /// `N` bytes from `FROM` on. Both are constants within the entry, which is checked when this is compiled.
    fn bytes<const FROM: usize, const N: usize>(&self) -> [u8; N] {
        const { assert!(FROM + N <= SUBMISSION_BYTES) };
        std::array::from_fn(|i| self.0.get(FROM + i).copied().unwrap_or_default())
    }

    /// The opcode, byte 0.
    pub fn opcode(&self) -> u8 {
        let [opcode] = self.bytes::<0, 1>();
        opcode
    }

    /// Byte 1: fused operation in bits 1:0, PRP or SGL (PSDT) in bits 7:6.
    pub fn flags(&self) -> u8 {
        let [flags] = self.bytes::<1, 1>();
        flags
    }

    /// Whether the command is on its own and points to its data by PRPs.
    pub fn is_plain(&self) -> bool {
        self.flags() & 0xc3 == 0
    }

    /// The command identifier.
    pub fn command(&self) -> u16 {
        u16::from_le_bytes(self.bytes::<2, 2>())
    }

    /// The namespace identifier.
    pub fn namespace(&self) -> u32 {
        u32::from_le_bytes(self.bytes::<4, 4>())
    }

    /// PRP entry 1.
    pub fn prp1(&self) -> u64 {
        u64::from_le_bytes(self.bytes::<24, 8>())
    }

    /// PRP entry 2.
    pub fn prp2(&self) -> u64 {
        u64::from_le_bytes(self.bytes::<32, 8>())
    }

    /// Dwords 10 to 15, whose meaning is the command's.
    pub fn dwords(&self) -> [u32; 6] {
        let bytes = self.bytes::<40, 24>();
        let mut dwords = bytes
            .chunks_exact(4)
            .map(|dword| dword.iter().rev().fold(0, |n, byte| n << 8 | u32::from(*byte)));
        std::array::from_fn(|_| dwords.next().unwrap_or_default())
    }

    /// Whether the entry names blocks in a row: Read, Write, Compare and Write Zeroes.
    pub fn names_blocks(&self) -> bool {
        matches!(
            self.opcode(),
            opcode::READ | opcode::WRITE | opcode::COMPARE | opcode::WRITE_ZEROES
        )
    }

    /// The first of the blocks in a row (SLBA).
    pub fn first_block(&self) -> u64 {
        u64::from_le_bytes(self.bytes::<40, 8>())
    }

    /// How many blocks in a row: 1 to 65,536 (NLB + 1).
    pub fn blocks(&self) -> u32 {
        u32::from(u16::from_le_bytes(self.bytes::<48, 2>())) + 1
    }

    /// Force Unit Access, of commands that name blocks in a row: bit 30 of dword 12.
    pub fn is_forced(&self) -> bool {
        u32::from_le_bytes(self.bytes::<48, 4>()) & 1 << 30 != 0
    }

    /// Deallocate, of Write Zeroes: bit 25 of dword 12.
    pub fn wants_deallocation(&self) -> bool {
        u32::from_le_bytes(self.bytes::<48, 4>()) & 1 << 25 != 0
    }

    /// How many ranges Dataset Management has: 1 to 256 (NR + 1).
    pub fn ranges(&self) -> u32 {
        let [ranges] = self.bytes::<40, 1>();
        u32::from(ranges) + 1
    }

    /// Attribute Deallocate of Dataset Management: bit 2 of dword 11.
    pub fn deallocates(&self) -> bool {
        u32::from_le_bytes(self.bytes::<44, 4>()) & 1 << 2 != 0
    }
}

/// A completion entry without its phase tag. Dwords 0 and 1 are 0.
#[derive(Clone, Copy, Debug, PartialEq, Eq)]
pub struct Completion {
    /// How far the submission ring was taken over.
    pub head: u16,
    /// The submission queue.
    pub queue: u16,
    /// The command identifier.
    pub command: u16,
    /// How the command went.
    pub status: Status,
}

impl Completion {
    /// The entry's four dwords, with the phase tag.
    pub fn dwords(&self, phase: bool) -> [u32; 4] {
        let second = u32::from(self.head) | u32::from(self.queue) << 16;
        let last = u32::from(self.command) | (u32::from(self.status.bits()) << 1 | u32::from(phase)) << 16;
        [0, 0, second, last]
    }

    /// Writes the entry to the slot `at`: the first twelve bytes, then the dword with the phase tag by one release store, so that whoever finds the tag
    /// finds the rest, and the data that was written before. False where `at` is no aligned slot of 16 bytes.
    pub fn write(&self, at: &VolatileSlice<'_>, phase: bool) -> bool {
        let [first, second, third, last] = self.dwords(phase).map(u32::to_le);
        at.len() >= COMPLETION_BYTES
            && [(first, 0), (second, 4), (third, 8)]
                .into_iter()
                .all(|(dword, offset)| at.store(dword, offset, Ordering::Relaxed).is_ok())
            && at.store(last, 12, Ordering::Release).is_ok()
    }
}

#[cfg(test)]
mod tests {
    use super::*;

    #[test]
    fn fields_are_where_nvme_says() {
        let mut bytes = [0; SUBMISSION_BYTES];
        for (i, byte) in bytes.iter_mut().enumerate() {
            *byte = i as u8;
        }
        let entry = Submission::new(bytes);
        assert_eq!((entry.opcode(), entry.flags(), entry.command()), (0, 1, 0x0302));
        assert_eq!(entry.namespace(), 0x07060504);
        assert_eq!(entry.prp1(), 0x1f1e_1d1c_1b1a_1918);
        assert_eq!(entry.prp2(), 0x2726_2524_2322_2120);
        assert_eq!(entry.first_block(), 0x2f2e_2d2c_2b2a_2928);
        assert_eq!((entry.blocks(), entry.ranges()), (0x3131, 0x29));
        let dwords = [
            0x2b2a_2928,
            0x2f2e_2d2c,
            0x3332_3130,
            0x3736_3534,
            0x3b3a_3938,
            0x3f3e_3d3c,
        ];
        assert_eq!(entry.dwords(), dwords);
        assert!(!entry.is_plain() && entry.deallocates() && !entry.is_forced());
        bytes[51] = 0x40;
        bytes[44] = 0xfb;
        bytes[1] = 0x3c;
        let entry = Submission::new(bytes);
        assert!(entry.is_plain() && !entry.deallocates() && entry.is_forced());
        assert!(!entry.names_blocks());
        for opcode in [1, 2, 5, 8] {
            bytes[0] = opcode;
            assert!(Submission::new(bytes).names_blocks());
        }
    }

    #[test]
    fn an_entry_is_fetched_whole_or_not() {
        let mut memory = [7; 70];
        assert_eq!(
            Submission::fetch(&VolatileSlice::from(&mut memory[..])),
            Some(Submission::new([7; 64]))
        );
        assert_eq!(Submission::fetch(&VolatileSlice::from(&mut memory[..63])), None);
    }

    #[test]
    fn a_completion_has_its_tag_in_bit_112() {
        let mut memory = [u64::MAX; 3];
        let completion = Completion {
            head: 0x1234,
            queue: 0x5678,
            command: 0x9abc,
            status: Status::COMPARE_FAILURE,
        };
        let bytes = vm_memory::ByteValued::as_mut_slice(&mut memory[0]);
        assert!(!completion.write(&VolatileSlice::from(bytes), true));
        let mut words = [u32::MAX; 8];
        let all = words.iter_mut().flat_map(|word| word.to_ne_bytes()).collect::<Vec<_>>();
        assert_eq!(all.len(), 32);
        let mut aligned = [0u128; 2];
        let slice = VolatileSlice::from(vm_memory::ByteValued::as_mut_slice(&mut aligned[0]));
        assert!(completion.write(&slice, true));
        let expected = u128::from(0x5678_1234u32) << 64 | u128::from(0x050b_9abcu32) << 96;
        assert_eq!(u128::from_le(aligned[0]), expected);
        let slice = VolatileSlice::from(vm_memory::ByteValued::as_mut_slice(&mut aligned[0]));
        assert!(completion.write(&slice, false));
        assert_eq!(u128::from_le(aligned[0]), expected & !(1 << 112));
        assert!(Status::from_bits(0xffff).bits() == 0x7fff && Status::GOOD.is_good() && !Status::READ_ERROR.is_good());
    }
}
