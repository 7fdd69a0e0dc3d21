#![forbid(unsafe_code)]
//! From a submission entry to what is to be done, with every field checked before the first byte is moved (NVM Command Set Specification, "NVM Command Set
//! Commands").

use vm_memory::VolatileSlice;

use super::entry::{opcode, Status, Submission, ALL_NAMESPACES, BLOCK_BYTES, MOST_BLOCKS, NAMESPACE, RANGE_BYTES};
use super::prp::{Places, PrpError, SharedMemory};

/// Which way a transfer goes.
#[derive(Clone, Copy, Debug, PartialEq, Eq)]
pub enum Kind {
    /// From the drive into memory.
    Read,
    /// From memory onto the drive.
    Write,
    /// Bytes in memory are compared with those on the drive.
    Compare,
}

/// A Read, Write or Compare.
#[derive(Clone, Debug)]
pub struct Transfer {
    /// Which way.
    pub kind: Kind,
    /// The drive's first byte.
    pub offset: u64,
    /// Where the bytes are in memory.
    pub places: Places,
    /// How many bytes were moved.
    pub done: u32,
    /// Whether the blocks are durable before the completion is there (Force Unit Access).
    pub forced: bool,
}

impl Transfer {
    /// Whether it changes blocks.
    pub fn changes(&self) -> bool {
        self.kind == Kind::Write
    }
}

/// Bytes of the drive in a row.
#[derive(Clone, Copy, Debug, PartialEq, Eq)]
pub struct Extent {
    /// The first.
    pub from: u64,
    /// The first after it that does not belong to it.
    pub to: u64,
}

/// A Write Zeroes, or a Dataset Management that deallocates: deallocated blocks read as zeros.
#[derive(Clone, Debug)]
pub struct Clearing {
    /// What is still to be made zero: no two meet, the last comes first.
    pub left: Vec<Extent>,
    /// Of the last of these the bytes before this one are known to be data, which is to be made zero.
    pub data_to: u64,
    /// Whether the zeros are durable before the completion is there (Force Unit Access).
    pub forced: bool,
    /// Whether the blocks' room is given back: the command deallocates.
    pub gives_back: bool,
}

impl Clearing {
    /// Takes the next bytes away, which are zero now: `bytes` of the last extent at most. Whether nothing is left.
    pub fn advance(&mut self, bytes: u64) -> bool {
        if let Some(extent) = self.left.last_mut() {
            extent.from += bytes.min(extent.to - extent.from);
            if extent.from == extent.to {
                self.left.pop();
            }
        }
        self.left.is_empty()
    }
}

/// What is to be done.
#[derive(Clone, Debug)]
pub enum Step {
    /// To move bytes.
    Transfer(Transfer),
    /// To make blocks zero.
    Clear(Clearing),
    /// To make durable what was written.
    Sync,
}

impl Step {
    /// Checks an entry, and reads its lists from memory, each byte once. `None` is a command with which nothing is to be done.
    ///
    /// # Errors
    ///
    /// The status with which the command is refused.
    pub fn of<M: SharedMemory + ?Sized>(entry: &Submission, memory: &M, blocks: u64) -> Result<Option<Step>, Status> {
        check(entry)?;
        match entry.opcode() {
            opcode::READ => transfer(Kind::Read, entry, memory, blocks).map(Some),
            opcode::WRITE => transfer(Kind::Write, entry, memory, blocks).map(Some),
            opcode::COMPARE => transfer(Kind::Compare, entry, memory, blocks).map(Some),
            opcode::WRITE_ZEROES => {
                let extent = extent(entry.first_block(), u64::from(entry.blocks()), blocks)?;
                Ok(Some(Step::Clear(Clearing {
                    left: vec![extent],
                    data_to: 0,
                    forced: entry.is_forced(),
                    gives_back: entry.wants_deallocation(),
                })))
            }
            opcode::DATASET_MANAGEMENT => {
                let clearing = Dataset::of(entry, memory)?.clearing(blocks)?;
                Ok(clearing.map(Step::Clear))
            }
            opcode::FLUSH => Ok(Some(Step::Sync)),
            _ => Err(Status::INVALID_OPCODE),
        }
    }

    /// Whether it is Force Unit Access.
    pub fn is_forced(&self) -> bool {
        match self {
            Step::Transfer(transfer) => transfer.forced,
            Step::Clear(clearing) => clearing.forced,
            Step::Sync => false,
        }
    }

    /// Whether it changes blocks.
    pub fn changes(&self) -> bool {
        match self {
            Step::Transfer(transfer) => transfer.changes(),
            Step::Clear(_) => true,
            Step::Sync => false,
        }
    }
}

/// Checks what all commands have: that it is on its own, points to data by PRPs, and names the namespace; a Flush may name all of them.
///
/// # Errors
///
/// The status with which the command is refused.
pub fn check(entry: &Submission) -> Result<(), Status> {
    if !entry.is_plain() {
        return Err(Status::INVALID_FIELD);
    }
    let is_flush = entry.opcode() == opcode::FLUSH;
    if entry.namespace() != NAMESPACE && !(is_flush && entry.namespace() == ALL_NAMESPACES) {
        return Err(Status::INVALID_NAMESPACE);
    }
    Ok(())
}

/// The bytes of blocks in a row, where the drive has all of them.
fn extent(first: u64, count: u64, blocks: u64) -> Result<Extent, Status> {
    let end = first
        .checked_add(count)
        .filter(|end| *end <= blocks)
        .ok_or(Status::OUT_OF_RANGE)?;
    let bytes = |block: u64| block.checked_mul(BLOCK_BYTES).ok_or(Status::OUT_OF_RANGE);
    Ok(Extent {
        from: bytes(first)?,
        to: bytes(end)?,
    })
}

fn places<M: SharedMemory + ?Sized>(entry: &Submission, memory: &M, bytes: u32) -> Result<Places, Status> {
    Places::find(memory, entry.prp1(), entry.prp2(), bytes).map_err(|error| match error {
        PrpError::Offset => Status::PRP_OFFSET_INVALID,
        PrpError::Outside => Status::TRANSFER_ERROR,
    })
}

fn transfer<M: SharedMemory + ?Sized>(kind: Kind, entry: &Submission, memory: &M, blocks: u64) -> Result<Step, Status> {
    if entry.blocks() > MOST_BLOCKS {
        return Err(Status::INVALID_FIELD);
    }
    let extent = extent(entry.first_block(), u64::from(entry.blocks()), blocks)?;
    let places = places(entry, memory, entry.blocks() * BLOCK_BYTES as u32)?;
    Ok(Step::Transfer(Transfer {
        kind,
        offset: extent.from,
        places,
        done: 0,
        forced: entry.is_forced(),
    }))
}

/// A Dataset Management: up to 256 ranges, each read once.
#[derive(Clone, Debug)]
pub struct Dataset {
    /// Where its list is.
    pub places: Places,
    /// Whether it deallocates what it names. Else it only advises.
    pub deallocates: bool,
    /// The first block and the blocks of each range.
    ranges: Vec<(u64, u32)>,
}

impl Dataset {
    /// Reads the list of such an entry.
    ///
    /// # Errors
    ///
    /// The status with which the command is refused.
    pub fn of<M: SharedMemory + ?Sized>(entry: &Submission, memory: &M) -> Result<Dataset, Status> {
        let bytes = entry.ranges() * RANGE_BYTES as u32;
        let places = places(entry, memory, bytes)?;
        let mut list = Vec::with_capacity(bytes as usize);
        for place in places.all() {
            let slice = memory
                .slice(place.host, place.bytes as usize)
                .ok_or(Status::TRANSFER_ERROR)?;
            list.extend_from_slice(&copied(&slice));
        }
        let number = |bytes: &[u8]| bytes.iter().rev().fold(0, |n, byte| n << 8 | u64::from(*byte));
        let ranges = list.chunks_exact(RANGE_BYTES).map(|range| {
            let (first, blocks) = (range.get(8..16), range.get(4..8));
            (
                number(first.unwrap_or_default()),
                number(blocks.unwrap_or_default()) as u32,
            )
        });
        Ok(Dataset {
            ranges: ranges.collect(),
            places,
            deallocates: entry.deallocates(),
        })
    }

    /// The blocks of each range.
    pub fn lengths(&self) -> impl Iterator<Item = u32> + '_ {
        self.ranges.iter().map(|(_, blocks)| *blocks)
    }

    /// What is made zero of a drive with so many blocks, where it deallocates any.
    ///
    /// # Errors
    ///
    /// The status with which the command is refused.
    pub fn clearing(&self, blocks: u64) -> Result<Option<Clearing>, Status> {
        if !self.deallocates {
            return Ok(None);
        }
        let extents = self
            .ranges
            .iter()
            .map(|(first, count)| extent(*first, u64::from(*count), blocks));
        let left = merged(extents.collect::<Result<Vec<_>, _>>()?);
        Ok((!left.is_empty()).then_some(Clearing {
            left,
            data_to: 0,
            forced: false,
            gives_back: true,
        }))
    }
}

fn copied(slice: &VolatileSlice<'_>) -> Vec<u8> {
    let mut bytes = vec![0; slice.len()];
    slice.copy_to(&mut bytes);
    bytes
}

/// The same bytes by extents that do not meet or touch, none of them empty, the last first.
pub fn merged(mut extents: Vec<Extent>) -> Vec<Extent> {
    extents.retain(|extent| extent.from < extent.to);
    extents.sort_unstable_by_key(|extent| extent.from);
    let mut merged: Vec<Extent> = Vec::with_capacity(extents.len());
    for extent in extents {
        match merged.last_mut() {
            Some(last) if extent.from <= last.to => last.to = last.to.max(extent.to),
            _ => merged.push(extent),
        }
    }
    merged.reverse();
    merged
}
