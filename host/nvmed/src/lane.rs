#![forbid(unsafe_code)]
//! The drive's side of a lane, for a drive that this process simulates.

use crate::event::{Scope, WorkEnd};
use crate::{Error, Mappings, Mediator, Rings};
use std::sync::atomic::Ordering;
use vm_memory::bitmap::Bitmap;
use vm_memory::Bytes;

/// Bytes of an entry of a submission ring, and of one of a completion ring (NVMe Base, "Queue Entry Size").
const ENTRY_BYTES: u64 = 64;
const COMPLETION_BYTES: u64 = 16;
/// Where the last dword of a completion lies: identifier, phase tag and status.
const LAST_DWORD: usize = 12;
/// Events of one call of the mediator.
const EVENTS: u64 = 64;

/// An entry of a submission ring, as it was read once.
#[derive(Debug, Clone, Copy, PartialEq, Eq)]
pub struct Entry(pub [u32; 16]);

impl Entry {
    /// The opcode.
    pub fn opcode(&self) -> u8 {
        self.0[0] as u8
    }

    /// The identifier of the command.
    pub fn identifier(&self) -> u16 {
        (self.0[0] >> 16) as u16
    }

    /// The first of the two places of data: a host address.
    pub fn prp1(&self) -> u64 {
        u64::from(self.0[6]) | u64::from(self.0[7]) << 32
    }

    /// The second one, or that of a list of places.
    pub fn prp2(&self) -> u64 {
        u64::from(self.0[8]) | u64::from(self.0[9]) << 32
    }

    /// Of a command that moves blocks: the number of the first one.
    pub fn first_block(&self) -> u64 {
        u64::from(self.0[10]) | u64::from(self.0[11]) << 32
    }

    /// Of a command that moves blocks: how many.
    pub fn blocks(&self) -> u32 {
        (self.0[12] & 0xffff) + 1
    }
}

/// How far a drive is in a lane's rings.
#[derive(Debug, Clone)]
pub struct DriveLane {
    number: u32,
    /// The next place of the submission ring that is read. A completion is written for each command at once, so that it is the completion ring's, too.
    place: u32,
    phase: u32,
}

impl DriveLane {
    /// The drive's side of the lane of that number, before the first command.
    pub fn new(number: u32) -> Self {
        DriveLane {
            number,
            place: 0,
            phase: 1,
        }
    }

    /// Carries out what the mediator has put into the lane's rings: `carry_out` is given each entry, and says the status, of 15 bits and without a phase tag.
    /// How many there were.
    ///
    /// # Errors
    ///
    /// [`Error::NoSuch`] where there is no such lane, and [`Error::NotThere`] where the rings are no memory, which those of a mediator are.
    pub fn serve<B: Bitmap + Send + Sync + 'static>(
        &mut self,
        mediator: &mut Mediator<Mappings<B>>,
        mut carry_out: impl FnMut(&Mappings<B>, &Entry) -> u16,
    ) -> Result<u32, Error> {
        let rings = mediator.rings(self.number)?;
        let memory = mediator.memory();
        let mut served = 0;
        while self.place != rings.tail {
            let entry = read_entry(memory, &rings, self.place)?;
            let status = u32::from(carry_out(memory, &entry));
            self.complete(memory, &rings, u32::from(entry.identifier()), status)?;
            served += 1;
        }
        Ok(served)
    }

    /// Writes a completion, its phase tag last, and goes on to the next place.
    fn complete<B: Bitmap + Send + Sync + 'static>(
        &mut self,
        memory: &Mappings<B>,
        rings: &Rings,
        identifier: u32,
        status: u32,
    ) -> Result<(), Error> {
        let host = rings.completion + COMPLETION_BYTES * u64::from(self.place);
        let not_there = Error::NotThere {
            host,
            bytes: COMPLETION_BYTES,
        };
        let slice = memory.slice(host, COMPLETION_BYTES as usize).ok_or(not_there)?;
        let head = (self.place + 1) % rings.entries;
        let first = [0, 0, head | (self.number + 1) << 16];
        let last = identifier | self.phase << 16 | status << 17;
        slice.write_obj(first, 0).map_err(|_| not_there)?;
        slice
            .store(last, LAST_DWORD, Ordering::Release)
            .map_err(|_| not_there)?;
        self.place = head;
        self.phase ^= u32::from(head == 0);
        Ok(())
    }
}

fn read_entry<B: Bitmap + Send + Sync + 'static>(
    memory: &Mappings<B>,
    rings: &Rings,
    place: u32,
) -> Result<Entry, Error> {
    let host = rings.submission + ENTRY_BYTES * u64::from(place);
    let not_there = Error::NotThere {
        host,
        bytes: ENTRY_BYTES,
    };
    let slice = memory.slice(host, ENTRY_BYTES as usize).ok_or(not_there)?;
    slice.read_obj(0).map(Entry).map_err(|_| not_there)
}

impl<B: Bitmap + Send + Sync + 'static> Mediator<Mappings<B>> {
    /// Does what is due, and lets a drive that this process simulates carry out what it is given by `lane`, until nothing is left to be done: see
    /// [`DriveLane::serve`]. It is for hosts of one lane that have nothing else to do meanwhile.
    ///
    /// # Errors
    ///
    /// [`Error::NoMemory`] where the library has none for what is due, [`Error::Stray`] where the drive completed what it was not given, and as of
    /// [`DriveLane::serve`].
    pub fn pump(
        &mut self,
        lane: &mut DriveLane,
        mut carry_out: impl FnMut(&Mappings<B>, &Entry) -> u16,
    ) -> Result<(), Error> {
        loop {
            let work = self.work(Scope::All, EVENTS);
            match work.end {
                WorkEnd::Done => {}
                WorkEnd::OutOfMemory => return Err(Error::NoMemory),
                WorkEnd::Stray => return Err(Error::Stray),
            }
            if lane.serve(self, &mut carry_out)? == 0 && work.done == 0 {
                return Ok(());
            }
        }
    }
}

#[cfg(test)]
mod tests {
    use super::*;

    #[test]
    fn fields_of_an_entry() {
        let mut words = [0; 16];
        for (word, value) in words.iter_mut().zip(1u32..) {
            *word = value << 24 | 0x00ab_cd00 | value;
        }
        let entry = Entry(words);
        assert_eq!((entry.opcode(), entry.identifier()), (1, 0x01ab));
        assert_eq!(entry.prp1(), 0x08ab_cd08_07ab_cd07);
        assert_eq!(entry.prp2(), 0x0aab_cd0a_09ab_cd09);
        assert_eq!(entry.first_block(), 0x0cab_cd0c_0bab_cd0b);
        assert_eq!(entry.blocks(), 0xcd0e);
    }
}
