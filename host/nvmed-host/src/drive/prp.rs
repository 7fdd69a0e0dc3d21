#![forbid(unsafe_code)]
//! The places that the data pointer of a command names, by physical region pages (NVM Express Base Specification, "Physical Region Page Entry and List").
//!
//! Addresses are host addresses of the window. Each entry of a list is read once, and nothing is written here.

use vm_memory::VolatileSlice;

/// Bytes of a page of memory.
pub const PAGE_BYTES: u64 = 4096;
/// Bytes that a command may move: 128 KiB.
pub const MOST_BYTES: u32 = 131_072;
/// Places of a data pointer at most: pages that so many bytes may touch.
pub const MOST_PLACES: usize = 33;
/// Places that are kept without memory of their own: those of 16 KiB, wherever they begin.
pub const FEW_PLACES: usize = 5;
/// Bytes of an entry of a list.
const ENTRY_BYTES: usize = 8;

/// Memory that others read and write, too, by host address: the window, or what stands for it in tests.
pub trait SharedMemory: Send + Sync {
    /// The `len` bytes from host address `host` on, or `None` where not all of them have memory, or where `len` is 0.
    fn slice(&self, host: u64, len: usize) -> Option<VolatileSlice<'_>>;
}

/// Why a data pointer is refused.
#[derive(Clone, Copy, Debug, PartialEq, Eq, thiserror::Error)]
pub enum PrpError {
    /// An entry has an offset that it may not have.
    #[error("a PRP entry has an offset that it may not have")]
    Offset,
    /// An address is not in the window, or the transfer is empty or too long.
    #[error("a PRP entry names an address that has no memory")]
    Outside,
}

/// Bytes in a row, within one page.
#[derive(Clone, Copy, Debug, Default, PartialEq, Eq)]
pub struct Place {
    /// Host address of the first byte.
    pub host: u64,
    /// How many: 1 to 4,096.
    pub bytes: u32,
}

/// The places of a data pointer, in order: at most 33.
#[derive(Clone, Debug)]
pub struct Places {
    first: [Place; FEW_PLACES],
    /// How many of these there are.
    count: usize,
    /// Those after them.
    more: Vec<Place>,
    bytes: u32,
}

impl Places {
    /// Finds the places of `bytes` bytes, 1 to 131,072.
    ///
    /// # Errors
    ///
    /// [`PrpError`] as the first entry that is wrong says.
    pub fn find<M: SharedMemory + ?Sized>(memory: &M, prp1: u64, prp2: u64, bytes: u32) -> Result<Places, PrpError> {
        if bytes == 0 || bytes > MOST_BYTES {
            return Err(PrpError::Outside);
        }
        if prp1 % 4 != 0 {
            return Err(PrpError::Offset);
        }
        let mut places = Places {
            first: [Place::default(); FEW_PLACES],
            count: 0,
            more: Vec::new(),
            bytes: 0,
        };
        places.add(memory, prp1, bytes)?;
        match u64::from(bytes - places.bytes) {
            0 => {}
            left if left > PAGE_BYTES => {
                if prp2 % ENTRY_BYTES as u64 != 0 {
                    return Err(PrpError::Offset);
                }
                places.add_list(memory, prp2, bytes)?;
            }
            _ => {
                if prp2 % PAGE_BYTES != 0 {
                    return Err(PrpError::Offset);
                }
                places.add(memory, prp2, bytes)?;
            }
        }
        Ok(places)
    }

    /// The places.
    pub fn all(&self) -> impl Iterator<Item = &Place> {
        self.first.iter().take(self.count).chain(&self.more)
    }

    /// Whether there are few: [`FEW_PLACES`] at most.
    pub fn are_few(&self) -> bool {
        self.more.is_empty()
    }

    /// The bytes of all places.
    pub fn bytes(&self) -> u32 {
        self.bytes
    }

    /// The parts of the places that have the bytes from `from` on, at most `bytes` of them, in order.
    pub fn part(&self, from: u32, bytes: u32) -> impl Iterator<Item = Place> + '_ {
        let (mut skip, mut left) = (from, bytes);
        self.all().filter_map(move |place| {
            let skipped = skip.min(place.bytes);
            skip -= skipped;
            let taken = (place.bytes - skipped).min(left);
            left -= taken;
            (taken > 0).then_some(Place {
                host: place.host + u64::from(skipped),
                bytes: taken,
            })
        })
    }

    /// Adds what lies from `address` to the end of its page, as far as it is needed for `bytes` bytes in all.
    fn add<M: SharedMemory + ?Sized>(&mut self, memory: &M, address: u64, bytes: u32) -> Result<(), PrpError> {
        let room = (PAGE_BYTES - address % PAGE_BYTES) as u32;
        let length = room.min(bytes - self.bytes);
        memory.slice(address, length as usize).ok_or(PrpError::Outside)?;
        let place = Place {
            host: address,
            bytes: length,
        };
        match self.first.get_mut(self.count) {
            Some(free) => {
                *free = place;
                self.count += 1;
            }
            None if self.more.len() < MOST_PLACES - FEW_PLACES => self.more.push(place),
            None => return Err(PrpError::Outside),
        }
        self.bytes += length;
        Ok(())
    }

    /// Adds the pages after the first, from a list. The last entry of a page of the list names the next page of it, where more than one page of data is
    /// still to come. A list of 128 KiB ends on its second page at the latest: where the first holds one entry alone, that one names the second.
    fn add_list<M: SharedMemory + ?Sized>(&mut self, memory: &M, list: u64, bytes: u32) -> Result<(), PrpError> {
        let mut list = list;
        while self.bytes < bytes {
            let wanted = (bytes - self.bytes).div_ceil(PAGE_BYTES as u32) as usize;
            let room = (PAGE_BYTES - list % PAGE_BYTES) as usize / ENTRY_BYTES;
            let mut entries = [0; MOST_PLACES * ENTRY_BYTES];
            let read = entries
                .get_mut(..wanted.min(room) * ENTRY_BYTES)
                .ok_or(PrpError::Outside)?;
            memory.slice(list, read.len()).ok_or(PrpError::Outside)?.copy_to(read);
            let mut addresses = read.chunks_exact(ENTRY_BYTES).map(address_of);
            let next = if wanted > room { addresses.next_back() } else { None };
            for address in addresses {
                if address % PAGE_BYTES != 0 {
                    return Err(PrpError::Offset);
                }
                self.add(memory, address, bytes)?;
            }
            match next {
                Some(next) if next % PAGE_BYTES != 0 => return Err(PrpError::Offset),
                Some(next) => list = next,
                None => {}
            }
        }
        Ok(())
    }
}

fn address_of(entry: &[u8]) -> u64 {
    entry.iter().rev().fold(0, |value, byte| value << 8 | u64::from(*byte))
}

#[cfg(test)]
mod tests {
    use super::*;

    struct All;

    impl SharedMemory for All {
        fn slice(&self, _: u64, len: usize) -> Option<VolatileSlice<'_>> {
            // Bytes that nobody looks at: there are only transfers of one or two pages here.
            Some(VolatileSlice::from(Box::leak(vec![0u8; len].into_boxed_slice())))
        }
    }

    #[test]
    fn parts_are_cut_at_any_byte() {
        let places = Places::find(&All, 0x1f00, 0x5000, 0x300).expect("places");
        let parts = |from, bytes| {
            places
                .part(from, bytes)
                .map(|place| (place.host, place.bytes))
                .collect::<Vec<_>>()
        };
        assert_eq!(places.bytes(), 0x300);
        assert_eq!(parts(0, 0x300), [(0x1f00, 0x100), (0x5000, 0x200)]);
        assert_eq!(parts(0, 0x100), [(0x1f00, 0x100)]);
        assert_eq!(parts(0x80, 0x100), [(0x1f80, 0x80), (0x5000, 0x80)]);
        assert_eq!(parts(0x100, 0x1000), [(0x5000, 0x200)]);
        assert_eq!(parts(0x2ff, 5), [(0x51ff, 1)]);
        assert_eq!(parts(0x300, 5), []);
        assert_eq!(parts(0, 0), []);
    }

    #[test]
    fn lengths_are_checked() {
        assert_eq!(Places::find(&All, 0, 0, 0).err(), Some(PrpError::Outside));
        assert_eq!(Places::find(&All, 0, 0, MOST_BYTES + 1).err(), Some(PrpError::Outside));
        assert_eq!(Places::find(&All, 0, 0, u32::MAX).err(), Some(PrpError::Outside));
        assert!(Places::find(&All, 0x8000, 0, PAGE_BYTES as u32).is_ok());
    }
}
