#![allow(unsafe_code)]
//! Bytes in this process's memory, which end with it. Pages have memory once they are written, and lose it when they are made zero.

use std::io;
use std::sync::atomic::{AtomicU16, Ordering};

use vm_memory::mmap::MmapRegion;
use vm_memory::{VolatileMemory, VolatileSlice};

use super::{Store, Wait};

/// Bytes of a chunk, of which a begin is known to have no memory.
const CHUNK: u64 = 1 << 21;
/// Bytes of a page.
const PAGE: u64 = 4096;
/// Chunks that one search for data looks at, at most: some hundred microseconds.
const MOST_LOOKED_AT: u64 = 1 << 16;
/// Zeros, for places whose bytes were never written.
static ZEROS: [u8; PAGE as usize] = [0; PAGE as usize];

/// A store in memory.
pub struct MemoryStore {
    region: MmapRegion,
    /// For each chunk how many of its last pages may have memory: those before them have none, and are zero.
    used: Vec<AtomicU16>,
}

impl MemoryStore {
    /// So many zeros. They have no memory of their own yet.
    ///
    /// # Errors
    ///
    /// Where this process has no addresses for them.
    pub fn new(bytes: u64) -> io::Result<MemoryStore> {
        let length = usize::try_from(bytes).map_err(io::Error::other)?;
        let about = std::fs::read_to_string("/proc/meminfo").unwrap_or_default();
        if let Some(free) = available(&about).filter(|free| *free < bytes) {
            tracing::warn!("the drive may come to need {bytes} bytes of memory, and {free} are free: the system may end this program then");
        }
        let region = MmapRegion::new(length).map_err(io::Error::other)?;
        let used = (0..bytes.div_ceil(CHUNK)).map(|_| AtomicU16::new(0)).collect();
        Ok(MemoryStore { region, used })
    }

    fn slice(&self, offset: u64, bytes: usize) -> io::Result<VolatileSlice<'_>> {
        let offset = usize::try_from(offset).map_err(io::Error::other)?;
        self.region.get_slice(offset, bytes).map_err(io::Error::other)
    }

    /// The first byte of the chunk of `offset` that may have memory; the chunk's end where there is none.
    fn begin_of_used(&self, offset: u64) -> u64 {
        let used = self
            .used
            .get((offset / CHUNK) as usize)
            .map_or(0, |used| used.load(Ordering::Relaxed));
        end_of_chunk(offset) - u64::from(used) * PAGE
    }

    /// The chunk of `offset` may have memory from there on.
    fn use_from(&self, offset: u64) {
        if let Some(used) = self.used.get((offset / CHUNK) as usize) {
            used.fetch_max((end_of_chunk(offset) - offset).div_ceil(PAGE) as u16, Ordering::Relaxed);
        }
    }

    /// Calls `each` with the parts of `places`, cut where chunks end, and the offset of each.
    fn by_chunk<'a>(
        offset: u64,
        places: &[VolatileSlice<'a>],
        mut each: impl FnMut(u64, VolatileSlice<'a>) -> io::Result<()>,
    ) -> io::Result<()> {
        let mut at = offset;
        for place in places {
            let mut rest = *place;
            while !rest.is_empty() {
                let length = (CHUNK - at % CHUNK).min(rest.len() as u64);
                let (part, after) = rest.split_at(length as usize).map_err(io::Error::other)?;
                each(at, part)?;
                at += length;
                rest = after;
            }
        }
        Ok(())
    }

    /// Makes bytes of one chunk zero: whole pages lose their memory.
    fn zero_part(&self, offset: u64, bytes: u64) -> io::Result<()> {
        let end = offset + bytes;
        let first_page = offset.next_multiple_of(PAGE).min(end);
        let last_page = (end - end % PAGE).max(first_page);
        for (from, to) in [(offset, first_page), (last_page, end)] {
            if from < to {
                self.slice(from, (to - from) as usize)?.copy_from(&ZEROS);
            }
        }
        if first_page < last_page {
            drop_pages(&self.slice(first_page, (last_page - first_page) as usize)?)?;
            if (first_page..last_page).contains(&self.begin_of_used(offset)) {
                if let Some(used) = self.used.get((offset / CHUNK) as usize) {
                    used.store(((end_of_chunk(offset) - last_page) / PAGE) as u16, Ordering::Relaxed);
                }
            }
        }
        Ok(())
    }
}

/// Bytes of memory that the system has left, as `/proc/meminfo` says it.
fn available(about: &str) -> Option<u64> {
    let line = about.lines().find_map(|line| line.strip_prefix("MemAvailable:"))?;
    line.trim()
        .strip_suffix(" kB")?
        .trim()
        .parse::<u64>()
        .ok()?
        .checked_mul(1024)
}

/// The first byte after the chunk of `offset`.
fn end_of_chunk(offset: u64) -> u64 {
    offset - offset % CHUNK + CHUNK
}

/// Takes the memory of whole pages away: they read as zeros.
fn drop_pages(pages: &VolatileSlice<'_>) -> io::Result<()> {
    let guard = pages.ptr_guard_mut();
    // SAFETY: the pages are a part of a private anonymous mapping of this store's, which is there as long as the slice that borrows from it. Their bytes
    // become zero, which is a write as others by volatile access: no reference to them exists anywhere.
    let status = unsafe { libc::madvise(guard.as_ptr().cast(), pages.len(), libc::MADV_DONTNEED) };
    if status == 0 {
        Ok(())
    } else {
        Err(io::Error::last_os_error())
    }
}

impl Store for MemoryStore {
    fn waits(&self) -> bool {
        false
    }

    fn read(&self, offset: u64, places: &[VolatileSlice<'_>], _: Wait) -> io::Result<()> {
        Self::by_chunk(offset, places, |at, part| {
            if at + part.len() as u64 <= self.begin_of_used(at) {
                clear(&part);
            } else {
                self.slice(at, part.len())?.copy_to_volatile_slice(part);
            }
            Ok(())
        })
    }

    fn write(&self, offset: u64, places: &[VolatileSlice<'_>], _: Wait) -> io::Result<()> {
        Self::by_chunk(offset, places, |at, part| {
            self.use_from(at);
            part.copy_to_volatile_slice(self.slice(at, part.len())?);
            Ok(())
        })
    }

    fn zero(&self, offset: u64, bytes: u64, _: bool) -> io::Result<()> {
        let end = offset + bytes;
        let mut at = self.next_data(offset, end);
        while at < end {
            let length = (CHUNK - at % CHUNK).min(end - at);
            self.zero_part(at, length)?;
            at = self.next_data(at + length, end);
        }
        Ok(())
    }

    fn next_data(&self, offset: u64, end: u64) -> u64 {
        let mut at = offset;
        for _ in 0..MOST_LOOKED_AT {
            at = at.max(self.begin_of_used(at));
            if at >= end || at % CHUNK != 0 || self.begin_of_used(at) == at {
                break;
            }
        }
        at.min(end)
    }

    fn sync(&self) -> io::Result<()> {
        Ok(())
    }

    fn write_durably(&self, offset: u64, places: &[VolatileSlice<'_>]) -> io::Result<()> {
        self.write(offset, places, Wait::Allowed)
    }

    fn check(&self) -> Result<(), String> {
        Ok(())
    }

    fn describe(&self) -> &str {
        "in memory"
    }
}

fn clear(place: &VolatileSlice<'_>) {
    let mut rest = *place;
    while let Ok((part, after)) = rest.split_at(rest.len().min(ZEROS.len())) {
        part.copy_from(&ZEROS);
        if after.is_empty() {
            return;
        }
        rest = after;
    }
}

#[cfg(test)]
mod tests {
    use super::*;

    fn slices<'a>(buffer: &'a mut [u8]) -> [VolatileSlice<'a>; 1] {
        [VolatileSlice::from(buffer)]
    }

    fn content(store: &MemoryStore, offset: u64, bytes: usize) -> Vec<u8> {
        let mut buffer = vec![0xee; bytes];
        store.read(offset, &slices(&mut buffer), Wait::Never).expect("in range");
        buffer
    }

    #[test]
    fn what_was_not_written_is_zero_and_has_no_data() {
        let store = MemoryStore::new(300 * CHUNK).expect("addresses");
        assert_eq!(store.next_data(0, 300 * CHUNK), 300 * CHUNK);
        store
            .write(130 * CHUNK - 512, &slices(&mut [7; 1024]), Wait::Never)
            .expect("in range");
        assert_eq!(store.next_data(0, 300 * CHUNK), 130 * CHUNK - PAGE);
        assert_eq!(store.next_data(130 * CHUNK + 5, 300 * CHUNK), 130 * CHUNK + 5);
        assert_eq!(store.next_data(131 * CHUNK, 300 * CHUNK), 300 * CHUNK);
        assert_eq!(store.next_data(5, 100), 100);
        let seen = content(&store, 130 * CHUNK - 1024, 2048);
        assert!(seen[..512].iter().chain(&seen[1536..]).all(|byte| *byte == 0));
        assert!(seen[512..1536].iter().all(|byte| *byte == 7));
        assert!(content(&store, 200 * CHUNK, 9000).iter().all(|byte| *byte == 0));
    }

    #[test]
    fn zeroing_takes_what_it_names_and_gives_memory_back() {
        let store = MemoryStore::new(4 * CHUNK).expect("addresses");
        let all = vec![9; 4 * CHUNK as usize];
        store
            .write(0, &slices(&mut all.clone()), Wait::Never)
            .expect("in range");
        store.zero(512, 3 * CHUNK, true).expect("in range");
        let seen = content(&store, 0, all.len());
        for (i, byte) in seen.iter().enumerate() {
            assert_eq!(
                *byte,
                if (512..512 + 3 * CHUNK as usize).contains(&i) {
                    0
                } else {
                    9
                },
                "byte {i}"
            );
        }
        assert_eq!(store.next_data(CHUNK, 4 * CHUNK), 3 * CHUNK);
        store.zero(0, 4 * CHUNK, true).expect("in range");
        assert_eq!(store.next_data(0, 4 * CHUNK), 4 * CHUNK);
        assert!(store.sync().is_ok() && store.check().is_ok() && !store.waits());
    }

    /// Random writes and zeros against bytes in a vector: what is read is the same, and where there is no data are zeros.
    #[test]
    fn it_is_as_a_row_of_bytes() {
        let bytes = 2 * CHUNK + 5 * 512;
        let store = MemoryStore::new(bytes).expect("addresses");
        let mut model = vec![0; bytes as usize];
        let mut state = 7u64;
        let mut random = |below: u64| {
            state = state.wrapping_mul(6_364_136_223_846_793_005).wrapping_add(1);
            (state >> 33) % below
        };
        let zeros = vec![0; bytes as usize];
        for round in 0..2000u64 {
            let at = random(bytes / 512) * 512;
            let length = (random(if round % 9 == 0 { 5000 } else { 40 }) + 1).min((bytes - at) / 512) * 512;
            let range = at as usize..(at + length) as usize;
            if round % 3 == 0 {
                store.zero(at, length, true).expect("in range");
                model[range].fill(0);
            } else {
                let length = length.min(20 * 512);
                let mut data = vec![round as u8 | 1; length as usize];
                store.write(at, &slices(&mut data), Wait::Never).expect("in range");
                model[at as usize..(at + length) as usize].copy_from_slice(&data);
            }
            let from = random(bytes / 512) * 512;
            let data = store.next_data(from, bytes);
            assert!((from..=bytes).contains(&data));
            let without = from as usize..data as usize;
            assert!(model[without.clone()] == zeros[without]);
            let length = (random(60) + 1).min((bytes - from) / 512) * 512;
            assert!(content(&store, from, length as usize) == model[from as usize..(from + length) as usize]);
        }
        assert!(content(&store, 0, bytes as usize) == model);
    }

    #[test]
    fn available_memory_is_read() {
        let about = "MemTotal:       49326980 kB\nMemFree:        1 kB\nMemAvailable:   30118564 kB\nBuffers: 2 kB\n";
        assert_eq!(available(about), Some(30_118_564 * 1024));
        for bad in [
            "",
            "MemAvailable: x kB",
            "MemAvailable: 5",
            "MemAvailable: 18446744073709551615 kB",
        ] {
            assert_eq!(available(bad), None);
        }
        assert!(available(&std::fs::read_to_string("/proc/meminfo").expect("Linux")).is_some());
    }

    #[test]
    fn a_search_for_data_ends_soon() {
        let store = MemoryStore::new(3 * MOST_LOOKED_AT * CHUNK).expect("addresses");
        let end = 3 * MOST_LOOKED_AT * CHUNK;
        let first = store.next_data(0, end);
        assert!(first >= CHUNK * (MOST_LOOKED_AT - 1) && first < end);
        store.zero(first, CHUNK, true).expect("in range");
    }
}
