//! A store for tests: it fails where it is told to, and forgets at a crash what was not synced, as a disk with a cache does.

use std::io;
use std::sync::{Condvar, Mutex};

use vm_memory::VolatileSlice;

use super::{Store, Wait};

const BLOCK: usize = 512;

/// A call of a store.
#[derive(Clone, Copy, Debug, PartialEq, Eq)]
pub enum Call {
    Read,
    Write,
    Zero,
    Sync,
    WriteDurably,
}

/// What becomes of a call.
#[derive(Clone, Copy, Debug, PartialEq, Eq)]
pub enum Fault {
    /// It fails with this error of the system.
    Error(i32),
    /// It fails since the store ends too early.
    CutOff,
    /// It seems to succeed; the next call that makes something durable says EIO, once, and the data is forgotten.
    Forgotten,
    /// It does not return before [`FaultyStore::release`].
    Held,
}

#[derive(Default)]
struct State {
    /// What survives a crash for certain, and what is read.
    durable: Vec<u8>,
    current: Vec<u8>,
    /// Blocks that were written since the last sync, with what they had.
    cached: Vec<(usize, Vec<u8>)>,
    faults: Vec<(Call, Fault)>,
    /// A write was forgotten, and nobody was told.
    untold: bool,
    held: usize,
    released: bool,
    /// Calls that change something until the crash.
    left: Option<u64>,
    crashed: bool,
    calls: u64,
    is_cold: bool,
}

/// The store.
pub struct FaultyStore {
    waits: bool,
    state: Mutex<State>,
    changed: Condvar,
}

impl FaultyStore {
    /// Zeros, which are durable.
    pub fn new(waits: bool, blocks: u64) -> FaultyStore {
        let bytes = vec![0; blocks as usize * BLOCK];
        let state = State {
            durable: bytes.clone(),
            current: bytes,
            ..State::default()
        };
        FaultyStore {
            waits,
            state: Mutex::new(state),
            changed: Condvar::new(),
        }
    }

    /// The next call of this kind has this fault.
    pub fn fail(&self, call: Call, fault: Fault) {
        self.state.lock().expect("lock").faults.push((call, fault));
    }

    /// Reads that may not wait say that they would have to.
    pub fn cool(&self) {
        self.state.lock().expect("lock").is_cold = true;
    }

    /// Lets all calls go on that are held.
    pub fn release(&self) {
        self.state.lock().expect("lock").released = true;
        self.changed.notify_all();
    }

    /// Waits until a call is held.
    pub fn wait_until_held(&self) {
        let mut state = self.state.lock().expect("lock");
        while state.held == 0 {
            state = self.changed.wait(state).expect("lock");
        }
    }

    /// After so many calls that change something there is a crash, in the middle of the next.
    pub fn crash_after(&self, calls: u64) {
        self.state.lock().expect("lock").left = Some(calls);
    }

    /// Whether the crash has been.
    pub fn has_crashed(&self) -> bool {
        self.state.lock().expect("lock").crashed
    }

    /// Calls that change something, up to now.
    pub fn calls(&self) -> u64 {
        self.state.lock().expect("lock").calls
    }

    /// What a crash leaves: of each block that was not synced an old version, a newer one, or the begin of one and the end of another.
    pub fn survivors(&self, mut random: impl FnMut() -> u64) -> Vec<u8> {
        let state = self.state.lock().expect("lock");
        let mut bytes = state.durable.clone();
        for (block, content) in &state.cached {
            let kept = match random() % 4 {
                0 => 0,
                1 => BLOCK,
                _ => random() as usize % (BLOCK / 8) * 8,
            };
            let at = block * BLOCK;
            bytes[at..at + kept].copy_from_slice(&content[..kept]);
        }
        bytes
    }

    /// Counts a call and says how it goes on.
    fn call(&self, call: Call) -> io::Result<Option<Fault>> {
        let mut state = self.state.lock().expect("lock");
        if state.crashed {
            return Err(io::Error::from_raw_os_error(libc::EIO));
        }
        if call != Call::Read {
            state.calls += 1;
            match &mut state.left {
                Some(0) => state.crashed = true,
                Some(left) => *left -= 1,
                None => {}
            }
        }
        let index = state.faults.iter().position(|(of, _)| *of == call);
        match index.map(|index| state.faults.remove(index).1) {
            Some(Fault::Error(error)) => Err(io::Error::from_raw_os_error(error)),
            Some(Fault::CutOff) => Err(io::ErrorKind::UnexpectedEof.into()),
            Some(Fault::Held) => {
                state.held += 1;
                self.changed.notify_all();
                while !state.released {
                    state = self.changed.wait(state).expect("lock");
                }
                state.held -= 1;
                Ok(None)
            }
            other => Ok(other),
        }
    }

    fn change(&self, offset: u64, bytes: &[u8], fault: Option<Fault>) -> io::Result<()> {
        let mut state = self.state.lock().expect("lock");
        let from = offset as usize;
        // A part of a block at either end, where a call is not of whole blocks, is written with the rest of the block.
        state.current[from..from + bytes.len()].copy_from_slice(bytes);
        let blocks = from / BLOCK..(from + bytes.len()).div_ceil(BLOCK);
        if fault == Some(Fault::Forgotten) {
            state.untold = true;
        } else {
            for block in blocks {
                let content = state.current[block * BLOCK..(block + 1) * BLOCK].to_vec();
                state.cached.push((block, content));
            }
        }
        if state.crashed {
            return Err(io::Error::from_raw_os_error(libc::EIO));
        }
        Ok(())
    }

    fn settle(&self, blocks: Option<std::ops::Range<usize>>) -> io::Result<()> {
        let mut state = self.state.lock().expect("lock");
        if state.crashed {
            return Err(io::Error::from_raw_os_error(libc::EIO));
        }
        if std::mem::take(&mut state.untold) {
            return Err(io::Error::from_raw_os_error(libc::EIO));
        }
        let is_meant = |block: usize| blocks.as_ref().is_none_or(|range| range.contains(&block));
        let cached = std::mem::take(&mut state.cached);
        for (block, content) in cached {
            if is_meant(block) {
                state.durable[block * BLOCK..(block + 1) * BLOCK].copy_from_slice(&content);
            } else {
                state.cached.push((block, content));
            }
        }
        Ok(())
    }
}

fn gathered(places: &[VolatileSlice<'_>]) -> Vec<u8> {
    let mut bytes = Vec::new();
    for place in places {
        let mut part = vec![0; place.len()];
        place.copy_to(&mut part);
        bytes.extend(part);
    }
    bytes
}

impl Store for FaultyStore {
    fn waits(&self) -> bool {
        self.waits
    }

    fn read(&self, offset: u64, places: &[VolatileSlice<'_>], wait: Wait) -> io::Result<()> {
        if wait == Wait::Never && self.waits && self.state.lock().expect("lock").is_cold {
            return Err(io::ErrorKind::WouldBlock.into());
        }
        self.call(Call::Read)?;
        let state = self.state.lock().expect("lock");
        let mut at = offset as usize;
        for place in places {
            place.copy_from(&state.current[at..at + place.len()]);
            at += place.len();
        }
        Ok(())
    }

    fn write(&self, offset: u64, places: &[VolatileSlice<'_>], wait: Wait) -> io::Result<()> {
        if wait == Wait::Never && self.waits {
            return Err(io::ErrorKind::WouldBlock.into());
        }
        let fault = self.call(Call::Write)?;
        self.change(offset, &gathered(places), fault)
    }

    fn zero(&self, offset: u64, bytes: u64, _: bool) -> io::Result<()> {
        let fault = self.call(Call::Zero)?;
        self.change(offset, &vec![0; bytes as usize], fault)
    }

    fn next_data(&self, offset: u64, _: u64) -> u64 {
        offset
    }

    fn sync(&self) -> io::Result<()> {
        self.call(Call::Sync)?;
        self.settle(None)
    }

    fn write_durably(&self, offset: u64, places: &[VolatileSlice<'_>]) -> io::Result<()> {
        let fault = self.call(Call::WriteDurably)?;
        let bytes = gathered(places);
        self.change(offset, &bytes, fault)?;
        let from = offset as usize;
        self.settle(Some(from / BLOCK..(from + bytes.len()).div_ceil(BLOCK)))
    }

    fn check(&self) -> Result<(), String> {
        Ok(())
    }

    fn describe(&self) -> &str {
        "in a store for tests"
    }
}
