//! A ring for tests: it fails where it is told to, keeps operations back, ends them in any order, and knows what a crash would leave.

use std::os::fd::AsFd;
use std::sync::Mutex;

use nix::sys::eventfd::{EfdFlags, EventFd};

use super::*;

/// Kinds of operations.
#[derive(Clone, Copy, Debug, PartialEq, Eq)]
pub enum Call {
    Read,
    Write,
    Sync,
    Zero,
}

/// What becomes of an operation.
#[derive(Clone, Copy, Debug, PartialEq, Eq)]
pub enum Fault {
    /// It fails with this error of the system.
    Error(i32),
    /// It moves so many bytes and no more.
    Short(u32),
    /// It does not end before [`Control::release`].
    Held,
}

/// An operation as it was asked for.
#[derive(Clone, Copy, Debug, PartialEq, Eq)]
pub struct Asked {
    pub call: Call,
    pub from: u64,
    pub bytes: u64,
    /// Of a write: durable at once. Of others: false.
    pub durable: bool,
    /// Whether the bytes go by pages of the program's own.
    pub by_pages: bool,
    /// Of a Zero: how.
    pub by: Option<Zeroing>,
}

#[derive(Default)]
struct State {
    current: Vec<u8>,
    durable: Vec<u8>,
    faults: Vec<(Call, Fault)>,
    asked: Vec<Asked>,
    ended: Vec<(Work, io::Result<u32>)>,
    held: Vec<Work>,
    room: usize,
    /// The kernel takes over nothing this time, or fails for ever.
    is_busy: bool,
    is_broken: bool,
    length: Option<u64>,
}

/// What the test has of the ring.
#[derive(Clone)]
pub struct Control {
    state: Arc<Mutex<State>>,
    memory: Arc<Memory>,
    wake: Arc<EventFd>,
}

impl Control {
    /// The next operation of this kind has this fault.
    pub fn fail(&self, call: Call, fault: Fault) {
        self.change(|state| state.faults.push((call, fault)));
    }

    /// Nothing fails any more.
    pub fn heal(&self) {
        self.change(|state| state.faults.clear());
    }

    /// Ends all that is held.
    pub fn release(&self) {
        self.change(|state| {
            for work in std::mem::take(&mut state.held) {
                let result = state.carry_out(&work, &self.memory, u32::MAX);
                state.ended.push((work, result));
            }
        });
        self.wake.write(1).expect("a counter");
    }

    /// What was asked for since the last look.
    pub fn asked(&self) -> Vec<Asked> {
        self.change(|state| std::mem::take(&mut state.asked))
    }

    /// From now on there is room for so many operations.
    pub fn room(&self, room: usize) {
        self.change(|state| state.room = room);
    }

    /// Whether the kernel takes nothing over.
    pub fn busy(&self, is_busy: bool) {
        self.change(|state| state.is_busy = is_busy);
    }

    /// From now on the kernel fails.
    pub fn break_it(&self) {
        self.change(|state| state.is_broken = true);
    }

    /// From now on the file has this length.
    pub fn cut(&self, length: u64) {
        self.change(|state| state.length = Some(length));
    }

    /// What a crash leaves for certain of these bytes, and what is there.
    pub fn durable(&self, from: usize, bytes: usize) -> Vec<u8> {
        self.change(|state| state.durable[from..from + bytes].to_vec())
    }

    /// What the file has.
    pub fn current(&self, from: usize, bytes: usize) -> Vec<u8> {
        self.change(|state| state.current[from..from + bytes].to_vec())
    }

    fn change<T>(&self, change: impl FnOnce(&mut State) -> T) -> T {
        change(&mut self.state.lock().expect("lock"))
    }
}

impl State {
    /// Does what the operation says, to `most` bytes at most.
    fn carry_out(&mut self, work: &Work, memory: &Memory, most: u32) -> io::Result<u32> {
        match work {
            Work::Sync => {
                self.durable.clone_from(&self.current);
                Ok(0)
            }
            Work::Zero { from, bytes, by } => {
                let bytes = if *by == Zeroing::Writing {
                    (*bytes).min(u64::from(most))
                } else {
                    *bytes
                };
                self.current[*from as usize..(*from + bytes) as usize].fill(0);
                Ok(if *by == Zeroing::Writing { bytes as u32 } else { 0 })
            }
            Work::Move(moved) => {
                let fault = || io::Error::from_raw_os_error(libc::EFAULT);
                let mut at = (moved.transfer.offset + u64::from(moved.transfer.done)) as usize;
                let mut left = most as usize;
                for slice in moved.slices(memory).ok_or_else(fault)? {
                    let slice = slice.subslice(0, slice.len().min(left)).expect("a part");
                    let end = at + slice.len();
                    if moved.writes() {
                        slice.copy_to(&mut self.current[at..end]);
                        if moved.transfer.forced {
                            self.durable[at..end].copy_from_slice(&self.current[at..end]);
                        }
                    } else {
                        slice.copy_from(&self.current[at..end]);
                    }
                    left -= slice.len();
                    at = end;
                }
                Ok(most - left as u32)
            }
        }
    }
}

/// The ring.
pub struct FakeRing {
    control: Control,
    random: Random,
}

impl FakeRing {
    /// One over zeros, which are durable; and what the test has of it.
    pub fn new(memory: Arc<Memory>, blocks: u64) -> (FakeRing, Control) {
        let bytes = vec![0; (blocks * BLOCK_BYTES) as usize];
        let control = Control {
            state: Arc::new(Mutex::new(State {
                durable: bytes.clone(),
                current: bytes,
                room: 64,
                ..State::default()
            })),
            memory,
            wake: Arc::new(EventFd::from_flags(EfdFlags::EFD_NONBLOCK).expect("a descriptor")),
        };
        let ring = FakeRing {
            control: control.clone(),
            random: Random::new(5),
        };
        (ring, control)
    }
}

fn asked(work: &Work) -> Asked {
    let none = Asked {
        call: Call::Sync,
        from: 0,
        bytes: 0,
        durable: false,
        by_pages: false,
        by: None,
    };
    match work {
        Work::Sync => none,
        Work::Zero { from, bytes, by } => Asked {
            call: Call::Zero,
            from: *from,
            bytes: *bytes,
            by: Some(*by),
            ..none
        },
        Work::Move(moved) => Asked {
            call: if moved.writes() { Call::Write } else { Call::Read },
            from: moved.transfer.offset + u64::from(moved.transfer.done),
            bytes: u64::from(moved.transfer.places.bytes() - moved.transfer.done),
            durable: moved.writes() && moved.transfer.forced,
            by_pages: moved.pages.is_some(),
            by: None,
        },
    }
}

impl Ring for FakeRing {
    type Work = Work;

    fn has_room(&self) -> bool {
        self.control
            .change(|state| state.ended.len() + state.held.len() < state.room)
    }

    fn begin(&mut self, work: Work) -> Result<(), (Work, io::Error)> {
        assert!(self.has_room(), "it is asked first");
        if let Work::Move(moved) = &work {
            if moved.slices(&*self.control.memory).is_none() {
                return Err((work, io::Error::from_raw_os_error(libc::EFAULT)));
            }
        }
        let memory = Arc::clone(&self.control.memory);
        self.control.change(|state| {
            let this = asked(&work);
            state.asked.push(this);
            let fault = state.faults.iter().position(|(call, _)| *call == this.call);
            let result = match fault.map(|at| state.faults.remove(at).1) {
                Some(Fault::Held) => {
                    state.held.push(work);
                    return;
                }
                Some(Fault::Error(error)) => Err(io::Error::from_raw_os_error(error)),
                Some(Fault::Short(bytes)) => state.carry_out(&work, &memory, bytes),
                None => {
                    let all = this.bytes.min(u64::from(u32::MAX)) as u32;
                    state.carry_out(&work, &memory, all)
                }
            };
            state.ended.push((work, result));
        });
        self.control.wake.write(1).expect("a counter");
        Ok(())
    }

    fn submit(&mut self) -> io::Result<bool> {
        self.control.change(|state| match (state.is_broken, state.is_busy) {
            (true, _) => Err(io::Error::from_raw_os_error(libc::EBADF)),
            (_, is_busy) => Ok(!is_busy),
        })
    }

    fn next(&mut self) -> Option<(Work, io::Result<u32>)> {
        let random = &mut self.random;
        self.control.change(|state| {
            let count = state.ended.len() as u64;
            (count > 0).then(|| state.ended.swap_remove(random.below(count) as usize))
        })
    }

    fn wake(&self) -> BorrowedFd<'_> {
        self.control.wake.as_fd()
    }

    fn finish(&mut self, _most: Duration) -> bool {
        self.control.change(|state| {
            state.ended.clear();
            state.held.is_empty()
        })
    }
}

impl FileRing for FakeRing {
    fn sync(&self) -> io::Result<()> {
        self.control.change(|state| {
            let fault = state.faults.iter().position(|(call, _)| *call == Call::Sync);
            if let Some((_, Fault::Error(error))) = fault.map(|at| state.faults.remove(at)) {
                return Err(io::Error::from_raw_os_error(error));
            }
            state.durable.clone_from(&state.current);
            Ok(())
        })
    }

    fn length(&self) -> io::Result<Option<u64>> {
        self.control.change(|state| Ok(state.length))
    }
}
