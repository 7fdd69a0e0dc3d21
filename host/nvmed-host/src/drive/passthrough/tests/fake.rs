//! A ring for tests: a namespace in memory that carries commands out by their dwords, says what it was asked for, fails where it is told to, keeps commands
//! back, and ends them in any order.

use std::os::fd::AsFd;
use std::sync::Mutex;

use nix::sys::eventfd::{EfdFlags, EventFd};

use super::*;

/// What becomes of a command.
#[derive(Clone, Copy, Debug, PartialEq, Eq)]
pub enum Fault {
    /// The kernel fails it with this error, and nothing is done.
    Error(i32),
    /// The kernel gives this number for it, and nothing is done.
    Number(u32),
    /// It is carried out, and the kernel gives this number for it.
    Lie(u32),
    /// It does not end before [`Control::release`].
    Held,
}

/// Where a command's bytes are.
#[derive(Clone, Copy, Debug, PartialEq, Eq)]
pub enum From {
    Nowhere,
    /// In the command's own memory, in so many pieces.
    Own(usize),
    /// In pages of the program's own.
    Pages,
    Zeros,
}

/// A command as the kernel was given it.
#[derive(Clone, Copy, Debug, PartialEq, Eq)]
pub struct Asked {
    pub opcode: u8,
    pub dwords: [u32; 6],
    pub bytes: u64,
    pub from: From,
}

#[derive(Default)]
struct State {
    disk: Vec<u8>,
    faults: Vec<(u8, Fault)>,
    asked: Vec<Asked>,
    ended: Vec<(Work, io::Result<u32>)>,
    held: Vec<Work>,
    room: usize,
    is_busy: bool,
    is_broken: bool,
    blocks: Option<u64>,
}

/// What the test has of the ring.
#[derive(Clone)]
pub struct Control {
    state: Arc<Mutex<State>>,
    memory: Arc<Memory>,
    wake: Arc<EventFd>,
}

impl Control {
    /// The next command with this opcode has this fault.
    pub fn fail(&self, opcode: u8, fault: Fault) {
        self.change(|state| state.faults.push((opcode, fault)));
    }

    /// Nothing fails any more.
    pub fn heal(&self) {
        self.change(|state| state.faults.clear());
    }

    /// Ends all that is held.
    pub fn release(&self) {
        self.change(|state| {
            for work in std::mem::take(&mut state.held) {
                let status = state.carry_out(&work, &self.memory);
                state.ended.push((work, Ok(status)));
            }
        });
        self.wake.write(1).expect("a counter");
    }

    /// What was asked for since the last look.
    pub fn asked(&self) -> Vec<Asked> {
        self.change(|state| std::mem::take(&mut state.asked))
    }

    /// From now on there is room for so many commands.
    pub fn room(&self, room: usize) {
        self.change(|state| state.room = room);
    }

    /// Whether the kernel takes nothing over.
    pub fn busy(&self, is_busy: bool) {
        self.change(|state| state.is_busy = is_busy);
    }

    /// From now on the kernel fails.
    pub fn break_it(&self) {
        self.change(|state| state.is_broken = true);
    }

    /// From now on the namespace has so many blocks.
    pub fn resize(&self, blocks: u64) {
        self.change(|state| state.blocks = Some(blocks));
    }

    /// What the namespace has.
    pub fn disk(&self, from: usize, bytes: usize) -> Vec<u8> {
        self.change(|state| state.disk[from..from + bytes].to_vec())
    }

    fn change<T>(&self, change: impl FnOnce(&mut State) -> T) -> T {
        change(&mut self.state.lock().expect("lock"))
    }
}

/// The bytes that a command's vector names.
fn bytes_of(work: &Work, memory: &Memory) -> (Vec<u8>, From) {
    let slices = work.request.data.slices(memory).expect("places that have memory");
    let mut bytes = Vec::new();
    for slice in &slices {
        let mut part = vec![0; slice.len()];
        slice.copy_to(&mut part[..]);
        bytes.extend(part);
    }
    match &work.request.data {
        Data::None => (bytes, From::Nowhere),
        Data::Own(_) => (bytes, From::Own(slices.len())),
        Data::Pages(..) => (bytes, From::Pages),
        Data::Zeros(count) => (vec![0; *count as usize], From::Zeros),
    }
}

impl State {
    /// Does what the dwords say, as the NVM command set has it; the status.
    fn carry_out(&mut self, work: &Work, memory: &Memory) -> u32 {
        let request = &work.request;
        let [low, high, twelve, ..] = request.dwords;
        let (given, _) = bytes_of(work, memory);
        let first = u64::from(low) | u64::from(high) << 32;
        let blocks = u64::from(twelve & 0xffff) + 1;
        let Some(end) = first.checked_add(blocks).filter(|end| *end <= BLOCKS) else {
            return if request.opcode == RANGES {
                self.ranges(low, high, &given)
            } else {
                0x4080
            };
        };
        let place = first as usize * 512..end as usize * 512;
        match request.opcode {
            FLUSH => {}
            RANGES => return self.ranges(low, high, &given),
            ZEROES => self.disk[place].fill(0),
            _ if given.len() != place.len() => return 0x4002,
            WRITE => self.disk[place].copy_from_slice(&given),
            COMPARE if self.disk[place.clone()] != given[..] => return 0x285,
            COMPARE => {}
            READ => {
                let mut from = place.start;
                for slice in request.data.slices(memory).expect("places that have memory") {
                    slice.copy_from(&self.disk[from..from + slice.len()]);
                    from += slice.len();
                }
            }
            _ => return 0x4001,
        }
        0
    }

    fn ranges(&mut self, ranges: u32, attributes: u32, list: &[u8]) -> u32 {
        let count = ranges as usize + 1;
        if list.len() != 16 * count || count > 256 {
            return 0x4002;
        }
        for range in list.chunks(16).filter(|_| attributes & 4 != 0) {
            let blocks = u32::from_le_bytes(range[4..8].try_into().expect("4 bytes"));
            let first = u64::from_le_bytes(range[8..16].try_into().expect("8 bytes"));
            let bytes = first as usize * 512..(first + u64::from(blocks)) as usize * 512;
            self.disk[bytes].fill(0);
        }
        0
    }
}

/// The ring.
pub struct FakeRing {
    control: Control,
    random: Random,
}

impl FakeRing {
    /// One over zeros, and what the test has of it.
    pub fn new(memory: Arc<Memory>, blocks: u64) -> (FakeRing, Control) {
        let control = Control {
            state: Arc::new(Mutex::new(State {
                disk: vec![0; blocks as usize * 512],
                room: 64,
                ..State::default()
            })),
            memory,
            wake: Arc::new(EventFd::from_flags(EfdFlags::EFD_NONBLOCK).expect("a descriptor")),
        };
        let ring = FakeRing {
            control: control.clone(),
            random: Random::new(5),
        };
        (ring, control)
    }
}

impl Ring for FakeRing {
    type Work = Work;

    fn has_room(&self) -> bool {
        self.control
            .change(|state| state.ended.len() + state.held.len() < state.room)
    }

    fn begin(&mut self, work: Work) -> Result<(), (Work, io::Error)> {
        assert!(self.has_room(), "it is asked first");
        let memory = Arc::clone(&self.control.memory);
        if work.request.data.slices(&*memory).is_none() {
            return Err((work, io::Error::from_raw_os_error(libc::EFAULT)));
        }
        self.control.change(|state| {
            let (bytes, from) = bytes_of(&work, &memory);
            let opcode = work.request.opcode;
            state.asked.push(Asked {
                opcode,
                dwords: work.request.dwords,
                bytes: bytes.len() as u64,
                from,
            });
            let fault = state.faults.iter().position(|(other, _)| *other == opcode);
            let result = match fault.map(|at| state.faults.remove(at).1) {
                Some(Fault::Held) => {
                    state.held.push(work);
                    return;
                }
                Some(Fault::Error(error)) => Err(io::Error::from_raw_os_error(error)),
                Some(Fault::Number(number)) => Ok(number),
                Some(Fault::Lie(number)) => {
                    state.carry_out(&work, &memory);
                    Ok(number)
                }
                None => Ok(state.carry_out(&work, &memory)),
            };
            state.ended.push((work, result));
        });
        self.control.wake.write(1).expect("a counter");
        Ok(())
    }

    fn submit(&mut self) -> io::Result<bool> {
        self.control.change(|state| match (state.is_broken, state.is_busy) {
            (true, _) => Err(io::Error::from_raw_os_error(libc::EBADF)),
            (_, is_busy) => Ok(!is_busy),
        })
    }

    fn next(&mut self) -> Option<(Work, io::Result<u32>)> {
        let random = &mut self.random;
        self.control.change(|state| {
            let count = state.ended.len() as u64;
            (count > 0).then(|| state.ended.swap_remove(random.below(count) as usize))
        })
    }

    fn wake(&self) -> BorrowedFd<'_> {
        self.control.wake.as_fd()
    }

    fn finish(&mut self, _most: Duration) -> bool {
        self.control.change(|state| {
            state.ended.clear();
            state.held.is_empty()
        })
    }
}

impl NamespaceRing for FakeRing {
    fn blocks(&self) -> io::Result<u64> {
        self.control.change(|state| match state.blocks {
            Some(u64::MAX) => Err(io::Error::from_raw_os_error(libc::EIO)),
            blocks => Ok(blocks.unwrap_or(BLOCKS)),
        })
    }
}
