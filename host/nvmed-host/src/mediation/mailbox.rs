//! What a guest's thread asks of the mediator's: a bounded queue for each guest, which neither side ever blocks in.
//!
//! A queue has one [`Sender`], the guest's thread, and one [`Receiver`], the mediator's. Its slots are pairs of atomic words, so that a thread that is held up in
//! the middle of a call holds up nobody. Accesses arrive in the order in which they were sent. Writes are posted; a question waits for its answer.

#![forbid(unsafe_code)]

use std::sync::atomic::{AtomicBool, AtomicU32, AtomicU64, Ordering};
use std::sync::{Arc, Mutex, OnceLock, TryLockError};
use std::thread::{self, Thread};
use std::time::Duration;

use super::wake::Bell;
use crate::doorbells::Page;

/// Accesses that a mailbox has room for.
pub const SLOTS: u32 = 256;
/// How often a guest's thread looks for an answer before it sleeps.
const LOOKS: u32 = 2_000;
/// The longest sleep between two looks: nobody forgets to wake it, so that this is a second line alone.
const NAP: Duration = Duration::from_millis(20);

/// What a guest does, as the mediator's thread gets it.
#[derive(Clone, Copy, Debug, PartialEq, Eq)]
pub enum Access {
    /// A client has connected: the guest's controller is as after power-on. Its doorbell page, if it has one, was left by [`Sender::connect`].
    Connect,
    /// The connection is over: the controller is reset, and what it had runs out.
    Disconnect,
    /// A reset of the function (`VFIO_USER_DEVICE_RESET`).
    Reset,
    /// Bus Master Enable of the command register is as said.
    Master(bool),
    /// The 32 bits of a register are written.
    Write {
        /// Its offset, a multiple of 4.
        offset: u32,
        /// What is written.
        value: u32,
    },
    /// A doorbell is written by a message.
    Doorbell {
        /// Its offset in BAR0, from 4,096 on.
        offset: u32,
        /// What is written.
        value: u32,
    },
    /// The 32 bits of a register are read: the guest's thread waits for the answer.
    Read {
        /// Its offset, a multiple of 4.
        offset: u32,
    },
}

/// The mediator's thread has ended: nothing is answered any more.
#[derive(Clone, Copy, Debug, PartialEq, Eq, thiserror::Error)]
#[error("the mediator has ended")]
pub struct Gone;

#[derive(Debug, Default)]
struct Slot {
    what: AtomicU64,
    value: AtomicU64,
}

#[derive(Debug)]
struct Shared {
    slots: Box<[Slot]>,
    /// Accesses that were sent, and taken, since the beginning: modulo 2^32.
    sent: AtomicU32,
    taken: AtomicU32,
    /// The low 32 bits are the answer, the others the number of the question.
    answer: AtomicU64,
    /// The guest's thread waits for room.
    full: AtomicBool,
    gone: AtomicBool,
    asker: OnceLock<Thread>,
    page: Mutex<Option<Arc<Page>>>,
    bell: Arc<Bell>,
}

/// Where the upper half of a word begins.
const UPPER: u32 = 32;

impl Access {
    fn encode(self) -> (u64, u64) {
        let (kind, offset, value) = match self {
            Self::Connect => (0, 0, 0),
            Self::Disconnect => (1, 0, 0),
            Self::Reset => (2, 0, 0),
            Self::Master(on) => (3, 0, u64::from(on)),
            Self::Write { offset, value } => (4, offset, u64::from(value)),
            Self::Doorbell { offset, value } => (5, offset, u64::from(value)),
            Self::Read { offset } => (6, offset, 0),
        };
        (u64::from(offset) | kind << UPPER, value)
    }

    fn decode(what: u64, value: u64) -> Self {
        let offset = low(what);
        match what >> UPPER {
            0 => Self::Connect,
            1 => Self::Disconnect,
            2 => Self::Reset,
            3 => Self::Master(value != 0),
            4 => Self::Write {
                offset,
                value: low(value),
            },
            5 => Self::Doorbell {
                offset,
                value: low(value),
            },
            _ => Self::Read { offset },
        }
    }
}

/// The low 32 bits.
fn low(word: u64) -> u32 {
    (word & u64::from(u32::MAX)) as u32
}

impl Shared {
    fn slot(&self, number: u32) -> Option<&Slot> {
        self.slots.get((number % SLOTS) as usize)
    }
}

/// A mailbox of a guest. `bell` is that of the mediator's thread, which looks into it after each ring.
#[must_use]
pub fn mailbox(bell: Arc<Bell>) -> (Sender, Receiver) {
    let shared = Arc::new(Shared {
        slots: (0..SLOTS).map(|_| Slot::default()).collect(),
        sent: AtomicU32::new(0),
        taken: AtomicU32::new(0),
        answer: AtomicU64::new(0),
        full: AtomicBool::new(false),
        gone: AtomicBool::new(false),
        asker: OnceLock::new(),
        page: Mutex::new(None),
        bell,
    });
    let sender = Sender {
        shared: Arc::clone(&shared),
        asked: 0,
    };
    (sender, Receiver { shared, answered: 0 })
}

/// The guest's end.
#[derive(Debug)]
pub struct Sender {
    shared: Arc<Shared>,
    /// Questions so far, modulo 2^32.
    asked: u32,
}

impl Sender {
    /// A client connects, with a doorbell page or without one.
    ///
    /// # Errors
    ///
    /// The mediator has ended.
    pub fn connect(&mut self, page: Option<Arc<Page>>) -> Result<(), Gone> {
        match self.shared.page.lock() {
            Ok(mut place) => *place = page,
            Err(poisoned) => *poisoned.into_inner() = page,
        }
        self.send(Access::Connect)
    }

    /// Sends an access that has no answer. Where the mailbox is full it waits until the mediator has taken something.
    ///
    /// # Errors
    ///
    /// The mediator has ended.
    pub fn send(&mut self, access: Access) -> Result<(), Gone> {
        self.put(access)?;
        self.shared.bell.ring();
        Ok(())
    }

    /// Reads a register, and waits for the answer.
    ///
    /// # Errors
    ///
    /// The mediator has ended.
    pub fn read(&mut self, offset: u32) -> Result<u32, Gone> {
        self.asked = self.asked.wrapping_add(1);
        self.send(Access::Read { offset })?;
        let wanted = u64::from(self.asked);
        for _ in 0..LOOKS {
            if let Some(answer) = self.answer(wanted) {
                return Ok(answer);
            }
            std::hint::spin_loop();
        }
        loop {
            if let Some(answer) = self.answer(wanted) {
                return Ok(answer);
            }
            self.check()?;
            self.sleep();
        }
    }

    fn answer(&self, wanted: u64) -> Option<u32> {
        let word = self.shared.answer.load(Ordering::Acquire);
        (word >> UPPER == wanted).then(|| low(word))
    }

    fn put(&mut self, access: Access) -> Result<(), Gone> {
        let sent = self.shared.sent.load(Ordering::Relaxed);
        self.check()?;
        while sent.wrapping_sub(self.shared.taken.load(Ordering::Acquire)) >= SLOTS {
            self.shared.full.store(true, Ordering::SeqCst);
            self.shared.bell.ring();
            if sent.wrapping_sub(self.shared.taken.load(Ordering::SeqCst)) >= SLOTS {
                self.sleep();
            }
            self.check()?;
        }
        if let Some(slot) = self.shared.slot(sent) {
            let (what, value) = access.encode();
            slot.what.store(what, Ordering::Relaxed);
            slot.value.store(value, Ordering::Relaxed);
        }
        self.shared.sent.store(sent.wrapping_add(1), Ordering::Release);
        Ok(())
    }

    fn check(&self) -> Result<(), Gone> {
        if self.shared.gone.load(Ordering::Acquire) {
            Err(Gone)
        } else {
            Ok(())
        }
    }

    /// Sleeps until the mediator wakes this thread, or for a while. The first call says which thread it is.
    fn sleep(&self) {
        let mut is_known = true;
        self.shared.asker.get_or_init(|| {
            is_known = false;
            thread::current()
        });
        // the mediator could not have known whom to wake: so the caller looks once more
        if is_known {
            thread::park_timeout(NAP);
        }
    }
}

/// The mediator's end.
#[derive(Debug)]
pub struct Receiver {
    shared: Arc<Shared>,
    /// Questions that were taken so far, modulo 2^32.
    answered: u32,
}

impl Receiver {
    /// The next access, if there is one.
    pub fn take(&mut self) -> Option<Access> {
        let taken = self.shared.taken.load(Ordering::Relaxed);
        if taken == self.shared.sent.load(Ordering::Acquire) {
            return None;
        }
        let slot = self.shared.slot(taken)?;
        let access = Access::decode(slot.what.load(Ordering::Relaxed), slot.value.load(Ordering::Relaxed));
        self.shared.taken.store(taken.wrapping_add(1), Ordering::SeqCst);
        if self.shared.full.load(Ordering::SeqCst) && self.shared.full.swap(false, Ordering::SeqCst) {
            self.wake();
        }
        if matches!(access, Access::Read { .. }) {
            self.answered = self.answered.wrapping_add(1);
        }
        Some(access)
    }

    /// Whether there is no access.
    #[must_use]
    pub fn is_empty(&self) -> bool {
        self.shared.taken.load(Ordering::Relaxed) == self.shared.sent.load(Ordering::Acquire)
    }

    /// Answers the question that was taken last: the register's 32 bits.
    pub fn answer(&mut self, value: u32) {
        let word = u64::from(value) | u64::from(self.answered) << UPPER;
        self.shared.answer.store(word, Ordering::SeqCst);
        self.wake();
    }

    /// The doorbell page of the client that has just connected.
    ///
    /// The guest's thread left it there before it sent [`Access::Connect`], so that nobody has the lock.
    pub fn page(&mut self) -> Option<Arc<Page>> {
        match self.shared.page.try_lock() {
            Ok(mut page) => page.take(),
            Err(TryLockError::Poisoned(poisoned)) => poisoned.into_inner().take(),
            Err(TryLockError::WouldBlock) => None,
        }
    }

    /// Nothing is taken or answered any more: whoever waits goes on with [`Gone`].
    pub fn close(&mut self) {
        self.shared.gone.store(true, Ordering::SeqCst);
        self.wake();
    }

    fn wake(&self) {
        if let Some(asker) = self.shared.asker.get() {
            asker.unpark();
        }
    }
}

impl Drop for Receiver {
    fn drop(&mut self) {
        self.close();
    }
}

#[cfg(test)]
mod tests {
    use super::*;
    use std::time::Instant;

    fn pair() -> (Sender, Receiver) {
        mailbox(Arc::new(Bell::new().unwrap()))
    }

    const ALL: [Access; 9] = [
        Access::Connect,
        Access::Disconnect,
        Access::Reset,
        Access::Master(true),
        Access::Master(false),
        Access::Write {
            offset: 0x14,
            value: u32::MAX,
        },
        Access::Doorbell {
            offset: 0x1ffc,
            value: 7,
        },
        Access::Read { offset: u32::MAX },
        Access::Connect,
    ];

    #[test]
    fn accesses_arrive_in_order() {
        let (mut sender, mut receiver) = pair();
        assert!(receiver.is_empty());
        for access in ALL {
            sender.send(access).unwrap();
        }
        assert!(!receiver.is_empty());
        for access in ALL {
            assert_eq!(receiver.take(), Some(access));
        }
        assert_eq!(receiver.take(), None);
    }

    #[test]
    fn a_question_waits_for_its_own_answer() {
        let (mut sender, mut receiver) = pair();
        let guest = std::thread::spawn(move || {
            let mut answers = Vec::new();
            for i in 0..200 {
                sender.send(Access::Master(i % 2 == 0)).unwrap();
                answers.push(sender.read(i).unwrap());
            }
            answers
        });
        let mut asked = 0;
        while asked < 200 {
            match receiver.take() {
                Some(Access::Read { offset }) => {
                    if offset % 50 == 0 {
                        std::thread::sleep(Duration::from_millis(5));
                    }
                    receiver.answer(offset + 1);
                    asked += 1;
                }
                Some(_) => {}
                None => std::thread::yield_now(),
            }
        }
        for (i, answer) in (0u32..).zip(guest.join().unwrap()) {
            assert_eq!(answer, i + 1);
        }
    }

    #[test]
    fn a_full_mailbox_holds_up_its_guest_alone() {
        let (mut sender, mut receiver) = pair();
        let guest = std::thread::spawn(move || {
            for value in 0..10 * SLOTS {
                sender.send(Access::Write { offset: 0, value }).unwrap();
            }
        });
        std::thread::sleep(Duration::from_millis(20));
        let mut next = 0;
        while next < 10 * SLOTS {
            match receiver.take() {
                Some(access) => {
                    assert_eq!(access, Access::Write { offset: 0, value: next });
                    next += 1;
                }
                None => std::thread::yield_now(),
            }
        }
        guest.join().unwrap();
    }

    #[test]
    fn the_end_wakes_whoever_waits() {
        let (mut sender, receiver) = pair();
        let guest = std::thread::spawn(move || {
            let answer = sender.read(0);
            (answer, sender.send(Access::Reset))
        });
        std::thread::sleep(Duration::from_millis(20));
        let begin = Instant::now();
        drop(receiver);
        assert_eq!(guest.join().unwrap(), (Err(Gone), Err(Gone)));
        assert!(begin.elapsed() < Duration::from_secs(2));
    }

    #[test]
    fn a_full_mailbox_whose_mediator_ends() {
        let (mut sender, receiver) = pair();
        let guest = std::thread::spawn(move || {
            for _ in 0..SLOTS {
                sender.send(Access::Reset).unwrap();
            }
            sender.send(Access::Reset)
        });
        std::thread::sleep(Duration::from_millis(20));
        drop(receiver);
        assert_eq!(guest.join().unwrap(), Err(Gone));
    }

    #[test]
    fn numbers_of_questions_begin_again() {
        let (mut sender, mut receiver) = pair();
        sender.asked = u32::MAX - 1;
        receiver.answered = u32::MAX - 1;
        let guest = std::thread::spawn(move || (sender.read(0), sender.read(0)));
        for value in [3, 4] {
            while receiver.take().is_none() {
                std::thread::yield_now();
            }
            receiver.answer(value);
        }
        assert_eq!(guest.join().unwrap(), (Ok(3), Ok(4)));
    }
}
