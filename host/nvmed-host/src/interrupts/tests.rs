use super::*;
use std::fs::File;
use std::io::{Read, Write};

use nix::sys::eventfd::{EfdFlags, EventFd};

const ON: Control = Control {
    msix: true,
    msix_masked: false,
    intx_off: false,
    master: true,
};
const LINE: Control = Control { msix: false, ..ON };

fn eventfd() -> OwnedFd {
    EventFd::from_value_and_flags(0, EfdFlags::EFD_CLOEXEC).unwrap().into()
}

/// An eventfd, and the client's descriptor of it.
fn pair() -> (OwnedFd, File) {
    let fd = eventfd();
    let peer = fd.try_clone().unwrap();
    (fd, peer.into())
}

/// The count of an eventfd, which is 0 then.
fn count(mut peer: &File) -> u64 {
    let mut bytes = [0; 8];
    let mut fds = [PollFd::new(peer.as_fd(), PollFlags::POLLIN)];
    if poll(&mut fds, PollTimeout::ZERO) == Ok(0) {
        return 0;
    }
    peer.read_exact(&mut bytes).unwrap();
    u64::from_ne_bytes(bytes)
}

fn set(vectors: &[usize]) -> VectorSet {
    vectors.iter().copied().collect()
}

fn begin() -> (Arc<Signals>, Interrupts) {
    let signals = Arc::new(Signals::new().unwrap());
    (Arc::clone(&signals), Interrupts::new(signals))
}

/// With all vectors set up and open.
fn begin_open() -> (Arc<Signals>, Interrupts, Vec<File>) {
    let (signals, mut interrupts) = begin();
    let (fds, peers): (Vec<_>, Vec<_>) = (0..VECTORS).map(|_| pair()).unzip();
    interrupts.set_control(ON).unwrap();
    interrupts.set_vectors(0, fds.into_iter().map(Some).collect()).unwrap();
    (signals, interrupts, peers)
}

fn counts(peers: &[File]) -> Vec<u64> {
    peers.iter().map(count).collect()
}

fn only(vectors: &[usize]) -> Vec<u64> {
    (0..VECTORS).map(|v| u64::from(vectors.contains(&v))).collect()
}

#[test]
fn sets_hold_vectors_that_there_are() {
    let some = set(&[0, 8, 9, 15, 16, usize::MAX]);
    assert_eq!(
        (
            some.bits(),
            some.contains(8),
            some.contains(9),
            some.contains(usize::MAX)
        ),
        (0x101, true, false, false)
    );
    assert_eq!([3_u16, 9, 65_535].into_iter().collect::<VectorSet>(), set(&[3]));
    assert_eq!(
        (VectorSet::from_bits(0xffff), !VectorSet::default()),
        (VectorSet::ALL, VectorSet::ALL)
    );
    assert!((some & set(&[1])).is_empty() && (set(&[1]) | set(&[2])) == set(&[2, 1]));
}

#[test]
fn the_wake_up_comes_once_until_news_are_taken() {
    let signals = Signals::new().unwrap();
    let wake = File::from(signals.wake().try_clone_to_owned().unwrap());
    let is_ready = || poll(&mut [PollFd::new(wake.as_fd(), PollFlags::POLLIN)], PollTimeout::ZERO) == Ok(1);
    assert_eq!((is_ready(), signals.take()), (false, News::default()));
    signals.publish(set(&[1]), set(&[1, 2]));
    assert!(is_ready());
    signals.publish(set(&[8]), set(&[1, 2, 8]));
    assert_eq!(count(&wake), 1);
    assert_eq!(
        signals.take(),
        News {
            posted: set(&[1, 2, 8]),
            pending: set(&[1, 2, 8])
        }
    );
    signals.publish(set(&[]), set(&[2]));
    assert!(!is_ready());
    assert_eq!(signals.pending(), set(&[2]));
    signals.publish(set(&[2]), set(&[]));
    assert!(is_ready());
    assert_eq!(
        signals.take(),
        News {
            posted: set(&[2]),
            pending: set(&[2])
        }
    );
    signals.publish(set(&[]), set(&[1])); // what is pending and was not counts as posted
    assert_eq!(
        signals.take(),
        News {
            posted: set(&[1]),
            pending: set(&[1])
        }
    );
    signals.publish(set(&[]), set(&[])); // the level is down
    assert!(is_ready());
    assert_eq!((signals.take(), is_ready()), (News::default(), false));
}

#[test]
fn each_post_is_signalled() {
    let (signals, mut interrupts, peers) = begin_open();
    assert_eq!(counts(&peers), only(&[]));
    for _ in 0..2 {
        signals.publish(set(&[0, 8]), set(&[0, 8])); // the second time they are still pending
        interrupts.deliver().unwrap();
        assert_eq!(counts(&peers), only(&[0, 8]));
    }
    interrupts.deliver().unwrap();
    assert_eq!((counts(&peers), interrupts.sent()), (only(&[]), 4));
}

#[test]
fn what_is_pending_is_signalled_when_its_vector_opens() {
    let (signals, mut interrupts, peers) = begin_open();
    let post = |interrupts: &mut Interrupts| {
        signals.publish(set(&[2, 3]), set(&[2, 3]));
        interrupts.deliver().unwrap();
    };
    for closed in [
        Control { msix: false, ..ON },
        Control {
            msix_masked: true,
            ..ON
        },
        Control { master: false, ..ON },
    ] {
        interrupts.set_control(closed).unwrap();
        post(&mut interrupts);
        assert_eq!(counts(&peers), only(&[]));
        interrupts.set_control(ON).unwrap();
        assert_eq!(counts(&peers), only(&[2, 3]));
        interrupts.set_control(Control { intx_off: true, ..ON }).unwrap(); // no change of these
        interrupts.set_control(ON).unwrap();
        assert_eq!(counts(&peers), only(&[]));
    }
    interrupts.mask_vectors(3, 6, true).unwrap();
    post(&mut interrupts);
    assert_eq!(counts(&peers), only(&[2]));
    interrupts.mask_vectors(3, 1, false).unwrap();
    assert_eq!(counts(&peers), only(&[3]));
    interrupts.mask_vectors(0, 9, true).unwrap();
    signals.publish(set(&[4]), set(&[4]));
    interrupts.deliver().unwrap();
    signals.publish(set(&[]), set(&[])); // acknowledged meanwhile
    interrupts.mask_vectors(0, 9, false).unwrap();
    assert_eq!(counts(&peers), only(&[]));
}

/// Each change of a client disables all vectors and sets them anew: what is pending is signalled again.
#[test]
fn new_eventfds_are_told_what_is_pending() {
    let (signals, mut interrupts, peers) = begin_open();
    signals.publish(set(&[1, 5]), set(&[1, 5]));
    interrupts.set_vectors(5, vec![None]).unwrap(); // published before: goes to the eventfd that was there
    assert_eq!(counts(&peers), only(&[1, 5]));
    interrupts.disable_vectors();
    signals.publish(set(&[7]), set(&[1, 5, 7]));
    interrupts.deliver().unwrap();
    interrupts.set_vectors(0, (0..VECTORS).map(|_| None).collect()).unwrap();
    let (fds, fresh): (Vec<_>, Vec<_>) = (0..VECTORS).map(|_| pair()).unzip();
    interrupts.set_vectors(0, fds.into_iter().map(Some).collect()).unwrap();
    assert_eq!((counts(&fresh), counts(&peers)), (only(&[1, 5, 7]), only(&[])));
    let (fd, other) = pair();
    interrupts.set_vectors(7, vec![Some(fd)]).unwrap();
    assert_eq!((counts(&fresh), count(&other)), (only(&[]), 1));
    interrupts.trigger_vectors(6, 2).unwrap();
    assert_eq!((counts(&fresh), count(&other)), (only(&[6]), 1));
}

#[test]
fn masks_end_with_the_vectors() {
    let (signals, mut interrupts, peers) = begin_open();
    interrupts.mask_vectors(0, 9, true).unwrap();
    interrupts.disable_vectors();
    drop(peers);
    signals.publish(set(&[0]), set(&[0]));
    let (fd, peer) = pair();
    interrupts.set_vectors(0, vec![Some(fd)]).unwrap();
    assert_eq!(count(&peer), 1);
}

#[test]
fn strange_requests_are_refused_and_change_nothing() {
    let (signals, mut interrupts, peers) = begin_open();
    for (start, vectors) in [(9, 1), (0, 10), (8, 2), (u32::MAX, 1), (u32::MAX, 9)] {
        let refused = Err(InterruptError::NoSuchVector { start, count: vectors });
        assert_eq!(
            interrupts.set_vectors(start, (0..vectors).map(|_| None).collect()),
            refused
        );
        assert_eq!(interrupts.mask_vectors(start, vectors, true), refused);
        assert_eq!(interrupts.trigger_vectors(start, vectors), refused);
    }
    assert!(interrupts.mask_vectors(1, u32::MAX, true).is_err());
    assert!(interrupts.set_vectors(9, Vec::new()).is_ok() && interrupts.mask_vectors(0, 0, true).is_ok());
    let file = || OwnedFd::from(File::options().read(true).write(true).open("/dev/null").unwrap());
    let (_, pipe) = nix::unistd::pipe().unwrap();
    let memory = nix::sys::memfd::memfd_create(c"", nix::sys::memfd::MemFdCreateFlag::MFD_CLOEXEC);
    for fd in [file(), pipe, memory.unwrap()] {
        let refused = Err(InterruptError::NotAnEventfd);
        assert_eq!(
            interrupts.set_vectors(0, vec![Some(eventfd()), Some(fd.try_clone().unwrap())]),
            refused
        );
        assert_eq!(interrupts.set_intx(Some(fd.try_clone().unwrap())), refused);
        assert_eq!(interrupts.set_resample(Some(fd)), refused);
        assert!(!InterruptError::NotAnEventfd.is_fatal() && InterruptError::Held.is_fatal());
    }
    signals.publish(VectorSet::ALL, VectorSet::ALL);
    interrupts.deliver().unwrap();
    assert_eq!(counts(&peers), [1; VECTORS]);
    assert!(interrupts.resample().is_none());
}

/// An eventfd that is full, and made to block by its other owner, holds nobody up: a signal waits there.
#[test]
fn a_full_eventfd_has_been_signalled() {
    let (signals, mut interrupts, mut peers) = begin_open();
    for blocking in [false, true] {
        let flags = if blocking { OFlag::empty() } else { OFlag::O_NONBLOCK };
        peers[3].write_all(&(u64::MAX - 1).to_ne_bytes()).unwrap();
        fcntl(peers[3].as_raw_fd(), FcntlArg::F_SETFL(flags)).unwrap();
        signals.publish(set(&[3, 4]), set(&[3, 4]));
        interrupts.deliver().unwrap();
        assert_eq!((count(&peers[3]), count(&peers[4])), (u64::MAX - 1, 1));
    }
}

#[test]
fn intx_is_raised_once_until_it_is_unmasked() {
    let (signals, mut interrupts) = begin();
    let (fd, peer) = pair();
    interrupts.set_control(LINE).unwrap();
    interrupts.set_intx(Some(fd)).unwrap();
    assert!(!interrupts.level() && count(&peer) == 0);
    for pending in [&[1][..], &[1, 2], &[2]] {
        signals.publish(set(pending), set(pending));
        interrupts.deliver().unwrap();
    }
    assert!(interrupts.level() && count(&peer) == 1);
    interrupts.mask_intx(false).unwrap(); // the guest's end of interrupt: still pending
    assert_eq!(count(&peer), 1);
    signals.publish(set(&[]), set(&[]));
    interrupts.deliver().unwrap();
    interrupts.mask_intx(false).unwrap();
    assert!(!interrupts.level() && count(&peer) == 0);
    interrupts.mask_intx(true).unwrap();
    signals.publish(set(&[0]), set(&[0]));
    interrupts.deliver().unwrap();
    assert_eq!(count(&peer), 0);
    interrupts.mask_intx(false).unwrap();
    assert_eq!(count(&peer), 1);
    let (fd, fresh) = pair();
    interrupts.set_intx(Some(fd)).unwrap();
    assert_eq!((count(&fresh), count(&peer)), (1, 0));
    interrupts.set_control(Control { intx_off: true, ..LINE }).unwrap();
    interrupts.mask_intx(false).unwrap();
    assert_eq!(count(&fresh), 0);
    interrupts.set_control(ON).unwrap(); // MSI-X is on: there is no INTx
    interrupts.mask_intx(false).unwrap();
    assert_eq!(count(&fresh), 0);
    interrupts.set_control(LINE).unwrap();
    assert_eq!(count(&fresh), 1);
    interrupts.trigger_intx().unwrap();
    assert_eq!(count(&fresh), 1);
    interrupts.mask_intx(true).unwrap();
    interrupts.set_intx(None).unwrap(); // the mask ends with it
    interrupts.trigger_intx().unwrap();
    let (fd, last) = pair();
    interrupts.set_intx(Some(fd)).unwrap();
    assert_eq!((count(&fresh), count(&last)), (0, 1));
}

#[test]
fn intx_is_unmasked_by_an_eventfd() {
    let (signals, mut interrupts) = begin();
    let ((fd, peer), (unmask, mut resample)) = (pair(), pair());
    interrupts.set_control(LINE).unwrap();
    interrupts.resampled().unwrap();
    interrupts.set_intx(Some(fd)).unwrap();
    interrupts.set_resample(Some(unmask)).unwrap();
    signals.publish(set(&[0]), set(&[0]));
    interrupts.deliver().unwrap();
    interrupts.resampled().unwrap(); // nothing has come
    assert_eq!(count(&peer), 1);
    resample.write_all(&7u64.to_ne_bytes()).unwrap();
    assert!(interrupts.resample().is_some());
    interrupts.resampled().unwrap();
    assert_eq!((count(&peer), count(&resample)), (1, 0));
    interrupts.set_intx(None).unwrap();
    assert!(interrupts.resample().is_none());
}

#[test]
fn a_reset_closes_the_descriptors() {
    let (signals, mut interrupts, peers) = begin_open();
    signals.publish(set(&[0]), set(&[0]));
    interrupts.deliver().unwrap();
    interrupts.reset();
    signals.publish(set(&[0]), set(&[0]));
    interrupts.set_control(ON).unwrap();
    assert_eq!((counts(&peers), interrupts.sent()), (only(&[0]), 1));
}

/// A xorshift generator.
struct Random(u64);

impl Random {
    fn below(&mut self, bound: usize) -> usize {
        self.0 ^= self.0 << 13;
        self.0 ^= self.0 >> 7;
        self.0 ^= self.0 << 17;
        ((self.0 >> 11) % bound as u64) as usize
    }
}

/// Queues of a guest, the mediator that posts to them, and the logic, without descriptors.
struct Model {
    random: Random,
    logic: Logic,
    signals: Signals,
    control: Control,
    /// The vector of each queue.
    vector: [usize; VECTORS],
    /// Completions that the guest has not acknowledged.
    waiting: [u32; VECTORS],
    /// The queue has changed since the mediator's last publication.
    stirred: [bool; VECTORS],
    /// The queue's vector was signalled after its last completion, and after the vector's last change.
    told: [bool; VECTORS],
    /// INTx was signalled since it was opened, unmasked or given another eventfd last. One signal stands for all until then.
    line_told: bool,
    /// Whether the guest acknowledges nothing but what an interrupt told it.
    waits: bool,
    signalled: Vec<usize>,
}

impl Model {
    fn new(seed: u64, waits: bool) -> Self {
        let mut random = Random(seed);
        let vectors = 1 + random.below(VECTORS);
        Self {
            vector: std::array::from_fn(|_| random.below(vectors)),
            random,
            logic: Logic::default(),
            signals: Signals::new().unwrap(),
            control: Control::default(),
            waiting: [0; VECTORS],
            stirred: [false; VECTORS],
            told: [true; VECTORS],
            line_told: false,
            waits,
            signalled: Vec::new(),
        }
    }

    fn vectors(&self, wanted: impl Fn(usize) -> bool) -> VectorSet {
        (0..VECTORS)
            .filter(|&q| wanted(q) && self.waiting[q] > 0)
            .map(|q| self.vector[q])
            .collect()
    }

    fn post(&mut self, queue: usize) {
        self.waiting[queue] += 1;
        self.stirred[queue] = true;
        self.told[queue] = false;
    }

    fn acknowledge(&mut self, queue: usize) {
        let some = if self.random.below(3) == 0 {
            self.random.below(self.waiting[queue] as usize + 1) as u32
        } else {
            0
        };
        self.stirred[queue] |= self.waiting[queue] > 0;
        self.waiting[queue] = some;
    }

    fn publish(&mut self) {
        let posted = self.vectors(|q| self.stirred[q]);
        self.stirred = [false; VECTORS];
        self.signals.publish(posted, self.vectors(|_| true));
    }

    fn signal(&mut self, due: Due) {
        for queue in (0..VECTORS).filter(|&q| due.vectors.contains(self.vector[q])) {
            self.told[queue] = true;
            self.signalled.push(queue);
        }
        if due.intx {
            self.line_told = true;
            self.signalled.extend(0..VECTORS);
        }
    }

    fn deliver(&mut self) {
        let due = self.logic.news(self.signals.take());
        self.signal(due);
    }

    /// A change of the client's, or of configuration space. The guest can't be told by what was there before.
    fn change(&mut self, replaced: VectorSet, unmasks: bool, change: impl FnOnce(&mut Logic) -> Due) {
        self.deliver();
        let (open, line) = (self.logic.open(), self.logic.intx_open());
        let due = change(&mut self.logic);
        let opened = self.logic.open() & (!open | replaced);
        for queue in (0..VECTORS).filter(|&q| opened.contains(self.vector[q])) {
            self.told[queue] = false;
        }
        self.line_told &= !unmasks && (line || !self.logic.intx_open());
        self.signal(due);
    }

    fn set_control(&mut self, control: Control) {
        self.control = control;
        self.change(VectorSet::default(), false, |l| l.set_control(control));
    }

    /// One step of anybody: the drive, the guest, its client, the mediator's thread or the guest's.
    fn step(&mut self) {
        let (queue, bits) = (
            self.random.below(VECTORS),
            VectorSet::from_bits(self.random.below(512) as u16),
        );
        let flag = self.random.below(2) == 0;
        match self.random.below(32) {
            0..=8 => self.post(queue),
            9..=14 if !self.waits => self.acknowledge(queue),
            9..=14 => {
                if let Some(queue) = self.signalled.pop() {
                    self.acknowledge(queue);
                }
            }
            15..=19 => self.publish(),
            20..=23 => self.deliver(),
            24 => self.set_control(Control {
                msix: !self.control.msix,
                ..self.control
            }),
            25 => self.set_control(Control {
                msix_masked: !self.control.msix_masked,
                ..self.control
            }),
            26 => self.set_control(Control {
                intx_off: !self.control.intx_off,
                master: flag,
                ..self.control
            }),
            27 => self.change(VectorSet::default(), false, |l| l.mask_vectors(bits, flag)),
            28 => self.change(bits, false, |l| l.replace_vectors(bits, VectorSet::default())),
            29 => {
                self.change(VectorSet::default(), false, |l| {
                    l.disable_vectors();
                    Due::default()
                });
                if flag {
                    self.change(VectorSet::ALL, false, |l| {
                        l.replace_vectors(VectorSet::ALL, VectorSet::default())
                    });
                }
            }
            30 => self.change(VectorSet::default(), true, |l| l.mask_intx(flag)),
            _ => self.change(VectorSet::default(), true, |l| l.replace_intx(flag)),
        }
    }

    /// Once everything was published and delivered: each queue with completions that waits for an open vector has been told.
    fn check(&mut self) {
        self.publish();
        self.deliver();
        for queue in (0..VECTORS).filter(|&q| self.waiting[q] > 0) {
            let vector = self.vector[queue];
            assert!(
                !self.logic.open().contains(vector) || self.told[queue],
                "queue {queue} with vector {vector}"
            );
        }
        let any = self.waiting.iter().any(|&n| n > 0);
        assert!(!any || !self.logic.intx_open() || self.line_told);
    }

    /// Everything is opened. A guest that acknowledges only what interrupts tell it gets to the end.
    fn run_out(&mut self, control: Control) {
        self.set_control(control);
        self.change(VectorSet::default(), false, |l| l.mask_vectors(VectorSet::ALL, false));
        self.change(VectorSet::ALL, false, |l| {
            l.replace_vectors(VectorSet::ALL, VectorSet::default())
        });
        self.change(VectorSet::default(), true, |l| l.replace_intx(true));
        self.change(VectorSet::default(), true, |l| l.mask_intx(false));
        self.check();
        while let Some(queue) = self.signalled.pop() {
            self.acknowledge(queue);
            self.publish();
            self.deliver();
            if self.signalled.is_empty() {
                self.change(VectorSet::default(), true, |l| l.mask_intx(false));
                // the end of interrupt
            }
        }
        assert_eq!(self.waiting, [0; VECTORS]);
    }
}

/// 10^6 random interleavings of posts, head doorbells, publications, deliveries, masks and changes of the client's: no interrupt is lost.
#[test]
fn no_interrupt_is_lost() {
    for seed in 1..=1000 {
        let mut model = Model::new(0x9e37_79b9_7f4a_7c15_u64.wrapping_mul(seed), seed % 2 == 0);
        for step in 0..1000 {
            model.step();
            if step % 16 == 0 {
                model.check();
            }
        }
        model.run_out(if seed % 4 < 2 { ON } else { LINE });
    }
}

/// Three threads and eventfds: a mediator that posts, a guest's thread that delivers and is disturbed by masks and new eventfds, and a guest that reads
/// completions only after an interrupt. It gets all of them.
#[test]
fn no_interrupt_is_lost_between_threads() {
    use std::sync::atomic::{AtomicBool, AtomicU32, Ordering};
    const COMPLETIONS: u32 = 20_000;
    let signals = Arc::new(Signals::new().unwrap());
    let (posted, head, over) = (AtomicU32::new(0), AtomicU32::new(0), AtomicBool::new(false));
    let peer = eventfd();
    std::thread::scope(|scope| {
        scope.spawn(|| {
            let mut seen = (0, 0);
            while head.load(Ordering::SeqCst) < COMPLETIONS && !over.load(Ordering::SeqCst) {
                let now = (posted.load(Ordering::SeqCst), head.load(Ordering::SeqCst));
                if now.0 < COMPLETIONS && now.0 - now.1 < 8 {
                    posted.store(now.0 + 1, Ordering::SeqCst);
                }
                let now = (posted.load(Ordering::SeqCst), head.load(Ordering::SeqCst));
                let pending = if now.0 == now.1 { set(&[]) } else { set(&[6]) };
                signals.publish(if now == seen { set(&[]) } else { pending }, pending);
                seen = now;
            }
            over.store(true, Ordering::SeqCst);
        });
        scope.spawn(|| {
            let mut interrupts = Interrupts::new(Arc::clone(&signals));
            interrupts.set_control(ON).unwrap();
            let mut random = Random(7);
            while !over.load(Ordering::SeqCst) {
                match random.below(200) {
                    0 => interrupts.disable_vectors(),
                    1 => interrupts.mask_vectors(6, 1, true).unwrap(),
                    2..=11 => interrupts.mask_vectors(0, 9, false).unwrap(),
                    12..=21 => interrupts
                        .set_vectors(6, vec![Some(peer.try_clone().unwrap())])
                        .unwrap(),
                    22 => interrupts
                        .set_control(Control {
                            msix_masked: true,
                            ..ON
                        })
                        .unwrap(),
                    23..=32 => interrupts.set_control(ON).unwrap(),
                    _ => {
                        let mut fds = [PollFd::new(signals.wake(), PollFlags::POLLIN)];
                        if poll(&mut fds, 1_u8) == Ok(1) {
                            interrupts.deliver().unwrap();
                        }
                    }
                }
            }
        });
        scope.spawn(|| {
            let peer = File::from(peer.try_clone().unwrap());
            let mut quiet = 0;
            while head.load(Ordering::SeqCst) < COMPLETIONS {
                let mut fds = [PollFd::new(peer.as_fd(), PollFlags::POLLIN)];
                if poll(&mut fds, 1000_u16) == Ok(1) {
                    count(&peer);
                    head.store(posted.load(Ordering::SeqCst), Ordering::SeqCst);
                    quiet = 0;
                } else {
                    quiet += 1;
                }
                if quiet == 20 {
                    over.store(true, Ordering::SeqCst);
                    panic!("no interrupt for 20 seconds");
                }
            }
        });
    });
}
