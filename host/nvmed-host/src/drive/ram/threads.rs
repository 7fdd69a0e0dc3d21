#![forbid(unsafe_code)]
//! The threads of a drive whose store may wait for a device: one that syncs, one that writes and makes blocks zero, and some that read.
//!
//! A thread takes a task, carries it out, and sends its status to the mediator's thread; an eventfd wakes that thread. Tasks wait in a queue of each thread's
//! own, so that no Read waits for a Flush. The mediator's thread waits for none of them, for no lock either.

use std::collections::VecDeque;
use std::io;
use std::os::fd::{AsFd, BorrowedFd};
use std::sync::atomic::{AtomicBool, Ordering};
use std::sync::mpsc::{channel, Receiver, RecvTimeoutError, Sender};
use std::sync::{Arc, Mutex, PoisonError};
use std::thread::JoinHandle;
use std::time::Duration;

use nix::sys::eventfd::{EfdFlags, EventFd};

use super::carry::{Carrier, Outcome};
use super::store::{Store, Wait};
use crate::drive::command::Step;
use crate::drive::entry::Status;
use crate::drive::failure::Failure;
use crate::drive::prp::SharedMemory;

/// Threads that read. Writes to a file exclude each other, and the calls that make bytes zero, so that one thread is enough for them, and need not be woken for
/// each.
const READERS: usize = 3;
/// Bytes that are made zero by one call: others' writes to the file wait as long as it takes.
const PIECE: u64 = 1 << 20;
/// Writes that wait come before the next such piece, but no more than so many.
const WRITES: usize = 64;
/// After so long without a write room is given back that zeros have kept.
const QUIET: Duration = Duration::from_millis(100);
/// After each piece of it the thread rests as long as that took, but no shorter than this.
const REST: Duration = Duration::from_millis(1);

/// A command that was taken, and what is to be done for it.
#[derive(Debug)]
pub struct Task {
    /// The lane that it came from.
    pub lane: usize,
    /// Its identifier.
    pub command: u16,
    /// What is to be done.
    pub step: Step,
}

/// How a command went.
#[derive(Clone, Copy, Debug)]
pub struct Finished {
    /// The lane that it came from.
    pub lane: usize,
    /// Its identifier.
    pub command: u16,
    /// Its status.
    pub status: Status,
}

/// What all threads have.
struct Shared<M> {
    memory: Arc<M>,
    store: Arc<dyn Store>,
    failure: Arc<Failure>,
    /// Whether the threads are to end: what waits is dropped.
    ended: AtomicBool,
    wake: EventFd,
    /// Whether the mediator's thread was woken and has not looked yet.
    woken: AtomicBool,
}

/// What a thread has.
struct Worker<M> {
    shared: Arc<Shared<M>>,
    finished: Sender<Finished>,
}

impl<M: SharedMemory> Worker<M> {
    fn carrier(&self) -> Carrier<'_, M> {
        Carrier {
            memory: &self.shared.memory,
            store: &*self.shared.store,
            failure: &self.shared.failure,
        }
    }

    fn has_ended(&self) -> bool {
        self.shared.ended.load(Ordering::Acquire)
    }

    fn finish(&self, task: &Task, status: Status) {
        // Where nobody receives any more, the drive is being closed; and the descriptor's counter cannot be full.
        let _ = self.finished.send(Finished {
            lane: task.lane,
            command: task.command,
            status,
        });
        if !self.shared.woken.swap(true, Ordering::AcqRel) {
            let _ = self.shared.wake.write(1);
        }
    }

    /// Moves the bytes of a task.
    fn carry_out(&self, task: &mut Task) -> Status {
        match self.carrier().advance(&mut task.step, u64::MAX, Wait::Allowed).0 {
            Outcome::Done(status) => status,
            // Neither comes of a call that had all bytes and may wait.
            Outcome::More | Outcome::WouldWait => Status::WRITE_FAULT,
        }
    }

    fn read_tasks(&self, tasks: &Mutex<Receiver<Task>>) {
        loop {
            let task = tasks.lock().unwrap_or_else(PoisonError::into_inner).recv();
            match task {
                Ok(mut task) if !self.has_ended() => {
                    let status = self.carry_out(&mut task);
                    self.finish(&task, status);
                }
                _ => return,
            }
        }
    }

    /// Carries out writes, and between them a piece of each task that makes blocks zero, in turn.
    fn change(&self, tasks: &Receiver<Task>, syncs: &Sender<Task>) {
        let mut clears = VecDeque::new();
        loop {
            let first = if clears.is_empty() {
                self.next_change(tasks)
            } else {
                None
            };
            if self.has_ended() || first.is_none() && clears.is_empty() {
                return;
            }
            for mut task in first.into_iter().chain(tasks.try_iter().take(WRITES)) {
                if matches!(task.step, Step::Clear(_)) {
                    clears.push_back(task);
                } else {
                    let status = self.carry_out(&mut task);
                    self.finish(&task, status);
                }
            }
            if let Some(task) = clears.pop_front() {
                clears.extend(self.clear(task, syncs));
            }
        }
    }

    /// Waits for a task, and gives room back meanwhile. `None` where there are no more.
    fn next_change(&self, tasks: &Receiver<Task>) -> Option<Task> {
        let store = &self.shared.store;
        let mut pause = QUIET;
        while store.keeps_room() {
            match tasks.recv_timeout(pause) {
                Ok(task) => return Some(task),
                Err(RecvTimeoutError::Disconnected) => return None,
                Err(RecvTimeoutError::Timeout) => pause = store.give_back().map_or(QUIET, |taken| taken.max(REST)),
            }
        }
        tasks.recv().ok()
    }

    /// Makes a piece of a task zero. The task where more of it is left.
    fn clear(&self, mut task: Task, syncs: &Sender<Task>) -> Option<Task> {
        match self.carrier().advance(&mut task.step, PIECE, Wait::Allowed).0 {
            Outcome::More => return Some(task),
            Outcome::Done(status) if status.is_good() && task.step.is_forced() => {
                // Where nobody receives any more, the drive is being closed.
                let _ = syncs.send(Task {
                    step: Step::Sync,
                    ..task
                });
            }
            Outcome::Done(status) => self.finish(&task, status),
            Outcome::WouldWait => self.finish(&task, Status::WRITE_FAULT),
        }
        None
    }

    /// Takes all that waits to be durable: one sync serves all of it.
    fn sync_tasks(&self, tasks: &Receiver<Task>) {
        while let Ok(first) = tasks.recv() {
            if self.has_ended() {
                return;
            }
            let mut batch = vec![first];
            batch.extend(tasks.try_iter());
            if let [task] = batch.as_mut_slice() {
                if let Step::Transfer(transfer) = &mut task.step {
                    if transfer.changes() {
                        let status = self.carrier().write_durably(transfer);
                        self.finish(task, status);
                        continue;
                    }
                }
            }
            self.sync_batch(batch);
        }
    }

    /// Writes what is to be written, syncs once, and reads what is to be read then: a forced Read makes its blocks durable first.
    fn sync_batch(&self, batch: Vec<Task>) {
        let is_read = |task: &Task| matches!(task.step, Step::Transfer(_)) && !task.step.changes();
        let (reads, writes): (Vec<Task>, Vec<Task>) = batch.into_iter().partition(is_read);
        let mut written = Vec::with_capacity(writes.len());
        for mut task in writes {
            let status = if task.step.changes() {
                self.carry_out(&mut task)
            } else {
                Status::GOOD
            };
            if status.is_good() {
                written.push(task);
            } else {
                self.finish(&task, status);
            }
        }
        let status = self.carrier().sync();
        written.iter().for_each(|task| self.finish(task, status));
        for mut task in reads {
            // A drive that cannot make them durable still says what it has.
            let status = self.carry_out(&mut task);
            self.finish(&task, status);
        }
    }
}

/// The threads, and what they have finished.
pub struct Threads<M> {
    shared: Arc<Shared<M>>,
    queues: Option<Queues>,
    finished: Receiver<Finished>,
    handles: Vec<JoinHandle<()>>,
    /// Tasks that were given to the threads and whose end was not collected.
    given: usize,
}

/// Where tasks are given to the threads.
struct Queues {
    reads: Sender<Task>,
    changes: Sender<Task>,
    syncs: Sender<Task>,
}

impl<M: SharedMemory + 'static> Threads<M> {
    /// Starts the threads where the store may wait; otherwise there are none, and nothing may be given to them.
    ///
    /// # Errors
    ///
    /// Where the system gives no thread or descriptor.
    pub fn start(memory: Arc<M>, store: Arc<dyn Store>, failure: Arc<Failure>) -> io::Result<Threads<M>> {
        let wake = EventFd::from_flags(EfdFlags::EFD_CLOEXEC | EfdFlags::EFD_NONBLOCK)?;
        let waits = store.waits();
        let (ended, woken) = (AtomicBool::new(false), AtomicBool::new(false));
        let shared = Arc::new(Shared {
            memory,
            store,
            failure,
            ended,
            wake,
            woken,
        });
        let (sender, finished) = channel();
        let mut threads = Threads {
            shared,
            queues: None,
            finished,
            handles: Vec::new(),
            given: 0,
        };
        if waits {
            let (reads, for_readers) = channel();
            let (changes, for_changer) = channel();
            let (syncs, for_syncer) = channel();
            let to_syncer = syncs.clone();
            let for_readers = Arc::new(Mutex::new(for_readers));
            threads.queues = Some(Queues { reads, changes, syncs });
            for _ in 0..READERS {
                let tasks = Arc::clone(&for_readers);
                threads.spawn("drive-reads", &sender, move |worker| worker.read_tasks(&tasks))?;
            }
            threads.spawn("drive-writes", &sender, move |worker| {
                worker.change(&for_changer, &to_syncer)
            })?;
            threads.spawn("drive-syncs", &sender, move |worker| worker.sync_tasks(&for_syncer))?;
        }
        Ok(threads)
    }

    fn spawn(
        &mut self,
        name: &str,
        finished: &Sender<Finished>,
        run: impl FnOnce(&Worker<M>) + Send + 'static,
    ) -> io::Result<()> {
        let worker = Worker {
            shared: Arc::clone(&self.shared),
            finished: finished.clone(),
        };
        self.handles.push(
            std::thread::Builder::new()
                .name(name.to_owned())
                .spawn(move || run(&worker))?,
        );
        Ok(())
    }
}

impl<M> Threads<M> {
    /// Gives a task to the threads. False, and nothing happens, where there are none.
    #[must_use]
    pub fn give(&mut self, task: Task) -> bool {
        let Some(queues) = &self.queues else { return false };
        let queue = match &task.step {
            Step::Clear(_) => &queues.changes,
            Step::Transfer(transfer) if !transfer.forced && transfer.changes() => &queues.changes,
            Step::Transfer(transfer) if !transfer.forced => &queues.reads,
            Step::Transfer(_) | Step::Sync => &queues.syncs,
        };
        let is_given = queue.send(task).is_ok();
        self.given += usize::from(is_given);
        is_given
    }

    /// The next task that was finished, if there is one.
    pub fn collect(&mut self) -> Option<Finished> {
        if self.given == 0 {
            return None;
        }
        let finished = self.finished.try_recv().ok()?;
        self.given -= 1;
        Some(finished)
    }

    /// Becomes readable where tasks were finished.
    pub fn wake(&self) -> BorrowedFd<'_> {
        self.shared.wake.as_fd()
    }

    /// Takes what made it readable. What is finished from now on makes it readable again.
    pub fn woken(&self) {
        // Nothing to read is no error.
        let _ = self.shared.wake.read();
        self.shared.woken.store(false, Ordering::Release);
    }

    /// Waits until each thread has carried out what it is at, and ends them. What waits is dropped.
    pub fn end(&mut self) {
        self.shared.ended.store(true, Ordering::Release);
        self.queues = None;
        for handle in self.handles.drain(..) {
            if handle.join().is_err() {
                tracing::error!("a thread of the drive ended by a panic");
            }
        }
    }
}

impl<M> Drop for Threads<M> {
    fn drop(&mut self) {
        self.end();
    }
}
