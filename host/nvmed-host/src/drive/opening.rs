//! A drive that is opened by a thread of its own, while guests are served already: what they ask of the drive waits until it is there.
//!
//! A client of vfio-user waits five seconds for a reply, and a drive may take longer than that until it is ready. So the mediator begins without it.

#![forbid(unsafe_code)]

use std::os::fd::{AsFd, BorrowedFd};
use std::sync::mpsc::{channel, Receiver, RecvTimeoutError, Sender, TryRecvError};
use std::sync::Arc;
use std::thread::Builder;
use std::time::Duration;

use nix::errno::Errno;
use nix::sys::eventfd::{EfdFlags, EventFd};

use super::nvme::Recover;
use super::{Budget, Drive, DriveError, LaneRings, Progress};

/// How long the end waits for a drive that is still being opened.
const CLOSE_WAIT: Duration = Duration::from_secs(10);

/// Opens a drive. It may wait for it.
pub type Open = Box<dyn FnOnce() -> Result<Box<dyn Drive>, DriveError> + Send>;
/// Is told what became of it: the line on the drive, or why there is none.
pub type Tell = Box<dyn FnOnce(Result<String, DriveError>) + Send>;

/// The doorbells of a lane that were rung before the drive was there.
#[derive(Clone, Copy, Debug, Default)]
struct Rung {
    tail: Option<u32>,
    head: Option<u32>,
}

enum State {
    /// It is opened once its lanes are known.
    Idle(Open, Tell),
    /// A thread opens it.
    Opening(Receiver<Box<dyn Drive>>),
    /// It is there.
    Open(Box<dyn Drive>),
    /// It could not be opened, which was told.
    Failed,
}

/// A drive that is opened when its lanes are created, without a wait.
pub struct OpeningDrive {
    state: State,
    /// By lane.
    rung: Vec<Rung>,
    /// Readable once the drive is there.
    ready: Arc<EventFd>,
}

impl OpeningDrive {
    /// One that `open` opens. Whether it did is told by `tell`, in another thread; where it did not, commands wait for ever.
    ///
    /// # Errors
    ///
    /// There are no descriptors left.
    pub fn new(open: Open, tell: Tell) -> Result<Self, Errno> {
        let flags = EfdFlags::EFD_CLOEXEC | EfdFlags::EFD_NONBLOCK;
        Ok(Self {
            state: State::Idle(open, tell),
            rung: Vec::new(),
            ready: Arc::new(EventFd::from_value_and_flags(0, flags)?),
        })
    }

    /// The drive, where it is there: it has got the doorbells that were rung before.
    fn drive(&mut self) -> Result<Option<&mut (dyn Drive + 'static)>, DriveError> {
        if let State::Opening(came) = &self.state {
            match came.try_recv() {
                Ok(mut drive) => {
                    for (lane, rung) in self.rung.drain(..).enumerate() {
                        if let Some(head) = rung.head {
                            drive.ring_completion(lane, head)?;
                        }
                        if let Some(tail) = rung.tail {
                            drive.ring_submission(lane, tail)?;
                        }
                    }
                    self.state = State::Open(drive);
                }
                Err(TryRecvError::Disconnected) => self.state = State::Failed,
                Err(TryRecvError::Empty) => {}
            }
        }
        Ok(match &mut self.state {
            State::Open(drive) => Some(drive.as_mut()),
            _ => None,
        })
    }

    /// Closes the drive, which may come so much later.
    fn close_within(self, most: Duration) -> Result<(), DriveError> {
        match self.state {
            State::Open(drive) => drive.close(),
            State::Opening(came) => match came.recv_timeout(most) {
                Ok(drive) => drive.close(),
                Err(RecvTimeoutError::Disconnected) => Ok(()),
                Err(RecvTimeoutError::Timeout) => Err(DriveError::Failed(format!(
                    "it was still being opened {most:?} later, and is left as it is"
                ))),
            },
            State::Idle(..) | State::Failed => Ok(()),
        }
    }

    fn keep(&mut self, lane: usize, keep: impl FnOnce(&mut Rung)) -> Result<(), DriveError> {
        let rung = self.rung.get_mut(lane);
        rung.map(keep)
            .ok_or_else(|| DriveError::Failed(format!("there is no lane {lane}")))
    }
}

/// The drive, with its lanes. The first error is the one that counts.
fn open_with_lanes(open: Open, lanes: &[LaneRings]) -> Result<Box<dyn Drive>, DriveError> {
    let mut drive = open()?;
    if let Err(error) = drive.create_lanes(lanes) {
        let _second = drive.close();
        return Err(error);
    }
    Ok(drive)
}

/// Opens the drive, and then wakes who waits for it.
fn work(open: Open, lanes: &[LaneRings], tell: Tell, here: &Sender<Box<dyn Drive>>, ready: &EventFd) {
    let told = open_with_lanes(open, lanes).map(|drive| {
        let words = drive.describe();
        if let Err(unwanted) = here.send(drive) {
            // nobody waits for it any more
            let _closed = unwanted.0.close();
        }
        words
    });
    tell(told);
    // the counter has room, and a look once a second finds the drive, too
    let _written = ready.write(1);
}

impl Drive for OpeningDrive {
    /// Begins to open the drive.
    fn create_lanes(&mut self, lanes: &[LaneRings]) -> Result<(), DriveError> {
        let State::Idle(open, tell) = std::mem::replace(&mut self.state, State::Failed) else {
            return Err(DriveError::Unusable("its lanes were created before".to_owned()));
        };
        self.rung = vec![Rung::default(); lanes.len()];
        let (here, came) = channel();
        let (lanes, ready) = (lanes.to_vec(), Arc::clone(&self.ready));
        Builder::new()
            .name("drive-open".to_owned())
            .spawn(move || work(open, &lanes, tell, &here, &ready))
            .map_err(|error| DriveError::Unusable(format!("there is no thread that opens it: {error}")))?;
        self.state = State::Opening(came);
        Ok(())
    }

    fn ring_submission(&mut self, lane: usize, tail: u32) -> Result<(), DriveError> {
        match self.drive()? {
            Some(drive) => drive.ring_submission(lane, tail),
            None => self.keep(lane, |rung| rung.tail = Some(tail)),
        }
    }

    fn ring_completion(&mut self, lane: usize, head: u32) -> Result<(), DriveError> {
        match self.drive()? {
            Some(drive) => drive.ring_completion(lane, head),
            None => self.keep(lane, |rung| rung.head = Some(head)),
        }
    }

    fn work(&mut self, budget: Budget) -> Result<Progress, DriveError> {
        match self.drive()? {
            Some(drive) => drive.work(budget),
            None => Ok(Progress::default()),
        }
    }

    fn check(&mut self) -> Result<(), DriveError> {
        match self.drive()? {
            Some(drive) => drive.check(),
            None => Ok(()),
        }
    }

    fn wake(&self) -> Option<BorrowedFd<'_>> {
        match &self.state {
            State::Open(drive) => drive.wake(),
            _ => Some(self.ready.as_fd()),
        }
    }

    fn woken(&mut self) {
        match &mut self.state {
            State::Open(drive) => drive.woken(),
            // an eventfd that nobody has written stays as it is
            _ => drop(self.ready.read()),
        }
    }

    fn recover(&mut self) -> Option<&mut dyn Recover> {
        match self.state {
            State::Open(ref mut drive) => drive.recover(),
            _ => Some(self),
        }
    }

    fn describe(&self) -> String {
        match &self.state {
            State::Open(drive) => drive.describe(),
            _ => "being opened".to_owned(),
        }
    }

    fn close(self: Box<Self>) -> Result<(), DriveError> {
        self.close_within(CLOSE_WAIT)
    }
}

/// A drive that is being opened is not silent: opening has limits of its own.
impl Recover for OpeningDrive {
    fn oldest(&self, _lane: usize) -> Option<Duration> {
        None
    }

    fn abort(&mut self, _lane: usize) -> Result<(), DriveError> {
        Ok(())
    }

    fn reset(&mut self) -> Result<(), DriveError> {
        Ok(())
    }

    fn is_recovering(&self) -> bool {
        true
    }
}

#[cfg(test)]
mod tests;
