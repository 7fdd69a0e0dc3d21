//! A guest's thread: its client's connection, its memory, its interrupts, and the process of its machine.
//!
//! Whatever a client makes slow, such as a message, a write of an eventfd or the close of a descriptor, holds up this thread alone. What is wrong ends this
//! connection alone.

#![forbid(unsafe_code)]

pub mod function;
pub mod said;

use std::ffi::OsString;
use std::io::ErrorKind;
use std::os::fd::{AsFd, BorrowedFd, OwnedFd};
use std::sync::mpsc::Sender as Reporter;
use std::sync::Arc;
use std::time::{Duration, Instant};

use nix::errno::Errno;
use nix::poll::{poll, PollFd, PollFlags, PollTimeout};

use crate::board::Board;
use crate::doorbells::{Page, PageError};
use crate::interrupts::{InterruptError, Signals};
use crate::machine::Machine;
use crate::mediation::mailbox::Gone;
use crate::mediation::outbox::{News, Outbox};
use crate::mediation::wake::Bell;
use crate::memory::{GuestMemory, MapRequest};
use crate::process::{Listener, Process, ProcessError, STOP_WAIT};
use crate::vfio_user::{
    pci_region, Answer, Connection, DeviceError, DmaMap, Error as ConnectionError, RegionRead, RegionWrite, Request,
    SmallWrite, Ticket,
};
use function::{Function, FunctionError};
use said::Lines;

/// A thread that waits looks around so often, whether something has happened or not.
const ROUND: Duration = Duration::from_secs(1);
/// How often a process is looked at that may end.
const LOOK: Duration = Duration::from_millis(100);
/// Bytes of the longest read of a region that is answered.
const MOST_READ: usize = crate::pci::BAR_BYTES as usize;

/// Where a guest's client comes from.
#[derive(Debug)]
pub enum Source {
    /// Clients connect, one after the other.
    Listen(Listener),
    /// One client, a QEMU that the guest's thread starts with these words.
    Start {
        /// The words.
        words: Vec<OsString>,
        /// The type of its machine.
        machine: Machine,
    },
}

/// What a guest's thread reports to the program's.
#[derive(Debug)]
pub enum Report {
    /// Clients can connect, or the guest's QEMU was started; or why not.
    Begun(usize, Result<(), ProcessError>),
    /// The guest has ended: nobody will connect any more.
    Over(usize),
}

/// Where it reports, and the bell of whoever reads it.
#[derive(Clone, Debug)]
pub struct Reports {
    /// The queue.
    pub queue: Reporter<Report>,
    /// The bell.
    pub bell: Arc<Bell>,
}

impl Reports {
    fn send(&self, report: Report) {
        // the program is at its end where nobody reads it
        let _ended = self.queue.send(report);
        self.bell.ring();
    }
}

/// How clients come.
#[derive(Debug)]
enum Clients {
    /// One after the other.
    Listen(Listener),
    /// A QEMU that was started, which connects once.
    Started(Process, Option<Listener>),
    /// Nobody comes.
    Nobody,
}

/// What a guest's thread is made from.
pub struct Parts {
    /// Its number.
    pub number: usize,
    /// Its memory.
    pub memory: GuestMemory,
    /// Its function.
    pub function: Function,
    /// What it is told by the mediator's thread and the program.
    pub outbox: Arc<Outbox>,
    /// Its interrupts.
    pub signals: Arc<Signals>,
    /// Whether its doorbells are in a page that its client may map.
    pub page: bool,
    /// Whether it has an interrupt pin.
    pub pin: bool,
    /// Where its client comes from.
    pub source: Source,
    /// Where it shows what has become of it.
    pub board: Arc<Board>,
    /// Where it reports.
    pub reports: Reports,
}

impl Parts {
    /// Whether clients connect by themselves.
    #[must_use]
    pub fn listens(&self) -> bool {
        matches!(self.source, Source::Listen(_))
    }
}

/// Why a connection is over.
#[derive(Debug, thiserror::Error)]
enum Lost {
    #[error("{0}")]
    Connection(#[from] ConnectionError),
    #[error("{0}")]
    Interrupt(InterruptError),
    #[error("its memory was cut off: whoever may write its file has made it shorter")]
    CutOff,
    #[error("it cannot have a page for its doorbells: {0}")]
    Page(#[from] PageError),
    #[error("it cannot have a function: {0}")]
    Device(#[from] DeviceError),
    #[error("its connection cannot be waited for: {0}")]
    Wait(Errno),
    #[error(transparent)]
    Gone(#[from] Gone),
    #[error("the program ends")]
    Stop,
}

impl From<FunctionError> for Lost {
    fn from(error: FunctionError) -> Self {
        match error {
            FunctionError::Refused(error) | FunctionError::Fatal(error) => Self::Interrupt(error),
            FunctionError::Gone(gone) => Self::Gone(gone),
        }
    }
}

impl Lost {
    /// Whether the whole program is at its end.
    fn is_end(&self) -> bool {
        matches!(self, Self::Stop | Self::Gone(_))
    }
}

/// A guest, as its thread has it.
pub struct Guest {
    number: usize,
    memory: GuestMemory,
    function: Function,
    outbox: Arc<Outbox>,
    signals: Arc<Signals>,
    page: bool,
    pin: bool,
    source: Option<Source>,
    clients: Clients,
    board: Arc<Board>,
    reports: Reports,
    lines: Lines,
    /// Its memory was shown whole on this connection.
    complete: bool,
    /// The program ends.
    stopped: bool,
    buffer: Vec<u8>,
}

impl Guest {
    /// A guest to which nobody is connected.
    #[must_use]
    pub fn new(parts: Parts) -> Self {
        Self {
            number: parts.number,
            memory: parts.memory,
            function: parts.function,
            outbox: parts.outbox,
            signals: parts.signals,
            page: parts.page,
            pin: parts.pin,
            source: Some(parts.source),
            clients: Clients::Nobody,
            board: parts.board,
            reports: parts.reports,
            lines: Lines::new(parts.number),
            complete: false,
            stopped: false,
            buffer: Vec::new(),
        }
    }

    /// Serves one client after the other; of a QEMU that is started here that one alone. Until the program ends.
    pub fn run(mut self) {
        let begun = self.begin();
        let good = begun.is_ok();
        self.reports.send(Report::Begun(self.number, begun));
        if good {
            self.serve_all();
        }
        if let Some(shown) = self.board.guests.get(self.number) {
            shown.end();
        }
        self.reports.send(Report::Over(self.number));
        self.end();
        self.lines.count();
    }

    /// A QEMU ends with the thread that started it: so this is the guest's own.
    fn begin(&mut self) -> Result<(), ProcessError> {
        self.clients = match (self.source.take(), self.memory.file()) {
            (Some(Source::Listen(listener)), _) => Clients::Listen(listener),
            (Some(Source::Start { words, machine }), Some(file)) => {
                let (process, listener) = Process::start(&words, machine, file)?;
                Clients::Started(process, Some(listener))
            }
            _ => Clients::Nobody,
        };
        Ok(())
    }

    fn serve_all(&mut self) {
        while let Ok(Some(socket)) = self.next_client() {
            let lost = match self.serve(socket) {
                Ok(never) => match never {},
                Err(lost) => lost,
            };
            match lost {
                Lost::Connection(ConnectionError::Closed) => self.lines.say(&lost),
                Lost::Stop | Lost::Gone(_) => {}
                _ => self.lines.warn(&lost),
            }
            if self.end_connection().is_err() || lost.is_end() {
                break;
            }
        }
        self.await_process(STOP_WAIT);
    }

    /// The next client: `None` where there will be none.
    fn next_client(&mut self) -> Result<Option<OwnedFd>, Lost> {
        loop {
            let (listener, most) = match &mut self.clients {
                Clients::Listen(listener) => (listener, ROUND),
                Clients::Started(process, Some(listener)) => match process.ended() {
                    Some(_) => return Ok(None),
                    None => (listener, LOOK),
                },
                _ => return Ok(None),
            };
            let accepted = match listener.accept() {
                Ok(Some(socket)) => Some(socket),
                Ok(None) => {
                    wait(&[listener.as_fd(), self.outbox.fd()], most).map_err(Lost::Wait)?;
                    None
                }
                // there is nothing to wait for: this one is gone
                Err(error) if error.kind() == ErrorKind::PermissionDenied => {
                    self.lines.warn(format_args!("a connection is refused: {error}"));
                    None
                }
                // such as too many open files: it is tried again later; until then the socket stays readable, so it is not looked at
                Err(error) => {
                    self.lines.warn(format_args!("its connection cannot be taken: {error}"));
                    wait(&[self.outbox.fd()], LOOK).map_err(Lost::Wait)?;
                    None
                }
            };
            self.stopped |= self.outbox.take().stop;
            if self.stopped {
                return Err(Lost::Stop);
            }
            if accepted.is_some() {
                if let Clients::Started(_, listener) = &mut self.clients {
                    *listener = None;
                }
                return Ok(accepted);
            }
        }
    }

    /// Waits for the end of the guest's own process, where it has one, and says how it ended: but no longer than that, nor than the program goes on.
    fn await_process(&mut self, most: Duration) {
        let Clients::Started(process, _) = &mut self.clients else {
            return;
        };
        let begin = Instant::now();
        loop {
            if let Some(ended) = process.ended() {
                self.lines.say(format_args!("its process {ended}"));
                self.clients = Clients::Nobody;
                return;
            }
            if self.stopped || begin.elapsed() >= most {
                return;
            }
            // what wakes it before is looked at in the next round
            let _woken = wait(&[self.outbox.fd()], LOOK);
            self.stopped |= self.outbox.take().stop;
        }
    }

    /// A QEMU that goes on without its drive may do so until the program ends.
    fn end(&mut self) {
        self.await_process(Duration::MAX);
        if let Clients::Started(process, _) = &mut self.clients {
            process.stop(STOP_WAIT);
        }
    }

    /// Serves a client, until the connection is over.
    fn serve(&mut self, socket: OwnedFd) -> Result<std::convert::Infallible, Lost> {
        let page = self.page.then(Page::new).transpose()?.map(Arc::new);
        let device = function::device(page.as_deref(), self.pin)?;
        let mut connection = Connection::new(socket, Arc::new(device))?;
        self.complete = false;
        self.function.connect(page)?;
        loop {
            let (found, news) = self.wait(&connection)?;
            self.take_news(news)?;
            self.function.deliver()?;
            self.function.resampled()?;
            self.show_interrupts();
            connection.ready(found)?;
            while let Some((request, ticket)) = connection.next_request()? {
                self.answer(&mut connection, request, ticket)?;
            }
            connection.check(Instant::now())?;
        }
    }

    /// Shows how many eventfds of its clients were written.
    fn show_interrupts(&self) {
        if let Some(shown) = self.board.guests.get(self.number) {
            shown.figures.interrupts.set(self.function.interrupts().sent());
        }
    }

    /// Waits until there is something. What is found at the socket, and news.
    fn wait(&self, connection: &Connection) -> Result<(PollFlags, bool), Lost> {
        let now = Instant::now();
        let most = connection
            .deadline()
            .map_or(ROUND, |end| end.saturating_duration_since(now).min(ROUND));
        let resample = self.function.interrupts().resample();
        let mut fds = vec![
            PollFd::new(connection.as_fd(), connection.events()),
            PollFd::new(self.outbox.fd(), PollFlags::POLLIN),
            PollFd::new(self.signals.wake(), PollFlags::POLLIN),
        ];
        fds.extend(resample.map(|fd| PollFd::new(fd, PollFlags::POLLIN)));
        match poll(&mut fds, timeout(most)) {
            Ok(_) | Err(Errno::EINTR) => {}
            Err(errno) => return Err(Lost::Wait(errno)),
        }
        let found = fds.first().and_then(|fd| fd.revents()).unwrap_or(PollFlags::empty());
        let news = fds.get(1).and_then(|fd| fd.any()).unwrap_or(false);
        Ok((found, news))
    }

    fn take_news(&mut self, are_there: bool) -> Result<(), Lost> {
        if !are_there {
            return Ok(());
        }
        let News { cut_off, stop, .. } = self.outbox.take();
        self.stopped |= stop;
        if stop {
            return Err(Lost::Stop);
        }
        if cut_off && self.memory.faults() > 0 {
            return Err(Lost::CutOff);
        }
        Ok(())
    }

    /// The client is gone: its controller is reset, and once its commands have run out its memory goes.
    fn end_connection(&mut self) -> Result<(), Lost> {
        self.function.disconnect()?;
        loop {
            let news = self.outbox.take();
            self.stopped |= news.stop;
            // the end may have been told while the client was served
            if self.stopped {
                return Err(Lost::Stop);
            }
            if news.run_out {
                break;
            }
            wait(&[self.outbox.fd()], ROUND).map_err(Lost::Wait)?;
        }
        if let Err(error) = self.memory.restart() {
            // its place has the memory that it had: the next client's cannot be put there
            self.lines.warn(error);
            self.clients = Clients::Nobody;
            if let Some(shown) = self.board.guests.get(self.number) {
                shown.fail();
            }
        }
        Ok(())
    }

    /// Carries out a request, and answers it.
    fn answer(&mut self, connection: &mut Connection, request: Request, ticket: Ticket) -> Result<(), Lost> {
        match request {
            Request::DmaMap(map) => {
                let answer = self.map(map);
                connection.answer(ticket, answer)?;
            }
            // what was shown stays mapped until the connection is over: commands may be on their way there
            Request::DmaUnmap(_) => connection.answer(ticket, Answer::Done)?,
            Request::RegionRead(read) => {
                let mut buffer = std::mem::take(&mut self.buffer);
                let result = self.read(read, &mut buffer);
                match result {
                    Ok(true) => connection.answer(ticket, Answer::Data(&buffer))?,
                    Ok(false) => connection.answer(ticket, Answer::Refused(Errno::EINVAL))?,
                    Err(gone) => return Err(gone.into()),
                }
                self.buffer = buffer;
            }
            Request::RegionWrite(RegionWrite { region, offset, data }) if region == pci_region::CONFIG => {
                // such a write is not posted on a bus: whatever the guest does after its reply, a store into the doorbell page among it, comes after what it did
                self.write(region, offset, &data)?;
                self.function.settle()?;
                connection.answer(ticket, Answer::Done)?;
            }
            Request::RegionWrite(RegionWrite { region, offset, data }) => {
                // it is posted, as on a bus: the guest goes on, and whatever it asks for next sees what it did
                connection.answer(ticket, Answer::Done)?;
                self.write(region, offset, &data)?;
            }
            Request::WriteMulti(writes) => {
                connection.answer(ticket, Answer::Done)?;
                for write in writes {
                    let SmallWrite { region, offset, .. } = write;
                    self.write(region, offset, write.data())?;
                }
            }
            Request::SetIrqs(irqs) => match self.function.set_irqs(irqs) {
                Ok(()) => connection.answer(ticket, Answer::Done)?,
                Err(FunctionError::Refused(error)) => {
                    self.lines.warn(error);
                    connection.answer(ticket, Answer::Refused(Errno::EINVAL))?;
                }
                Err(error) => return Err(error.into()),
            },
            Request::Reset => {
                self.function.reset()?;
                connection.answer(ticket, Answer::Done)?;
            }
        }
        Ok(())
    }

    /// What a client says of its machine's memory. Without a descriptor it is not the machine's RAM, and is never used.
    fn map(&mut self, map: DmaMap) -> Answer<'static> {
        let Some(fd) = map.fd else { return Answer::Done };
        let compared = MapRequest {
            address: map.address,
            bytes: map.bytes,
            offset: map.offset,
            readable: map.readable,
            writable: map.writable,
        };
        match self.memory.map(&compared, fd) {
            Ok(_part) => {
                self.complete = self.memory.is_complete();
                Answer::Done
            }
            Err(error) => {
                self.lines.warn(&error);
                Answer::Refused(Errno::from_raw(error.errno()))
            }
        }
    }

    /// Reads a region: whether there is such a read.
    fn read(&mut self, read: RegionRead, into: &mut Vec<u8>) -> Result<bool, Gone> {
        let count = read.count as usize;
        if count > MOST_READ {
            return Ok(false);
        }
        into.clear();
        into.resize(count, 0);
        match read.region {
            pci_region::CONFIG => self.function.read_config(read.offset, into),
            pci_region::BAR0 => self.function.read_bar(read.offset, into)?,
            _ => {}
        }
        Ok(true)
    }

    /// A write of a region. The controller of a guest whose memory is not there yet is not written.
    fn write(&mut self, region: u32, offset: u64, data: &[u8]) -> Result<(), Lost> {
        match region {
            pci_region::CONFIG => self.function.write_config(offset, data)?,
            pci_region::BAR0 if self.complete => self.function.write_bar(offset, data)?,
            pci_region::BAR0 => {
                let missing = self.memory.missing().unwrap_or(0..0);
                self.lines.warn(format_args!(
                    "its controller is not served before all of its machine's memory is there: {:#x} to {:#x} is missing",
                    missing.start, missing.end
                ));
            }
            _ => {}
        }
        Ok(())
    }
}

/// Waits until one of the descriptors is readable, but no longer than that.
fn wait(fds: &[BorrowedFd<'_>], most: Duration) -> Result<(), Errno> {
    let mut fds: Vec<PollFd<'_>> = fds.iter().map(|fd| PollFd::new(*fd, PollFlags::POLLIN)).collect();
    match poll(&mut fds, timeout(most)) {
        Ok(_) | Err(Errno::EINTR) => Ok(()),
        Err(errno) => Err(errno),
    }
}

/// A time as `poll` takes it: whole milliseconds, rounded up.
fn timeout(most: Duration) -> PollTimeout {
    PollTimeout::try_from(most + Duration::from_micros(999)).unwrap_or(PollTimeout::MAX)
}
