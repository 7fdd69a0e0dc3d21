//! The whole program: a drive, the mediator over it, and guests.

#![forbid(unsafe_code)]

use std::io;
use std::os::fd::AsFd;
use std::sync::mpsc::{channel, Receiver};
use std::sync::Arc;
use std::thread::{self, JoinHandle};
use std::time::{Duration, Instant};

use nix::errno::Errno;
use nix::poll::{poll, PollFd, PollFlags};
use nix::sys::resource::{getrlimit, setrlimit, Resource};
use nvmed::Mediator;
use vm_memory::VolatileSlice;

use crate::board::Board;
use crate::config::{Config, Connection, Doorbells, DriveConfig, GuestConfig, Interrupts, BLOCK};
use crate::control::desk::{Desk, Facts};
use crate::control::Control;
use crate::drive::file::FileDrive;
use crate::drive::nvme::Needs;
use crate::drive::opening::{Open, OpeningDrive, Tell};
use crate::drive::passthrough::PassthroughDrive;
use crate::drive::prp::SharedMemory;
use crate::drive::qtest::FoundQemu;
use crate::drive::ram::RamDrive;
use crate::drive::reached::Reached;
use crate::drive::vfio::VfioDrive;
use crate::drive::DriveError;
use crate::guest::function::Function;
use crate::guest::{self, Guest, Report, Reports, Source};
use crate::interrupts::Signals as VectorSignals;
use crate::layout::{Layout, LayoutError, Room, ALL};
use crate::mediation::mailbox::mailbox;
use crate::mediation::orders::Orders;
use crate::mediation::outbox::Outbox;
use crate::mediation::side::Library;
use crate::mediation::wake::Bell;
use crate::mediation::{self, Counts, End, Mediation, Post, Stop};
use crate::memory::{FileError, GuestFile, GuestMemory, MemoryError, Trust, Window};
use crate::process::{user_of, Listener, ProcessError, STOP_WAIT};
use crate::signals::Signals;
use crate::statistics::{Owners, Statistics, ENTRY_BYTES};

/// How long a guest's process has to begin.
const BEGIN_WAIT: Duration = Duration::from_secs(10);
/// How long a guest's thread has to end: one that a client holds up is left behind.
const END_WAIT: Duration = STOP_WAIT.saturating_add(Duration::from_secs(1));
/// How long the program sleeps at most.
const ROUND: u16 = 1_000;

/// Why the program cannot begin.
#[derive(Debug, thiserror::Error)]
pub enum HostError {
    /// Memory does not fit.
    #[error(transparent)]
    Layout(#[from] LayoutError),
    /// Memory cannot be had.
    #[error(transparent)]
    Memory(#[from] MemoryError),
    /// A file of memory cannot be used.
    #[error("guest {guest} (line {line}): {error}")]
    File {
        /// The guest.
        guest: usize,
        /// Its line.
        line: u32,
        /// Why not.
        error: FileError,
    },
    /// The file of the drive's QEMU cannot be used.
    #[error("line {line}: {error}")]
    DriveFile {
        /// The drive's line.
        line: u32,
        /// Why not.
        error: FileError,
    },
    /// The mediator refuses the set-up.
    #[error("the mediator refuses the set-up: {0}")]
    Library(#[from] nvmed::Error),
    /// The drive cannot be used.
    #[error("line {line}: the drive: {error}")]
    Drive {
        /// Its line.
        line: u32,
        /// Why not.
        error: DriveError,
    },
    /// A guest's client cannot come.
    #[error("guest {guest} (line {line}): {error}")]
    Process {
        /// The guest.
        guest: usize,
        /// The line of its connection.
        line: u32,
        /// Why not.
        error: ProcessError,
    },
    /// A guest's thread did not begin in time.
    #[error("a guest did not begin within {} seconds", BEGIN_WAIT.as_secs())]
    Late,
    /// The control socket cannot be listened on.
    #[error("the control socket (line {line}): {error}")]
    Control {
        /// Its line.
        line: u32,
        /// Why not.
        error: ProcessError,
    },
    /// The kernel has no descriptor or no thread left.
    #[error("a thread or descriptor cannot be had: {0}")]
    Kernel(#[from] io::Error),
}

impl From<Errno> for HostError {
    fn from(errno: Errno) -> Self {
        Self::Kernel(errno.into())
    }
}

/// How the program ended.
#[derive(Clone, Copy, Debug, PartialEq, Eq)]
pub enum Outcome {
    /// All guests have ended, or a signal came, and the drive has all that was written.
    Good,
    /// The drive has failed, or could not be closed well.
    DriveFailed,
}

/// A guest's thread, as the program has it.
struct Thread {
    number: usize,
    outbox: Arc<Outbox>,
    handle: JoinHandle<()>,
}

/// The program at work. Where it is dropped before [`Host::end`] its threads go on.
pub struct Host {
    mediation: JoinHandle<End>,
    stop: Stop,
    threads: Vec<Thread>,
    /// Guests whose QEMUs are started once the drive is there.
    waiting: Vec<guest::Parts>,
    reports: Receiver<Report>,
    opened: Receiver<Result<String, DriveError>>,
    bell: Arc<Bell>,
    board: Arc<Board>,
    control: Option<Control>,
    /// Whether an operator has asked for the end.
    ending: Stop,
    lines: Lines,
    /// Guests that have not begun, of those that have threads; and how long they may take.
    beginning: usize,
    begin_by: Instant,
    /// Guests that have not ended.
    left: usize,
}

/// Lines of the configuration, for errors.
struct Lines {
    drive: u32,
    connections: Vec<u32>,
}

impl SharedMemory for Window {
    fn slice(&self, host: u64, len: usize) -> Option<VolatileSlice<'_>> {
        Window::slice(self, host, len)
    }
}

struct Counted(Statistics);

impl Counts for Counted {
    fn note(&mut self, _guest: usize, entry: &[u8; ENTRY_BYTES]) {
        self.0.count(entry);
    }

    fn tick(&mut self) {
        tracing::info!("{}", self.0.take());
    }
}

impl Host {
    /// Makes memory and mediator as the configuration says, lets clients connect, and begins to open the drive. `counting`: each second has a line of what
    /// the drive was given.
    ///
    /// # Errors
    ///
    /// See [`HostError`]. Nothing goes on then.
    pub fn begin(config: &Config, counting: bool) -> Result<Self, HostError> {
        Self::begin_over(config, counting, |layout, window| find_drive(config, layout, window))
    }

    /// The same over a drive that `find` finds: before anybody else uses the window it says what will open the drive.
    ///
    /// # Errors
    ///
    /// See [`HostError`]. Nothing goes on then.
    pub fn begin_over(
        config: &Config,
        counting: bool,
        find: impl FnOnce(&Layout, &Arc<Window>) -> Result<Open, DriveError>,
    ) -> Result<Self, HostError> {
        raise_limits();
        let layout = plan(config)?;
        let window = Window::reserve(layout.bytes)?;
        let _drives_file = map_own(config, &layout, &window)?;
        let memories = map_guests(config, &layout, &window)?;
        let mediator = set_up(config, &layout, &window)?;
        let open = find(&layout, &window).map_err(|error| drive_error(config, error))?;
        let sources = listen(config)?;
        let listener = listen_for_operators(config)?;
        let own_bell = Arc::new(Bell::new()?);
        let ending = Stop::new(Arc::clone(&own_bell));
        let (tell, opened) = teller(&own_bell);
        let bell = Arc::new(Bell::new()?);
        let board = Arc::new(Board::new(config.lanes as usize, config.guests.len())?);
        let limits: Vec<_> = config.guests.iter().map(|guest| guest.limit).collect();
        let orders = Arc::new(Orders::new(Arc::clone(&bell), &limits));
        let (queue, reports) = channel();
        let reporter = Reports {
            queue,
            bell: Arc::clone(&own_bell),
        };
        let guests = config.guests.iter().zip(memories).zip(sources).enumerate();
        let (posts, parts) = guests
            .map(|(number, ((is, memory), source))| ends(number, is, memory, source, &bell, &board, &reporter))
            .collect::<Result<(Vec<_>, Vec<_>), _>>()?;
        let mediation = Mediation::new(mediation::Parts {
            side: Library::new(mediator),
            lanes: config.lanes as usize,
            window,
            drive: Box::new(OpeningDrive::new(open, tell)?),
            posts,
            bell,
            orders: Arc::clone(&orders),
            board: Arc::clone(&board),
            spin: config.spin,
            counts: counting.then(|| counts(config)),
        })
        .map_err(|error| drive_error(config, error))?;
        let stop = mediation.stop();
        let mediation = thread::Builder::new()
            .name("mediator".to_owned())
            .spawn(move || mediation.run())?;
        let (listening, waiting) = parts.into_iter().partition(guest::Parts::listens);
        let mut host = Self {
            mediation,
            stop,
            control: None,
            ending: ending.clone(),
            threads: Vec::new(),
            waiting,
            reports,
            opened,
            bell: own_bell,
            board: Arc::clone(&board),
            lines: Lines {
                drive: config.drive_line,
                connections: config.guests.iter().map(|guest| guest.lines.connection).collect(),
            },
            beginning: 0,
            begin_by: Instant::now(),
            left: config.guests.len(),
        };
        let started = host.start(listening).and_then(|()| {
            if let Some(listener) = listener {
                let desk = Desk::new(Facts::of(config), board, orders, ending);
                host.control = Some(Control::start(listener, desk)?);
            }
            Ok(())
        });
        match started {
            Ok(()) => Ok(host),
            Err(error) => {
                host.end();
                Err(error)
            }
        }
    }

    /// Starts guests' threads.
    fn start(&mut self, guests: Vec<guest::Parts>) -> Result<(), HostError> {
        self.begin_by = Instant::now() + BEGIN_WAIT;
        for parts in guests {
            let (number, outbox) = (parts.number, Arc::clone(&parts.outbox));
            let handle = thread::Builder::new()
                .name(format!("guest-{number}"))
                .spawn(move || Guest::new(parts).run())?;
            self.beginning += 1;
            self.threads.push(Thread { number, outbox, handle });
        }
        Ok(())
    }

    /// Waits until all guests have ended, the drive has failed, a signal has come, or an operator has asked for the end. QEMUs are started once the drive is there.
    ///
    /// # Errors
    ///
    /// The drive cannot be opened, or a guest cannot begin. [`Host::end`] is to be called then, too.
    pub fn wait(&mut self, signals: &Signals) -> Result<(), HostError> {
        while !self.is_over()? {
            if self.ending.is_asked() {
                tracing::info!("ends by the control socket");
                return Ok(());
            }
            match signals.take() {
                Ok(None) => {}
                Ok(Some(signal)) => {
                    tracing::info!("ends by {}", signal.as_str());
                    return Ok(());
                }
                Err(error) => {
                    tracing::error!("signals cannot be taken: {error}");
                    return Ok(());
                }
            }
            self.bell.lie_down();
            if !self.is_over()? && !self.ending.is_asked() {
                let mut fds = [
                    PollFd::new(self.bell.fd(), PollFlags::POLLIN),
                    PollFd::new(signals.wake(), PollFlags::POLLIN),
                ];
                // an interruption is a round more
                let _woken = poll(&mut fds, ROUND);
            }
            self.bell.get_up();
        }
        Ok(())
    }

    /// Whether all guests have ended, or the drive has failed. It takes what was reported until now.
    ///
    /// # Errors
    ///
    /// As of [`Host::wait`].
    pub fn is_over(&mut self) -> Result<bool, HostError> {
        if let Ok(opened) = self.opened.try_recv() {
            let line = self.lines.drive;
            let words = opened.map_err(|error| HostError::Drive { line, error })?;
            tracing::info!("the drive: {words}");
            self.board.drive.open(&words);
            let waiting = std::mem::take(&mut self.waiting);
            self.start(waiting)?;
        }
        while let Ok(report) = self.reports.try_recv() {
            match report {
                Report::Begun(_, Ok(())) => self.beginning = self.beginning.saturating_sub(1),
                Report::Begun(guest, Err(error)) => {
                    let line = self.lines.connections.get(guest).copied().unwrap_or(0);
                    return Err(HostError::Process { guest, line, error });
                }
                Report::Over(_) => self.left = self.left.saturating_sub(1),
            }
        }
        if self.beginning != 0 && Instant::now() >= self.begin_by {
            return Err(HostError::Late);
        }
        Ok(self.left == 0 || self.mediation.is_finished())
    }

    /// Ends all threads, and closes the drive.
    pub fn end(mut self) -> Outcome {
        if let Some(control) = self.control.take() {
            control.end();
        }
        for guest in &self.threads {
            guest.outbox.stop();
        }
        let end = Instant::now() + END_WAIT;
        for guest in self.threads {
            while !guest.handle.is_finished() && Instant::now() < end {
                thread::sleep(Duration::from_millis(2));
            }
            if !guest.handle.is_finished() {
                let number = guest.number;
                tracing::warn!("guest {number}: its client holds its thread up, which is left behind");
            }
        }
        self.stop.ask();
        match self.mediation.join() {
            Ok(End::Stopped(Some(drive))) => match drive.close() {
                Ok(()) => Outcome::Good,
                Err(error) => {
                    tracing::error!("the drive: {error}");
                    Outcome::DriveFailed
                }
            },
            _ => Outcome::DriveFailed,
        }
    }
}

/// The two ends of what a guest's thread and the mediator's have between them.
fn ends(
    number: usize,
    is: &GuestConfig,
    memory: GuestMemory,
    source: Source,
    mediators_bell: &Arc<Bell>,
    board: &Arc<Board>,
    reports: &Reports,
) -> Result<(Post, guest::Parts), HostError> {
    let (sender, mailbox) = mailbox(Arc::clone(mediators_bell));
    let outbox = Arc::new(Outbox::new()?);
    let signals = Arc::new(VectorSignals::new()?);
    let pin = is.interrupts == Interrupts::Pin;
    let post = Post {
        mailbox,
        outbox: Arc::clone(&outbox),
        signals: Arc::clone(&signals),
        version: is.version,
    };
    let parts = guest::Parts {
        number,
        memory,
        function: Function::new(pin, Arc::clone(&signals), sender),
        outbox,
        signals,
        page: is.doorbells == Doorbells::Page,
        pin,
        source,
        board: Arc::clone(board),
        reports: reports.clone(),
    };
    Ok((post, parts))
}

/// What tells whether the drive was opened, and where that is read.
fn teller(bell: &Arc<Bell>) -> (Tell, Receiver<Result<String, DriveError>>) {
    let (sender, opened) = channel();
    let bell = Arc::clone(bell);
    let tell: Tell = Box::new(move |result| {
        // the program is at its end where nobody reads it
        let _ended = sender.send(result);
        bell.ring();
    });
    (tell, opened)
}

/// The set-up is tried before anything of the drive is made.
fn set_up(config: &Config, layout: &Layout, window: &Arc<Window>) -> Result<Mediator<Arc<Window>>, HostError> {
    let mut mediator = Mediator::serve(Arc::clone(window), &layout.set_up(config))?;
    share(&mut mediator, config)?;
    Ok(mediator)
}

fn drive_error(config: &Config, error: DriveError) -> HostError {
    let line = config.drive_line;
    HostError::Drive { line, error }
}

/// Each client has eventfds: as many descriptors as the system allows.
fn raise_limits() {
    if let Ok((_soft, hard)) = getrlimit(Resource::RLIMIT_NOFILE) {
        // where that is refused there are fewer
        let _fewer = setrlimit(Resource::RLIMIT_NOFILE, hard, hard);
    }
}

fn plan(config: &Config) -> Result<Layout, HostError> {
    match &config.drive {
        DriveConfig::Ram { .. } | DriveConfig::File { .. } | DriveConfig::Nvme { .. } => {
            Ok(Layout::plan(config, Room::Reaches(&[ALL]))?)
        }
        DriveConfig::Qemu { memory, .. } => {
            let line = config.drive_line;
            let file = GuestFile::existing(memory).map_err(|error| HostError::DriveFile { line, error })?;
            Ok(Layout::plan(config, Room::FirstPart(file.bytes()))?)
        }
        DriveConfig::Vfio { address } => {
            let reaches = VfioDrive::reaches(address).map_err(|error| drive_error(config, error))?;
            Ok(Layout::plan(config, Room::Reaches(&reaches))?)
        }
    }
}

/// The memory that the program has for itself and the drive: zeros, or the first part of the RAM of the drive's QEMU, whose file is kept locked.
fn map_own(config: &Config, layout: &Layout, window: &Window) -> Result<Option<GuestFile>, HostError> {
    let own = layout.own;
    let DriveConfig::Qemu { memory, .. } = &config.drive else {
        window.map_zeros(own.host, own.bytes)?;
        return Ok(None);
    };
    let line = config.drive_line;
    let file = GuestFile::existing(memory).map_err(|error| HostError::DriveFile { line, error })?;
    window.map_file(own.host, own.bytes, file.as_fd(), 0)?;
    Ok(Some(file))
}

fn map_guests(config: &Config, layout: &Layout, window: &Arc<Window>) -> Result<Vec<GuestMemory>, HostError> {
    let guests = config.guests.iter().zip(&layout.guests).enumerate();
    guests
        .map(|(guest, (is, place))| {
            let window = Arc::clone(window);
            let line = is.lines.guest;
            let file = file_of(is).map_err(|error| HostError::File { guest, line, error })?;
            let trust = if is.trust { Trust::Any } else { Trust::Sealed };
            Ok(match file {
                Some(file) => GuestMemory::with_file(window, is.machine, place.host, file)?,
                None => GuestMemory::adopting(window, is.machine, place.host, place.bytes, trust)?,
            })
        })
        .collect()
}

/// A guest's file, where it has one before its client comes.
fn file_of(guest: &GuestConfig) -> Result<Option<GuestFile>, FileError> {
    match (&guest.file, &guest.connection) {
        (Some(path), _) => GuestFile::named(path, guest.memory).map(Some),
        (None, Connection::Start(_)) => GuestFile::make(guest.memory).map(Some),
        (None, Connection::Listen(_)) => Ok(None),
    }
}

fn listen(config: &Config) -> Result<Vec<Source>, HostError> {
    let guests = config.guests.iter().enumerate();
    guests
        .map(|(guest, is)| match &is.connection {
            Connection::Start(words) => Ok(Source::Start {
                words: words.clone(),
                machine: is.machine,
            }),
            Connection::Listen(path) => {
                let of_line = |line| move |error| HostError::Process { guest, line, error };
                let user = is.user.as_deref().map(user_of).transpose();
                let user = user.map_err(of_line(is.lines.user))?;
                let listener = Listener::bind(path, user).map_err(of_line(is.lines.connection))?;
                Ok(Source::Listen(listener))
            }
        })
        .collect()
}

/// The control socket, where the configuration has one.
fn listen_for_operators(config: &Config) -> Result<Option<Listener>, HostError> {
    let Some(control) = &config.control else {
        return Ok(None);
    };
    let line = control.line;
    let listener = Listener::bind_for_operators(&control.path);
    listener.map(Some).map_err(|error| HostError::Control { line, error })
}

/// All have the least first, so that no share is too large on the way.
fn share<M: nvmed::HostMemory>(mediator: &mut Mediator<M>, config: &Config) -> Result<(), nvmed::Error> {
    for (guest, is) in (0..).zip(&config.guests) {
        mediator.share(guest, is.extents.len() as u32)?;
    }
    for (guest, tags) in (0..).zip(config.shares()) {
        mediator.share(guest, tags)?;
    }
    Ok(())
}

fn counts(config: &Config) -> Box<dyn Counts> {
    let guests = config.guests.iter().enumerate();
    let extents = guests.flat_map(|(guest, is)| is.extents.iter().map(move |e| (guest, e.base, e.blocks)));
    Box::new(Counted(Statistics::new(Owners::new(extents), config.guests.len())))
}

/// Finds the drive, as far as that has to be done before anybody else uses the window: what opens it.
fn find_drive(config: &Config, layout: &Layout, window: &Arc<Window>) -> Result<Open, DriveError> {
    let memory = Arc::clone(window);
    let reached = Arc::new(Reached::new(Arc::clone(window), layout.reached()));
    let needs = Needs {
        admin: layout.admin,
        blocks: config.blocks(),
        lanes: config.lanes,
        interrupts: true,
    };
    Ok(match config.drive.clone() {
        DriveConfig::Ram { bytes, image } => Box::new(move || {
            let blocks = bytes / BLOCK;
            Ok(match image {
                Some(image) => Box::new(RamDrive::in_file(memory, blocks, &image)?),
                None => Box::new(RamDrive::in_memory(memory, blocks)?),
            })
        }),
        DriveConfig::File { path } => {
            let blocks = config.blocks();
            Box::new(move || Ok(Box::new(FileDrive::open(memory, &path, blocks)?)))
        }
        DriveConfig::Nvme { path } => {
            let blocks = config.blocks();
            Box::new(move || Ok(Box::new(PassthroughDrive::open(memory, &path, blocks)?)))
        }
        DriveConfig::Qemu { socket, .. } => {
            let found = FoundQemu::at(&socket, reached, needs)?;
            Box::new(move || Ok(Box::new(found.open()?)))
        }
        DriveConfig::Vfio { address } => Box::new(move || Ok(Box::new(VfioDrive::open(&address, reached, needs)?))),
    })
}
