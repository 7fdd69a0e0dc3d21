//! Where a guest's client comes from: a socket on which it connects, or a QEMU that is started here with a socket of its own.
//!
//! QEMU's `vfio-user-pci` takes the path of a socket alone (11.1.3 answers `Unsupported socket type fd`), and its memory backend the path of a file. So a
//! QEMU that is started inherits two descriptors, and its words name them as `/proc/self/fd/N`: the guest's file, and a private folder in which a socket
//! listens. Such paths lead there from any root folder, so that a word like `chroot` may stand before QEMU's name; they need `/proc`.
//!
//! No shell is used: the words of the configuration are the process's.

use std::collections::hash_map::RandomState;
use std::ffi::{OsStr, OsString};
use std::fmt;
use std::fs::{self, DirBuilder};
use std::hash::{BuildHasher, Hasher};
use std::io;
use std::os::fd::{AsFd, AsRawFd, BorrowedFd, FromRawFd, OwnedFd, RawFd};
use std::os::unix::fs::{DirBuilderExt, FileTypeExt, PermissionsExt};
use std::os::unix::net::{UnixListener, UnixStream};
use std::os::unix::process::{CommandExt, ExitStatusExt};
use std::path::{Path, PathBuf};
use std::process::{Child, Command, ExitStatus};
use std::thread;
use std::time::{Duration, Instant};

use nix::fcntl::OFlag;
use nix::sys::signal::{kill, Signal};
use nix::sys::socket::{getsockopt, sockopt::PeerCredentials};
use nix::sys::stat::Mode;
use nix::unistd::{Pid, Uid, User};

use crate::machine::Machine;
use crate::memory::GuestFile;

/// The id of the memory backend in QEMU.
pub const MEMORY_ID: &str = "nvmed-memory";

/// The id of the device in QEMU.
pub const DEVICE_ID: &str = "nvmed";

/// How long a process has to end after SIGTERM, before SIGKILL ends it.
pub const STOP_WAIT: Duration = Duration::from_secs(2);

/// Why a socket or a process is not there.
#[derive(Debug, thiserror::Error)]
pub enum ProcessError {
    /// Another process listens on the socket.
    #[error("{}: another process listens there", .0.display())]
    InUse(PathBuf),
    /// Something else has the socket's path: it is left alone.
    #[error("{}: is there, and no socket", .0.display())]
    NoSocket(PathBuf),
    /// The socket cannot be made there.
    #[error("{}: cannot be listened on: {error}", path.display())]
    Listen {
        /// The socket's path.
        path: PathBuf,
        /// What the kernel said.
        error: io::Error,
    },
    /// No user has this name or number.
    #[error("there is no user {0}")]
    NoUser(String),
    /// No private folder for a socket can be made.
    #[error("{}: no folder for a socket can be made there: {error}", path.display())]
    Folder {
        /// The folder in which it should be.
        path: PathBuf,
        /// What the kernel said.
        error: io::Error,
    },
    /// There is no word.
    #[error("there is no program to start")]
    NoWords,
    /// The program cannot be started.
    #[error("{program}: cannot be started: {error}")]
    Start {
        /// Its name.
        program: String,
        /// What the kernel said.
        error: io::Error,
    },
}

/// A folder that only this user can enter, removed at the end with the socket in it.
#[derive(Debug)]
struct PrivateFolder {
    path: PathBuf,
    descriptor: OwnedFd,
}

impl PrivateFolder {
    fn make() -> Result<Self, ProcessError> {
        let parent = std::env::temp_dir();
        let failed = |error: io::Error| ProcessError::Folder {
            path: parent.clone(),
            error,
        };
        for _ in 0..8 {
            let name = RandomState::new().build_hasher().finish();
            let path = parent.join(format!("nvmed-{name:016x}"));
            match DirBuilder::new().mode(0o700).create(&path) {
                Err(e) if e.kind() == io::ErrorKind::AlreadyExists => continue,
                made => made.map_err(failed)?,
            }
            let flags = OFlag::O_PATH | OFlag::O_DIRECTORY | OFlag::O_NOFOLLOW | OFlag::O_CLOEXEC;
            return match nix::fcntl::open(&path, flags, Mode::empty()) {
                Ok(fd) => {
                    // SAFETY: the descriptor was just opened, and nobody else has it.
                    let descriptor = unsafe { OwnedFd::from_raw_fd(fd) };
                    Ok(Self { path, descriptor })
                }
                Err(e) => {
                    let _ = fs::remove_dir(&path);
                    Err(failed(e.into()))
                }
            };
        }
        Err(failed(io::ErrorKind::AlreadyExists.into()))
    }
}

impl Drop for PrivateFolder {
    fn drop(&mut self) {
        // nothing but the listener's socket was ever put there, and that has gone
        let _ = fs::remove_dir(&self.path);
    }
}

/// The path of a descriptor, or of a name in its folder, in the process that has the descriptor.
fn path_of(descriptor: RawFd, name: &str) -> String {
    format!("/proc/self/fd/{descriptor}{name}")
}

/// A socket that listens, until this is dropped: then its path is removed.
#[derive(Debug)]
pub struct Listener {
    socket: UnixListener,
    path: PathBuf,
    folder: Option<PrivateFolder>,
    /// Whose processes may connect. `None`: whose may is said by the file's mode and by its folder.
    users: Option<Vec<Uid>>,
}

/// The user of this name, or of this number in decimal digits.
///
/// Errors: [`ProcessError::NoUser`], also where the system's users cannot be read.
pub fn user_of(name: &str) -> Result<Uid, ProcessError> {
    let number = name
        .parse()
        .ok()
        .filter(|number| *number != u32::MAX)
        .map(Uid::from_raw);
    let named = || User::from_name(name).ok().flatten().map(|user| user.uid);
    number
        .or_else(named)
        .ok_or_else(|| ProcessError::NoUser(name.to_owned()))
}

impl Listener {
    /// Listens at a path, which is made for this user alone. Where another user is named, anybody may reach the socket, and each process that connects is
    /// asked whose it is: those of others are refused, also this user's own. A socket that is there and on which nobody listens is replaced; anything else
    /// there is left as it is, and refused.
    ///
    /// Errors: [`ProcessError::InUse`], [`ProcessError::NoSocket`], [`ProcessError::Listen`].
    pub fn bind(path: &Path, user: Option<Uid>) -> Result<Self, ProcessError> {
        let mode = if user.is_some() { 0o666 } else { 0o600 };
        Self::bind_with(path, mode, user.map(|user| vec![user]))
    }

    /// Listens at a path for this program's user and root: by the mode, and by whose the processes are that connect. What is there is dealt with as by
    /// [`Listener::bind`].
    ///
    /// Errors: as of [`Listener::bind`].
    pub fn bind_for_operators(path: &Path) -> Result<Self, ProcessError> {
        Self::bind_with(path, 0o600, Some(vec![Uid::effective(), Uid::from_raw(0)]))
    }

    fn bind_with(path: &Path, mode: u32, users: Option<Vec<Uid>>) -> Result<Self, ProcessError> {
        clear(path)?;
        Self::at(path.into(), None, mode, users).map_err(|error| ProcessError::Listen {
            path: path.into(),
            error,
        })
    }

    /// Listens in a private folder.
    fn private() -> Result<Self, ProcessError> {
        let folder = PrivateFolder::make()?;
        // a socket's path may have 107 bytes: that of the folder may be longer
        let path = PathBuf::from(path_of(folder.descriptor.as_raw_fd(), "/socket"));
        let parent = folder.path.clone();
        Self::at(path, Some(folder), 0o600, None).map_err(|error| ProcessError::Listen { path: parent, error })
    }

    fn at(path: PathBuf, folder: Option<PrivateFolder>, mode: u32, users: Option<Vec<Uid>>) -> io::Result<Self> {
        let socket = UnixListener::bind(&path)?;
        let listener = Self {
            socket,
            path,
            folder,
            users,
        };
        fs::set_permissions(&listener.path, fs::Permissions::from_mode(mode))?;
        listener.socket.set_nonblocking(true)?;
        Ok(listener)
    }

    /// Takes a connection, if one waits. It does not wait.
    ///
    /// Errors: those of `accept`, such as too many open files; `PermissionDenied` where the process that connected is of a user that is not the named one.
    /// The socket listens on.
    pub fn accept(&self) -> io::Result<Option<OwnedFd>> {
        match self.socket.accept() {
            Ok((socket, _)) => self.admit(&socket).map(|()| Some(socket.into())),
            Err(e) => match e.kind() {
                io::ErrorKind::WouldBlock | io::ErrorKind::Interrupted | io::ErrorKind::ConnectionAborted => Ok(None),
                _ => Err(e),
            },
        }
    }

    /// Whether the process that connected is a user's who may. The kernel has kept whose it was then.
    fn admit(&self, socket: &UnixStream) -> io::Result<()> {
        let Some(users) = &self.users else { return Ok(()) };
        let peer = getsockopt(socket, PeerCredentials)?.uid();
        if users.iter().any(|user| user.as_raw() == peer) {
            return Ok(());
        }
        let what = match users.as_slice() {
            [user] => format!("it is of user {peer}, and user {user} is the one that may connect"),
            _ => format!("it is of user {peer}, and this program's own user and root may connect"),
        };
        Err(io::Error::new(io::ErrorKind::PermissionDenied, what))
    }

    /// The socket's path.
    pub fn path(&self) -> &Path {
        &self.path
    }
}

impl AsFd for Listener {
    fn as_fd(&self) -> BorrowedFd<'_> {
        self.socket.as_fd()
    }
}

impl Drop for Listener {
    fn drop(&mut self) {
        // the path may lead through the folder's descriptor, which is there until this is over
        let _ = fs::remove_file(&self.path);
    }
}

/// Removes a socket on which nobody listens any more.
fn clear(path: &Path) -> Result<(), ProcessError> {
    let failed = |error| ProcessError::Listen {
        path: path.into(),
        error,
    };
    match fs::symlink_metadata(path) {
        Err(e) if e.kind() == io::ErrorKind::NotFound => return Ok(()),
        Err(e) => return Err(failed(e)),
        Ok(about) if !about.file_type().is_socket() => return Err(ProcessError::NoSocket(path.into())),
        Ok(_) => {}
    }
    match UnixStream::connect(path) {
        Err(e) if e.kind() == io::ErrorKind::ConnectionRefused => fs::remove_file(path).map_err(failed),
        _ => Err(ProcessError::InUse(path.into())),
    }
}

/// How a process has ended.
#[derive(Clone, Copy, Debug, PartialEq, Eq)]
pub struct Ended(ExitStatus);

impl Ended {
    /// Whether it ended by itself with the status 0.
    pub fn is_good(self) -> bool {
        self.0.success()
    }
}

impl fmt::Display for Ended {
    fn fmt(&self, to: &mut fmt::Formatter<'_>) -> fmt::Result {
        match (self.0.code(), self.0.signal()) {
            (Some(status), _) => write!(to, "ended with status {status}"),
            (None, Some(signal)) => write!(to, "ended by signal {signal}"),
            (None, None) => write!(to, "ended"),
        }
    }
}

/// A guest's QEMU that was started here. It ends by SIGTERM where the thread that started it ends, whatever ends that: so this is the guest's own thread.
/// It is in this program's process group, since it may use the terminal. When this is dropped it is killed, unless it has ended.
#[derive(Debug)]
pub struct Process {
    child: Child,
    ended: Option<Ended>,
}

impl Process {
    /// Starts a QEMU: the words, and after them those for its memory and for the device (see [`added_words`]). The listener is the one on which it
    /// connects; after its connection was taken the listener may be dropped.
    ///
    /// It gets no descriptor of this process but its standard ones, the guest's file, and the socket's folder; and no signal is ignored or blocked.
    ///
    /// Errors: [`ProcessError::NoWords`], [`ProcessError::Folder`], [`ProcessError::Listen`], [`ProcessError::Start`].
    pub fn start(words: &[OsString], machine: Machine, memory: &GuestFile) -> Result<(Self, Listener), ProcessError> {
        let (program, rest) = words.split_first().ok_or(ProcessError::NoWords)?;
        let listener = Listener::private()?;
        let folder = listener.folder.as_ref().map(|folder| folder.descriptor.as_raw_fd());
        let file = memory.as_fd().as_raw_fd();
        let mut command = Command::new(program);
        command
            .args(rest)
            .args(added_words(words, machine, file, memory.bytes(), listener.path()));
        let given = [Some(file), folder];
        let parent = std::process::id();
        // SAFETY: what runs in the new process makes system calls alone, allocates nothing, and takes no lock.
        unsafe { command.pre_exec(move || prepare(&given, parent)) };
        let failed = |error| ProcessError::Start {
            program: program.to_string_lossy().into_owned(),
            error,
        };
        let child = command.spawn().map_err(failed)?;
        Ok((Self { child, ended: None }, listener))
    }

    /// Its number.
    pub fn id(&self) -> u32 {
        self.child.id()
    }

    /// How it has ended, once it has. It does not wait.
    pub fn ended(&mut self) -> Option<Ended> {
        if self.ended.is_none() {
            self.ended = self.child.try_wait().ok().flatten().map(Ended);
        }
        self.ended
    }

    /// Ends it by SIGTERM, and by SIGKILL where it has not ended after `wait`, and waits for its end.
    pub fn stop(&mut self, wait: Duration) -> Option<Ended> {
        let begin = Instant::now();
        if self.ended().is_none() {
            self.signal(Signal::SIGTERM);
        }
        while self.ended().is_none() && begin.elapsed() < wait {
            thread::sleep(Duration::from_millis(5));
        }
        if self.ended().is_none() {
            self.signal(Signal::SIGKILL);
            self.ended = self.child.wait().ok().map(Ended);
        }
        self.ended
    }

    /// It was not waited for yet, so that its number is no other process's.
    fn signal(&self, signal: Signal) {
        if let Ok(id) = i32::try_from(self.child.id()) {
            let _ = kill(Pid::from_raw(id), signal);
        }
    }
}

impl Drop for Process {
    fn drop(&mut self) {
        self.stop(Duration::ZERO);
    }
}

/// In the new process, after a fork: only calls that are safe there.
fn prepare(given: &[Option<RawFd>], parent: u32) -> io::Result<()> {
    // SAFETY: each is a system call on numbers, or on a set of signals that lives through the call; nothing is allocated or locked.
    unsafe {
        for signal in 1..=libc::SIGRTMAX() {
            // it fails for those that nobody can change
            libc::signal(signal, libc::SIG_DFL);
        }
        let mut none = std::mem::zeroed();
        libc::sigemptyset(&mut none);
        if libc::sigprocmask(libc::SIG_SETMASK, &none, std::ptr::null_mut()) != 0
            || libc::prctl(libc::PR_SET_PDEATHSIG, libc::SIGTERM) != 0
        {
            return Err(io::Error::last_os_error());
        }
        // also those that this program itself was given; a kernel before 5.11 can't, and those alone stay open then
        libc::syscall(libc::SYS_close_range, 3_u32, u32::MAX, libc::CLOSE_RANGE_CLOEXEC);
        for fd in given.iter().flatten() {
            if libc::fcntl(*fd, libc::F_SETFD, 0) != 0 {
                return Err(io::Error::last_os_error());
            }
        }
        // the parent may have ended before the signal for that was asked for
        if u32::try_from(libc::getppid()) != Ok(parent) {
            return Err(io::Error::from_raw_os_error(libc::ESRCH));
        }
    }
    Ok(())
}

/// The words that a QEMU gets after those of the configuration: the size of its memory, a backend for it that is the guest's file, the machine that uses
/// the backend (of the type `machine`, unless the words name a type), and the device. QEMU takes the last `-m`, and puts `-machine` words together.
pub fn added_words(words: &[OsString], machine: Machine, file: RawFd, bytes: u64, socket: &Path) -> [String; 8] {
    let path = path_of(file, "");
    let kind = if machine_type(words).is_none() {
        format!("type={machine},")
    } else {
        String::new()
    };
    let socket = socket.display();
    [
        String::from("-m"),
        format!("{bytes}B"),
        String::from("-object"),
        format!("memory-backend-file,id={MEMORY_ID},share=on,size={bytes},mem-path={path}"),
        String::from("-machine"),
        format!("{kind}memory-backend={MEMORY_ID}"),
        String::from("-device"),
        format!(r#"{{"driver":"vfio-user-pci","id":"{DEVICE_ID}","socket":{{"type":"unix","path":"{socket}"}}}}"#),
    ]
}

/// The type of the machine that QEMU's words name by `-M` or `-machine`: the last one, or `None` where there is none.
pub fn machine_type(words: &[OsString]) -> Option<String> {
    let mut found = None;
    for pair in words.windows(2) {
        let [option, value] = pair else { continue };
        let is_machine = |name| option.as_os_str() == OsStr::new(name);
        if !["-M", "-machine", "--M", "--machine"].into_iter().any(is_machine) {
            continue;
        }
        for (at, part) in value.to_string_lossy().split(',').enumerate() {
            match part.split_once('=') {
                Some(("type", name)) => found = Some(name.to_owned()),
                None if at == 0 && !part.is_empty() => found = Some(part.to_owned()),
                _ => {}
            }
        }
    }
    found
}

#[cfg(test)]
mod tests;
