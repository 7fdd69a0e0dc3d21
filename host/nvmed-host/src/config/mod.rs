#![forbid(unsafe_code)]
//! The configuration: plain lines of words. The README of the host program has the kinds of lines.
//!
//! A line ends with a line feed, which the last may lack. `#` outside of quotes begins a comment. Words are separated by spaces. A word that begins with
//! `"` ends at the next `"`; in it `\"` and `\\` stand for `"` and `\`, and spaces and `#` for themselves. Numbers are decimal, or `0x` and hexadecimal
//! digits; a SIZE is in bytes and may end with K, M or G (2^10, 2^20, 2^30).
//!
//! Each limit is checked here, and nothing is opened or made: a configuration that [`Config::parse`] takes fails later only for what it names.

mod lines;
mod whole;
mod words;

use std::ffi::OsString;
use std::fs::File;
use std::io::{self, Read};
use std::path::{Path, PathBuf};
use std::time::Duration;

use crate::machine::Machine;
use crate::mediation::limits::Limit;

/// The most guests.
pub const MOST_GUESTS: usize = 16;
/// The most extents of a guest.
pub const MOST_EXTENTS: usize = 8;
/// The most extents of all guests.
pub const MOST_EXTENTS_IN_ALL: usize = 64;
/// The most pairs of queues of the drive.
pub const MOST_LANES: u32 = 8;
/// Tags of a lane.
pub const TAGS: u32 = 64;
/// The most words of a guest's QEMU.
pub const MOST_WORDS_OF_START: usize = 128;
/// The most bytes of a line, without its line feed.
pub const MOST_LINE: usize = 4096;
/// The most words of a line.
pub const MOST_WORDS: usize = 256;
/// The most bytes of a configuration.
pub const MOST_BYTES: usize = 262_144;
/// The most bytes of a socket's path (`sun_path`, without its NUL).
pub const MOST_SOCKET: usize = 107;
/// The most bytes of a user's name.
pub const MOST_USER: usize = 255;
/// The most bytes of a file's path.
pub const MOST_PATH: usize = 1023;
/// Blocks of 512 bytes that a drive can have.
pub const MOST_DRIVE_BLOCKS: u64 = 1 << 48;
/// Blocks that a guest can have in all its extents: the mediator counts them in 32 bits.
pub const MOST_GUEST_BLOCKS: u64 = (1 << 32) - 1;
/// Bytes of all guests' memories together, and of a drive in memory.
pub const MOST_MEMORY: u64 = 1 << 46;
/// Bytes of a block.
pub const BLOCK: u64 = 512;

/// What is wrong with a configuration: one line of text.
#[derive(Debug, thiserror::Error)]
pub enum ConfigError {
    /// A line is wrong, or something is missing, which is said of the line where it should be seen.
    #[error("line {line}: {what}")]
    Line {
        /// The line, counted from 1.
        line: u32,
        /// What is wrong there.
        what: String,
    },
    /// A line of that file is wrong.
    #[error("{}: {error}", path.display())]
    File {
        /// The file.
        path: PathBuf,
        /// What is wrong.
        error: Box<ConfigError>,
    },
    /// The file cannot be opened.
    #[error("{}: cannot open: {error}", path.display())]
    Open {
        /// The file.
        path: PathBuf,
        /// What the kernel said.
        error: io::Error,
    },
    /// The file cannot be read.
    #[error("{}: cannot read: {error}", path.display())]
    Read {
        /// The file.
        path: PathBuf,
        /// What the kernel said.
        error: io::Error,
    },
}

/// A drive.
#[derive(Clone, Debug, PartialEq, Eq)]
pub enum DriveConfig {
    /// A simulated one: `drive ram SIZE [FILE]`.
    Ram {
        /// Its size in bytes: a multiple of 4,096, not 0, at most 2^46.
        bytes: u64,
        /// The file that holds its blocks; without one they are in memory.
        image: Option<PathBuf>,
    },
    /// A file or a block device: `drive file PATH`.
    File {
        /// Where it is.
        path: PathBuf,
    },
    /// A namespace that the kernel drives: `drive nvme PATH`.
    Nvme {
        /// Its generic character device.
        path: PathBuf,
    },
    /// The controller of a QEMU: `drive qemu SOCKET FILE`.
    Qemu {
        /// Where its qtest listens.
        socket: PathBuf,
        /// The file that is the first part of its RAM; the guests' files follow, in their order.
        memory: PathBuf,
    },
    /// A controller that is bound to `vfio-pci`: `drive vfio ADDRESS`.
    Vfio {
        /// Its PCI address, such as `0000:01:00.0`.
        address: String,
    },
}

/// Blocks of a drive in a row.
#[derive(Clone, Copy, Debug, PartialEq, Eq)]
pub struct ExtentConfig {
    /// The drive's block that is its first.
    pub base: u64,
    /// How many blocks of 512 bytes, at least 1; `base + blocks` is at most 2^48.
    pub blocks: u64,
    /// Where it was written.
    pub line: u32,
}

impl ExtentConfig {
    /// The first block of the drive after it.
    pub fn end(&self) -> u64 {
        self.base + self.blocks
    }
}

/// How a guest rings its doorbells.
#[derive(Clone, Copy, Debug, Default, PartialEq, Eq)]
pub enum Doorbells {
    /// By stores into a page that is shared with its client.
    #[default]
    Page,
    /// By messages of its client.
    Messages,
}

/// How a guest is interrupted.
#[derive(Clone, Copy, Debug, Default, PartialEq, Eq)]
pub enum Interrupts {
    /// By messages (MSI-X).
    #[default]
    Messages,
    /// By the interrupt pin (INTx).
    Pin,
}

/// Where a guest's client comes from.
#[derive(Clone, Debug, PartialEq, Eq)]
pub enum Connection {
    /// It connects to a socket: `listen G PATH`.
    Listen(PathBuf),
    /// It is a QEMU that is started with these words: `start G WORD..`. There is at least one.
    Start(Vec<OsString>),
}

/// A guest.
#[derive(Clone, Debug, PartialEq, Eq)]
pub struct GuestConfig {
    /// Bytes of its memory: a multiple of 4,096, not 0 (where a QEMU is started, of 8,192).
    pub memory: u64,
    /// The file that is its memory. Without one it is a file that the program makes for a QEMU that it starts, and else the file of the client.
    pub file: Option<PathBuf>,
    /// The machine's type, by which its memory has its addresses. Without a line it is that of the words of `start`, and else `q35`.
    pub machine: Machine,
    /// Whether a file that cannot be sealed is accepted of a client: `trust G`.
    pub trust: bool,
    /// Its namespace: 1 to 8 extents, in this order.
    pub extents: Vec<ExtentConfig>,
    /// How many of a lane's 64 tags it may hold: at least one for each extent. `None`: its part of those that are left.
    pub share: Option<u32>,
    /// How many commands and bytes a second it may have.
    pub limit: Limit,
    /// Descriptors of a scatter gather list: 1 to 4,096.
    pub descriptors: u32,
    /// What its version register says, in that register's form (NVMe, Offset 8h: VS): 1.2 without a line.
    pub version: u32,
    /// How it rings its doorbells. Without a line by a page, and by messages where it is interrupted by the pin.
    pub doorbells: Doorbells,
    /// How it is interrupted.
    pub interrupts: Interrupts,
    /// Where its client comes from.
    pub connection: Connection,
    /// The user whose processes may be its client, a name or a number: `user G NAME`. Without one the socket is for this program's own user.
    pub user: Option<String>,
    /// Where its lines were written.
    pub lines: GuestLines,
}

/// The lines of a guest, for messages.
#[derive(Clone, Copy, Debug, PartialEq, Eq)]
pub struct GuestLines {
    /// `guest`.
    pub guest: u32,
    /// `share`; where there is none that of `guest`.
    pub share: u32,
    /// `listen`, or the first `start`.
    pub connection: u32,
    /// `user`; where there is none that of the connection.
    pub user: u32,
}

impl GuestConfig {
    /// Blocks of all its extents: at most 2^32 - 1.
    pub fn blocks(&self) -> u64 {
        self.extents.iter().map(|e| e.blocks).sum()
    }
}

/// The control socket: `control PATH`.
#[derive(Clone, Debug, PartialEq, Eq)]
pub struct ControlConfig {
    /// Where it listens.
    pub path: PathBuf,
    /// Where it was written.
    pub line: u32,
}

/// A configuration.
#[derive(Clone, Debug, PartialEq, Eq)]
pub struct Config {
    /// The drive.
    pub drive: DriveConfig,
    /// Where it was written.
    pub drive_line: u32,
    /// Pairs of queues of the drive: 1 to 8.
    pub lanes: u32,
    /// How long the program goes on without a pause after its last event: at most a second.
    pub spin: Duration,
    /// Where operators' requests are taken, if they are.
    pub control: Option<ControlConfig>,
    /// The guests: 1 to 16.
    pub guests: Vec<GuestConfig>,
}

/// The first word of each kind of line that a configuration may have.
pub fn kinds() -> impl Iterator<Item = &'static str> {
    lines::kinds()
}

impl Config {
    /// Reads a configuration from its bytes.
    ///
    /// Errors: [`ConfigError::Line`], for the first line that is wrong.
    pub fn parse(bytes: &[u8]) -> Result<Self, ConfigError> {
        if bytes.len() > MOST_BYTES {
            let what = format!("the configuration is longer than {MOST_BYTES} bytes");
            return Err(ConfigError::Line { line: 1, what });
        }
        let mut draft = lines::Draft::default();
        let mut line = 0;
        let text = bytes.strip_suffix(b"\n").unwrap_or(bytes);
        for of_line in text.split(|byte| *byte == b'\n') {
            line += 1;
            let words = words::cut(of_line).map_err(|what| ConfigError::Line { line, what })?;
            draft
                .take(line, &words)
                .map_err(|what| ConfigError::Line { line, what })?;
        }
        whole::finish(draft, line).map_err(|(line, what)| ConfigError::Line { line, what })
    }

    /// Reads a configuration from a file.
    ///
    /// Errors: [`ConfigError::Open`], [`ConfigError::Read`], [`ConfigError::File`]. Each begins with the path.
    pub fn read(path: &Path) -> Result<Self, ConfigError> {
        let file = File::open(path).map_err(|error| ConfigError::Open {
            path: path.into(),
            error,
        })?;
        let mut bytes = Vec::new();
        file.take(MOST_BYTES as u64 + 1)
            .read_to_end(&mut bytes)
            .map_err(|error| ConfigError::Read {
                path: path.into(),
                error,
            })?;
        Self::parse(&bytes).map_err(|error| ConfigError::File {
            path: path.into(),
            error: Box::new(error),
        })
    }

    /// Blocks that the drive must have: the end of the last extent. At least 1, at most 2^48.
    pub fn blocks(&self) -> u64 {
        self.extents().map(|(_, e)| e.end()).max().unwrap_or(0)
    }

    /// The guest that has a block of the drive, if one has.
    pub fn owner(&self, block: u64) -> Option<usize> {
        self.extents()
            .find(|(_, e)| block >= e.base && block < e.end())
            .map(|(guest, _)| guest)
    }

    /// How many of each lane's tags each guest may hold: that of its line, or one for each extent and its part of the tags that are left.
    pub fn shares(&self) -> Vec<u32> {
        let least = |g: &GuestConfig| g.share.unwrap_or(g.extents.len() as u32);
        let left = TAGS.saturating_sub(self.guests.iter().map(least).sum());
        let unnamed = self.guests.iter().filter(|g| g.share.is_none()).count() as u32;
        let more = left.checked_div(unnamed).unwrap_or(0);
        self.guests
            .iter()
            .map(|g| g.share.unwrap_or(g.extents.len() as u32 + more))
            .collect()
    }

    fn extents(&self) -> impl Iterator<Item = (usize, &ExtentConfig)> {
        self.guests
            .iter()
            .enumerate()
            .flat_map(|(i, g)| g.extents.iter().map(move |e| (i, e)))
    }
}

#[cfg(test)]
mod tests;
