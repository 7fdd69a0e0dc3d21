//! The messages of vfio-user 0.9 as bytes: what a client may send, and what it is answered. Pure functions; nothing is read or written here.
//!
//! The numbers are those of QEMU's "vfio-user Protocol Specification", section "Protocol Specification", and of Linux's `linux/vfio.h`. All fields have the
//! byte order of the machine.

#![forbid(unsafe_code)]

mod decode;
mod encode;
#[cfg(test)]
mod tests;

pub use decode::{decode, Body, IrqSelection, MapRequest, Message, SetIrqsRequest, UnmapRequest, VersionRequest};
pub use encode::{encode, encode_error, RegionInfoReply, ReplyBody};

use nix::errno::Errno;

/// Bytes of a header.
pub const HEADER_BYTES: usize = 16;

/// Most bytes of data in a read or a write (`max_data_xfer_size`).
pub const DATA_MAX: u32 = 1 << 20;

/// Bytes of a read or write before its data: offset, region, count.
pub const ACCESS_BYTES: usize = 16;

/// Most bytes of a message with its header: those of the longest write.
pub const MESSAGE_MAX: usize = HEADER_BYTES + ACCESS_BYTES + DATA_MAX as usize;

/// Most descriptors of a message (`max_msg_fds`).
pub const DESCRIPTORS_MAX: usize = 16;

/// Bytes of a page (`pgsizes`): addresses and lengths of memory are multiples of it.
pub const PAGE_BYTES: u64 = 4096;

/// Most bytes of the text that comes with VERSION, with its final NUL. QEMU 11.1.3 sends fewer than 200.
pub const VERSION_TEXT_MAX: usize = 4096;

/// Bytes of the structure of a region's information, without capabilities: the least `argsz` of GET_REGION_INFO.
pub const REGION_INFO_BYTES: u32 = 32;

/// Bytes of the structures of a device's and of an interrupt's information: the least `argsz` of GET_INFO and GET_IRQ_INFO.
pub const INFO_BYTES: u32 = 16;

/// Flags of a header.
pub mod header_flags {
    /// The bits that say what kind of message it is: 0 is a command.
    pub const TYPE: u32 = 0xf;
    /// The kind of a reply.
    pub const REPLY: u32 = 1;
    /// No reply is wanted.
    pub const NO_REPLY: u32 = 1 << 4;
    /// The reply says that the command failed.
    pub const ERROR: u32 = 1 << 5;
}

/// The commands that a client may send, and others that have a name.
#[derive(Clone, Copy, Debug, PartialEq, Eq, Hash)]
#[repr(u16)]
pub enum Command {
    /// VFIO_USER_VERSION
    Version = 1,
    /// VFIO_USER_DMA_MAP
    DmaMap = 2,
    /// VFIO_USER_DMA_UNMAP
    DmaUnmap = 3,
    /// VFIO_USER_DEVICE_GET_INFO
    GetInfo = 4,
    /// VFIO_USER_DEVICE_GET_REGION_INFO
    GetRegionInfo = 5,
    /// VFIO_USER_DEVICE_GET_REGION_IO_FDS
    GetRegionIoFds = 6,
    /// VFIO_USER_DEVICE_GET_IRQ_INFO
    GetIrqInfo = 7,
    /// VFIO_USER_DEVICE_SET_IRQS
    SetIrqs = 8,
    /// VFIO_USER_REGION_READ
    RegionRead = 9,
    /// VFIO_USER_REGION_WRITE
    RegionWrite = 10,
    /// VFIO_USER_DMA_READ: from server to client alone
    DmaRead = 11,
    /// VFIO_USER_DMA_WRITE: from server to client alone
    DmaWrite = 12,
    /// VFIO_USER_DEVICE_RESET
    Reset = 13,
    /// VFIO_USER_DIRTY_PAGES of earlier versions
    DirtyPages = 14,
    /// VFIO_USER_REGION_WRITE_MULTI
    WriteMulti = 15,
    /// VFIO_USER_DEVICE_FEATURE
    Feature = 16,
    /// VFIO_USER_MIG_DATA_READ
    MigrationRead = 17,
    /// VFIO_USER_MIG_DATA_WRITE
    MigrationWrite = 18,
}

impl Command {
    /// All commands that have a name, by number.
    pub const ALL: [Command; 18] = [
        Command::Version,
        Command::DmaMap,
        Command::DmaUnmap,
        Command::GetInfo,
        Command::GetRegionInfo,
        Command::GetRegionIoFds,
        Command::GetIrqInfo,
        Command::SetIrqs,
        Command::RegionRead,
        Command::RegionWrite,
        Command::DmaRead,
        Command::DmaWrite,
        Command::Reset,
        Command::DirtyPages,
        Command::WriteMulti,
        Command::Feature,
        Command::MigrationRead,
        Command::MigrationWrite,
    ];

    /// The command of a number, if it has a name.
    pub fn of(number: u16) -> Option<Command> {
        Command::ALL.get(usize::from(number).checked_sub(1)?).copied()
    }
}

/// A header.
#[derive(Clone, Copy, Debug, PartialEq, Eq)]
pub struct Header {
    /// The sender's number of the message; a reply has that of its command.
    pub id: u16,
    /// The command's number.
    pub command: u16,
    /// Bytes of the message with this header.
    pub bytes: u32,
    /// See [`header_flags`].
    pub flags: u32,
    /// An errno where the flags say that the command failed. In a command it says nothing.
    pub error: u32,
}

impl Header {
    /// Takes a header apart and checks what the stream needs: the kind of the message and its length.
    pub fn decode(bytes: &[u8; HEADER_BYTES]) -> Result<Header, FramingError> {
        let [i0, i1, c0, c1, s0, s1, s2, s3, f0, f1, f2, f3, e0, e1, e2, e3] = *bytes;
        let header = Header {
            id: u16::from_ne_bytes([i0, i1]),
            command: u16::from_ne_bytes([c0, c1]),
            bytes: u32::from_ne_bytes([s0, s1, s2, s3]),
            flags: u32::from_ne_bytes([f0, f1, f2, f3]),
            error: u32::from_ne_bytes([e0, e1, e2, e3]),
        };
        if header.flags & header_flags::TYPE != 0 {
            return Err(FramingError::NoCommand(header.flags));
        }
        if (header.bytes as usize) < HEADER_BYTES || header.bytes as usize > MESSAGE_MAX {
            return Err(FramingError::Size(header.bytes));
        }
        Ok(header)
    }

    /// The header's bytes.
    pub fn encode(&self) -> [u8; HEADER_BYTES] {
        let [i0, i1] = self.id.to_ne_bytes();
        let [c0, c1] = self.command.to_ne_bytes();
        let [s0, s1, s2, s3] = self.bytes.to_ne_bytes();
        let [f0, f1, f2, f3] = self.flags.to_ne_bytes();
        let [e0, e1, e2, e3] = self.error.to_ne_bytes();
        [i0, i1, c0, c1, s0, s1, s2, s3, f0, f1, f2, f3, e0, e1, e2, e3]
    }
}

/// Why nothing more can be taken from the stream: it isn't known where the next message begins, or what the peer speaks.
#[derive(Clone, Copy, Debug, PartialEq, Eq, thiserror::Error)]
pub enum FramingError {
    /// The size in the header cannot be.
    #[error("a message says that it has {0} bytes, and {HEADER_BYTES} to {MESSAGE_MAX} are possible")]
    Size(u32),
    /// It is no command: nothing was asked that it could be a reply to.
    #[error("a message is no command (flags {0:#x})")]
    NoCommand(u32),
    /// More descriptors came with a message than one may have, or this process could not take them.
    #[error(
        "a message came with more than {DESCRIPTORS_MAX} descriptors, or with some that this process has no room for"
    )]
    Descriptors,
}

/// Why a request is answered by an error. The connection goes on.
#[derive(Clone, Copy, Debug, PartialEq, Eq, thiserror::Error)]
#[error("{why} ({errno})")]
pub struct Refusal {
    /// What the reply says.
    pub errno: Errno,
    /// For the operator.
    pub why: &'static str,
}

impl Refusal {
    /// EINVAL.
    pub const fn invalid(why: &'static str) -> Refusal {
        Refusal {
            errno: Errno::EINVAL,
            why,
        }
    }

    /// ENOTSUP.
    pub const fn unsupported(why: &'static str) -> Refusal {
        Refusal {
            errno: Errno::EOPNOTSUPP,
            why,
        }
    }
}

/// Reads numbers from bytes, one after the other.
struct Fields<'a> {
    rest: &'a [u8],
}

impl<'a> Fields<'a> {
    fn new(bytes: &'a [u8]) -> Fields<'a> {
        Fields { rest: bytes }
    }

    fn array<const N: usize>(&mut self) -> Option<[u8; N]> {
        let (first, rest) = self.rest.split_first_chunk::<N>()?;
        self.rest = rest;
        Some(*first)
    }

    fn u16(&mut self) -> Option<u16> {
        self.array().map(u16::from_ne_bytes)
    }

    fn u32(&mut self) -> Option<u32> {
        self.array().map(u32::from_ne_bytes)
    }

    fn u64(&mut self) -> Option<u64> {
        self.array().map(u64::from_ne_bytes)
    }
}
