//! From a reply to its bytes.

#![forbid(unsafe_code)]

use nix::errno::Errno;

use super::decode::{UnmapRequest, UNMAP_ALL};
use super::{header_flags, Header, HEADER_BYTES, INFO_BYTES, REGION_INFO_BYTES};
use crate::vfio_user::device::Area;

/// What a good reply says after its header.
#[derive(Debug, PartialEq, Eq)]
pub enum ReplyBody<'a> {
    /// Nothing.
    Empty,
    /// VERSION
    Version {
        /// The major version.
        major: u16,
        /// The minor version.
        minor: u16,
        /// JSON, without the final NUL.
        text: &'a str,
    },
    /// DMA_UNMAP: the request again
    DmaUnmap(UnmapRequest),
    /// DEVICE_GET_INFO, of a PCI device that can be reset
    Info {
        /// Regions.
        regions: u32,
        /// Kinds of interrupts.
        irqs: u32,
    },
    /// DEVICE_GET_REGION_INFO
    RegionInfo(RegionInfoReply<'a>),
    /// DEVICE_GET_IRQ_INFO
    IrqInfo {
        /// The kind.
        index: u32,
        /// See `VFIO_IRQ_INFO_*`.
        flags: u32,
        /// So many.
        count: u32,
    },
    /// REGION_READ
    Read {
        /// The region.
        region: u32,
        /// The first byte in it.
        offset: u64,
        /// The bytes.
        data: &'a [u8],
    },
    /// REGION_WRITE
    Write {
        /// The region.
        region: u32,
        /// The first byte in it.
        offset: u64,
        /// So many bytes.
        count: u32,
    },
    /// REGION_WRITE_MULTI: so many writes were done
    WriteMulti {
        /// Writes.
        count: u64,
    },
}

/// What is said of a region.
#[derive(Clone, Copy, Debug, PartialEq, Eq)]
pub struct RegionInfoReply<'a> {
    /// The region.
    pub index: u32,
    /// `VFIO_REGION_INFO_FLAG_*` but for that of capabilities.
    pub flags: u32,
    /// Its bytes.
    pub bytes: u64,
    /// Where it begins in its file.
    pub offset: u64,
    /// The parts of it that can be mapped. Where there are none there is no capability.
    pub areas: &'a [Area],
    /// Bytes of the reply that the client has room for, without the header.
    pub room: u32,
}

/// `VFIO_REGION_INFO_FLAG_CAPS`
const FLAG_CAPS: u32 = 1 << 3;
/// `VFIO_REGION_INFO_CAP_SPARSE_MMAP`, version 1
const SPARSE_MMAP: (u16, u16) = (1, 1);
const SPARSE_HEADER_BYTES: u32 = 16;
const AREA_BYTES: u32 = 16;

impl RegionInfoReply<'_> {
    /// Bytes of the whole reply without its header.
    pub fn needed(&self) -> u32 {
        match self.areas.len() as u32 {
            0 => REGION_INFO_BYTES,
            count => count
                .saturating_mul(AREA_BYTES)
                .saturating_add(REGION_INFO_BYTES + SPARSE_HEADER_BYTES),
        }
    }

    /// Whether the client has room for the whole reply. Where it hasn't, the reply says how much is needed, and has neither capability nor descriptor.
    pub fn is_whole(&self) -> bool {
        self.room >= self.needed()
    }

    /// QEMU 11.1.3 refuses a reply that has the flag of capabilities and no place for them, also where it had no room for them.
    fn put(&self, to: &mut Bytes) {
        let capabilities = !self.areas.is_empty();
        to.u32(self.needed())
            .u32(self.flags | if capabilities { FLAG_CAPS } else { 0 })
            .u32(self.index);
        to.u32(if capabilities { REGION_INFO_BYTES } else { 0 })
            .u64(self.bytes)
            .u64(self.offset);
        if !capabilities || !self.is_whole() {
            return;
        }
        to.u16(SPARSE_MMAP.0)
            .u16(SPARSE_MMAP.1)
            .u32(0)
            .u32(self.areas.len() as u32)
            .u32(0);
        for area in self.areas {
            to.u64(area.offset).u64(area.bytes);
        }
    }
}

/// Flags of DEVICE_GET_INFO: it can be reset, and is a PCI device.
const DEVICE_FLAGS: u32 = 1 | 1 << 1;

/// The bytes of a good reply.
pub fn encode(id: u16, command: u16, body: &ReplyBody<'_>) -> Vec<u8> {
    let mut to = Bytes(vec![0; HEADER_BYTES]);
    match body {
        ReplyBody::Empty => {}
        ReplyBody::Version { major, minor, text } => {
            to.u16(*major).u16(*minor).all(text.as_bytes()).all(&[0]);
        }
        ReplyBody::DmaUnmap(unmap) => {
            to.u32(unmap.argsz)
                .u32(if unmap.all { UNMAP_ALL } else { 0 })
                .u64(unmap.address)
                .u64(unmap.bytes);
        }
        ReplyBody::Info { regions, irqs } => {
            to.u32(INFO_BYTES).u32(DEVICE_FLAGS).u32(*regions).u32(*irqs);
        }
        ReplyBody::RegionInfo(info) => info.put(&mut to),
        ReplyBody::IrqInfo { index, flags, count } => {
            to.u32(INFO_BYTES).u32(*flags).u32(*index).u32(*count);
        }
        ReplyBody::Read { region, offset, data } => {
            to.u64(*offset).u32(*region).u32(data.len() as u32).all(data);
        }
        ReplyBody::Write { region, offset, count } => {
            to.u64(*offset).u32(*region).u32(*count);
        }
        ReplyBody::WriteMulti { count } => {
            to.u64(*count);
        }
    }
    to.finish(id, command, header_flags::REPLY, 0)
}

/// The bytes of a reply that says that the command failed: a header alone.
pub fn encode_error(id: u16, command: u16, errno: Errno) -> Vec<u8> {
    let flags = header_flags::REPLY | header_flags::ERROR;
    Bytes(vec![0; HEADER_BYTES]).finish(id, command, flags, errno as i32 as u32)
}

/// Bytes that grow.
struct Bytes(Vec<u8>);

impl Bytes {
    fn all(&mut self, bytes: &[u8]) -> &mut Bytes {
        self.0.extend_from_slice(bytes);
        self
    }

    fn u16(&mut self, value: u16) -> &mut Bytes {
        self.all(&value.to_ne_bytes())
    }

    fn u32(&mut self, value: u32) -> &mut Bytes {
        self.all(&value.to_ne_bytes())
    }

    fn u64(&mut self, value: u64) -> &mut Bytes {
        self.all(&value.to_ne_bytes())
    }

    /// Writes the header where room was left for it.
    fn finish(mut self, id: u16, command: u16, flags: u32, error: u32) -> Vec<u8> {
        let header = Header {
            id,
            command,
            bytes: self.0.len() as u32,
            flags,
            error,
        };
        if let Some(head) = self.0.first_chunk_mut::<HEADER_BYTES>() {
            *head = header.encode();
        }
        self.0
    }
}
