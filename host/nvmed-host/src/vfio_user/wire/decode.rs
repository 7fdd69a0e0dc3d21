//! From a message's bytes to a request.

#![forbid(unsafe_code)]

use super::{
    header_flags, Command, Fields, FramingError, Header, Refusal, DATA_MAX, DESCRIPTORS_MAX, HEADER_BYTES, INFO_BYTES,
    PAGE_BYTES, REGION_INFO_BYTES, VERSION_TEXT_MAX,
};
use crate::vfio_user::request::{IrqAction, RegionRead, RegionWrite, SmallWrite};

/// A message whose header is good.
#[derive(Debug, PartialEq, Eq)]
pub struct Message {
    /// The sender's number of it.
    pub id: u16,
    /// The command's number.
    pub command: u16,
    /// Whether the sender wants a reply.
    pub reply_wanted: bool,
    /// What is asked, or why it is refused.
    pub body: Result<Body, Refusal>,
}

/// What is asked. The descriptors that belong to it are known by count alone, which is checked.
#[derive(Debug, PartialEq, Eq)]
pub enum Body {
    /// VERSION
    Version(VersionRequest),
    /// DMA_MAP
    DmaMap(MapRequest),
    /// DMA_UNMAP
    DmaUnmap(UnmapRequest),
    /// DEVICE_GET_INFO, with room for the whole reply
    GetInfo,
    /// DEVICE_GET_REGION_INFO
    GetRegionInfo {
        /// Most bytes of the reply without its header, at least [`REGION_INFO_BYTES`].
        argsz: u32,
        /// The region.
        index: u32,
    },
    /// DEVICE_GET_IRQ_INFO, with room for the whole reply
    GetIrqInfo {
        /// The kind of interrupt.
        index: u32,
    },
    /// DEVICE_SET_IRQS
    SetIrqs(SetIrqsRequest),
    /// REGION_READ
    RegionRead(RegionRead),
    /// REGION_WRITE
    RegionWrite(RegionWrite),
    /// REGION_WRITE_MULTI: at least one
    WriteMulti(Vec<SmallWrite>),
    /// DEVICE_RESET
    Reset,
}

/// What a client proposes.
#[derive(Clone, Debug, PartialEq, Eq)]
pub struct VersionRequest {
    /// The major version.
    pub major: u16,
    /// The minor version.
    pub minor: u16,
    /// The text after them with its final NUL; empty where there is none.
    pub text: Vec<u8>,
}

/// Memory that the device may use. `address + bytes` and `offset + bytes` are below 2^64 and 2^63; all are multiples of 4,096, and `bytes` is not 0.
#[derive(Clone, Copy, Debug, PartialEq, Eq)]
pub struct MapRequest {
    /// The device may read it.
    pub readable: bool,
    /// The device may write it.
    pub writable: bool,
    /// Where it begins in the descriptor's file.
    pub offset: u64,
    /// Where it begins for the device.
    pub address: u64,
    /// Its length.
    pub bytes: u64,
    /// A descriptor came with it.
    pub descriptor: bool,
}

/// Memory that the device may use no longer. Where `all` is set, the others are 0.
#[derive(Clone, Copy, Debug, PartialEq, Eq)]
pub struct UnmapRequest {
    /// `argsz` and `flags`, which the reply repeats.
    pub argsz: u32,
    /// Everything that was mapped.
    pub all: bool,
    /// Where it begins for the device.
    pub address: u64,
    /// Its length.
    pub bytes: u64,
}

/// What is to be done to interrupts. `start + count` is below 2^32. Where `count` is 0, `start` is, too: all of the kind are taken away.
#[derive(Clone, Debug, PartialEq, Eq)]
pub struct SetIrqsRequest {
    /// The kind of interrupt.
    pub index: u32,
    /// The first one.
    pub start: u32,
    /// So many.
    pub count: u32,
    /// What is done.
    pub action: IrqAction,
    /// With which data.
    pub data: IrqSelection,
}

/// What the data of SET_IRQS is.
#[derive(Clone, Debug, PartialEq, Eq)]
pub enum IrqSelection {
    /// DATA_NONE: each of them.
    Each,
    /// DATA_BOOL: those that are true, as many as the count.
    Chosen(Vec<bool>),
    /// DATA_EVENTFD: as many descriptors as the count came with the message, or none.
    Eventfds,
}

/// Takes a whole message apart, with the number of descriptors that came with it. Fails where the stream cannot go on. The bytes are those of one message: as many as its
/// header says.
pub fn decode(bytes: &[u8], descriptors: usize) -> Result<Message, FramingError> {
    let (head, payload) = bytes
        .split_first_chunk::<HEADER_BYTES>()
        .ok_or(FramingError::Size(bytes.len() as u32))?;
    let header = Header::decode(head)?;
    if header.bytes as usize != bytes.len() {
        return Err(FramingError::Size(header.bytes));
    }
    if descriptors > DESCRIPTORS_MAX {
        return Err(FramingError::Descriptors);
    }
    let body = if header.flags & !(header_flags::TYPE | header_flags::NO_REPLY) != 0 {
        Err(Refusal::invalid("a command with flags that there are not"))
    } else {
        decode_body(header.command, payload, descriptors)
    };
    Ok(Message {
        id: header.id,
        command: header.command,
        reply_wanted: header.flags & header_flags::NO_REPLY == 0,
        body,
    })
}

const SHORT: Refusal = Refusal::invalid("a message is shorter than its command needs");

fn decode_body(command: u16, payload: &[u8], descriptors: usize) -> Result<Body, Refusal> {
    let command = Command::of(command).ok_or(Refusal::unsupported("a command that there is not"))?;
    let taken = match command {
        Command::DmaMap => 1,
        Command::SetIrqs => DESCRIPTORS_MAX,
        _ => 0,
    };
    if descriptors > taken {
        return Err(Refusal::invalid(
            "a message with descriptors that its command does not take",
        ));
    }
    match command {
        Command::Version => version(payload),
        Command::DmaMap => map(payload, descriptors == 1).map(Body::DmaMap),
        Command::DmaUnmap => unmap(payload).map(Body::DmaUnmap),
        Command::GetInfo => info(payload, INFO_BYTES).map(|_| Body::GetInfo),
        Command::GetRegionInfo => {
            info(payload, REGION_INFO_BYTES).map(|(argsz, index)| Body::GetRegionInfo { argsz, index })
        }
        Command::GetIrqInfo => info(payload, INFO_BYTES).map(|(_, index)| Body::GetIrqInfo { index }),
        Command::SetIrqs => set_irqs(payload, descriptors).map(Body::SetIrqs),
        Command::RegionRead => read(payload).map(Body::RegionRead),
        Command::RegionWrite => write(payload).map(Body::RegionWrite),
        Command::WriteMulti => write_multi(payload).map(Body::WriteMulti),
        Command::Reset => Ok(Body::Reset),
        Command::GetRegionIoFds => Err(Refusal::unsupported("regions have no descriptors for input and output")),
        Command::DmaRead | Command::DmaWrite => Err(Refusal::unsupported("a command that servers send, not clients")),
        Command::DirtyPages | Command::Feature | Command::MigrationRead | Command::MigrationWrite => {
            Err(Refusal::unsupported("the device cannot be moved while it works"))
        }
    }
}

fn version(payload: &[u8]) -> Result<Body, Refusal> {
    let mut fields = Fields::new(payload);
    let (major, minor) = fields.u16().zip(fields.u16()).ok_or(SHORT)?;
    if fields.rest.len() > VERSION_TEXT_MAX {
        return Err(Refusal::invalid("the capabilities are too long"));
    }
    Ok(Body::Version(VersionRequest {
        major,
        minor,
        text: fields.rest.to_vec(),
    }))
}

/// Flags of DMA_MAP.
mod map_flags {
    pub const READ: u32 = 1;
    pub const WRITE: u32 = 1 << 1;
    pub const MMAP: u32 = 1 << 2;
    pub const FILE_IO: u32 = 1 << 3;
    pub const ALL: u32 = READ | WRITE | MMAP | FILE_IO;
}

/// Bytes of the structures of DMA_MAP and DMA_UNMAP: the least `argsz`.
const MAP_BYTES: u32 = 32;
const UNMAP_BYTES: u32 = 24;

fn map(payload: &[u8], descriptor: bool) -> Result<MapRequest, Refusal> {
    let mut fields = Fields::new(payload);
    let (argsz, flags) = fields.u32().zip(fields.u32()).ok_or(SHORT)?;
    let (offset, address) = fields.u64().zip(fields.u64()).ok_or(SHORT)?;
    let bytes = fields.u64().ok_or(SHORT)?;
    if argsz < MAP_BYTES {
        return Err(Refusal::invalid("argsz of a mapping is too small"));
    }
    if flags & !map_flags::ALL != 0 || flags & (map_flags::READ | map_flags::WRITE) == 0 {
        return Err(Refusal::invalid("a mapping with flags that cannot be"));
    }
    if flags & map_flags::FILE_IO != 0 {
        return Err(Refusal::unsupported("memory is not read and written as a file"));
    }
    if flags & map_flags::MMAP != 0 && !descriptor {
        return Err(Refusal::invalid(
            "memory is to be mapped, and came without a descriptor",
        ));
    }
    page_range(address, bytes)?;
    if offset % PAGE_BYTES != 0 || offset.checked_add(bytes).is_none_or(|end| end > i64::MAX as u64) {
        return Err(Refusal::invalid("a mapping of a part of a file that cannot be"));
    }
    Ok(MapRequest {
        readable: flags & map_flags::READ != 0,
        writable: flags & map_flags::WRITE != 0,
        offset,
        address,
        bytes,
        descriptor,
    })
}

fn page_range(address: u64, bytes: u64) -> Result<(), Refusal> {
    if bytes == 0 || bytes % PAGE_BYTES != 0 || address % PAGE_BYTES != 0 || address.checked_add(bytes).is_none() {
        return Err(Refusal::invalid(
            "a range of memory that is empty, not of whole pages, or beyond the last address",
        ));
    }
    Ok(())
}

/// Flag of DMA_UNMAP: all mappings.
pub(super) const UNMAP_ALL: u32 = 1 << 1;

fn unmap(payload: &[u8]) -> Result<UnmapRequest, Refusal> {
    let mut fields = Fields::new(payload);
    let (argsz, flags) = fields.u32().zip(fields.u32()).ok_or(SHORT)?;
    let (address, bytes) = fields.u64().zip(fields.u64()).ok_or(SHORT)?;
    if argsz < UNMAP_BYTES {
        return Err(Refusal::invalid("argsz of an unmapping is too small"));
    }
    match flags {
        0 => page_range(address, bytes)?,
        UNMAP_ALL if address == 0 && bytes == 0 => {}
        UNMAP_ALL => return Err(Refusal::invalid("everything is to be unmapped, and a range is named")),
        _ => return Err(Refusal::invalid("an unmapping with flags that there are not")),
    }
    Ok(UnmapRequest {
        argsz,
        all: flags == UNMAP_ALL,
        address,
        bytes,
    })
}

/// `argsz` and the third field, which is an index but for GET_INFO. The fields that have to be zero say nothing, and are not looked at.
fn info(payload: &[u8], least: u32) -> Result<(u32, u32), Refusal> {
    if payload.len() < least as usize {
        return Err(SHORT);
    }
    let mut fields = Fields::new(payload);
    let argsz = fields.u32().ok_or(SHORT)?;
    let (_flags, index) = fields.u32().zip(fields.u32()).ok_or(SHORT)?;
    if argsz < least {
        return Err(Refusal::invalid("argsz is too small for what is asked"));
    }
    Ok((argsz, index))
}

/// Flags of SET_IRQS.
mod irq_flags {
    pub const NONE: u32 = 1;
    pub const BOOL: u32 = 1 << 1;
    pub const EVENTFD: u32 = 1 << 2;
    pub const MASK: u32 = 1 << 3;
    pub const UNMASK: u32 = 1 << 4;
    pub const TRIGGER: u32 = 1 << 5;
    pub const DATA: u32 = NONE | BOOL | EVENTFD;
    pub const ACTION: u32 = MASK | UNMASK | TRIGGER;
}

/// Bytes of SET_IRQS before its data.
const SET_IRQS_BYTES: u32 = 20;

fn set_irqs(payload: &[u8], descriptors: usize) -> Result<SetIrqsRequest, Refusal> {
    let mut fields = Fields::new(payload);
    let (argsz, flags) = fields.u32().zip(fields.u32()).ok_or(SHORT)?;
    let (index, start) = fields.u32().zip(fields.u32()).ok_or(SHORT)?;
    let count = fields.u32().ok_or(SHORT)?;
    if flags & !(irq_flags::DATA | irq_flags::ACTION) != 0 {
        return Err(Refusal::invalid("interrupts with flags that there are not"));
    }
    let action = match flags & irq_flags::ACTION {
        irq_flags::MASK => IrqAction::Mask,
        irq_flags::UNMASK => IrqAction::Unmask,
        irq_flags::TRIGGER => IrqAction::Trigger,
        _ => return Err(Refusal::invalid("interrupts with no action, or with several")),
    };
    let data_bytes = if flags & irq_flags::DATA == irq_flags::BOOL {
        count
    } else {
        0
    };
    let needed = SET_IRQS_BYTES.checked_add(data_bytes).ok_or(SHORT)?;
    if argsz < needed {
        return Err(Refusal::invalid("argsz of interrupts is too small"));
    }
    if start.checked_add(count).is_none() {
        return Err(Refusal::invalid("interrupts beyond the last number"));
    }
    let data = match flags & irq_flags::DATA {
        irq_flags::NONE => IrqSelection::Each,
        irq_flags::BOOL => {
            let chosen = fields.rest.get(..count as usize).ok_or(SHORT)?;
            IrqSelection::Chosen(chosen.iter().map(|byte| *byte != 0).collect())
        }
        irq_flags::EVENTFD => IrqSelection::Eventfds,
        _ => return Err(Refusal::invalid("interrupts with no kind of data, or with several")),
    };
    let wanted = if data == IrqSelection::Eventfds {
        count as usize
    } else {
        0
    };
    if descriptors != 0 && descriptors != wanted {
        return Err(Refusal::invalid(
            "interrupts with a count of descriptors that is not theirs",
        ));
    }
    if count == 0 && (start != 0 || data != IrqSelection::Each || action != IrqAction::Trigger) {
        return Err(Refusal::invalid("interrupts of which there are none"));
    }
    Ok(SetIrqsRequest {
        index,
        start,
        count,
        action,
        data,
    })
}

fn read(payload: &[u8]) -> Result<RegionRead, Refusal> {
    let mut fields = Fields::new(payload);
    let (offset, region) = fields.u64().zip(fields.u32()).ok_or(SHORT)?;
    let count = fields.u32().ok_or(SHORT)?;
    check_count(count, DATA_MAX)?;
    Ok(RegionRead { region, offset, count })
}

fn write(payload: &[u8]) -> Result<RegionWrite, Refusal> {
    let RegionRead { region, offset, count } = read(payload)?;
    let data = payload.get(super::ACCESS_BYTES..).unwrap_or_default();
    if data.len() != count as usize {
        return Err(Refusal::invalid("a write whose count is not that of its bytes"));
    }
    Ok(RegionWrite {
        region,
        offset,
        data: data.to_vec(),
    })
}

fn check_count(count: u32, most: u32) -> Result<(), Refusal> {
    if count == 0 || count > most {
        return Err(Refusal::invalid("an access of no bytes, or of more than one may have"));
    }
    Ok(())
}

/// Bytes of one write of REGION_WRITE_MULTI, with its 8 bytes of data.
const SMALL_WRITE_BYTES: usize = 24;

fn write_multi(payload: &[u8]) -> Result<Vec<SmallWrite>, Refusal> {
    let mut fields = Fields::new(payload);
    let count = fields.u64().ok_or(SHORT)?;
    if count == 0 || count.checked_mul(SMALL_WRITE_BYTES as u64) != Some(fields.rest.len() as u64) {
        return Err(Refusal::invalid("writes whose count is not that of the message"));
    }
    fields.rest.chunks_exact(SMALL_WRITE_BYTES).map(small_write).collect()
}

fn small_write(bytes: &[u8]) -> Result<SmallWrite, Refusal> {
    let mut fields = Fields::new(bytes);
    let (offset, region) = fields.u64().zip(fields.u32()).ok_or(SHORT)?;
    let count = fields.u32().ok_or(SHORT)?;
    let data = fields.array().ok_or(SHORT)?;
    SmallWrite::new(region, offset, data, count).ok_or(Refusal::invalid(
        "one of several writes is longer than 8 bytes, or empty",
    ))
}
