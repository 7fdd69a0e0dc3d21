//! The bytes of messages, good and bad.

/// Numbers of commands.
pub mod command {
    pub const VERSION: u16 = 1;
    pub const DMA_MAP: u16 = 2;
    pub const DMA_UNMAP: u16 = 3;
    pub const GET_INFO: u16 = 4;
    pub const GET_REGION_INFO: u16 = 5;
    pub const GET_REGION_IO_FDS: u16 = 6;
    pub const GET_IRQ_INFO: u16 = 7;
    pub const SET_IRQS: u16 = 8;
    pub const REGION_READ: u16 = 9;
    pub const REGION_WRITE: u16 = 10;
    pub const DMA_READ: u16 = 11;
    pub const DMA_WRITE: u16 = 12;
    pub const RESET: u16 = 13;
    pub const DIRTY_PAGES: u16 = 14;
    pub const WRITE_MULTI: u16 = 15;
    pub const FEATURE: u16 = 16;
    pub const MIG_READ: u16 = 17;
    pub const MIG_WRITE: u16 = 18;
}

/// Flags of a header.
pub const REPLY: u32 = 1;
pub const NO_REPLY: u32 = 0x10;
pub const ERROR: u32 = 0x20;

/// Flags of DMA_MAP.
pub const MAP_READ: u32 = 1;
pub const MAP_WRITE: u32 = 2;

/// Flags of SET_IRQS.
pub const DATA_NONE: u32 = 1;
pub const DATA_BOOL: u32 = 2;
pub const DATA_EVENTFD: u32 = 4;
pub const ACTION_MASK: u32 = 8;
pub const ACTION_UNMASK: u32 = 16;
pub const ACTION_TRIGGER: u32 = 32;

/// Indexes of regions and interrupts.
pub const BAR0: u32 = 0;
pub const CONFIG: u32 = 7;
pub const INTX: u32 = 0;
pub const MSIX: u32 = 2;
/// The kind of interrupts that says that the device has failed.
pub const ERR: u32 = 3;

/// What QEMU 11.1.3 proposes with VERSION.
pub const QEMU_CAPABILITIES: &str = concat!(
    r#"{"capabilities": {"migration": {"max_bitmap_size": 268435456, "pgsize": 4096}, "max_msg_fds": 16, "#,
    r#""max_data_xfer_size": 1048576, "max_dma_maps": 65535, "pgsizes": 4096, "write_multiple": true}}"#
);

/// Bytes of a message from numbers, in the order and with the widths that are given.
#[derive(Clone, Debug, Default)]
pub struct Payload(pub Vec<u8>);

impl Payload {
    pub fn new() -> Payload {
        Payload::default()
    }

    pub fn u16(mut self, value: u16) -> Payload {
        self.0.extend(value.to_ne_bytes());
        self
    }

    pub fn u32(mut self, value: u32) -> Payload {
        self.0.extend(value.to_ne_bytes());
        self
    }

    pub fn u64(mut self, value: u64) -> Payload {
        self.0.extend(value.to_ne_bytes());
        self
    }

    pub fn bytes(mut self, bytes: &[u8]) -> Payload {
        self.0.extend_from_slice(bytes);
        self
    }
}

/// A message with any header.
pub fn message_of(id: u16, command: u16, size: u32, flags: u32, error: u32, payload: &[u8]) -> Vec<u8> {
    Payload::new()
        .u16(id)
        .u16(command)
        .u32(size)
        .u32(flags)
        .u32(error)
        .bytes(payload)
        .0
}

/// A message whose header is right.
pub fn message(id: u16, command: u16, flags: u32, payload: &[u8]) -> Vec<u8> {
    message_of(id, command, 16 + payload.len() as u32, flags, 0, payload)
}

/// Payloads of good requests.
pub fn version_payload(major: u16, minor: u16, text: &[u8]) -> Vec<u8> {
    Payload::new().u16(major).u16(minor).bytes(text).0
}

pub fn qemu_version_payload() -> Vec<u8> {
    Payload::new()
        .u16(0)
        .u16(0)
        .bytes(QEMU_CAPABILITIES.as_bytes())
        .bytes(&[0])
        .0
}

pub fn map_payload(flags: u32, offset: u64, address: u64, bytes: u64) -> Vec<u8> {
    Payload::new().u32(32).u32(flags).u64(offset).u64(address).u64(bytes).0
}

pub fn unmap_payload(flags: u32, address: u64, bytes: u64) -> Vec<u8> {
    Payload::new().u32(24).u32(flags).u64(address).u64(bytes).0
}

pub fn info_payload() -> Vec<u8> {
    Payload::new().u32(16).u32(0).u32(0).u32(0).0
}

pub fn region_info_payload(argsz: u32, index: u32) -> Vec<u8> {
    Payload::new().u32(argsz).u32(0).u32(index).u32(0).u64(0).u64(0).0
}

pub fn irq_info_payload(index: u32) -> Vec<u8> {
    Payload::new().u32(16).u32(0).u32(index).u32(0).0
}

pub fn set_irqs_payload(flags: u32, index: u32, start: u32, count: u32, data: &[u8]) -> Vec<u8> {
    Payload::new()
        .u32(20 + data.len() as u32)
        .u32(flags)
        .u32(index)
        .u32(start)
        .u32(count)
        .bytes(data)
        .0
}

pub fn access_payload(region: u32, offset: u64, count: u32) -> Vec<u8> {
    Payload::new().u64(offset).u32(region).u32(count).0
}

pub fn write_payload(region: u32, offset: u64, data: &[u8]) -> Vec<u8> {
    Payload(access_payload(region, offset, data.len() as u32)).bytes(data).0
}

/// Several writes of at most 8 bytes: region, offset, data.
pub fn write_multi_payload(writes: &[(u32, u64, &[u8])]) -> Vec<u8> {
    writes
        .iter()
        .fold(
            Payload::new().u64(writes.len() as u64),
            |payload, (region, offset, data)| {
                let mut eight = [0; 8];
                eight.iter_mut().zip(*data).for_each(|(to, from)| *to = *from);
                payload
                    .bytes(&access_payload(*region, *offset, data.len() as u32))
                    .bytes(&eight)
            },
        )
        .0
}
