#![forbid(unsafe_code)]
//! What a controller says of itself and of namespace 1: pages that Identify gives, taken apart and checked.

use super::bytes::{get16, get32, get64, get8};
use crate::drive::DriveError;

/// Bytes of an Identify page.
pub const PAGE_BYTES: usize = 4096;

/// "Identify Controller data structure", as far as it is used.
#[derive(Clone, Debug, Default, PartialEq, Eq)]
pub struct ControllerPage {
    /// Serial number (SN), without the spaces at its end; characters that cannot be printed are question marks.
    pub serial: String,
    /// Model number (MN), in the same way.
    pub model: String,
    /// Firmware revision (FR), in the same way.
    pub firmware: String,
    /// The most bytes of a transfer (MDTS), or `None` where there is no limit.
    pub most_transfer: Option<u64>,
    /// Microseconds that a shutdown may take (RTD3E), or 0 where that is not said.
    pub shutdown_microseconds: u32,
    /// Optional asynchronous events that it has (OAES).
    pub optional_events: u32,
    /// Asynchronous event requests that may be outstanding (AERL, made one more): 1 to 256.
    pub event_requests: u32,
    /// It has Compare (ONCS).
    pub compare: bool,
    /// It has Dataset Management (ONCS).
    pub deallocate: bool,
    /// It has Write Zeroes (ONCS).
    pub write_zeroes: bool,
    /// It has a volatile write cache (VWC).
    pub write_cache: bool,
}

/// "Identify Namespace data structure" of the NVM command set, as far as it is used.
#[derive(Clone, Copy, Debug, Default, PartialEq, Eq)]
pub struct NamespacePage {
    /// Blocks of 512 bytes (NSZE).
    pub blocks: u64,
    /// Deallocated blocks read as zeros (DLFEAT, bits 2:0).
    pub deallocated_are_zeros: bool,
    /// A Write Zeroes may deallocate (DLFEAT, bit 3).
    pub zeroes_deallocate: bool,
}

/// "I/O Command Set specific Identify Controller data structure" of the NVM command set: `None` is no limit.
#[derive(Clone, Copy, Debug, Default, PartialEq, Eq)]
pub struct Limits {
    /// The most blocks of 512 bytes of a Write Zeroes (WZSL).
    pub write_zeroes_blocks: Option<u64>,
    /// The most blocks of a range of a Dataset Management (DMRSL).
    pub range_blocks: Option<u32>,
    /// The most ranges of a Dataset Management (DMRL).
    pub ranges: Option<u8>,
    /// The most blocks of a Dataset Management (DMSL).
    pub dataset_blocks: Option<u64>,
}

fn unusable<T>(words: String) -> Result<T, DriveError> {
    Err(DriveError::Unusable(words))
}

fn text(page: &[u8], at: usize, bytes: usize) -> String {
    let field = page.get(at..at + bytes).unwrap_or_default();
    let length = field
        .iter()
        .rposition(|c| *c != b' ' && *c != 0)
        .map_or(0, |last| last + 1);
    let printable = |c: &u8| if (0x20..0x7f).contains(c) { char::from(*c) } else { '?' };
    field.iter().take(length).map(printable).collect()
}

impl ControllerPage {
    /// Checks the page: an I/O controller (CNTRLTYPE) with entries of 64 and 16 bytes (SQES, CQES), a namespace (NN), and transfers of at least
    /// `transfer` bytes (MDTS, which counts pages of 4 KiB as a power of two).
    pub fn of(page: &[u8; PAGE_BYTES], transfer: u64) -> Result<Self, DriveError> {
        let (kind, mdts, sqes, cqes) = (get8(page, 111), get8(page, 77), get8(page, 512), get8(page, 513));
        if kind > 1 {
            return unusable(format!("the controller is no I/O controller (CNTRLTYPE is {kind})"));
        }
        let most_transfer = if mdts == 0 {
            None
        } else {
            4096u64.checked_shl(u32::from(mdts)).filter(|_| mdts < 52)
        };
        if let Some(most) = most_transfer.filter(|most| *most < transfer) {
            let (most, wanted) = (most >> 10, transfer >> 10);
            return unusable(format!(
                "the controller transfers at most {most} KiB (MDTS is {mdts}), and {wanted} are needed"
            ));
        }
        if sqes & 15 > 6 || sqes >> 4 < 6 {
            return unusable(format!(
                "the controller has no submission queue entries of 64 bytes (SQES is {sqes:#04x})"
            ));
        }
        if cqes & 15 > 4 || cqes >> 4 < 4 {
            return unusable(format!(
                "the controller has no completion queue entries of 16 bytes (CQES is {cqes:#04x})"
            ));
        }
        if get32(page, 516) == 0 {
            return unusable("the controller has no namespace".into());
        }
        let oncs = get16(page, 520);
        Ok(Self {
            serial: text(page, 4, 20),
            model: text(page, 24, 40),
            firmware: text(page, 64, 8),
            most_transfer,
            shutdown_microseconds: get32(page, 88),
            optional_events: get32(page, 92),
            event_requests: u32::from(get8(page, 259)) + 1,
            compare: oncs & 1 != 0,
            deallocate: oncs & 1 << 2 != 0,
            write_zeroes: oncs & 1 << 3 != 0,
            write_cache: get8(page, 525) & 1 != 0,
        })
    }
}

impl NamespacePage {
    /// Checks the page of the namespace `id`: blocks of 512 bytes, at least `blocks` of them, without metadata and protection information, and not write
    /// protected.
    pub fn of(page: &[u8; PAGE_BYTES], id: u32, blocks: u64) -> Result<Self, DriveError> {
        let flbas = get8(page, 26);
        let (format, formats) = (
            usize::from(flbas & 15 | (flbas >> 5 & 3) << 4),
            usize::from(get8(page, 25)),
        );
        let found = get64(page, 0);
        if found == 0 {
            return unusable(format!("namespace {id} is not active, or has no blocks"));
        }
        if format > formats || format > 63 {
            return unusable(format!("namespace {id} has format {format} of {}", formats + 1));
        }
        let descriptor = 128 + 4 * format;
        let (size, metadata) = (get8(page, descriptor + 2), get16(page, descriptor));
        if size != 9 {
            return unusable(format!(
                "namespace {id} has blocks of 2^{size} bytes, not 512: format it with 512 bytes"
            ));
        }
        if metadata != 0 {
            return unusable(format!(
                "namespace {id} has {metadata} bytes of metadata a block: format it without metadata"
            ));
        }
        if get8(page, 29) & 7 != 0 {
            return unusable(format!("namespace {id} is formatted with protection information"));
        }
        if get8(page, 99) & 1 != 0 {
            return unusable(format!("namespace {id} is write protected"));
        }
        if found < blocks {
            return unusable(format!(
                "namespace {id} has {found} blocks, and the extents end at block {blocks}"
            ));
        }
        let deallocated = get8(page, 33);
        Ok(Self {
            blocks: found,
            deallocated_are_zeros: deallocated & 7 == 1,
            zeroes_deallocate: deallocated & 1 << 3 != 0,
        })
    }
}

impl Limits {
    /// Takes the page apart. WZSL counts pages of 4 KiB as a power of two; 0 is no limit in each field.
    pub fn of(page: &[u8; PAGE_BYTES]) -> Self {
        let size = u32::from(get8(page, 1));
        Self {
            write_zeroes_blocks: Some(size)
                .filter(|s| (1..60).contains(s))
                .and_then(|s| 8u64.checked_shl(s)),
            ranges: Some(get8(page, 3)).filter(|n| *n != 0),
            range_blocks: Some(get32(page, 4)).filter(|n| *n != 0),
            dataset_blocks: Some(get64(page, 8)).filter(|n| *n != 0),
        }
    }
}
