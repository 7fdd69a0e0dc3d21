#![forbid(unsafe_code)]
//! How a controller's properties are accessed, and what its capabilities say (NVMe base specification, "Controller Properties").

use std::sync::OnceLock;
use std::time::{Duration, Instant};

use crate::drive::DriveError;

/// Offsets of properties in BAR0.
pub mod property {
    /// Controller Capabilities, 64 bits.
    pub const CAP: u32 = 0x00;
    /// Version.
    pub const VS: u32 = 0x08;
    /// Interrupt Mask Set.
    pub const INTMS: u32 = 0x0c;
    /// Controller Configuration.
    pub const CC: u32 = 0x14;
    /// Controller Status.
    pub const CSTS: u32 = 0x1c;
    /// Admin Queue Attributes.
    pub const AQA: u32 = 0x24;
    /// Admin Submission Queue Base Address, 64 bits.
    pub const ASQ: u32 = 0x28;
    /// Admin Completion Queue Base Address, 64 bits.
    pub const ACQ: u32 = 0x30;
    /// Controller Ready Timeouts.
    pub const CRTO: u32 = 0x68;
    /// The first doorbell.
    pub const DOORBELLS: u32 = 0x1000;
}

/// Bits of Controller Configuration.
pub mod configuration {
    /// Enable (EN).
    pub const ENABLE: u32 = 1;
    /// The field of the shutdown notification (SHN).
    pub const SHUTDOWN: u32 = 3 << 14;
    /// A normal shutdown.
    pub const SHUTDOWN_NORMAL: u32 = 1 << 14;
    /// Entries of 64 bytes in submission queues and of 16 bytes in completion queues (IOSQES, IOCQES).
    pub const ENTRIES: u32 = 6 << 16 | 4 << 20;
}

/// Bits of Controller Status.
pub mod status {
    /// Ready (RDY).
    pub const READY: u32 = 1;
    /// Controller Fatal Status (CFS).
    pub const FATAL: u32 = 1 << 1;
    /// The field of the shutdown status (SHST).
    pub const SHUTDOWN: u32 = 3 << 2;
    /// The shutdown is complete.
    pub const SHUT_DOWN: u32 = 2 << 2;
}

/// What a read gives where no device answers.
pub const GONE: u32 = u32::MAX;

/// The longest that a controller may take to become ready or to shut down, whatever it says of itself: ten minutes, in milliseconds.
pub const LONGEST_WAIT: u64 = 600_000;

/// Accesses of a controller's properties (BAR0), and a clock. An access outside of the BAR, and one that fails, is a [`DriveError::Failed`].
pub trait Access: Send {
    /// Bytes of BAR0 that can be accessed.
    fn bytes(&self) -> u32;

    /// Reads a property of 32 bits. It may wait for the answer, with a limit: it is for opening and closing alone.
    fn read(&mut self, offset: u32) -> Result<u32, DriveError>;

    /// Reads a property of 32 bits without waiting: asks for it, where nothing is asked for yet, and gives the answer once it is there. The value is not
    /// older than the last [`Access::write`] below the doorbells.
    fn poll(&mut self, offset: u32) -> Result<Option<u32>, DriveError>;

    /// Writes a property or a doorbell. It never waits; what was stored in memory before is visible to the controller when the write arrives.
    fn write(&mut self, offset: u32, value: u32) -> Result<(), DriveError>;

    /// Milliseconds of a clock that never goes back.
    fn now(&self) -> u64 {
        static BEGIN: OnceLock<Instant> = OnceLock::new();
        u64::try_from(BEGIN.get_or_init(Instant::now).elapsed().as_millis()).unwrap_or(u64::MAX)
    }

    /// Waits a little, at most some milliseconds; the clock goes on. It is for opening and closing alone.
    fn pause(&mut self) {
        std::thread::sleep(Duration::from_micros(200));
    }
}

/// What CAP, CRTO and VS say.
#[derive(Clone, Copy, Debug, PartialEq, Eq)]
pub struct Capabilities {
    /// Entries that an I/O queue may have (CAP.MQES, made one more): 2 to 65,536.
    pub most_entries: u32,
    /// Bytes between doorbells (CAP.DSTRD): a power of two from 4 to 131,072.
    pub stride: u32,
    /// Milliseconds that the controller may take to become ready: CAP.TO, or CRTO.CRWMT where that is longer and CAP.CRMS says that it is there.
    pub ready_wait: u64,
    /// Milliseconds that the controller may take to become disabled: CAP.TO.
    pub disable_wait: u64,
    /// The property Version: major in bits 31 to 16, minor in 15 to 8.
    pub version: u32,
}

/// Milliseconds of a field that counts 500 ms; at least one of them, and at most [`LONGEST_WAIT`].
fn halves(count: u32) -> u64 {
    (500 * u64::from(count)).clamp(500, LONGEST_WAIT)
}

impl Capabilities {
    /// Takes the properties apart and checks what is needed of them: the NVM command set (CAP.CSS), pages of 4 KiB (CAP.MPSMIN), queues of two entries
    /// at least (CAP.MQES), and the doorbells of `lanes` lanes within `bar_bytes` bytes of BAR0 (CAP.DSTRD). `crto` is looked at where CAP.CRMS says so.
    pub fn of(cap: u64, crto: u32, version: u32, lanes: u32, bar_bytes: u32) -> Result<Self, DriveError> {
        let unusable = |words: String| Err(DriveError::Unusable(words));
        if cap == u64::MAX {
            return unusable("there is no controller: its registers read as all ones".into());
        }
        let stride = 4u32 << (cap >> 32 & 15);
        if cap >> 37 & 1 == 0 {
            return unusable("the controller does not have the NVM command set (CAP.CSS)".into());
        }
        let smallest_page = cap >> 48 & 15;
        if smallest_page != 0 {
            return unusable(format!(
                "the controller needs memory pages larger than 4 KiB (CAP.MPSMIN is {smallest_page})"
            ));
        }
        let most_entries = (cap & 0xffff) as u32 + 1;
        if most_entries < 2 {
            return unusable("the controller has queues of one slot only (CAP.MQES)".into());
        }
        let end = u64::from(property::DOORBELLS) + (2 * u64::from(lanes) + 2) * u64::from(stride);
        if end > u64::from(bar_bytes) {
            return unusable(format!(
                "the doorbells of {lanes} lanes end at {end:#x}, beyond the {bar_bytes:#x} bytes of BAR0"
            ));
        }
        let disable_wait = halves((cap >> 24 & 0xff) as u32);
        let ready_wait = if with_media_timeout(cap) {
            disable_wait.max(halves(crto & 0xffff))
        } else {
            disable_wait
        };
        Ok(Self {
            most_entries,
            stride,
            ready_wait,
            disable_wait,
            version,
        })
    }
}

/// Whether CAP.CRMS says that CRTO has the longest time to become ready with all media (bit 0 of the field, CRWMS).
pub fn with_media_timeout(cap: u64) -> bool {
    cap >> 59 & 1 == 1
}
