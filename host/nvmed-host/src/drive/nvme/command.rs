#![forbid(unsafe_code)]
//! The admin commands that are given to a controller (NVMe base specification, "Admin Command Set").

use super::bytes::put;

/// Bytes of an entry of a submission queue.
pub const ENTRY_BYTES: usize = 64;

/// The namespace of commands that concern all of them.
const ALL_NAMESPACES: u32 = u32::MAX;

/// An admin command. Pair y are the I/O queues of lane y - 1.
#[derive(Clone, Copy, Debug, PartialEq, Eq)]
pub enum Command {
    /// Identify with CNS 01h: the controller.
    IdentifyController,
    /// Identify with CNS 00h: namespace 1.
    IdentifyNamespace,
    /// Identify with CNS 06h: limits of the controller's NVM command set.
    IdentifyLimits,
    /// Set Features, Number of Queues: that many pairs.
    QueueCount {
        /// 1 to 65,535.
        pairs: u32,
    },
    /// Set Features, Asynchronous Event Configuration.
    EventConfiguration {
        /// Dword 11.
        events: u32,
    },
    /// Create I/O Completion Queue.
    CreateCompletion {
        /// Its identifier.
        pair: u16,
        /// Host address of its whole pages.
        ring: u64,
        /// 2 to 65,536.
        entries: u32,
        /// Whether it interrupts, by vector 0.
        interrupts: bool,
    },
    /// Create I/O Submission Queue, for the completion queue of the same identifier.
    CreateSubmission {
        /// Its identifier.
        pair: u16,
        /// Host address of its whole pages.
        ring: u64,
        /// 2 to 65,536.
        entries: u32,
    },
    /// Delete I/O Submission Queue.
    DeleteSubmission {
        /// Its identifier.
        pair: u16,
    },
    /// Delete I/O Completion Queue.
    DeleteCompletion {
        /// Its identifier.
        pair: u16,
    },
    /// Get Log Page, 512 bytes. The controller may report events of the page's type again.
    Log {
        /// The log page identifier.
        page: u8,
    },
    /// Abort.
    Abort {
        /// The submission queue of the command.
        pair: u16,
        /// The identifier of the command.
        command: u16,
    },
    /// Asynchronous Event Request: it is completed when there is an event.
    Event,
}

impl Command {
    /// What messages call it.
    pub fn name(&self) -> &'static str {
        match self {
            Self::IdentifyController => "Identify Controller",
            Self::IdentifyNamespace => "Identify Namespace 1",
            Self::IdentifyLimits => "Identify I/O Command Set Specific Controller",
            Self::QueueCount { .. } => "Set Features, Number of Queues",
            Self::EventConfiguration { .. } => "Set Features, Asynchronous Event Configuration",
            Self::CreateCompletion { .. } => "Create I/O Completion Queue",
            Self::CreateSubmission { .. } => "Create I/O Submission Queue",
            Self::DeleteSubmission { .. } => "Delete I/O Submission Queue",
            Self::DeleteCompletion { .. } => "Delete I/O Completion Queue",
            Self::Log { .. } => "Get Log Page",
            Self::Abort { .. } => "Abort",
            Self::Event => "Asynchronous Event Request",
        }
    }

    /// Whether a drive may refuse it and be used all the same.
    pub fn may_be_refused(&self) -> bool {
        matches!(
            self,
            Self::IdentifyLimits
                | Self::EventConfiguration { .. }
                | Self::Log { .. }
                | Self::Abort { .. }
                | Self::Event
        )
    }

    /// Whether the controller writes the page for data.
    pub fn gives_data(&self) -> bool {
        matches!(
            self,
            Self::IdentifyController | Self::IdentifyNamespace | Self::IdentifyLimits | Self::Log { .. }
        )
    }

    /// The entry for it. `data` is the host address of the page for data.
    pub fn entry(&self, id: u16, data: u64) -> [u8; ENTRY_BYTES] {
        let size = |entries: u32| entries.wrapping_sub(1) << 16;
        let (opcode, namespace, place, dword10, dword11): (u8, u32, u64, u32, u32) = match *self {
            Self::IdentifyController => (0x06, 0, data, 1, 0),
            Self::IdentifyNamespace => (0x06, 1, data, 0, 0),
            Self::IdentifyLimits => (0x06, 0, data, 6, 0),
            Self::QueueCount { pairs } => {
                let wish = pairs.saturating_sub(1) & 0xffff;
                (0x09, 0, 0, 0x07, wish << 16 | wish)
            }
            Self::EventConfiguration { events } => (0x09, 0, 0, 0x0b, events),
            Self::CreateCompletion {
                pair,
                ring,
                entries,
                interrupts,
            } => (
                0x05,
                0,
                ring,
                size(entries) | u32::from(pair),
                1 | u32::from(interrupts) << 1,
            ),
            Self::CreateSubmission { pair, ring, entries } => (
                0x01,
                0,
                ring,
                size(entries) | u32::from(pair),
                u32::from(pair) << 16 | 1,
            ),
            Self::DeleteSubmission { pair } => (0x00, 0, 0, u32::from(pair), 0),
            Self::DeleteCompletion { pair } => (0x04, 0, 0, u32::from(pair), 0),
            Self::Log { page } => (0x02, ALL_NAMESPACES, data, 127 << 16 | u32::from(page), 0),
            Self::Abort { pair, command } => (0x08, 0, 0, u32::from(command) << 16 | u32::from(pair), 0),
            Self::Event => (0x0c, 0, 0, 0, 0),
        };
        let mut entry = [0u8; ENTRY_BYTES];
        put(&mut entry, 0, &(u32::from(opcode) | u32::from(id) << 16).to_le_bytes());
        put(&mut entry, 4, &namespace.to_le_bytes());
        put(&mut entry, 24, &place.to_le_bytes());
        put(&mut entry, 40, &dword10.to_le_bytes());
        put(&mut entry, 44, &dword11.to_le_bytes());
        entry
    }
}
