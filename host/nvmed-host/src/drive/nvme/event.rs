#![forbid(unsafe_code)]
//! Asynchronous events (NVMe base specification, "Asynchronous Event Request command").

use std::fmt;

/// What a completion of an asynchronous event request says in its dword 0.
#[derive(Clone, Copy, Debug, PartialEq, Eq)]
pub struct Event {
    kind: u8,
    information: u8,
    /// The log page that has more, and whose being read makes the controller report the next event of this type.
    pub log: u8,
}

impl Event {
    /// Takes dword 0 apart.
    pub fn of(dword0: u32) -> Self {
        Self {
            kind: (dword0 & 7) as u8,
            information: (dword0 >> 8 & 0xff) as u8,
            log: (dword0 >> 16 & 0xff) as u8,
        }
    }

    /// The controller has a failure that lasts: "Persistent Internal Error".
    pub fn is_persistent_error(&self) -> bool {
        (self.kind, self.information) == (0, 3)
    }

    /// The controller's Identify data of a namespace may be others now: "Attached Namespace Attribute Changed".
    pub fn is_namespace_change(&self) -> bool {
        (self.kind, self.information) == (2, 0)
    }
}

impl fmt::Display for Event {
    fn fmt(&self, f: &mut fmt::Formatter<'_>) -> fmt::Result {
        let words = match (self.kind, self.information) {
            (0, 0) => "a write of an invalid doorbell register",
            (0, 1) => "an invalid value was written to a doorbell",
            (0, 2) => "a diagnostic failure",
            (0, 3) => "a persistent internal error",
            (0, 4) => "a transient internal error",
            (0, 5) => "a firmware image could not be loaded",
            (1, 0) => "the reliability of the drive is degraded",
            (1, 1) => "the temperature is beyond a threshold",
            (1, 2) => "the spare capacity is below its threshold",
            (2, 0) => "the attributes of a namespace have changed",
            (2, 1) => "firmware is about to be activated",
            (2, 2) => "the telemetry log has changed",
            _ => {
                return write!(
                    f,
                    "event type {}, information {:#04x}, log page {:#04x}",
                    self.kind, self.information, self.log
                )
            }
        };
        write!(
            f,
            "{words} (event type {}, information {:#04x}, log page {:#04x})",
            self.kind, self.information, self.log
        )
    }
}
