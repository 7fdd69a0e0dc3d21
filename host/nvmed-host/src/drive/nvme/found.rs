#![forbid(unsafe_code)]
//! What a drive must have, and what was found out of it.

use std::fmt;

use super::identify::{ControllerPage, Limits, NamespacePage};

/// What a drive must have.
#[derive(Clone, Copy, Debug, PartialEq, Eq)]
pub struct Needs {
    /// Host address of [`ADMIN_BYTES`](super::ADMIN_BYTES) bytes that nothing else uses, a multiple of 4,096.
    pub admin: u64,
    /// Blocks of 512 bytes in namespace 1.
    pub blocks: u64,
    /// Pairs of I/O queues, 1 to [`MOST_LANES`](super::MOST_LANES).
    pub lanes: u32,
    /// Whether completion queues interrupt, by vector 0.
    pub interrupts: bool,
}

/// What was found out of the drive.
#[derive(Clone, Debug, Default, PartialEq, Eq)]
pub struct Found {
    /// The property Version: major in bits 31 to 16, minor in 15 to 8.
    pub version: u32,
    /// Of the controller.
    pub controller: ControllerPage,
    /// Of namespace 1.
    pub namespace: NamespacePage,
    /// Of the NVM command set.
    pub limits: Limits,
}

impl fmt::Display for Found {
    fn fmt(&self, f: &mut fmt::Formatter<'_>) -> fmt::Result {
        let (c, l, v) = (&self.controller, &self.limits, self.version);
        write!(
            f,
            "{}, serial {}, firmware {}, NVMe {}.{}, ",
            c.model,
            c.serial,
            c.firmware,
            v >> 16,
            v >> 8 & 0xff
        )?;
        write!(f, "{} blocks", self.namespace.blocks)?;
        let optional = [
            (c.compare, "Compare"),
            (c.deallocate, "Dataset Management"),
            (c.write_zeroes, "Write Zeroes"),
            (c.write_cache, "write cache"),
        ];
        for (_, words) in optional.iter().filter(|(has, _)| *has) {
            write!(f, ", {words}")?;
        }
        if let Some(blocks) = l.write_zeroes_blocks.filter(|_| c.write_zeroes) {
            write!(f, ", Write Zeroes of at most {blocks} blocks")?;
        }
        if let Some(blocks) = l.range_blocks.filter(|_| c.deallocate) {
            write!(f, ", ranges of at most {blocks} blocks")?;
        }
        Ok(())
    }
}
