#![forbid(unsafe_code)]
//! Which commands the drive has, and how those are carried out that it lacks.
//!
//! What guests are told by Identify is the same with each drive: Compare, Write Zeroes and Dataset Management, and zeros in deallocated blocks.

use super::request::Zeroing;
use crate::drive::command::Dataset;
use crate::drive::entry::BLOCK_BYTES;
use crate::drive::nvme::identify::{ControllerPage, Limits, NamespacePage};
use crate::drive::uring::MOST_ZEROS;

/// Blocks that a Write Zeroes can name at most.
const MOST_BLOCKS: u64 = 65_536;

/// What the drive can do of what it need not.
#[derive(Clone, Copy, Debug, PartialEq, Eq)]
pub struct Abilities {
    /// It has Compare. Else the blocks are read and compared here.
    pub compare: bool,
    /// The most blocks of a Write Zeroes, 1 to 65,536, where it has that command. Else zeros are written.
    pub write_zeroes: Option<u32>,
    /// A Write Zeroes may deallocate.
    pub deallocates_zeroes: bool,
    /// What a Dataset Management may have, where it has that command and its deallocated blocks read as zeros. Else blocks are made zero.
    pub dataset: Option<DatasetLimits>,
}

/// What a Dataset Management may have.
#[derive(Clone, Copy, Debug, PartialEq, Eq)]
pub struct DatasetLimits {
    /// Ranges, 1 to 256.
    pub ranges: u32,
    /// Blocks of a range.
    pub range_blocks: u32,
    /// Blocks of all ranges.
    pub blocks: u64,
}

impl DatasetLimits {
    /// Whether the command keeps to them.
    pub fn admit(&self, dataset: &Dataset) -> bool {
        let count = dataset.lengths().count() as u64;
        let longest = dataset.lengths().max().unwrap_or(0);
        let all: u64 = dataset.lengths().map(u64::from).sum();
        count <= u64::from(self.ranges) && longest <= self.range_blocks && all <= self.blocks
    }
}

impl Abilities {
    /// What these pages say. Without `limits`, which drives before NVMe 2.0 have not, a Write Zeroes is no larger than a transfer, as Linux has it.
    pub fn of(controller: &ControllerPage, namespace: &NamespacePage, limits: Option<&Limits>) -> Abilities {
        let most = match limits {
            Some(limits) => limits.write_zeroes_blocks,
            None => controller.most_transfer.map(|bytes| bytes / BLOCK_BYTES),
        };
        let most = most.unwrap_or(MOST_BLOCKS).clamp(1, MOST_BLOCKS) as u32;
        let limits = limits.copied().unwrap_or_default();
        let dataset = DatasetLimits {
            ranges: limits.ranges.map_or(256, u32::from),
            range_blocks: limits.range_blocks.unwrap_or(u32::MAX),
            blocks: limits.dataset_blocks.unwrap_or(u64::MAX),
        };
        Abilities {
            compare: controller.compare,
            write_zeroes: controller.write_zeroes.then_some(most),
            deallocates_zeroes: namespace.zeroes_deallocate,
            dataset: (controller.deallocate && namespace.deallocated_are_zeros).then_some(dataset),
        }
    }

    /// How blocks are made zero, where a command also asks for deallocation or not.
    pub fn zeroing(&self, deallocates: bool) -> Zeroing {
        match self.write_zeroes {
            Some(_) => Zeroing::Command {
                deallocates: deallocates && self.deallocates_zeroes,
            },
            None => Zeroing::Writes,
        }
    }

    /// Bytes that one command makes zero at most.
    pub fn piece(&self) -> u64 {
        self.write_zeroes
            .map_or(MOST_ZEROS, |blocks| u64::from(blocks) * BLOCK_BYTES)
    }

    /// What is done in another way, for the operator.
    pub fn words(&self) -> String {
        let mut words = String::new();
        if !self.compare {
            words.push_str("; Compare by Read");
        }
        if self.write_zeroes.is_none() {
            words.push_str("; Write Zeroes by Write");
        }
        if self.dataset.is_none() {
            let by = self.write_zeroes.map_or("Write", |_| "Write Zeroes");
            words.push_str(&format!("; Dataset Management by {by}"));
        }
        words
    }
}

#[cfg(test)]
mod tests {
    use super::*;

    fn pages() -> (ControllerPage, NamespacePage) {
        let controller = ControllerPage {
            compare: true,
            deallocate: true,
            write_zeroes: true,
            most_transfer: Some(1 << 19),
            ..ControllerPage::default()
        };
        let namespace = NamespacePage {
            blocks: 1024,
            deallocated_are_zeros: true,
            zeroes_deallocate: true,
        };
        (controller, namespace)
    }

    #[test]
    fn a_drive_with_all_commands_does_them_itself() {
        let (controller, namespace) = pages();
        let all = Abilities::of(&controller, &namespace, Some(&Limits::default()));
        assert!(all.compare && all.words().is_empty());
        assert_eq!((all.write_zeroes, all.piece()), (Some(65_536), 65_536 * 512));
        assert_eq!(all.zeroing(true), Zeroing::Command { deallocates: true });
        assert_eq!(all.zeroing(false), Zeroing::Command { deallocates: false });
        let limits = all.dataset.expect("Dataset Management");
        assert_eq!(
            (limits.ranges, limits.range_blocks, limits.blocks),
            (256, u32::MAX, u64::MAX)
        );
    }

    #[test]
    fn limits_are_the_drives() {
        let (mut controller, namespace) = pages();
        let limits = Limits {
            write_zeroes_blocks: Some(2048),
            range_blocks: Some(77),
            ranges: Some(5),
            dataset_blocks: Some(100),
        };
        let said = Abilities::of(&controller, &namespace, Some(&limits));
        assert_eq!((said.write_zeroes, said.piece()), (Some(2048), 1 << 20));
        let of = said.dataset.expect("Dataset Management");
        assert_eq!((of.ranges, of.range_blocks, of.blocks), (5, 77, 100));
        // a drive that says nothing of them
        assert_eq!(Abilities::of(&controller, &namespace, None).write_zeroes, Some(1024));
        controller.most_transfer = None;
        assert_eq!(Abilities::of(&controller, &namespace, None).write_zeroes, Some(65_536));
        let limits = Limits {
            write_zeroes_blocks: Some(1 << 40),
            ..Limits::default()
        };
        let said = Abilities::of(&controller, &namespace, Some(&limits));
        assert_eq!(said.write_zeroes, Some(65_536));
    }

    #[test]
    fn what_a_drive_lacks_is_done_in_another_way() {
        let (mut controller, mut namespace) = pages();
        namespace.deallocated_are_zeros = false;
        let said = Abilities::of(&controller, &namespace, None);
        assert_eq!(
            (said.dataset, said.words()),
            (None, "; Dataset Management by Write Zeroes".into())
        );
        namespace.zeroes_deallocate = false;
        let said = Abilities::of(&controller, &namespace, None);
        assert_eq!(said.zeroing(true), Zeroing::Command { deallocates: false });
        controller.write_zeroes = false;
        controller.compare = false;
        let said = Abilities::of(&controller, &namespace, None);
        assert_eq!((said.zeroing(true), said.piece()), (Zeroing::Writes, 65_536));
        let words = "; Compare by Read; Write Zeroes by Write; Dataset Management by Write";
        assert_eq!(said.words(), words);
    }
}
