#![forbid(unsafe_code)]
//! Where QEMU's machines have their RAM.
//!
//! A guest's memory is one file of `bytes` bytes. Its first part is the machine's RAM from address 0 on; what does not fit below the machine's devices
//! lies from 4 GiB on. The addresses are fixed by the machine's type and size alone, so that they are known before the guest's QEMU connects.
//!
//! The rules are those of QEMU's `hw/i386/pc_q35.c` and `hw/i386/pc_piix.c`, tried with QEMU 11.1.3 at each boundary. They hold for machines without the
//! option `max-ram-below-4g`. QEMU puts RAM of 1,012 GiB and more elsewhere where the processor's model is one of AMD's: such a machine's regions are
//! refused when it connects.

use std::fmt;

/// Where the RAM that does not fit below 4 GiB begins.
pub const HIGH: u64 = 1 << 32;

/// QEMU makes the size of a machine's RAM a multiple of this: a guest that QEMU is to run needs as much.
pub const QEMU_MEMORY_STEP: u64 = 8192;

/// Guest addresses that a machine may show without RAM although they lie in its low region: VGA memory, option ROMs and the BIOS's shadow, from
/// `a0000h` on and below `100000h`. The machine maps and unmaps parts of them as the guest programs its chipset (PAM).
pub const LEGACY_HOLE: std::ops::Range<u64> = 0xa_0000..0x10_0000;

/// A type of machine.
#[derive(Clone, Copy, Debug, Default, PartialEq, Eq)]
pub enum Machine {
    /// QEMU's `q35`, and its versions, such as `pc-q35-9.2`.
    #[default]
    Q35,
    /// QEMU's `pc`, and its versions, such as `pc-i440fx-9.2`.
    Pc,
}

impl Machine {
    /// The machine that a name of QEMU's means, or `None` where it is another one.
    pub fn of_name(name: &str) -> Option<Self> {
        match name {
            "q35" => Some(Self::Q35),
            "pc" => Some(Self::Pc),
            _ if name.starts_with("pc-q35-") => Some(Self::Q35),
            _ if name.starts_with("pc-i440fx-") => Some(Self::Pc),
            _ => None,
        }
    }

    /// QEMU's name of its newest version.
    pub fn name(self) -> &'static str {
        match self {
            Self::Q35 => "q35",
            Self::Pc => "pc",
        }
    }

    /// The size from which on RAM no longer lies below 4 GiB as a whole, in bytes.
    fn split_from(self) -> u64 {
        match self {
            Self::Q35 => 0xb000_0000,
            Self::Pc => 0xe000_0000,
        }
    }

    /// How much of such a RAM lies below 4 GiB, in bytes.
    fn split(self) -> u64 {
        match self {
            Self::Q35 => 0x8000_0000,
            Self::Pc => 0xc000_0000,
        }
    }
}

impl fmt::Display for Machine {
    fn fmt(&self, to: &mut fmt::Formatter<'_>) -> fmt::Result {
        to.write_str(self.name())
    }
}

/// A region of a machine's RAM: a part of the guest's file at guest addresses in a row.
#[derive(Clone, Copy, Debug, PartialEq, Eq)]
pub struct RamRegion {
    /// The guest address of its first byte.
    pub address: u64,
    /// Where that byte lies in the guest's file.
    pub offset: u64,
    /// Its length in bytes, not 0.
    pub bytes: u64,
}

impl RamRegion {
    /// Whether `bytes` bytes from the guest address `address` on lie in this region, all of them.
    pub fn has(&self, address: u64, bytes: u64) -> bool {
        match address.checked_sub(self.address) {
            Some(from) => from <= self.bytes && bytes <= self.bytes - from,
            None => false,
        }
    }
}

/// The regions of a machine with `bytes` bytes of RAM, in ascending order of addresses and offsets: one or two, or none where `bytes` is 0.
pub fn regions(machine: Machine, bytes: u64) -> Vec<RamRegion> {
    let low = if bytes >= machine.split_from() {
        machine.split()
    } else {
        bytes
    };
    let parts = [
        RamRegion {
            address: 0,
            offset: 0,
            bytes: low,
        },
        RamRegion {
            address: HIGH,
            offset: low,
            bytes: bytes - low,
        },
    ];
    parts.into_iter().filter(|region| region.bytes > 0).collect()
}

#[cfg(test)]
mod tests {
    use super::*;

    const MIB: u64 = 1 << 20;

    fn low(bytes: u64) -> Vec<RamRegion> {
        vec![RamRegion {
            address: 0,
            offset: 0,
            bytes,
        }]
    }

    fn split(at: u64, bytes: u64) -> Vec<RamRegion> {
        let first = RamRegion {
            address: 0,
            offset: 0,
            bytes: at,
        };
        vec![
            first,
            RamRegion {
                address: 1 << 32,
                offset: at,
                bytes: bytes - at,
            },
        ]
    }

    /// What `info mtree -f` of QEMU 11.1.3 shows for `-M q35 -m SIZE`. At 2,816 MiB the RAM is split already: the former program had it whole.
    #[test]
    fn q35_splits_from_2816_mib_on() {
        for bytes in [
            4096,
            MIB,
            512 * MIB,
            2048 * MIB,
            2048 * MIB + 4096,
            2815 * MIB,
            2816 * MIB - 8192,
            2816 * MIB - 4096,
        ] {
            assert_eq!(regions(Machine::Q35, bytes), low(bytes), "{bytes:#x}");
        }
        for bytes in [
            2816 * MIB,
            2816 * MIB + 4096,
            2817 * MIB,
            3584 * MIB,
            4096 * MIB,
            5120 * MIB,
            1 << 46,
        ] {
            assert_eq!(regions(Machine::Q35, bytes), split(2048 * MIB, bytes), "{bytes:#x}");
        }
    }

    /// The same for `-M pc`: a Read to 4 GiB of a guest of 4 GiB overwrote another page, since the former program had q35's split.
    #[test]
    fn pc_splits_from_3584_mib_on() {
        for bytes in [
            4096,
            2816 * MIB,
            3071 * MIB,
            3072 * MIB,
            3073 * MIB,
            3583 * MIB,
            3584 * MIB - 4096,
        ] {
            assert_eq!(regions(Machine::Pc, bytes), low(bytes), "{bytes:#x}");
        }
        for bytes in [
            3584 * MIB,
            3584 * MIB + 4096,
            3585 * MIB,
            4096 * MIB,
            5120 * MIB,
            1 << 46,
        ] {
            assert_eq!(regions(Machine::Pc, bytes), split(3072 * MIB, bytes), "{bytes:#x}");
        }
        let four = regions(Machine::Pc, 4096 * MIB);
        assert_eq!(four.last().map(|r| (r.address, r.offset)), Some((1 << 32, 0xc000_0000)));
    }

    /// At any size the regions have the whole file, once, in order, and no two meet.
    #[test]
    fn regions_have_the_whole_file() {
        for machine in [Machine::Q35, Machine::Pc] {
            for bytes in (0..6000).map(|n| n * 1_044_480) {
                let mut offset = 0;
                let mut free = 0;
                for region in regions(machine, bytes) {
                    assert!(region.offset == offset && region.address >= free && region.bytes > 0);
                    offset += region.bytes;
                    free = region.address + region.bytes;
                }
                assert_eq!(offset, bytes);
            }
        }
    }

    #[test]
    fn a_region_has_what_lies_in_it_whole() {
        let region = RamRegion {
            address: 0x1000,
            offset: 0,
            bytes: 0x2000,
        };
        assert!(region.has(0x1000, 0x2000) && region.has(0x2fff, 1) && region.has(0x3000, 0));
        assert!(!region.has(0xfff, 2) && !region.has(0x2fff, 2) && !region.has(0x3001, 0));
        assert!(!region.has(u64::MAX, 1) && !region.has(0x1000, u64::MAX));
    }

    #[test]
    fn names_of_machines() {
        for (name, machine) in [
            ("q35", Some(Machine::Q35)),
            ("pc-q35-9.2", Some(Machine::Q35)),
            ("pc", Some(Machine::Pc)),
            ("pc-i440fx-9.2", Some(Machine::Pc)),
            ("microvm", None),
            ("pc-9", None),
            ("", None),
        ] {
            assert_eq!(Machine::of_name(name), machine, "{name}");
        }
        assert_eq!(Machine::of_name(&Machine::default().to_string()), Some(Machine::Q35));
        assert_eq!(Machine::of_name(Machine::Pc.name()), Some(Machine::Pc));
    }
}
