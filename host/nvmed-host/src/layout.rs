#![forbid(unsafe_code)]
//! Where all that guests, the mediator and the drive share lies: host addresses, which are the addresses that the drive uses.
//!
//! Nothing is opened or mapped here. What has an address gets memory from [`memory`](crate::memory), at that address.

use nvmed::{Extent, GuestSetUp, Region, SetUp, AREA_BYTES_PER_LANE};

use crate::config::Config;
use crate::drive::Reach;
use crate::machine::{self, Machine};
use crate::memory::{Piece, PAGE};

/// Below this host address nothing is put: the RAM of a drive's QEMU has holes there.
pub const LOW: u64 = 0x10_0000;

/// Bytes for the drive's admin queue: its submission queue, its completion queue, and a page for data.
pub const ADMIN_BYTES: u64 = 3 * PAGE;

/// What a simulated drive can reach.
pub const ALL: Reach = Reach { from: 0, to: 1 << 46 };

/// A guest's memory begins at a multiple of this, so that it may have large pages.
const LARGE: u64 = 2 << 20;

/// A guest's memory of as much begins at a multiple of this, where there is room.
const HUGE: u64 = 1 << 30;

/// Which host addresses there are.
#[derive(Clone, Copy, Debug)]
pub enum Room<'a> {
    /// Those that the drive can reach, in ascending order: of a simulated one [`ALL`], of a device those of its I/O MMU.
    Reaches(&'a [Reach]),
    /// The RAM of the drive's QEMU: so many bytes of its first part, then the guests' files.
    FirstPart(u64),
}

/// Why there is no place for everything.
#[derive(Clone, Copy, Debug, PartialEq, Eq, thiserror::Error)]
pub enum LayoutError {
    /// The drive cannot reach the program's own memory.
    #[error("the drive cannot reach {bytes:#x} bytes for its queues")]
    NoRoomForOwn {
        /// How many are needed.
        bytes: u64,
    },
    /// The drive cannot reach a guest's memory beside that of the guests before.
    #[error("the drive cannot reach the {bytes:#x} bytes of memory of guest {guest} (line {line}) beside those of the guests before")]
    NoRoomForGuest {
        /// The guest.
        guest: usize,
        /// Its memory.
        bytes: u64,
        /// Its line.
        line: u32,
    },
    /// The first part of the RAM of the drive's QEMU is too short.
    #[error("the file of the drive's memory has {has} bytes, and at least {needed} in whole pages are needed: make its backend larger")]
    FirstPart {
        /// What it has.
        has: u64,
        /// What it needs.
        needed: u64,
    },
    /// The RAM of the drive's QEMU does not lie in a row.
    #[error("the drive's QEMU has {bytes} bytes of memory with the guests', and a machine of type q35 has less than 2816M in a row")]
    Split {
        /// All of its RAM.
        bytes: u64,
    },
}

/// Where everything lies.
#[derive(Clone, Debug, PartialEq, Eq)]
pub struct Layout {
    /// Bytes of the whole row of host addresses: those of the window.
    pub bytes: u64,
    /// The memory that the program has for itself and the drive; where the drive is QEMU's the whole first part of its RAM.
    pub own: Piece,
    /// The host address of [`ADMIN_BYTES`] for the drive's admin queue.
    pub admin: u64,
    /// The host address of the mediator's area.
    pub mediator: u64,
    /// Each guest's memory.
    pub guests: Vec<Piece>,
}

impl Layout {
    /// Finds a place for everything that a configuration names.
    ///
    /// Errors: [`LayoutError`].
    pub fn plan(config: &Config, room: Room<'_>) -> Result<Self, LayoutError> {
        match room {
            Room::Reaches(reaches) => Self::in_reaches(config, reaches),
            Room::FirstPart(bytes) => Self::in_ram(config, bytes),
        }
    }

    /// What the drive may reach: all memory but what lies below [`LOW`].
    pub fn reached(&self) -> Vec<Piece> {
        let from = self.own.host.max(LOW);
        let own = Piece {
            host: from,
            bytes: self.own.host + self.own.bytes - from,
        };
        std::iter::once(own).chain(self.guests.iter().copied()).collect()
    }

    /// The regions of a guest's memory; none where there is no such guest.
    pub fn regions(&self, config: &Config, guest: usize) -> Vec<Region> {
        let (Some(place), Some(of)) = (self.guests.get(guest), config.guests.get(guest)) else {
            return Vec::new();
        };
        machine::regions(of.machine, of.memory)
            .into_iter()
            .map(|r| Region {
                address: r.address,
                host: place.host + r.offset,
                bytes: r.bytes,
            })
            .collect()
    }

    /// What the mediator is made from.
    pub fn set_up(&self, config: &Config) -> SetUp {
        let guests = config.guests.iter().enumerate().map(|(number, guest)| GuestSetUp {
            descriptors: guest.descriptors,
            regions: self.regions(config, number),
            extents: guest
                .extents
                .iter()
                .map(|e| Extent {
                    base: e.base,
                    blocks: e.blocks,
                })
                .collect(),
        });
        SetUp {
            host_bytes: self.bytes,
            mediator: self.mediator,
            disk_blocks: config.blocks(),
            lanes: config.lanes,
            guests: guests.collect(),
        }
    }

    fn in_reaches(config: &Config, reaches: &[Reach]) -> Result<Self, LayoutError> {
        let bytes = own_bytes(config);
        let mut from = LOW;
        let host = place(reaches, &mut from, bytes, PAGE).ok_or(LayoutError::NoRoomForOwn { bytes })?;
        let mut guests = Vec::new();
        for (guest, is) in config.guests.iter().enumerate() {
            let bytes = is.memory;
            let huge = if bytes >= HUGE {
                place(reaches, &mut from, bytes, HUGE)
            } else {
                None
            };
            let error = LayoutError::NoRoomForGuest {
                guest,
                bytes,
                line: is.lines.guest,
            };
            let host = huge.or_else(|| place(reaches, &mut from, bytes, LARGE)).ok_or(error)?;
            guests.push(Piece { host, bytes });
        }
        Ok(Self {
            bytes: from,
            own: Piece { host, bytes },
            admin: host,
            mediator: host + ADMIN_BYTES,
            guests,
        })
    }

    fn in_ram(config: &Config, first: u64) -> Result<Self, LayoutError> {
        let needed = LOW + own_bytes(config);
        if first < needed || first % PAGE != 0 {
            return Err(LayoutError::FirstPart { has: first, needed });
        }
        let mut bytes = first;
        let mut guests = Vec::new();
        for guest in &config.guests {
            guests.push(Piece {
                host: bytes,
                bytes: guest.memory,
            });
            bytes = bytes.saturating_add(guest.memory);
        }
        if machine::regions(Machine::Q35, bytes).len() != 1 {
            return Err(LayoutError::Split { bytes });
        }
        let own = Piece { host: 0, bytes: first };
        Ok(Self {
            bytes,
            own,
            admin: LOW,
            mediator: LOW + ADMIN_BYTES,
            guests,
        })
    }
}

/// What the program needs for itself and the drive, in whole pages.
fn own_bytes(config: &Config) -> u64 {
    ADMIN_BYTES + (u64::from(config.lanes) * AREA_BYTES_PER_LANE).next_multiple_of(PAGE)
}

/// The first place at `from` or after it that begins at a multiple of `step`. Where there is one nothing more is put below its end.
fn place(reaches: &[Reach], from: &mut u64, bytes: u64, step: u64) -> Option<u64> {
    let at = reaches.iter().find_map(|reach| {
        let start = reach.from.max(*from).checked_next_multiple_of(step)?;
        (start <= reach.to && bytes <= reach.to - start).then_some(start)
    })?;
    *from = at + bytes;
    Some(at)
}

#[cfg(test)]
mod tests {
    use super::*;
    use crate::machine::HIGH;

    const GIB: u64 = 1 << 30;

    fn config(text: &str) -> Config {
        Config::parse(text.as_bytes()).unwrap()
    }

    fn two(sizes: [&str; 2]) -> Config {
        let [a, b] = sizes;
        config(&format!(
            "drive vfio 0000:01:00.0\nlanes 3\nguest 0 memory {a} f0\nextent 0 0 8\nlisten 0 a\nguest 1 memory {b} f1\nextent 1 8 9\nextent 1 100 1\nlisten 1 b\nmachine 1 pc\ndescriptors 1 7\n"
        ))
    }

    /// Whether a place of the layout has no byte in common with another one, and all lie in the row.
    fn check(layout: &Layout, config: &Config) {
        let mut places = layout.reached();
        places.sort_by_key(|p| p.host);
        let mut free = LOW;
        for p in &places {
            assert!(p.host >= free && p.host % PAGE == 0 && p.bytes > 0, "{layout:?}");
            free = p.host + p.bytes;
        }
        assert!(free <= layout.bytes && layout.bytes % PAGE == 0);
        assert!(layout.admin >= LOW.max(layout.own.host) && layout.admin + ADMIN_BYTES <= layout.mediator);
        let area = u64::from(config.lanes) * AREA_BYTES_PER_LANE;
        assert!(layout.mediator + area <= layout.own.host + layout.own.bytes);
        assert_eq!((layout.admin % PAGE, layout.mediator % PAGE), (0, 0));
        for (number, guest) in config.guests.iter().enumerate() {
            let sum: u64 = layout.regions(config, number).iter().map(|r| r.bytes).sum();
            assert_eq!((sum, layout.guests[number].bytes), (guest.memory, guest.memory));
        }
    }

    #[test]
    fn a_simulated_drive_reaches_all() {
        let c = two(["512M", "5G"]);
        let layout = Layout::plan(&c, Room::Reaches(&[ALL])).unwrap();
        check(&layout, &c);
        assert_eq!(
            layout.own,
            Piece {
                host: LOW,
                bytes: ADMIN_BYTES + 3 * AREA_BYTES_PER_LANE
            }
        );
        assert_eq!(
            layout.guests,
            [
                Piece {
                    host: 26 << 20,
                    bytes: GIB / 2
                },
                Piece {
                    host: GIB,
                    bytes: 5 * GIB
                }
            ]
        );
        assert_eq!(layout.bytes, 6 * GIB);
    }

    /// The regions are those of the machine: of a pc with 5 GiB 3 GiB lie low.
    #[test]
    fn the_set_up_has_each_machines_regions() {
        let c = two(["2816M", "5G"]);
        let layout = Layout::plan(&c, Room::Reaches(&[ALL])).unwrap();
        let set_up = layout.set_up(&c);
        let [first, second] = [layout.guests[0].host, layout.guests[1].host];
        assert_eq!((set_up.host_bytes, set_up.mediator), (layout.bytes, layout.mediator));
        assert_eq!((set_up.disk_blocks, set_up.lanes), (101, 3));
        assert_eq!(
            set_up.guests[0].regions,
            [
                Region {
                    address: 0,
                    host: first,
                    bytes: 2 * GIB
                },
                Region {
                    address: HIGH,
                    host: first + 2 * GIB,
                    bytes: 768 << 20
                }
            ]
        );
        assert_eq!(
            set_up.guests[1].regions,
            [
                Region {
                    address: 0,
                    host: second,
                    bytes: 3 * GIB
                },
                Region {
                    address: HIGH,
                    host: second + 3 * GIB,
                    bytes: 2 * GIB
                }
            ]
        );
        assert_eq!(
            set_up.guests[1].extents,
            [Extent { base: 8, blocks: 9 }, Extent { base: 100, blocks: 1 }]
        );
        assert_eq!([set_up.guests[0].descriptors, set_up.guests[1].descriptors], [1024, 7]);
        assert!(layout.regions(&c, 2).is_empty());
    }

    /// A device whose I/O MMU keeps a place for interrupts, as on a PC: nothing lies there.
    #[test]
    fn a_device_reaches_ranges() {
        let ranges = [
            Reach {
                from: 0,
                to: 0xfee0_0000,
            },
            Reach {
                from: 0xfef0_0000,
                to: 1 << 39,
            },
        ];
        for sizes in [
            ["4K", "8K"],
            ["3G", "1G"],
            ["4G", "4G"],
            ["1G", "2G"],
            ["3800M", "100M"],
            ["256G", "250G"],
        ] {
            let c = two(sizes);
            let layout = Layout::plan(&c, Room::Reaches(&ranges)).unwrap();
            check(&layout, &c);
            for p in layout.reached() {
                let inside = |r: &Reach| p.host >= r.from && p.host + p.bytes <= r.to;
                assert!(ranges.iter().any(inside), "{sizes:?} {p:?}");
            }
        }
        // there is room for 1 GiB, but not at a multiple of it
        let tight = [Reach {
            from: 0,
            to: GIB + (64 << 20),
        }];
        let layout = Layout::plan(&two(["1G", "4K"]), Room::Reaches(&tight)).unwrap();
        assert_eq!(layout.guests[0].host, 26 << 20);
    }

    #[test]
    fn what_a_drive_cannot_reach_is_refused() {
        let c = two(["1G", "2G"]);
        let reaches = |to| [Reach { from: 0, to }];
        let e = Layout::plan(&c, Room::Reaches(&reaches(2 * GIB))).unwrap_err();
        assert_eq!(
            e,
            LayoutError::NoRoomForGuest {
                guest: 1,
                bytes: 2 * GIB,
                line: 6
            }
        );
        assert!(e.to_string().contains("memory of guest 1 (line 6)"), "{e}");
        let bytes = ADMIN_BYTES + 3 * AREA_BYTES_PER_LANE;
        let own = LayoutError::NoRoomForOwn { bytes };
        assert_eq!(Layout::plan(&c, Room::Reaches(&reaches(LOW + bytes - 1))), Err(own));
        assert_eq!(Layout::plan(&c, Room::Reaches(&[])), Err(own));
        let e = Layout::plan(&c, Room::Reaches(&reaches(LOW + bytes))).unwrap_err();
        assert_eq!(
            e,
            LayoutError::NoRoomForGuest {
                guest: 0,
                bytes: GIB,
                line: 3
            }
        );
        let last = [Reach {
            from: u64::MAX - 5,
            to: u64::MAX,
        }];
        assert_eq!(Layout::plan(&c, Room::Reaches(&last)), Err(own));
    }

    #[test]
    fn the_ram_of_a_drives_qemu() {
        let c = config("drive qemu s m\nguest 0 memory 1G a\nextent 0 0 1\nlisten 0 a\nguest 1 memory 12K b\nextent 1 1 1\nlisten 1 b\n");
        let first = 64 << 20;
        let layout = Layout::plan(&c, Room::FirstPart(first)).unwrap();
        check(&layout, &c);
        assert_eq!(layout.own, Piece { host: 0, bytes: first });
        assert_eq!((layout.admin, layout.mediator), (LOW, LOW + ADMIN_BYTES));
        assert_eq!(
            layout.guests,
            [
                Piece {
                    host: first,
                    bytes: GIB
                },
                Piece {
                    host: first + GIB,
                    bytes: 12288
                }
            ]
        );
        assert_eq!(layout.bytes, first + GIB + 12288);
        assert_eq!(
            layout.reached()[0],
            Piece {
                host: LOW,
                bytes: first - LOW
            }
        );
        let needed = LOW + ADMIN_BYTES + AREA_BYTES_PER_LANE;
        assert!(Layout::plan(&c, Room::FirstPart(needed)).is_ok());
        for has in [0, needed - PAGE, needed + 1] {
            assert_eq!(
                Layout::plan(&c, Room::FirstPart(has)),
                Err(LayoutError::FirstPart { has, needed })
            );
        }
        // from 2,816 MiB on a part of it lies from 4 GiB on
        let most = (2816 << 20) - GIB - 12288;
        assert!(Layout::plan(&c, Room::FirstPart(most - PAGE)).is_ok());
        let split = LayoutError::Split { bytes: 2816 << 20 };
        assert_eq!(Layout::plan(&c, Room::FirstPart(most)), Err(split));
    }
}
