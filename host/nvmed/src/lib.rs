//! A proved NVMe mediator, as a safe interface to the library `libnvmed`.
//!
//! Guests whose memory lies in a host's share an NVMe drive: each has a virtual controller of its own, with its own blocks. The mediator takes their
//! commands, and puts commands of its own into queues of the drive, so that no guest can read or change what is another's. The library is written in
//! Rattle and proved; what is proved of each call, and under which premises, `nvmed.h` says.
//!
//! [`Mediator`] has the calls. A host makes one over its memory ([`HostMemory`], or [`Mappings`] where it has guests' memories by `vm-memory`) from a
//! [`SetUp`]; makes the lanes' rings ([`Mediator::rings`]) I/O queues of its drive; passes on what guests do with registers and doorbells; does what is
//! due ([`Mediator::work`]); and then writes the drive's doorbells and raises the guests' interrupts. `examples/small_host.rs` is such a host, over a drive
//! that it simulates by [`DriveLane`] and [`Mediator::pump`].
//!
//! # The library
//!
//! `bench/c.sh install PREFIX` installs it, and `NVMED_PREFIX=PREFIX cargo build` takes it from there; else it is where pkg-config finds `nvmed`, or
//! `nvmed-tried`, which is built in minutes and without proofs. [`LIBRARY`] says which it was. With the feature `stub` there is none: functions of this
//! crate take its place, for tests of programs over it.

#![deny(unsafe_op_in_unsafe_fn)]

#[cfg(not(target_pointer_width = "64"))]
compile_error!("the library has addresses and lengths of 64 bits");

mod error;
mod event;
mod interrupts;
mod lane;
mod library;
mod mappings;
mod mediator;
mod memory;
mod rings;
mod setup;
#[cfg(feature = "stub")]
pub mod stub;
mod sys;

pub use error::Error;
pub use event::{Event, Scope, Work, WorkEnd};
pub use interrupts::{Seen, Vectors, VECTORS};
pub use lane::{DriveLane, Entry};
pub use library::{Library, Version, LIBRARY, PROVED};
pub use mappings::Mappings;
pub use mediator::Mediator;
pub use memory::HostMemory;
pub use rings::Rings;
pub use setup::{Extent, GuestSetUp, Region, SetUp};

/// How many bytes of the mediator's area each lane has.
pub const AREA_BYTES_PER_LANE: u64 = 8_663_040;
