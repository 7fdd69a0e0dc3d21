//! The parts of `nvmed-host`: virtual machines with unmodified drivers share an NVMe drive through the proved mediator.
//!
//! A module has one task. None of this is proved: what a guest, its QEMU or a drive sends is checked where it enters.

pub mod board;
pub mod config;
pub mod control;
pub mod ctl;
pub mod doorbells;
pub mod drive;
pub mod figures;
pub mod guest;
pub mod host;
pub mod interrupts;
pub mod layout;
pub mod log;
pub mod machine;
pub mod mediation;
pub mod memory;
pub mod pci;
pub mod process;
pub mod signals;
pub mod statistics;
pub mod vfio_user;
