//! Memory that guests, the mediator and the drive share.
//!
//! [`Window`] is one reserved row of host addresses, into which pieces of memory are put: zeros, or files that QEMU maps, too. [`GuestFile`] is the file
//! that is a guest's memory. [`GuestMemory`] compares what a guest's QEMU says of its memory with what the guest was given, and puts the file into the
//! window. [`fault`] keeps the program going where a file that is mapped was cut off all the same.

pub mod expected;
pub mod fault;
mod file;
mod guest;
mod window;

pub use expected::{Expected, MapRequest, Part, Refusal};
pub(crate) use file::status;
pub use file::{FileError, GuestFile, Identity, Trust};
pub use guest::{GuestMemory, MapError};
pub use window::{MemoryError, Piece, Window, MOST_PIECES, PAGE, WINDOW_END};
