//! The server side of vfio-user 0.9, by which QEMU (10.1 and later) and other clients use a device of another process. It knows nothing of NVMe.
//!
//! A [`Device`] says which regions and interrupts there are. A [`Connection`] takes what a client sends, checks it, answers what concerns the protocol alone, and
//! yields one [`Request`] at a time, which is answered with its [`Ticket`]. A client that breaks the stream, does not read or stops in the middle of a message
//! loses its connection by a named [`Error`]; one whose request is only wrong gets an error as its reply. No call waits for a client.
//!
//! ```no_run
//! # use std::sync::Arc;
//! # use nvmed_host::vfio_user::{Answer, Connection, Device, Error, Region, Request};
//! # fn serve(socket: std::os::fd::OwnedFd) -> Result<(), Error> {
//! let device = Arc::new(Device::new(vec![Region::of(4096)], Vec::new()).unwrap_or_default());
//! let mut connection = Connection::new(socket, device)?;
//! loop {
//!     // here the socket is polled for connection.events()
//!     connection.ready(connection.events())?;
//!     while let Some((request, ticket)) = connection.next_request()? {
//!         match request {
//!             Request::RegionRead(read) => connection.answer(ticket, Answer::Data(&vec![0; read.count as usize]))?,
//!             _ => connection.answer(ticket, Answer::Done)?,
//!         }
//!     }
//! }
//! # }
//! ```

mod ancillary;
mod connection;
mod device;
mod inbox;
mod maps;
mod outbox;
mod request;
mod session;
mod version;
pub mod wire;

pub use connection::Connection;
pub use device::{pci_irq, pci_region, Area, Device, DeviceError, Irq, Mapping, Region};
pub use maps::MAPS_MAX;
pub use outbox::UNSENT_MAX;
pub use request::{
    Answer, DmaMap, DmaUnmap, IrqAction, IrqData, RegionRead, RegionWrite, Request, SetIrqs, SmallWrite, Ticket,
};
pub use session::{Error, Session, STALL};
pub use version::{Agreed, VersionError};

#[cfg(test)]
#[path = "../../tests/client/mod.rs"]
pub(crate) mod client;
#[cfg(test)]
mod tests;
