#![forbid(unsafe_code)]
//! A guest's memory: its place in the window, its file, and what its machine says of it.

use std::io;
use std::os::fd::{AsFd, OwnedFd};
use std::sync::Arc;

use super::expected::{Expected, MapRequest, Part, Refusal};
use super::file::{FileError, GuestFile, Identity, Trust};
use super::window::{MemoryError, Window};
use crate::machine::Machine;

/// Why a DMA_MAP is refused. The words are for the operator; the client gets an error number ([`MapError::errno`]).
#[derive(Debug, thiserror::Error)]
pub enum MapError {
    /// The part is not as the machine should have it.
    #[error(transparent)]
    Differs(#[from] Refusal),
    /// The client's file cannot be the guest's memory.
    #[error(transparent)]
    File(#[from] FileError),
    /// The file cannot be mapped.
    #[error(transparent)]
    Memory(#[from] MemoryError),
    /// The kernel says nothing of the descriptor.
    #[error("a file of memory cannot be looked at: {0}")]
    Look(io::Error),
}

impl MapError {
    /// The error number of the reply: `EINVAL`, or `ENOMEM` where memory cannot be mapped.
    pub fn errno(&self) -> i32 {
        match self {
            Self::Memory(_) => libc::ENOMEM,
            _ => libc::EINVAL,
        }
    }
}

/// A guest's memory. Its place in the window always has memory: zeros, until there is a file.
#[derive(Debug)]
pub struct GuestMemory {
    window: Arc<Window>,
    host: u64,
    bytes: u64,
    file: Option<GuestFile>,
    adopts: Option<Trust>,
    expected: Expected,
}

impl GuestMemory {
    /// A guest whose file is known: the file is put at the host address `host`.
    ///
    /// Errors: those of [`Window::map_file`].
    pub fn with_file(window: Arc<Window>, machine: Machine, host: u64, file: GuestFile) -> Result<Self, MemoryError> {
        let bytes = file.bytes();
        window.map_file(host, bytes, file.as_fd(), 0)?;
        let expected = Expected::new(machine, bytes, host, Some(file.identity()));
        Ok(Self {
            window,
            host,
            bytes,
            file: Some(file),
            adopts: None,
            expected,
        })
    }

    /// A guest with `bytes` bytes of memory whose file comes with its client's first part of memory.
    ///
    /// Errors: those of [`Window::map_zeros`].
    pub fn adopting(
        window: Arc<Window>,
        machine: Machine,
        host: u64,
        bytes: u64,
        trust: Trust,
    ) -> Result<Self, MemoryError> {
        window.map_zeros(host, bytes)?;
        let expected = Expected::new(machine, bytes, host, None);
        Ok(Self {
            window,
            host,
            bytes,
            file: None,
            adopts: Some(trust),
            expected,
        })
    }

    /// The guest's file, where there is one.
    pub fn file(&self) -> Option<&GuestFile> {
        self.file.as_ref()
    }

    /// The host address at which the guest's memory begins.
    pub fn host(&self) -> u64 {
        self.host
    }

    /// Bytes of the guest's memory.
    pub fn bytes(&self) -> u64 {
        self.bytes
    }

    /// Takes what a DMA_MAP with a descriptor says. Where the guest has no file yet the descriptor's becomes its file, is sealed, and put into the window.
    /// The descriptor is closed, or kept as the guest's file: so this is called in the guest's own thread, as a close may wait for the client.
    ///
    /// Errors: see [`MapError`]; nothing has changed then.
    pub fn map(&mut self, map: &MapRequest, descriptor: OwnedFd) -> Result<Part, MapError> {
        let identity = Identity::of(descriptor.as_fd()).map_err(MapError::Look)?;
        let part = self.expected.holds(map, identity)?;
        if let (None, Some(trust)) = (&self.file, self.adopts) {
            let file = GuestFile::adopt(descriptor, self.bytes, trust)?;
            self.window.map_file(self.host, self.bytes, file.as_fd(), 0)?;
            self.expected.set_file(Some(file.identity()));
            self.file = Some(file);
        }
        self.expected.note(&part)?;
        Ok(part)
    }

    /// Whether all of the machine's memory has been shown on this connection, so that the guest may be served.
    pub fn is_complete(&self) -> bool {
        self.expected.is_complete()
    }

    /// Notes a DMA_MAP without a descriptor, of ROM and the like. It is to be answered with success, and never used. Where QEMU shares its RAM with nobody
    /// that comes so, too, and [`GuestMemory::waits_for`] says what to do.
    pub fn map_without_file(&mut self, address: u64, bytes: u64) {
        self.expected.note_without_file(address, bytes);
    }

    /// The first guest addresses that have not been shown yet, for a message.
    pub fn missing(&self) -> Option<std::ops::Range<u64>> {
        self.expected.missing()
    }

    /// Words for the operator on what has not been shown yet, and what to do: `None` where all has. A machine shows all of its memory as it connects, so
    /// this is worth a line where a guest enables its controller before [`GuestMemory::is_complete`].
    pub fn waits_for(&self) -> Option<String> {
        self.expected.waits_for()
    }

    /// How many accesses of this memory met pages that its file no longer has: where it is not 0 the guest is to be given up.
    pub fn faults(&self) -> u32 {
        self.window.faults(self.host)
    }

    /// Makes ready for the next connection, once the former is over and the guest's commands have run out: a client's file goes, zeros come in its
    /// place, and all of the memory has to be shown anew. A file that was cut off is mapped anew.
    ///
    /// Errors: those of [`Window::map_zeros`] and [`Window::map_file`].
    pub fn restart(&mut self) -> Result<(), MemoryError> {
        self.expected.restart();
        if self.adopts.is_some() {
            if self.file.is_some() {
                self.window.map_zeros(self.host, self.bytes)?;
                self.expected.set_file(None);
                self.file = None;
            }
        } else if let (true, Some(file)) = (self.faults() > 0, &self.file) {
            self.window.map_file(self.host, self.bytes, file.as_fd(), 0)?;
        }
        Ok(())
    }
}

#[cfg(test)]
mod tests;
