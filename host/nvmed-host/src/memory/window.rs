//! One reserved row of host addresses, with pieces of memory in it.

use std::io;
use std::os::fd::{AsRawFd, BorrowedFd};
use std::ptr;
use std::sync::{Arc, Mutex, OnceLock, PoisonError};

use vm_memory::VolatileSlice;

use super::fault::Watch;

/// Bytes of a page: all addresses and lengths of pieces are multiples of it.
pub const PAGE: u64 = 4096;

/// Host addresses lie below this.
pub const WINDOW_END: u64 = 1 << 47;

/// The most pieces of a window.
pub const MOST_PIECES: usize = 32;

/// The row begins at a multiple of this address of the process, so that a host address that is a multiple of a large page's size may have one.
const ROW_ALIGNMENT: usize = 1 << 30;

/// Why memory cannot be had or mapped.
#[derive(Debug, thiserror::Error)]
pub enum MemoryError {
    /// The length of the whole row is 0, no multiple of 4,096, or above 2^47.
    #[error("{0:#x} bytes are no row of whole pages up to 2^47")]
    NoRow(u64),
    /// The kernel gives no addresses.
    #[error("{bytes:#x} bytes of addresses cannot be reserved: {error}")]
    Reserve {
        /// How many were asked for.
        bytes: u64,
        /// What the kernel said.
        error: io::Error,
    },
    /// A piece is empty, or not of whole pages.
    #[error("a piece of memory is not of whole pages of 4096 bytes: {bytes:#x} at {host:#x}")]
    NoPages {
        /// Its host address.
        host: u64,
        /// Its length.
        bytes: u64,
    },
    /// A piece is not in the row.
    #[error("{bytes:#x} bytes at {host:#x} are not in the reserved row")]
    Outside {
        /// Its host address.
        host: u64,
        /// Its length.
        bytes: u64,
    },
    /// A piece meets another one, and is not the same.
    #[error("two pieces of memory meet at {host:#x}")]
    Meet {
        /// Where both have a byte.
        host: u64,
    },
    /// There are as many pieces as a window can have.
    #[error("the window has {MOST_PIECES} pieces already, or the process watches too many")]
    TooMany,
    /// A file or zeros cannot be mapped.
    #[error("{bytes:#x} bytes of memory cannot be mapped: {error}")]
    Map {
        /// The piece's length.
        bytes: u64,
        /// What the kernel said.
        error: io::Error,
    },
}

/// A piece of the window.
#[derive(Clone, Copy, Debug, PartialEq, Eq)]
pub struct Piece {
    /// The host address of its first byte.
    pub host: u64,
    /// Its length in bytes.
    pub bytes: u64,
}

#[derive(Debug)]
struct Watched {
    piece: Piece,
    watch: Watch,
}

/// A reserved row of host addresses. A host address is an offset from the row's begin, and it is the address by which a drive names the byte. Only the
/// pieces that were put into it have memory; an access between them ends the program.
///
/// A piece keeps its place for ever; what is mapped there may be replaced by other memory of the same length, while others access it: each access meets
/// the one or the other.
#[derive(Debug)]
pub struct Window {
    base: *mut u8,
    bytes: u64,
    pieces: [OnceLock<Watched>; MOST_PIECES],
    changing: Mutex<()>,
}

// SAFETY: the row belongs to this value alone and stays until it is dropped; its bytes are given out as volatile slices only, for which any thread may
// access them at any time. The table of pieces is made of `OnceLock`s.
unsafe impl Send for Window {}
// SAFETY: as above; changes are made under a lock.
unsafe impl Sync for Window {}

impl Window {
    /// Reserves `bytes` bytes of addresses: a multiple of 4,096, not 0, at most 2^47. It takes no memory.
    ///
    /// Errors: [`MemoryError::NoRow`], [`MemoryError::Reserve`].
    pub fn reserve(bytes: u64) -> Result<Arc<Self>, MemoryError> {
        if bytes == 0 || bytes % PAGE != 0 || bytes > WINDOW_END {
            return Err(MemoryError::NoRow(bytes));
        }
        let length = usize::try_from(bytes).map_err(|_| MemoryError::NoRow(bytes))?;
        let base = reserve_aligned(length).map_err(|error| MemoryError::Reserve { bytes, error })?;
        Ok(Arc::new(Self {
            base,
            bytes,
            pieces: [const { OnceLock::new() }; MOST_PIECES],
            changing: Mutex::new(()),
        }))
    }

    /// Where host address 0 lies in this process.
    pub fn base(&self) -> *mut u8 {
        self.base
    }

    /// Bytes of the whole row: host addresses are below.
    pub fn bytes(&self) -> u64 {
        self.bytes
    }

    /// Puts `bytes` bytes of a file, from `offset` on, at the host address `host`, shared with whoever has the file. A new piece comes into being, or
    /// that very piece gets other memory. The file is not kept open.
    ///
    /// Errors: all but [`MemoryError::NoRow`] and [`MemoryError::Reserve`]; the window is as it was then.
    pub fn map_file(&self, host: u64, bytes: u64, file: BorrowedFd<'_>, offset: u64) -> Result<(), MemoryError> {
        let offset = libc::off_t::try_from(offset).map_err(|_| MemoryError::Map {
            bytes,
            error: io::Error::from_raw_os_error(libc::EOVERFLOW),
        })?;
        self.put(host, bytes, libc::MAP_SHARED, file.as_raw_fd(), offset)
    }

    /// Puts zeros of this process alone at the host address `host`, as [`Window::map_file`] puts a file there. They take memory once they are written.
    ///
    /// Errors: as of [`Window::map_file`].
    pub fn map_zeros(&self, host: u64, bytes: u64) -> Result<(), MemoryError> {
        self.put(
            host,
            bytes,
            libc::MAP_PRIVATE | libc::MAP_ANONYMOUS | libc::MAP_NORESERVE,
            -1,
            0,
        )
    }

    /// `len` bytes from the host address `host` on, for accesses that take them as ones that others may write; `None` where `len` is 0, or where not all
    /// of them are in one piece. Pieces that touch stay two.
    pub fn slice(&self, host: u64, len: usize) -> Option<VolatileSlice<'_>> {
        let bytes = u64::try_from(len).ok()?;
        let found = self.piece_at(host)?.piece;
        if bytes == 0 || bytes > found.bytes - (host - found.host) {
            return None;
        }
        let offset = usize::try_from(host).ok()?;
        // SAFETY: the `len` bytes at `offset` are in a piece, which has memory of this process from `map_file` or `map_zeros` on until the window is
        // dropped; the slice borrows the window. Nobody makes a reference to these bytes: they are given out as volatile slices alone.
        Some(unsafe { VolatileSlice::new(self.base.add(offset), len) })
    }

    /// The pieces, in the order in which they were put there.
    pub fn pieces(&self) -> Vec<Piece> {
        self.all().map(|w| w.piece).collect()
    }

    /// How many accesses of the piece that has the host address `host` were answered by zeros, since it got its memory (see [`super::fault`]): where it
    /// is not 0 the piece's file was cut off, or has no pages. 0, too, where there is no such piece.
    pub fn faults(&self, host: u64) -> u32 {
        self.piece_at(host).map_or(0, |w| w.watch.faults())
    }

    fn all(&self) -> impl Iterator<Item = &Watched> {
        self.pieces.iter().map_while(OnceLock::get)
    }

    fn piece_at(&self, host: u64) -> Option<&Watched> {
        self.all()
            .find(|w| host >= w.piece.host && host - w.piece.host < w.piece.bytes)
    }

    fn put(&self, host: u64, bytes: u64, flags: i32, file: i32, offset: libc::off_t) -> Result<(), MemoryError> {
        if bytes == 0 || host % PAGE != 0 || bytes % PAGE != 0 {
            return Err(MemoryError::NoPages { host, bytes });
        }
        if host > self.bytes || bytes > self.bytes - host {
            return Err(MemoryError::Outside { host, bytes });
        }
        let _alone = self.changing.lock().unwrap_or_else(PoisonError::into_inner);
        let new = Piece { host, bytes };
        if let Some(old) = self.all().find(|w| w.piece == new) {
            self.map(new, flags, file, offset)?;
            old.watch.forget();
            return Ok(());
        }
        if let Some(met) = self
            .all()
            .find(|w| w.piece.host < host + bytes && host < w.piece.host + w.piece.bytes)
        {
            return Err(MemoryError::Meet {
                host: host.max(met.piece.host),
            });
        }
        let slot = self
            .pieces
            .iter()
            .find(|slot| slot.get().is_none())
            .ok_or(MemoryError::TooMany)?;
        let start = (self.base as usize).wrapping_add(host as usize);
        // SAFETY: the addresses are in the row, which is this window's until it is dropped, and the watch is dropped with it; accesses are volatile.
        let watch = unsafe { Watch::new(start, bytes as usize) }.map_err(|_| MemoryError::TooMany)?;
        self.map(new, flags, file, offset)?;
        // the lock is held: nobody else has filled the slot
        let _ = slot.set(Watched { piece: new, watch });
        Ok(())
    }

    /// Maps over a piece's place, which lies in the row. Neither a process that is forked nor a core file gets these bytes.
    ///
    /// A mapping at a fixed place that fails may leave a hole there, which any other mapping of the process could fill. So a file is first mapped
    /// elsewhere, to see whether it can be; and what fails nevertheless leaves zeros.
    fn map(&self, piece: Piece, flags: i32, file: i32, offset: libc::off_t) -> Result<(), MemoryError> {
        let length = piece.bytes as usize;
        let failed = |error| MemoryError::Map {
            bytes: piece.bytes,
            error,
        };
        // SAFETY: the place lies in the row, which is this window's alone, and no piece but this very one has a byte there. Whoever has a slice of it
        // accesses it by volatile accesses, which meet the former memory or the new one.
        unsafe {
            if file >= 0 {
                let trial = map_pages(ptr::null_mut(), length, flags, file, offset).map_err(failed)?;
                libc::munmap(trial, length);
            }
            let place = self.base.add(piece.host as usize).cast();
            let mapped = map_pages(place, length, flags | libc::MAP_FIXED, file, offset);
            if mapped.is_err() {
                let zeros = libc::MAP_PRIVATE | libc::MAP_ANONYMOUS | libc::MAP_NORESERVE | libc::MAP_FIXED;
                map_pages(place, length, zeros, -1, 0).map_err(failed)?;
            }
            for advice in [libc::MADV_DONTFORK, libc::MADV_DONTDUMP] {
                // it changes nothing that this process sees; where it is not taken nothing is lost
                libc::madvise(place, length, advice);
            }
            mapped.map(|_| ()).map_err(failed)
        }
    }
}

/// Maps pages that can be read and written.
///
/// # Safety
///
/// With MAP_FIXED the place is the caller's to be mapped over.
unsafe fn map_pages(
    place: *mut libc::c_void,
    length: usize,
    flags: i32,
    file: i32,
    offset: libc::off_t,
) -> io::Result<*mut libc::c_void> {
    // SAFETY: the place is the caller's, or the kernel chooses one where nothing is.
    let at = unsafe { libc::mmap(place, length, libc::PROT_READ | libc::PROT_WRITE, flags, file, offset) };
    if at == libc::MAP_FAILED {
        return Err(io::Error::last_os_error());
    }
    Ok(at)
}

// SAFETY: base and length never change, and the row is there until the window is dropped; a piece has memory from the moment at which `has` sees it until
// then, whatever replaces it (`map`). No reference to its bytes is ever made: they are given out as volatile slices alone.
unsafe impl nvmed::HostMemory for Window {
    fn base(&self) -> *mut u8 {
        self.base
    }

    fn len(&self) -> u64 {
        self.bytes
    }

    fn has(&self, host: u64, bytes: u64) -> bool {
        self.piece_at(host)
            .is_some_and(|w| bytes <= w.piece.bytes - (host - w.piece.host))
    }
}

impl Drop for Window {
    fn drop(&mut self) {
        // the handler has to be done with the addresses before others may get them
        self.pieces = [const { OnceLock::new() }; MOST_PIECES];
        // SAFETY: the row was reserved by `reserve`, and nobody has a slice of it: a slice borrows the window.
        unsafe { libc::munmap(self.base.cast(), self.bytes as usize) };
    }
}

/// Reserves `length` bytes that begin at a multiple of [`ROW_ALIGNMENT`].
fn reserve_aligned(length: usize) -> io::Result<*mut u8> {
    let room = length.checked_add(ROW_ALIGNMENT).ok_or(io::ErrorKind::InvalidInput)?;
    // SAFETY: new addresses, which the kernel chooses: no mapping that is there is touched.
    let start = unsafe {
        libc::mmap(
            ptr::null_mut(),
            room,
            libc::PROT_NONE,
            libc::MAP_PRIVATE | libc::MAP_ANONYMOUS | libc::MAP_NORESERVE,
            -1,
            0,
        )
    };
    if start == libc::MAP_FAILED {
        return Err(io::Error::last_os_error());
    }
    let skipped = (start as usize).next_multiple_of(ROW_ALIGNMENT) - start as usize;
    // SAFETY: `skipped` is below ROW_ALIGNMENT, so that `skipped + length` bytes lie in what was just reserved, and what is before and after them is
    // given back: it is used by nobody.
    unsafe {
        let base = start.cast::<u8>().add(skipped);
        if skipped > 0 {
            libc::munmap(start, skipped);
        }
        libc::munmap(base.add(length).cast(), room - skipped - length);
        Ok(base)
    }
}

#[cfg(test)]
mod tests;
