//! The window as drives use it.

use std::sync::atomic::Ordering;

use vm_memory::{Bytes, VolatileSlice};

use crate::drive::DriveError;
use crate::memory::{Piece, Window};

/// Bytes of a page.
pub const PAGE: u64 = 4096;

/// Memory that a drive shares with mediator and guests, by host address. Others write it at any time, so each byte is read once.
///
/// # Safety
///
/// All of the [`DriveMemory::pieces`], from [`DriveMemory::base`] on, is mapped memory that can be read and written and that nobody takes for its own,
/// as long as this value lives: a device may be given it.
pub unsafe trait DriveMemory: Send + Sync {
    /// The `len` bytes from a host address on, or `None` where not all of them have memory.
    fn slice(&self, host: u64, len: usize) -> Option<VolatileSlice<'_>>;

    /// Where there is memory.
    fn pieces(&self) -> Vec<Piece>;

    /// Where host address 0 lies in this process.
    fn base(&self) -> *mut u8;
}

// SAFETY: pieces of a window keep their places until it is dropped, and all accesses are volatile.
unsafe impl DriveMemory for Window {
    fn slice(&self, host: u64, len: usize) -> Option<VolatileSlice<'_>> {
        Window::slice(self, host, len)
    }

    fn pieces(&self) -> Vec<Piece> {
        Window::pieces(self)
    }

    fn base(&self) -> *mut u8 {
        Window::base(self)
    }
}

/// Whether `len` bytes from `host` on have memory.
pub fn is_there(memory: &dyn DriveMemory, host: u64, len: u64) -> bool {
    usize::try_from(len).is_ok_and(|len| memory.slice(host, len).is_some())
}

fn outside(host: u64) -> DriveError {
    DriveError::Failed(format!("host address {host:#x} is not in the window"))
}

/// Copies bytes from the window.
pub fn load(memory: &dyn DriveMemory, host: u64, to: &mut [u8]) -> Result<(), DriveError> {
    let slice = memory.slice(host, to.len()).ok_or_else(|| outside(host))?;
    slice.read_slice(to, 0).map_err(|_| outside(host))
}

/// Copies bytes into the window.
pub fn store(memory: &dyn DriveMemory, host: u64, from: &[u8]) -> Result<(), DriveError> {
    let slice = memory.slice(host, from.len()).ok_or_else(|| outside(host))?;
    slice.write_slice(from, 0).map_err(|_| outside(host))
}

/// Clears bytes of the window.
pub fn clear(memory: &dyn DriveMemory, host: u64, len: u64) -> Result<(), DriveError> {
    let zeros = [0u8; 4096];
    let mut at = 0;
    while at < len {
        let count = (len - at).min(PAGE);
        let part = zeros.get(..count as usize).unwrap_or(&zeros);
        store(memory, host.checked_add(at).ok_or_else(|| outside(host))?, part)?;
        at += count;
    }
    Ok(())
}

/// Reads an aligned dword at once; what is read after it was not written before it.
pub fn load32(memory: &dyn DriveMemory, host: u64) -> Result<u32, DriveError> {
    let slice = memory.slice(host, 4).ok_or_else(|| outside(host))?;
    slice
        .load::<u32>(0, Ordering::Acquire)
        .map(u32::from_le)
        .map_err(|_| outside(host))
}

/// Writes an aligned dword at once, after all that was stored before.
pub fn store32(memory: &dyn DriveMemory, host: u64, value: u32) -> Result<(), DriveError> {
    let slice = memory.slice(host, 4).ok_or_else(|| outside(host))?;
    slice
        .store(value.to_le(), 0, Ordering::Release)
        .map_err(|_| outside(host))
}

#[cfg(test)]
mod tests {
    use super::*;

    /// A window with one piece: what lies outside of it, even in part, is an error that names the address, and moves nothing.
    #[test]
    fn what_has_no_memory_is_an_error() {
        let window = Window::reserve(0x10_0000).unwrap();
        window.map_zeros(0x1000, 0x2000).unwrap();
        let memory: &dyn DriveMemory = &*window;
        assert_eq!(
            memory.pieces(),
            [Piece {
                host: 0x1000,
                bytes: 0x2000
            }]
        );
        assert_eq!(memory.base(), window.base());
        store(memory, 0x1000, &[0xee; 0x2000]).unwrap();
        store(memory, 0x2ffc, &[1, 2, 3, 4]).unwrap();
        for host in [0, 0xffc, 0x2ffc, 0x3000, 0xf_fffc, 0x10_0000, u64::MAX - 3, u64::MAX] {
            let mut bytes = [9; 8];
            let said = load(memory, host, &mut bytes).unwrap_err().to_string();
            assert_eq!(said, format!("host address {host:#x} is not in the window"));
            assert_eq!(bytes, [9; 8]);
            assert!(store(memory, host, &[7; 8]).is_err() && clear(memory, host, 8).is_err());
            assert!(!is_there(memory, host, 8));
        }
        for host in [0xffc, 0xffe, 0x1001, 0x2ffe, 0x3000, u64::MAX] {
            assert!(
                load32(memory, host).is_err() && store32(memory, host, 7).is_err(),
                "{host:#x}"
            );
        }
        assert!(
            is_there(memory, 0x1000, 0x2000)
                && !is_there(memory, 0x1000, 0x2001)
                && !is_there(memory, 0x1000, u64::MAX)
        );
        assert_eq!(load32(memory, 0x2ffc).unwrap(), 0x0403_0201);
        let mut all = [0; 0x2000];
        load(memory, 0x1000, &mut all).unwrap();
        assert!(all[..0x1ffc].iter().all(|byte| *byte == 0xee));
        clear(memory, 0x1000, 0x1ffc).unwrap();
        load(memory, 0x1000, &mut all).unwrap();
        assert!(all[..0x1ffc].iter().all(|byte| *byte == 0) && all[0x1ffc..] == [1, 2, 3, 4]);
    }
}
