//! The part of the window that a real drive may reach.

use std::sync::Arc;

use vm_memory::VolatileSlice;

use super::nvme::DriveMemory;
use crate::memory::{Piece, Window};

/// Some of the window's pieces, or parts of them, as a drive's memory.
#[derive(Debug)]
pub struct Reached {
    window: Arc<Window>,
    pieces: Vec<Piece>,
}

impl Reached {
    /// Those of `pieces` that have memory: each lies in one piece of the window.
    pub fn new(window: Arc<Window>, pieces: Vec<Piece>) -> Self {
        let has = |it: &Piece| usize::try_from(it.bytes).is_ok_and(|len| window.slice(it.host, len).is_some());
        let pieces = pieces.into_iter().filter(has).collect();
        Self { window, pieces }
    }
}

// SAFETY: all of it is the window's, which is kept; each piece was found in one of the window's pieces, which stay as long as the window.
unsafe impl DriveMemory for Reached {
    fn slice(&self, host: u64, len: usize) -> Option<VolatileSlice<'_>> {
        self.window.slice(host, len)
    }

    fn pieces(&self) -> Vec<Piece> {
        self.pieces.clone()
    }

    fn base(&self) -> *mut u8 {
        self.window.base()
    }
}

#[cfg(test)]
mod tests {
    use super::*;

    #[test]
    fn only_what_has_memory_is_reached() {
        let window = Window::reserve(0x10000).unwrap();
        window.map_zeros(0x1000, 0x3000).unwrap();
        let piece = |host, bytes| Piece { host, bytes };
        let asked = vec![piece(0x2000, 0x2000), piece(0x2000, 0x3000), piece(0x8000, 0x1000)];
        let reached = Reached::new(Arc::clone(&window), asked);
        assert_eq!(reached.pieces(), [piece(0x2000, 0x2000)]);
        assert_eq!(reached.base(), window.base());
        assert!(reached.slice(0x1000, 8).is_some());
    }
}
