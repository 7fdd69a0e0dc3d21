#![forbid(unsafe_code)]
//! Which chunks of a file were written since they were last written back.

use std::sync::atomic::{AtomicU64, Ordering};

/// Bytes of a chunk.
pub const CHUNK: u64 = 1 << 22;

/// A bit for each chunk. Nothing that has to be right depends on it: a sync is of the whole file.
pub struct Dirty {
    words: Vec<AtomicU64>,
}

impl Dirty {
    /// No chunk of so many bytes was written.
    pub fn new(bytes: u64) -> Dirty {
        let words = bytes.div_ceil(CHUNK).div_ceil(64);
        Dirty {
            words: (0..words).map(|_| AtomicU64::new(0)).collect(),
        }
    }

    /// The bytes were written.
    pub fn mark(&self, offset: u64, bytes: u64) {
        if bytes == 0 {
            return;
        }
        for chunk in offset / CHUNK..=(offset + (bytes - 1)) / CHUNK {
            let bit = 1 << (chunk % 64);
            if let Some(word) = self.words.get((chunk / 64) as usize) {
                if word.load(Ordering::Relaxed) & bit == 0 {
                    word.fetch_or(bit, Ordering::Relaxed);
                }
            }
        }
    }

    /// The offsets of the chunks that were written, in ascending order. None of them counts as written any more.
    pub fn take(&self) -> Vec<u64> {
        let mut chunks = Vec::new();
        for (i, word) in self.words.iter().enumerate() {
            if word.load(Ordering::Relaxed) == 0 {
                continue;
            }
            let bits = word.swap(0, Ordering::Relaxed);
            chunks.extend(
                (0..64)
                    .filter(|bit| bits >> bit & 1 != 0)
                    .map(|bit| (i as u64 * 64 + bit) * CHUNK),
            );
        }
        chunks
    }
}

#[cfg(test)]
mod tests {
    use super::*;

    #[test]
    fn chunks_are_taken_once() {
        let dirty = Dirty::new(200 * CHUNK + 1);
        assert!(dirty.take().is_empty());
        dirty.mark(5, 0);
        dirty.mark(3 * CHUNK - 1, 2);
        dirty.mark(200 * CHUNK, 1);
        dirty.mark(63 * CHUNK, CHUNK + 1);
        // What is nowhere is no chunk.
        dirty.mark(5000 * CHUNK, 1);
        assert_eq!(dirty.take(), [2, 3, 63, 64, 200].map(|chunk| chunk * CHUNK));
        assert!(dirty.take().is_empty());
    }
}
