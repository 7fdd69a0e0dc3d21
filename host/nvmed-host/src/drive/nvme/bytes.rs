#![forbid(unsafe_code)]
//! Numbers in pages and entries, least significant byte first. What lies beyond the end reads as 0.

/// The byte at `at`.
pub fn get8(bytes: &[u8], at: usize) -> u8 {
    bytes.get(at).copied().unwrap_or(0)
}

/// 16 bits at `at`.
pub fn get16(bytes: &[u8], at: usize) -> u16 {
    u16::from_le_bytes([get8(bytes, at), get8(bytes, at.saturating_add(1))])
}

/// 32 bits at `at`.
pub fn get32(bytes: &[u8], at: usize) -> u32 {
    u32::from(get16(bytes, at)) | u32::from(get16(bytes, at.saturating_add(2))) << 16
}

/// 64 bits at `at`.
pub fn get64(bytes: &[u8], at: usize) -> u64 {
    u64::from(get32(bytes, at)) | u64::from(get32(bytes, at.saturating_add(4))) << 32
}

/// Puts bytes at `at`, as far as there is room.
pub fn put(bytes: &mut [u8], at: usize, value: &[u8]) {
    if let Some(end) = at.checked_add(value.len()) {
        if let Some(place) = bytes.get_mut(at..end) {
            place.copy_from_slice(value);
        }
    }
}
