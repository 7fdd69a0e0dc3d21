//! What the library exports, and the structs that cross to it: the declarations of `nvmed.h` that this crate uses, word for word.
//!
//! These are the only foreign functions of the crate. The calls that C programs make are inline functions of the header, which test pointers for null
//! and set outputs before the call; what they do has its like in [`Mediator`](crate::Mediator). For no function here may a pointer be null, and a
//! slice is its pointer and its length.

use std::ffi::c_void;

/// `nvmed_handle`: a pointer to the mediator, or null where the handle holds none. Nothing points back to it, so a handle may be moved.
#[repr(C)]
pub(crate) struct Handle {
    pub(crate) hosted: *mut c_void,
}

/// `nvmed_sizes`.
#[repr(C)]
#[derive(Clone, Copy)]
pub(crate) struct Sizes {
    pub(crate) host_bytes: u64,
    pub(crate) mediator: u64,
    pub(crate) disk_blocks: u64,
    pub(crate) lanes: u64,
}

/// `nvmed_region`.
#[repr(C)]
#[derive(Clone, Copy)]
pub(crate) struct Region {
    pub(crate) guest: u64,
    pub(crate) address: u64,
    pub(crate) host: u64,
    pub(crate) bytes: u64,
}

/// `nvmed_extent`.
#[repr(C)]
#[derive(Clone, Copy)]
pub(crate) struct Extent {
    pub(crate) guest: u64,
    pub(crate) base: u64,
    pub(crate) blocks: u64,
}

/// `nvmed_event`.
#[repr(C)]
#[derive(Clone, Copy, Default)]
pub(crate) struct Event {
    pub(crate) kind: u32,
    pub(crate) guest: u32,
    pub(crate) queue: u32,
    pub(crate) lane: u32,
    pub(crate) tag: u32,
    pub(crate) slot: u32,
    pub(crate) status: u32,
    pub(crate) dnr: u32,
    pub(crate) address: u64,
    pub(crate) bytes: u64,
    pub(crate) number: u64,
}

/// `nvmed_lane_rings`.
#[repr(C)]
#[derive(Debug, Clone, Copy, Default)]
pub(crate) struct LaneRings {
    pub(crate) submission: u64,
    pub(crate) completion: u64,
    pub(crate) entries: u32,
    pub(crate) tail: u32,
    pub(crate) head: u32,
    pub(crate) closed: u32,
}

/// `nvmed_standing`.
#[repr(C)]
#[derive(Debug, Clone, Copy, Default, PartialEq, Eq)]
pub(crate) struct Standing {
    pub(crate) size: u16,
    pub(crate) tail: u16,
    pub(crate) head: u16,
    pub(crate) phase: u16,
}

#[cfg(feature = "stub")]
pub(crate) use crate::stub::calls::*;

#[cfg(not(feature = "stub"))]
extern "C" {
    pub(crate) fn nvmed_raw_version() -> u32;
    pub(crate) fn nvmed_raw_serve(
        handle: *mut Handle,
        sizes: *const Sizes,
        limits: *const u32,
        guests: usize,
        regions: *const Region,
        region_count: usize,
        extents: *const Extent,
        extent_count: usize,
        memory: *mut u8,
        bytes: usize,
    ) -> u32;
    pub(crate) fn nvmed_raw_free(handle: *mut Handle) -> u32;
    pub(crate) fn nvmed_raw_store(
        handle: *mut Handle,
        guest: u32,
        address: u64,
        from: *const u8,
        length: usize,
        memory: *mut u8,
        bytes: usize,
    ) -> u32;
    pub(crate) fn nvmed_raw_load(
        handle: *mut Handle,
        guest: u32,
        address: u64,
        room: *mut u8,
        length: usize,
        memory: *const u8,
        bytes: usize,
    ) -> u32;
    pub(crate) fn nvmed_raw_reg_read(
        handle: *mut Handle,
        guest: u32,
        offset: u32,
        value: *mut u32,
        memory: *mut u8,
        bytes: usize,
    ) -> u32;
    pub(crate) fn nvmed_raw_reg_write(
        handle: *mut Handle,
        guest: u32,
        offset: u32,
        value: u32,
        memory: *mut u8,
        bytes: usize,
    ) -> u32;
    pub(crate) fn nvmed_raw_doorbell(
        handle: *mut Handle,
        guest: u32,
        offset: u32,
        value: u32,
        memory: *mut u8,
        bytes: usize,
    ) -> u32;
    pub(crate) fn nvmed_raw_step(handle: *mut Handle, event: *const Event, memory: *mut u8, bytes: usize) -> u32;
    pub(crate) fn nvmed_raw_due(
        handle: *mut Handle,
        event: *const Event,
        due: *mut u32,
        memory: *const u8,
        bytes: usize,
    ) -> u32;
    pub(crate) fn nvmed_raw_work(
        handle: *mut Handle,
        scope: u32,
        number: u32,
        most: u64,
        done: *mut u64,
        memory: *mut u8,
        bytes: usize,
    ) -> u32;
    pub(crate) fn nvmed_raw_rings(handle: *mut Handle, lane: u32, rings: *mut LaneRings) -> u32;
    pub(crate) fn nvmed_raw_pending(handle: *mut Handle, guest: u32, queue: u32, vector: *mut u32) -> u32;
    pub(crate) fn nvmed_raw_posted(
        handle: *mut Handle,
        guest: u32,
        seen: *mut Standing,
        queues: usize,
        vectors: *mut u32,
        count: usize,
    ) -> u32;
    pub(crate) fn nvmed_raw_share(handle: *mut Handle, guest: u32, tags: u32) -> u32;
    pub(crate) fn nvmed_raw_close(handle: *mut Handle, lane: u32, memory: *mut u8, bytes: usize) -> u32;
}
